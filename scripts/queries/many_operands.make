#!/bin/sh
# Chains of 9,000 and of 100,000 operands, in queries, in a view's body and in a policy's query: no number of operands is too deep.
more() {
  yes -- "$2" | head -n "$1" | tr '\n' ' '
}
cat <<'ASKED'
.create table T (v:long)

.create table P (v:long)

ASKED
printf ".create materialized-view V on table T { T | where v == 0 %s or v == 2 | summarize n = count() by v }\n\n" "$(more 99998 'or v == 0')"
printf ".alter table P policy update '[{\"Source\":\"T\",\"Query\":\"T | project v = v %s\"}]'\n\n" "$(more 100000 '+ 1')"
cat <<'ASKED'
.ingest inline into table T <|
1
2
3

V

P | sort by v asc

ASKED
printf 'print n = 1 %s\n\n' "$(more 8999 '+ 1')"
printf 'print n = 1 %s\n\n' "$(more 99999 '+ 1')"
printf 'print n = 100000 %s\n\n' "$(more 99999 '- 1')"
printf 'print n = 1 %s\n\n' "$(more 50000 '* 2 / 2')"
printf 'print n = int(1) %s, m = int(1) %s + 1\n\n' "$(more 99999 '+ int(1)')" "$(more 99998 '+ int(1)')"
printf 'print n = dynamic({"a":7}).a, m = isnull(dynamic({"a":7})%s)\n\n' "$(more 100000 '.a' | tr -d ' ')"
printf 'T | where v == 0 %s or v == 2\n\n' "$(more 99998 'or v == 0')"
printf 'T | where v == 3 %s\n\n' "$(more 99999 'and v == 3')"
printf 'print n = 9223372036854775807 %s\n' "$(more 100000 '+ 1')"
