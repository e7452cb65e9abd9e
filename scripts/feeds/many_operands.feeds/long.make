#!/bin/sh
# Chains of 100,000 operands over rows, in queries, in a view's body and in a policy's query.
more() {
  yes -- "$2" | head -n "$1" | tr '\n' ' '
}
cat <<'ASKED'
.create table T (v:long)

.create table P (v:long)

ASKED
printf ".create materialized-view V on table T { T | where v == 0 %s or v == 2 | summarize n = count() by v }\n\n" "$(more 99998 'or v == 0')"
printf ".alter table P policy update '[{\"Source\":\"T\",\"Query\":\"T | project v = v %s\"}]'\n\n" "$(more 100000 '+ 1')"
cat <<'ASKED'
.ingest inline into table T <|
1
2
3

V

P | sort by v asc

ASKED
printf 'T | where v == 0 %s or v == 2\n\n' "$(more 99998 'or v == 0')"
printf 'print n = 1 %s\n' "$(more 99999 '+ 1')"
