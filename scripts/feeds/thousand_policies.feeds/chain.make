#!/bin/sh
# T1 to T1000. Each but the first takes what comes into the one before it, the last one twice, and adds 1.
add='"Query":"T%d | project v = v + 1","IsTransactional":true'
for table in $(seq 1000); do
  printf '.create table T%d (v:long)\n\n' "$table"
done
for table in $(seq 2 1000); do
  source=$((table - 1))
  entry=$(printf "{\"Source\":\"T%d\",$add}" "$source" "$source")
  [ "$table" != 1000 ] || entry=$entry,$entry
  printf ".alter table T%d policy update '[%s]'\n\n" "$table" "$entry"
done
cat <<'ASKED'
.ingest inline into table T1 <|
0

T1

T2

T999

T1000

.show table T1000 extents

.show ingestion failures
ASKED
