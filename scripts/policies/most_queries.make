#!/bin/sh
# 1024 queries run in one ingestion: 16 into B, for each of its batches 9 into C, and for each of these 6 into D. One more is too many,
# whatever its entry says.
entries() {
  for entry in $(seq "$2"); do
    printf '%s{"Source":"%s","Query":"%s"}' "$([ "$entry" = 1 ] || echo ,)" "$1" "$1"
  done
}
for table in A B C D E; do
  echo ".create table $table (v:long)"
  echo
done
echo ".alter table B policy update '[$(entries A 16)]'"
echo
echo ".alter table C policy update '[$(entries B 9)]'"
echo
echo ".alter table D policy update '[$(entries C 6)]'"
cat <<'ASKED'

.ingest inline into table A <|
1

A | count

B | count

C | count

D | count

.alter table E policy update '[{"Source":"A","Query":"A"}]'

.ingest inline into table A <|
1

.alter table E policy update '[{"IsEnabled":false,"Source":"A","Query":"A"}]'

.ingest inline into table A <|
1

A | count

D | count

.show ingestion failures
ASKED
