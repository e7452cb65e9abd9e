#!/usr/bin/env bash
# Batches of 1048576 rows, the most that a batch may have, with a first record that is ignored and without; of a row more; and of a record
# that is too wide behind them: the first row too many, and the one behind that.
rows() {
  yes 1 | head -n "$1"
}
echo '.create table E (k:long)'
echo
for first in 'E <|' 'E with (ignoreFirstRecord=true) <|
k'; do
  echo ".ingest inline into table $first"
  rows 1048576
  echo
  echo ".ingest inline into table $first"
  rows 1048577
  echo
done
echo '.ingest inline into table E <|'
rows 1048576
echo '3,3'
echo
echo '.ingest inline into table E <|'
rows 1048577
echo '4,4'
echo
echo 'E | count'
