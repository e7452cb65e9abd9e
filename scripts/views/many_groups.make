#!/bin/sh
# Ten batches make 100,000 groups, which are folded; a last one finds each tenth group again and makes ten more.
echo '.create table E (k:long, v:long)'
echo
echo '.create materialized-view V on table E { E | summarize n = count(), s = sum(v) by k }'
echo
for batch in 0 1 2 3 4 5 6 7 8 9; do
  echo '.ingest inline into table E <|'
  seq "$((batch * 10000 + 1))" "$((batch * 10000 + 10000))" | sed 's/.*/&,&/'
  echo
done
echo '#fold V'
echo
echo '.ingest inline into table E <|'
seq 10 10 100100 | sed 's/.*/&,1/'
cat <<'ASKED'

V | count

V | summarize groups = count(), n = sum(n), s = sum(s)

V | where k == 100000 or k == 100010 or k == 99999 | sort by k asc

materialized_view('V') | summarize groups = count(), n = sum(n), s = sum(s)

E | summarize n = count(), s = sum(v) by k | summarize groups = count(), n = sum(n), s = sum(s)

#fold V

materialized_view('V') | summarize groups = count(), n = sum(n), s = sum(s)
ASKED
