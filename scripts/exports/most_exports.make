#!/bin/sh
# There are 64 exports at most. What else is wrong with one more is said first, and those that stand go on.
echo '.create table E (k:long)'
echo
for number in $(seq 64); do
  echo "#export X$number over E { E }"
  echo
done
cat <<'ASKED'
#export X65 over E { E }

#export X65 over Nowhere { E }

#export X65 over E { E | where z == 1 }

#export X65 over E { print a = now() }

#export X64 over E { E }

#export X64 over E { E | count }

#export X65

.ingest inline into table E <|
7

#export X1

#export X64

#export X65 over E { E }
ASKED
