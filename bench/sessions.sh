#!/usr/bin/env bash
# Puts 8 times 100 batches of 100 rows into one table, by one session and by eight, on one, two and four processors, and prints
# the wall time. Each batch takes the lock twice: once for its snapshot, once to be put in. The program has to be built.
set -eu
top=$(cd "$(dirname "$0")/.." && pwd)
program=$top/crates/kq_console/out/kq_console
folder=$(mktemp -d)
trap 'rm -rf "$folder"' EXIT

make_script() { # BATCHES
  awk -v batches="$1" 'BEGIN {
    print ".create table E (k:long, v:long)\n"
    for (b = 0; b < batches; b++) {
      print ".ingest inline into table E <|"
      for (r = 0; r < 100; r++) print b * 100 + r "," r
      print ""
    }
  }'
}

make_script 800 >"$folder/one"
make_script 100 >"$folder/main"
for i in 1 2 3 4 5 6 7; do make_script 100 >"$folder/feed$i"; done

run() { # PROCESSORS WORD ..
  taskset -c "0-$(($1 - 1))" "$program" "${@:2}" >/dev/null
}

cd "$folder"
TIMEFORMAT=%R
printf '%11s %9s %8s %14s\n' processors sessions seconds 'takes of lock'
for processors in 1 2 4; do
  [ "$processors" -le "$(nproc)" ] || continue
  seconds=$({ time run "$processors" <one; } 2>&1)
  printf '%11d %9d %8s %14d\n' "$processors" 1 "$seconds" $((2 * 801))
  seconds=$({ time run "$processors" feed1 feed2 feed3 feed4 feed5 feed6 feed7 <main; } 2>&1)
  printf '%11d %9d %8s %14d\n' "$processors" 8 "$seconds" $((2 * 808))
done
