#!/usr/bin/env bash
# How long a commit holds the lock, by the size of its batch: the instructions that it takes to stage the commit, as valgrind counts
# them, for a batch of 1,000 rows and for one of 1,000,000. Beside that, a few numbers are compared and one handle is put in place under
# the lock. Counts don't depend on what else the machine does. The program has to be built (.ci/run does it).
set -eu
top=$(cd "$(dirname "$0")/.." && pwd)
program=$top/crates/kq_console/out/kq_console
folder=$(mktemp -d)
trap 'rm -rf "$folder"' EXIT

count() { # ROWS: the instructions of staging a new table and then one batch of so many rows
  awk -v rows="$1" 'BEGIN {
    print ".create table E (k:long, v:long)\n"
    print ".ingest inline into table E <|"
    for (r = 0; r < rows; r++) print r "," r
  }' >"$folder/script"
  valgrind --tool=callgrind --callgrind-out-file="$folder/out" --toggle-collect="$stage" "$program" <"$folder/script" >/dev/null 2>&1
  awk '/^(summary|totals):/ { print $2; exit }' "$folder/out"
}

stage=kq_catalog::state::State::with_event
nm "$program" | grep -q " $stage\$" || { echo "lock.sh: the program has no symbol $stage" >&2; exit 1; }
few=$(count 1000)
many=$(count 1000000)
printf '%9s %13s\n' rows instructions 1000 "$few" 1000000 "$many"
awk -v few="$few" -v many="$many" 'BEGIN { printf "to stage 1000000 rows against 1000: %.2f times\n", many / few }'
