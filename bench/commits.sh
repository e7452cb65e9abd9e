#!/usr/bin/env bash
# Puts batches of one row into one table, and prints the time a batch at three lengths of the history: the program answers each
# command at once, so that the time between two replies is read off its output. The program has to be built (.ci/run does it).
set -eu
top=$(cd "$(dirname "$0")/.." && pwd)
program=$top/crates/kq_console/out/kq_console
script=$(mktemp)
trap 'rm -f "$script"' EXIT

awk 'BEGIN {
  print ".create table E (k:long, v:long)\n"
  for (b = 0; b < 101000; b++) print ".ingest inline into table E <|\n" b "," b "\n"
}' >"$script"

python3 - "$program" "$script" <<'PY'
import subprocess, sys, time

marks = [1_000, 10_000, 100_000]
window = 1_000
with open(sys.argv[2]) as stdin:
    child = subprocess.Popen([sys.argv[1]], stdin=stdin, stdout=subprocess.PIPE)
    at, seen, bounds = {}, 0, {m - window // 2 for m in marks} | {m + window // 2 for m in marks}
    for line in child.stdout:
        if line.startswith(b"ingested"):
            seen += 1
            if seen in bounds:
                at[seen] = time.perf_counter()
assert seen == 101_000, seen
first = None
print(f"{'batches before':>15} {'us a batch':>11} {'against first':>14}")
for mark in marks:
    each = (at[mark + window // 2] - at[mark - window // 2]) / window * 1e6
    first = first or each
    print(f"{mark:>15} {each:>11.2f} {each / first:>14.2f}")
PY
