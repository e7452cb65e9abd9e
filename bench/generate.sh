#!/usr/bin/env bash
# generate.sh [ROWS]: the generated script of ROWS (1000000) rows, in batches of 1000, of which every tenth is followed by a fold and a merge, without workers
# and with one, two and four. It tells the wall time, the most memory that the process held, and the time of the last query, which asks the view for the
# sum of its groups; each is the median of five runs, and stands beside that without workers. The time of the query is that between two replies, read off
# the output, of the runs where they came apart. The program has to be built (.ci/run does it).
set -eu
top=$(cd "$(dirname "$0")/.." && pwd)
python3 - "$top/crates/kq_console/out/kq_console" "${1:-1000000}" <<'PY'
import os, statistics, subprocess, sys, time

program, rows = sys.argv[1], int(sys.argv[2])
total = rows * (rows - 1) // 2


def run(workers):
    """The wall time, the most memory in MB and the time of the last query, or None where its reply came with the one before it."""
    begin = time.perf_counter()
    words = [program, "--workers", str(workers), "--generate", str(rows)]
    child = subprocess.Popen(words, stdin=subprocess.DEVNULL, stdout=subprocess.PIPE)
    text, came = b"", []
    while piece := os.read(child.stdout.fileno(), 65536):
        came += [time.perf_counter()] * ((text[-1:] + piece).count(b"\n\n"))
        text += piece
    _, status, used = os.wait4(child.pid, 0)
    wall = time.perf_counter() - begin
    if status != 0 or not text.endswith(f"\n{total}\t{min(rows, 10)}\n\n".encode()):
        sys.exit(f"the program ended with status {status} and {text[-100:]}")
    return wall, used.ru_maxrss / 1024, came[-1] - came[-2] or None


print(f"{'workers':>8} {'s':>8} {'of none':>8} {'MB':>8} {'of none':>8} {'query ms':>9} {'of none':>8}")
none = None
for workers in (0, 1, 2, 4):
    wall, memory, query = (statistics.median(told for told in each if told) for each in zip(*(run(workers) for _ in range(5))))
    none = none or (wall, memory, query)
    print(f"{workers:>8} {wall:>8.3f} {wall / none[0]:>8.2f} {memory:>8.1f} {memory / none[1]:>8.2f} {query * 1000:>9.3f} {query / none[2]:>8.2f}")
PY
