#!/usr/bin/env bash
# workers.sh [BATCHES]: puts 8 times BATCHES (200) batches of 100 rows into one table with a view, by eight sessions (standard input and seven feeds),
# without workers and with two, and tells the wall time, the best of five, beside that without workers. Then it looks at the table's extents, of which those of fewer
# than 4096 rows are small: when all n batches are answered, and how long it takes from then until fewer than 2 + n/64 are small, and fewer than 2. The
# program has to be built (.ci/run does it).
set -eu
top=$(cd "$(dirname "$0")/.." && pwd)
python3 - "$top/crates/kq_console/out/kq_console" "${1:-200}" <<'PY'
import os, subprocess, sys, tempfile, time

program = os.path.realpath(sys.argv[1])
sessions, batches, rows = 8, int(sys.argv[2]), 100
most = 2 + sessions * batches // 64
small = 4096
feeds = [f"feed{i}" for i in range(1, sessions)]
table = ".create table E (k:long, v:long)\n\n"
view = ".create ifnotexists materialized-view V on table E { E | summarize n = count(), s = sum(v) by g = k % 10 }\n\n"


def script(session):
    batch = [f"{session * rows + row},{row}\n" for row in range(rows)]
    return table + view + (".ingest inline into table E <|\n" + "".join(batch) + "\n") * batches


def words(workers):
    return [program, "--workers", str(workers), *feeds]


def timed(workers):
    for feed in feeds:
        if os.path.exists(f"{feed}.out"):
            os.remove(f"{feed}.out")
    with open("main") as main:
        begin = time.perf_counter()
        subprocess.run(words(workers), stdin=main, stdout=subprocess.DEVNULL, check=True)
    return time.perf_counter() - begin


def answered(path):
    with open(path, "rb") as out:
        return out.read().count(b"\n\n")


def extents(child):
    """How many extents there are, and how many small ones."""
    child.stdin.write(b".show table E extents\n\n")
    child.stdin.flush()
    while not (line := child.stdout.readline()).startswith(b"rows "):
        pass
    child.stdout.readline()
    held = [int(child.stdout.readline().split(b"\t")[1]) for _ in range(int(line.split()[1]))]
    assert sum(held) == sessions * batches * rows, sum(held)
    return len(held), sum(1 for count in held if count < small)


def looked(workers):
    for feed in feeds:
        open(f"{feed}.out", "w").close()
    child = subprocess.Popen(words(workers), stdin=subprocess.PIPE, stdout=subprocess.PIPE)
    child.stdin.write(script(0).encode())
    child.stdin.flush()
    for _ in range(batches):
        while not child.stdout.readline().startswith(b"ingested"):
            pass
    while any(answered(f"{feed}.out") < batches + 2 for feed in feeds):
        time.sleep(0.001)
    begin, told = time.perf_counter(), []
    while not told or (workers and told[-1][2] > 1):
        told.append((time.perf_counter() - begin, *extents(child)))
    child.stdin.close()
    assert child.wait() == 0
    return told


with tempfile.TemporaryDirectory() as folder:
    os.chdir(folder)
    for i, name in enumerate(["main", *feeds]):
        with open(name, "w") as file:
            file.write(script(i))
    runs = [(timed(0), timed(2)) for _ in range(5)]
    none, two = min(run[0] for run in runs), min(run[1] for run in runs)
    print(f"{sessions} sessions of {batches} batches: {none:.3f} s without workers, {two:.3f} s with two: {two / none:.2f} times")
    for workers in (0, 2):
        told = looked(workers)
        print(f"{workers} workers: {told[0][1]} extents when all are answered, {told[0][2]} of them small")
    few = next(at for at, _, count in told if count < most)
    print(f"fewer than 2 + n/64 = {most} are small {few:.3f} s later; {told[-1][2]} of {told[-1][1]} {told[-1][0]:.3f} s later")
PY
