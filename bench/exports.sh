#!/usr/bin/env bash
# exports.sh [RANGES [RECORDS]]: exports RANGES (1000) ranges of RECORDS (1000) records of two longs one after another, and then all these records as one
# range. Beside each stands the time in which the program prints the same query over the same records, and that in which Python writes the same bytes, syncs
# them and gives the file its name: the part of the disk. The files go into a folder below TMPDIR; what a sync costs there is the machine's. The program has
# to be built (.ci/run does it); PROGRAM names another one.
set -eu
top=$(cd "$(dirname "$0")/.." && pwd)
folder=$(mktemp -d)
trap 'rm -rf "$folder"' EXIT
PYTHONPATH=$top/bench python3 -B - "${PROGRAM:-$top/crates/kq_console/out/kq_console}" "$folder" "${1:-1000}" "${2:-1000}" <<'PY'
import asked, os, statistics, sys, time

program, folder, ranges, records = sys.argv[1], sys.argv[2], int(sys.argv[3]), int(sys.argv[4])
# A batch has at most 1,048,576 rows, and an export begins once: three of them give three times for the one range of all records.
batch, times = 10_000, 3


def text(begin, end):
    return "".join(f"{i},{i * 7919 % 1_000_003}\n" for i in range(begin, end))


def ingested(begin, end):
    return ".ingest inline into table E <|\n" + text(begin, end)


def started(*names):
    mine = asked.engine(program, folder)
    mine.ask(".create table E (k:long, v:long)\n\n" + "\n\n".join(f"#export {name} over E {{ E }}" for name in names))
    return mine


def written(content):
    """The seconds in which a file of this content is written, synced and renamed."""
    begin = time.perf_counter()
    with open(f"{folder}/peer.part", "wb") as file:
        file.write(content)
        file.flush()
        os.fsync(file.fileno())
    os.rename(f"{folder}/peer.part", f"{folder}/peer")
    return time.perf_counter() - begin


def newest():
    with open(max((entry.path for entry in os.scandir(folder) if entry.name.endswith(".csv")), key=os.path.getmtime), "rb") as file:
        return file.read()


def peak(mine):
    for line in open(f"/proc/{mine.child.pid}/status"):
        if line.startswith("VmHWM:"):
            return int(line.split()[1]) / 1024
    return 0.0


def checked(count):
    """How many records the files have."""
    found = sum(content.count(b"\n") - 1 for name in os.listdir(folder) if name.endswith(".csv") for content in [open(f"{folder}/{name}", "rb").read()])
    if found != count:
        sys.exit(f"exports.sh: the files have {found} records, and not {count}")


def many():
    """The times of the ranges one after another, of the same query over as many records, and of as many bytes on the disk."""
    mine, few = started("X"), started()
    few.ask(ingested(0, records))
    took, printed, disk = [], [], []
    for at in range(ranges):
        mine.ask(ingested(at * records, (at + 1) * records))
        took.append(mine.ask("#export X"))
        printed.append(few.ask("E"))
        disk.append(written(newest()))
    checked(ranges * records)
    held = peak(mine)
    mine.end()
    few.end()
    growth = statistics.median(took[-50:]) / statistics.median(took[10:60] or took)
    return [statistics.median(each) for each in (took, printed, disk)], held, growth


def one():
    """The same of one range with all records: the least of some times."""
    names = [f"Y{n}" for n in range(times)]
    mine, total = started(*names), ranges * records
    for at in range(0, total, batch):
        mine.ask(ingested(at, min(at + batch, total)))
    for name in os.listdir(folder):
        os.remove(f"{folder}/{name}")
    took = min(mine.ask(f"#export {name}") for name in names)
    held = peak(mine)
    checked(times * total)
    content = newest()
    printed, disk = mine.best("E", times), min(written(content) for _ in range(times))
    mine.end()
    return [took, printed, disk], held, None


print(f"{'a range of':>12} {'export ms':>10} {'print ms':>10} {'of print':>9} {'disk ms':>9} {'peak MiB':>9} {'last of first':>14}")
for count, (seconds, held, growth) in ((records, many()), (ranges * records, one())):
    took, printed, disk = seconds
    print(f"{count:>12} {took * 1000:>10.3f} {printed * 1000:>10.3f} {took / printed:>9.2f} {disk * 1000:>9.3f} {held:>9.0f}"
          f" {f'{growth:.2f}' if growth else '':>14}", flush=True)
PY
