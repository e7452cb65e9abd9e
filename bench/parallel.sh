#!/usr/bin/env bash
# Asks summarizes, counts and rows over rows of two longs, held to one, to two and to four processors by `taskset`: the least of five times from one reply
# to the next.
# The program has to be built (.ci/run does it).
set -eu
top=$(cd "$(dirname "$0")/.." && pwd)
PYTHONPATH=$top/bench python3 -B - "$top/crates/kq_console/out/kq_console" "${1:-1000000}" <<'PY'
import asked, sys

program, rows = sys.argv[1], int(sys.argv[2])
batch = 10_000
load = [".create table E (k:long, v:long)\n"]
for at in range(0, rows, batch):
    load.append(".ingest inline into table E <|\n" + "".join(f"{i},{i * 7919 % rows}\n" for i in range(at, min(at + batch, rows))))
load = "\n".join(load)

queries = {
    "by no key": "E | summarize count(), sum(v) | count",
    "where, by no key": "E | where v % 7 == 3 | summarize count(), sum(v) | count",
    "by 10 keys": "E | summarize count(), sum(v) by g = k % 10 | count",
    "by 1000 keys": "E | summarize count(), sum(v) by g = v % 1000 | count",
    "by 100,000 keys": "E | summarize count(), sum(v) by g = v % 100000 | count",
    "by each v": "E | summarize count(), sum(v) by v | count",
    "where, count": "E | where v % 7 == 3 | count",
    "where, extend, count": "E | where v % 7 == 3 | extend w = v * 2 + k | where w % 2 == 1 | count",
    "where, kept": "E | where v % 7 == 3 | take 1 | count",
    "extend, kept": "E | extend w = v * 2 + k | take 1 | count",
    "by 10 keys, behind a take of 16,384": "E | take 16384 | summarize count(), sum(v) by g = k % 10 | count",
}
held = {"one": "0", "two": "0,1", "four": "0-3"}
engines = {name: asked.Asked(["taskset", "-c", processors, program], "\n\nprint end = 424242\n\n") for name, processors in held.items()}
for engine in engines.values():
    engine.ask(load)
print(f"{'query':>36}" + "".join(f" {name:>8}" for name in engines) + "  of one: two, four")
for name, query in queries.items():
    times = [engine.best(query, 5) for engine in engines.values()]
    print(f"{name:>36}" + "".join(f" {s:>8.4f}" for s in times) + f"  {times[1] / times[0]:.2f}, {times[2] / times[0]:.2f}")
PY
