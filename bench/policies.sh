#!/usr/bin/env bash
# Puts batches of 1000 rows into a table: without a policy, through one of a filter and a projection, and through one that joins each batch with a table of
# 1000 rows, each batch by three programs in turn, so that the machine's own drift meets all three. A batch without a policy is slower so than where one
# program runs alone, which makes the ratios smaller. Tells the median time a batch, beside that without a policy, and that of the last fifty batches beside
# that of the fifty behind the tenth. The program has to be built (.ci/run does it).
set -eu
top=$(cd "$(dirname "$0")/.." && pwd)
PYTHONPATH=$top/bench python3 -B - "$top/crates/kq_console/out/kq_console" "${1:-1000}" <<'PY'
import asked, statistics, sys

program, batches = sys.argv[1], int(sys.argv[2])
rows = 1000
policies = {
    "no policy": None,
    "filter and projection": "E | where v % 2 == 0 | project k, w = v + 1",
    "lookup join": "E | join kind=leftouter (D) on k | project k, w",
}


def ready(query):
    mine = asked.engine(program)
    mine.ask(".create table E (k:long, v:long)")
    mine.ask(".create table D (k:long, w:long)")
    mine.ask(".create table T (k:long, w:long)")
    mine.ask(".ingest inline into table D <|\n" + "".join(f"{k},{k * 3}\n" for k in range(rows)))
    if query:
        mine.ask(f""".alter table T policy update '[{{"Source":"E","Query":"{query}","IsTransactional":true}}]'""")
    return mine


asked_by = {name: ready(query) for name, query in policies.items()}
took = {name: [] for name in policies}
for at in range(batches):
    text = ".ingest inline into table E <|\n" + "".join(f"{i},{i * 7919 + at}\n" for i in range(rows))
    for name, mine in asked_by.items():
        took[name].append(mine.ask(text))
print(f"{'policy':>22} {'ms a batch':>11} {'of none':>8} {'last of first':>14}")
none = statistics.median(took["no policy"])
for name, times in took.items():
    middle = statistics.median(times)
    growth = statistics.median(times[-50:]) / statistics.median(times[10:60])
    print(f"{name:>22} {middle * 1000:>11.3f} {middle / none:>8.2f} {growth:>14.2f}")
    asked_by[name].end()
PY
