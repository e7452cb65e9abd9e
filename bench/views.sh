#!/usr/bin/env bash
# Folds two views of 10 and 100,000 groups over 1,000,000 records, ingests 1000 more and asks the views, and lets sqlite3 group the same rows in
# memory; then folds the 1000. The same over a tenth of the records tells whether asking grows with them. The time between two replies is read off the
# output. The program has to be built (.ci/run does it), and sqlite3 installed.
set -eu
top=$(cd "$(dirname "$0")/.." && pwd)
PYTHONPATH=$top/bench python3 -B - "$top/crates/kq_console/out/kq_console" "${1:-1000000}" <<'PY'
import asked, sys

program, rows = sys.argv[1], int(sys.argv[2])
batch, more = 10_000, 1_000
bodies = {"10 groups": ("Few", "k % 10"), "100,000 groups": ("Many", "v % 100000")}


def pairs(begin, end):
    return [(i, i * 7919 % rows) for i in range(begin, end)]


def ingested(begin, end):
    return ".ingest inline into table E <|\n" + "".join(f"{k},{v}\n" for k, v in pairs(begin, end))


def inserted(begin, end):
    return "insert into e values " + ",".join(f"({k},{v})" for k, v in pairs(begin, end)) + ";"


def viewed(records):
    mine = asked.engine(program)
    mine.ask(".create table E (k:long, v:long)\n\n" + "\n".join(ingested(at, at + batch) for at in range(0, records, batch)))
    mine.ask("\n\n".join(
        f".create materialized-view with (backfill=true) {name} on table E {{ E | summarize n = count(), s = sum(v), m = max(v) by g = {key} }}"
        for name, key in bodies.values()))
    first = {groups: mine.ask(f"#fold {name}") for groups, (name, _) in bodies.items()}
    mine.ask(ingested(records, records + more))
    later = {groups: mine.best(f"{name} | count", 5) for groups, (name, _) in bodies.items()}
    again = {groups: mine.ask(f"#fold {name}") for groups, (name, _) in bodies.items()}
    return first, later, again


peer = asked.sqlite()
peer.ask("\n".join(["create table e (k bigint, v bigint);"] + [inserted(at, at + batch) for at in range(0, rows, batch)] + [inserted(rows, rows + more)]))
peer.ask("analyze;")
_, fewer, _ = viewed(rows // 10)
first, later, again = viewed(rows)
print(f"{'view':>16} {'s':>9} {'sqlite3':>9} {'ratio':>7} {'growth':>7} {'fold':>9} {'of first':>9}")
for groups, (_, key) in bodies.items():
    theirs = peer.best(f"select count(*) from (select {key} as g, count(*) as n, sum(v) as s, max(v) as m from e group by 1) x;", 5)
    print(f"{groups:>16} {later[groups]:>9.5f} {theirs:>9.5f} {later[groups] / theirs:>7.3f} {later[groups] / fewer[groups]:>7.2f}"
          f" {again[groups]:>9.5f} {again[groups] / first[groups]:>9.3f}")
PY
