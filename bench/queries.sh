#!/usr/bin/env bash
# Asks queries over 1,000,000 rows of two longs and 200,000 lines of a log, and lets sqlite3 ask the same of the same rows in memory, and
# PostgreSQL too where it is installed: the time between two replies is read off the output of each. The program has to be built (.ci/run
# does it), and sqlite3 installed.
set -eu
top=$(cd "$(dirname "$0")/.." && pwd)
export PATH="$PATH:$(echo /usr/lib/postgresql/*/bin | tr ' ' ':')"
cluster=
if command -v initdb >/dev/null && command -v psql >/dev/null; then
  cluster=$(mktemp -d)
  as() { if [ "$(id -u)" = 0 ]; then su postgres -s /bin/bash -c "PATH=$PATH; $*"; else bash -c "$*"; fi; }
  chmod 711 "$cluster"
  [ "$(id -u)" = 0 ] && chown postgres "$cluster"
  if as "initdb -D $cluster/data -A trust -U bench >/dev/null 2>&1 &&
    pg_ctl -D $cluster/data -w -o '-k $cluster -h \"\" -c shared_buffers=512MB -c work_mem=256MB -c fsync=off' start >/dev/null 2>&1"; then
    trap 'as "pg_ctl -D $cluster/data -m immediate stop >/dev/null 2>&1"; rm -rf "$cluster"' EXIT
  else
    rm -rf "$cluster"
    cluster=
  fi
fi

PYTHONPATH=$top/bench python3 -B - "$top/crates/kq_console/out/kq_console" "${1:-1000000}" "$cluster" <<'PY'
import asked, sys

program, rows, cluster = sys.argv[1], int(sys.argv[2]), sys.argv[3]
batch = 10_000
lines = rows // 5
pairs = [(i, i * 7919 % rows) for i in range(rows)]
words = "alpha bravo charlie delta echo foxtrot golf hotel india juliett kilo lima mike november".split()


def line(i):
    said = " ".join(words[(i * 7 + j * (i % 11 + 1)) % len(words)] for j in range(12))
    return f"2024-01-{i % 28 + 1:02}T{i // 28 % 24:02}:00:{i % 60:02}Z", (said + " error" if i % 9 == 0 else said)[:80], i % 50


log = [line(i) for i in range(lines)]
load = [".create table E (k:long, v:long)\n\n.create table L (t:datetime, said:string, more:dynamic)\n"]
inserts = ["create table e (k bigint, v bigint); create table l (t TIME, said text, more JSON);"]
for at in range(0, rows, batch):
    load.append(".ingest inline into table E <|\n" + "".join(f"{k},{v}\n" for k, v in pairs[at:at + batch]))
    inserts.append("insert into e values " + ",".join(f"({k},{v})" for k, v in pairs[at:at + batch]) + ";")
for at in range(0, lines, batch):
    load.append(".ingest inline into table L <|\n" + "".join(f"{t},{s},\"{{\"\"level\"\":{n}}}\"\n" for t, s, n in log[at:at + batch]))
    inserts.append("insert into l values " + ",".join(f"('{t}','{s}','{{\"level\":{n}}}')" for t, s, n in log[at:at + batch]) + ";")
inserts = "\n".join(inserts)
series = "with recursive r(a) as (select 1 union all select a + 1 from r where a < 100000), s as materialized (select a from r), t as materialized (select a as b from r)"

# the query, sqlite3's, and PostgreSQL's where it is another
queries = {
    "where, project and count": (
        "E | where v % 7 == 3 and k < 500000 | project w = v * 2 | count",
        "select count(*) from (select v * 2 as w from e where v % 7 = 3 and k < 500000) x;"),
    "count": ("E | count", "select count(*) from e;"),
    "sort by v": ("E | sort by v asc | take 3", "create temp table s as select * from e order by v; drop table s;"),
    "top 10 by v": ("E | top 10 by v", "select * from e order by v desc limit 10;"),
    "join of two ranges of 100,000": (
        "range a from 1 to 100000 step 1 | join kind=inner (range b from 1 to 100000 step 1) on $left.a == $right.b | count",
        series + " select count(*) from s join t on s.a = t.b;"),
    "distinct of 100,000 keys": (
        "E | project m = v % 100000 | distinct m | count",
        "select count(*) from (select distinct v % 100000 from e) x;"),
    "has and a member": (
        "L | where said has 'error' and more.level == 7 | count",
        "select count(*) from l where said like '%error%' and json_extract(more, '$.level') = 7;",
        "select count(*) from l where said like '%error%' and (more->>'level')::int = 7;"),
    "count and sum by 10 keys": (
        "E | summarize n = count(), s = sum(v) by g = k % 10 | count",
        "select count(*) from (select k % 10 as g, count(*) as n, sum(v) as s from e group by 1) x;"),
    "count and sum by 100,000 keys": (
        "E | summarize n = count(), s = sum(v) by g = v % 100000 | count",
        "select count(*) from (select v % 100000 as g, count(*) as n, sum(v) as s from e group by 1) x;"),
    "count by hour": (
        "L | summarize n = count() by h = bin(t, 1h) | count",
        "select count(*) from (select strftime('%Y-%m-%d %H', t) as h, count(*) as n from l group by 1) x;",
        "select count(*) from (select date_trunc('hour', t) as h, count(*) as n from l group by 1) x;"),
}


mine = asked.engine(program)
peers = {"sqlite3": asked.sqlite()}
if cluster:
    peers["postgres"] = asked.postgres(cluster)
mine.ask("\n".join(load))
for name, peer in peers.items():
    peer.ask(inserts.replace("TIME", "text" if name == "sqlite3" else "timestamptz").replace("JSON", "text" if name == "sqlite3" else "jsonb"))
    peer.ask("analyze;")
print(f"{'query':>32} {'s':>8}" + "".join(f" {name:>10} {'ratio':>6}" for name in peers))
for name, (kql, *sql) in queries.items():
    ours = mine.best(kql, 3)
    theirs = [peer.best(sql[min(at, len(sql) - 1)], 3) for at, peer in enumerate(peers.values())]
    print(f"{name:>32} {ours:>8.3f}" + "".join(f" {s:>10.3f} {ours / s:>6.2f}" for s in theirs))
PY
