#!/usr/bin/env bash
# Asks what one asks of an access log, over 1,000,000 lines of 10 columns from a generator with a fixed seed, and lets sqlite3 ask the
# same of the same lines in memory, with the indexes that a user would make (Timestamp; Host and Status; Path; Address). Prints the time
# of each query, its part of sqlite3's, and the greatest resident set behind it. Then both put the lines in with something behind the table: the program
# with a policy and a view, sqlite3 with an index and a trigger. Usage: bench/logs.sh [LINES]. The program has to be
# built (.ci/run does it), and sqlite3 installed.
set -eu
top=$(cd "$(dirname "$0")/.." && pwd)
PYTHONPATH=$top/bench python3 -B - "${PROGRAM:-$top/crates/kq_console/out/kq_console}" "${1:-1000000}" <<'PY'
import asked, random, sys

program, lines = sys.argv[1], int(sys.argv[2])
batch = 10_000
chance = random.Random(20241130)
hosts = [f"web-{n:02}" for n in range(20)]
methods = ["GET"] * 8 + ["POST", "HEAD"]
statuses = [200] * 44 + [301, 304, 304, 404, 404, 500]
parts = ["api", "img", "js", "css", "cart", "search", "item", "user", "admin", "help"]
paths = [f"/{parts[n % 10]}/{n // 10}" for n in range(2000)]
agents = [f"Mozilla/5.0 (device {n}) Gecko" for n in range(40)]
addresses = [f"10.{n // 250}.{n % 250}.7" for n in range(50_000)]
COLUMNS = "Timestamp Host Address Method Path Status Bytes Micros Agent Referrer".split()
TYPES = "datetime string string string string long long long string string".split()


def record(i):
    second = i * 86_400 * 7 // lines
    return (f"2024-03-{1 + second // 86_400:02}T{second // 3600 % 24:02}:{second // 60 % 60:02}:{second % 60:02}Z", chance.choice(hosts),
            chance.choice(addresses), chance.choice(methods), paths[min(int(chance.expovariate(1 / 120)), 1999)], chance.choice(statuses),
            chance.randrange(200, 60_000), chance.randrange(100, 2_000_000), chance.choice(agents), "-" if i % 3 else chance.choice(paths))


log = [record(i) for i in range(lines)]
start = f".create table A ({', '.join(f'{c}:{t}' for c, t in zip(COLUMNS, TYPES))})\n\n.create table H (Host:string, Zone:string)\n\n"
start += ".ingest inline into table H <|\n" + "".join(f"{host},zone-{n % 3}\n" for n, host in enumerate(hosts)) + "\n"
sql = f"create table a ({', '.join(f'{c} integer' if t == 'long' else f'{c} text' for c, t in zip(COLUMNS, TYPES))});"
sql += "create table h (Host text primary key, Zone text);"
sql += "insert into h values " + ",".join(f"('{host}','zone-{n % 3}')" for n, host in enumerate(hosts)) + ";"
load, inserts = [start], [sql]
for at in range(0, lines, batch):
    here = log[at:at + batch]
    load.append(".ingest inline into table A <|\n" + "".join(",".join(map(str, r)) + "\n" for r in here) + "\n")
    inserts.append("insert into a values " + ",".join(repr(r) for r in here) + ";")
window = lines // 2 * 86_400 * 7 // lines
at = lambda second: f"2024-03-{1 + second // 86_400:02}T{second // 3600 % 24:02}:{second // 60 % 60:02}:{second % 60:02}Z"

queries = {
    "top 10 paths by their bytes": (
        "A | summarize s = sum(Bytes) by Path | top 10 by s",
        "select Path, sum(Bytes) as s from a group by 1 order by s desc limit 10;"),
    "the latest of each of 50,000 addresses": (
        "A | summarize arg_max(Timestamp, Path, Status) by Address | count",
        "select count(*) from (select Address, max(Timestamp), Path, Status from a group by 1) x;"),
    "a join with 20 hosts and a sum": (
        "A | join kind=inner (H) on Host | summarize s = sum(Bytes) by Zone",
        "select Zone, sum(Bytes) from a join h on a.Host = h.Host group by 1;"),
    "count by the first part of the path": (
        'A | summarize n = count() by p = tostring(split(Path, "/")[1])',
        "select substr(Path, 2, instr(substr(Path, 2), '/') - 1) as p, count(*) from a group by 1;"),
    "5xx by host and hour": (
        "A | where Status >= 500 | summarize n = count() by Host, h = bin(Timestamp, 1h) | count",
        "select count(*) from (select Host, substr(Timestamp, 1, 13) as h, count(*) from a where Status >= 500 group by 1, 2) x;"),
    "a window of 5 minutes": (
        f"A | where Timestamp >= datetime({at(window)}) and Timestamp < datetime({at(window + 300)}) | summarize n = count(), s = sum(Bytes)",
        f"select count(*), sum(Bytes) from a where Timestamp >= '{at(window)}' and Timestamp < '{at(window + 300)}';"),
    "count of the lines": ("A | count", "select count(*) from a;"),
}


def peak(pid):
    for line in open(f"/proc/{pid}/status"):
        if line.startswith("VmHWM:"):
            return int(line.split()[1]) / 1024
    return 0.0


# The lines again, with what stands behind the table: a policy and a view, against an index and a trigger.
behind = (".create table Failed (Timestamp:datetime, Host:string, Path:string)\n\n"
          """.alter table Failed policy update @'[{"IsEnabled":true,"Source":"A","Query":"A | where Status >= 500 | project Timestamp, Host, Path","""
          """"IsTransactional":true,"PropagateIngestionProperties":false}]'\n\n"""
          ".create materialized-view Hosts on table A { A | summarize n = count(), s = sum(Bytes) by Host }\n\n")
triggered = ("create index t on a (Timestamp); create table failed (Timestamp text, Host text, Path text);"
             "create trigger f after insert on a when new.Status >= 500 begin insert into failed values (new.Timestamp, new.Host, new.Path); end;")

mine, peer = asked.engine(program), asked.sqlite()
loaded = mine.ask("".join(load))
held = peak(mine.child.pid)
put = peer.ask("begin;" + "\n".join(inserts) + "commit;")
peer.ask("create index t on a (Timestamp); create index s on a (Host, Status); create index p on a (Path); create index d on a (Address); analyze;")
raw = sum(len(",".join(map(str, r))) + 1 for r in log)
print(f"{'':>40} {'s':>8} {'sqlite3':>8} {'ratio':>6} {'peak MiB':>9}")
print(f"{'load, ' + str(raw >> 20) + ' MiB of CSV':>40} {loaded:>8.3f} {put:>8.3f} {loaded / put:>6.2f} {held:>9.0f}")
for name, (kql, theirs) in queries.items():
    ours, its = mine.best(kql, 3), peer.best(theirs, 3)
    print(f"{name:>40} {ours:>8.4f} {its:>8.4f} {ours / its:>6.2f} {peak(mine.child.pid):>9.0f}")
mine.end(), peer.end()
mine, peer = asked.engine(program), asked.sqlite()
loaded = mine.ask("".join([load[0], behind, *load[1:]]))
put = peer.ask("\n".join([inserts[0], triggered, "begin;", *inserts[1:], "commit;"]))
print(f"{'load with a policy and a view':>40} {loaded:>8.3f} {put:>8.3f} {loaded / put:>6.2f} {peak(mine.child.pid):>9.0f}")
PY
