#!/usr/bin/env bash
# Puts rows into one table in batches of 1000 and counts them, and lets sqlite3 do the same in memory with one insert and one
# transaction a batch: rows (k:long, v:long), and lines of a log (datetime, string of 8 devices, string, dynamic with two members),
# which sqlite3 keeps as texts. Prints seconds (the least of three runs) and the greatest resident set, and then what is said of
# them: bytes a row that are held, growth of the time a row, the time as a part of sqlite3's, and what a batch of 100 rows takes
# behind many of them. The program has to be built (.ci/run does it).
set -eu
top=$(cd "$(dirname "$0")/.." && pwd)
program=$top/crates/kq_console/out/kq_console
folder=$(mktemp -d)
trap 'rm -rf "$folder"' EXIT

make_numbers() { # BATCHES ROWS
  awk -v batches="$1" -v rows="$2" 'BEGIN {
    print ".create table E (k:long, v:long)\n"
    for (b = 0; b < batches; b++) {
      print ".ingest inline into table E <|"
      for (r = 0; r < rows; r++) print b * rows + r "," r
      print ""
    }
    print "E | count"
  }' >"$folder/numbers.$1.$2.kql"
  awk -v batches="$1" -v rows="$2" 'BEGIN {
    print "create table E (k integer, v integer);"
    for (b = 0; b < batches; b++) {
      printf "begin; insert into E values "
      for (r = 0; r < rows; r++) printf "%s(%d,%d)", r ? "," : "", b * rows + r, r
      print "; commit;"
    }
    print "select count(*) from E;"
  }' >"$folder/numbers.$1.$2.sql"
}

make_log() { # BATCHES ROWS
  awk -v batches="$1" -v rows="$2" 'BEGIN {
    print ".create table E (t:datetime, device:string, level:string, payload:dynamic)\n"
    for (b = 0; b < batches; b++) {
      print ".ingest inline into table E <|"
      for (r = 0; r < rows; r++) {
        i = b * rows + r
        printf "2024-03-%02dT%02d:%02d:%02d.%07dZ,device-%d,%s,\"{\"\"temp\"\":%d,\"\"msg\"\":\"\"reading %d\"\"}\"\n", 1 + i % 28, i % 24, i % 60, i % 59, i % 10000000, i % 8, i % 5 ? "info" : "error", i % 40, i % 1000
      }
      print ""
    }
    print "E | count"
  }' >"$folder/log.$1.$2.kql"
  awk -v batches="$1" -v rows="$2" -v quote="'" 'BEGIN {
    print "create table E (t text, device text, level text, payload text);"
    for (b = 0; b < batches; b++) {
      printf "begin; insert into E values "
      for (r = 0; r < rows; r++) {
        i = b * rows + r
        printf "%s(%s2024-03-%02dT%02d:%02d:%02d.%07dZ%s,%sdevice-%d%s,%s%s%s,%s{\"temp\":%d,\"msg\":\"reading %d\"}%s)", r ? "," : "", quote, 1 + i % 28, i % 24, i % 60, i % 59, i % 10000000, quote, quote, i % 8, quote, quote, i % 5 ? "info" : "error", quote, quote, i % 40, i % 1000, quote
      }
      print "; commit;"
    }
    print "select count(*) from E;"
  }' >"$folder/log.$1.$2.sql"
}

cat >"$folder/measure.py" <<'E'
import os, subprocess, sys, time

program, folder = sys.argv[1:]

def run(words, script):
    with open(script) as stdin:
        start = time.monotonic()
        child = subprocess.Popen(words, stdin=stdin, stdout=subprocess.PIPE)
        out = child.stdout.read()
        _, status, usage = os.wait4(child.pid, 0)
        seconds = time.monotonic() - start
    if status != 0:
        sys.exit(f"{words[0]} ended with {status}")
    return seconds, usage.ru_maxrss * 1024, int(out.split()[-1])

def measured(kind, batches, size, peers=("kq_console", "sqlite3")):
    for name in peers:
        words, ending = ([program], "kql") if name == "kq_console" else (["sqlite3", ":memory:"], "sql")
        runs = [run(words, f"{folder}/{kind}.{batches}.{size}.{ending}") for _ in range(3)]
        seconds, _, rows = min(runs)
        peak = min(r[1] for r in runs)
        assert rows == batches * size, rows
        found[name, kind, batches, size] = seconds, peak
        print(f"{kind:>8} {batches:>6} x {size:<5} {name:>10} {seconds:>9.3f} {seconds / rows * 1e9:>9.0f} {peak / 2**20:>9.1f}")

found = {}
print(f"{'rows of':>8} {'batches':>14} {'program':>10} {'seconds':>9} {'ns a row':>9} {'peak MiB':>9}")
for batches in 10, 1000, 2000:
    measured("numbers", batches, 1000)
for batches in 500, 1000:
    measured("log", batches, 1000)
for batches in 1000, 10000:
    measured("numbers", batches, 100, ("kq_console",))

def seconds(*key):
    return found[key][0]

def held(kind, few, most):
    # A process never peaks below what its parent held, so small peaks are this script's own: bytes a row are told of great ones.
    return (found["kq_console", kind, most, 1000][1] - found["kq_console", kind, few, 1000][1]) / ((most - few) * 1000)

def against(kind):
    return seconds("kq_console", kind, 1000, 1000) / seconds("sqlite3", kind, 1000, 1000)

print(f"bytes held a row of numbers: {held('numbers', 1000, 2000):.1f}")
print(f"bytes held a line of the log: {held('log', 500, 1000):.1f}")
print(f"time a row of numbers at 1000000 rows against 10000: {seconds('kq_console', 'numbers', 1000, 1000) / 100 / seconds('kq_console', 'numbers', 10, 1000):.2f}")
print(f"time at 1000000 rows of numbers against sqlite3: {against('numbers'):.2f}")
print(f"time at 1000000 lines of the log against sqlite3: {against('log'):.2f}")
print(f"time a batch of 100 rows, 10000 batches against 1000: {seconds('kq_console', 'numbers', 10000, 100) / 10 / seconds('kq_console', 'numbers', 1000, 100):.2f}")
E

for batches in 10 1000 2000; do make_numbers "$batches" 1000; done
for batches in 500 1000; do make_log "$batches" 1000; done
for batches in 1000 10000; do make_numbers "$batches" 100; done
python3 "$folder/measure.py" "$program" "$folder"
