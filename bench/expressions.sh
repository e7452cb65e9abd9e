#!/usr/bin/env bash
# Evaluates three expressions over 1,000,000 rows in pieces of 4096, a column at a time, and lets sqlite3 evaluate the same in
# memory: prints the least and the median of some runs in milliseconds, and the times as parts of sqlite3's. The program below
# is no crate of the repository: it is put beside a copy of its crates in a temporary folder, proved and built there.
set -eu
top=$(cd "$(dirname "$0")/.." && pwd)
folder=$(mktemp -d)
trap 'rm -rf "$folder"' EXIT
cp -a "$top/crates" "$top/crates.txt" "$folder/"
[ ! -f "$top/HANDLES" ] || cp "$top/HANDLES" "$folder/"
echo "bench_expressions: kq_eval_columns kq_value kq_plan_expressions kq_plan_functions kq_value_strings" >>"$folder/crates.txt"
mkdir -p "$folder/crates/bench_expressions/src"
cat >"$folder/crates/bench_expressions/src/main.rt" <<'RT'
//! Times of expressions over many rows.
#![tactic(auto)]

use kq_eval_columns::{Vector, eval_column};
use kq_plan_expressions::Expr;
use kq_plan_functions::Function;
use kq_value_strings::FindKind;
use kq_value::{EvalFault, Memory, Text, Value};
use std::alloc::Global;
use std::io;
use std::rt::Clock;
use std::time::Instant;

const PIECES: usize = 244;
const ROWS: usize = 4096;
const RUNS: usize = 15;

fn call(alloc: Global, function: Function, a: Expr, b: Expr) -> Result<Expr, Memory> {
    let mut args = Vec::new(alloc);
    args.push(a)?;
    args.push(b)?;
    Ok(Expr::Call(function, args))
}

fn long(value: i64) -> Expr {
    Expr::Literal(Value::Long(value))
}

// v % 7 == 3 and k < 5
fn condition(alloc: Global) -> Result<Expr, Memory> {
    let rest = call(alloc, Function::Remainder, Expr::Column(1), long(7))?;
    let first = call(alloc, Function::Equal, rest, long(3))?;
    let second = call(alloc, Function::Less, Expr::Column(0), long(5))?;
    call(alloc, Function::And, first, second)
}

// iff(v > 10, v * 2, 0)
fn choice(alloc: Global) -> Result<Expr, Memory> {
    let mut args = Vec::new(alloc);
    args.push(call(alloc, Function::Greater, Expr::Column(1), long(10))?)?;
    args.push(call(alloc, Function::Multiply, Expr::Column(1), long(2))?)?;
    args.push(long(0))?;
    Ok(Expr::Call(Function::Iff, args))
}

// line has "timeout"
fn search(alloc: Global) -> Result<Expr, Memory> {
    let word = Expr::Literal(Value::Text(Text::from_str(alloc, "timeout")?));
    call(alloc, Function::Find(FindKind::Has), Expr::Column(0), word)
}

fn numbers(alloc: Global) -> Result<Vec<Vector>, Memory> {
    let mut keys = Vec::with_capacity(alloc, ROWS)?;
    let mut values = Vec::with_capacity(alloc, ROWS)?;
    let mut key: i64 = 0;
    let mut value: i64 = 0;
    for _ in 0..ROWS {
        key = if key < 9 { key.wrapping_add(1) } else { 0 };
        value = if value < 96 { value.wrapping_add(1) } else { 0 };
        keys.push(key)?;
        values.push(value)?;
    }
    let mut columns = Vec::new(alloc);
    columns.push(Vector::Longs(keys))?;
    columns.push(Vector::Longs(values))?;
    Ok(columns)
}

fn lines(alloc: Global) -> Result<Vec<Vector>, Memory> {
    let mut cells = Vec::with_capacity(alloc, ROWS)?;
    let mut turn: u64 = 0;
    for _ in 0..ROWS {
        turn = if turn < 15 { turn.wrapping_add(1) } else { 0 };
        let line = if turn == 3 {
            "2026-11-27 22:48:10.123 WARN gateway-17 request 12345678 ended by timeout 3000 ms"
        } else {
            "2026-11-27 22:48:10.123 INFO gateway-17 request 12345678 was answered with 200 ok"
        };
        cells.push(Value::Text(Text::from_str(alloc, line)?))?;
    }
    let mut columns = Vec::new(alloc);
    columns.push(Vector::Cells(cells))?;
    Ok(columns)
}

fn table(alloc: Global, of_lines: bool) -> Result<Vec<Vec<Vector>>, Memory> {
    let mut pieces = Vec::new(alloc);
    for _ in 0..PIECES {
        pieces.push(if of_lines { lines(alloc)? } else { numbers(alloc)? })?;
    }
    Ok(pieces)
}

fn all_places(alloc: Global) -> Result<Vec<usize>, Memory> {
    let mut places = Vec::with_capacity(alloc, ROWS)?;
    for i in 0..ROWS {
        places.push(i)?;
    }
    Ok(places)
}

fn total(vector: &Vector) -> u64 {
    let mut sum: u64 = 0;
    match vector {
        Vector::Longs(longs) => {
            for long in longs {
                sum = sum.wrapping_add(long.cast_unsigned());
            }
        }
        Vector::Truths(truths) => {
            for truth in truths {
                sum = sum.wrapping_add(u64::from(*truth));
            }
        }
        Vector::Cells(cells) => {
            for cell in cells {
                if matches!(cell, Value::Bool(true)) {
                    sum = sum.wrapping_add(1);
                }
            }
        }
        _ => {}
    }
    sum
}

fn run(alloc: Global, expr: &Expr, pieces: &Vec<Vec<Vector>>, places: &Vec<usize>) -> Result<u64, EvalFault> {
    let none: [Value; 0] = [];
    let mut sum: u64 = 0;
    for piece in pieces {
        let values = eval_column(alloc, expr, piece, places, &none, 0)?;
        sum = sum.wrapping_add(total(&values));
    }
    Ok(sum)
}

fn report<R: Clock + Print>(rt: &R, alloc: Global, name: &str, expr: &Expr, of_lines: bool) -> io::Result<()> {
    let pieces = table(alloc, of_lines)?;
    let places = all_places(alloc)?;
    let mut times = Vec::new(alloc);
    let mut sum = 0;
    for _ in 0..RUNS {
        let start = Instant::now(rt)?;
        sum = run(alloc, expr, &pieces, &places).unwrap_or(0);
        times.push(start.elapsed(rt)?.as_micros())?;
    }
    times.sort()?;
    let least = times.first().copied().unwrap_or(0);
    let median = times.get(times.len() / 2).copied().unwrap_or(0);
    println!(rt; "{name} {least} {median} {sum}")
}

fn main(rt: HostRuntime) -> io::Result<()> {
    let alloc = rt.alloc();
    report(&rt, alloc, "condition", &condition(alloc)?, false)?;
    report(&rt, alloc, "choice", &choice(alloc)?, false)?;
    report(&rt, alloc, "search", &search(alloc)?, true)
}
RT
(cd "$folder/crates/bench_expressions" && rt run) >"$folder/ours" 2>"$folder/log" || { tail -20 "$folder/log"; exit 1; }

python3 - "$folder/ours" <<'PY'
import re, subprocess, sys

rows = 244 * 4096
setup = f"""
create table t (k integer, v integer);
with recursive c(i) as (select 0 union all select i + 1 from c where i + 1 < {rows}) insert into t select (i + 1) % 10, (i + 1) % 97 from c;
create table l (line text);
with recursive c(i) as (select 0 union all select i + 1 from c where i + 1 < {rows}) insert into l select
  case when (i + 1) % 16 = 3 then '2026-11-27 22:48:10.123 WARN gateway-17 request 12345678 ended by timeout 3000 ms'
  else '2026-11-27 22:48:10.123 INFO gateway-17 request 12345678 was answered with 200 ok' end from c;
"""
queries = {
    "condition": "select count(*) from t where v % 7 = 3 and k < 5;",
    "choice": "select sum(iif(v > 10, v * 2, 0)) from t;",
    "search": "select count(*) from l where line like '%timeout%';",
}
runs = 15
script = setup + ".timer on\n" + "".join(query + "\n" for query in queries.values() for _ in range(runs))
out = subprocess.run(["sqlite3", ":memory:"], input=script, capture_output=True, text=True, check=True).stdout
times = [float(seconds) * 1000 for seconds in re.findall(r"real ([0-9.]+)", out)]
assert len(times) == runs * len(queries), out
theirs = {name: sorted(times[n * runs : (n + 1) * runs]) for n, name in enumerate(queries)}
print(f"{'':>10} {'least':>8} {'median':>8} {'sqlite3':>8} {'median':>8} {'least, as a part':>17} {'median':>7}   (ms)")
for line in open(sys.argv[1]):
    name, least, median, _ = line.split()
    least, median = int(least) / 1000, int(median) / 1000
    other = theirs[name]
    print(f"{name:>10} {least:>8.1f} {median:>8.1f} {other[0]:>8.1f} {other[runs // 2]:>8.1f} {least / other[0]:>17.2f} {median / other[runs // 2]:>7.2f}")
PY
