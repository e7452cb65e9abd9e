#!/usr/bin/env python3
"""Stands for the program in the tests of the page: keeps the tables that are loaded, and answers the few questions that the tests ask as
docs/LANGUAGE.md and docs/REPLIES.md say."""
import collections
import csv
import datetime
import io
import json
import os
import re
import sys
import time

sys.path.insert(0, os.path.join(os.path.dirname(os.path.realpath(__file__)), "..", "lib"))

import replies  # noqa: E402
import sessions  # noqa: E402

NAME = r"(\w+|\['[^']*'\])"
EPOCH = datetime.datetime(1970, 1, 1)
tables, journal, tags = {}, [], set()


def plain(name):
    return name[2:-2] if name.startswith("[") else name


def event(kind, name):
    journal.append(f"{len(journal) + 1}\t{kind}\t{len(journal) + 1}\t0\t{len(journal) + 1}\t{replies.escape(name)}")
    return len(journal)


def rows(header, lines, is_sorted=False):
    lines = list(lines)
    return "\n".join([f"rows {len(lines)}", header, *(lines if is_sorted else sorted(lines, key=str.encode))]) + "\n"


def printed(cell, kind):
    """A cell of CSV as the program prints it."""
    if kind == "string":
        return replies.escape(cell)
    if cell == "":
        return "null"
    if kind == "datetime":
        at = datetime.datetime.fromisoformat(cell.replace("Z", "+00:00"))
        return (at - at.utcoffset()).strftime("%Y-%m-%dT%H:%M:%S.%f0Z")
    if kind == "dynamic":
        return json.dumps(json.loads(cell), sort_keys=True, separators=(",", ":"), ensure_ascii=False)
    return cell


def create(text, name, columns):
    if plain(name) in tables:
        return "kept 1\n"
    pairs = [(plain(column), kind) for column, kind in re.findall(NAME + r":(\w+)", columns)]
    tables[plain(name)] = (pairs, [])
    return f"done {event('CreateTable', plain(name))}\n"


def ingest(text, name, tag):
    if tag in tags:
        return "skipped 1\n"
    tags.add(tag)
    columns, lines = tables[plain(name)]
    records = list(filter(None, csv.reader(io.StringIO(text.split("<|\n", 1)[1], newline=""))))
    for record in records:
        cells = record + [""] * (len(columns) - len(record))
        lines.append("\t".join(printed(cell, kind) for cell, (_, kind) in zip(cells, columns)))
    return f"ingested {event('Ingest', plain(name))} rows {len(records)}\n"


def table(text, name, pipe):
    columns, lines = tables[plain(name)]
    header = "\t".join(f"{replies.escape(column)}:{kind}" for column, kind in columns)
    taken = re.fullmatch(r"take (\d+)", pipe or "take 1000000")
    if taken:
        return rows(header, lines[: int(taken[1])])
    if pipe == "count":
        return rows("Count:long", [str(len(lines))])
    if pipe.startswith("summarize"):
        at = [column for column, _ in columns].index("Timestamp")
        times = (datetime.datetime.fromisoformat(line.split("\t")[at][:26]) for line in lines)
        counts = collections.Counter((time - EPOCH) // datetime.timedelta(minutes=15) for time in times)
        quarters = (f"{(EPOCH + key * datetime.timedelta(minutes=15)).isoformat()}.0000000Z\t{counts[key]}" for key in sorted(counts))
        return rows("Quarter:datetime\tRequests:long", quarters, is_sorted=True)
    return f"refused Unknown at {len(text[: text.index('Staus')].encode())}\n"


def numbers(text, last):
    """A range with two more columns. It is written at once: the tests measure the page and not this program."""
    return f"rows {last}\nx:long\ty:long\ts:string\n" + "".join(f"{x}\t{2 * x}\trow {x}\n" for x in range(1, int(last) + 1))


def slow(text):
    time.sleep(float(os.environ.get("KQ_STAND_IN_SECONDS", "1.5")))
    return rows("Count:long", ["9000000"])


FORMS = [
    (rf"\.create table {NAME} \((.*)\)", create),
    (rf"\.ingest inline into table {NAME} with \(tags=.*, ingestIfNotExists='(.*)'\) <\|\n.*", ingest),
    (r"\.show journal", lambda text: rows("Place:long\tKind:string\tCursor:long\tActor:long\tNumber:long\tEntity:string", journal, is_sorted=True)),
    (r"range x from 1 to (\d+) step 1 \| extend y = x \* 2, s = strcat\('row ', x\) \| sort by x asc", numbers),
    (r"range a .* join .* count", slow),
    (r"print D = dynamic\((.*)\)", lambda text, value: rows("D:dynamic", [printed(value, "dynamic")])),
    (r"print mark = '(.*)'", lambda text, mark: rows("mark:string", [mark])),
    (r"#export (\w+) over (\w+) \{.*\}", lambda text, *_: "exporting\n"),
    (r"#export (\w+)", lambda text, name: "exported 1 2 rows 3\n"),
    (r"stop with (\d)", lambda text, status: sys.exit(int(status))),
    (rf"{NAME}(?:\s*\|\s*(.*))?", lambda text, name, pipe: table(text, name, pipe) if plain(name) in tables else "refused Unknown at 0\n"),
]


def answer(text):
    command = re.sub(r"\A(?:\s|//[^\n]*\n)*", "", text)
    for form, function in FORMS:
        found = re.fullmatch(form, command, re.S)
        if found:
            return function(text, *found.groups())
    return f"refused Syntax at {len(text.encode())}\n"


sys.stdin.reconfigure(encoding="utf-8", errors="surrogateescape", newline="\n")
sys.stdout.reconfigure(encoding="utf-8", errors="surrogateescape", newline="\n")
for block in sessions.blocks(iter(sys.stdin.readline, "")):
    if not sessions.is_comment(block):
        print(answer("\n".join(block)), flush=True)
