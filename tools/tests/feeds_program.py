#!/usr/bin/env python3
"""Stands for the program in tests, with its feeds: sessions over the same tables, of which each answers a block as soon as its blank line has come.

`T | count` counts rows, `long N` has N rows, `hoard` asks for more memory than there is, and `loud` tells a status.
`slow NAME` makes the file asked-1 or a later one, and is answered once there is a file NAME; so is `change NAME`, as what changes a table is."""
import itertools
import os
import re
import sys
import threading
import time

sys.path.insert(0, os.path.join(os.path.dirname(os.path.realpath(__file__)), "..", "lib"))

import sessions  # noqa: E402

tables = {}
events = []
tags = set()
lock = threading.Lock()
asked = itertools.count(1)


def event(kind, name, rows=None):
    if rows is not None:
        tables[name] = tables.get(name, 0) + rows
    events.append((kind, name))
    return len(events)


def changed(text):
    """The reply to a command that changes a table, or none."""
    create = re.match(r"\.create table (\S+)", text)
    if create:
        return f"done {event('CreateTable', create[1], 0)}\n"
    ingest = re.match(r"\.ingest inline into table (\S+)", text)
    if not ingest:
        return None
    tag = re.search(r"ingestIfNotExists='(.*?)'\)", text)
    if tag and tag[1] in tags:
        return "skipped 1\n"
    tags.add(tag and tag[1])
    rows = text.count("\n")
    return f"ingested {event('Ingest', ingest[1], rows)} rows {rows}\n"


def awaited(name):
    """Waits for a file, and says by another one that it does."""
    with open(f"asked-{next(asked)}", "w"):
        pass
    while not os.path.exists(name):
        time.sleep(0.01)


def hoarded():
    """Asks for memory until none is given."""
    held = []
    try:
        while len(held) < 4000:
            held.append(bytearray(1 << 20))
    except MemoryError:
        return "refused Memory\n"
    return "rows 0\nhad:long\n"


def answer(text):
    words = text.split()
    if words[0] == "change":
        awaited(words[1])
        return f"done {event('Change', words[1])}\n"
    if words[0] == "slow":
        awaited(words[1])
        return "rows 1\nslept:string\nlate answer\n"
    if words[0] == "long":
        return f"rows {words[1]}\nn:long\n" + "7\n" * int(words[1])
    if words[0] == "hoard":
        return hoarded()
    if words[0] == "loud":
        os.write(2, b"kq_console: status 4\n")
        return "rows 0\nn:long\n"
    if text == ".show journal":
        rows = "".join(f"{place}\t{kind}\t{name}\n" for place, (kind, name) in enumerate(events, 1))
        return f"rows {len(events)}\nPlace:long\tKind:string\tEntity:string\n{rows}"
    if words[0] in tables:
        return f"rows 1\nCount:long\n{tables[words[0]]}\n" if text.endswith("count") else "rows 0\nn:long\ts:string\n"
    if words[0] == "print":
        return "rows 1\nprint_0:string\n" + text.replace("\n", "\\n") + "\n"
    return f"refused Syntax at {len(text)}\n"


def serve(source, sink):
    for block in sessions.blocks(iter(source.readline, "")):
        if sessions.is_comment(block):
            continue
        text = "\n".join(block)
        with lock:
            reply = changed(text)
        sink.write((reply or answer(text)) + "\n")
        sink.flush()


# As the program does it: all feeds are opened, in their order, before anything is answered.
opened = [(open(name), open(name + ".out", "w")) for name in sys.argv[1:]]
threads = [threading.Thread(target=serve, args=pair) for pair in opened]
for thread in threads:
    thread.start()
serve(sys.stdin, sys.stdout)
for thread in threads:
    thread.join()
