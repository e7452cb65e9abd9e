#!/usr/bin/env python3
"""Stands for the program in tests: answers each block, as soon as its blank line has come, with a reply of the program's form."""
import os
import re
import sys

sys.path.insert(0, os.path.join(os.path.dirname(os.path.realpath(__file__)), "..", "lib"))

import sessions  # noqa: E402

cursor = 0
tags = set()


def answer(block):
    global cursor
    text = "\n".join(block)
    tag = re.search(r"ingestIfNotExists='(.*?)'\) <\|", text)
    if tag and tag[1] in tags:
        return "skipped 1\n"
    if text.startswith(".ingest"):
        tags.add(tag[1])
        cursor += 1
        return f"ingested {cursor} rows {len(block) - 1}\n"
    if text.startswith(".create"):
        cursor += 1
        return f"done {cursor}\n"
    if text == "empty rows":
        return "rows 2\ns:string\n\n\n"
    if text == "end":
        sys.exit(3)
    if text.startswith("print"):
        return "rows 1\nprint_0:string\n" + text.replace("\n", "\\n") + "\n"
    return f"refused Syntax at {len(text)}\n"


for found in sessions.blocks(iter(sys.stdin.readline, "")):
    if not sessions.is_comment(found):
        print(answer(found), flush=True)
