"""Stands for the program in tests of tools/faults_exports.py: tables, ingestions and exports of its script, and files as docs/RUNNING.md says.
WRONG names what it does otherwise."""
import os
import sys

WRONG = os.environ.get("WRONG", "")
tables, rows, ends = {}, [], {}
cursor = 0


def write_all(file, data):
    while data:
        count = os.write(file, data)
        data = b"" if WRONG == "short" and file != 1 else data[count:]


def say(reply):
    try:
        write_all(1, (reply + "\n\n").encode())
    except OSError:
        sys.exit(4)


def put(name, data):
    part = name if WRONG == "in place" else name + ".part"
    try:
        file = os.open(part, os.O_WRONLY | os.O_CREAT | os.O_TRUNC, 0o644)
        try:
            write_all(file, data)
            if WRONG != "no sync":
                os.fsync(file)
        finally:
            os.close(file)
        if part != name:
            os.rename(part, name)
    except OSError:
        return WRONG == "fault ignored"
    return True


def run(name):
    begin = ends[name]
    if begin == cursor:
        return "nothing"
    some = [row for at, row in rows if at > begin]
    if name == "Sums":
        keys = [int(row.split(",")[0]) for row in some]
        lines = ["n,s", f"{len(keys)},{sum(keys)}"]
    else:
        lines = ["k,s", *some]
    reply = f"exported {begin + 1} {cursor} rows {len(lines) - 1}"
    if WRONG == "reply first":
        say(reply)
    is_put = put(f"{name}-{begin + 1}-{cursor}.csv", "".join(line + "\n" for line in lines).encode())
    if is_put or WRONG == "range kept":
        ends[name] = cursor - 1 if WRONG == "range twice" else cursor
    if WRONG == "reply first":
        return None
    return reply if is_put else "refused ArtefactFault"


def answer(text):
    global cursor
    words = text.split()
    if " over " in text:
        ends.setdefault(words[1], 0)
        return "exporting"
    if words[0] == "#export":
        return run(words[1])
    cursor += 1
    if words[0] == ".create":
        return f"done {cursor}"
    lines = text.split("\n")[1:]
    rows.extend((cursor, line) for line in lines)
    return f"ingested {cursor} rows {len(lines)}"


script = b""
while True:
    piece = os.read(0, 65536)
    if not piece:
        break
    script += piece
for block in script.decode().rstrip("\n").split("\n\n"):
    found = answer(block)
    if found is not None:
        say(found)
