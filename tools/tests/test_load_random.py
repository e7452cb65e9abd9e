"""Random files, each loaded and compared cell by cell with what Python's own csv and json read.

`python3 tools/tests/test_load_random.py 100000 [SEED]` loads as many files and says which differ. Where there is a program, it loads them too."""
import collections
import csv
import io
import json
import re
import sys
import unittest

from load_runs import PROGRAM, Folder

import inputs
import replies
import sessions
import sources
from random_files import random_file

# A program has at most 1000 tables.
MOST_TABLES = 900


def read_script(script):
    """The rows of a script by the rules of docs/LANGUAGE.md, "Scripts" and ".ingest inline"."""
    rows = []
    for block in re.split("\n(?:[ \t\r]*\n)+", script.decode()):
        if block.startswith(".ingest"):
            body = block.split("<|\n", 1)[1].lstrip(" \t\r\n")
            body = body[1:] if body.startswith("\ufeff") else body
            rows += [record for record in csv.reader(io.StringIO(body, newline="")) if record]
    return rows


def loaded(folder, file, table="T"):
    """What tools/load makes of a file."""
    before = inputs.PIECE, sources.SAMPLE
    inputs.PIECE, sources.SAMPLE = file.piece, file.sample
    try:
        folder.put(file.name, file.content)
        return folder.load(file.name, "--into", table, "--rejects", f"{table}.bad", *file.words)
    finally:
        inputs.PIECE, sources.SAMPLE = before


def values(rows, dynamics):
    """The rows with the values of dynamic cells."""
    return [[(json.loads(cell) if cell else None) if place in dynamics else cell for place, cell in enumerate(row)] for row in rows]


def wrong(file, found):
    """What differs from what has to come of a file, or none."""
    if not file.rows:
        return None if not any(b".ingest" in line for line in found.script.split(b"\n")) else "there are rows"
    if found.status:
        return f"stopped: {found.told}"
    rows = values(read_script(found.script), file.dynamics)
    if rows != file.rows:
        return f"{rows} are not {file.rows}"
    if sum(one.rows for one in found.sent) != len(file.rows):
        return "the rows that were sent are counted wrong"
    heading = 1 if file.name.startswith("a.csv") and found.rejects else 0
    return None if found.rejects.count(b"\n") - heading == file.rejected else f"{found.rejects} has not {file.rejected} lines"


def wrong_in_program(program, file, found, table):
    """What differs in the program's table, or none."""
    program.send(found.script.decode())
    told = list(program.replies_so_far())
    if not file.rows or not told:
        return None
    if not all(reply.startswith(("done", "ingested", "kept")) for reply in told):
        return f"answered with {told}"
    answer = next(iter(replies.read(program.ask(table))))
    keys = [
        json.dumps(
            [(json.loads(cell) if cell not in ("", "null") else None) if place in file.dynamics else cell for place, cell in enumerate(row)],
            sort_keys=True,
        )
        for row in plain_rows(answer)
    ]
    wanted = [json.dumps(row, sort_keys=True) for row in file.rows]
    return None if collections.Counter(keys) == collections.Counter(wanted) else f"the table has {sorted(keys)}, not {sorted(wanted)}"


def plain_rows(answer):
    """The cells of an answer as the files have them. A null is an empty cell."""
    kinds = [kind for _, kind in answer.columns]
    for row in answer.rows():
        yield [
            replies.unescape(cell) if kind == "string" else cell if kind == "dynamic" else "" if cell == "null" else cell
            for cell, kind in zip(row, kinds)
        ]


def differences(seeds, program=None):
    """The seeds whose files differ, each with what does, and none for each thousand files."""
    run = None
    with Folder() as folder:
        for count, seed in enumerate(seeds):
            if count and count % 1000 == 0:
                yield None
            file, table = random_file(seed), f"T{count}"
            result = loaded(folder, file, table)
            why = wrong(file, result)
            if why is None and program and file.name.startswith(("a.csv", "a.json")):
                if run is None or count % MOST_TABLES == 0:
                    run = run and run.end()
                    run = sessions.Program([program])
                why = wrong_in_program(run, file, result, table)
            if why:
                yield seed, why
    if run:
        run.end()


def main(count, first):
    """Loads so many files, and tells each thousand, so that a run that is stopped has said what it found."""
    faults, thousands = 0, 0
    for found in differences(range(first, first + count), PROGRAM):
        if found is None:
            thousands += 1
            print(f"{thousands * 1000} files, {faults} differ", flush=True)
        else:
            faults += 1
            print(f"seed {found[0]}: {found[1]}", flush=True)
    print(f"{count} files, {faults} differ")
    return 1 if faults else 0


class Random(unittest.TestCase):
    def test_500_files_have_each_cell_that_python_reads(self):
        self.assertEqual(list(differences(range(500))), [])

    @unittest.skipUnless(PROGRAM, "the proved program isn't built")
    def test_the_program_has_each_cell_too(self):
        self.assertEqual(list(differences(range(500, 700), PROGRAM)), [])


if __name__ == "__main__":
    if len(sys.argv) > 1 and sys.argv[1].isdigit():
        sys.exit(main(int(sys.argv[1]), int(sys.argv[2]) if len(sys.argv) > 2 else 0))
    unittest.main()
