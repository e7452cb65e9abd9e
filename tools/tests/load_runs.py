"""Runs tools/load on files that a test makes, and reads the script that it writes."""
import argparse
import csv
import io
import json
import os
import re
import shutil
import sys
import tempfile

TOP = os.path.dirname(os.path.dirname(os.path.dirname(os.path.realpath(__file__))))
LIB = os.path.join(TOP, "tools", "lib")
if LIB not in sys.path:
    sys.path.insert(0, LIB)

import load_options  # noqa: E402
import loading  # noqa: E402
import problems  # noqa: E402
import programs  # noqa: E402
import progress  # noqa: E402
import sessions  # noqa: E402

PROGRAM = os.environ.get("KQ_PROGRAM") or programs.proved_program(TOP)
HEAD = re.compile(r"\.ingest inline into table (.+?) with \(tags='\[(.*)\]', ingestIfNotExists='\[(.*)\]'\) <\|\n(.*)", re.S)


class Loaded:
    """What became of one call."""

    def __init__(self, status, script, told, rejects, sent):
        self.status = status
        self.script = script
        self.told = told
        self.rejects = rejects
        self.sent = sent

    @property
    def blocks(self):
        """The commands, cut as docs/LANGUAGE.md, "Scripts", says."""
        found = ["\n".join(block) for block in sessions.blocks(iter(self.script.decode().split("\n")))]
        return [block for block in found if not block.startswith("//")]

    @property
    def schema(self):
        return next(block for block in self.blocks if block.startswith(".create table"))

    @property
    def columns(self):
        return re.fullmatch(r"\.create table \S+ \((.*)\)", self.schema)[1]

    @property
    def batches(self):
        return [HEAD.fullmatch(block).groups() for block in self.blocks if block.startswith(".ingest")]

    @property
    def rows(self):
        """The records of all batches, as RFC 4180 has them; white space right behind `<|` is dropped."""
        found = []
        for *_, body in self.batches:
            found += [record for record in csv.reader(io.StringIO(body.lstrip(" \t\r\n"), newline="")) if record]
        return found


class Folder:
    """A folder of files, in which calls are made."""

    def __init__(self):
        self.path = tempfile.mkdtemp(prefix="load")

    def __enter__(self):
        return self

    def __exit__(self, *_):
        shutil.rmtree(self.path)

    def put(self, name, content, changed=1709294400):
        path = os.path.join(self.path, name)
        with open(path, "wb") as file:
            file.write(content.encode() if isinstance(content, str) else content)
        os.utime(path, (changed, changed))
        return path

    def read(self, name):
        with open(os.path.join(self.path, name), "rb") as file:
            return file.read()

    def load(self, *words, going_on=False):
        """One call with these words, in this folder."""
        parser = argparse.ArgumentParser()
        parser.add_argument("files", nargs="+")
        parser.add_argument("--into", default="T")
        load_options.add_load_options(parser)
        out, told, before = io.BytesIO(), [], os.getcwd()
        os.chdir(self.path)
        try:
            options = load_options.settled(parser.parse_args(words), going_on)
            status, sent = 0, []
            for part in load_options.parts(options):
                call = loading.Loading(part, out, told.append, progress.Quiet())
                try:
                    call.run()
                except problems.Stopped as fault:
                    call.stop(fault)
                    status = 1
                call.summary()
                sent += call.sent
            return Loaded(status, out.getvalue(), "\n".join(told), self.rejected(options), sent)
        finally:
            os.chdir(before)

    @staticmethod
    def rejected(options):
        if options.rejects is not None:
            options.rejects.close()
        if not hasattr(options.rejects, "path"):
            return None
        with open(options.rejects.path, "rb") as file:
            return file.read()


def loaded(content, *words, name="a.csv"):
    """One file, loaded."""
    with Folder() as folder:
        folder.put(name, content)
        return folder.load(name, *words)


def tag_of(text):
    """The tag of a batch, from the text between the brackets of its JSON."""
    return json.loads(f"[{text}]")[0]
