"""A small checkout with sources, the tools and a stand-in for the program, and releases of it, made as release/make makes them."""
import json
import os
import shutil
import subprocess
import sys
import tempfile
import unittest
from unittest import mock

from load_runs import TOP

import checksums
import gate
import programs
import release

KIT = "kit-of-a-test logic 0"
PACKED = "release/kq_console.xz"
MANIFEST = "release/manifest.json"
# It prints its words, its script and the folder that it was started from, so a test sees whether it ran. It has a MiB, as a program has.
PROGRAM = b"#!/bin/sh\necho ran \"$@\"\ncat\nexit 0\n" + b"# a program has many bytes\n" * (1 << 15)
LINES = ["105 passed, 0 failed\n", "\n", "scripts: 1 ran, 0 differences\n"]
COPIED = ("kq", "kq-log", "check", "release/make", "tools/program", ".ci/run", ".ci/scripts", ".ci/passed", ".ci/release")


class Checkout(unittest.TestCase):
    """Tests in a checkout of their own, with a cache of their own and a stand-in for rt."""

    is_released = False
    """Whether there is a release of its sources."""

    @classmethod
    def setUpClass(cls):
        cls.first = cls("lay_out")
        cls.first.room = tempfile.mkdtemp()
        cls.addClassCleanup(shutil.rmtree, cls.first.room)
        cls.first.lay_out()
        # Each test copies it, so it has few files.
        cls.first.git("gc", "-q")

    def setUp(self):
        folder = tempfile.TemporaryDirectory()
        self.addCleanup(folder.cleanup)
        self.room = os.path.join(folder.name, "room")
        shutil.copytree(self.first.room, self.room, symlinks=True)

    def lay_out(self):
        for path in COPIED:
            self.put(path, self.bytes_of(os.path.join(TOP, path)), 0o755)
        shutil.copytree(os.path.join(TOP, "tools", "lib"), self.path("tools/lib"), ignore=shutil.ignore_patterns("__pycache__"))
        self.put("crates.txt", b"kq_console:\n")
        self.put("HANDLES", b"Handles allowed: none.\n")
        self.put("crates/kq_console/src/main.rt", b"fn main() {}\n")
        self.put("examples/a/a.kql", b"print 1\n")
        self.put("examples/a/a.out", b"ran\nprint 1\n")
        self.put(".gitignore", b"out/\n__pycache__/\n")
        # It says that it is a kit, and that it tried, whatever it is asked to try.
        rt = f"#!/bin/sh\n[ \"$1\" = version ] && echo {KIT} && exit\necho tried\necho 'run=ended status=0' >&2\n"
        self.put("../bin/rt", rt.encode(), 0o755)
        # The tools' python3 is the one of the tests, and not a script that looks for one.
        os.symlink(os.path.realpath(sys.executable), self.path("../bin/python3"))
        self.git("init", "-q", "--template=")
        self.commit()
        if self.is_released:
            self.make_release()

    @property
    def top(self):
        return os.path.join(self.room, "checkout")

    @property
    def cache(self):
        return os.path.join(self.room, "cache")

    def path(self, name):
        return os.path.join(self.top, name)

    @staticmethod
    def bytes_of(path):
        with open(path, "rb") as file:
            return file.read()

    def put(self, name, content, mode=0o644):
        os.makedirs(os.path.dirname(self.path(name)), exist_ok=True)
        with open(self.path(name), "wb") as file:
            file.write(content)
        os.chmod(self.path(name), mode)

    def git(self, *words):
        names = {f"GIT_{who}_{what}": "test@example.org" for who in ("AUTHOR", "COMMITTER") for what in ("NAME", "EMAIL")}
        ran = subprocess.run(["git", *words], cwd=self.top, env={**os.environ, **names}, stdout=subprocess.PIPE, text=True, check=True)
        return ran.stdout.strip()

    def commit(self):
        self.git("add", "-A")
        self.git("commit", "-q", "-m", "A state")

    @property
    def environment(self):
        return {"XDG_CACHE_HOME": self.cache, "PATH": f"{self.room}/bin:{os.environ['PATH']}", "PYTHONDONTWRITEBYTECODE": "1"}

    def run_tool(self, *words, stdin="", before=()):
        """Runs a tool of the checkout, by words that a test may put before it."""
        words = [*before, self.path(words[0]), *words[1:]]
        environment = {**os.environ, **self.environment}
        return subprocess.run(words, input=stdin, stdout=subprocess.PIPE, stderr=subprocess.PIPE, text=True, env=environment, timeout=60)

    def choose(self):
        """What ./kq, ./kq-log and ./check run."""
        with mock.patch.dict(os.environ, self.environment):
            return programs.choose(self.top)

    def pass_gate(self, program=PROGRAM):
        """What the gate leaves where it passes."""
        self.put("crates/kq_console/out/kq_console", program, 0o755)
        with mock.patch.dict(os.environ, self.environment):
            gate.write(self.top, checksums.sources_checksum(self.top), LINES)

    def make_release(self, program=PROGRAM):
        """Makes a release, and takes away what the gate left, as in a fresh clone with that release."""
        self.pass_gate(program)
        made = self.run_tool("release/make")
        self.assertEqual((made.returncode, made.stderr), (0, ""))
        shutil.rmtree(self.path("crates/kq_console/out"))
        self.commit()

    def change_manifest(self, **fields):
        """The release with other fields, whose checksum is right."""
        manifest = release.read(self.path("release"))
        said = {**vars(manifest), **fields}
        changed = release.Manifest(**said)
        self.put("release/manifest.json", json.dumps({**said, "checksum": changed.checksum()}).encode())

    def assertRan(self, found, *told):
        """The program ran, and standard error has just these words."""
        self.assertEqual((found.stdout, found.returncode), ("ran\nprint 1\n", 0), found.stderr)
        for words in told:
            self.assertIn(words, found.stderr)
        if not told:
            self.assertEqual(found.stderr, "")

    def assertCompiled(self, found, *told):
        """The program was not run: the sources were tried instead, and standard error says why in one line that has these words."""
        self.assertEqual(found.stdout, "tried\n", found.stderr)
        lines = [line for line in found.stderr.splitlines() if line.startswith("release: ")]
        self.assertEqual(len(lines), 1 if told else 0, found.stderr)
        self.assertNotIn("Traceback", found.stderr)
        for words in told:
            self.assertIn(words, lines[0])
