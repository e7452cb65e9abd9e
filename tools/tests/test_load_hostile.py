"""Names that would steer a terminal, in what the loader prints."""
import os
import re
import subprocess
import sys
import tempfile
import unittest

from load_runs import TOP, loaded

LOAD = [sys.executable, os.path.join(TOP, "tools", "load")]
KQ_LOG = [sys.executable, os.path.join(TOP, "kq-log"), "--program", os.path.join(TOP, "tools", "tests", "echo_program.py")]
BAD = "\x1b]0;x\x07\x9b2J\u202e\u200f"
CONTROL_SIGNS = re.compile("[\x00-\x09\x0b-\x1f\x7f-\x9f\u200e\u200f\u202a-\u202e]")


class Names(unittest.TestCase):
    def run_in(self, words, files, stdin=""):
        with tempfile.TemporaryDirectory() as folder:
            for name, content in files.items():
                with open(os.path.join(os.fsencode(folder), os.fsencode(name)), "w") as file:
                    file.write(content)
            return subprocess.run(words, input=stdin.encode(), stdout=subprocess.PIPE, stderr=subprocess.PIPE, cwd=folder)

    def test_names_of_files_columns_and_tables_are_escaped(self):
        name = f"a{BAD}.csv"
        files = {name: f"n{BAD},s\n1,{BAD}\nx,y\n", "b.csv": f"n,n{BAD}\nx,1\n"}
        for words in (
            [*LOAD, name, "--into", "T" + BAD],
            [*LOAD, name, "--into", "T", "--type", f"n{BAD}:long"],
            [*LOAD, name, "b.csv", "--into", "T", "--type", f"{BAD}:longer"],
            [*LOAD, name, "--into", "T", "--print-schema"],
            [*KQ_LOG, name, "--into", "T" + BAD],
            [*LOAD, "no" + BAD, "--into", "T"],
        ):
            with self.subTest(words=words[2:]):
                found = self.run_in(words, files)
                self.assertIsNone(CONTROL_SIGNS.search(found.stderr.decode()), found.stderr)
                self.assertIn(b"\\x1b", found.stderr)
                if "--print-schema" in words:
                    self.assertIsNone(CONTROL_SIGNS.search(found.stdout.decode()))

    def test_escaped_names_mean_the_same(self):
        self.assertEqual(loaded(f"a\x1bb,c\u202ed\n1,2\n", "--header").columns, r"['a\u001bb']:long, ['c\u202ed']:long")

    def test_a_file_name_that_isnt_utf8_loads(self):
        for words in ([*LOAD, os.fsdecode(b"a\xff.csv"), "--into", "T"], [*KQ_LOG, os.fsdecode(b"a\xff.csv")]):
            found = self.run_in(words, {os.fsdecode(b"a\xff.csv"): "n\n1\nx\n"})
            self.assertEqual(found.returncode, 0, found.stderr)
            self.assertIn(b"a\\udcff.csv", found.stderr)


if __name__ == "__main__":
    unittest.main()
