"""How ./kq-log loads files: what it says where the program took in something else, and that it goes on at a terminal."""
import os
import pty
import select
import subprocess
import sys
import tempfile
import unittest

from load_runs import TOP

KQ_LOG = [sys.executable, os.path.join(TOP, "kq-log"), "--program", os.path.join(TOP, "tools", "tests", "echo_program.py")]


class Loads(unittest.TestCase):
    def setUp(self):
        folder = tempfile.TemporaryDirectory()
        self.addCleanup(folder.cleanup)
        self.folder = folder.name

    def put(self, name, text):
        with open(os.path.join(self.folder, name), "w") as file:
            file.write(text)

    def test_rows_that_the_program_counts_otherwise_are_told(self):
        # The stand-in takes each line for a row.
        self.put("a.csv", 'n,s\n1,x\n2,"y\nz"\n3,w\n')
        found = subprocess.run(
            [*KQ_LOG, "a.csv", "--batch", "1"], input="", stdout=subprocess.PIPE, stderr=subprocess.PIPE, text=True, cwd=self.folder
        )
        self.assertEqual(found.returncode, 1)
        self.assertIn("kq-log: not as it was sent: a.csv: batch 2: 1 row went out, and 2 went in (tag a.csv 2 of 1 ", found.stderr)
        self.assertEqual(found.stderr.count("not as it was sent"), 1)

    def test_files_of_several_tables(self):
        self.put("a.csv", "n,s\n1,x\n2,y\n")
        self.put("owners.csv", "path,owner\n/a,ann\n")
        words = [*KQ_LOG, "a.csv", "--table", "Owners=owners.csv"]
        found = subprocess.run(words, input="print 1\n", stdout=subprocess.PIPE, stderr=subprocess.PIPE, text=True, cwd=self.folder)
        self.assertEqual(found.returncode, 0, found.stderr)
        self.assertIn("Log: 2 rows went in", found.stderr)
        self.assertIn("Owners: 1 row went in", found.stderr)

    def at_terminal(self, *words):
        """What is shown up to the first prompt."""
        terminal, side = pty.openpty()
        self.addCleanup(os.close, terminal)
        environment = {**os.environ, "XDG_STATE_HOME": self.folder, "TERM": "dumb", "COLUMNS": "300"}
        process = subprocess.Popen([*KQ_LOG, *words], stdin=side, stdout=side, stderr=side, cwd=self.folder, env=environment, start_new_session=True)
        os.close(side)
        seen = b""
        while b"kq> " not in seen and process.poll() is None and select.select([terminal], [], [], 60)[0]:
            try:
                seen += os.read(terminal, 65536)
            except OSError:
                # The other side is closed.
                break
        if b"kq> " in seen and process.poll() is None:
            os.write(terminal, b"\x04")
        return process.wait(60), seen.decode()

    def test_spoiled_records_end_no_load_at_a_terminal(self):
        self.put("a.csv", "n,s\n1,x\n2,y,z\n3,w\n")
        status, seen = self.at_terminal("a.csv")
        self.assertEqual(status, 0, seen)
        self.assertIn("Log: 2 rows went in", seen)
        self.assertIn("wide: 1 rejected; the first: a.csv:3", seen)
        self.assertIn("1 record that didn't go in: a.csv.rejects", seen)
        with open(os.path.join(self.folder, "a.csv.rejects")) as file:
            self.assertEqual(file.read(), "n,s\n2,y,z\n")

    def test_on_decides_at_a_terminal_too(self):
        self.put("a.csv", "n,s\n1,x\n2,y,z\n")
        self.assertEqual(self.at_terminal("a.csv", "--on", "stop")[0], 1)


if __name__ == "__main__":
    unittest.main()
