"""./kq-log and its sessions, with a stand-in for the program."""
import io
import os
import pty
import select
import subprocess
import sys
import tempfile
import unittest

from load_runs import TOP

import sessions

KQ_LOG = os.path.join(TOP, "kq-log")
ECHO = os.path.join(TOP, "tools", "tests", "echo_program.py")


class Sessions(unittest.TestCase):
    def test_replies_are_read_by_their_number_of_rows(self):
        stream = io.BytesIO(b"done 1\n\nrows 2\ns:string\n\n\n\nrows 0\ns:string\n\nrefused Memory\n\n")
        found = [sessions.read_reply(stream) for _ in range(5)]
        self.assertEqual(found, [b"done 1\n", b"rows 2\ns:string\n\n\n", b"rows 0\ns:string\n", b"refused Memory\n", None])

    def test_blocks_of_a_script(self):
        found = list(sessions.blocks(iter(["\n", "a\n", " b\n", " \t\r\n", "\n", "// c\n", "\n", "d"])))
        self.assertEqual(found, [["a", " b"], ["// c"], ["d"]])
        self.assertEqual([sessions.is_comment(block) for block in found], [False, True, False])

    def test_a_question_is_answered_while_the_input_is_open(self):
        program = sessions.Program([sys.executable, ECHO])
        self.assertEqual(program.ask("print 1"), "rows 1\nprint_0:string\nprint 1\n")
        self.assertEqual(program.ask("empty rows"), "rows 2\ns:string\n\n\n")
        program.send("print 2")
        program.send("print 3")
        self.assertEqual(["print 2" in reply or "print 3" in reply for reply in program.replies_so_far()], [True, True])
        self.assertEqual(program.end(), 0)

    def test_an_early_end_is_told(self):
        program = sessions.Program([sys.executable, ECHO])
        with self.assertRaisesRegex(sessions.Ended, "status 3"):
            program.ask("end")
        with self.assertRaises(sessions.Ended):
            program.ask("print 1")
        program.end()


class Calls(unittest.TestCase):
    def setUp(self):
        self.folder = tempfile.TemporaryDirectory()
        self.addCleanup(self.folder.cleanup)
        self.put("a.csv", "n,s\n1,x\n2,y\n3,z\n")

    def put(self, name, text):
        with open(os.path.join(self.folder.name, name), "w") as file:
            file.write(text)

    def run_log(self, *words, stdin=""):
        return subprocess.run(
            [sys.executable, KQ_LOG, *words, "--program", ECHO], input=stdin, stdout=subprocess.PIPE, stderr=subprocess.PIPE, text=True, cwd=self.folder.name
        )

    def test_questions_of_standard_input(self):
        found = self.run_log("a.csv", stdin="// First.\n\nprint 1\n\nprint 2")
        self.assertEqual(found.returncode, 0, found.stderr)
        self.assertTrue(found.stdout.startswith("// First.\n\nprint 1\n"))
        self.assertIn("print 2", found.stdout)
        self.assertIn("Log: 3 rows went in", found.stderr)
        self.assertNotIn("ingested", found.stdout)

    def test_questions_of_a_file_without_their_text(self):
        self.put("q.kql", "print 'a'\n\nempty rows\n")
        found = self.run_log("a.csv", "--questions", "q.kql", "--no-echo", "--into", "T")
        self.assertEqual(found.returncode, 0, found.stderr)
        self.assertEqual(found.stdout.count("empty rows"), 0)
        self.assertIn("print 'a'", found.stdout)
        self.assertIn("T: 3 rows went in", found.stderr)

    def test_batches_that_were_there_are_told(self):
        found = self.run_log("a.csv", "a.csv", "--batch", "2")
        self.assertIn("Log: 3 rows went in, and 2 batches had gone in before", found.stderr)

    def test_a_script_before_the_files(self):
        self.put("first.kql", ".create table Hosts (h:string)\n")
        found = self.run_log("a.csv", "--first", "first.kql")
        self.assertEqual((found.returncode, found.stdout.split("\n")[0]), (0, ".create table Hosts (h:string)"))

    def test_refusals_and_stops_set_the_status(self):
        self.assertEqual(self.run_log("a.csv", stdin="wrong\n").returncode, 1)
        self.put("b.csv", 'n\n"x\n')
        stopped = self.run_log("b.csv", stdin="print 1\n")
        self.assertEqual((stopped.returncode, stopped.stdout), (1, ""))
        self.assertIn("b.csv:2: a quote", stopped.stderr)
        self.assertEqual(self.run_log("a.csv", "--batch", "0").returncode, 2)
        ended = self.run_log("a.csv", stdin="end\n\nprint 1\n")
        self.assertEqual(ended.returncode, 1)
        self.assertIn("the program ended with status 3", ended.stderr)

    def test_a_log_on_standard_input(self):
        self.put("q.kql", "print 1\n")
        self.assertIn("Log: 1 row ", self.run_log("-", "--questions", "q.kql", stdin="n,s\n1,x\n").stderr)
        self.assertEqual(self.run_log("-", stdin="n\n1\n").returncode, 2)


class Terminal(unittest.TestCase):
    """A session at a terminal."""

    def setUp(self):
        self.folder = tempfile.TemporaryDirectory()
        self.addCleanup(self.folder.cleanup)
        with open(os.path.join(self.folder.name, "a.csv"), "w") as file:
            file.write("n,s\n1,x\n")
        self.seen = b""
        self.terminal, side = pty.openpty()
        self.addCleanup(os.close, self.terminal)
        environment = {**os.environ, "XDG_STATE_HOME": self.folder.name, "TERM": "dumb"}
        words = [sys.executable, KQ_LOG, "a.csv", "--program", ECHO]
        self.process = subprocess.Popen(words, stdin=side, stdout=side, stderr=side, cwd=self.folder.name, env=environment, start_new_session=True)
        os.close(side)

    def read_until(self, wanted):
        """What comes up to a text, and the text. What was read behind it is kept for the next call."""
        while wanted not in self.seen:
            if not select.select([self.terminal], [], [], 60)[0]:
                raise AssertionError(f"{wanted!r} doesn't come behind {self.seen!r}")
            self.seen += os.read(self.terminal, 65536)
        found, self.seen = self.seen.split(wanted, 1)
        return found + wanted

    def test_questions_are_typed_answered_and_remembered(self):
        self.assertIn(b"Log", self.read_until(b"kq> "))
        os.write(self.terminal, b"print 1\n")
        self.read_until(b" .. ")
        os.write(self.terminal, b"| count\n\n")
        self.read_until(b"print_0")
        self.read_until(b"kq> ")
        os.write(self.terminal, b"print 2\n\n")
        self.read_until(b"print_0")
        self.read_until(b"kq> ")
        os.write(self.terminal, b"\x04")
        self.assertEqual(self.process.wait(60), 0)
        with open(os.path.join(self.folder.name, "kq-log", "questions.kql")) as file:
            self.assertEqual(file.read(), "print 1\n| count\n\nprint 2\n\n")


if __name__ == "__main__":
    unittest.main()
