"""The program itself at a terminal, by ./kq-log: a question that is left, its ends, and its limit of memory.

These tests need the proved program, or another one that KQ_PROGRAM names."""
import os
import time
import unittest

from load_runs import PROGRAM
from terminals import CONTROL_C, CONTROL_D, Terminal, children, is_there, soon, used

# 333 thousand millions of pairs, which take hours. What they hold grows all the while.
MINUTES = "range a from 1 to 1000000 step 1 | extend k = a % 3 | join kind=inner (range b from 1 to 1000000 step 1 | extend k = b % 3) on k | count"
HELD = "holds [0-9.]+ [kMG]B of 1 GB"


@unittest.skipUnless(PROGRAM, "the proved program isn't built")
class AtATerminal(unittest.TestCase):
    def start(self, *words):
        terminal = Terminal(self, *words, program=os.path.realpath(PROGRAM))
        terminal.until(b"kq> ")
        return terminal, children(terminal.process.pid)

    def begin(self, terminal, process):
        """Asks a question of minutes, and gives when the program is at it."""
        before = used(process)
        terminal.type(MINUTES + "\n\n")
        self.assertTrue(soon(lambda: used(process) > before + 0.2))

    def leave(self, terminal, process):
        self.begin(terminal, process)
        terminal.type(CONTROL_C)
        self.assertRegex(terminal.until(b"kq> ").decode(), f"left running, and its answer is dropped; . of 8 sessions taken.*{HELD}")

    def counted(self, terminal):
        """The seconds that it takes to be told of three rows."""
        began = time.monotonic()
        self.assertIn(b"\n    3", terminal.ask("Log | count", b"(1 row)"))
        return time.monotonic() - began

    def gone(self, terminal, processes):
        """All processes have ended, and no file is left."""
        self.assertTrue(processes)
        self.assertTrue(soon(lambda: not any(map(is_there, processes))), "a process is left")
        self.assertEqual(os.listdir(terminal.temporary), [])

    def test_behind_a_join_that_is_left_the_next_question_is_answered_within_a_second(self):
        terminal, processes = self.start("--memory", "1G")
        self.leave(terminal, processes[0])
        # The least of several, since the machine may do something else for a while.
        self.assertLess(min(self.counted(terminal) for _ in range(3)), 1)
        self.assertIn(b"1 question running", terminal.word("\\running"))
        self.assertIn(b"Log (n:long, s:string)  3 rows", terminal.word("\\tables"))
        terminal.type(CONTROL_D)
        self.assertEqual(terminal.ended(), 0)
        self.assertNotIn(b"kq_console", terminal.rest())
        self.gone(terminal, processes)

    def test_the_program_does_not_outlive_a_tool_that_is_killed(self):
        for asks in (self.leave, self.begin):
            terminal, processes = self.start("--memory", "1G")
            asks(terminal, processes[0])
            terminal.process.kill()
            terminal.process.wait()
            self.gone(terminal, processes)
            self.assertNotIn(b"kq_console", terminal.rest())

    def test_a_question_that_needs_more_than_the_limit_is_refused_and_the_tables_stay(self):
        terminal, processes = self.start("--memory", "128M")
        terminal.type(MINUTES + "\n\n")
        terminal.until(b"refused Memory")
        terminal.until(b"It may take 128 MB, which --memory changes.")
        terminal.until(b"[y/N] ")
        terminal.type("n\n")
        terminal.until(b"kq> ")
        self.counted(terminal)
        self.assertIn(b"loaded again: 3 rows", terminal.word("\\reload"))
        self.gone(terminal, processes)
        self.counted(terminal)


if __name__ == "__main__":
    unittest.main()
