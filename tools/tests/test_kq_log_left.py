"""A question at a terminal that is left, and the ends of ./kq-log: nothing that it started is there behind it."""
import contextlib
import os
import signal
import time
import unittest

from terminals import CONTROL_C, CONTROL_D, Terminal, children, is_there, soon

LEFT = b"left running"


class Left(unittest.TestCase):
    def start(self, *words, **named):
        terminal = Terminal(self, *words, **named)
        terminal.until(b"kq> ")
        return terminal

    def begin(self, terminal, text="slow never"):
        """Asks a question, and gives when the program has it."""
        asked = self.asked(terminal)
        terminal.type(text + "\n\n")
        self.assertTrue(soon(lambda: self.asked(terminal) > asked))

    @staticmethod
    def asked(terminal):
        return sum(name.startswith("asked-") for name in os.listdir(terminal.path))

    def leave(self, terminal, text="slow never"):
        """Asks a question and leaves it, once the program has it."""
        self.begin(terminal, text)
        terminal.type(CONTROL_C)
        terminal.until(LEFT)
        terminal.until(b"kq> ")

    def gone(self, terminal, processes):
        """All processes have ended, and no file is left."""
        self.assertTrue(processes)
        self.assertTrue(soon(lambda: not any(map(is_there, processes))), "a process is left")
        self.assertEqual(os.listdir(terminal.temporary), [])

    def test_the_next_question_is_answered_at_once_over_the_same_table(self):
        terminal = self.start()
        processes = children(terminal.process.pid)
        self.leave(terminal)
        took = []
        for _ in range(3):
            began = time.monotonic()
            self.assertIn(b"\n    3", terminal.ask("Log | count", b"(1 row)"))
            took.append(time.monotonic() - began)
        # The least of several, since the machine may do something else for a while.
        self.assertLess(min(took), 1)
        terminal.type(CONTROL_D)
        self.assertEqual(terminal.ended(), 0)
        self.assertNotIn(b"kq_console", terminal.rest())
        self.gone(terminal, processes)

    def test_nothing_outlives_a_tool_that_is_killed(self):
        for number in (signal.SIGKILL, signal.SIGTERM, signal.SIGHUP):
            terminal = self.start()
            processes = children(terminal.process.pid)
            self.leave(terminal)
            terminal.process.send_signal(number)
            self.assertNotEqual(terminal.ended(), 0)
            self.gone(terminal, processes)
            self.assertNotIn(b"kq_console", terminal.rest())

    def test_nothing_outlives_a_tool_that_is_killed_while_a_question_is_answered(self):
        terminal = self.start()
        processes = children(terminal.process.pid)
        self.begin(terminal)
        terminal.process.kill()
        terminal.process.wait()
        self.gone(terminal, processes)

    def test_a_late_answer_is_dropped_and_its_session_taken_again(self):
        terminal = self.start()
        self.leave(terminal, "slow go")
        self.assertIn(b"1 question running", terminal.word("\\running"))
        self.assertIn(b"\n    3", terminal.ask("Log | count", b"(1 row)"))
        terminal.put("go")
        self.assertTrue(soon(lambda: b"0 questions running" in terminal.word("\\running")))
        for number in range(8):
            self.assertNotIn(b"late answer", terminal.ask(f"print {number}", b"(1 row)"))

    def test_a_change_that_was_left_is_told_and_kept(self):
        terminal = self.start()
        self.leave(terminal, "change go")
        terminal.put("go")
        self.assertTrue(soon(lambda: b"what was left is answered: done" in terminal.word("\\running")))
        asked = self.asked(terminal)
        terminal.word("\\reload")
        self.assertEqual(self.asked(terminal), asked)
        self.assertIn(b"Change", terminal.ask(".show journal", b"rows)"))

    def test_what_was_given_is_loaded_again(self):
        terminal = self.start()
        for text in (".create table T (n:long)", ".ingest inline into table T <|\n1\n2"):
            terminal.ask(text, b"done" if "create" in text else b"ingested")
        self.assertIn(b"loaded again: 5 rows", terminal.word("\\reload"))
        self.assertIn(b"\n    2", terminal.ask("T | count", b"(1 row)"))

    def test_where_all_sessions_are_taken_it_offers_to_load_again(self):
        terminal = self.start()
        before = children(terminal.process.pid)
        for _ in range(8):
            self.leave(terminal)
        terminal.type("Log | count\n\n")
        terminal.until(b"8 sessions of the program are taken")
        terminal.until(b"[y/N] ")
        terminal.type("n\n")
        terminal.until(b"kq> ")
        terminal.type("#export X\n\n")
        terminal.until(b"exports run in the first session, which is taken")
        terminal.until(b"[y/N] ")
        terminal.type("n\n")
        terminal.until(b"kq> ")
        terminal.type("Log | count\n\n")
        terminal.until(b"[y/N] ")
        terminal.type("y\n")
        terminal.until(b"loaded again: 3 rows")
        self.assertIn(b"\n    3", terminal.until(b"(1 row)"))
        self.gone(terminal, before)

    def test_a_program_that_is_refused_memory_is_told_and_can_be_loaded_again(self):
        terminal = self.start("--memory", "300M")
        self.leave(terminal)
        terminal.type("hoard\n\n")
        terminal.until(b"refused Memory")
        terminal.until(b"It may take 300 MB, which --memory changes. What was left still runs, and takes some of it: 1 question.")
        terminal.until(b"[y/N] ")
        terminal.type("y\n")
        terminal.until(b"loaded again: 3 rows")

    def test_an_answer_that_is_long_is_not_shown_to_its_end(self):
        terminal = self.start()
        terminal.word("\\rows 0")
        terminal.type("long 300000\n\n")
        terminal.until(b"7\r\n")
        terminal.type(CONTROL_C)
        terminal.until(b"the rest isn't shown")
        terminal.until(b"kq> ")
        self.assertIn(b"\n    3", terminal.ask("Log | count", b"(1 row)"))

    def test_a_question_that_takes_long_is_told_how_to_be_left(self):
        terminal = self.start()
        terminal.type("slow go\n\n")
        terminal.until(b"Ctrl-C leaves it running")
        terminal.put("go")
        terminal.until(b"late answer")

    def test_no_number_of_interrupts_ends_the_session(self):
        terminal = self.start()
        begins = (lambda: None, lambda: terminal.type("print 1\n"), lambda: self.begin(terminal), lambda: terminal.type("help\n"))
        for number, begin in enumerate(begins):
            begin()
            for _ in range(60):
                terminal.type(CONTROL_C)
                time.sleep(0.002)
            self.assertTrue(soon(lambda: self.is_answered(terminal, f"print 'here {number}'")))

    @staticmethod
    def is_answered(terminal, question):
        """Whether a question is answered, which an interrupt that came late drops."""
        terminal.type(question + "\n\n")
        with contextlib.suppress(AssertionError):
            return terminal.until(question.encode() + b"\r\n(1 row)", 2)

    def test_an_interrupt_of_a_load_waits_for_all_of_it(self):
        terminal = self.start()
        terminal.put("go")
        terminal.ask("change go", b"done")
        os.unlink(os.path.join(terminal.path, "go"))
        os.unlink(os.path.join(terminal.path, "asked-1"))
        terminal.type("\\reload\n")
        self.assertTrue(soon(lambda: self.asked(terminal)))
        terminal.type(CONTROL_C)
        terminal.until(b"Ctrl-C waits until all is loaded again")
        terminal.put("go")
        terminal.until(b"loaded again: 3 rows")
        terminal.until(b"kq> ")
        self.assertIn(b"\n    3", terminal.ask("Log | count", b"(1 row)"))

    def test_a_status_of_the_program_is_not_printed(self):
        terminal = self.start()
        self.assertNotIn(b"kq_console", terminal.ask("loud", b"(0 rows)"))


if __name__ == "__main__":
    unittest.main()
