"""What can be typed beside questions in ./kq-log, and what its options show."""
import io
import json
import os
import subprocess
import sys
import unittest

from load_runs import Folder
from terminals import CONTROL_D, CONTROL_P, FEEDS, KQ_LOG, Terminal

import sessions
import words


class Reading(unittest.TestCase):
    def test_words_are_told_from_questions(self):
        for line in ("help", " quit ", "exit", "\\tables", "\\csv a.csv", "\\chart bar x=Host y=N", "\\q"):
            self.assertIsNotNone(words.read(line), line)
        for line in ("help | count", "quit | take 1", "Log", "| count", "print '\\tables'"):
            self.assertIsNone(words.read(line), line)

    def test_what_only_looks_like_a_word_is_told(self):
        for line, why in (("\\nope", "there is no"), ("\\csv a b", "takes"), ("\\tables x", "takes nothing"), ("\\csv 'a", "quotation")):
            with self.assertRaisesRegex(words.Unknown, why):
                words.read(line)

    def test_values_of_a_chart_have_names(self):
        found = words.read("\\chart bar x=Host y=N y=M by='a b'")
        self.assertEqual((found.word, found.others, found.named), (words.Word.CHART, ["bar"], {"x": ["Host"], "y": ["N", "M"], "by": ["a b"]}))

    def test_help_has_each_word(self):
        self.assertEqual([word for word in words.Word if word.text not in words.help_text()], [])


class AtATerminal(unittest.TestCase):
    def start(self, *options, **named):
        terminal = Terminal(self, *options, **named)
        terminal.until(b"kq> ")
        return terminal

    def file(self, terminal, name):
        with open(os.path.join(terminal.path, name), newline="", encoding="utf-8") as file:
            return file.read()

    def test_an_answer_is_written_drawn_and_shown_in_other_forms(self):
        terminal = self.start()
        self.assertIn(b"there is no answer yet", terminal.word("\\csv"))
        terminal.ask("Log | count", b"(1 row)")
        self.assertIn(b"1 row written into b.csv", terminal.word("\\csv b.csv"))
        self.assertEqual(self.file(terminal, "b.csv"), "Count\r\n3\r\n")
        self.assertIn(b"is there already", terminal.word("\\csv b.csv"))
        terminal.word("\\json b.json")
        self.assertEqual(json.loads(self.file(terminal, "b.json")), [{"Count": 3}])
        self.assertIn(b"| Count |", terminal.word("\\markdown"))
        self.assertRegex(terminal.word("\\chart bar x=Count y=Count"), "3 +│ █+ 3".encode().replace("█+".encode(), "(█)+".encode()))
        self.assertIn(b"no chart: ", terminal.word("\\chart time"))
        self.assertIn(b"there is no pie chart", terminal.word("\\chart pie"))
        self.assertIn(b"No such file", terminal.word("\\csv nowhere/b.csv"))

    def test_tables_help_and_quit(self):
        terminal = self.start()
        self.assertIn(b"Log (n:long, s:string)  3 rows", terminal.word("\\tables"))
        self.assertIn(b"\\chart", terminal.word("help"))
        terminal.type("quit\n")
        self.assertEqual(terminal.ended(), 0)

    def test_a_question_comes_back_as_a_whole(self):
        terminal = self.start()
        terminal.ask("print 1,\n2", b"(1 row)")
        terminal.ask("print 3", b"(1 row)")
        terminal.type(CONTROL_P + CONTROL_P)
        terminal.type("\n\n")
        self.assertIn(b"print 1,\\n2", terminal.until(b"(1 row)"))
        # Before the prompt, Ctrl-D is no key for readline.
        terminal.until(b"kq> ")
        terminal.type(CONTROL_D)
        self.assertEqual(terminal.ended(), 0)
        kept = self.file(terminal, "kq-log/questions.kql")
        self.assertEqual(kept, "print 1,\n2\n\nprint 3\n\nprint 1,\n2\n\n")

    def test_an_open_question_is_dropped(self):
        terminal = self.start()
        terminal.type("print 1\n")
        terminal.until(b" .. ")
        terminal.drop()
        self.assertIn(b"print 2", terminal.ask("print 2", b"(1 row)"))

    def test_what_a_file_is_called_does_not_steer_the_terminal(self):
        terminal = self.start("b\x1b[2J\u202e.csv", files=[("b\x1b[2J\u202e.csv", "n,s\n4,x\n")])
        self.assertIn(b"\n    4", terminal.ask("Log | count", b"(1 row)"))
        for text in (b"\x1b[2J", "\u202e".encode()):
            self.assertNotIn(text, terminal.shown)
        self.assertIn(b"b\\x1b[2J\\u202e.csv: 1 row", terminal.shown)


class Options(unittest.TestCase):
    def run_log(self, folder, *options, stdin=""):
        return subprocess.run(
            [sys.executable, KQ_LOG, *options, "--program", FEEDS], input=stdin, stdout=subprocess.PIPE, stderr=subprocess.PIPE, text=True, cwd=folder
        )

    def test_a_table_to_look_up_in_is_loaded_without_its_rows(self):
        with Folder() as folder:
            folder.put("a.csv", "n,s\n1,x\n")
            rows = "".join(f"web-{number},shop\n" for number in range(5))
            folder.put("owners.kql", f".create table Owners (h:string, t:string)\n\n.ingest inline into table Owners <|\n{rows}\nnonsense\n")
            found = self.run_log(folder.path, "a.csv", "--setup", "owners.kql", stdin="Owners | count\n")
        self.assertNotIn("web-1", found.stdout)
        self.assertIn("refused Syntax", found.stdout)
        self.assertIn("\n    5\n", found.stdout)
        self.assertEqual(found.returncode, 1)

    def test_the_columns_are_printed_and_nothing_is_loaded(self):
        with Folder() as folder:
            folder.put("a.csv", "n,s\n1,x\n")
            found = self.run_log(folder.path, "a.csv", "--print-schema")
        self.assertEqual((found.returncode, found.stdout), (0, ".create table Log (\n    n:long,\n    s:string\n)\n"), found.stderr)

    def test_a_size_that_is_none_is_refused(self):
        with Folder() as folder:
            folder.put("a.csv", "n,s\n1,x\n")
            for size in ("much", "1K", "-1G"):
                found = self.run_log(folder.path, "a.csv", f"--memory={size}")
                self.assertEqual((found.returncode, found.stdout), (2, ""))
                self.assertIn("--memory", found.stderr)

    def test_words_of_the_command_line_do_not_steer_the_terminal(self):
        with Folder() as folder:
            found = self.run_log(folder.path, "--\x1b[2Jx", "a.csv")
        self.assertEqual(found.returncode, 2)
        self.assertIn("--\\x1b[2Jx", found.stderr)


class Replies(unittest.TestCase):
    def test_rows_that_nobody_wants_are_not_kept(self):
        text = b"rows 3\na:long\n1\n2\n3\n\ndone 1\n\n"
        stream = io.BytesIO(text)
        self.assertEqual([sessions.read_reply(stream, lambda: False) for _ in range(3)], [b"rows 3\n", b"done 1\n", None])


if __name__ == "__main__":
    unittest.main()
