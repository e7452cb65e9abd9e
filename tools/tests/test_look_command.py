"""The command tools/look, as it is called."""

import json
import subprocess
import sys
import tempfile
import unittest
from pathlib import Path

LOOK = Path(__file__).resolve().parents[1] / "look"
REPLIES = "done 1\n\nrows 2\nHost:string\tN:long\nweb-1\t7\nweb-2\t9\n\nrefused Unknown at 0\n\nrows 1\nCount:long\n2\n\n"
SCRIPT = ".create table T (Host:string, N:long)\n\nT\n\nNowhere | count\n\nT | count\n"


def look(*words, text=REPLIES):
    ran = subprocess.run(
        [sys.executable, LOOK, *words], input=text.encode(), stdout=subprocess.PIPE, stderr=subprocess.PIPE, timeout=60
    )
    return ran.returncode, ran.stdout.decode(), ran.stderr.decode()


class Command(unittest.TestCase):
    def test_help_has_examples(self):
        status, out, _ = look("--help", text="")
        self.assertEqual(status, 0)
        self.assertIn("examples:", out)

    def test_all_replies_are_shown(self):
        status, out, told = look()
        self.assertEqual((status, told), (1, ""))
        self.assertEqual(out.split("\n\n")[0], "done 1")
        self.assertIn("web-1   7".replace("   ", "      "), out)
        self.assertIn("refused Unknown at 0", out)
        self.assertEqual(look(text="done 1\n\n")[:2], (0, "done 1\n\n"))

    def test_a_script_gives_the_lines_of_refused_commands(self):
        with tempfile.NamedTemporaryFile("w", suffix=".kql") as script:
            script.write(SCRIPT)
            script.flush()
            out = look("--script", script.name)[1]
        self.assertIn("     5 | Nowhere | count\n         ^\n", out)

    def test_answers_are_chosen_from_both_ends(self):
        self.assertEqual(look("--csv", "--answer", "1")[:2], (0, "Host,N\r\nweb-1,7\r\nweb-2,9\r\n"))
        self.assertEqual(json.loads(look("--json", "--answer", "-1")[1]), [{"Count": 2}])
        self.assertEqual(json.loads(look("--json", "--answer", "2")[1]), [{"Count": 2}])
        status, out, told = look("--csv", "--answer", "3")
        self.assertEqual((status, out), (1, ""))
        self.assertIn("there is no answer 3", told)

    def test_refusals_are_told_where_the_form_has_no_place_for_them(self):
        status, out, told = look("--csv")
        self.assertEqual((status, out), (1, "Host,N\r\nweb-1,7\r\nweb-2,9\r\n\nCount\r\n2\r\n"))
        self.assertIn("look: reply 3 is refused Unknown at 0", told)

    def test_a_text_that_ends_early_is_told(self):
        status, out, told = look("--csv", text="rows 3\na:long\n1\n")
        self.assertEqual((status, out), (1, "a\r\n1\r\n"))
        self.assertIn("rows 3 were announced, and the text ends after 1", told)

    def test_a_text_without_answers_is_told_where_one_is_asked_for(self):
        self.assertEqual(look(text=""), (0, "", ""))
        self.assertEqual(look("--csv", text="done 1\n\n"), (1, "", "look: there is no answer\n"))

    def test_another_text_is_told(self):
        status, _, told = look(text="one line\nand another\n")
        self.assertEqual(status, 1)
        self.assertIn("line 2 is no reply", told)

    def test_a_chart_that_cannot_be_drawn_leaves_the_table(self):
        status, out, _ = look("--answer", "1", "--chart", "time")
        self.assertEqual(status, 1)
        self.assertIn("no chart: no column is left for the x of a time chart", out)
        self.assertIn("(2 rows)", out)

    def test_a_chart_is_drawn(self):
        status, out, _ = look("--answer", "1", "--chart", "bar")
        self.assertEqual(status, 0)
        self.assertRegex(out, "web-2 │ █+ 9")

    def test_options_that_do_not_fit_are_told(self):
        for words in (("--x", "N"), ("--csv", "--json"), ("--answer", "0"), ("--chart", "pie"), ("--rows", "-1"), ("--rows", "1", "--csv")):
            self.assertEqual(look(*words)[0], 2, words)

    def test_rows_are_cut_where_it_is_asked_for(self):
        self.assertIn("of which the first 1 are shown", look("--rows", "1")[1])

    def test_a_reply_is_shown_while_the_pipe_is_open(self):
        with subprocess.Popen([sys.executable, LOOK], stdin=subprocess.PIPE, stdout=subprocess.PIPE) as running:
            running.stdin.write(b"done 1\n\n")
            running.stdin.flush()
            self.assertEqual(running.stdout.readline(), b"done 1\n")
            running.stdin.close()
            running.stdout.read()
        self.assertEqual(running.returncode, 0)

    def test_a_reader_that_leaves_is_no_fault(self):
        text = "rows 100000\na:long\n" + "1\n" * 100000 + "\n"
        with subprocess.Popen([sys.executable, LOOK, "--csv"], stdin=subprocess.PIPE, stdout=subprocess.PIPE, stderr=subprocess.PIPE) as running:
            running.stdout.close()
            try:
                running.stdin.write(text.encode())
                running.stdin.close()
            except BrokenPipeError:
                pass
            self.assertEqual(running.stderr.read(), b"")
            self.assertEqual(running.wait(60), 0)


if __name__ == "__main__":
    unittest.main()
