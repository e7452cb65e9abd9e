"""Reading replies and scripts."""

import io
import sys
import unittest
from pathlib import Path

sys.path.insert(0, str(Path(__file__).resolve().parents[1] / "lib"))

import replies  # noqa: E402


def commands(text):
    return [command.text for command in replies.commands(io.BytesIO(text))]


class Reading(unittest.TestCase):
    def test_each_reply_is_read_and_printed_again(self):
        text = "done 1\n\nrows 1\na:long\tb:string\n1\tx\\ty\n\nrefused Syntax at 7\n\n"
        found = replies.read(text)
        self.assertEqual([reply.first for reply in found], ["done 1", "rows 1", "refused Syntax at 7"])
        self.assertEqual([reply.is_answer for reply in found], [False, True, False])
        self.assertTrue(found[2].is_refusal)
        self.assertEqual("".join(reply.text() for reply in found), text)

    def test_a_row_may_be_an_empty_line(self):
        found = replies.read("rows 3\na:string\n\n\nx\n\ndone 2\n\n")
        self.assertEqual(list(found[0].rows()), [[""], [""], ["x"]])
        self.assertEqual(found[1].first, "done 2")

    def test_an_answer_may_have_no_columns(self):
        found = replies.read("rows 2\n\n\n\n\ndone 2\n\n")
        self.assertEqual((found[0].columns, list(found[0].rows())), ([], [[], []]))
        self.assertEqual(found[1].first, "done 2")

    def test_names_may_hold_colons_and_tabs(self):
        found = replies.read("rows 0\na:b:long\tx\\ty:string\t:int\n\n")[0]
        self.assertEqual(found.columns, [("a:b", "long"), ("x\ty", "string"), ("", "int")])

    def test_a_text_that_ends_within_an_answer_is_not_whole(self):
        for text in ("rows 2\n", "rows 0\n", "rows 2\na:long\n", "rows 2\na:long\n1\n"):
            self.assertFalse(replies.read(text)[-1].is_whole, text)
        self.assertTrue(replies.read("rows 1\na:long\n1\n")[-1].is_whole)
        self.assertEqual(replies.read(""), [])

    def test_another_text_is_told_with_its_line(self):
        with self.assertRaisesRegex(replies.BadReply, "line 2 is no reply"):
            replies.read("a log\nof two lines\n")
        with self.assertRaisesRegex(replies.BadReply, "line 3 has 1 cells where the header has 2"):
            replies.read("rows 1\na:long\tb:long\n1\n\n")

    def test_a_reply_is_there_before_the_next_one_begins(self):
        lines = iter(["done 1\n", "\n"])
        self.assertEqual(next(iter(replies.Reader(lines))).first, "done 1")


class Cells(unittest.TestCase):
    def test_strings_have_their_own_text(self):
        self.assertEqual(replies.unescape(r"a\\n\tb\r\n"), "a\\n\tb\r\n")
        self.assertEqual(replies.escape("a\\n\tb\r\n"), r"a\\n\tb\r\n")
        self.assertEqual(replies.plain("null", "string"), "null")
        self.assertEqual(replies.plain("null", "long"), "")

    def test_cells_are_values(self):
        self.assertEqual(replies.value("9223372036854775807", "long"), 2**63 - 1)
        self.assertIs(replies.value("true", "bool"), True)
        self.assertIsNone(replies.value("null", "dynamic"))
        self.assertEqual(replies.value('{"a":[1,null]}', "dynamic"), {"a": [1, None]})
        self.assertEqual(replies.value("null", "string"), "null")

    def test_times_are_numbers(self):
        self.assertEqual(replies.seconds("-1.02:03:04.5000000"), -(86400 + 7384.5))
        self.assertEqual(replies.seconds("00:00:00"), 0)
        self.assertEqual(replies.moment("2024-03-01T10:50:03.1234567Z").microsecond, 123456)


class Scripts(unittest.TestCase):
    def test_blank_lines_stand_between_commands(self):
        self.assertEqual(commands(b"a\n\n \t\r\nb\nc\n"), [b"a", b"b\nc"])
        self.assertEqual(commands(b"a\r\n\r\nb"), [b"a\r", b"b"])
        self.assertEqual(commands(b""), [])

    def test_comments_are_no_commands(self):
        self.assertEqual(commands(b"// a\n  // b\n\nc // d\n\n// e\nf\n"), [b"c // d", b"// e\nf"])

    def test_commands_know_their_lines(self):
        self.assertEqual([command.line for command in replies.commands(io.BytesIO(b"\n// a\n\nb\nc\n\nd"))], [4, 7])


if __name__ == "__main__":
    unittest.main()
