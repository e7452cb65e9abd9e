"""Answers as tables, CSV, JSON and Markdown."""

import csv
import io
import json
import sys
import unicodedata
import unittest
from pathlib import Path
from unittest import mock

sys.path.insert(0, str(Path(__file__).resolve().parents[1] / "lib"))

import replies  # noqa: E402
import show  # noqa: E402
import tables  # noqa: E402
from widths import visible, width  # noqa: E402

ANSWER = "rows 3\nHost:string\tN:long\tAt:datetime\tD:dynamic\nweb-1\t7\t2024-03-01T10:00:00.0000000Z\t{\"a\":1}\n" \
    "日本\t-12\tnull\tnull\n\tnull\t2024-03-01T11:00:00.0000000Z\t\"x\"\n\n"


def answer(text):
    return replies.read(text)[0]


def written(write, text, **named):
    out = io.StringIO()
    write(answer(text), out, **named)
    return out.getvalue()


class Plain(unittest.TestCase):
    def test_columns_are_aligned(self):
        self.assertEqual(
            written(tables.write_plain, ANSWER).split("\n"),
            [
                "Host       N  At                    D",
                "string  long  datetime              dynamic",
                "------  ----  --------------------  -------",
                'web-1      7  2024-03-01T10:00:00Z  {"a":1}',
                "日本     -12  null                  null",
                '        null  2024-03-01T11:00:00Z  "x"',
                "(3 rows)",
                "",
            ],
        )

    def test_fractions_stay_where_one_is_not_zero(self):
        text = "rows 2\nAt:datetime\n2024-03-01T10:00:00.0000000Z\n2024-03-01T10:00:00.5000000Z\n\n"
        self.assertIn("10:00:00.0000000Z", written(tables.write_plain, text))

    def test_rows_that_are_not_shown_are_told(self):
        self.assertIn("(3 rows, of which the first 2 are shown)", written(tables.write_plain, ANSWER, limit=2))
        self.assertIn("the text ends here, where 3 rows were announced", written(tables.write_plain, "rows 3\na:long\n1\n"))
        self.assertEqual(written(tables.write_plain, "rows 2\n\n\n\n\n"), "(2 rows without columns)\n")

    def test_nothing_in_a_cell_steers_the_terminal(self):
        self.assertEqual(visible("a\x1b[31m\u202e\x9b"), "a\\x1b[31m\\u202e\\x9b")
        self.assertNotIn("\x1b", written(tables.write_plain, "rows 1\na\x1b:string\nx\x1b[2J\n\n"))

    def test_widths_are_those_of_terminals(self):
        self.assertEqual([width(text) for text in ("abc", "né", "ne\u0301", "日本")], [3, 2, 2, 4])


    def test_a_rule_has_a_limit_and_a_longer_cell_stands_out(self):
        text = "rows 2\nS:string\tN:long\n" + "x" * 5_000_000 + "\t7\ny\t8\n\n"
        lines = written(tables.write_plain, text).split("\n")
        self.assertEqual([len(lines[at]) for at in (0, 1, 2, 4)], [206, 206, 206, 206])
        self.assertEqual(lines[3], "x" * 5_000_000 + "     7")

    def test_a_table_that_is_too_wide_for_its_terminal_has_a_row_a_block(self):
        wide = written(tables.write_plain, ANSWER, room=30).split("\n")
        self.assertEqual(
            wide[:6] + wide[-2:],
            ["row 1", "  Host  web-1", "  N     7", "  At    2024-03-01T10:00:00Z", '  D     {"a":1}', "row 2", "(3 rows)", ""],
        )
        fitting = max(map(width, written(tables.write_plain, ANSWER).split("\n")))
        self.assertTrue(written(tables.write_plain, ANSWER, room=fitting).startswith("Host"))
        self.assertTrue(written(tables.write_plain, ANSWER, room=fitting - 1).startswith("row 1"))

    def test_a_terminal_shows_the_beginning_of_a_long_cell(self):
        text = "rows 1\nS:string\n" + "x" * 5_000_000 + "\n\n"
        self.assertLess(len(written(tables.write_plain, text, room=80)), 5000)
        self.assertIn("… (5,000,000 characters)", written(tables.write_plain, text, room=80))

    def test_what_nobody_sees_is_written_out(self):
        text = "a\x1bb\x07c\x85d\xade\u202ef\u200bg\U000e0041h"
        self.assertEqual(visible(text), "a\\x1bb\\x07c\\x85d\\xade\\u202ef\\u200bg\\U000e0041h")

    def test_all_that_unicode_calls_a_control_or_a_format_is_written_out(self):
        signs = "".join(sign for sign in map(chr, range(sys.maxunicode + 1)) if unicodedata.category(sign) in ("Cc", "Cf", "Cs", "Zl", "Zp"))
        self.assertTrue(visible(signs).isascii())


class ToATerminal(io.StringIO):
    def isatty(self):
        return True


class Forms(unittest.TestCase):
    def test_no_form_steers_a_terminal(self):
        text = "rows 2\nS\x1b:string\tD:dynamic\na\x1b[2J\x9b\u202e\u200b\U000e0041\x7f\t{\"k\":\"\x9b\"}\nb\\nc\tnull\n\n"
        for form in tables.WRITERS:
            out = ToATerminal()
            tables.write(form, answer(text), out)
            self.assertNotRegex(out.getvalue(), "[\x1b\x9b\u202e\u200b\U000e0041\x7f]", form)
        out = ToATerminal()
        tables.write("json", answer(text), out)
        self.assertEqual(json.loads(out.getvalue())[0], {"S\x1b": "a\x1b[2J\x9b\u202e\u200b\U000e0041\x7f", "D": {"k": "\x9b"}})
        out = io.StringIO()
        tables.write("csv", answer(text), out)
        self.assertEqual(list(csv.reader(io.StringIO(out.getvalue(), newline="")))[2], ["b\nc", ""])

    def test_a_sheet_takes_no_cell_for_a_formula(self):
        cells = ["=1+1", "+1", "-1", "@A1", "\\tx", "\\rx", " =1", "＝1", "a=1", ""]
        text = f"rows {len(cells)}\n=a:string\tn:long\tt:timespan\n" + "".join(f"{cell}\t-7\t-00:00:01\n" for cell in cells) + "\n"
        out = io.StringIO()
        tables.write("csv", answer(text), out, formulas=True)
        rows = list(csv.reader(io.StringIO(out.getvalue(), newline="")))
        self.assertEqual([row[0] for row in rows], ["'=a", "'=1+1", "'+1", "'-1", "'@A1", "'\tx", "'\rx", "' =1", "'＝1", "a=1", ""])
        self.assertEqual(rows[1][1:], ["-7", "-00:00:01"])

    def test_csv_is_read_back_as_it_was(self):
        text = 'rows 3\na:string\tb:long\tc:dynamic\nx,"y\\r\\n\\\\\tnull\t{"k":"v"}\n\t1\tnull\n\\r\t2\t[1]\n\n'
        rows = list(csv.reader(io.StringIO(written(tables.write_csv, text), newline="")))
        self.assertEqual(rows[1:], [['x,"y\r\n\\', "", '{"k":"v"}'], ["", "1", ""], ["\r", "2", "[1]"]])

    def test_json_has_values(self):
        found = json.loads(written(tables.write_json, ANSWER))
        self.assertEqual(found[0], {"Host": "web-1", "N": 7, "At": "2024-03-01T10:00:00.0000000Z", "D": {"a": 1}})
        self.assertEqual(found[1]["D"], None)
        self.assertEqual(json.loads(written(tables.write_json, "rows 0\na:long\n\n")), [])

    def test_markdown_keeps_signs_as_they_are(self):
        text = "rows 1\na_b:string\tn:int\n|*x*<b>&amp;$x$~\t3\n\n"
        self.assertEqual(
            written(tables.write_markdown, text), "| a\\_b | n |\n| --- | ---: |\n| \\|\\*x\\*\\<b\\>\\&amp;\\$x\\$\\~ | 3 |\n"
        )


class OnATerminal(unittest.TestCase):
    def shown(self, text, **named):
        out, told = io.StringIO(), io.StringIO()
        show.has.told.clear()
        show.show(text, out, colour=True, places=100, told=told, **named)
        return out.getvalue(), told.getvalue()

    def test_without_rich_one_line_says_what_to_install(self):
        with mock.patch.dict(sys.modules, {"rich": None}):
            out, told = self.shown(ANSWER + ANSWER)
        self.assertEqual(out.count("web-1 "), 2)
        self.assertEqual(told, "look: tables have no colours without rich: apt-get install python3-rich\n")

    def test_with_rich_cells_have_the_colours_of_their_types(self):
        try:
            import rich  # noqa: F401
        except ImportError:
            self.skipTest("rich isn't installed")
        out, told = self.shown("rows 1\nN:long\tS:string\n7\t[red]x[/red] :smile:\n\n")
        self.assertIn("[red]x[/red] :smile:", out)
        self.assertIn("\x1b[36m", out)
        self.assertEqual(told, "")

    def test_a_question_may_hold_bytes_that_are_no_text(self):
        out, _ = self.shown("refused NotText at 7\n\n", script="print '\udcff'")
        self.assertIn("print '\\xff'", out)

    def test_no_reply_steers_the_terminal(self):
        for text in ("refused Cycle a\x1b[2J\u202e\n\n", "done a\x1b[2J\n\n", "rows 1\n\x1b]0;a\x07:string\n\x1b]0;b\x07\n\n"):
            for script in (None, "print '\x1b[2J\u200b'"):
                out = io.StringIO()
                show.show(text, out, script=script, places=80)
                self.assertNotRegex(out.getvalue(), "[\x1b\x07\u202e\u200b]")
                out = io.StringIO()
                show.show(text, out, chart={"kind": "bar"}, places=80)
                self.assertNotRegex(out.getvalue(), "[\x1b\x07\u202e\u200b]")

    def test_refusals_are_red_and_pointed_at(self):
        out, _ = self.shown("done 1\n\nrefused Unknown at 4\n\n", script="a\n\n// no command\n\nb | c")
        self.assertIn("\x1b[1;31mrefused Unknown at 4\x1b[0m\n     5 | b | c\n\x1b[1;31m             ^\x1b[0m\n", out)


if __name__ == "__main__":
    unittest.main()
