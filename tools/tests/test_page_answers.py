"""The answers that a page holds, what it asks, and the words that it completes."""
import io
import json
import os
import tempfile
import unittest

import page_runs  # noqa: F401, which puts the folders of the tools on the path

import answers
import asks
import page_catalogue
import ends
import engine
import filters
import page_history
import language
import replies
from answers import Answer, Arrangement, read

TEXT = (
    "rows 4\nHost:string\tTook:timespan\tStatus:int\tAt:datetime\tD:dynamic\n"
    "web-2\t00:00:05.2000000\t503\t2024-03-01T11:02:11.0000000Z\tnull\n"
    "web-1\t00:00:00.0370000\tnull\t2024-03-01T11:30:45.0000000Z\t{\"a\":9007199254740993}\n"
    "a\\tb\tnull\t200\tnull\t[1,[2]]\n"
    "WEB-1\t-1.00:00:00\t-4\t2024-03-02T00:00:00.0000000Z\t\"x\"\n"
)


class Reading(unittest.TestCase):
    def test_a_text_is_read_as_the_reader_of_the_tools_reads_it(self):
        for text in (TEXT, "rows 0\na:long\n", "rows 2\na:string\n\n\n", "rows 2\n\n\n\n", "done 7\n", "refused Syntax at 3\n"):
            self.assertEqual(read(text), replies.read(text + "\n")[0], text)

    def test_rows_of_another_number_of_cells_are_no_answer(self):
        with self.assertRaises(replies.BadReply):
            read("rows 1\na:long\tb:long\n1\n")

    def test_a_reply_that_was_cut_is_not_whole(self):
        self.assertTrue(engine.is_whole(TEXT))
        self.assertTrue(engine.is_whole("done 12\n"))
        for text in ("done 1", TEXT[:-1], TEXT[: TEXT.rindex("WEB-1")], "rows 4\n", "rows 1"):
            self.assertFalse(engine.is_whole(text), text)


class Arranging(unittest.TestCase):
    def setUp(self):
        self.answer = Answer(read(TEXT))

    def order(self, **what):
        return list(self.answer.order(Arrangement(**what)))

    def test_rows_are_sorted_by_the_values_of_a_column_with_nulls_as_the_least(self):
        self.assertEqual(self.order(sort=0), [3, 2, 1, 0])
        self.assertEqual(self.order(sort=1), [2, 3, 1, 0])
        self.assertEqual(self.order(sort=2), [1, 3, 2, 0])
        self.assertEqual(self.order(sort=2, descending=True), [0, 2, 3, 1])
        self.assertEqual(self.order(sort=3), [2, 0, 1, 3])

    def test_equal_cells_stay_in_the_order_of_the_answer(self):
        answer = Answer(read("rows 4\na:long\tb:long\n2\t1\n1\t2\n2\t3\n1\t4\n"))
        self.assertEqual(list(answer.order(Arrangement(sort=0))), [1, 3, 0, 2])
        self.assertEqual(list(answer.order(Arrangement(sort=0, descending=True))), [0, 2, 1, 3])

    def test_columns_are_filtered_by_text_or_by_value(self):
        for column, text, wanted in [
            (0, "web-1", [1, 3]),
            (0, "!web-1", [0, 2]),
            (0, "= web-1", [1]),
            (2, ">= 200", [0, 2]),
            (2, "<0", [3]),
            (2, "!= 503", [1, 2, 3]),
            (2, "= null", [1]),
            (1, "> 1s", [0]),
            (1, "<= 00:00:00.0370000", [1, 3]),
            (3, ">= 2024-03-01T11:30", [1, 3]),
            (3, "= 2024-03-01", [0, 1]),
        ]:
            self.assertEqual(self.order(filters=((column, text),)), wanted, text)
        self.assertEqual(self.order(filters=((0, "web"), (2, "> 0"))), [0])
        self.assertEqual(self.order(filters=((0, "web"),), sort=0), [3, 1, 0])

    def test_a_value_of_another_type_is_told(self):
        with self.assertRaisesRegex(filters.FilterError, "five is no int"):
            self.order(filters=((2, "> five"),))

    def test_a_window_has_the_rows_as_tables_show_them(self):
        found = self.answer.window(Arrangement(), 1, 2)
        self.assertEqual(found["total"], 4)
        self.assertEqual(found["rows"][0], [1, ["web-1", "00:00:00.0370000", "null", "2024-03-01T11:30:45Z", '{"a":9007199254740993}']])
        self.assertEqual(found["rows"][1][0], 2)
        self.assertEqual(self.answer.window(Arrangement(), 4, 10)["rows"], [])

    def test_signs_that_turn_text_are_written_out_and_long_cells_cut(self):
        found = Answer(read(f"rows 1\ns:string\na\u202eb{'x' * 1000}\n")).window(Arrangement(), 0, 1)["rows"][0][1][0]
        self.assertTrue(found.startswith("a\\u202eb") and found.endswith("x…"))
        self.assertLess(len(found), 420)

    def test_a_cell_opens_with_its_own_text_and_a_dynamic_as_a_tree(self):
        self.assertEqual(self.answer.cell(2, 0)["text"], "a\tb")
        tree = self.answer.cell(1, 4)["tree"]
        self.assertEqual(tree, {"kind": "dict", "count": 1, "children": [["a", {"kind": "int", "text": "9007199254740993"}]]})
        self.assertTrue(self.answer.cell(0, 4)["null"])

    def test_copies_and_files_have_the_arranged_rows(self):
        by_host = Arrangement(filters=((0, "web"),), sort=0)
        self.assertEqual(self.answer.copied(by_host, "cells", 0, 2, [0, 2]), "WEB-1\t-4\nweb-1\t")
        rows = list(answers.csv.DictReader(io.StringIO(self.answer.copied(by_host, "csv", 0, 3, []), newline="")))
        self.assertEqual([row["Host"] for row in rows], ["WEB-1", "web-1", "web-2"])
        values = json.loads(self.answer.copied(by_host, "json", 1, 1, []))
        self.assertEqual(values, [{"Host": "web-1", "Took": "00:00:00.0370000", "Status": None, "At": "2024-03-01T11:30:45.0000000Z", "D": {"a": 9007199254740993}}])
        with self.assertRaisesRegex(ValueError, "too many to copy"):
            self.answer.copied(by_host, "csv", 0, 100_001, [])

    def test_a_chart_is_that_of_the_tools_over_the_rows_that_are_shown(self):
        answer = Answer(read("rows 3\nAt:datetime\tn:long\n" + "".join(f"2024-03-01T1{at}:00:00.0000000Z\t{at}\n" for at in range(3))))
        self.assertEqual(answer.kind_of_chart(), "time")
        found = answer.drawn(Arrangement(filters=((1, "> 0"),)), "time", None, [], None)
        self.assertEqual([y for _, y in found["series"][0]["points"]], [1, 2])
        self.assertIsNone(Answer(read("rows 1\nn:long\n1\n")).kind_of_chart())


class Asking(unittest.TestCase):
    def test_one_block_is_asked_at_a_time(self):
        self.assertEqual(asks.one_block("\nLog\n| count\n \n"), ["Log", "| count"])
        for text in ("Log\n\nLog", " \n", "", "Log\n\t\r\n#export e", "\ud800", None, 7):
            with self.assertRaises(asks.BadCall):
                asks.one_block(text)

    def test_commands_that_write_files_are_known_whatever_stands_between_their_tokens(self):
        for text in ("#export e", " # export e", "// note\n#export e", "#// note\n export e", "#\nexport\ne", "#export// over\ne", "#export over", "#export e // over T { T }"):
            self.assertTrue(asks.writes_files(text), text)
        for text in ("#export e over T { T }", "#export e // c\n over T {T}", "#fold V", "T | where a == '#export e'", "// #export e", "#exported"):
            self.assertFalse(asks.writes_files(text), text)

    def test_a_refusal_has_its_place_as_an_editor_counts_and_the_sentence_of_the_page(self):
        text = "Log // 😀 né\n| where N == '😀' and Staus >= 500"
        found, _ = asks.reply_of(f"refused Unknown at {len(text[: text.index('Staus')].encode())}\n", text)
        line = text.split("\n")[1]
        self.assertEqual(found["place"], {"line": 1, "column": len(line[: line.index("Staus")].encode("utf-16-le")) // 2})
        self.assertEqual(found["sentences"], ["Unknown at N: there is no table, column, let or function of the name at N"])

    def test_a_refusal_without_a_place_has_none(self):
        found, _ = asks.reply_of("refused Overflow stage 2\n", "print 1")
        self.assertIsNone(found["place"])
        self.assertIn("outside its type", found["sentences"][0])


class Beside(unittest.TestCase):
    def test_the_words_are_those_of_the_page_of_the_language(self):
        words = language.words()
        self.assertLessEqual({"strcat", "iif", "bin", "todynamic", "parse_json"}, set(words["functions"]))
        self.assertEqual(set(words["aggregates"]), {"count", "sum", "min", "max", "arg_max", "arg_min", "take_any", "make_set"})
        self.assertLessEqual({"where", "filter", "project-away", "mv-expand", "join", "union", "print", "range"}, set(words["operators"]))
        self.assertLessEqual({".create table", ".ingest inline", "#fold", "#merge", "#export"}, set(words["commands"]))
        self.assertEqual(len(words["joins"]), 9)
        self.assertEqual(words["functions"]["substring"]["form"], "substring(s, from)")

    def test_an_end_is_told_in_the_words_of_the_page_of_statuses(self):
        self.assertIn("out of memory", ends.sentence(1))
        self.assertIn("SIGKILL", ends.sentence(-9))
        self.assertEqual(ends.sentence(77), "The program ended with status 77.")

    def test_members_that_were_seen_are_a_tree(self):
        sample = read('rows 3\nD:dynamic\tn:long\n{"a":{"b":1}}\t1\n{"a":{"c":[{"d":1}]}}\t2\nnull\t3\n')
        self.assertEqual(page_catalogue.columns_of(sample)[0]["members"], {"a": {"b": {}, "c": {"d": {}}}})

    def test_the_text_of_a_policy_is_kept_when_it_was_set(self):
        found = page_catalogue.Catalogue(None)
        found.note(".alter table T policy update '[]'", "done 3")
        found.note(".alter table ['a b'] policy update '[1]'", "done 4")
        found.note(".alter table U policy update '[]'", "refused Unknown at 13")
        self.assertEqual(found.policies, {"T": "'[]'", "a b": "'[1]'"})

    def test_the_history_outlives_the_page_and_no_one_else_reads_it(self):
        with tempfile.TemporaryDirectory() as folder:
            path = os.path.join(folder, "kq-page", "history.jsonl")
            first = page_history.History(path)
            for text in ("Log", "Log | count", "Log | count", "Log"):
                first.add(text, "rows 1")
            with open(path, "a") as file:
                file.write("no entry\n{}\n")
            again = page_history.History(path)
            self.assertEqual([one["text"] for one in again.latest()], ["Log", "Log | count"])
            self.assertEqual(os.stat(path).st_mode & 0o777, 0o600)


if __name__ == "__main__":
    unittest.main()
