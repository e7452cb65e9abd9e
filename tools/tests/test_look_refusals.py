"""What is said of a refusal."""

import sys
import unittest
from pathlib import Path

sys.path.insert(0, str(Path(__file__).resolve().parents[1] / "lib"))

import from_kql  # noqa: E402
import refusals  # noqa: E402
from replies import Command  # noqa: E402

EACH = [
    ("refused Memory", "T"),
    ("refused TooLong bytes 16777217", "T"),
    ("refused NotText at 3", "T"),
    ("refused Syntax at 3", "T"),
    ("refused Deep at 3", "T"),
    ("refused Unsupported at 3", "T"),
    ("refused Exists at 3", ".create table T (a:long)"),
    ("refused Full limit 1000", ".create table T (a:long)"),
    ("refused Type at 3", ".alter-merge table T (a:long)"),
    ("refused BadTags at 3", ".ingest inline into table T <|"),
    ("refused WideRow row 3", ".ingest inline into table T <|"),
    ("refused PolicyFailed target my T cause Overflow stage 2", ".ingest inline into table T <|"),
    ("refused PolicyFailed target T cause Full limit 1048576", ".ingest inline into table T <|"),
    ("refused BadPolicy entry 0 Form", ".alter table T policy update ''"),
    ("refused Cycle my table", ".alter table T policy update ''"),
    ("refused BadView at 3", ".create async materialized-view V on table T { T }"),
    ("refused Exists at 3", ".create ifnotexists materialized-view V on table T { T }"),
    ("refused Overflow stage 2", "#fold V"),
    ("refused NoExporter", "#export X over T { T }"),
    ("refused BadExport at 3", "#export X over T { T }"),
    ("refused Exists at 3", "# export X\nover T { T }"),
    ("refused Full limit 64", "#export X over T { T }"),
    ("refused NoExporter", "#export X"),
    ("refused Unknown at 8", "#export over"),
    ("refused ArtefactFault", "#export X"),
    ("refused Unknown at 3", "#merge T"),
    ("refused Unknown at 3", ".show table T extents"),
    ("refused Overflow stage 2", "T"),
    ("refused Full limit 1048576", "T"),
]


class Sentences(unittest.TestCase):
    def test_the_page_has_a_sentence_for_each_refusal_of_each_command(self):
        for refusal, command in EACH:
            found = refusals.sentences(refusal, command)
            self.assertTrue(found, (refusal, command))
            self.assertTrue(all(sentence.startswith(refusal.split()[1]) for sentence in found[:1]), found)

    def test_each_heading_is_on_the_page(self):
        headings = {heading for heading, _, _ in refusals.rows_of(refusals.PAGE.read_text(encoding="utf-8"))}
        self.assertEqual(headings, {heading for _, heading in refusals.HEADINGS} | {refusals.EVERY})

    def test_a_sentence_is_that_of_the_command(self):
        exists = refusals.sentences("refused Exists at 14", "// first\n.create table T (a:long)")
        self.assertEqual(exists, ["Exists at N: the name at N is that of a table with other columns, or of a view"])
        self.assertGreater(len(refusals.sentences("refused Type at 3")), 3)
        self.assertEqual(refusals.sentences("refused Exists at 3", "T"), [])

    def test_a_definition_and_a_run_of_an_export_have_their_own(self):
        self.assertEqual(refusals.sentences("refused Unknown at 8", "#export over"), ["Unknown at N: there is no export of the name at N"])
        defined = refusals.sentences("refused Unknown at 17", "#export over over T { T }")
        self.assertEqual(defined, ["Unknown at N: there is no table, column or function of the name at N"])
        self.assertEqual(refusals.sentences("refused ArtefactFault", "#export X over T { T }"), [])

    def test_the_word_of_a_bad_policy_is_explained(self):
        found = refusals.sentences("refused BadPolicy entry 3 Schema", ".alter table T policy update ''")
        self.assertEqual(found[1:], ["Schema: its columns aren't those of the table with the policy, in their order"])

    def test_the_numbers_of_limits_count(self):
        found = refusals.sentences("refused Full limit 256", ".create table T (a:long)")
        self.assertEqual(found, ["Full limit 256: there are more than 256 columns"])


class WordsOfKql(unittest.TestCase):
    """What the page for whoever knows the language says of words that are refused."""

    def test_each_row_of_the_page_is_found_by_its_own_refusal(self):
        rows = from_kql.rows()
        self.assertGreater(len(rows), 30)
        for row in rows:
            self.assertIn(row.instead, [found.instead for found in rows if found.key == row.key])
            self.assertNotIn(row.key[1], ("", "|"))

    def test_a_refused_word_has_what_to_write_here(self):
        for command, word, instead in (
            ("T | summarize X = avg(a) by b", "avg", "Sum / N"),
            ("// first\nT\n| summarize dcount(a)", "dcount", "array_length(Set)"),
            ("T | summarize countif(a > '| x')", "countif", "sum(iff("),
            ("T | summarize percentile(a, 95)", "percentile", "sort by Took asc"),
            ("T | extend é = 'é', p = prev(a)", "prev", "join kind="),
        ):
            self.assertIn(instead, self.hint("Unknown", command, word), command)
        for command, word, instead in (
            ("T | parse a with '/' b", "parse", "split(Path, '/')"),
            ("T | render timechart", "render", "\\chart"),
            ("T | where a = 3", "=", "where Status == 503"),
            ("T | where a in (U | project a)", "| project", "leftsemi"),
            ("T | lookup U on a", "lookup", "leftouter"),
            ("T | make-series N = count() on b step 1h", "make-series", "bin(Timestamp, 1h)"),
            ("T | join U on a", "U on", "join kind=inner (Hosts)"),
        ):
            self.assertIn(instead, self.hint("Syntax", command, word), command)
        self.assertIn("+ 30m)", self.hint("Type", "T | where t between (now() .. 5m)", "between"))

    def test_other_refusals_have_none(self):
        for kind, command, word in (
            ("Unknown", "T | where avgs == 3", "avgs"),
            ("Unknown", "T | project Host", "Host"),
            ("Syntax", "T | extend a == 3", "=="),
            ("Syntax", "T | where a b", "b"),
        ):
            self.assertEqual(self.hint(kind, command, word), "", command)
        self.assertEqual(from_kql.hints("refused Memory", "T | render x"), [])

    def hint(self, kind, command, word):
        place = len(command[: command.index(word)].encode())
        found = refusals.explain(f"refused {kind} at {place}", Command(1, command.encode()), page="")
        return "\n".join(text for style, text in found if style == "sentence")


class Places(unittest.TestCase):
    def lines(self, text, refusal, line=1):
        found = refusals.explain(refusal, Command(line, text if isinstance(text, bytes) else text.encode()), page="")
        return [text for _, text in found]

    def test_the_caret_stands_under_the_byte(self):
        self.assertEqual(self.lines("a\nbb | c", "refused Unknown at 7", 10), ["    11 | bb | c", "              ^"])
        self.assertEqual(self.lines("a |", "refused Syntax at 3"), ["     1 | a |", "            ^"])

    def test_the_caret_goes_by_the_width_of_characters(self):
        self.assertEqual(self.lines("'né日' + x", "refused Unknown at 11"), ["     1 | 'né日' + x", " " * 18 + "^"])
        self.assertEqual(self.lines("\tx", "refused Unknown at 1"), ["     1 |  x", " " * 10 + "^"])

    def test_bytes_that_are_no_text_are_written_out(self):
        self.assertEqual(self.lines(b"print '\xff'", "refused NotText at 7"), ["     1 | print '\\xff'", " " * 16 + "^"])

    def test_a_long_line_is_cut_on_both_sides(self):
        text, caret = self.lines("x" * 5000 + "!" + "y" * 5000, "refused Syntax at 5000")
        self.assertEqual(text[caret.index("^")], "!")
        self.assertLess(len(text), 120)
        self.assertTrue(text.endswith("…"))

    def test_a_record_that_is_too_wide_is_found(self):
        text = '.ingest inline into table T <|\n1,"a\nb"\n2,x\n3,y,z\n4,v'
        self.assertEqual(self.lines(text, "refused WideRow row 3")[0], "     5 | 3,y,z")
        self.assertEqual(self.lines(".ingest inline into table T <| 1,2,3", "refused WideRow row 1")[1].index("^"), 9 + 31)

    def test_a_refusal_without_a_place_has_the_first_line(self):
        self.assertEqual(self.lines("T\n| extend a = 1", "refused Overflow stage 2"), ["     1 | T"])


if __name__ == "__main__":
    unittest.main()
