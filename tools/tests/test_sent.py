"""What was sent, held against the replies."""
import unittest

from load_runs import loaded

from sent import Sent, compared

TABLE = Sent("table", "T")
BATCH = Sent("batch", "a.csv", 1, "a.csv 1 of 10 0f", 10)


class Compared(unittest.TestCase):
    def test_rows_that_went_in_and_batches_that_were_there(self):
        found = compared([TABLE, BATCH, BATCH], ["done 1\n", "ingested 2 rows 10\n", "skipped 2\n"])
        self.assertEqual((found.rows, found.skipped, found.refused, found.differences), (10, 1, [], []))
        self.assertEqual(compared([TABLE], ["kept 1\n"]).differences, [])

    def test_rows_that_are_missing_are_told_with_file_batch_and_tag(self):
        found = compared([BATCH], ["ingested 2 rows 1\n"])
        self.assertEqual(found.differences, ["a.csv: batch 1: 10 rows went out, and 1 went in (tag a.csv 1 of 10 0f)"])

    def test_refusals_and_other_replies_are_told(self):
        found = compared([TABLE, BATCH, BATCH], ["refused Exists at 14\n", "refused WideRow row 3\n", "rows 0\nn:long\n"])
        self.assertEqual(found.refused, ["refused Exists at 14\n", "refused WideRow row 3\n"])
        self.assertEqual(
            found.differences,
            [
                "the command for the table T was refused",
                "a.csv: batch 1 was refused: none of its 10 rows went in",
                "a.csv: batch 1 was answered with 'rows 0'",
            ],
        )

    def test_replies_that_are_missing_or_too_many_are_told(self):
        self.assertEqual(compared([TABLE, BATCH], ["done 1\n"]).differences, ["2 commands went out, and 1 reply came back"])
        self.assertEqual(compared([TABLE], ["done 1\n", "done 2\n"]).differences, ["1 command went out, and 2 replies came back"])


class OfALoad(unittest.TestCase):
    def test_each_command_with_a_reply_is_kept_with_its_rows(self):
        found = loaded("n\n" + "".join(f"{i}\n" for i in range(25)), "--batch", "10")
        self.assertEqual(
            [(one.what, one.source, one.number, one.rows) for one in found.sent],
            [("table", "T", 0, 0), *(("batch", "a.csv", i, n) for i, n in ((1, 10), (2, 10), (3, 5)))],
        )
        self.assertEqual(len({one.tag for one in found.sent}), 4)


if __name__ == "__main__":
    unittest.main()
