"""How types are found, and cells that have no form of their column's type. The forms are those of docs/LANGUAGE.md."""
import calendar
import datetime
import random
import unittest

from load_runs import Folder, loaded

import cells
import times


def kind_of(*cells_of_column, words=()):
    """The type that is found for a column."""
    with Folder() as folder:
        folder.put("a.csv", "c,d\n" + "".join(f"{cell},x\n" for cell in cells_of_column))
        return folder.load("a.csv", *words).columns.split(", ")[0].split(":")[1]


class Found(unittest.TestCase):
    def test_types_of_cells(self):
        for kind, found in [
            ("long", ("1", "-2", "", " 3 ", "9223372036854775807", "-9223372036854775808")),
            ("string", ("1", "9223372036854775808")),
            ("string", ("1", "+2")),
            ("bool", ("true", "False", "")),
            ("datetime", ("2024-02-29", "2024-02-29 10:05", "2024-02-29T10:05:06.123456789Z", "2024-02-29T10:05+01:00")),
            ("string", ("2024-02-30",)),
            ("timespan", ("00:00:05", "1.02:03:04.5", "5s", "1.5h", "-3ms")),
            ("string", ("1.5.5h",)),
            ("dynamic", ('"{""a"":1}"', "[]", "")),
            ("string", ("x", "1")),
            ("string", ("", "")),
            ("string", ("1.5", "2")),
        ]:
            with self.subTest(cells=found):
                self.assertEqual(kind_of(*found), kind)

    def test_int_where_it_is_asked_for(self):
        self.assertEqual(kind_of("1", words=("--type", "c:int")), "int")
        self.assertEqual(kind_of("1", words=("--type", "c:int64")), "long")

    def test_leading_zeros_stay(self):
        found = loaded("zip,n\n01234,1\n")
        self.assertEqual((found.columns, found.rows), ("zip:string, n:long", [["01234", "1"]]))
        self.assertIn("--type zip:long", found.told)

    def test_decimal_numbers_are_kept_as_strings_and_it_is_said(self):
        found = loaded("took,n\n1.234,1\n2,1\n")
        self.assertEqual((found.columns, found.rows[0]), ("took:string, n:long", ["1.234", "1"]))
        self.assertIn("--scale took:3", found.told)

    def test_the_first_ten_thousand_records_show_the_type(self):
        lines = "c,d\n" + "1,x\n" * 9999
        self.assertEqual(loaded(lines + "y,x\n").columns, "c:string, d:string")
        late = loaded(lines + "1,x\ny,x\n")
        self.assertEqual((late.status, late.columns), (1, "c:long, d:string"))
        self.assertIn("a.csv:10002: c: 'y' is no long", late.told)

    def test_numbers_that_may_count_since_1970_are_pointed_at(self):
        found = loaded("at,n\n1709294400,1\n")
        self.assertEqual(found.columns, "at:long, n:long")
        self.assertIn("--type at:datetime", found.told)

    def test_types_of_several_files_are_found_together(self):
        with Folder() as folder:
            folder.put("a.csv", "c,d\n1,x\n")
            folder.put("b.csv", "c,d\ny,x\n")
            self.assertEqual(folder.load("a.csv", "b.csv").columns, "c:string, d:string")

    def test_words_that_are_wrong_are_told(self):
        for words in (["--type", "c:real"], ["--type", "c"], ["--scale", "c:x"], ["--scale", "c:3", "--type", "c:string"], ["--batch", "0"], ["--on", "utf8=x"], ["--on", "x=y"], ["--on", "utf8=reject"], ["--zone", "CET"]):
            with self.subTest(words=words), self.assertRaises(ValueError):
                loaded("c\n1\n", *words)

    def test_a_column_that_isnt_there_is_told(self):
        found = loaded("c,d\n1,2\n", "--type", "e:int")
        self.assertEqual(found.status, 1)
        self.assertIn("there is no column e; the columns are c, d", found.told)


class Cells(unittest.TestCase):
    def bad(self, cell, *words):
        return loaded("c,d\n1,x\n" + f"{cell},y\n3,z\n", *words)

    def test_stops_with_file_line_and_why(self):
        found = self.bad("2.5", "--type", "c:long")
        self.assertEqual((found.status, found.batches), (1, []))
        self.assertIn("a.csv:3: c: '2.5' is no long", found.told)

    def test_null_where_it_is_asked_for_and_counted(self):
        found = self.bad("2.5", "--type", "c:long", "--on", "cell=null")
        self.assertEqual((found.status, found.rows), (0, [["1", "x"], ["", "y"], ["3", "z"]]))
        self.assertIn("cell: 1 made null; the first: a.csv:3", found.told)

    def test_rejected_records_stand_in_their_file_as_they_were(self):
        found = self.bad("2.5", "--type", "c:long", "--rejects", "bad")
        self.assertEqual((found.status, found.rows), (0, [["1", "x"], ["3", "z"]]))
        self.assertEqual(found.rejects, b"c,d\n2.5,y\n")
        self.assertIn("cell: 1 rejected; the first: a.csv:3", found.told)

    def test_forms_that_are_read_stand_as_they_are(self):
        for kind, cell in [
            ("long", "007"), ("long", "-0"), ("int", "-2147483648"), ("bool", "TRUE"), ("bool", "0"), ("timespan", "3"),
            ("timespan", "9999999.23:59:59.9999999"), ("timespan", "0.0000001s"), ("timespan", "-1tick"),
            ("datetime", "0001-01-01"), ("datetime", "9999-12-31T23:59:59.9999999Z"), ("datetime", "2000-02-29 00:00"),
        ]:
            with self.subTest(kind=kind, cell=cell):
                found = loaded(f"c,d\n{cell},x\n", "--type", f"c:{kind}")
                self.assertEqual((found.status, found.rows), (0, [[cell, "x"]]))

    def test_forms_that_arent_read_stop(self):
        for kind, cell in [
            ("long", "9223372036854775808"), ("long", "1e3"), ("long", "1_000"), ("long", "٣"), ("int", "2147483648"), ("bool", "yes"), ("bool", "2"),
            ("timespan", "24:00:00"), ("timespan", "1:2"), ("timespan", "10675200d"), ("timespan", "0.00000001s"), ("timespan", "-5"),
            ("datetime", "2023-02-29"), ("datetime", "1900-02-29"), ("datetime", "2024-03-01T24:00:00"), ("datetime", "0000-01-01"),
            ("datetime", "2024-03-01T10:00:60Z"), ("datetime", "0001-01-01T00:00+01:00"), ("datetime", "9999-12-31T23:59:59-01:00"), ("datetime", "01/02/2024"),
        ]:
            with self.subTest(kind=kind, cell=cell):
                self.assertEqual(loaded(f"c,d\n{cell},x\n", "--type", f"c:{kind}").status, 1)

    def test_scales(self):
        found = loaded("c,d\n1.234,x\n-1.2,x\n5,x\n,x\n1.5e1,x\n.5,x\n0.100000,x\n", "--scale", "c:3")
        self.assertEqual([row[0] for row in found.rows], ["1234", "-1200", "5000", "", "15000", "500", "100"])
        self.assertEqual(found.columns, "c:long, d:string")
        for cell in ("1.2345", "x", "nan", "inf", "9223372036854775.808", "1_0", "1e999"):
            with self.subTest(cell=cell):
                self.assertEqual(loaded(f"c,d\n{cell},x\n", "--scale", "c:3").status, 1)


class Moments(unittest.TestCase):
    def test_forms_that_are_rewritten(self):
        for text, wanted in [
            ("10/Oct/2000:13:55:36 -0700", "2000-10-10T13:55:36-07:00"),
            ("Fri, 01 Mar 2024 10:00:00 GMT", "2024-03-01T10:00:00Z"),
            ("2024/03/01 10:00:00", "2024-03-01T10:00:00"),
            ("2024-03-01 10:00:00,123", "2024-03-01T10:00:00.123"),
            ("2024-03-01T10:00:00+0100", "2024-03-01T10:00:00+01:00"),
            ("2024-03-01t10:00:00z", "2024-03-01T10:00:00Z"),
            ("2024-03-01 10:00:00 UTC", "2024-03-01T10:00:00Z"),
            ("2024-03-01 10:00:00.1234567891 -05", "2024-03-01T10:00:00.123456789-05:00"),
            ("Oct 11 22:14:15", "2003-10-11T22:14:15"),
            ("Jan  2 03:04:05.678", "2004-01-02T03:04:05.678"),
            ("Feb 29 00:00:00", "2000-02-29T00:00:00"),
            ("Mar  1 2024 10:00:00", "2024-03-01T10:00:00"),
            ("31/Apr/2024:00:00:00 +0000", None),
            ("10/Oct/2000:25:55:36 -0700", None),
            ("yesterday", None),
        ]:
            with self.subTest(text=text):
                moments = times.Moments(latest=datetime.datetime(2004, 1, 10, 12))
                self.assertEqual(moments.exact(text), wanted)

    def test_numbers_since_1970(self):
        moments = times.Moments()
        for text, wanted in [
            ("1709294400", "2024-03-01T12:00:00Z"),
            ("1709294400123", "2024-03-01T12:00:00.123Z"),
            ("1709294400123456", "2024-03-01T12:00:00.123456Z"),
            ("1709294400123456789", "2024-03-01T12:00:00.123456789Z"),
            ("1709294400.5", "2024-03-01T12:00:00.5Z"),
            ("20240301", None),
            ("17092944001", None),
        ]:
            with self.subTest(text=text):
                self.assertEqual(moments.epoch(text), wanted)

    def test_a_zone_that_is_given(self):
        found = loaded("t,d\n2024-03-01T10:00:00,x\n2024-03-01T10:00:00Z,x\n2024-03-01,x\n", "--zone", "+0100")
        self.assertEqual([row[0] for row in found.rows], ["2024-03-01T10:00:00+01:00", "2024-03-01T10:00:00Z", "2024-03-01T00:00+01:00"])

    def test_each_day_and_none_beside(self):
        for year in (1900, 2000, 2023, 2024):
            for month in range(14):
                for day in range(33):
                    there = 1 <= month <= 12 and 1 <= day <= calendar.monthrange(year, month)[1]
                    text = f"{year}-{month:02}-{day:02}"
                    self.assertEqual(times.re.fullmatch(times.PLAIN, text) is not None, there, text)
                    self.assertEqual(times.Moments().exact(text) is not None, there, text)

    def test_a_whole_column_is_judged_as_its_cells_are(self):
        random.seed(7)
        signs = "0123456789-:TZ+. "
        plain = ["2024-02-29T10:05:06.5+01:00", "2024-12-31 23:59", "2024-12-31", "2023-11-30T00:00:59Z", "2023-11-30T00:00-23:59", ""]
        for _ in range(3000):
            text = random.choice(plain)
            for _ in range(random.randint(0, 2)):
                at = random.randrange(len(text) + 1)
                text = text[:at] + random.choice(signs) + text[at + random.randint(0, 1) :]
            judge = cells.Judge("datetime", times.Moments())
            column = [random.choice(plain), text, random.choice(plain)]
            self.assertEqual(judge.are_plain(column), all(judge.one.fullmatch(cell) for cell in column), column)

    def test_a_whole_column_of_a_log_is_rewritten_as_its_cells_are(self):
        for texts in (
            ["10/Oct/2000:13:55:36 -0700", "29/Feb/2024:00:00:59 +0100"],
            ["Oct 11 22:14:15", "Feb 29 00:00:00", "Jan  9 03:04:05.678", "Jan 12 00:00:00", "Dec 31 23:59:59"],
        ):
            for zone in ("", "+01:00"):
                moments = times.Moments(zone, datetime.datetime(2024, 1, 10, 12))
                self.assertEqual(moments.of_logs(texts), [moments.exact(text) for text in texts])
        for bad in ("31/Sep/2000:13:55:36 -0700", "Feb 30 00:00:00", "Oct 11 24:00:00"):
            self.assertIsNone(times.Moments().of_logs([bad]))

    def test_timespans_are_judged_by_shape_as_they_are_one_by_one(self):
        random.seed(8)
        for _ in range(3000):
            text = "".join(random.choice("0159.:dhmstick-") for _ in range(random.randint(1, 9)))
            judge = cells.Judge("timespan", times.Moments())
            if judge.are_plain([text]):
                self.assertTrue(times.is_timespan(text.strip(" \t")), text)


if __name__ == "__main__":
    unittest.main()
