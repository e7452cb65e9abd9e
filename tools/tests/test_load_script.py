"""The commands that tools/load writes."""
import hashlib
import os
import unittest

from load_runs import Folder, loaded, tag_of


def tag_of_first(script):
    return script.decode().split("tags='[")[1].split("]'")[0]


class Names(unittest.TestCase):
    def test_words_stand_as_they_are_and_other_names_in_brackets(self):
        found = loaded("Time,b c,and,it's,été,_x9,9x\n1,2,3,4,5,6,7\n", "--header")
        self.assertEqual(found.columns, r"Time:long, ['b c']:long, ['and']:long, ['it\'s']:long, ['été']:long, _x9:long, ['9x']:long")
        self.assertEqual(found.rows, [["1", "2", "3", "4", "5", "6", "7"]])

    def test_each_reserved_word_stands_in_brackets(self):
        words = "and or by true false let in between has has_cs contains contains_cs startswith startswith_cs endswith endswith_cs".split()
        found = loaded(",".join(words) + "\n" + ",".join("1" for _ in words) + "\n", "--header")
        self.assertEqual(found.columns, ", ".join(f"['{word}']:long" for word in words))

    def test_a_table_called_as_a_typed_literal_begins_stands_in_brackets(self):
        self.assertIn(".create table ['date'] (a:long)", loaded("a\n1\n", "--into", "date").schema)
        self.assertEqual(loaded("a\n1\n", "--into", "date").batches[0][0], "['date']")

    def test_empty_and_repeated_names_get_numbers(self):
        found = loaded("a,,a,a_2\n1,2,3,4\n", "--header")
        self.assertEqual(found.columns, "a:long, Column2:long, a_3:long, a_2:long")
        self.assertIn("'a_3' is called 'a'", found.told)

    def test_names_can_be_given(self):
        self.assertEqual(loaded("1,x\n", "--names", "n,s").columns, "n:long, s:string")
        self.assertEqual(loaded("a,b\n1,x\n", "--names", "n,s", "--header").rows, [["1", "x"]])


class Headers(unittest.TestCase):
    def test_a_first_record_of_names_is_no_row_and_it_is_said(self):
        found = loaded("a,b\n1,x\n")
        self.assertEqual((found.columns, found.rows), ("a:long, b:string", [["1", "x"]]))
        self.assertIn("--no-header", found.told)

    def test_a_first_record_of_values_is_a_row(self):
        found = loaded("1,x\n2,y\n")
        self.assertEqual((found.columns, len(found.rows)), ("Column1:long, Column2:string", 2))

    def test_names_of_which_some_are_equal_or_empty_are_no_row(self):
        for content, columns in [
            ("a,b,a\n1,2,x\n", "a:long, b:long, a_2:string"),
            (",n,s\n0,1,x\n1,2,y\n", "Column1:long, n:long, s:string"),
            ("n,,\n2024-03-01,x,\n", "n:datetime, Column2:string, Column3:string"),
        ]:
            with self.subTest(content=content):
                found = loaded(content)
                self.assertEqual((found.columns, len(found.rows)), (columns, content.count("\n") - 1))

    def test_a_first_record_with_equal_or_empty_cells_that_may_be_data_is_told(self):
        for content in ("bo,paris,bo\nann,rome,cy\n", "bo,,x\nann,rome,y\n"):
            found = loaded(content)
            self.assertEqual(len(found.rows), 2)
            self.assertIn("a.csv: the first record has equal or empty cells, and is taken as data; --header", found.told)
        self.assertEqual(len(loaded("1,,2\n3,4,5\n").rows), 2)

    def test_what_is_asked_for_decides(self):
        self.assertEqual(len(loaded("a,b\nc,d\n", "--no-header").rows), 2)
        self.assertEqual(loaded("1,2\n3,4\n", "--header").columns, "['1']:long, ['2']:long")

    def test_a_header_of_several_lines(self):
        found = loaded('"a\nb",c\n1,2\n', "--header")
        self.assertEqual((found.columns, found.rows), (r"['a\nb']:long, c:long", [["1", "2"]]))

    def test_a_line_of_text_is_no_header_of_one_column(self):
        self.assertEqual(len(loaded("Starting the server\nStopping the server\n").rows), 2)


class Batches(unittest.TestCase):
    def test_as_many_rows_as_are_asked_for(self):
        found = loaded("n\n" + "".join(f"{i}\n" for i in range(25)), "--batch", "10")
        self.assertEqual([body.count("\n") + 1 for *_, body in found.batches], [10, 10, 5])
        self.assertEqual([row[0] for row in found.rows], [str(i) for i in range(25)])

    def test_ten_thousand_where_nothing_is_asked_for(self):
        found = loaded("n\n" + "".join(f"{i}\n" for i in range(10001)))
        self.assertEqual([body.count("\n") + 1 for *_, body in found.batches], [10000, 1])

    def test_each_command_is_under_16_mib_and_no_row_is_lost(self):
        line = "x" * 99_990
        found = loaded("n,s\n" + "".join(f"{i:04},{line}\n" for i in range(180)), "--type", "n:string")
        self.assertGreater(len(found.batches), 1)
        self.assertTrue(all(len(block.encode()) <= 2**24 for block in found.blocks))
        self.assertEqual([row[0] for row in found.rows], [f"{i:04}" for i in range(180)])

    def test_a_tag_of_the_name_the_number_and_a_digest_that_is_asked_about(self):
        with Folder() as folder:
            folder.put("a.csv", "n\n1\n2\n3\n")
            found = folder.load("a.csv", "--batch", "2")
        tags = [tag_of(tag) for _, tag, _, _ in found.batches]
        asked = [tag_of(asked) for _, _, asked, _ in found.batches]
        self.assertEqual(tags, [f"ingest-by:{name}" for name in asked])
        digests = [hashlib.blake2b(body, digest_size=16).hexdigest() for body in (b"1\n2", b"3")]
        self.assertEqual(asked, [f"a.csv {i} of 2 {digest}" for i, digest in enumerate(digests, 1)])

    def test_tags_tell_rows_and_names_apart_and_not_calls(self):
        with Folder() as folder:
            folder.put("a.csv", "n\n1\n")
            first = folder.load("a.csv").script
            folder.put("a.csv", "n\n1\n", changed=1709294401)
            self.assertEqual(folder.load("a.csv").script, first)
            folder.put("b.csv", "n\n1\n")
            self.assertNotEqual(folder.load("b.csv").script, first)
            folder.put("a.csv", "n\n2\n")
            self.assertNotEqual(folder.load("a.csv").batches[0][1], tag_of_first(first))

    def test_two_files_of_one_name_size_and_time_are_two(self):
        with Folder() as folder:
            for name in ("east", "west", "north"):
                os.mkdir(os.path.join(folder.path, name))
            folder.put("east/a.csv", "n\n1\n")
            folder.put("west/a.csv", "n\n2\n")
            folder.put("north/a.csv", "n\n1\n")
            paths = ["east/a.csv", "west/a.csv", "north/a.csv"]
            tags = [tag for _, tag, _, _ in folder.load(*paths).batches]
            # Loaded again, by other paths, each has the tag that it had.
            again = [tag for _, tag, _, _ in folder.load("./east/a.csv", "east/../west/a.csv", "north/a.csv", "east/a.csv").batches]
        self.assertEqual(len(set(tags)), 3)
        self.assertEqual(again, [*tags, tags[0]])

    def test_a_file_name_that_isnt_utf8_has_a_tag_of_what_can_be(self):
        with Folder() as folder:
            name = os.fsdecode(b"a\xff.csv")
            folder.put(name, "n\n1\n")
            found = folder.load(name)
        self.assertEqual((found.status, found.rows), (0, [["1"]]))
        self.assertIn("a\ufffd.csv 1 of 10000 ", found.script.decode().encode().decode("unicode_escape").encode().decode("unicode_escape"))

    def test_a_name_with_quotes_and_backslashes_stays_one_string(self):
        with Folder() as folder:
            folder.put("a'\"\\é.csv", "n\n1\n")
            found = folder.load("a'\"\\é.csv")
        # Within the command the backslashes of the JSON stand twice, and a single quote has one.
        text = found.script.decode().split("tags='")[1].split("', ingest")[0]
        plain = text.replace("\\'", "'").replace("\\\\", "\\")
        self.assertTrue(tag_of(plain[1:-1]).startswith("ingest-by:a'\"\\é.csv "))

    def test_no_batch_has_rows_of_two_files(self):
        with Folder() as folder:
            folder.put("a.csv", "n\n1\n")
            folder.put("b.csv", "n\n2\n")
            found = folder.load("a.csv", "b.csv")
        self.assertEqual([body for *_, body in found.batches], ["1", "2"])
        self.assertEqual(sum(block.startswith(".create") for block in found.blocks), 1)

    def test_without_the_table(self):
        self.assertFalse(any(block.startswith(".create") for block in loaded("n\n1\n", "--no-table").blocks))

    def test_the_schema_alone(self):
        found = loaded("n,s\n1,x\n", "--print-schema")
        self.assertEqual(found.script.decode(), ".create table T (\n    n:long,\n    s:string\n)\n")


class Rows(unittest.TestCase):
    def test_white_space_and_a_byte_order_mark_of_the_first_cell_stay(self):
        for cell in ("  x", "\tx", "\ufeffx", " "):
            with self.subTest(cell=cell):
                self.assertEqual(loaded(f"a,b\n{cell},1\ny,2\n").rows[0], [cell, "1"])

    def test_a_first_cell_of_a_batch_with_blanks_and_quotes_stays(self):
        for cell in (' rack 19"', '\t"', '\ufeff "a" b', ' ""', "  '"):
            with self.subTest(cell=cell):
                found = loaded(f"a,b\n{cell},1\ny,2\nz,3\n", "--header")
                self.assertEqual(found.rows, [[cell, "1"], ["y", "2"], ["z", "3"]])
                alone = loaded(f"a\n{cell}\ny\n", "--header", "--type", "a:string", "--batch", "1")
                self.assertEqual(alone.rows, [[cell], ["y"]])

    def test_a_blank_line_with_a_cr_of_one_column_stays_as_it_is(self):
        found = loaded("a\r\nx\r\n \r\ny\r\n", "--header")
        self.assertEqual(found.rows, [["x"], [" "], ["y"]])

    def test_blank_lines_of_one_column_are_records_beside_wide_ones_too_and_empty_ones_never(self):
        found = loaded("a\nx\n \n1,2\n\t\ny\n", "--header", "--rejects", "bad")
        self.assertEqual((found.rows, found.rejects), ([["x"], [" "], ["\t"], ["y"]], b"a\n1,2\n"))
        self.assertEqual(loaded("a\nx\n\r", "--header").rows, [["x"]])
        found = loaded('a\n"\n\n \r\r', "--header", "--type", "a:string", "--rejects", "bad")
        self.assertEqual((found.rows, found.rejects), ([[" "]], b'a\n"\n'))

    def test_a_byte_order_mark_of_a_file_is_dropped(self):
        self.assertEqual(loaded("\ufeffa,b\n1,x\n").columns, "a:long, b:string")

    def test_no_row_is_a_blank_line(self):
        found = loaded('s\nx\n""\n"  "\n \ny\n', "--header", "--type", "s:string")
        self.assertEqual(found.rows, [["x"], [""], ["  "], [" "], ["y"]])
        self.assertEqual(len(found.batches), 1)

    def test_quoted_blanks_and_line_ends_are_records(self):
        found = loaded('a,b\n1,2\n" "\n"\n"\n   \n"\r\n"\n3,4\n', "--header")
        self.assertEqual(found.rows, [["1", "2"], [" ", ""], ["\n", ""], ["\r\n", ""], ["3", "4"]])
        self.assertIn("short: 3 filled up with nulls", found.told)

    def test_empty_lines_are_no_records(self):
        self.assertEqual(loaded("a,b\n\n1,2\n\r\n   \n3,4\n\n").rows, [["1", "2"], ["3", "4"]])

    def test_cells_with_quotes_commas_and_line_ends(self):
        found = loaded('a,b\n"x,y","he said ""no"""\n"two\nlines","cr\r\nlf"\n')
        self.assertEqual(found.rows, [["x,y", 'he said "no"'], ["two\nlines", "cr\r\nlf"]])

    def test_lines_that_end_at_cr_lf(self):
        self.assertEqual(loaded("a,b\r\n1,x\r\n2,y\r\n").rows, [["1", "x"], ["2", "y"]])

    def test_a_last_line_without_an_end(self):
        self.assertEqual(loaded("a,b\n1,x\n2,y").rows, [["1", "x"], ["2", "y"]])

    def test_a_record_over_the_ends_of_chunks(self):
        cell = "line\n" * 100_000 + "end"
        self.assertEqual(loaded(f'a,b\n1,"{cell}"\n2,y\n').rows, [["1", cell], ["2", "y"]])

    def test_other_delimiters(self):
        self.assertEqual(loaded("a\tb\n1\tx,y\n", name="a.tsv").rows, [["1", "x,y"]])
        self.assertEqual(loaded("a;b\n1;x,y\n").rows, [["1", "x,y"]])
        self.assertEqual(loaded('a|b\n"1|2"|x\n', "--delimiter", "|").rows, [["1|2", "x"]])
        self.assertEqual(loaded('a\tb\n1\t"x\n', "--no-quotes", name="a.tsv").rows, [["1", '"x']])

    def test_columns_can_be_chosen_and_the_others_kept_together(self):
        content = "a,b,c\n1,x,2\n3,,4\n"
        self.assertEqual(loaded(content, "--only", "c,a").rows, [["2", "1"], ["4", "3"]])
        found = loaded(content, "--only", "c", "--rest", "Rest")
        self.assertEqual(found.columns, "c:long, Rest:dynamic")
        self.assertEqual(found.rows, [["2", '{"a":"1","b":"x"}'], ["4", '{"a":"3"}']])

    def test_files_with_columns_in_another_order(self):
        with Folder() as folder:
            folder.put("a.csv", "a,b\n1,x\n")
            folder.put("b.csv", "b,a,c\ny,2,z\n")
            found = folder.load("a.csv", "b.csv")
        self.assertEqual((found.columns, found.rows), ("a:long, b:string, c:string", [["1", "x", ""], ["2", "y", "z"]]))

    def test_parts_of_a_file_that_was_cut(self):
        with Folder() as folder:
            folder.put("a.csv", "a,b\n1,x\n")
            folder.put("b.csv", "2,y\n")
            self.assertEqual(folder.load("a.csv", "b.csv").rows, [["1", "x"], ["2", "y"]])

    def test_texts_that_stand_for_no_value(self):
        found = loaded("n,s\n1,-\n-,x\nNULL,NULL\n", "--null", "-", "--null", "NULL")
        self.assertEqual((found.columns, found.rows), ("n:long, s:string", [["1", ""], ["", "x"], ["", ""]]))


if __name__ == "__main__":
    unittest.main()
