"""Bad input: each kind is loaded right, or ends with a sentence that says where and why; nothing is lost in silence."""
import bz2
import gzip
import lzma
import os
import shutil
import subprocess
import sys
import tempfile
import unittest

from load_runs import TOP, Folder, loaded

LOAD = os.path.join(TOP, "tools", "load")


class Files(unittest.TestCase):
    def test_compressed_files_of_one_and_of_several_members(self):
        whole = gzip.compress(b"n,s\n1,x\n") + gzip.compress(b"2,y\n")
        self.assertEqual(loaded(whole, name="a.csv.gz").rows, [["1", "x"], ["2", "y"]])

    def test_files_of_bzip2_xz_and_zstd(self):
        lines = b"n,s\n" + b"".join(b"%d,x%d\n" % (i, i * 7919 % 1000003) for i in range(40_000))
        kinds = {
            "bz2": lambda data: bz2.compress(data, 1),
            "xz": lzma.compress,
            "zst": lambda data: subprocess.run(["zstd", "-cq"], input=data, stdout=subprocess.PIPE, check=True).stdout,
        }
        for kind, compress in kinds.items():
            if kind == "zst" and shutil.which("zstd") is None:
                continue
            with self.subTest(kind=kind):
                whole = compress(lines)
                self.assertEqual(len(loaded(whole, name=f"a.csv.{kind}").rows), 40_000)
                self.assertEqual(loaded(compress(b"n,s\n1,x\n") + compress(b"2,y\n"), name="a.csv").rows, [["1", "x"], ["2", "y"]])
                cut = loaded(whole[: len(whole) * 2 // 3], name=f"a.csv.{kind}")
                self.assertEqual(cut.status, 1)
                self.assertIn(f"a.csv.{kind}: the compressed data ends early or is damaged", cut.told)
                kept = loaded(whole[: len(whole) * 2 // 3], "--on", "truncated=keep", name=f"a.csv.{kind}")
                self.assertEqual((kept.status, kept.rows), (0, [line.decode().split(",") for line in lines.split(b"\n")[1 : len(kept.rows) + 1]]))

    def test_a_truncated_compressed_file(self):
        lines = "".join(f"{i},{i * 7919 % 1000003}\n" for i in range(30000))
        cut = gzip.compress(f"n,s\n{lines}".encode())[:60000]
        found = loaded(cut, name="a.csv.gz")
        self.assertEqual(found.status, 1)
        self.assertIn("a.csv.gz: the compressed data ends early", found.told)
        # Whole batches alone were given, and how many rows they have is said.
        self.assertEqual(len(found.rows) % 10000, 0)
        self.assertIn(f"{len(found.rows):,} rows given before", found.told)
        self.assertIn(b"// tools/load stopped here", found.script)

    def test_what_is_whole_of_a_truncated_file(self):
        lines = [f"{i},{i * 7919 % 1000003}" for i in range(30000)]
        cut = gzip.compress("\n".join(["n,s", *lines]).encode())[:60000]
        found = loaded(cut, "--on", "truncated=keep", name="a.csv.gz")
        self.assertEqual(found.status, 0)
        self.assertGreater(len(found.rows), 1000)
        self.assertEqual([",".join(row) for row in found.rows], lines[: len(found.rows)])
        self.assertIn("truncated: 1 read up to the last whole line", found.told)

    def test_damaged_compressed_data(self):
        whole = bytearray(gzip.compress(b"n,s\n" + b"1,x\n" * 1000))
        whole[-5] ^= 255
        found = loaded(bytes(whole), name="a.csv.gz")
        self.assertEqual(found.status, 1)
        self.assertIn("is damaged", found.told)

    def test_an_empty_file(self):
        found = loaded(b"")
        self.assertEqual((found.status, found.script), (1, b""))
        self.assertIn("a.csv: is empty: it has no records", found.told)
        self.assertIn("no columns to find", found.told)

    def test_an_empty_file_whose_first_record_would_have_names(self):
        for content in (b"", b"\n\n", b"\xef\xbb\xbf"):
            found = loaded(content, "--header")
            self.assertEqual((found.status, found.script), (1, b""))
            self.assertIn("no columns to find", found.told)
        self.assertEqual(loaded(b"", "--header", "--names", "a,b").columns, "a:string, b:string")

    def test_an_empty_file_beside_others(self):
        with Folder() as folder:
            folder.put("a.csv", "")
            folder.put("b.csv", "n\n1\n")
            found = folder.load("a.csv", "b.csv")
        self.assertEqual((found.status, found.rows), (0, [["1"]]))
        self.assertIn("a.csv: is empty", found.told)

    def test_a_header_alone(self):
        found = loaded("a,b\n")
        self.assertEqual((found.status, found.columns, found.batches), (0, "a:string, b:string", []))
        self.assertIn("0 rows", found.told)

    def test_a_file_of_one_line_of_20_mib(self):
        found = loaded(b"x" * (20 * 2**20))
        self.assertEqual((found.status, found.script), (1, b""))
        self.assertIn("a.csv:1: the line has over 16,777,216 bytes", found.told)

    def test_such_a_line_among_others(self):
        long = b"x," * (10 * 2**20)
        with Folder() as folder:
            folder.put("a.csv", b"n,s\n1,x\n" + long + b"\n3,z\n")
            stopped = folder.load("a.csv")
            self.assertIn("a.csv:3: the line has over 16,777,216 bytes", stopped.told)
            found = folder.load("a.csv", "--rejects", "bad")
        self.assertEqual((found.status, found.rows), (0, [["1", "x"], ["3", "z"]]))
        self.assertEqual(found.rejects, b"n,s\n" + long + b"\n")
        self.assertIn("long: 1 rejected; the first: a.csv:3", found.told)

    def test_a_row_that_grows_over_the_limit_by_its_quotes(self):
        cell = '"' * (9 * 2**20)
        found = loaded(f"n\ts\n1\t{cell}\n2\tx\n", "--no-quotes", "--rejects", "bad", name="a.tsv")
        self.assertEqual(found.rows, [["2", "x"]])
        self.assertEqual(len(found.rejects), len(cell) + len("n\ts\n1\t\n"))

    def test_files_that_arent_there_or_are_no_text(self):
        with Folder() as folder:
            folder.put("a.csv", b"PK\3\4 and so on")
            folder.put("b.csv", "a,b\n1,2\n".encode("utf-16"))
            for name, why in [("a.csv", "a zip archive"), ("b.csv", "UTF-16"), ("c.csv", "No such file"), (".", "directory")]:
                with self.subTest(name=name):
                    with self.assertRaises(Exception) as stopped:
                        found = folder.load(name)
                        raise AssertionError(found.told)
                    self.assertIn(why, str(stopped.exception))

    def test_json_that_is_no_json_lines(self):
        self.assertIn("jq -c '.[]'", loaded('[{"a":1},\n{"a":2}]\n', name="a.json").told)
        self.assertIn("jq -c . a.json", loaded('{\n  "a": 1\n}\n', name="a.json").told)


class Texts(unittest.TestCase):
    def test_nul_bytes_are_loaded_as_they_are(self):
        found = loaded(b'n,s\n1,x\0y\n2,\0\n3,"\0"\n')
        if sys.version_info >= (3, 11):
            self.assertEqual((found.status, found.rows), (0, [["1", "x\0y"], ["2", "\0"], ["3", "\0"]]))
        else:
            self.assertIn("a.csv:2: the record that begins here is no CSV (line contains NUL)", found.told)

    def test_text_that_isnt_utf8(self):
        content = b"n,s\n1,caf\xe9\n2,\xc3\xa9\n"
        found = loaded(content)
        self.assertEqual(found.status, 1)
        self.assertIn("a.csv:2: the record has bytes that are no UTF-8", found.told)
        self.assertEqual(loaded(content, "--on", "utf8=latin1").rows, [["1", "café"], ["2", "é"]])
        self.assertEqual(loaded(content, "--on", "utf8=replace").rows, [["1", "caf\ufffd"], ["2", "é"]])
        rejected = loaded(content, "--rejects", "bad")
        self.assertEqual((rejected.rows, rejected.rejects), ([["2", "é"]], b"n,s\n1,caf\xe9\n"))

    def test_half_of_a_surrogate_pair_in_json(self):
        lines = '{"s":"\\ud83d\\ude00"}\n{"s":"\\ud83d"}\n'
        self.assertIn("a.json:2: the record has", loaded(lines, name="a.json").told)
        self.assertEqual(loaded(lines, "--on", "utf8=replace", name="a.json").rows, [["😀"], ["\ufffd"]])

    def test_blank_lines_within_cells_become_one_space(self):
        for cell, wanted in [
            ("a\n\nb", "a b"),
            ("a\n \t\r\n\nb\nc", "a b\nc"),
            ("\n\n", " "),
            ("a\n\n", "a "),
            ("\na", "\na"),
            ("a\r\n\r\nb", "a\r b"),
        ]:
            with self.subTest(cell=cell):
                found = loaded(f'n,s\n1,"{cell}"\n2,x\n')
                self.assertEqual((found.status, found.rows), (0, [["1", wanted], ["2", "x"]]))
                self.assertEqual(len(found.batches), 1)
                self.assertEqual("blank: 1 made one space" in found.told, "\n" in cell and wanted != cell)

    def test_blank_lines_can_stop_or_be_rejected(self):
        content = 'n,s\n1,"a\n\nb"\n2,x\n'
        self.assertIn("a.csv:2: a cell has a blank line", loaded(content, "--on", "blank=stop").told)
        found = loaded(content, "--on", "blank=reject", "--rejects", "bad")
        self.assertEqual((found.rows, found.rejects), ([["2", "x"]], b'n,s\n1,"a\n\nb"\n'))

    def test_blank_lines_in_strings_of_json(self):
        found = loaded('{"s":"a\\n\\nb","d":{"x":"\\n\\n"}}\n', name="a.json")
        self.assertEqual(found.rows, [["a b", '{"x":"\\n\\n"}']])


class Records(unittest.TestCase):
    def test_a_quote_that_is_never_closed(self):
        content = 'n,s\n1,x\n2,"open\n3,y\n4,z\n'
        found = loaded(content)
        self.assertEqual((found.status, found.batches), (1, []))
        self.assertIn("a.csv:3: a quote that opens in the record that begins here isn't closed", found.told)
        rejected = loaded(content, "--rejects", "bad")
        self.assertEqual((rejected.rows, rejected.rejects), ([["1", "x"], ["3", "y"], ["4", "z"]], b'n,s\n2,"open\n'))

    def test_a_quote_that_is_never_closed_in_a_large_file(self):
        lines = "".join(f"{i},x\n" for i in range(100000))
        rejected = loaded(f'n,s\n0,"open\n{lines}', "--rejects", "bad")
        self.assertEqual((len(rejected.rows), rejected.rejects), (100000, b'n,s\n0,"open\n'))

    def test_a_first_record_that_is_broken(self):
        for content, rows in [('"open\na,b\n1,2\n', [["1", "2"]]), ('"x"y\n1,2\n3,4\n', [["1", "2"], ["3", "4"]])]:
            with self.subTest(content=content):
                with self.assertRaisesRegex(Exception, "a.csv:1: "):
                    raise Exception(loaded(content).told)
                found = loaded(content, "--rejects", "bad")
                self.assertEqual((found.status, found.rows, found.rejects), (0, rows, content.split("\n")[0].encode() + b"\n"))

    def test_names_of_columns_over_the_ends_of_chunks(self):
        name = ("x" * 60 + "\n") * 4000
        found = loaded(f'"{name}",b\n1,2\n', "--header")
        self.assertEqual((found.status, found.rows), (0, [["1", "2"]]))

    def test_text_behind_a_closing_quote(self):
        found = loaded('n,s\n1,"x" y\n2,z\n', "--rejects", "bad")
        self.assertEqual((found.rows, found.rejects), ([["2", "z"]], b'n,s\n1,"x" y\n'))

    def test_a_quote_within_a_cell_stays(self):
        self.assertEqual(loaded('n,s\n1,5" disk\n').rows, [["1", '5" disk']])

    def test_a_cr_within_a_line(self):
        self.assertIn("a.csv:2: a CR stands", loaded(b"n,s\n1,x\r2,y\n").told)

    def test_records_with_other_numbers_of_cells(self):
        content = "n,s\n1\n2,x,y\n3,z\n"
        found = loaded(content)
        self.assertEqual(found.status, 1)
        self.assertIn("a.csv:3: the record has 3 cells, and there are 2 columns", found.told)
        cut = loaded(content, "--on", "wide=cut")
        self.assertEqual(cut.rows, [["1", ""], ["2", "x"], ["3", "z"]])
        self.assertIn("short: 1 filled up with nulls; the first: a.csv:2", cut.told)
        self.assertIn("wide: 1 cut to the columns; the first: a.csv:3", cut.told)
        self.assertEqual(loaded(content, "--rejects", "bad").rejects, b"n,s\n2,x,y\n")

    def test_lines_of_json_that_are_broken(self):
        content = '{"a":1}\n{"a":\n[1]\n{"a":2}, {"a":3}\n{"a":4}\n'
        found = loaded(content, name="a.json")
        self.assertEqual(found.status, 1)
        self.assertIn("a.json:2: the line is no JSON", found.told)
        rejected = loaded(content, "--rejects", "bad", name="a.json")
        self.assertEqual((rejected.rows, rejected.rejects), ([["1"], ["4"]], b'{"a":\n[1]\n{"a":2}, {"a":3}\n'))
        self.assertIn("line: 3 rejected", rejected.told)

    def test_lines_of_json_that_would_be_whole_together(self):
        content = '{"a":[1\n2]}\n{"a":3}\n{"a":4}, {"a":5}\n'
        rejected = loaded(
            content,
            "--rejects",
            "bad",
            name="a.json",
        )
        self.assertEqual(rejected.rows, [["3"]])

    def test_a_column_named_and(self):
        self.assertEqual(loaded("and,b\n1,2\n").columns, "['and']:long, b:long")

    def test_300_columns(self):
        content = ",".join(f"c{i}" for i in range(300)) + "\n" + ",".join(map(str, range(300))) + "\n"
        found = loaded(content)
        self.assertEqual(found.status, 1)
        self.assertIn("300 columns were found, and a table has at most 256", found.told)
        rest = loaded(content, "--rest", "Others")
        self.assertEqual((len(rest.rows[0]), rest.rows[0][:255]), (256, [str(i) for i in range(255)]))
        self.assertEqual(rest.rows[0][255], "{" + ",".join(f'"c{i}":"{i}"' for i in range(255, 300)) + "}")
        self.assertEqual(loaded(content, "--only", "c299,c0").rows, [["299", "0"]])

    def test_256_columns(self):
        content = ",".join(f"c{i}" for i in range(256)) + "\n" + ",".join(map(str, range(256))) + "\n"
        self.assertEqual(len(loaded(content).rows[0]), 256)

    def test_rejects_of_several_files(self):
        with Folder() as folder:
            folder.put("a.csv", "n,s\n1\n2,x,y\n")
            folder.put("b.csv", "n,s\n3,x,y\n")
            folder.put("c.csv", "n,s,t\n4,x,y,z\n")
            found = folder.load("a.csv", "b.csv", "c.csv", "--rejects", "bad")
            self.assertEqual(found.rejects, b"n,s\n2,x,y\n3,x,y\nn,s,t\n4,x,y,z\n")
            self.assertEqual(folder.load("a.csv", "--rejects", "other", "--on", "wide=cut").rejects, b"")

    def test_rejects_never_go_over_another_file(self):
        with Folder() as folder:
            folder.put("a.csv", "n,s\n2,x,y\n")
            folder.put("bad", "mine\n")
            with self.assertRaisesRegex(ValueError, "bad: this file is there already"):
                folder.load("a.csv", "--rejects", "bad")
            self.assertEqual(folder.read("bad"), b"mine\n")
            self.assertEqual(folder.load("a.csv", "--rejects", "/dev/null").status, 0)

    def test_a_load_that_goes_on_keeps_spoiled_records_beside_their_files(self):
        with Folder() as folder:
            os.mkdir(os.path.join(folder.path, "b"))
            folder.put("a.csv", "n,s\n1,x\n2,y,z\nq,w\n")
            folder.put("a.csv.rejects", "mine\n")
            folder.put("b/b.csv", 'n,s\n3,"open\n4,y\n')
            found = folder.load("a.csv", "b/b.csv", "--type", "n:long", going_on=True)
            texts = {name: folder.read(name) for name in ("a.csv.rejects", "a.csv.2.rejects", "b/b.csv.rejects")}
            self.assertEqual(sorted(os.listdir(folder.path)), ["a.csv", "a.csv.2.rejects", "a.csv.rejects", "b"])
        self.assertEqual((found.status, found.rows), (0, [["1", "x"], ["4", "y"]]))
        self.assertEqual(texts, {"a.csv.rejects": b"mine\n", "a.csv.2.rejects": b"n,s\n2,y,z\nq,w\n", "b/b.csv.rejects": b'n,s\n3,"open\n'})
        self.assertIn(
            "wide: 1 rejected; the first: a.csv:3: the record has 3 cells, and there are 2 columns; to take them: --on wide=cut", found.told
        )
        self.assertIn("cell: 1 rejected; the first: a.csv:4: n: 'q' is no long; to take them: --on cell=null", found.told)
        self.assertIn("quote: 1 rejected", found.told)
        self.assertIn("2 records that didn't go in: a.csv.2.rejects, as they were", found.told)
        self.assertIn("1 record that didn't go in: b/b.csv.rejects, as it was", found.told)

    def test_what_is_said_decides_where_a_load_goes_on(self):
        with Folder() as folder:
            folder.put("a.csv", "n,s\n1,x\n2,y,z\n")
            self.assertEqual(folder.load("a.csv", "--on", "wide=stop", going_on=True).status, 1)
            self.assertEqual(folder.load("a.csv", "--on", "stop", going_on=True).status, 1)
            self.assertEqual(folder.load("a.csv", "--on", "stop", "--on", "wide=cut", going_on=True).rows, [["1", "x"], ["2", "y"]])
            self.assertEqual(folder.load("a.csv").status, 1)
            with self.assertRaisesRegex(ValueError, "--on reject needs --rejects FILE"):
                folder.load("a.csv", "--on", "reject")
            self.assertEqual(os.listdir(folder.path), ["a.csv"])

    def test_hints_lead_to_the_end(self):
        large = loaded("n\n99999999999999999999\n")
        self.assertIn("n has whole numbers that are too large for a long, and are kept as strings", large.told)
        self.assertNotIn("--scale", large.told)
        self.assertIn(
            "a: '99999999999999999999' is too large for a long. To go on: --on cell=null",
            loaded("a\n99999999999999999999\n", "--type", "a:long").told,
        )
        self.assertNotIn("--scale", loaded("n\n1.12345678901234567890\n").told)
        self.assertNotIn("--scale", loaded("n\n1e-30\n").told)
        self.assertIn("--scale n:3", loaded("n\n1.5\n2.125\n").told)
        self.assertEqual(loaded("n\n1.5\n2.125\n1.5e-1\n", "--scale", "n:3").rows, [["1500"], ["2125"], ["150"]])

    def test_a_file_that_is_loaded_takes_no_rejects(self):
        with Folder() as folder:
            path = folder.put("a.csv", "n\n1\n")
            with self.assertRaisesRegex(ValueError, "is to be loaded"):
                folder.load("a.csv", "--rejects", path)
            self.assertEqual(folder.load("a.csv").rows, [["1"]])

    def test_a_dynamic_that_is_too_deep_kept_as_text(self):
        line = '{"d":' + "[" * 200 + "]" * 200 + "}\n"
        found = loaded(line, "--on", "deep=text", name="a.json")
        self.assertEqual(found.rows, [['"' + "[" * 200 + "]" * 200 + '"']])

    def test_a_second_call_goes_on_where_the_first_stopped(self):
        lines = [f"{i},x" for i in range(60_000)]
        lines[55_000] = "y,x"
        with Folder() as folder:
            folder.put("a.csv", "n,s\n" + "\n".join(lines) + "\n")
            stopped = folder.load("a.csv")
            whole = folder.load("a.csv", "--on", "cell=null")
        self.assertGreater(len(stopped.batches), 2)
        self.assertEqual(len(whole.batches), 6)
        self.assertEqual(stopped.batches, whole.batches[: len(stopped.batches)])


class Calls(unittest.TestCase):
    def run_load(self, *words, stdin=b""):
        return subprocess.run([sys.executable, LOAD, *words], input=stdin, stdout=subprocess.PIPE, stderr=subprocess.PIPE)

    def test_standard_input_and_its_tags(self):
        first = self.run_load("-", "--into", "T", stdin=b"n,s\n1,x\n")
        self.assertEqual((first.returncode, first.stdout.count(b"1,x")), (0, 1))
        self.assertEqual(self.run_load("-", "--into", "T", stdin=b"n,s\n1,x\n").stdout, first.stdout)
        self.assertNotEqual(self.run_load("-", "--into", "T", stdin=b"n,s\n1,y\n").stdout.split(b"<|")[0], first.stdout.split(b"<|")[0])

    def test_compressed_standard_input(self):
        found = self.run_load("-", "--into", "T", stdin=gzip.compress(b"n,s\n1,x\n"))
        self.assertIn(b"\n1,x\n", found.stdout)

    def test_statuses(self):
        self.assertEqual(self.run_load("-", "--into", "T", stdin=b'n\n"x\n').returncode, 1)
        wrong = self.run_load("-", "--into", "T", "--type", "a:float", stdin=b"n\n1\n")
        self.assertEqual(wrong.returncode, 2)
        self.assertIn(b"the types are", wrong.stderr)
        self.assertEqual(self.run_load("--help").returncode, 0)
        self.assertIn(b"Examples:", self.run_load("--help").stdout)

    def test_a_missing_file_is_told_in_a_sentence(self):
        found = self.run_load("nothing.csv", "--into", "T")
        self.assertEqual((found.returncode, found.stdout), (1, b""))
        self.assertEqual(found.stderr, b"load: stopped: nothing.csv: No such file or directory\n")

    def test_memory_does_not_grow_with_the_file(self):
        # The peak of a child process, for a small file and for one that is twenty times as large.
        script = (
            "import runpy, sys; sys.argv = sys.argv[1:]\n"
            "try: runpy.run_path(sys.argv[0], run_name='__main__')\n"
            "except SystemExit: pass\n"
            "print(next(line for line in open('/proc/self/status') if line.startswith('VmHWM')).split()[1], file=sys.stderr)"
        )
        peaks = []
        with tempfile.TemporaryDirectory() as folder:
            for count in (20_000, 400_000):
                path = os.path.join(folder, f"{count}.csv")
                with open(path, "w") as file:
                    file.write("n,s\n" + "".join(f"{i},text {i}\n" for i in range(count)))
                found = subprocess.run([sys.executable, "-c", script, LOAD, path, "--into", "T"], stdout=subprocess.DEVNULL, stderr=subprocess.PIPE)
                peaks.append(int(found.stderr.split()[-1]))
        self.assertLess(peaks[1], peaks[0] + 8 * 1024)


if __name__ == "__main__":
    unittest.main()
