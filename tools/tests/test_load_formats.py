"""logfmt, lines of text with stack traces, and what journalctl writes."""
import datetime
import json
import unittest

from load_runs import Folder, loaded

JAVA = """\
2024-03-01 10:00:00,123 INFO  [main] com.example.App - Starting, with 3 workers
2024-03-01 10:00:01,456 ERROR [http-1] com.example.Orders - Request failed
java.lang.IllegalStateException: no stock, again
\tat com.example.Orders.place(Orders.java:42)

Caused by: java.io.IOException: closed
\t... 12 more
2024-03-01 10:00:02,000 WARN  [http-2] com.example.App - Slow
"""


class Lines(unittest.TestCase):
    def test_a_java_log_with_stack_traces(self):
        found = loaded(JAVA, name="app.log")
        self.assertEqual(found.columns, "Line:long, Timestamp:datetime, Text:string")
        self.assertEqual(
            found.rows,
            [
                ["1", "2024-03-01T10:00:00.123", "INFO  [main] com.example.App - Starting, with 3 workers"],
                [
                    "2",
                    "2024-03-01T10:00:01.456",
                    "ERROR [http-1] com.example.Orders - Request failed\njava.lang.IllegalStateException: no stock, again\n"
                    "\tat com.example.Orders.place(Orders.java:42) Caused by: java.io.IOException: closed\n\t... 12 more",
                ],
                ["8", "2024-03-01T10:00:02.000", "WARN  [http-2] com.example.App - Slow"],
            ],
        )
        self.assertIn("blank: 1 made one space; the first: app.log:2", found.told)

    def test_records_over_the_ends_of_chunks(self):
        trace = "".join(f"\tat com.example.Deep.call(Deep.java:{i})\n" for i in range(5000))
        found = loaded(f"2024-03-01 10:00:00 ERROR one\n{trace}2024-03-01 10:00:01 INFO two\n{trace}", name="app.log")
        self.assertEqual([row[0] for row in found.rows], ["1", "5002"])
        self.assertEqual([row[2] for row in found.rows], ["ERROR one\n" + trace[:-1], "INFO two\n" + trace[:-1]])

    def test_text_without_datetimes_keeps_the_order_of_its_file(self):
        found = loaded("Starting the server\r\nStopping the server\r\n  for the night\r\n\r\nStarting again\r\n", name="app.log")
        self.assertEqual(found.columns, "Line:long, Text:string")
        self.assertEqual(found.rows, [["1", "Starting the server"], ["2", "Stopping the server\n  for the night"], ["5", "Starting again"]])

    def test_datetimes_of_several_forms_in_front(self):
        for front, wanted in [
            ("[2024-03-01T10:00:00Z] x", "2024-03-01T10:00:00Z"),
            ("2024/03/01 10:00:00 [error] x", "2024-03-01T10:00:00"),
            ("Mar  1 10:00:00 host x", f"{datetime.date.fromtimestamp(1709294400).year}-03-01T10:00:00"),
            ("2024-03-01 10:00:00.5 +0100: x", "2024-03-01T10:00:00.5+01:00"),
        ]:
            with self.subTest(front=front):
                self.assertEqual(loaded(front + " y\n", "--format", "lines", name="a.log").rows[0][1], wanted)

    def test_lines_before_the_first_datetime_and_of_one_column(self):
        found = loaded("-- begin --\n2024-03-01 10:00:00 INFO x\n", "--format", "lines", name="a.log")
        self.assertEqual(found.rows, [["1", "", "-- begin --"], ["2", "2024-03-01 10:00:00", "INFO x"]])

    def test_cells_with_a_datetime_in_front_are_csv(self):
        self.assertEqual(
            loaded("2024-03-01 10:00:00,web-1,GET\n2024-03-01 10:00:01,123,POST\n").columns, "Column1:datetime, Column2:string, Column3:string"
        )
        self.assertEqual(loaded("2024-03-01 10:00:00\tweb-1\n", name="a.tsv").columns, "Column1:datetime, Column2:string")
        self.assertEqual(loaded("2024-03-01 10:00:00\n2024-03-01 10:00:01\n").columns, "Column1:datetime")

    def test_rejected_records_are_whole(self):
        found = loaded("2024-03-01 10:00:00 x\n2024-02-31 10:00:00 y\n\tat z\n", "--rejects", "bad", "--format", "lines", name="a.log")
        self.assertEqual((len(found.rows), found.rejects), (1, b"2024-02-31 10:00:00 y\n\tat z\n"))


class Logfmt(unittest.TestCase):
    def test_keys_are_columns_with_types(self):
        lines = 'ts=2024-03-01T10:00:00Z level=info msg="user \\"ann\\" came\\tin" took=12ms n=3 ok\n\nts=2024-03-01T10:00:01Z level=warn msg=slow n=4 user= extra=x\r\n'
        found = loaded(lines, name="a.log")
        self.assertEqual(found.columns, "ts:datetime, level:string, msg:string, took:timespan, n:long, ok:bool, user:string, extra:string")
        self.assertEqual(
            found.rows,
            [
                ["2024-03-01T10:00:00Z", "info", 'user "ann" came\tin', "12ms", "3", "true", "", ""],
                ["2024-03-01T10:00:01Z", "warn", "slow", "", "4", "", "", "x"],
            ],
        )

    def test_keys_that_come_again_and_lines_of_another_form(self):
        found = loaded('a=1 b=2 a=3\nc=1 d="open\nb=5 a=4\n', "--rejects", "bad", "--format", "logfmt", name="a.log")
        self.assertEqual((found.columns, found.rows), ("a:long, b:long, a_2:long", [["1", "2", "3"], ["4", "5", ""]]))
        self.assertEqual(found.rejects, b'c=1 d="open\n')

    def test_late_keys_get_a_column(self):
        found = loaded("a=1 b=2\n" * 10_000 + "a=1 b=2 late=x\n", name="a.log")
        self.assertEqual((found.columns, found.rows[-1]), ("a:long, b:long", ["1", "2", '{"late":"x"}']))

    def test_a_line_with_many_quotes_takes_no_time(self):
        found = loaded("a=1 b=2\n" * 3 + 'a="' + '\\"' * 100_000 + "\n" + 'a="b" ' * 50_000 + '"\n', "--rejects", "bad", name="a.log")
        self.assertEqual(len(found.rows), 3)


class Journald(unittest.TestCase):
    ENTRY = {
        "__CURSOR": "s=1",
        "__REALTIME_TIMESTAMP": "1709294400123456",
        "_HOSTNAME": "web-1",
        "_SYSTEMD_UNIT": "ssh.service",
        "SYSLOG_IDENTIFIER": "sshd",
        "_PID": "42",
        "PRIORITY": "6",
        "MESSAGE": "Accepted key",
    }

    def load(self, *entries):
        return loaded("".join(json.dumps(entry) + "\n" for entry in entries), name="a.json")

    def test_fields_are_columns_and_the_others_members(self):
        found = self.load({**self.ENTRY, "_UID": "0"}, {**self.ENTRY, "OBJECT": ["a", "b"], "_PID": None})
        self.assertEqual(
            found.columns,
            "Timestamp:datetime, Host:string, Unit:string, Application:string, Process:string, Severity:long, Message:string, Fields:dynamic",
        )
        self.assertEqual(found.rows[0][:7], ["2024-03-01T12:00:00.123456Z", "web-1", "ssh.service", "sshd", "42", "6", "Accepted key"])
        self.assertEqual([json.loads(row[7]) for row in found.rows], [{"__CURSOR": "s=1", "_UID": "0"}, {"__CURSOR": "s=1", "OBJECT": ["a", "b"]}])

    def test_messages_that_are_bytes_or_too_large(self):
        found = self.load(
            self.ENTRY, {**self.ENTRY, "MESSAGE": list("\x1b[1mé".encode())}, {**self.ENTRY, "MESSAGE": None}, {**self.ENTRY, "MESSAGE": ["a", "b"]}
        )
        self.assertEqual([row[6] for row in found.rows], ["Accepted key", "\x1b[1mé", "", '["a","b"]'])
        self.assertIn("a.json:2: the record has bytes that are no UTF-8", self.load(self.ENTRY, {**self.ENTRY, "MESSAGE": [255]}).told)


class SeveralTables(unittest.TestCase):
    def test_files_of_several_tables(self):
        with Folder() as folder:
            folder.put("a.log", JAVA)
            folder.put("owners.csv", "path,owner\n/a,ann\n/b,bo\n")
            folder.put("hosts.json", '{"h":"x","d":{"n":1}}\n')
            found = folder.load("a.log", "--into", "App", "--table", "Owners=owners.csv", "--table", "Hosts=hosts.json", "--type", "owner:string")
        self.assertEqual(
            [block.split(" (")[0] for block in found.blocks if block.startswith(".create")],
            [".create table App", ".create table Owners", ".create table Hosts"],
        )
        self.assertEqual([(batch[0], batch[3].count("\n") + 1) for batch in found.batches if batch[0] != "App"], [("Owners", 2), ("Hosts", 1)])
        with self.assertRaisesRegex(ValueError, "it is NAME=FILE"):
            loaded("n\n1\n", "--table", "Owners")

    def test_columns_that_no_table_has_are_told(self):
        with Folder() as folder:
            folder.put("a.csv", "n,s\n1,x\n")
            folder.put("b.csv", "m,t\n2,y\n")
            found = folder.load("a.csv", "--table", "B=b.csv", "--type", "n:string,m:int,q:int")
            self.assertEqual(folder.load("a.csv", "--table", "B=b.csv", "--only", "q").status, 1)
        self.assertEqual(
            [block for block in found.blocks if block.startswith(".create")],
            [".create table T (n:string, s:string)", ".create table B (m:int, t:string)"],
        )
        self.assertIn("no table has a column q", found.told)
        self.assertNotIn("a column n", found.told)

    def test_rejects_of_several_tables(self):
        with Folder() as folder:
            folder.put("a.csv", "n,s\n1,x,y\n2,z\n")
            folder.put("b.csv", "m,t\n1,x,y\n")
            found = folder.load("a.csv", "--table", "B=b.csv", going_on=True)
            self.assertEqual([folder.read(name) for name in ("a.csv.rejects", "b.csv.rejects")], [b"n,s\n1,x,y\n", b"m,t\n1,x,y\n"])
        self.assertEqual(found.told.count("that didn't go in"), 2)


class SeveralFormats(unittest.TestCase):
    def test_files_of_one_table_may_be_of_several_formats(self):
        with Folder() as folder:
            folder.put("a.json", '{"n":1,"s":"x"}\n')
            folder.put("b.csv", "n,s\n2,y\n")
            self.assertEqual(folder.load("a.json", "b.csv").rows, [["1", "x"], ["2", "y"]])


if __name__ == "__main__":
    unittest.main()
