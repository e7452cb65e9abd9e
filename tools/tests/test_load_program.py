"""What tools/load writes, as the program reads it. These tests need the proved program, or another one that KQ_PROGRAM names."""
import csv
import io
import json
import os
import random
import re
import time
import unittest

from load_runs import PROGRAM, Folder

import sessions

SIGNS = {"\\\\": "\\", "\\t": "\t", "\\n": "\n", "\\r": "\r"}
SECONDS = 300


def plain(cell):
    """A string's text, from a cell of a reply (docs/REPLIES.md)."""
    return re.sub(r"\\[\\tnr]", lambda found: SIGNS[found[0]], cell)


def written(path):
    """What a feed was answered so far."""
    if not os.path.exists(path):
        return ""
    with open(path) as file:
        return file.read()


def answer(reply):
    """The cells of an answer."""
    if not reply.startswith("rows "):
        raise AssertionError(reply)
    _, _, *rows = reply[:-1].split("\n")
    return [row.split("\t") for row in rows]


@unittest.skipUnless(PROGRAM, "the proved program isn't built")
class Program(unittest.TestCase):
    def setUp(self):
        self.folder = Folder()
        self.addCleanup(self.folder.__exit__)

    def start(self, *feeds):
        program = sessions.Program([PROGRAM, *feeds], self.folder.path)
        self.addCleanup(lambda: program.process.poll() is None and program.end())
        return program

    def give(self, program, script):
        """The replies to a script."""
        program.send(script.decode())
        return list(program.replies_so_far())

    def test_a_file_that_is_loaded_twice_goes_in_once(self):
        self.folder.put("a.csv", "n,s\n" + "".join(f"{i},x{i}\n" for i in range(2500)))
        script = self.folder.load("a.csv", "--batch", "1000").script
        program = self.start()
        first, second = self.give(program, script), self.give(program, script)
        self.assertEqual([reply.split()[0] for reply in first], ["done", "ingested", "ingested", "ingested"])
        self.assertEqual([reply.split()[0] for reply in second], ["kept", "skipped", "skipped", "skipped"])
        self.assertEqual(answer(program.ask("T | summarize count(), sum(n)")), [["2500", str(sum(range(2500)))]])
        self.assertEqual(program.end(), 0)

    def test_two_files_in_two_feeds_at_once_go_in_once(self):
        for name, start in (("a.csv", 0), ("b.csv", 1000)):
            self.folder.put(name, "n\n" + "".join(f"{start + i}\n" for i in range(1000)))
        for feed, files in (("north", ("a.csv", "b.csv")), ("south", ("b.csv", "a.csv"))):
            self.folder.put(feed, self.folder.load(*files, "--batch", "100").script)
        program = self.start("north", "south")
        outs = [os.path.join(self.folder.path, f"{feed}.out") for feed in ("north", "south")]
        end = time.monotonic() + SECONDS
        while time.monotonic() < end and any(written(out).count("\n\n") < 21 for out in outs):
            time.sleep(0.02)
        replies = [written(out).split() for out in outs]
        self.assertEqual(sum(words.count("ingested") for words in replies), 20)
        self.assertEqual(sum(words.count("skipped") for words in replies), 20)
        self.assertEqual(answer(program.ask("T | summarize count(), sum(n), min(n), max(n)")), [["2000", str(sum(range(2000))), "0", "1999"]])
        self.assertEqual(program.end(), 0)

    def test_cells_of_all_types_are_read_as_they_are_meant(self):
        self.folder.put(
            "a.csv",
            "l,b,t,span,d,s\n"
            '-5,TRUE,10/Oct/2000:13:55:36 -0700,1.5h,"{""b"":[1,null],""a"":""x""}","a,b"\n'
            ' 7 ,false,2024-03-01 10:00:00.25,-00:00:05,[],"two\nlines"\n'
            ",,,,,\n",
        )
        found = self.folder.load("a.csv", "--type", "t:datetime,span:timespan,l:int")
        self.assertEqual(found.columns, "l:int, b:bool, t:datetime, span:timespan, d:dynamic, s:string")
        program = self.start()
        self.give(program, found.script)
        self.assertEqual(
            answer(program.ask("T | sort by l asc")),
            [
                ["null", "null", "null", "null", "null", ""],
                ["-5", "true", "2000-10-10T20:55:36.0000000Z", "01:30:00", '{"a":"x","b":[1,null]}', "a,b"],
                ["7", "false", "2024-03-01T10:00:00.2500000Z", "-00:00:05", "[]", "two\\nlines"],
            ],
        )

    def test_names_in_brackets(self):
        self.folder.put("a.csv", "and,it's \"so\" \\,é\n1,2,3\n")
        found = self.folder.load("a.csv", "--into", "date", "--header")
        program = self.start()
        self.assertEqual([reply.split()[0] for reply in self.give(program, found.script)], ["done", "ingested"])
        self.assertEqual(answer(program.ask("['date'] | project ['and'], x = ['é']")), [["1", "3"]])

    def texts(self, count):
        random.seed(5)
        signs = ["a", "é", "😀", " ", "\t", '"', ",", "'", "\\", "\n", "\r", "\0", "\ufeff", "|", "<|", "//", "{", ".", ";"]
        return ["".join(random.choice(signs) for _ in range(random.randint(0, 6))) for _ in range(count)]

    def kept(self, text):
        """What becomes of a text: blank lines within become one space."""
        return re.sub(r"\n(?:[ \t\r]*\n)+", " ", text)

    def test_any_text_of_csv(self):
        texts = self.texts(300)
        out = io.StringIO()
        writer = csv.writer(out, lineterminator="\n", quoting=csv.QUOTE_ALL)
        writer.writerows([["s", "n"], *([text, str(place)] for place, text in enumerate(texts))])
        self.folder.put("a.csv", out.getvalue())
        program = self.start()
        replies = self.give(program, self.folder.load("a.csv", "--type", "s:string", "--batch", "7").script)
        self.assertEqual({reply.split()[0] for reply in replies[1:]}, {"ingested"})
        self.assertEqual([plain(row[0]) for row in answer(program.ask("T | sort by n asc"))], [self.kept(text) for text in texts])

    def test_any_text_of_json_alone_in_its_row(self):
        texts = self.texts(300)
        self.folder.put("a.json", "".join(json.dumps({"s": text}) + "\n" for text in texts))
        program = self.start()
        self.give(program, self.folder.load("a.json", "--type", "s:string", "--batch", "5").script)
        self.assertEqual(sorted(plain(row[0]) for row in answer(program.ask("T"))), sorted(self.kept(text) for text in texts))

    def test_any_value_of_a_dynamic(self):
        random.seed(6)
        texts = iter(self.texts(5000))

        def value(depth):
            kind = random.randrange(6 if depth else 4)
            if kind == 4:
                return [value(depth - 1) for _ in range(random.randrange(3))]
            if kind == 5:
                return {next(texts): value(depth - 1) for _ in range(random.randrange(3))}
            return [next(texts), random.randint(-(2**63), 2**63 - 1), random.random() < 0.5, None][kind]

        values = [[value(3)] for _ in range(200)]
        self.folder.put("a.json", "".join(json.dumps({"n": place, "d": found}) + "\n" for place, found in enumerate(values)))
        program = self.start()
        self.give(program, self.folder.load("a.json", "--batch", "50").script)
        self.assertEqual([json.loads(plain(row[0])) for row in answer(program.ask("T | sort by n asc | project tostring(d)"))], values)

    def test_datetimes_as_the_calendar_has_them(self):
        days = ["2024-02-29", "2000-02-29", "1999-12-31", "0002-01-01", "9998-12-31"]
        self.folder.put("a.csv", "t,n\n" + "".join(f"{day},{place}\n" for place, day in enumerate(days)))
        program = self.start()
        self.give(program, self.folder.load("a.csv").script)
        self.assertEqual([row[0][:10] for row in answer(program.ask("T | sort by n asc"))], days)


if __name__ == "__main__":
    unittest.main()
