"""Records of CSV over the ends of chunks, broken ones among them, and how much of them is read again."""
import random
import tracemalloc
import unittest

import load_runs  # noqa: F401

import csvs
from inputs import Chunk


def cut(data, size, limit=None):
    """The records of some lines, in chunks of so many, and the numbers of the lines that are refused."""
    lines, found, refused = data.split(b"\n"), [], []
    chunks = [Chunk("a", 1 + start, lines[start : start + size]) for start in range(0, len(lines), size)]
    chunks[-1].last = True
    before = csvs.LONGEST
    csvs.LONGEST = limit or before
    try:
        for run in csvs.Cutter(csvs.Csv(), 0, lambda chunk, line, fault: refused.append(chunk.number + line)).runs(chunks):
            spans = csvs.spans(csvs.Csv(), run.chunk) if run.spans is None else run.spans
            found += [(run.chunk.number + first, record) for record, (first, _) in zip(run.records, spans)]
    finally:
        csvs.LONGEST = before
    return found, refused


def slowly(data):
    """The same by the rule itself: the longest whole text from a line on is read, and a broken record costs its first line."""
    lines, place, found, refused = data.decode().split("\n"), 0, [], []
    while place < len(lines):
        reader = csvs.Csv().reader(line + "\n" for line in lines[place:])
        try:
            record = next(reader)
            found += [(place + 1, record)] if record else []
            place += reader.line_num
        except csvs.csv.Error:
            refused.append(place + 1)
            place += 1
    return found, refused


class Cut(unittest.TestCase):
    def test_any_lines_are_cut_as_the_rule_says_wherever_chunks_end(self):
        chance = random.Random(11)
        for _ in range(600):
            data = "".join(chance.choices('"",,\n\nax\r ', k=chance.randrange(40))).encode()
            wanted = slowly(data)
            for size in (1, 2, 3, 100):
                self.assertEqual(cut(data, size), wanted, (data, size))

    def test_open_quotes_are_read_in_linear_time(self):
        # Each of these lines opens a quote, and none closes the one before it.
        calls = []
        before = csvs.Csv.reader

        def counted(reader, lines):
            def each():
                for line in lines:
                    calls.append(len(line))
                    yield line

            return before(reader, each())

        csvs.Csv.reader = counted
        try:
            data = b"\n".join([b'a","b'] * 20_000)
            found, refused = cut(data, 1000)
        finally:
            csvs.Csv.reader = before
        self.assertEqual((found, len(refused)), ([], 20_000))
        self.assertLess(sum(calls), 4 * len(data))

    def test_a_record_that_is_too_long_costs_its_first_line(self):
        found, refused = cut(b'1,"open\n' + b"2,x\n" * 30 + b'3,"y', 7, limit=40)
        self.assertEqual(([record for _, record in found], refused), ([["2", "x"]] * 30, [1, 32]))

    def test_many_short_lines_behind_an_open_quote_take_little_memory(self):
        data = b'"' + b"a\n" * 1_000_000
        tracemalloc.start()
        cutter = csvs.Cutter(csvs.Csv(), 0, lambda *fault: None)
        start = tracemalloc.get_traced_memory()[0]
        for _ in cutter.runs(Chunk("a", 1 + place, data[place * 20_000 : (place + 1) * 20_000].split(b"\n")) for place in range(100)):
            pass
        peak = tracemalloc.get_traced_memory()[1] - start
        tracemalloc.stop()
        self.assertLess(peak, 12 * 2**20)


if __name__ == "__main__":
    unittest.main()
