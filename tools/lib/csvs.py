"""CSV and its kin: the records of the lines of a file."""
import collections
import csv
import io

from inputs import LONGEST, Chunk

csv.field_size_limit(2**24)
OPEN = "unexpected end of data"


class Csv:
    """Records with a delimiter between their cells, with or without quotes."""

    name = "csv"

    def __init__(self, delimiter=",", quotes=True):
        self.delimiter = delimiter
        self.quotes = quotes

    def reader(self, lines):
        """Reads records of lines, each with its LF."""
        quoting = csv.QUOTE_MINIMAL if self.quotes else csv.QUOTE_NONE
        return csv.reader(lines, delimiter=self.delimiter, quoting=quoting, strict=True)

    def columns(self, chunk, width):
        """The columns of a chunk whose lines are records of this width without quotes; none where some line is anything else."""
        text = chunk.text()
        if '"' in text and self.quotes or not chunk.lines:
            return None
        if "\r" in text:
            text = text[:-1] if text.endswith("\r") else text
            text = text.replace("\r\n", "\n")
        if "\r" in text or width == 1 and (b"" in chunk.lines or b"\r" in chunk.lines):
            return None
        sign, count = self.delimiter, len(chunk.lines)
        cells = text.replace("\n", f"{sign}\n{sign}").split(sign)
        if len(cells) != count * (width + 1) - 1 or cells[width :: width + 1].count("\n") != count - 1:
            return None
        return [cells[place :: width + 1] for place in range(width)]

    def record(self, line):
        """The record of one line; or what is wrong with it, or that its last quote is open."""
        try:
            return next(self.reader([line]), []), None
        except csv.Error as fault:
            return None, str(fault)


class Run:
    """Whole records of some lines: each with its first line and the one behind it, or, where each line may be one, as columns."""

    def __init__(self, chunk, records=None, spans=None, columns=None):
        self.chunk = chunk
        self.records = records
        self.spans = spans
        self.columns = columns

    def add(self, record, first, behind):
        if record:
            self.records.append(record)
            self.spans.append((first, behind))


class Cutter:
    """Cuts chunks of lines into runs of whole records.

    A record that is broken costs its first line alone. Each line is read at most twice, whatever quotes it has: behind a quote that is
    open for many lines, each of them is read by itself, since all those that open a quote too end where the first one does."""

    def __init__(self, reader, width, refuse):
        self.reader = reader
        self.width = width
        self.refuse = refuse
        self.name = ""
        # Lines of which the first opens a quote that none of the others closes, some at a time, with the number of the first of each.
        self.open = collections.deque()
        self.size = 0

    def runs(self, chunks):
        for chunk in chunks:
            self.name, last = chunk.name, chunk.last
            if self.open:
                chunk = yield from self.go_on(chunk)
            if chunk.lines:
                yield from self.read(chunk)
            if last:
                yield from self.give_up(-1, OPEN)

    def read(self, chunk):
        """The records of a chunk that begins with one."""
        columns = self.reader.columns(chunk, self.width) if self.width else None
        if columns is not None:
            yield Run(chunk, columns=columns)
            return
        run = Run(chunk, [], [])
        try:
            run.records = list(filter(None, self.reader.reader(io.StringIO(chunk.text(), newline="\n"))))
            run.spans = None
        except csv.Error:
            lines, start = texts(chunk), 0
            while start < len(lines):
                start = self.read_on(run, lines, start)
        yield run

    def read_on(self, run, lines, start):
        """Reads records up to one that is broken, and gives the line at which to go on."""
        reader, before = self.reader.reader(lines[place] for place in range(start, len(lines))), start
        while True:
            try:
                record = next(reader)
            except StopIteration:
                return len(lines)
            except csv.Error as found:
                behind = start + reader.line_num
                if OPEN in str(found):
                    self.keep(run.chunk, before)
                    return len(lines)
                self.refuse(run.chunk, before, str(found))
                self.singly(run, lines, before + 1, behind - 1, str(found))
                return max(behind - 1, before + 1)
            run.add(record, before, start + reader.line_num)
            before = start + reader.line_num

    def singly(self, run, lines, first, behind, fault):
        """Reads lines behind a quote that stays open up to a fault. Those that open a quote themselves meet the same fault."""
        for place in range(first, behind):
            record, wrong = self.reader.record(lines[place])
            if wrong is None:
                run.add(record, place, place + 1)
            else:
                self.refuse(run.chunk, place, fault if OPEN in wrong else wrong)

    def keep(self, chunk, first):
        """Keeps lines behind an open quote for the next chunk."""
        data = b"\n".join(chunk.lines[first:])
        self.open.append((chunk.number + first, data))
        self.size += len(data) + 1

    def go_on(self, chunk):
        """Looks for the end of the open record, and gives what of the chunk is behind it."""
        lines = texts(chunk)
        if not lines:
            return chunk
        reader = self.reader.reader(('"' if not place else "") + line for place, line in enumerate(lines))
        try:
            next(reader)
        except csv.Error as found:
            if OPEN in str(found):
                self.keep(chunk, 0)
                yield from self.give_up(LONGEST, OPEN)
                return chunk.without(len(lines))
            at = reader.line_num - 1
            yield from self.give_up(-1, str(found))
            run = Run(chunk.first(at), [], [])
            self.singly(run, lines, 0, at, str(found))
            yield run
            return chunk.without(at)
        behind = reader.line_num
        yield from self.give_up(LONGEST - sum(map(len, chunk.lines[:behind])) - behind, OPEN)
        if not self.open:
            return chunk
        whole = Chunk(self.name, self.open[0][0], [b"\n".join([*(data for _, data in self.open), *chunk.lines[:behind]])])
        self.open.clear()
        self.size = 0
        yield Run(whole, [next(self.reader.reader(io.StringIO(whole.text(), newline="\n")))], [(0, 1)])
        return chunk.without(behind)

    def give_up(self, most, fault):
        """Refuses first lines of what is open, until no more than so many bytes are open; -1 stands for all of them."""
        if self.open and self.size <= most:
            return
        while self.open:
            number, data = self.open.popleft()
            chunk = Chunk(self.name, number, data.split(b"\n"))
            run = Run(chunk, [], [])
            is_kept = self.give_up_lines(run, most, fault)
            yield run
            if is_kept:
                return

    def give_up_lines(self, run, most, fault):
        """The same for some of the lines. Says whether the rest of them was kept."""
        lines = texts(run.chunk)
        for place, line in enumerate(lines):
            record, wrong = self.reader.record(line)
            if wrong is not None and OPEN in wrong and self.size <= most:
                self.open.appendleft((run.chunk.number + place, b"\n".join(run.chunk.lines[place:])))
                return True
            if wrong is None:
                run.add(record, place, place + 1)
            else:
                self.refuse(run.chunk, place, fault if OPEN in wrong else wrong)
            self.size -= len(run.chunk.lines[place]) + 1
        return False


def texts(chunk):
    """The lines of a chunk as texts, each with its LF."""
    return [line + "\n" for line in chunk.text().split("\n")] if chunk.lines else []


def spans(reader, chunk):
    """The first line of each record of a chunk without broken ones, and the line behind it."""
    found, before, lines = [], 0, reader.reader(io.StringIO(chunk.text(), newline="\n"))
    for record in lines:
        if record:
            found.append((before, lines.line_num))
        before = lines.line_num
    return found


def told(fault):
    """What is wrong with the record that begins at a line."""
    if OPEN in fault or "field limit" in fault:
        return "a quote that opens in the record that begins here isn't closed"
    if "new-line character" in fault:
        return "a CR stands within a cell that has no quotes"
    return f"the record that begins here is no CSV ({fault})"
