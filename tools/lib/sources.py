"""What a file holds: its format, its fields, and its records as tables."""
import contextlib
import itertools
import re

import csvs
import jsons
import logfmt
import logs
import objects
import text_lines
from cells import Evidence
from inputs import Input
from names import distinct_names, is_word
from plans import LONE, ObjectEvidence, Table
from problems import Stopped

# How many records, and bytes, are looked at to find types.
SAMPLE = 10_000
SAMPLE_BYTES = 2**26
# How many records behind the first tell whether it has names.
FOLLOWING = 20
# What stands behind a datetime in front of a line of text, and what no cell alone has.
TEXT_BEHIND = re.compile(r"[:-]? +(?:[^ \t,;|0-9]|[0-9]+ +[A-Za-z\[])")
WORDS = re.compile(r"[A-Za-z]{2,} +[A-Za-z]{2,}")
NAME_LIKE = re.compile(r"[^\W\d].{0,63}")
FORMATS = ["csv", "tsv", "json", "journald", "logfmt", "lines", *logs.FORMATS]
# Formats whose records have fields of their own.
FREE = {"json": objects.Objects, "journald": objects.Journal, "logfmt": logfmt.Logfmt}
# What stands before a format that is given itself.
NAMED = ("nginx:", "apache:")


class Lenient:
    """Stands for the problems while types are found: records that would stop the loading are left to it."""

    def __init__(self, choices):
        self.choices = choices
        self.met = False

    def meet(self, kind, place, why):
        self.met = True
        choice = self.choices[kind]
        return "reject" if choice == "stop" else choice

    def reject(self, raw):
        pass


class Source:
    """A file with what was found of it."""

    def __init__(self, path, options, problems):
        self.path = path
        self.options = options
        self.problems = problems
        self.input = Input(path, problems)
        self.heading = 0  # how many lines the names of the columns take
        self.heading_text = b""
        self.fields = []
        self.notes = []
        self.lenient = Lenient(problems.choices)
        self.sample = self.looked_at()
        lines = list(itertools.islice((line for chunk in self.sample for line in chunk.lines if line.strip()), 50))
        self.format = options.format or sniffed(path, lines)
        self.reader = self.reader_of(self.format, lines)
        if isinstance(self.reader, csvs.Csv) and self.sample:
            self.find_names()

    @property
    def is_empty(self):
        return not any(chunk.lines for chunk in self.sample) and not self.lenient.met

    def looked_at(self):
        """The chunks with the first records. What is no file can't be read again, so they are kept."""
        if self.input.is_regular:
            self.input.close()
            with contextlib.closing(Input(self.path, self.lenient)) as looking:
                return first_chunks(looking.chunks())
        self.opened = self.input.chunks()
        return first_chunks(self.opened)

    def open(self):
        """Opens a file to load it: many may be looked at before the first is loaded."""
        if self.input.is_regular:
            self.input = Input(self.path, self.problems)
        if isinstance(self.reader, logs.Lines):
            self.reader.begin()
        if not self.options.year:
            self.options.moments.latest = self.input.changed

    def chunks(self):
        """The lines, those of the names aside."""
        if self.input.is_regular:
            chunks = self.input.chunks()
        else:
            chunks = itertools.chain(self.sample, self.opened)
        return self.behind_heading(chunks)

    def behind_heading(self, chunks):
        left = self.heading
        for chunk in chunks:
            if left:
                taken = min(left, len(chunk.lines))
                chunk, left = chunk.without(taken), left - taken
            yield chunk

    def reader_of(self, name, lines):
        texts = [line.decode("utf-8", "surrogateescape").rstrip("\r") for line in lines]
        if name in logs.FORMATS:
            return logs.FORMATS[name](texts)
        if name == "lines":
            return text_lines.Text(texts)
        if name in FREE:
            return FREE[name]()
        if name.startswith(NAMED):
            return logs.named(name)
        delimiter = self.options.delimiter or ("\t" if name == "tsv" else delimiter_of(lines))
        return csvs.Csv(delimiter, self.options.quotes)

    def first_records(self):
        """The first record of CSV with its first line and the one behind it, and some that follow. Broken ones before it are met as problems."""
        broken, found = [], []
        cutter = csvs.Cutter(self.reader, 0, lambda *fault: broken.append(fault))
        for run in cutter.runs([*self.sample[:-1], self.sample[-1].as_last()]):
            spans = csvs.spans(self.reader, run.chunk) if run.spans is None else run.spans
            found += zip(run.records, spans, itertools.repeat(run.chunk))
            if len(found) > FOLLOWING:
                break
        behind_all = sum(len(chunk.lines) for chunk in self.sample)
        at = found[0][2].number - 1 + found[0][1][0] if found else behind_all
        for chunk, line, fault in broken:
            if chunk.number + line <= at:
                self.refuse(chunk, line, fault, self.problems)
        if not found:
            return None, behind_all, behind_all, []
        record, (first, behind), chunk = found[0]
        self.heading_text = chunk.raw(first, behind)
        return record, at, at + self.heading_text.count(b"\n"), [following for following, _, _ in found[1:]]

    @staticmethod
    def refuse(chunk, line, fault, problems):
        """Meets a record that is no CSV. Its first line alone is rejected."""
        problems.meet("quote", chunk.place(line), csvs.told(fault))
        problems.reject(chunk.raw(line, line + 1))

    def find_names(self):
        """Takes the first record as names, where it is."""
        record, at, behind, following = self.first_records()
        names = [LONE.sub("\ufffd", name.strip()) for name in record or ()]
        asked = self.options.header
        heading = bool(record) and (asked if asked is not None else not self.options.names and are_names(names, following))
        self.heading = behind if heading else at
        if not heading:
            self.heading_text = b""
            if asked is None and not self.options.names and are_odd_names(names):
                self.notes.append("the first record has equal or empty cells, and is taken as data; --header where it has the names of the columns")
        elif asked is None:
            self.notes.append("the first record is taken as the names of the columns; --no-header where it is none")
        if self.options.names:
            self.fields = list(self.options.names)
        elif heading:
            self.fields = distinct_names(names)
            self.notes += [
                f"the column {now!r} is called {before!r} in the file" for before, now in zip(record, self.fields) if before.strip() != now
            ]
        else:
            self.fields = [f"Column{place}" for place in range(1, len(names) + 1)]

    def tables(self, problems, chunks):
        """A table for each chunk, and what tells where its records stand."""
        if isinstance(self.reader, csvs.Csv):
            cutter = csvs.Cutter(self.reader, len(self.fields), lambda *fault: self.refuse(*fault, problems))
            for run in cutter.runs(chunks):
                yield self.csv_table(run, problems)
            return
        for chunk in self.reader.cut(chunks) if isinstance(self.reader, text_lines.Text) else chunks:
            yield self.table(chunk, problems)

    def table(self, chunk, problems):
        """The records of a chunk as a table, and what tells their lines."""
        found, lines = self.reader.read(chunk, problems)
        places = Places(chunk, lines)
        if self.reader.name in FREE:
            fields = dict.fromkeys(itertools.chain.from_iterable(found))
            columns = {name: [record.get(name) for record in found] for name in fields}
            table = Table(columns, len(found), native=True, clean=self.reader.clean)
            table.is_text = isinstance(self.reader, logfmt.Logfmt)
            table.records = found
            return table, places
        return Table(dict(zip(self.reader.fields, found)), len(found[0])), places

    def csv_table(self, run, problems):
        chunk, plain = run.chunk, self.reader.delimiter == "," and self.reader.quotes
        if run.columns is not None:
            table = Table(dict(zip(self.fields, run.columns)), len(chunk.lines))
            table.lines = chunk.lines if plain and chunk.is_text else None
            return table, Places(chunk, None)
        spans = Spans(run, self.reader)
        count = len(run.records)
        keep = self.fit(run.records, spans, problems)
        columns = list(zip(*run.records)) or [[] for _ in self.fields]
        table = Table(dict(zip(self.fields, columns)), len(run.records))
        if plain and chunk.is_text and keep is None and count == len(chunk.lines) and not any(b"\n" in line for line in chunk.lines):
            table.lines = chunk.lines
        return table, spans.of(keep)

    def fit(self, records, spans, problems):
        """Makes all records as wide as there are columns. Gives the places of those that are kept, or none where all are."""
        width = len(self.fields)
        if not set(map(len, records)) - {width}:
            return None
        keep, fitting = [], []
        for place, record in enumerate(records):
            if len(record) == 1 < width and not record[0].strip() and not spans.raw(place).strip():
                continue
            if len(record) < width:
                choice = problems.meet("short", spans.at(place), f"the record has {len(record)} cells, and there are {width} columns")
            elif len(record) > width:
                choice = problems.meet("wide", spans.at(place), f"the record has {len(record)} cells, and there are {width} columns")
            else:
                choice = None
            if choice == "reject":
                problems.reject(spans.raw(place))
                continue
            keep.append(place)
            fitting.append(record[:width] + [""] * (width - len(record)))
        records[:] = fitting
        return keep

    def evidence(self, known):
        """Adds what the first records show of each field to what is known."""
        if hasattr(self.reader, "fields"):
            self.fields = list(self.reader.fields)
            if set(self.fields) <= set(self.reader.types):
                return
        seen, nulls = 0, self.options.nulls
        native = self.reader.name in FREE
        for table, _ in self.tables(self.lenient, self.behind_heading(self.sample)):
            room = SAMPLE - seen
            names = dict.fromkeys(itertools.chain.from_iterable(table.records[:room])) if native else table.columns
            for name in names:
                if name in getattr(self.reader, "types", ()):
                    continue
                if name not in known:
                    known[name] = (ObjectEvidence if native and not table.is_text else Evidence)(self.options.moments)
                known[name].add(
                    [value for value in table.columns[name][:room] if (not nulls or value not in nulls) and (value is not None or not table.is_text)]
                )
            seen += table.count
            if seen >= SAMPLE:
                break
        if native:
            self.fields = list(known)


class Places:
    """Where records are that are a line each."""

    def __init__(self, chunk, lines):
        self.chunk = chunk
        self.lines = lines

    def span(self, place):
        line = self.lines[place] if self.lines is not None else place
        return line if isinstance(line, tuple) else (line, line + 1)

    def at(self, place):
        return self.chunk.place(self.span(place)[0])

    def raw(self, place):
        return self.chunk.raw(*self.span(place))


class Spans(Places):
    """Where records are that may be of several lines. They are found again where one is asked about."""

    def __init__(self, run, reader, keep=None):
        self.run = run
        self.chunk = run.chunk
        self.reader = reader
        self.keep = keep

    def of(self, keep):
        """The same for those records that are kept."""
        return Spans(self.run, self.reader, keep)

    def span(self, place):
        if self.run.spans is None:
            self.run.spans = csvs.spans(self.reader, self.chunk)
        return self.run.spans[self.keep[place] if self.keep is not None else place]


def first_chunks(chunks):
    """As many chunks as show the types."""
    found, count, size = [], 0, 0
    for chunk in chunks:
        found.append(chunk)
        count += len(chunk.lines)
        size += sum(map(len, chunk.lines))
        if count > SAMPLE or size > SAMPLE_BYTES:
            break
    return found


def are_names(cells, following):
    """Whether the cells of a first record are names of columns and no values. `following` are records behind it."""
    if len(cells) < 2:
        return bool(cells) and is_word(cells[0])
    if len(set(cells)) == len(cells) and all(map(is_name_like, cells)):
        return True
    # With equal or empty cells, they are names where the cells below some name are of another kind.
    below = [list(filter(None, (record[place].strip() for record in following if place < len(record)))) for place, cell in enumerate(cells) if cell]
    return are_odd_names(cells) and any(texts and not any(map(is_name_like, texts)) for texts in below)


def are_odd_names(cells):
    """Whether the cells may be names, of which some are equal or empty."""
    return len(cells) > 1 and any(cells) and all(not cell or is_name_like(cell) for cell in cells) and (len(set(cells)) < len(cells) or "" in cells)


def is_name_like(cell):
    return NAME_LIKE.fullmatch(cell) is not None and cell.lower() not in ("true", "false")


def delimiter_of(lines):
    first = lines[0] if lines else b""
    return next((sign for sign in (",", "\t", ";", "|") if sign.encode() in first), ",")


def sniffed(path, lines):
    """The format that the first lines are of."""
    texts = [line.decode("utf-8", "replace").rstrip("\r") for line in lines]
    first = texts[0].strip() if texts else ""
    if first.startswith("{"):
        if first == "{" or (len(texts) > 1 and not any(text.strip().endswith("}") for text in texts[:1])):
            raise_if_spread(path, first)
        return "journald" if '"__REALTIME_TIMESTAMP"' in first and '"__CURSOR"' in first else "json"
    if first == "[" or first.startswith("[{"):
        raise Stopped(f"{path}: is one JSON array and no JSON lines; try jq -c '.[]' {path} | tools/load - ..")
    for name, reader in logs.FORMATS.items():
        pattern = reader().one
        if texts and sum(1 for text in texts if pattern.fullmatch(text)) * 2 >= len(texts):
            return name
    if texts and sum(map(logfmt.is_logfmt, texts)) * 2 >= len(texts):
        return "logfmt"
    if are_text(texts):
        return "lines"
    return "tsv" if re.sub("\\.(?:gz|bz2|xz|zst)$", "", path).endswith((".tsv", ".tab")) else "csv"


def are_text(texts):
    """Whether lines are text and no cells: the first begins with a datetime and a word, or none has a delimiter and some has words."""
    if not texts:
        return False
    begun = text_lines.START.match(texts[0])
    if begun is not None and TEXT_BEHIND.match(texts[0], begun.end()):
        return True
    return (
        not is_word(texts[0].strip())
        and not any(sign in text for text in texts for sign in ',\t;|"')
        and any(WORDS.search(text.strip()) for text in texts)
    )


def raise_if_spread(path, first):
    try:
        jsons.exact(first)
    except ValueError:
        if first == "{":
            raise Stopped(f"{path}: has a JSON object over several lines; try jq -c . {path} | tools/load - ..") from None
