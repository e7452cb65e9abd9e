"""Columns of a table: found from the first records of its files, and what is made of each record's cells."""
import re

import cells
import jsons
import objects
from names import distinct_names
from problems import Stopped

MOST_COLUMNS = 256
LONE = re.compile("[\ud800-\udfff]")
LONE_BYTE = re.compile("[\udc80-\udcff]")


class Column:
    """A column: its name, its type, and the judge of its cells."""

    def __init__(self, name, kind, moments, scale=None):
        self.name = name
        self.kind = kind
        self.scale = scale
        self.judge = cells.Judge(kind, moments, scale) if kind not in ("string", "dynamic") else None


class Table:
    """The records of a chunk: a list of values for each field. `lines` are the records as CSV, where each is a line, or none."""

    def __init__(self, columns, count, native=False, clean=True):
        self.columns = columns
        self.count = count
        self.native = native
        self.clean = clean
        self.is_text = False  # whether the values of records with fields of their own are all texts
        self.lines = None
        self.records = None  # the objects, where they are such


class ObjectEvidence(cells.Evidence):
    """What the values of a member that were looked at so far may be."""

    def __init__(self, moments):
        super().__init__(moments)
        self.may = ["timespan", "datetime"]
        self.kinds = set()
        self.counts = True  # whether all numbers may count since 1970

    def add(self, values):
        found = set(map(type, values)) - {objects.NONE}
        self.kinds |= found
        if found & {int, jsons.Inexact}:
            numbers = [str(value) for value in values if type(value) in (int, jsons.Inexact)]
            self.counts = self.counts and all(map(self.may_be_epoch, numbers))
            for number in {number for number in numbers if len(number) <= 60}:
                self.measure(number)
        if self.kinds == {str}:
            super().add([value for value in values if type(value) is str])

    def kind(self):
        if self.kinds & {dict, list}:
            return "dynamic"
        if len(self.kinds) == 1:
            (only,) = self.kinds
            if only is str and self.any:
                return next((kind for kind in ("timespan", "datetime") if kind in self.may), "string")
            return {int: "long", bool: "bool"}.get(only, "string")
        return "string"

    def note(self, name):
        if self.kinds and self.kinds <= {int, jsons.Inexact}:
            self.any = True
            self.may = ["long", "epoch"][: 1 + self.counts] if self.kinds == {int} else ["decimal"]
            return super().note(name)
        return None


class Plan:
    """The columns of a table, and what becomes of the fields that have none."""

    def __init__(self, columns, options):
        self.columns = columns
        self.rest = options.rest
        self.moments = options.moments
        self.nulls = frozenset(options.nulls)
        self.reader = cells.Dynamics()
        self.names = [column.name for column in columns]
        self.known = {column.name for column in columns if column.name != self.rest}
        # With --only or --rest the other fields are left out, or kept together, by will.
        self.open = not options.only and not self.rest
        # Where nothing is said of them, and the table is made here, they get a column when the first one comes.
        self.may_grow = options.table and "extra" not in options.choices and len(columns) < MOST_COLUMNS

    def add_rest(self):
        """Adds a dynamic column for the fields that have none of their own."""
        self.rest = distinct_names([*self.names, "Rest"])[-1]
        self.columns.append(Column(self.rest, "dynamic", self.moments))
        self.names.append(self.rest)
        self.open = False
        return self.columns[-1]

    def rows(self, table, problems, at):
        """The records of a table as rows of CSV in UTF-8, and the places of those that are rejected, which have no row."""
        found, faults, rejected, same = [], [], set(), True
        for column in self.columns:
            values = self.values(column, table)
            texts, bad, refused = self.read(column, values, table, problems, at)
            same = same and texts is table.columns.get(column.name)
            faults += [(place, column, why) for place, why in bad]
            rejected |= refused
            found.append(texts)
        for place, column, why in sorted(faults, key=lambda fault: fault[0]):
            if place not in rejected and problems.meet(column.judge.fault, at(place), f"{column.name}: {why}") == "reject":
                rejected.add(place)
        if same and not faults and not rejected and table.lines is not None and list(table.columns) == self.names:
            return table.lines, rejected
        columns = [self.text_cells(column, texts, problems, at, rejected) for column, texts in zip(self.columns, found)]
        return rows_of(columns, rejected, problems, at), rejected

    def read(self, column, values, table, problems, at):
        """The cells of a column as texts; those that can't be read, each with why; and the records that are rejected."""
        if column.kind == "dynamic":
            texts, rejected = self.dynamics(column, values, table, problems, at)
            return texts, (), rejected
        texts = objects.texts_of(values) if table.native else values
        if column.kind == "string":
            return texts, (), set()
        return (*column.judge.read(texts), set())

    def values(self, column, table):
        if self.rest and column.name == self.rest:
            return self.others(table)
        found = table.columns.get(column.name)
        if found is None:
            return [None if table.native else ""] * table.count
        return without(self.nulls, found)

    def others(self, table):
        """For each record a bag of the fields that have no column of their own, or none."""
        names = [name for name in table.columns if name not in self.known]
        bags = [{} for _ in range(table.count)]
        for name in names:
            for bag, value in zip(bags, table.columns[name]):
                if value is not None and value != "":
                    bag[name] = value
        return [bag or None for bag in bags]

    def dynamics(self, column, values, table, problems, at):
        if table.native and not table.is_text or column.name == self.rest:
            return objects.dynamics_of(values, table.clean, problems, at)
        return self.reader.read(objects.texts_of(values) if table.is_text else values, problems, at)

    @staticmethod
    def text_cells(column, texts, problems, at, rejected):
        """The cells of a column, quoted where they have to be, without blank lines."""
        if column.kind not in ("string", "dynamic"):
            return texts
        joined = "".join(texts)
        if not any(sign in joined for sign in cells.SIGNS):
            return texts
        if "\n" in joined:
            texts = [without_blank_lines(text, place, problems, at, rejected) if "\n" in text else text for place, text in enumerate(texts)]
        return list(map(cells.quoted, texts))


def without(nulls, values):
    """The values, empty where a text stands for none."""
    return ["" if type(value) is str and value in nulls else value for value in values] if nulls else values


def without_blank_lines(text, place, problems, at, rejected):
    if not cells.BLANK_LINES.search(text):
        return text
    if problems.meet("blank", at(place), "a cell has a blank line, which would end the command") == "reject":
        rejected.add(place)
    return cells.BLANK_LINES.sub(" ", text)


def rows_of(columns, rejected, problems, at):
    """The rows of columns of cells, in UTF-8, each with its place among the records."""
    rows = list(map(",".join, zip(*columns)))
    try:
        encoded = [row.encode() for row in rows]
    except UnicodeEncodeError:
        encoded = [encoded_row(row, place, rejected, problems, at) for place, row in enumerate(rows)]
    return [row for place, row in enumerate(encoded) if place not in rejected] if rejected else encoded


def encoded_row(row, place, rejected, problems, at):
    if place in rejected or not LONE.search(row):
        return row.encode("utf-8", "replace")
    choice = problems.meet("utf8", at(place), "the record has bytes that are no UTF-8, or half of a surrogate pair")
    if choice == "reject":
        rejected.add(place)
    elif choice == "latin1":
        row = LONE_BYTE.sub(lambda found: chr(ord(found[0]) - 0xDC00), row)
    return LONE.sub("\ufffd", row).encode()


def planned(fields, evidence, fixed, options):
    """The columns for the fields that were found, in order, and what is to be said of them."""
    notes, columns = [], []
    unknown = [name for name in (*options.types, *options.scales, *(options.only or ())) if name not in fields and name != options.rest]
    # What is said of columns is for those of all tables, so that only the last one shows what none has.
    options.seen.update(fields)
    if unknown and options.others and not [name for name in unknown if name in (options.only or ())]:
        notes += [f"no table has a column {name}" for name in unknown if options.is_last and name not in options.seen]
    elif unknown:
        raise Stopped(f"there is no column {unknown[0]}; the columns are {', '.join(fields)}")
    chosen = list(options.only or fields)
    room = MOST_COLUMNS - (1 if options.rest else 0)
    if len(chosen) > room and options.rest and not options.only:
        notes.append(f"{len(chosen):,} fields were found; those behind the first {room} go into {options.rest}")
        chosen = chosen[:room]
    if len(chosen) > room:
        raise Stopped(
            f"{len(chosen):,} columns were found, and a table has at most {MOST_COLUMNS}: --only NAME,.. takes some, and --rest NAME puts all others into one dynamic column"
        )
    for name in chosen:
        kind = options.types.get(name) or ("long" if name in options.scales else fixed.get(name)) or evidence[name].kind()
        asked = name in options.types or name in options.scales or name in fixed
        if not asked and evidence[name].note(name):
            notes.append(evidence[name].note(name))
        columns.append(Column(name, kind, options.moments, options.scales.get(name)))
    if options.rest:
        if options.rest in chosen:
            raise Stopped(f"--rest {options.rest}: a field has this name; take another")
        columns.append(Column(options.rest, "dynamic", options.moments))
    return columns, notes
