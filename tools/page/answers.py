"""Answers that are held for a page, which sees some rows of them at a time, sorted and filtered."""
import csv
import dataclasses
import io
import itertools
import json
import re
from dataclasses import dataclass
from typing import Optional, Tuple

import charts
import filters
import replies
import tables
from widths import visible

# A cell of a row is cut here. It is whole where it is opened, copied or saved.
LONGEST_CELL = 400
MOST_ROWS_OF_A_WINDOW = 500
MOST_COPIED = 100_000
MOST_DRAWN = {"time": 50_000, "line": 50_000, "bar": 200}
# So many children of an object or an array are shown.
MOST_CHILDREN = 1000
LOOKED_AT = 1000


def read(text):
    """The reply of a text without its empty line. It gives what replies.read does, and looks at no row by itself: an answer
    may have a million of them."""
    first, _, rest = text.partition("\n")
    found = replies.Reply(1, first)
    if re.fullmatch(r"rows \d+", first):
        header, _, body = rest.partition("\n")
        found.announced = int(first[5:])
        found.columns = replies.columns_of(header)
        found.lines = body.split("\n")
        found.lines.pop()
        found.is_whole = len(found.lines) == found.announced
        if body.count("\t") != max(0, len(found.columns) - 1) * len(found.lines):
            raise replies.BadReply(f"the rows have other numbers of cells than the header, which has {len(found.columns)}")
    return found


@dataclass(frozen=True)
class Arrangement:
    """How the rows of an answer are shown: the column that they are sorted by, and a text for each column that filters."""

    sort: Optional[int] = None
    descending: bool = False
    filters: Tuple[Tuple[int, str], ...] = ()


class Answer:
    """An answer, and the order of its rows in the last arrangement that was asked for."""

    def __init__(self, reply):
        self.reply = reply
        self.kinds = [kind for _, kind in reply.columns]
        self.last = (Arrangement(), None)
        self.short = tables.shortened(reply, LOOKED_AT)

    def heads(self):
        """The columns as the page shows them, and how wide the cells of the first rows are."""
        widths = [len(name) for name, _ in self.reply.columns]
        for row in self.reply.rows(200):
            widths = [max(width, len(cell)) for width, cell in zip(widths, row)]
        return [
            {"name": visible(replies.escape(name)), "type": kind, "right": kind in tables.AT_THE_RIGHT, "width": width}
            for (name, kind), width in zip(self.reply.columns, widths)
        ]

    def cells(self, column):
        return [line.split("\t", column + 1)[column] for line in self.reply.lines]

    def order(self, arrangement):
        """The places of the rows of an arrangement, one after the other."""
        known, order = self.last
        if known != arrangement:
            order = self.arranged(arrangement)
            self.last = (arrangement, order)
        return range(len(self.reply.lines)) if order is None else order

    def arranged(self, arrangement):
        if arrangement == Arrangement():
            return None
        order = range(len(self.reply.lines))
        for column, text in arrangement.filters:
            test = filters.test(text, self.kinds[column])
            cells = self.cells(column)
            order = [place for place in order if test(cells[place])]
        if arrangement.sort is not None:
            order = self.sorted(order, arrangement.sort, arrangement.descending)
        return order

    def sorted(self, order, column, descending):
        """The places in the order of a column: nulls are least, as in the language, and equal cells stay as they were."""
        kind, cells = self.kinds[column], self.cells(column)
        nulls = [] if kind == "string" else [place for place in order if cells[place] == "null"]
        if nulls:
            order = [place for place in order if cells[place] != "null"]
        key = filters.KEYS.get(kind)
        if key is None:
            found = sorted(order, key=cells.__getitem__, reverse=descending)
        else:
            keys = list(map(key, cells)) if len(order) == len(cells) else {place: key(cells[place]) for place in order}
            found = sorted(order, key=keys.__getitem__, reverse=descending)
        return found + nulls if descending else nulls + found

    def window(self, arrangement, first, count):
        """Some rows of an arrangement, each with its place in the answer, and how many there are in all."""
        order = self.order(arrangement)
        first = max(0, first)
        places = order[first : first + max(0, min(count, MOST_ROWS_OF_A_WINDOW))]
        return {"total": len(order), "rows": [[place, self.shown(place)] for place in places]}

    def row(self, place):
        return self.reply.lines[place].split("\t") if self.reply.columns else []

    def shown(self, place):
        """The cells of a row for the eye, as tools/look shows them."""
        cells = self.row(place)
        for at in self.short:
            cells[at] = cells[at].replace(tables.NO_FRACTION, "Z")
        return [visible(cell if len(cell) <= LONGEST_CELL else cell[:LONGEST_CELL] + "…") for cell in cells]

    def cell(self, place, column):
        """One cell as a whole: its own text, and for a dynamic its tree."""
        cell, kind = self.row(place)[column], self.kinds[column]
        tree = node(json.loads(cell)) if kind == "dynamic" and cell != "null" else None
        is_null = cell == "null" and kind != "string"
        return {"type": kind, "null": is_null, "text": replies.plain(cell, kind), "tree": tree}

    def part(self, arrangement, first=0, count=None):
        """The rows of an arrangement as an answer of their own."""
        order = self.order(arrangement)
        places = order[first:] if count is None else order[first : first + count]
        whole = places == range(len(self.reply.lines))
        lines = self.reply.lines if whole else [self.reply.lines[place] for place in places]
        return dataclasses.replace(self.reply, first=f"rows {len(lines)}", lines=lines, announced=len(lines))

    def copied(self, arrangement, form, first, count, columns):
        """Rows as text for the clipboard: as CSV or JSON, or some columns of them with tabs between the cells."""
        if count > MOST_COPIED:
            raise ValueError(f"{count:,} rows are too many to copy, at most {MOST_COPIED:,}; save them as a file")
        found, out = self.part(arrangement, first, count), io.StringIO(newline="")
        if form in ("csv", "json"):
            tables.WRITERS[form](found, out)
            return out.getvalue()
        writer = csv.writer(out, delimiter="\t", lineterminator="\n")
        for row in found.rows():
            writer.writerow([replies.plain(row[at], self.kinds[at]) for at in columns])
        return out.getvalue().removesuffix("\n")

    def drawn(self, arrangement, kind, x, y, by):
        """A chart of the rows, for which tools/look chooses the columns that aren't named."""
        most = MOST_DRAWN[kind]
        total = len(self.order(arrangement))
        made = charts.make(self.part(arrangement, 0, most), kind, x, y, by)
        notes = list(made.notes)
        if total > most:
            notes.append(f"the first {most:,} of {total:,} rows are drawn; summarize them to see all")
        return {
            "kind": kind,
            "x": {"name": made.x_name, "type": made.x_type},
            "y": {"name": made.y_name, "type": made.y_type},
            "series": [{"name": one.name, "points": one.points} for one in made.series],
            "colours": charts.PALETTE,
            "notes": notes,
        }

    def kind_of_chart(self):
        """The chart that is drawn where none is asked for, or none."""
        if len(self.reply.lines) < 2:
            return None
        for kind in charts.KINDS:
            try:
                charts.make(self.part(Arrangement(), 0, 100), kind)
                return kind
            except charts.ChartError:
                pass
        return None


def node(value):
    """A dynamic as a tree of texts. Numbers are texts too, since a number of a page has 53 bits."""
    if isinstance(value, dict):
        pairs, count = value.items(), len(value)
    elif isinstance(value, list):
        pairs, count = ((str(at), inner) for at, inner in enumerate(value)), len(value)
    else:
        text = visible(value) if isinstance(value, str) else json.dumps(value)
        return {"kind": type(value).__name__, "text": text}
    children = [[visible(key), node(inner)] for key, inner in itertools.islice(pairs, MOST_CHILDREN)]
    return {"kind": type(value).__name__, "count": count, "children": children}
