"""Charts of an answer: in the terminal, and as pictures by matplotlib.

`make` chooses the columns and gives a Chart, `draw` gives its lines for a terminal, `save` writes a picture.
"""

import datetime
import itertools
import math
import warnings
from typing import Any, List, NamedTuple, Optional, Tuple

from replies import escape, moment, seconds
from widths import cut_apart, padded, visible, width

KINDS = ("time", "bar", "line")
NUMBERS = ("long", "int", "timespan")
MOST_SERIES = 8
EPOCH = datetime.datetime(1970, 1, 1)

COLOURS = (36, 33, 35, 32, 31, 34, 96, 93)
MARKS = "ox+*#@%&"
PALETTE = ("#0072b2", "#e69f00", "#cc79a7", "#009e73", "#d55e00", "#56b4e9", "#7f7f7f", "#bcbd22")
DOTS = ((0x01, 0x08), (0x02, 0x10), (0x04, 0x20), (0x40, 0x80))
EIGHTHS = " ▏▎▍▌▋▊▉"


class ChartError(Exception):
    """An answer that can't be drawn as it was asked for."""


class Series(NamedTuple):
    """A name and its points. The y of an empty point is none: no line is drawn over it."""

    name: str
    points: List[Tuple[Any, Optional[float]]]


class Chart(NamedTuple):
    """A chart. The x of its points are numbers, or for bars the labels; `x_type` is the type of the column of x."""

    kind: str
    x_name: str
    x_type: str
    y_name: str
    y_type: str
    series: List[Series]
    notes: List[str]
    title: Optional[str] = None


def make(answer, kind, x=None, y=(), by=None, title=None):
    """The chart of an answer. Columns that aren't named are chosen by their types."""
    names = [name for name, _ in answer.columns]
    types = dict(answer.columns)
    for name in [x, by, *y]:
        if name is not None and name not in types:
            raise ChartError(f"the answer has no column {name}; it has {', '.join(names)}")
    x = x or chosen_x(answer, kind, y, by)
    y = list(y) or [name for name in names if types[name] in NUMBERS and name not in (x, by)]
    check_types(kind, x, y, types)
    if by is None and len(y) == 1:
        by = next((name for name in names if types[name] == "string" and name not in (x, y[0])), None)
    elif by is not None and len(y) > 1:
        raise ChartError(f"with --by there is one --y, and here are {len(y)}: {', '.join(y)}")
    notes = []
    series = series_of(answer, kind, names.index(x), [names.index(name) for name in y], by and names.index(by), notes)
    return Chart(kind, shown(x), types[x], ", ".join(map(shown, y)), types[y[0]], series, notes, title)


def shown(name):
    """The name of a column as a terminal may get it."""
    return visible(escape(name))


def kind_of(answer):
    """The chart that fits an answer, by the types of its columns."""
    types = [kind for _, kind in answer.columns]
    return "time" if "datetime" in types else "bar" if "string" in types else "line"


def chosen_x(answer, kind, y, by):
    wanted = {"time": ("datetime",), "line": (*NUMBERS, "datetime"), "bar": ("string", "datetime", "bool", *NUMBERS)}[kind]
    free = [(name, type) for name, type in answer.columns if name != by and name not in y]
    if kind == "bar":
        free.sort(key=lambda column: wanted.index(column[1]) if column[1] in wanted else len(wanted))
    found = next((name for name, type in free if type in wanted), None)
    if found is None:
        raise ChartError(f"no column is left for the x of a {kind} chart, which is one of {', '.join(wanted)}")
    return found


def check_types(kind, x, y, types):
    if kind == "time" and types[x] != "datetime":
        raise ChartError(f"the x of a time chart is a datetime, and {x} is of type {types[x]}")
    if kind == "line" and types[x] not in (*NUMBERS, "datetime"):
        raise ChartError(f"the x of a line chart is a number or a time, and {x} is of type {types[x]}")
    if not y:
        raise ChartError("no column is left for y, which is a long, an int or a timespan")
    for name in y:
        if types[name] not in NUMBERS:
            raise ChartError(f"y is a long, an int or a timespan, and {name} is of type {types[name]}")
    if len({types[name] == "timespan" for name in y}) > 1:
        raise ChartError("numbers and timespans don't share an axis; name the columns with --y")


def number(cell, kind):
    """A cell as a number: times as seconds."""
    if kind == "datetime":
        return (moment(cell) - EPOCH).total_seconds()
    return seconds(cell) if kind == "timespan" else int(cell)


def label(cell, kind):
    if kind == "string":
        return visible(cell) or '""'
    return visible(cell.replace(".0000000Z", "Z").replace("T00:00:00Z", ""))


def series_of(answer, kind, x, ys, by, notes):
    """The points of each series. Rows without an x have none, and those without a y an empty one, which the notes say."""
    types = [type for _, type in answer.columns]
    found, missing = {}, 0
    for row in answer.rows():
        if row[x] == "null" and types[x] != "string":
            missing += len(ys)
            continue
        place = label(row[x], types[x]) if kind == "bar" else number(row[x], types[x])
        for y in ys:
            name = shown(answer.columns[y].name) if by is None else label(row[by], types[by])
            is_null = row[y] == "null"
            missing += is_null
            found.setdefault(name, []).append((place, None if is_null else number(row[y], types[y])))
    if missing:
        notes.append("1 point is null and isn't drawn" if missing == 1 else f"{missing} points are null and aren't drawn")
    series = [Series(name, points) for name, points in found.items() if any(y is not None for _, y in points)]
    if not series:
        raise ChartError("the answer has no rows to draw")
    if kind == "bar":
        series = [Series(name, [point for point in points if point[1] is not None]) for name, points in series]
        check_bars(series)
    else:
        series = with_gaps(series)
    return largest(series, notes)


def with_gaps(series):
    """The points in the order of x, with empty ones at the steps that a series lacks.

    That is where the x of all series have even steps, and most of these are there."""
    places = sorted({x for _, points in series for x, _ in points})
    steps = [after - before for before, after in zip(places, places[1:])]
    least = min(steps, default=0)
    is_even = least > 0 and all(abs(step / least - round(step / least)) < 1e-6 for step in steps)
    is_even = is_even and 2 * len(places) > (places[-1] - places[0]) / least + 1
    found = []
    for name, points in series:
        points = sorted(points, key=lambda point: (point[0], point[1] is not None, point[1]))
        if is_even:
            gaps = [(before[0] + least, None) for before, after in zip(points, points[1:]) if after[0] - before[0] > 1.5 * least]
            points = sorted(points + gaps, key=lambda point: point[0])
        found.append(Series(name, points))
    return found


def pieces(points):
    """The runs of points between empty ones."""
    return [list(run) for is_empty, run in itertools.groupby(points, lambda point: point[1] is None) if not is_empty]


def values_of(chart):
    return [y for one in chart.series for _, y in one.points if y is not None]


def check_bars(series):
    """One bar can't stand for two rows: nothing says whether they are to be added."""
    for name, points in series:
        labels = [x for x, _ in points]
        twice = next((x for x in labels if labels.count(x) > 1), None) if len(set(labels)) < len(labels) else None
        if twice is not None:
            raise ChartError(f"two rows of {name} have the label {twice}; summarize them, or name another --x or a --by")


def largest(series, notes):
    """At most as many series as there are colours: those with the largest sums."""
    if len(series) <= MOST_SERIES:
        return series
    kept = sorted(series, key=lambda one: -sum(abs(y or 0) for _, y in one.points))[:MOST_SERIES]
    notes.append(f"{len(series) - MOST_SERIES} of {len(series)} series aren't drawn, those with the smallest sums")
    return [one for one in series if one in kept]


def amount(y, kind):
    """A number of an axis as text."""
    if kind == "timespan":
        return f"{y:.3g} s" if abs(y) < 120 else str(datetime.timedelta(seconds=round(y)))
    if abs(y) >= 1e6:
        return f"{y:,.4g}" if y != int(y) else f"{int(y):,}"
    return f"{y:,.0f}" if y == int(y) else f"{y:,.3g}"


def axis_amount(y, kind):
    """A number at an axis: a long one in short."""
    return amount(y, kind) if kind == "timespan" or abs(y) < 1e9 else plain_numbers(y, None)


def time_text(x, span):
    moment_of_x = EPOCH + datetime.timedelta(seconds=x)
    form = "%Y-%m-%d" if span > 4 * 86400 else "%m-%d %H:%M" if span > 86400 else "%H:%M:%S" if span < 600 else "%H:%M"
    return moment_of_x.strftime(form)


def x_text(chart, x, span):
    return time_text(x, span) if chart.x_type == "datetime" else axis_amount(x, chart.x_type)


def paint(text, colour, is_coloured):
    return f"\x1b[{colour}m{text}\x1b[0m" if is_coloured and text else text


def draw(chart, places=80, height=16, colour=False):
    """The lines of a chart for a terminal that is so many places wide."""
    lines = [visible(chart.title)] if chart.title else []
    lines += bars(chart, places, colour) if chart.kind == "bar" else curves(chart, places, height, colour)
    if len(chart.series) > 1:
        marks = "█" * len(MARKS) if colour else MARKS
        names = (paint(marks[at], COLOURS[at], colour) + " " + one.name for at, one in enumerate(chart.series))
        lines.append("  ".join(names))
    return lines + [f"({note})" for note in chart.notes]


def labels_of(chart):
    """The labels of bars, each once, in the order of the answer."""
    return list(dict.fromkeys(x for one in chart.series for x, _ in one.points))


def bars(chart, places, colour):
    """A line for each bar. Where a value is below 0, bars begin in the middle, and those of such values go to the left."""
    labels = labels_of(chart)
    side = min(max(map(width, [chart.x_name, *labels])), places // 3)
    heads = cut_apart(labels, side)
    values = values_of(chart)
    below, above = max(0, -min(values)), max(0, *values, 0)
    texts = max(width(amount(y, chart.y_type)) for y in values)
    scale = max(8, places - side - texts - 4 - (1 if below else 0)) / max(above + below, 1e-9)
    tables = [dict(one.points) for one in chart.series]
    lines = [f"{padded(cut_apart([chart.x_name], side)[chart.x_name], side)} │ {chart.y_name}"]
    for text in labels:
        head = heads[text]
        for at, table in enumerate(tables):
            if text in table:
                mark = MARKS[at] if len(tables) > 1 and not colour else None
                bar = sided(table[text] * scale, round(below * scale), mark, lambda bar, at=at: paint(bar, COLOURS[at], colour))
                lines.append(f"{padded(head, side)} │ {bar} {amount(table[text], chart.y_type)}")
                head = ""
    return lines


def sided(length, left, mark, painted):
    """A bar with what stands before it: where there is room at the left, that and a line at 0."""
    bar = bar_of(abs(length), mark)
    if not left:
        return painted(bar)
    if length >= 0:
        return " " * left + "│" + painted(bar)
    whole = (mark or "█") * max(min(round(-length), left), 1)
    return " " * (left - len(whole)) + painted(whole) + "│"


def bar_of(length, mark=None):
    if mark:
        return mark * round(length)
    whole = int(length)
    return "█" * whole + EIGHTHS[int((length - whole) * 8)].strip()


class Canvas:
    """Dots in cells of two by four, each cell in the colour of the series that came last."""

    def __init__(self, columns, rows):
        self.columns, self.rows = columns, rows
        self.cells, self.owners = {}, {}

    def dot(self, x, y, owner):
        cell = (x // 2, y // 4)
        self.cells[cell] = self.cells.get(cell, 0) | DOTS[y % 4][x % 2]
        self.owners[cell] = owner

    def line(self, start, end, owner):
        steps = max(abs(end[0] - start[0]), abs(end[1] - start[1]), 1)
        for step in range(steps + 1):
            x, y = (round(a + (b - a) * step / steps) for a, b in zip(start, end))
            self.dot(x, y, owner)

    def spot(self, point, owner):
        """A point that no line leads to, as a full cell."""
        cell = (point[0] // 2, point[1] // 4)
        self.cells[cell], self.owners[cell] = 0xFF, owner

    def row(self, y, colour, marked):
        text = ""
        for owner, places in itertools.groupby(range(self.columns), lambda x: self.owners.get((x, y))):
            if owner is None:
                text += " " * len(list(places))
            elif marked:
                text += MARKS[owner] * len(list(places))
            else:
                text += paint("".join(chr(0x2800 + self.cells[x, y]) for x in places), COLOURS[owner], colour)
        return text.rstrip()


def limits(chart):
    """The ends of both axes: y begins at 0 where no value is below it. Where there is one x alone it stands in the middle."""
    xs = [x for one in chart.series for x, _ in one.points]
    ys = values_of(chart)
    low, high = min(0, *ys, 0), max(0, *ys, 0)
    left, right = min(xs), max(xs)
    if left == right:
        left, right = left - 1, right + 1
    return left, right, low, rounded_up(high) if high > low else low + 1


def has_one_x(chart):
    return len({x for one in chart.series for x, _ in one.points}) == 1


def rounded_up(high):
    """The least of 1, 1.5, 2, 2.5, 3, 4, 5, 6, 8 and 10 times a power of ten at or above a number over 0."""
    if high <= 0:
        return 0
    power = 10 ** math.floor(math.log10(high))
    return next(step * power for step in (1, 1.5, 2, 2.5, 3, 4, 5, 6, 8, 10, 11) if step * power >= high)


def curves(chart, places, height, colour):
    left, right, low, high = limits(chart)
    ends = ((0, high), (height // 2, (low + high) / 2), (height - 1, low))
    texts = {y: axis_amount(number_at, chart.y_type) for y, number_at in ends}
    side = max(map(width, texts.values()))
    canvas = Canvas(max(10, places - side - 3), height)

    def at(point):
        x = round((point[0] - left) / (right - left) * (canvas.columns * 2 - 1))
        return x, round((high - point[1]) / (high - low) * (height * 4 - 1))

    for owner, one in enumerate(chart.series):
        for piece in pieces(one.points):
            points = [at(point) for point in piece]
            for start, end in zip(points, points[1:]):
                canvas.line(start, end, owner)
            if len(points) == 1:
                canvas.spot(points[0], owner)
    marked = len(chart.series) > 1 and not colour
    lines = [f"{padded('', side)}   {chart.y_name}"]
    for y in range(height):
        lines.append(f"{padded(texts.get(y, ''), side, True)} {'┤' if y in texts else '│'}{canvas.row(y, colour, marked)}")
    return lines + x_axis(chart, left, right, side, canvas.columns)


def x_axis(chart, left, right, side, columns):
    line, name = x_texts(chart, left, right, columns)
    return [" " * (side + 1) + "└" + "─" * columns, " " * (side + 2) + line, " " * (side + 2) + name]


def x_texts(chart, left, right, columns):
    """What stands at the ends and in the middle of the x axis, and below it."""
    span, middle = right - left, left + (right - left) / 2
    if has_one_x(chart):
        text = whole_time(middle) if chart.x_type == "datetime" else amount(middle, chart.x_type)
        return " " * max((columns - width(text)) // 2, 0) + text, chart.x_name
    texts = [x_text(chart, x, span) for x in (left, middle, right)]
    line = padded(texts[0], (columns - width(texts[1])) // 2) + texts[1]
    line = padded(line, columns - width(texts[2])) + texts[2]
    is_short = chart.x_type == "datetime" and span <= 4 * 86400
    return line, chart.x_name + (" from " + whole_time(left)[:10] if is_short else "")


def whole_time(x):
    """A moment with its date."""
    found = EPOCH + datetime.timedelta(seconds=x)
    return found.strftime("%Y-%m-%d %H:%M:%S") if found.time() else found.strftime("%Y-%m-%d")


def save(chart, path):
    """Writes a chart as a picture, and gives notes on it. Its form goes by the file's ending; the same chart gives the same bytes."""
    import matplotlib

    matplotlib.use("Agg")
    with warnings.catch_warnings(record=True) as told:
        warnings.simplefilter("always")
        write_picture(chart, path)
    lacks = any("missing from" in str(one.message) for one in told) and not str(path).endswith(".svg")
    return [f"the font of {path} lacks characters of some labels"] if lacks else []


def write_picture(chart, path):
    import matplotlib.pyplot as plt

    with plt.rc_context({"svg.hashsalt": "look", "svg.fonttype": "none", "axes.spines.top": False, "axes.spines.right": False}):
        rows = len(labels_of(chart)) if chart.kind == "bar" else 0
        figure, axes = plt.subplots(figsize=(8, max(3.2, 1 + 0.3 * rows) if rows else 3.6), constrained_layout=True)
        if chart.kind == "bar":
            picture_bars(chart, axes)
        else:
            picture_curves(chart, axes)
        if chart.title:
            axes.set_title(literal(chart.title), loc="left")
        if len(chart.series) > 1:
            axes.legend(frameon=False)
        figure.savefig(path, dpi=120, metadata={"Date": None} if str(path).endswith(".svg") else None)
        plt.close(figure)


def literal(text):
    """A text that matplotlib doesn't read as a formula."""
    return visible(text).replace("$", "\\$")


def axis_name(name, kind):
    return literal(f"{name} (seconds)" if kind == "timespan" else name)


def plain_numbers(number, _):
    """A number at an axis, short enough for its place: 2M in place of 2e6."""
    for power, sign in ((1e18, "E"), (1e15, "P"), (1e12, "T"), (1e9, "G"), (1e6, "M"), (1e3, "k")):
        if abs(number) >= max(power, 1e4):
            return f"{number / power:.10g}{sign}"
    return f"{number:,.10g}"


def picture_bars(chart, axes):
    labels = labels_of(chart)
    thick = 0.8 / len(chart.series)
    for at, one in enumerate(chart.series):
        places = [labels.index(x) + (at - (len(chart.series) - 1) / 2) * thick for x, _ in one.points]
        axes.barh(places, [y for _, y in one.points], height=thick, color=PALETTE[at], label=shown_name(one.name))
    axes.set_yticks(range(len(labels)))
    heads = cut_apart(labels, 40)
    axes.set_yticklabels([literal(heads[text]) for text in labels])
    axes.invert_yaxis()
    axes.set_xlabel(axis_name(chart.y_name, chart.y_type))
    axes.set_ylabel(literal(chart.x_name))
    axes.xaxis.set_major_formatter(plain_numbers)
    axes.grid(axis="x", alpha=0.3)
    axes.set_axisbelow(True)


def picture_curves(chart, axes):
    is_time = chart.x_type == "datetime"
    for at, one in enumerate(chart.series):
        xs = [EPOCH + datetime.timedelta(seconds=x) if is_time else x for x, _ in one.points]
        ys = [math.nan if y is None else y for _, y in one.points]
        has_marks = len(xs) < 50 or any(len(piece) == 1 for piece in pieces(one.points))
        axes.plot(xs, ys, color=PALETTE[at], label=shown_name(one.name), marker="." if has_marks else None)
    if has_one_x(chart):
        axes.set_xticks([xs[0]])
        axes.set_xticklabels([x_texts(chart, *limits(chart)[:2], 0)[0]])
    elif is_time:
        import matplotlib.dates as dates

        axes.xaxis.set_major_formatter(dates.ConciseDateFormatter(axes.xaxis.get_major_locator()))
    else:
        axes.xaxis.set_major_formatter(plain_numbers)
    axes.yaxis.set_major_formatter(plain_numbers)
    axes.set_ylim(bottom=min(0, axes.get_ylim()[0]) if limits(chart)[2] < 0 else 0)
    axes.set_xlabel(axis_name(chart.x_name, chart.x_type))
    axes.set_ylabel(axis_name(chart.y_name, chart.y_type))
    axes.grid(alpha=0.3)


def shown_name(name):
    """A name for a legend, which leaves out names that begin with `_`."""
    return literal(" " + name if name.startswith("_") else name)
