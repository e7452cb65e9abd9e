"""An answer as a table of a terminal or of a page, as CSV and as JSON."""

import csv
import itertools
import json
import re

from replies import escape, plain, value
from widths import CONTROLS, is_terminal, padded, taking, visible, width

STYLES = {
    "long": "cyan",
    "int": "cyan",
    "datetime": "green",
    "timespan": "yellow",
    "bool": "magenta",
    "dynamic": "blue",
    "string": "",
}
AT_THE_RIGHT = ("long", "int", "timespan")
NO_FRACTION = ".0000000Z"
SPECIAL = re.compile(r"[\\`*_\[\]<>|&$~]")
# A column is filled up to no more than this: a longer cell stands out of it.
WIDEST = 200
# On a terminal no more is shown of a cell.
LONGEST = 4000
# A sheet takes a cell that begins so for a formula. The last four are the wide forms of the first four.
FORMULA = ("=", "+", "-", "@", "\t", "\r", "\n", "\uff1d", "\uff0b", "\uff0d", "\uff20")


def shortened(answer, limit):
    """The columns of datetimes that are all whole seconds: they are shown without fractions."""
    left = {at for at, (_, kind) in enumerate(answer.columns) if kind == "datetime"}
    for row in answer.rows(limit) if left else ():
        left -= {at for at in left if not row[at].endswith(NO_FRACTION) and row[at] != "null"}
    return left


def cells_of(answer, limit=None, longest=None):
    """The cells of an answer for the eye, row by row. Nothing in them steers a terminal."""
    short = shortened(answer, limit)
    for row in answer.rows(limit):
        cells = [begun(visible(cell), longest) for cell in row]
        for at in short:
            cells[at] = cells[at].replace(NO_FRACTION, "Z")
        yield cells


def begun(cell, longest):
    """A cell, or its beginning where it is too long."""
    if longest is None or len(cell) <= longest:
        return cell
    return f"{taking(cell, longest)}… ({len(cell):,} characters)"


def footer(answer, limit=None):
    """How many rows an answer has, and how many of them aren't shown."""
    count = len(answer.lines)
    text = "1 row" if count == 1 else f"{count} rows"
    if not answer.columns:
        text += " without columns"
    if limit is not None and count > limit:
        text += f", of which the first {limit} are shown"
    if not answer.is_whole:
        text += f"; the text ends here, where {answer.announced} rows were announced"
    return f"({text})"


def heads_of(answer):
    return [(visible(escape(name)), kind) for name, kind in answer.columns]


def places_of(answer, limit, longest):
    """How wide each column is."""
    places = [max(width(name), width(kind)) for name, kind in heads_of(answer)]
    for row in cells_of(answer, limit, longest):
        places = list(map(max, places, map(width, row)))
    return places


def write_plain(answer, out, limit=None, room=None):
    """Aligned columns under names and types, with no colours. On a terminal, which has so much room, a table that is wider is shown a row a block."""
    heads, longest = heads_of(answer), LONGEST if room else None
    places = places_of(answer, limit, longest)
    if room and is_too_wide(places, room):
        write_blocks(answer, out, limit)
        return
    places = [min(count, WIDEST) for count in places]
    right = [kind in AT_THE_RIGHT for _, kind in heads]

    def write(cells):
        out.write("  ".join(map(padded, cells, places, right)).rstrip() + "\n")

    if heads:
        write([name for name, _ in heads])
        write([kind for _, kind in heads])
        out.write("  ".join("-" * count for count in places) + "\n")
        for row in cells_of(answer, limit, longest):
            write(row)
    out.write(footer(answer, limit) + "\n")


def is_too_wide(places, room):
    return sum(places) + 2 * (len(places) - 1) > room


def write_blocks(answer, out, limit=None, paint=lambda text, colour: text):
    """Each row as a block, with a line for each of its cells."""
    heads = heads_of(answer)
    side = min(max(width(name) for name, _ in heads), WIDEST)
    for number, row in enumerate(cells_of(answer, limit, LONGEST), 1):
        out.write(paint(f"row {number}", "2") + "\n")
        for (name, _), cell in zip(heads, row):
            out.write(f"  {paint(padded(name, side), '1')}  {cell}".rstrip() + "\n")
    out.write(paint(footer(answer, limit), "2") + "\n")


def write_rich(answer, out, limit=None, room=None):
    """A table in the colours of the types, by rich."""
    from rich.box import SIMPLE_HEAD
    from rich.console import Console
    from rich.table import Table
    from rich.text import Text

    if room and is_too_wide(places_of(answer, limit, LONGEST), room):
        write_blocks(answer, out, limit, lambda text, colour: f"\x1b[{colour}m{text}\x1b[0m")
        return
    table = Table(box=SIMPLE_HEAD, show_edge=False, pad_edge=False, header_style="")
    for name, kind in heads_of(answer):
        head = Text(name, style="bold")
        head.append("\n" + kind, style="dim")
        side = "right" if kind in AT_THE_RIGHT else "left"
        table.add_column(head, justify=side, overflow="fold", style=STYLES.get(kind, ""))
    kinds = [kind for _, kind in answer.columns]
    for row in cells_of(answer, limit, LONGEST):
        table.add_row(*(coloured(cell, kind, Text) for cell, kind in zip(row, kinds)))
    console = Console(file=out, width=room, force_terminal=True, highlight=False, emoji=False, markup=False)
    if answer.columns:
        console.print(table)
    console.print(footer(answer, limit), style="dim")


def coloured(cell, kind, text):
    is_null = cell == "null" and kind != "string"
    return text(cell, style="dim italic" if is_null else "")


def write_csv(answer, out, formulas=False, for_eyes=False):
    """CSV as RFC 4180 has it: names, then rows; a null is an empty cell.

    formulas   has a sheet take no cell for a formula
    for_eyes   writes out what would steer a terminal"""
    writer = csv.writer(out, lineterminator="\n" if for_eyes else "\r\n")
    kinds = [kind for _, kind in answer.columns]

    def shown(text, kind):
        text = without_formula(text, kind) if formulas else text
        return visible(text) if for_eyes else text

    writer.writerow([shown(name, "string") for name, _ in answer.columns])
    if formulas or for_eyes:
        writer.writerows([shown(plain(cell, kind), kind) for cell, kind in zip(row, kinds)] for row in answer.rows())
    else:
        writer.writerows(map(plain, row, kinds) for row in answer.rows())


def without_formula(text, kind):
    """A text that a sheet would calculate, with an apostrophe before it. Numbers and times are what they are."""
    return "'" + text if kind in ("string", "dynamic") and text.lstrip(" ").startswith(FORMULA) else text


def write_json(answer, out, for_eyes=False, **_):
    """One array with an object for each row."""
    names = [name for name, _ in answer.columns]
    kinds = [kind for _, kind in answer.columns]
    written = json.JSONEncoder(ensure_ascii=False).encode
    before = "[\n"
    for row in answer.rows():
        text = written(dict(zip(names, map(value, row, kinds))))
        out.write(before + (CONTROLS.sub(in_json, text) if for_eyes else text))
        before = ",\n"
    out.write("\n]\n" if answer.lines else "[]\n")


def in_json(found):
    return "\\u007f" if found[0] == "\x7f" else json.dumps(found[0])[1:-1]


def write_markdown(answer, out, **_):
    """A table of Markdown."""
    heads = [in_markdown(name) for name, _ in heads_of(answer)]
    sides = ["---:" if kind in AT_THE_RIGHT else "---" for _, kind in answer.columns]
    for row in itertools.chain([heads, sides], (map(in_markdown, row) for row in cells_of(answer))):
        out.write("| " + " | ".join(row) + " |\n")


def in_markdown(text):
    return SPECIAL.sub(r"\\\g<0>", text)


WRITERS = {"csv": write_csv, "json": write_json, "markdown": write_markdown}


def write(form, answer, out, formulas=False):
    """An answer for another program; on a terminal so that nothing in it steers that."""
    WRITERS[form](answer, out, formulas=formulas, for_eyes=is_terminal(out))
