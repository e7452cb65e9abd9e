"""What is typed over a column to filter it: `>= 500`, `!= web-1`, `timeout`, `!GET`."""
import re

from replies import seconds

FORM = re.compile(r"\s*(!=|>=|<=|=|>|<|!)?\s*(.*?)\s*", re.S)
SPAN = re.compile(r"(-?\d+(?:\.\d+)?)\s*(ms|s|m|h|d)")
UNITS = {"ms": 0.001, "s": 1, "m": 60, "h": 3600, "d": 86400}
# How cells are put in order, where their texts don't do.
KEYS = {"long": int, "int": int, "timespan": seconds}

COMPARED = {
    "=": lambda cell, value: cell == value,
    "!=": lambda cell, value: cell != value,
    ">": lambda cell, value: cell > value,
    ">=": lambda cell, value: cell >= value,
    "<": lambda cell, value: cell < value,
    "<=": lambda cell, value: cell <= value,
}


class FilterError(ValueError):
    """A text that isn't a value of the column's type."""


def number_of(text, kind):
    """A typed text as a number that cells of the type are compared with."""
    if kind == "timespan":
        found = SPAN.fullmatch(text)
        if found:
            return float(found[1]) * UNITS[found[2]]
    try:
        return KEYS[kind](text)
    except (ValueError, AttributeError):
        raise FilterError(f"{text} is no {kind}") from None


def test(text, kind):
    """The test of a cell that a text stands for. Without a sign it asks whether the cell has the text, whatever its case."""
    sign, value = FORM.fullmatch(text).groups()
    if sign in (None, "!"):
        wanted = value.lower()
        return (lambda cell: wanted in cell.lower()) if sign is None else (lambda cell: wanted not in cell.lower())
    compared = COMPARED[sign]
    if kind != "string" and value == "null":
        return lambda cell: compared(cell, value) if sign in ("=", "!=") else False
    if kind in KEYS:
        number, key = number_of(value, kind), KEYS[kind]
        return lambda cell: compared(key(cell), number) if cell != "null" else sign == "!="
    if kind == "datetime":
        # The beginning of a datetime stands for all that begin so.
        length = len(value)
        return lambda cell: compared(cell[:length], value) if cell != "null" else sign == "!="
    return lambda cell: compared(cell, value)
