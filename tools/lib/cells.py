"""Cells of each type: whether the engine reads a text as one, and what has to be written in its place.

A column is judged whole: one regular expression goes over all its cells, and only where some cell doesn't fit is each looked at."""
import re
from decimal import Decimal, InvalidOperation

import jsons
import times

TYPES = {name: name for name in ("long", "int", "string", "bool", "datetime", "timespan", "dynamic")}
TYPES.update(int64="long", boolean="bool", date="datetime", time="timespan")

BLANKS = " \t"
# Cells of a type, which are written as they stand.
FORMS = {
    "long": "-?(?:0|[1-9][0-9]{0,17})",
    "int": "-?(?:0|[1-9][0-9]{0,8})",
    "bool": "[Tt][Rr][Uu][Ee]|[Ff][Aa][Ll][Ss][Ee]|[01]",
    "datetime": times.PLAIN,
    "timespan": times.SPAN,
}
DIGITS_THAT_FIT = {"long": 18, "int": 9}
RANGES = {"long": (-(2**63), 2**63 - 1), "int": (-(2**31), 2**31 - 1)}
# Most columns have few shapes, which are cells with a 0 for each digit. A cell of such a shape is written as it stands; a datetime's
# digits need a look more.
DIGITS = str.maketrans("123456789", "000000000")
SHAPES = {
    "long": "-?0{1,18}|",
    "int": "-?0{1,9}|",
    "timespan": f"{times.SPAN_UNIT}|",
    "datetime": times.SHAPE,
}
WHOLE = re.compile("-?[0-9]+")
DECIMAL = re.compile("[+-]?[0-9]*[.]?[0-9]+(?:[eE][+-]?[0-9]+)?")
# Lines that are cells of a type, without a closer look.
QUICK = {kind: re.compile(f"^(?:{FORMS[kind]})$", re.M) for kind in ("long", "datetime")}
# What a cell has to be quoted for.
SIGNS = '",\r\n'
# A blank line between two lines of a cell would end the command.
BLANK_LINES = re.compile("\n(?:[ \t\r]*\n)+")


def pattern_of(kind, zone=""):
    """The cells of a type that are written as they stand, empty ones among them."""
    form = times.PLAIN_WITH_ZONE if kind == "datetime" and zone else FORMS[kind]
    return f"[ \t]*(?:{form})?[ \t]*"


def quoted(cell):
    return '"' + cell.replace('"', '""') + '"'


class Judge:
    """Cells of one column of a type that isn't string or dynamic."""

    def __init__(self, kind, moments, scale=None):
        self.kind = kind
        self.scale = scale
        self.moments = moments
        self.fault = "datetime" if kind == "datetime" else "cell"
        pattern = pattern_of(kind, moments.zone)
        self.lines = re.compile(f"^{pattern}$", re.M)
        self.one = re.compile(pattern)
        self.shape = re.compile(SHAPES.get(kind, "(?!)"))
        self.rewritten = 0

    def read(self, cells):
        """The cells as they are to be written, and the places of those that can't be, each with why."""
        if self.scale is None and self.are_plain(cells):
            return cells, ()
        if self.kind == "datetime":
            found = self.moments.of_logs(cells)
            if found is not None:
                self.rewritten += len(found)
                return found, ()
        return self.each(cells)

    def are_plain(self, cells):
        """Whether all cells are written as they stand. It may be false where they are."""
        if self.kind in DIGITS_THAT_FIT:
            text = "".join(cells)
            if text.isascii() and text.isdecimal() and max(map(len, cells)) <= DIGITS_THAT_FIT[self.kind]:
                return True
        text = "\n".join(cells)
        if text.count("\n") != len(cells) - 1:
            return False
        if self.kind == "bool":
            return all(map(self.one.fullmatch, set(cells)))
        shapes = set(text.translate(DIGITS).split("\n"))
        if all(map(self.shape.fullmatch, shapes)):
            return self.kind != "datetime" or self.moments.are_plain(cells, shapes)
        return len(self.lines.findall(text)) == len(cells)

    def each(self, cells):
        found, bad = list(cells), []
        fits = self.one.fullmatch if self.scale is None else lambda cell: None
        for place, cell in enumerate(cells):
            if fits(cell):
                continue
            text = self.exact(cell.strip(BLANKS))
            if text is None:
                bad.append((place, f"{cell[:60]!r} {self.wrong(cell.strip(BLANKS))}"))
                text = ""
            elif text != cell:
                self.rewritten += 1
            found[place] = text
        return found, bad

    def wrong(self, text):
        """What keeps a text from being of the type."""
        if self.scale is not None:
            return f"is no {self.kind} with at most {self.scale} decimals"
        return (
            f"is too large for {'an' if self.kind == 'int' else 'a'} {self.kind}"
            if self.kind in RANGES and WHOLE.fullmatch(text)
            else f"is no {self.kind}"
        )

    def exact(self, text):
        """What is written for a cell without blanks at its ends, or none."""
        if not text:
            return ""
        if self.scale is not None:
            return scaled(text, self.scale)
        if self.kind in RANGES:
            least, most = RANGES[self.kind]
            return text if WHOLE.fullmatch(text) and len(text) < 4000 and least <= int(text) <= most else None
        if self.kind == "datetime":
            if not self.moments.zone and self.one.fullmatch(text):
                return text
            return self.moments.exact(text) or self.moments.epoch(text)
        if self.kind == "timespan":
            return text if times.is_timespan(text) else None
        return None


def scaled(text, scale):
    """A decimal number times a power of ten, where that is whole and of 64 bits."""
    try:
        number = Decimal(text).scaleb(scale) if len(text) < 100 and "_" not in text else None
    except InvalidOperation:
        return None
    if number is None or not number.is_finite() or abs(number.adjusted()) > 40 or number != int(number):
        return None
    least, most = RANGES["long"]
    return str(int(number)) if least <= int(number) <= most else None


class Dynamics:
    """Cells of a dynamic column that are texts."""

    def __init__(self):
        self.quick = jsons.Quick()
        self.rewritten = 0

    def read(self, cells, problems, at):
        """The cells as they are to be written, and the places of the records that are rejected. `at` says where a record is."""
        nested = [cell for cell in cells if cell.lstrip(jsons.BLANKS)[:1] in ("{", "[")]
        plain = len(nested) == sum(1 for cell in cells if cell)
        if plain and (not nested or self.quick.read(nested) is not None and not self.quick.inexact and all(map(jsons.is_shallow, nested))):
            return cells, set()
        found, rejected = list(cells), set()
        for place, cell in enumerate(cells):
            kind, why, value = fault_of(cell)
            if kind:
                choice = problems.meet(kind, at(place), why)
                if choice == "reject":
                    rejected.add(place)
                elif choice == "string":
                    found[place] = jsons.written(value)
                elif choice == "text":
                    found[place] = jsons.written(cell)
        return found, rejected


def fault_of(cell):
    """What keeps the text of a cell from being the dynamic that it looks like: a kind and why, and its value; none where nothing does."""
    begins = cell.lstrip(jsons.BLANKS)[:1] in ("{", "[")
    try:
        value = jsons.exact(cell) if cell.strip(jsons.BLANKS) else None
    except RecursionError:
        return "deep", "the dynamic nests deeper than 127 levels", None
    except ValueError as fault:
        return ("json", f"{cell[:60]!r} is no JSON ({jsons.told(fault)})", None) if begins else (None, None, None)
    if begins and not jsons.is_shallow(cell) and jsons.depth(value) > jsons.DEEPEST:
        return "deep", "the dynamic nests deeper than 127 levels", value
    if jsons.has_inexact(value):
        return "number", f"a number of {cell[:60]!r} isn't whole, or is outside 64 bits", value
    return None, None, value


class Evidence:
    """What the cells of a column that were looked at so far may be."""

    def __init__(self, moments):
        self.moments = moments
        self.may = ["long", "bool", "timespan", "datetime", "dynamic", "decimal", "epoch"]
        self.any = False
        self.decimals = self.wholes = 0  # the most digits behind the point, and before it
        self.padded = False

    def add(self, cells):
        """Takes texts into account."""
        texts = list(filter(None, {cell.strip(BLANKS) for cell in cells}))
        if texts:
            self.any = True
            self.may = [kind for kind in self.may if self.fits(kind, texts)]

    def fits(self, kind, texts):
        """Whether all texts may be of a kind."""
        if kind in QUICK and len(QUICK[kind].findall("\n".join(texts))) == len(texts):
            return True
        return all(map(getattr(self, f"may_be_{kind}"), texts))

    def may_be_long(self, text):
        least, most = RANGES["long"]
        if not WHOLE.fullmatch(text) or len(text) > 20 or not least <= int(text) <= most:
            return False
        self.padded = self.padded or (text.lstrip("-")[0] == "0" and text not in ("0", "-0"))
        return True

    def may_be_bool(self, text):
        return text.lower() in ("true", "false")

    def may_be_timespan(self, text):
        return not WHOLE.fullmatch(text) and times.is_timespan(text)

    def may_be_datetime(self, text):
        return self.moments.exact(text) is not None

    def may_be_dynamic(self, text):
        return text[0] in "{[" and fault_of(text)[0] != "json"

    def may_be_epoch(self, text):
        return times.EPOCH.fullmatch(text) is not None

    def may_be_decimal(self, text):
        if not DECIMAL.fullmatch(text) or len(text) > 60:
            return False
        self.measure(text)
        return True

    def measure(self, text):
        """Takes into account how many digits a decimal number has."""
        number = Decimal(text)
        self.decimals = max(self.decimals, -number.as_tuple().exponent)
        self.wholes = max(self.wholes, number.adjusted() + 1)

    def kind(self):
        """The type of the column."""
        if not self.any or (self.padded and "long" in self.may):
            return "string"
        for kind in ("long", "bool", "timespan", "datetime", "dynamic"):
            if kind in self.may:
                return kind
        return "string"

    def note(self, name):
        """What whoever loads the column should know of its type, or none."""
        if not self.any:
            return None
        if self.padded and "long" in self.may:
            return f"{name} has whole numbers with leading zeros, which are kept as strings; --type {name}:long reads them as numbers"
        if "long" in self.may:
            return f"{name} may count since 1970; --type {name}:datetime reads it as datetimes" if "epoch" in self.may else None
        if "decimal" in self.may:
            if self.decimals <= 0:
                return f"{name} has whole numbers that are too large for a long, and are kept as strings"
            scale = self.decimals
            if scale + self.wholes > 18:
                return f"{name} has numbers with a fraction, which have no type here and are kept as strings"
            return f"{name} has numbers with a fraction, which have no type here and are kept as strings; --scale {name}:{scale} reads them as longs, {10**scale:,} for each 1"
        return None
