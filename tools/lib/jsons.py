"""JSON: texts that are dynamics of the engine, read and written a whole column at a time."""
import json
import os

# How deep the engine's dynamics nest.
DEEPEST = 127
# Between the texts of a column that is read at once stands a text that none of them has.
TOKEN = os.urandom(12).hex()
BETWEEN = f',"{TOKEN}",'
# What the quick reading can't vouch for: a whole number of 19 digits or more, and -0, which is no whole number of a dynamic.
DIGITS = bytes.maketrans(b"123456789", b"000000000")
LONG_NUMBER = b"0" * 19
ZEROS = ("[-0", ",-0", ":-0", " -0", "\t-0")
LEAST, MOST = -(2**63), 2**63 - 1


class Inexact(str):
    """The text of a number that no dynamic holds."""


def constant(text):
    raise ValueError(f"{text} is no JSON")


def whole(text):
    if text == "-0" or len(text) > 20 or not LEAST <= int(text) <= MOST:
        return Inexact(text)
    return int(text)


EXACT = json.JSONDecoder(parse_float=Inexact, parse_int=whole, parse_constant=constant)
WRITER = json.JSONEncoder(ensure_ascii=False, separators=(",", ":"), check_circular=False)
BLANKS = " \t\n\r"


class Quick:
    """Reads many texts in one go; `inexact` says whether a number was met that no dynamic holds."""

    def __init__(self):
        self.inexact = False
        self.decoder = json.JSONDecoder(parse_float=self.number, parse_constant=constant)

    def number(self, text):
        self.inexact = True
        return Inexact(text)

    def read(self, texts):
        """The values of the texts, or none where one of them needs a closer look."""
        self.inexact = False
        joined = BETWEEN.join(texts)
        if any(zero in joined for zero in ZEROS) or LONG_NUMBER in joined.encode("utf-8", "surrogatepass").translate(DIGITS):
            return None
        try:
            values = self.decoder.decode(f"[{joined}]")
        except (ValueError, RecursionError):
            return None
        if len(values) != 2 * len(texts) - 1 or values[1::2].count(TOKEN) != len(texts) - 1:
            return None
        return values[0::2]


def exact(text):
    """The value of one text; a ValueError says why it is no JSON, a RecursionError that it nests too deep."""
    return EXACT.decode(text.strip(BLANKS))


def told(fault):
    """Why a text is no JSON, in few words."""
    return f"{fault.msg} at character {fault.pos + 1}" if isinstance(fault, json.JSONDecodeError) else str(fault)


def is_shallow(text):
    """Whether brackets are too few to nest too deep. It may be false of a text that doesn't."""
    return len(text) < 2 * DEEPEST or text.count("{") + text.count("[") <= DEEPEST


def depth(value):
    deepest, level = 0, [value]
    while True:
        level = [inner for inner in level if isinstance(inner, (dict, list))]
        if not level:
            return deepest
        deepest += 1
        level = [inner for outer in level for inner in (outer.values() if isinstance(outer, dict) else outer)]


def has_inexact(value):
    if isinstance(value, dict):
        return any(map(has_inexact, value.values()))
    if isinstance(value, list):
        return any(map(has_inexact, value))
    return isinstance(value, Inexact)


def written(value):
    """A value as JSON, in which a number that no dynamic holds is a string."""
    return WRITER.encode(value)


def source(value):
    """A value as JSON with each number as it was written."""
    if isinstance(value, dict):
        return "{" + ",".join(f"{written(key)}:{source(inner)}" for key, inner in value.items()) + "}"
    if isinstance(value, list):
        return "[" + ",".join(map(source, value)) + "]"
    return str(value) if isinstance(value, Inexact) else written(value)


def written_column(values):
    """JSON of each value, made in one go."""
    joined = WRITER.encode([inner for value in values for inner in (value, TOKEN)])
    return joined[1 : -len(BETWEEN)].split(BETWEEN) if values else []
