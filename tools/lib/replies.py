"""Reading what the program prints: its replies, their cells as values, and the commands of the script that they answer."""

import datetime
import json
import re
from dataclasses import dataclass, field
from typing import List, NamedTuple, Optional

LONGEST_COMMENT = 1 << 24
SIGNS = {"\\\\": "\\", "\\t": "\t", "\\n": "\n", "\\r": "\r"}
TIMESPAN = re.compile(r"(-?)(?:(\d+)\.)?(\d\d):(\d\d):(\d\d)(?:\.(\d{7}))?")


class BadReply(Exception):
    """The text isn't what the program prints."""


class Column(NamedTuple):
    name: str
    type: str


@dataclass
class Reply:
    """One reply. An answer has columns, and `lines` with a row each, in which tabs stand between the cells.

    It isn't whole where the text ended before the `announced` rows had come.
    """

    number: int
    first: str
    columns: Optional[List[Column]] = None
    lines: List[str] = field(default_factory=list)
    announced: int = 0
    is_whole: bool = True

    @property
    def is_answer(self):
        return self.columns is not None

    @property
    def is_refusal(self):
        return self.first.startswith("refused ")

    def rows(self, limit=None):
        """The rows, or the first of them, as lists of cells as they are printed."""
        if not self.columns:
            return [[] for _ in self.lines[:limit]]
        lines = self.lines if limit is None else self.lines[:limit]
        return (line.split("\t") for line in lines)

    def text(self):
        """The reply as the program printed it."""
        lines = [self.first]
        if self.is_answer:
            lines.append("\t".join(escape(name) + ":" + kind for name, kind in self.columns))
        return "\n".join(lines + self.lines) + "\n\n"


class Command(NamedTuple):
    """One command of a script, and the line of the script that it begins at, from 1."""

    line: int
    text: bytes


def unescape(text):
    """The text of a name or of a string cell."""
    if "\\" not in text:
        return text
    return re.sub(r"\\[\\tnr]", lambda found: SIGNS[found[0]], text)


def escape(text):
    """A text as the program prints it in a name or in a string cell."""
    for sign in "\\\t\n\r":
        text = text.replace(sign, {"\\": "\\\\", "\t": "\\t", "\n": "\\n", "\r": "\\r"}[sign])
    return text


def plain(cell, kind):
    """A cell as another program reads it from CSV: a string's own text, and nothing for null."""
    if kind == "string":
        return unescape(cell) if "\\" in cell else cell
    return "" if cell == "null" else cell


def value(cell, kind):
    """A cell as a value of Python. Datetimes and timespans stay texts."""
    if kind == "string":
        return unescape(cell)
    if cell == "null":
        return None
    if kind in ("long", "int"):
        return int(cell)
    if kind == "bool":
        return cell == "true"
    return json.loads(cell) if kind == "dynamic" else cell


def moment(cell):
    """A datetime cell as a datetime of Python, which has microseconds at most."""
    return datetime.datetime.strptime(cell[:26], "%Y-%m-%dT%H:%M:%S.%f")


def seconds(cell):
    """A timespan cell as seconds."""
    sign, days, hours, minutes, rest, fraction = TIMESPAN.fullmatch(cell).groups()
    whole = int(days or 0) * 86400 + int(hours) * 3600 + int(minutes) * 60 + int(rest)
    total = whole + int(fraction or 0) / 1e7
    return -total if sign else total


def columns_of(header):
    if header == "":
        return []
    pairs = (cell.rpartition(":") for cell in header.split("\t"))
    return [Column(unescape(name), kind) for name, _, kind in pairs]


class Reader:
    """Reads replies from lines, one at a time, so that a pipe that stays open is shown as it goes.

    A row may be an empty line: one empty string, or no column at all. So rows are counted by `rows N`.
    """

    def __init__(self, lines):
        self.lines = iter(lines)
        self.at = 0
        self.replies = 0

    def line(self):
        """The next line without its end, or None where the text ends."""
        found = next(self.lines, None)
        if found is None:
            return None
        self.at += 1
        return found[:-1] if found.endswith("\n") else found

    def __iter__(self):
        while True:
            first = self.line()
            if first is None:
                return
            if first:
                yield self.reply(first)

    def reply(self, first):
        self.replies += 1
        found = Reply(self.replies, first)
        if re.fullmatch(r"rows \d+", first):
            found.announced = int(first[5:])
            found.is_whole = self.fill(found)
        if found.is_whole and self.line():
            raise BadReply(f"line {self.at} is no reply of the program, which ends each reply with an empty line")
        return found

    def fill(self, reply):
        """Reads the header and the rows of an answer, and says whether all were there."""
        header = self.line()
        reply.columns = columns_of(header or "")
        for _ in range(reply.announced):
            line = self.line()
            if line is None:
                break
            cells = line.count("\t") + 1 if reply.columns or line else 0
            if cells != len(reply.columns):
                raise BadReply(f"line {self.at} has {cells} cells where the header has {len(reply.columns)}")
            reply.lines.append(line)
        return header is not None and len(reply.lines) == reply.announced


def read(text):
    """All replies of a text."""
    return list(Reader(text.split("\n")[:-1] if text.endswith("\n") else text.split("\n") if text else []))


def is_comment(block):
    return sum(map(len, block)) <= LONGEST_COMMENT and all(line.lstrip(b" \t").startswith(b"//") for line in block)


def commands(lines):
    """The commands of a script, from its lines as bytes: the blocks between blank lines that aren't comments."""
    block, begin = [], 0
    for number, line in enumerate(lines, 1):
        if line.strip(b" \t\r\n"):
            begin = begin if block else number
            block.append(line)
        elif block:
            if not is_comment(block):
                yield Command(begin, without_end(block))
            block = []
    if block and not is_comment(block):
        yield Command(begin, without_end(block))


def without_end(block):
    text = b"".join(block)
    return text[:-1] if text.endswith(b"\n") else text
