"""The page docs/FROM_KQL.md: its commands, and what it says to write for a word of KQL that is refused here.

At which word a command of the page is refused stands in scripts/from_kql/page.out, with which the gate holds the page to the program."""
import functools
import re
from pathlib import Path
from typing import List, NamedTuple, Optional, Tuple

import replies

TOP = Path(__file__).resolve().parents[2]
PAGE = TOP / "docs" / "FROM_KQL.md"
ANSWERS = TOP / "scripts" / "from_kql" / "page.out"

REPLY = re.compile(r"(rows|ingested|done|kept|skipped|refused) ")
PLACE = re.compile(r"refused (\w+) at (\d+)")
# What doesn't count where brackets and bars are looked for.
TEXTS = re.compile(r"@?\"(?:[^\"\\\n]|\\.)*\"|@?'(?:[^'\\\n]|\\.)*'|//[^\n]*")
WORD = re.compile(r"[.!]?[A-Za-z_]\w*(?:-[A-Za-z]+)*~?")
TOKEN = re.compile(r"!?[A-Za-z_]\w*~?|[0-9][\w.]*|[=<>!]=|=~|!~|\S")
OPERATORS = frozenset(
    "where filter extend project project-away project-rename take limit count sort order top distinct summarize join union mv-expand".split()
)
MOST_SHOWN = 2


class Line(NamedTuple):
    """One command of the page, the reply that the page shows, and whether it is to be refused, where the page says so."""

    command: str
    reply: Optional[str] = None
    is_refused: Optional[bool] = None


class Row(NamedTuple):
    """What the page says to write in place of a command, as a command or in words, and at what the command is refused."""

    key: Tuple[str, ...]
    command: str
    instead: str


def of_block(block, lines):
    text = "\n".join(line[4:] for line in block.rstrip("\n").split("\n"))
    if REPLY.match(text):
        lines[-1] = lines[-1]._replace(reply=text + "\n\n")
    else:
        lines.append(Line(text))


def cells_of(row):
    return [cell.strip() for cell in re.split(r"(?<!\\)\|", row)[1:-1]]


def command_of(cell):
    return cell.strip("`").replace("\\|", "|")


def of_row(row, lines):
    for cell, is_refused in zip(cells_of(row), (True, False)):
        if cell.startswith("`"):
            lines.append(Line(command_of(cell), is_refused=is_refused))


def lines_of(page):
    """The commands of the page, in their order."""
    lines: List[Line] = []
    for part in re.findall(r"(?m)(?:^    .*\n)+|^\|.*$", page):
        if part.startswith("|"):
            of_row(part, lines)
        else:
            of_block(part, lines)
    return lines


def instead_of(page):
    """What the page has beside each command that is refused, by the command."""
    found = {}
    for row in re.findall(r"(?m)^\|.*$", page):
        cells = cells_of(row)
        if len(cells) == 2 and cells[0].startswith("`"):
            found[command_of(cells[0])] = command_of(cells[1]) if cells[1].startswith("`") else cells[1].replace("\\|", "|")
    return found


def keys(kind, command, place):
    """What a refusal at a place of a command goes by, the closest first: an operator that isn't here, the word or sign at the place,
    and for the name of a column or table only the operator in which it stands."""
    text = TEXTS.sub(lambda found: " " * len(found[0]), command)
    operator = operator_at(text, place)
    token = TOKEN.match(text, place)
    if token is None:
        return [("operator", operator)]
    token = token[0]
    if token == "|":
        return [("bracket", word_before_bracket(text[:place]))]
    if operator not in OPERATORS and not text.lstrip().startswith(operator):
        return [("operator", operator)]
    if operator.startswith(".") and "-" in operator:
        return [("operator", operator)]
    if re.match(r"\w|!\w", token):
        is_number = token[0].isdigit()
        return [("number", kind)] if is_number else [("word", kind, token), ("name", kind, operator)]
    return [("sign", kind, token, operator if kind == "Syntax" else "")]


def operator_at(text, place):
    """The word that begins the part of a command in which a place stands."""
    begin = max(text.rfind("|", 0, place + 1), text.rfind(";", 0, place + 1))
    found = WORD.search(text, begin + 1)
    return found[0] if found else ""


def word_before_bracket(text):
    """The word before the last bracket that is open at the end of a text."""
    depth = 0
    for at in range(len(text) - 1, -1, -1):
        depth += {")": 1, "(": -1}.get(text[at], 0)
        if depth < 0:
            found = re.search(r"(!?\w+~?)\s*$", text[:at])
            return found[1] if found else ""
    return ""


@functools.lru_cache(maxsize=1)
def rows():
    """The rows of the page with what each is refused at; none where the page and its answers aren't there or don't fit."""
    try:
        page, answers = PAGE.read_text(encoding="utf-8"), replies.read(ANSWERS.read_text(encoding="utf-8"))
    except OSError:
        return []
    lines, instead = lines_of(page), instead_of(page)
    if len(lines) != len(answers):
        return []
    names = set(re.findall(r"\w+", " ".join(line.command for line in lines if line.command.startswith(".create table"))))
    found = []
    for line, answer in zip(lines, answers):
        refused = PLACE.fullmatch(answer.first)
        if line.is_refused and refused and line.command in instead:
            several = keys(refused[1], line.command, int(refused[2]))
            key = several[-1] if several[0][0] == "word" and several[0][2] in names - {"guid", "real"} else several[0]
            found.append(Row(key, line.command, instead[line.command]))
    return found


def hints(refusal, command):
    """What the page says of a refused command: pairs of what one would write and what is written here."""
    found = PLACE.fullmatch(refusal)
    if not found:
        return []
    # A place is a byte.
    place = len(command.encode("utf-8", "surrogateescape")[: int(found[2])].decode("utf-8", "replace"))
    for key in keys(found[1], command, place):
        fitting = [row for row in rows() if row.key == key]
        if fitting:
            return [(row.command, row.instead) for row in fitting[:MOST_SHOWN]]
    return []
