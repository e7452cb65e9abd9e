"""What can be typed beside questions."""
import shlex
from enum import Enum
from typing import Dict, List, NamedTuple


class Word(Enum):
    """Each with what it takes, and what it does."""

    HELP = ("help", "", "prints this")
    QUIT = ("quit", "", "ends the session, as Ctrl-D does")
    TABLES = ("\\tables", "", "the tables and views, with their columns and numbers of rows")
    CHART = ("\\chart", "[time|bar|line] [x=COLUMN] [y=COLUMN ..] [by=COLUMN]", "draws the last answer")
    CSV = ("\\csv", "[FILE]", "writes the last answer into a new file as CSV, or shows it so")
    JSON = ("\\json", "[FILE]", "the same as JSON")
    MARKDOWN = ("\\markdown", "[FILE]", "the same as a table of Markdown")
    ROWS = ("\\rows", "N", "how many rows of an answer are shown from now on; 0 is all")
    RUNNING = ("\\running", "", "the questions that were left and still run, and the memory that the program holds")
    RELOAD = ("\\reload", "", "ends the program with all that it runs, and loads the same into a new one")

    def __init__(self, name_of_it, takes, does):
        self.text, self.takes, self.does = name_of_it, takes, does


# Other programs call them so.
ALSO = {
    **dict.fromkeys(("exit", "\\q", "\\quit"), Word.QUIT),
    **dict.fromkeys(("?", "\\?", "\\h", "\\help"), Word.HELP),
    "\\d": Word.TABLES,
}


# Where help says what a word does.
SIDE = 22


class Typed(NamedTuple):
    """A word with what stands behind it: values by their names, such as x=Hour, and the others in their order."""

    word: Word
    others: List[str]
    named: Dict[str, List[str]]


class Unknown(Exception):
    """The line is no word as it stands; the text says why."""


def read(line):
    """The word of a line, or none where the line belongs to a question. Unknown is raised for one that only looks like a word."""
    text = line.strip()
    first = text.split(None, 1)[0] if text else ""
    word = next((word for word in Word if word.text == first), ALSO.get(first))
    if word is None and not text.startswith("\\"):
        return None
    if word in (Word.HELP, Word.QUIT) and text != first:
        return None
    if word is None:
        raise Unknown(f"there is no {first}; help lists what there is")
    try:
        parts = shlex.split(text[len(first) :])
    except ValueError as fault:
        raise Unknown(f"{first}: {fault}") from None
    return typed(word, parts)


def typed(word, parts):
    found = Typed(word, [], {})
    for part in parts:
        name, sign, value = part.partition("=")
        if sign and word is Word.CHART and name in ("x", "y", "by", "title"):
            found.named.setdefault(name, []).append(value)
        else:
            found.others.append(part)
    if len(found.others) > (0 if not word.takes else 1):
        raise Unknown(f"{word.text} takes {word.takes or 'nothing'}")
    return found


def help_text():
    """What can be typed, a line each."""
    lines = []
    for word in Word:
        head = f"  {word.text} {word.takes}".rstrip()
        lines += [head.ljust(SIDE) + word.does] if len(head) < SIDE else [head, " " * SIDE + word.does]
    told = "\n".join(lines)
    return f"""\
A question is a block of lines, and a blank line ends it. Ctrl-C drops an open question; while one is answered it leaves it:
the question runs on, its late answer is dropped, and the next one is asked beside it. Arrow keys bring questions back.

{told}

docs/LANGUAGE.md has the language, docs/FROM_KQL.md what to write for what it lacks.
"""
