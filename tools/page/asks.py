"""What a page asks the program: one block at a time, each with its reply as the page shows it."""
import re

import refusals
import sessions
from answers import read
from widths import visible

# White space and comments may stand between any two tokens.
BETWEEN = r"(?:\s|//[^\n]*(?:\n|\Z))*"
EXPORT = re.compile(rf"\A{BETWEEN}#{BETWEEN}export\b")
DEFINITION = re.compile(rf"\A{BETWEEN}#{BETWEEN}export\b{BETWEEN}\w+{BETWEEN}\bover\b")
LONGEST_HEAD = 4096


class BadCall(ValueError):
    """What a page sent isn't what a page of ours sends."""


def one_block(text):
    """The one block of a text. Another number of them would be answered by another number of replies."""
    if not isinstance(text, str):
        raise BadCall("the question is no text")
    try:
        text.encode()
    except UnicodeEncodeError:
        raise BadCall("the question has half of a surrogate pair, which is no text") from None
    found = list(sessions.blocks(iter(text.split("\n"))))
    if len(found) != 1:
        raise BadCall(f"the question is {len(found)} blocks, and one is asked at a time")
    return found[0]


def writes_files(text):
    """Whether a command would write a file. The definition of an export writes none."""
    return EXPORT.match(text) is not None and DEFINITION.match(text) is None


def place_in(command, place):
    """The line and the column of a byte, as an editor of UTF-16 counts them, from 0."""
    before = command[:place].decode("utf-8", "ignore")
    line = before.rsplit("\n", 1)[-1]
    return {"line": before.count("\n"), "column": len(line.encode("utf-16-le")) // 2}


def refusal(reply, text):
    """Why a block was refused, and where."""
    command = text.encode()
    place = refusals.place_of(reply.first, command)
    return {
        "kind": "refusal",
        "first": visible(reply.first),
        "sentences": refusals.sentences(reply.first, text[:LONGEST_HEAD]),
        "place": None if place is None else place_in(command, place),
    }


def reply_of(text, block):
    """A reply as values: an answer as a Reply beside them, which the page doesn't get as a whole."""
    reply = read(text)
    if reply.is_refusal:
        return refusal(reply, block), None
    if not reply.is_answer:
        return {"kind": "told", "first": visible(reply.first)}, None
    return {"kind": "answer", "first": reply.first}, reply
