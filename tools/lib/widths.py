"""Texts on a terminal: how wide they are, and without signs that would steer it."""

import collections
import re
import unicodedata

# Controls, signs that turn the direction of text, and signs that nobody sees: a log may hold any of them, and none may reach
# the terminal. Those from U+00AD on are the categories Cf, Cs, Zl and Zp of Unicode, fillers without a shape, and U+E0000 to U+E0FFF.
CONTROLS = re.compile(
    "[\x00-\x1f\x7f-\x9f\xad\u034f\u0600-\u0605\u061c\u06dd\u070f\u0890\u0891\u08e2\u115f\u1160\u17b4\u17b5\u180b-\u180f"
    "\u200b-\u200f\u2028-\u202e\u2060-\u206f\u3164\ud800-\udfff\ufeff\uffa0\ufff0-\ufffb"
    "\U000110bd\U000110cd\U00013430-\U0001343f\U0001bca0-\U0001bca3\U0001d173-\U0001d17a\U000e0000-\U000e0fff]"
)


def is_terminal(out):
    return hasattr(out, "isatty") and out.isatty()


def visible(text):
    """A text with each sign that steers a terminal written out, as \\x1b."""
    if text.isascii() and text.isprintable():
        return text
    return CONTROLS.sub(written, text)


def visible_lines(text):
    """The same for a text of several lines, whose ends and tabs stay."""
    return re.sub(r"[^\t\n]+", lambda found: visible(found[0]), text)


def written(found):
    code = ord(found[0])
    return f"\\x{code:02x}" if code < 256 else f"\\u{code:04x}" if code < 1 << 16 else f"\\U{code:08x}"


def width(text):
    """How many places of a terminal a text takes."""
    return len(text) if text.isascii() else sum(map(width_of_sign, text))


def width_of_sign(sign):
    if unicodedata.category(sign) in ("Mn", "Me", "Cf"):
        return 0
    return 2 if unicodedata.east_asian_width(sign) in "WF" else 1


def cut(text, places):
    """A text that takes at most so many places, cut in its middle, since names often differ at their ends alone."""
    return text if width(text) <= places else joined_ends(text, places, (places - 1) // 2)


def joined_ends(text, places, left):
    """The beginning of a text, which takes at most `left` places, and as much of its end as there is room for."""
    before = taking(text, left)
    return before + "…" + taking(text[::-1], max(places - 1 - width(before), 0))[::-1]


def taking(text, places):
    """As much of a text as so many places take."""
    end = 0
    for sign in text:
        places -= width_of_sign(sign)
        if places < 0:
            break
        end += 1
    return text[:end]


def cut_apart(texts, places):
    """The texts by themselves, each cut to so many places, and no two different ones to the same: what is left of each is chosen
    so that they differ, or a number stands where they are cut."""
    texts = list(dict.fromkeys(texts))
    middle = (places - 1) // 2
    for left in sorted(range(places), key=lambda left: abs(left - middle)):
        found = {text: text if width(text) <= places else joined_ends(text, places, left) for text in texts}
        if len(set(found.values())) == len(texts):
            return found
    found = {text: cut(text, places) for text in texts}
    often = collections.Counter(found.values())
    for number, text in enumerate(texts, 1):
        if often[found[text]] > 1:
            mark = f"…{number}…"
            room = max(places - width(mark), 0)
            found[text] = taking(text, room - room // 2) + mark + taking(text[::-1], room // 2)[::-1]
    return found


def padded(text, places, right=False):
    """A text filled up with spaces, at its left where it is to stand at the right."""
    space = " " * (places - width(text))
    return space + text if right else text + space
