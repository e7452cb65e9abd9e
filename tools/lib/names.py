"""Names and strings as commands write them (docs/LANGUAGE.md, "Commands" and "Tokens")."""
import re

# Words that are no names unless they stand in brackets.
RESERVED = frozenset("and or by true false let in between has has_cs contains contains_cs startswith startswith_cs endswith endswith_cs".split())
# Words that begin a typed literal where a bracket follows, as it does behind the name of a table that is made.
LITERALS = frozenset("long int64 int bool boolean datetime date timespan time dynamic real double decimal guid".split())
WORD = re.compile(r"[A-Za-z_][A-Za-z0-9_]*")
ESCAPES = {"\\": "\\\\", "'": "\\'", "\n": "\\n", "\r": "\\r", "\t": "\\t"}
# Signs that would steer a terminal. A string may have each as \uXXXX.
CONTROLS = "\x00-\x1f\x7f-\x9f\u061c\u200b-\u200f\u2028-\u202e\u2060-\u206f\ufeff\ufff9-\ufffb"
SPECIAL = re.compile(f"[\\\\'{CONTROLS}]")


def quoted(text):
    """A text as a string between single quotes."""
    return "'" + SPECIAL.sub(lambda found: ESCAPES.get(found[0]) or f"\\u{ord(found[0]):04x}", text) + "'"


def counted(number, what):
    """A number and what it counts."""
    if number == 1:
        return f"1 {what}"
    return f"{number:,} {what[:-1]}ies" if what.endswith(("ply", "ry")) else f"{number:,} {what}{'es' if what.endswith('ch') else 's'}"


def is_word(text):
    return WORD.fullmatch(text) is not None and text not in RESERVED


def column_name(text):
    return text if is_word(text) else f"[{quoted(text)}]"


def table_name(text):
    return text if is_word(text) and text not in LITERALS else f"[{quoted(text)}]"


def distinct_names(texts):
    """The texts, where each empty one gets a name by its place, and each repeated one a number behind it."""
    taken, names = set(texts), []
    for place, text in enumerate(texts, 1):
        name = text or f"Column{place}"
        number = 1
        while name in names or (name != text and name in taken):
            number += 1
            name = f"{text or 'Column' + str(place)}_{number}"
        names.append(name)
    return names
