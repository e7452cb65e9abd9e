"""logfmt: lines of `key=value`, where a value with blanks stands in quotes."""
import json
import re

from names import distinct_names

PAIR = re.compile(r'([^ ="\t]+)(?:=(?:"((?:[^"\\]|\\.)*)"(?=[ \t]|$)|([^ "\t]*)(?=[ \t]|$)))?(?:[ \t]+|$)')
LINE = re.compile(rf"[ \t]*(?:{PAIR.pattern})+")
ESCAPED = re.compile(r"\\(.)", re.S)
SIGNS = {"n": "\n", "t": "\t", "r": "\r"}


def is_logfmt(text):
    """Whether a line is logfmt, and has at least two values."""
    return LINE.fullmatch(text) is not None and sum(1 for pair in PAIR.finditer(text) if pair[2] is not None or pair[3] is not None) >= 2


def plain(text):
    """What a quoted value stands for. Its escapes are those of JSON; of others the sign behind the backslash is left."""
    if "\\" not in text:
        return text
    try:
        return json.loads(f'"{text}"', strict=False)
    except ValueError:
        return ESCAPED.sub(lambda found: SIGNS.get(found[1], found[1]), text)


class Logfmt:
    """Reads lines as records of texts. A key without a value is true; a key that comes again has a number behind it."""

    name = "logfmt"
    clean = False

    def read(self, chunk, problems):
        """The records of a chunk, and the lines that they stand on."""
        found, places = [], []
        for place, line in enumerate(chunk.text().split("\n") if chunk.lines else ()):
            line = line.strip(" \t\r")
            if not line:
                continue
            record = self.record(line)
            if record is None:
                problems.meet("line", chunk.place(place), f"the line isn't logfmt: {line[:60]!r}")
                problems.reject(chunk.raw(place, place + 1))
                continue
            found.append(record)
            places.append(place)
        return found, places

    @staticmethod
    def record(line):
        """The values of a line by their keys, or none where it is of another form."""
        at, pairs = 0, []
        while at < len(line):
            pair = PAIR.match(line, at)
            if pair is None:
                return None
            key, quoted, bare = pair.groups()
            pairs.append((key, plain(quoted) if quoted is not None else "true" if bare is None else bare))
            at = pair.end()
        keys = [key for key, _ in pairs]
        if len(set(keys)) < len(keys):
            keys = distinct_names(keys)
        return dict(zip(keys, (value for _, value in pairs)))
