"""Lines of text of any program: each with its number, the datetime in front of it, and the lines that go on with it."""
import re

from inputs import LONGEST, Chunk
from times import MONTH

MOMENT = (
    r"[0-9]{4}[-/][0-9]{2}[-/][0-9]{2}[T _][0-9]{2}:[0-9]{2}(?::[0-9]{2}(?:[.,][0-9]{1,9})?)?(?: ?(?:Z|UTC|GMT|[+-][0-9]{2}:?[0-9]{2}))?"
    rf"|[0-9]{{2}}/{MONTH}/[0-9]{{4}}:[0-9:]{{8}} [+-][0-9]{{4}}|{MONTH} [ 0-9][0-9] [0-9:]{{8}}(?:\.[0-9]+)?"
)
# A datetime in front, between brackets or not, and what follows it.
START = re.compile(rf"([\[(]?)({MOMENT})([\])]?)(?=$|[ \t|\])-]|:(?![0-9]))")
# Lines that go on with the one before where no datetimes part the records.
GOES_ON = re.compile(r"[ \t]|Caused by:|Suppressed:|\.\.\. [0-9]+ more|[})\]]|Traceback ")
BEHIND = " \t"


def moment_of(text):
    """The datetime in front of a line and what is behind it, or none."""
    found = START.match(text)
    if found is None or bool(found[1]) != bool(found[3]):
        return None
    behind = text[found.end() :]
    return found[2], behind[1:] if behind[:1] and behind[0] in BEHIND else behind


class Text:
    """Reads lines of text as records with a number, a datetime where lines have one in front, and the text."""

    name = "lines"

    def __init__(self, texts):
        self.has_moments = sum(1 for text in texts if moment_of(text)) > 0
        self.fields = ["Line", *(["Timestamp"] if self.has_moments else []), "Text"]
        self.types = {"Line": "long", "Text": "string", **({"Timestamp": "datetime"} if self.has_moments else {})}

    def begins(self, line):
        """Whether a record begins with a line."""
        if self.has_moments:
            return moment_of(line.decode("utf-8", "surrogateescape")) is not None
        return bool(line.strip()) and GOES_ON.match(line.decode("utf-8", "surrogateescape")) is None

    def cut(self, chunks):
        """The chunks, none of which ends within a record that is short enough for a command."""
        number, kept, size, name = 0, [], 0, ""
        for chunk in chunks:
            name = chunk.name
            at = next((place for place in range(len(chunk.lines) - 1, -1, -1) if self.begins(chunk.lines[place])), None)
            if at is None and size < LONGEST and not chunk.last:
                number, size = number if kept else chunk.number, size + sum(map(len, chunk.lines)) + len(chunk.lines)
                kept += chunk.lines
                continue
            at = len(chunk.lines) if chunk.last or at is None else at
            yield Chunk(name, number if kept else chunk.number, kept + chunk.lines[:at], chunk.last)
            number, kept = chunk.number + at, chunk.lines[at:]
            size = sum(map(len, kept)) + len(kept)
        if kept:
            yield Chunk(name, number, kept, True)

    def read(self, chunk, problems):
        """The columns of a chunk, and the lines of each record: its first and the one behind it."""
        lines = [line[:-1] if line.endswith("\r") else line for line in chunk.text().split("\n")] if chunk.lines else []
        starts = [place for place, line in enumerate(chunk.lines) if self.begins(line)]
        first = next((place for place, line in enumerate(lines) if line.strip()), None)
        if first is not None and (not starts or starts[0] > first):
            starts.insert(0, first)
        numbers, moments, texts, spans = [], [], [], []
        for start, behind in zip(starts, [*starts[1:], len(lines)]):
            while behind > start + 1 and not lines[behind - 1].strip():
                behind -= 1
            moment, text = (moment_of(lines[start]) if self.has_moments else None) or ("", lines[start])
            numbers.append(str(chunk.number + start))
            moments.append(moment)
            texts.append("\n".join([text, *lines[start + 1 : behind]]))
            spans.append((start, behind))
        return [numbers, *([moments] if self.has_moments else []), texts], spans
