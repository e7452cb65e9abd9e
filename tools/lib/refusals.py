"""Why a command was refused: its line, a caret under the byte that the refusal names, and the sentence of docs/REPLIES.md."""

import csv
import re
from pathlib import Path

import from_kql
from widths import visible, width

PAGE = Path(__file__).resolve().parents[2] / "docs" / "REPLIES.md"
WINDOW = 100

# How a command begins, and the heading of docs/REPLIES.md that has its refusals.
HEADINGS = [
    (r"\.\s*create\s+table\b", ".create table"),
    (r"\.\s*alter-merge\b", ".alter-merge table"),
    (r"\.\s*ingest\b", ".ingest inline"),
    (r"\.\s*alter\b", ".alter table policy update"),
    (r"\.\s*create\b", ".create materialized-view"),
    (r"#\s*fold\b", "#fold"),
    (r"#\s*export\s+\w+\s+over\b", "#export NAME over TABLE"),
    (r"#\s*export\b", "#export NAME"),
    (r"[.#]", "#merge and .show"),
    (r"", "a query"),
]
EVERY = "every command"


def heading_of(command):
    """The heading with the refusals of a command, from the command's text."""
    text = re.sub(r"\A(\s|//[^\n]*\n)*", "", command)
    return next(heading for form, heading in HEADINGS if re.match(form, text))


def rows_of(page):
    """The rows of the tables under `### Refusals of X`: triples of X, the refusal's text or a word of it, and when it comes."""
    heading = None
    for line in page.split("\n"):
        if line.startswith("#"):
            found = re.fullmatch(r"### Refusals of (.*)", line)
            heading = found[1].replace("`", "") if found else None
        elif heading and line.startswith("| `"):
            cells = line.strip("| ").split(" | ")
            yield heading, cells[0].strip("`"), cells[1]


def matches(pattern, refusal):
    """Whether a refusal is of a form such as `refused Type at N`."""
    form = re.escape(pattern)
    for hole, found in (("N", r"\\d+"), ("T", r".*"), ("W", r"\\w+"), ("X", r".*")):
        form = re.sub(rf"\b{hole}\b", found, form)
    return re.fullmatch(form, refusal) is not None


def sentences(refusal, command=None, page=None):
    """What docs/REPLIES.md says of a refusal, as `Type at N: sentence`. Without the command, of all commands."""
    if page is None:
        page = PAGE.read_text(encoding="utf-8") if PAGE.exists() else ""
    heading = heading_of(command) if command is not None else None
    found = []
    for group, pattern, sentence in rows_of(page):
        line = f"{pattern[len('refused ') :] if pattern.startswith('refused ') else pattern}: {sentence}"
        is_of_it = matches(pattern, refusal) or (refusal.startswith("refused BadPolicy ") and refusal.endswith(" " + pattern))
        if (heading is None or group in (heading, EVERY)) and is_of_it and line not in found:
            found.append(line)
    return found


def place_of(refusal, command):
    """The byte that a refusal speaks of, or None: the one that it names, or the start of the record that is too wide."""
    found = re.match(r"refused \w+ at (\d+)$", refusal)
    if found:
        return min(int(found[1]), len(command))
    found = re.fullmatch(r"refused WideRow row (\d+)", refusal)
    return start_of_record(command, int(found[1])) if found else None


def start_of_record(command, number):
    begin = command.find(b"<|") + 2
    if begin < 2:
        return None
    begin += len(command[begin:]) - len(command[begin:].lstrip())
    lines = command[begin:].decode("latin-1").split("\n")
    csv.field_size_limit(1 << 30)
    reader = csv.reader(line + "\n" for line in lines)
    try:
        for _ in range(number - 1):
            next(reader)
    except (StopIteration, csv.Error):
        return None
    return begin + sum(len(line) + 1 for line in lines[: reader.line_num])


def pointed(command, place):
    """A line of a command, cut to a window around a place, and how far a caret stands in it."""
    begin = command.rfind(b"\n", 0, place) + 1
    end = command.find(b"\n", place)
    line = command[begin : len(command) if end < 0 else end]
    before, after = (shown(part) for part in (line[: place - begin], line[place - begin :]))
    if len(before) > WINDOW // 2:
        before = "…" + before[-WINDOW // 2 :]
    room = WINDOW - len(before)
    if len(after) > room:
        after = after[:room] + "…"
    return before + after, width(before)


def shown(part):
    return visible(part.decode("utf-8", "backslashreplace").replace("\t", " ").rstrip("\r"))


def explain(refusal, command=None, page=None):
    """The lines that explain a refusal: pairs of a style (line, caret or sentence) and a text."""
    lines = []
    if command is not None:
        place = place_of(refusal, command.text)
        text, caret = pointed(command.text, place or 0)
        number = command.line + command.text.count(b"\n", 0, place or 0)
        lines.append(("line", f"{number:>6} | {text}"))
        if place is not None:
            lines.append(("caret", " " * (9 + caret) + "^"))
    begin = command.text[:4096].decode("utf-8", "replace") if command is not None else None
    lines += [("sentence", "       " + sentence) for sentence in sentences(refusal, begin, page)]
    return lines + [("sentence", "       " + line) for line in instead(refusal, begin)]


def instead(refusal, command):
    """What docs/FROM_KQL.md says to write for a word of KQL that isn't here."""
    lines = []
    for written, here in from_kql.hints(refusal, command) if command is not None else ():
        lines += ["in place of" if lines else "docs/FROM_KQL.md: in place of", "    " + written, "write", "    " + here]
    return lines
