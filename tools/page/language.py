"""The words of the language that the page colours and completes, from docs/LANGUAGE.md."""
import re
from pathlib import Path

import names
from cells import TYPES

PAGE = Path(__file__).resolve().parents[2] / "docs" / "LANGUAGE.md"
# Words that are special in their place alone, behind an operator's name.
PARTS = "asc desc nulls first last kind on to typeof from step with into table policy update inline".split()


def section(page, heading):
    """What stands under a heading, up to the next of its rank."""
    rank = heading.split(" ")[0]
    return re.split(rf"^{rank} ", page.partition(heading + "\n")[2], maxsplit=1, flags=re.M)[0]


def rows_of(text):
    """The rows of the tables of a text, as lists of cells."""
    for line in text.split("\n"):
        if line.startswith("| `"):
            yield [cell.strip().replace("\\|", "|") for cell in re.split(r"(?<!\\)\|", line)[1:-1]]


def told(cell):
    return cell.replace("`", "")


def calls_of(text, at):
    """Functions: each name with how it is called and what it gives, which is in the cell `at`."""
    found = {}
    for cells in rows_of(text):
        forms = re.findall(r"`([^`]+)`", cells[0])
        first = re.match(r"(\w+)\(", forms[0])
        for form in forms if first else ():
            call = re.match(r"(\w+)(\(.*)?$", form)
            if call:
                found.setdefault(call[1], {"form": form if call[2] else form + forms[0][len(first[1]) :], "told": told(cells[at])})
    return found


def operators_of(text):
    """Sources and operators: each word with its form and what it gives."""
    found = {}
    for cells in rows_of(text):
        for form in re.findall(r"`([^`]+)`", cells[0].partition(", with ")[0]):
            word = re.match(r"[a-z][a-z-]+", form)
            if word and len(cells) > 1:
                found.setdefault(word[0], {"form": form, "told": told(cells[1])})
    return found


def words(page=None):
    """All that the page needs of the language."""
    if page is None:
        page = PAGE.read_text(encoding="utf-8") if PAGE.exists() else ""
    queries = section(page, "## Queries")
    aggregates = section(queries, "### Aggregates")
    pipes = queries.split("\n### ")[0]
    return {
        "functions": calls_of(section(page, "## Expressions"), 2),
        "aggregates": calls_of(aggregates, 2),
        "operators": operators_of(pipes),
        "joins": re.findall(r"^\| `(\w+)` \|", section(queries, "### Joins"), re.M),
        "commands": [command for heading in re.findall(r"^### (`.*)$", section(page, "## Commands"), re.M) for command in re.findall(r"`([^`]+)`", heading)],
        "types": sorted(TYPES),
        "reserved": sorted(names.RESERVED),
        "parts": PARTS,
    }
