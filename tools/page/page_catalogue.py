"""The tables, views and policies that are there, with their columns, counts and the members that were seen in dynamics."""
import json
import re

import answers
import names
from engine import Turn

# So many rows of a table are looked at for the members of its dynamics.
LOOKED_AT = 50
MOST_MEMBERS = 200
DEEPEST = 6
POLICY = re.compile(r"\.\s*alter\s+table\s+(\w+|\[\s*'(?:[^'\\]|\\.)*'\s*\]|\[\s*\"(?:[^\"\\]|\\.)*\"\s*\])\s+policy\s+update\s+(.*)", re.S)
NAME = re.compile(r"\[\s*(['\"])(.*)\1\s*\]", re.S)


def members_of(value, found, depth=0):
    """Puts the members of a value into a tree of their names."""
    if isinstance(value, list):
        for inner in value[:20]:
            members_of(inner, found, depth)
    elif isinstance(value, dict) and depth < DEEPEST:
        for name, inner in value.items():
            if name in found or len(found) < MOST_MEMBERS:
                members_of(inner, found.setdefault(name, {}), depth + 1)
    return found


def entities(journal):
    """The names of tables, of views and of the tables with policies, in the order of the journal."""
    at = {name: place for place, (name, _) in enumerate(journal.columns)}
    found = {"CreateTable": {}, "CreateView": {}, "SetPolicy": {}}
    last = {}
    for row in journal.rows():
        kind, name = row[at["Kind"]], answers.replies.unescape(row[at["Entity"]])
        if kind in found:
            found[kind][name] = True
        last[name] = row[at["Place"]]
    return list(found["CreateTable"]), list(found["CreateView"]), list(found["SetPolicy"]), last


class Catalogue:
    """What the program says of itself. It is asked behind the questions and before the batches."""

    def __init__(self, engine):
        self.engine = engine
        self.known = {}
        self.policies = {}
        self.last = None
        self.told = {"tables": [], "views": [], "policies": []}

    def ask(self, text):
        reply = answers.read(self.engine.ask(text, Turn.CATALOGUE).reply.result())
        return reply if reply.is_answer else None

    def read(self):
        """Asks the program, and says whether what is told changed. Ended is raised where the program has ended."""
        journal = self.ask(".show journal")
        if journal is None or journal.lines == self.last:
            return False
        self.last = journal.lines
        tables, views, policies, changes = entities(journal)
        self.told = {
            "tables": [self.entity(name, changes.get(name)) for name in tables],
            "views": [{**self.entity(name, len(journal.lines)), **self.view(name)} for name in views],
            "policies": [{"table": name, "text": self.policies.get(name)} for name in policies],
        }
        return True

    def entity(self, name, change):
        """A table or a view. It is asked for anew where the journal has another last event of it."""
        known = self.known.get(name)
        if known is not None and known[0] == change:
            return known[1]
        written = names.table_name(name)
        sample, count = self.ask(f"{written} | take {LOOKED_AT}"), self.ask(f"{written} | count")
        found = {
            "name": name,
            "written": written,
            "columns": [] if sample is None else columns_of(sample),
            "rows": int(count.lines[0]) if count is not None and count.lines else None,
        }
        self.known[name] = (change, found)
        return found

    def view(self, name):
        """A view's table, its query, and up to which commit its part is stored."""
        shown = self.ask(f".show materialized-view {names.table_name(name)}")
        if shown is None or not shown.lines:
            return {}
        cells = [answers.replies.plain(cell, kind) for cell, (_, kind) in zip(next(iter(shown.rows())), shown.columns)]
        return {"table": cells[1], "query": cells[2], "stored": cells[4]}

    def note(self, text, reply):
        """Keeps the text of a policy that was set. The program shows none."""
        found = POLICY.match(text)
        if found and reply.startswith("done "):
            bracketed = NAME.fullmatch(found[1])
            self.policies[bracketed[2] if bracketed else found[1]] = found[2]


def columns_of(sample):
    """The columns of some rows, those of dynamics with the members that the rows have."""
    found = []
    for at, (name, kind) in enumerate(sample.columns):
        column = {"name": name, "written": names.column_name(name), "type": kind}
        if kind == "dynamic":
            column["members"] = {}
            for row in sample.rows():
                if row[at] != "null":
                    members_of(json.loads(row[at]), column["members"])
        found.append(column)
    return found
