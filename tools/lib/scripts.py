"""The script that is written: the command that makes the table, and one for each batch of rows."""
import hashlib
import json
import re

import names
from inputs import LONGEST
from sent import Sent

# What a command of several rows has at most: as much as goes into a pipe at once (outlets.py). A longer row stands alone in its command.
USUAL = 10**6
BLANK = b" \t\r"
# White space, and a byte order mark, right behind `<|` would be dropped.
DROPPED = (b" ", b"\t", b"\r", b"\n", b"\xef\xbb\xbf")
LONE = re.compile("[\ud800-\udfff]")


def schema_text(columns):
    return ", ".join(f"{names.column_name(column.name)}:{column.kind}" for column in columns)


class Script:
    """Writes commands to a stream of bytes. `sent` says what of each has a reply."""

    def __init__(self, out, table, columns, batch):
        self.out = out
        self.table = names.table_name(table)
        self.columns = columns
        self.batch = batch
        self.alone = len(columns) == 1
        self.rows, self.size = [], 0
        self.given = self.batches = 0
        self.sent = []
        self.owners = {}  # of each tag the file that it was given to

    def create(self):
        self.out.write(f".create table {self.table} ({schema_text(self.columns)})\n\n".encode())
        self.sent.append(Sent("table", self.table))

    def widen(self, column):
        """Adds a column to the table, behind the others. Rows that have no cell for it have none there."""
        self.out.write(f".alter-merge table {self.table} ({schema_text([column])})\n\n".encode())
        self.sent.append(Sent("column", column.name))
        self.alone = False

    def begin(self, path, name, owner):
        """Rows of another file follow, which `owner` tells from all others. A batch is of one file."""
        self.path, self.name, self.owner, self.number = path, LONE.sub("\ufffd", name), owner, 10**9
        self.rows, self.size = [], 0
        self.given = self.batches = 0
        # The room for rows is the same for each batch, whatever its number.
        head = len(self.head(self.tag("0" * 48))) + 2
        self.room, self.longest, self.number = USUAL - head, LONGEST - head, 0

    def tag(self, digest):
        """The tag of a batch: its file's name, its place in the file, and a digest of its rows."""
        return f"{self.name} {self.number} of {self.batch} {digest}"

    def own_tag(self, body):
        """The tag of the rows, with a number where another file of this call has the same name and the same rows."""
        first = tag = self.tag(hashlib.blake2b(body, digest_size=16).hexdigest())
        count = 1
        while self.owners.setdefault(tag, self.owner) != self.owner:
            count += 1
            tag = f"{first} copy {count}"
        return tag

    def head(self, tag):
        tags = names.quoted(json.dumps(["ingest-by:" + tag]))
        asked = names.quoted(json.dumps([tag]))
        return f".ingest inline into table {self.table} with (tags={tags}, ingestIfNotExists={asked}) <|\n".encode()

    def add(self, rows):
        """Rows as CSV, of which the longest has no more bytes than there is room for."""
        if self.alone:
            rows = [row if row.strip(BLANK) else enclosed(row) for row in rows]
        start = 0
        while start < len(rows):
            some = rows[start : start + self.batch - len(self.rows)]
            size = sum(map(len, some)) + len(some)
            if self.size + size > self.room:
                some, size = self.fitting(some)
            self.rows += some
            self.size += size
            start += len(some)
            if len(self.rows) == self.batch or start < len(rows):
                self.close()

    def fitting(self, rows):
        """The first of the rows, as many as there is room for, and their size. A row that is longer than that is a batch of its own."""
        count, size = 0, 0
        for row in rows:
            if self.size + size + len(row) + 1 > self.room:
                break
            count += 1
            size += len(row) + 1
        if not count and not self.rows:
            return rows[:1], len(rows[0]) + 1
        return rows[:count], size

    def close(self):
        """Writes the open batch."""
        if not self.rows:
            return
        self.number += 1
        rows, self.rows, self.size = self.rows, [], 0
        if rows[0].startswith(DROPPED):
            rows[0] = guarded(rows[0])
        body = b"\n".join(rows)
        tag = self.own_tag(body)
        self.out.write(self.head(tag) + body + b"\n\n")
        self.sent.append(Sent("batch", self.path, self.number, tag, len(rows)))
        self.given += len(rows)
        self.batches += 1


def enclosed(cell):
    """A cell without quotes, with them. The CRs of a line's end aren't part of it."""
    return b'"' + cell.rstrip(b"\r").replace(b'"', b'""') + b'"'


def guarded(row):
    """A row whose first cell has no quotes, with them."""
    cell, comma, others = row.partition(b",")
    return (enclosed(cell) if not comma else b'"' + cell.replace(b'"', b'""') + b'"') + comma + others
