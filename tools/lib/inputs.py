"""Files to be loaded: opened, inflated where they are compressed, and cut into chunks of whole lines."""
import datetime
import io
import os
import stat
import sys

import compression
from problems import Stopped

PIECE = 2**17
# No command has more bytes, so no record has.
LONGEST = 2**24
OTHERS = [
    (b"\xff\xfe", "UTF-16", "iconv -f UTF-16 -t UTF-8"),
    (b"\xfe\xff", "UTF-16", "iconv -f UTF-16 -t UTF-8"),
    (b"PK\3\4", "a zip archive", "unzip -p"),
]


class Chunk:
    """Some lines of a file, without their LFs."""

    def __init__(self, name, number, lines, last=False):
        self.name = name
        self.number = number  # of the first line, from 1
        self.lines = lines
        self.last = last
        self.whole = None
        self.is_text = True

    def text(self, start=0):
        """The lines as text; a byte that is no UTF-8 is a lone surrogate, and then `is_text` is false."""
        if start:
            return b"\n".join(self.lines[start:]).decode("utf-8", "surrogateescape")
        if self.whole is None:
            data = b"\n".join(self.lines)
            try:
                self.whole = data.decode()
            except UnicodeDecodeError:
                self.whole, self.is_text = data.decode("utf-8", "surrogateescape"), False
        return self.whole

    def place(self, line):
        return f"{self.name}:{self.number + line:,}".replace(",", "")

    def raw(self, first, behind):
        return b"".join(line + b"\n" for line in self.lines[first:behind])

    def as_last(self):
        """The same lines, behind which no others come."""
        return Chunk(self.name, self.number, self.lines, True)

    def first(self, count):
        """The first lines."""
        return Chunk(self.name, self.number, self.lines[:count])

    def without(self, count):
        """What follows the first lines."""
        return Chunk(self.name, self.number + count, self.lines[count:], self.last)


class Input:
    """A file, or standard input for `-`."""

    def __init__(self, path, problems):
        self.path = path
        self.problems = problems
        self.name = "standard input" if path == "-" else os.path.basename(path)
        try:
            self.file = sys.stdin.buffer if path == "-" else open(path, "rb", buffering=0)
            self.state = os.fstat(self.file.fileno())
        except OSError as fault:
            raise Stopped(f"{path}: {fault.strerror}") from None
        except (AttributeError, io.UnsupportedOperation):
            self.state = None
        if self.state and stat.S_ISDIR(self.state.st_mode):
            raise Stopped(f"{path}: is a folder")
        self.taken = 0
        self.is_cut = False

    def close(self):
        if self.path != "-":
            self.file.close()

    @property
    def is_regular(self):
        return self.path != "-" and stat.S_ISREG(self.state.st_mode)

    @property
    def size(self):
        return self.state.st_size if self.is_regular else None

    @property
    def changed(self):
        """When a file was changed last, or now."""
        if self.is_regular:
            return datetime.datetime.fromtimestamp(self.state.st_mtime_ns // 10**9, datetime.timezone.utc).replace(tzinfo=None)
        return datetime.datetime.now()

    @property
    def owner(self):
        """What tells the file from others, whatever its name."""
        return (self.state.st_dev, self.state.st_ino) if self.is_regular else self.path

    def read(self):
        """The next bytes; none at the end. As many as there can be, so that chunks don't hang on who writes."""
        pieces, wanted = [], PIECE
        while wanted:
            piece = self.file.read(wanted)
            if not piece:
                break
            pieces.append(piece)
            wanted -= len(piece)
        data = b"".join(pieces)
        self.taken += len(data)
        return data

    def pieces(self):
        """What the file holds, inflated, without a byte order mark."""
        first = self.read()
        for mark, what, command in OTHERS:
            if first.startswith(mark):
                raise Stopped(f"{self.path}: is {what}; try {command} {'FILE' if self.path == '-' else self.path} | tools/load - ..")
        pieces = self.inflated(first) or self.plain(first)
        first = b""
        while len(first) < 3 and (piece := next(pieces, b"")):
            first += piece
        yield first[3:] if first.startswith(b"\xef\xbb\xbf") else first
        yield from pieces

    def plain(self, piece):
        while piece:
            yield piece
            piece = self.read()

    def inflated(self, first):
        """What compressed data holds, or none where the file isn't compressed."""
        try:
            pieces = compression.pieces(first, self.read, PIECE)
        except compression.Missing as fault:
            raise Stopped(f"{self.path}: {fault}") from None
        return pieces and self.up_to_damage(pieces)

    def up_to_damage(self, pieces):
        try:
            yield from pieces
        except compression.Damaged as fault:
            self.problems.meet("truncated", self.path, f"the compressed data ends early or is damaged ({fault})")
            self.is_cut = True

    def chunks(self):
        """The lines, some at a time. A line that is too long for a command is met as a problem, and not kept."""
        number, rest, size, skipping = 1, [], 0, None
        for piece in self.pieces():
            first, *lines = piece.split(b"\n")
            rest.append(first)
            size += len(first)
            if size > LONGEST or skipping:
                skipping = skipping or self.too_long(number)
                skipping(b"".join(rest) + (b"\n" if lines else b""))
                rest, size = [], 0
            if not lines:
                continue
            whole = [] if skipping else [b"".join(rest)]
            number += 1 if skipping else 0
            *others, last = lines
            whole += others
            rest, size, skipping = [last], len(last), None
            if whole:
                yield Chunk(self.path, number, whole)
                number += len(whole)
        # Where compressed data ends early, the last line is no whole one.
        rest = b"".join(rest)
        yield Chunk(self.path, number, [rest] if rest and not self.is_cut else [], True)

    def too_long(self, number):
        self.problems.meet("long", f"{self.path}:{number}", f"the line has over {LONGEST:,} bytes, more than a command can have")
        return self.problems.reject
