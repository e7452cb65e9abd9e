"""What the program was given, kept so that another one can be given the same."""
import os
import shutil
import tempfile

from outlets import outlet

# What of replies says that a command changed what a later question finds.
CHANGES = ("done", "ingested", "exporting")


def folder():
    """A folder for large files: /tmp may lie in memory."""
    found = "/var/tmp"
    return None if "TMPDIR" in os.environ or not os.access(found, os.W_OK) else found


class Kept:
    """A script in a file that has no name, so that nothing of it is left whatever ends us."""

    def __init__(self, say):
        self.say = say
        self.stream = None
        try:
            self.file = tempfile.TemporaryFile(prefix="kq-log-", dir=folder())
        except OSError as fault:
            self.lose(fault)

    def lose(self, fault):
        self.file = None
        self.say(f"what is loaded isn't kept ({fault.strerror}), so it can't be loaded again without the files")

    @property
    def is_there(self):
        return self.file is not None

    def beside(self, stream):
        """A stream that hands on what is written to another, each command in one piece, and keeps it."""
        self.stream = outlet(stream)
        return self

    def write(self, text):
        self.stream.write(text)
        self.add(text)

    def flush(self):
        self.stream.flush()

    def add(self, text):
        if self.file is not None:
            try:
                self.file.write(text)
            except OSError as fault:
                self.lose(fault)

    def command(self, text, reply):
        """Keeps a command where its reply says that it changed anything."""
        if reply.split(" ")[0].strip() in CHANGES:
            self.add(text.encode("utf-8", "surrogateescape") + b"\n\n")

    def give(self, stream):
        """Writes all that was kept to a stream."""
        self.file.seek(0)
        shutil.copyfileobj(self.file, stream, 1 << 20)
        stream.flush()
        self.file.seek(0, os.SEEK_END)
