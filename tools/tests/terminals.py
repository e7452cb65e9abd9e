"""A program at a terminal of ours: what a test types, and what it sees."""
import fcntl
import os
import pty
import select
import struct
import subprocess
import sys
import tempfile
import termios
import time

from load_runs import TOP

KQ_LOG = os.path.join(TOP, "kq-log")
FEEDS = os.path.join(TOP, "tools", "tests", "feeds_program.py")
# The seconds for which a test waits for what it is to see, on a machine that may be busy.
PATIENCE = 120
CONTROL_C, CONTROL_D, CONTROL_P = b"\x03", b"\x04", b"\x10"


def children(parent):
    """The processes that a process started."""
    found = []
    for name in filter(str.isdigit, os.listdir("/proc")):
        try:
            with open(f"/proc/{name}/stat") as file:
                if int(file.read().rpartition(")")[2].split()[1]) == parent:
                    found.append(int(name))
        except OSError:
            continue
    return found


def is_there(process):
    """Whether a process runs. One that has ended and waits to be asked for its status doesn't."""
    try:
        with open(f"/proc/{process}/stat") as file:
            return file.read().rpartition(")")[2].split()[0] != "Z"
    except OSError:
        return False


def used(process):
    """The seconds of processors that a process has used."""
    with open(f"/proc/{process}/stat") as file:
        return sum(map(int, file.read().rpartition(")")[2].split()[11:13])) / os.sysconf("SC_CLK_TCK")


def soon(holds, seconds=PATIENCE):
    """Whether something holds within some seconds."""
    until = time.monotonic() + seconds
    while time.monotonic() < until:
        if holds():
            return True
        time.sleep(0.02)
    return False


class Terminal:
    """./kq-log at a terminal, in a folder with a.csv, which has three rows. Its temporary files go into a folder of their own."""

    def __init__(self, test, *words, program=FEEDS, files=(), places=None):
        folder = tempfile.TemporaryDirectory()
        test.addCleanup(folder.cleanup)
        self.path = folder.name
        self.temporary = os.path.join(self.path, "tmp")
        os.mkdir(self.temporary)
        for name, text in (("a.csv", "n,s\n1,x\n2,y\n3,z\n"), *files):
            with open(os.path.join(self.path, name), "w") as file:
                file.write(text)
        # What came and wasn't looked at yet, and all that was looked at.
        self.seen = self.shown = b""
        self.terminal, side = pty.openpty()
        if places:
            fcntl.ioctl(self.terminal, termios.TIOCSWINSZ, struct.pack("HHHH", 40, places, 0, 0))
        environment = {**os.environ, "XDG_STATE_HOME": self.path, "TERM": "dumb", "TMPDIR": self.temporary, "NO_COLOR": "1"}
        environment.pop("COLUMNS", None)
        words = [sys.executable, KQ_LOG, "a.csv", *words, "--program", program]
        # The terminal is that of the process, so that Ctrl-C interrupts it.
        self.process = subprocess.Popen(
            words,
            stdin=side,
            stdout=side,
            stderr=side,
            cwd=self.path,
            env=environment,
            start_new_session=True,
            preexec_fn=lambda: fcntl.ioctl(0, termios.TIOCSCTTY, 0),
        )
        test.addCleanup(self.close)
        os.close(side)

    def until(self, wanted, seconds=PATIENCE):
        """What comes up to a text, and the text. What was read behind it is kept for the next call."""
        end = time.monotonic() + seconds
        while wanted not in self.seen:
            if not select.select([self.terminal], [], [], max(end - time.monotonic(), 0))[0]:
                raise AssertionError(f"{wanted!r} doesn't come behind {self.seen!r}")
            self.seen += os.read(self.terminal, 65536)
        found, self.seen = self.seen.split(wanted, 1)
        self.shown += found + wanted
        return found + wanted

    def type(self, text):
        os.write(self.terminal, text if isinstance(text, bytes) else text.encode())

    def ask(self, text, wanted):
        """Asks a question, and gives what is shown up to a text and the next prompt."""
        self.type(text + "\n\n")
        return self.until(wanted) + self.until(b"kq> ")

    def drop(self):
        """Drops an open question. Python's readline takes an interrupt that comes before it waits for a key only with the next key,
        so Ctrl-C is typed again where nothing comes."""
        for _ in range(PATIENCE):
            self.type(CONTROL_C)
            try:
                return self.until(b"kq> ", 1)
            except AssertionError:
                continue
        raise AssertionError("Ctrl-C doesn't drop the question")

    def put(self, name):
        """Makes an empty file."""
        with open(os.path.join(self.path, name), "w"):
            pass

    def ended(self):
        """The status, once it has ended."""
        return self.process.wait(PATIENCE)

    def word(self, text):
        self.type(text + "\n")
        return self.until(b"kq> ")

    def rest(self):
        """What comes until nobody has the terminal any more."""
        while True:
            try:
                text = os.read(self.terminal, 65536)
            except OSError:
                return self.seen
            if not text:
                return self.seen
            self.seen += text

    def close(self):
        self.process.kill()
        self.process.wait()
        os.close(self.terminal)
