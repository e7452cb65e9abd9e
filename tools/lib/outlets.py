"""Where a script is written. Each command goes out in one piece: whoever is stopped leaves no half of one behind."""
import contextlib
import fcntl
import os
import select
import signal
import stat
import struct
import sys
import termios
import threading

# A command that is no longer than this fits into an empty pipe, whatever the pages that it is copied to hold.
ROOM = 2**20
PAGE = 2**12
# No command begins with this sign, and none goes on behind it.
UNDONE = b"!"
# Linux's F_SETPIPE_SZ and F_GETPIPE_SZ, which Python names from 3.10 on.
SET_SIZE, GET_SIZE = 1031, 1032
SIGNALS = (signal.SIGINT, signal.SIGTERM, signal.SIGHUP)


@contextlib.contextmanager
def undisturbed():
    """Puts off the signals that would end the process between two pieces of one command."""
    if threading.current_thread() is not threading.main_thread():
        yield
        return
    met = []
    before = {number: signal.signal(number, lambda number, _: met.append(number)) for number in SIGNALS}
    try:
        yield
    finally:
        for number, handler in before.items():
            signal.signal(number, handler)
        for number in met:
            os.kill(os.getpid(), number)


def write_all(descriptor, data):
    rest = memoryview(data)
    while rest:
        rest = rest[os.write(descriptor, rest) :]


class Stream:
    """A stream of which nothing more is known, such as a terminal."""

    def __init__(self, stream):
        self.stream = stream
        self.descriptor = stream.fileno()

    def write(self, data):
        with undisturbed():
            write_all(self.descriptor, data)

    def flush(self):
        pass


class Pipe(Stream):
    """A pipe. What fits into an empty one is taken over in a single call, which not even SIGKILL cuts."""

    def __init__(self, stream):
        super().__init__(stream)
        self.room = widened(self.descriptor) - PAGE
        self.poller = select.poll()
        self.poller.register(self.descriptor, 0)

    def write(self, data):
        if len(data) <= self.room:
            self.wait_until_empty()
        super().write(data)

    def wait_until_empty(self):
        while unread(self.descriptor):
            # Without readers this returns at once, and so does the write behind it, with an error.
            if self.poller.poll(1):
                return


class File(Stream):
    """A regular file. A command that isn't whole begins with a sign that no command begins with."""

    def write(self, data):
        place = os.lseek(self.descriptor, 0, os.SEEK_CUR)
        with undisturbed():
            write_all(self.descriptor, UNDONE + data[1:])
            os.pwrite(self.descriptor, data[:1], place)


def widened(descriptor):
    """Makes a pipe as wide as a command, where the system lets us, and gives how wide it is; 0 where the system doesn't say."""
    if not sys.platform.startswith("linux"):
        return 0
    with contextlib.suppress(OSError):
        if fcntl.fcntl(descriptor, GET_SIZE) < ROOM:
            fcntl.fcntl(descriptor, SET_SIZE, ROOM)
    return fcntl.fcntl(descriptor, GET_SIZE)


def unread(descriptor):
    """How many bytes of a pipe nobody has read."""
    return struct.unpack("i", fcntl.ioctl(descriptor, termios.FIONREAD, bytes(4)))[0]


def outlet(out):
    """What writes commands to a stream of bytes in one piece each; the stream itself where it is no file."""
    try:
        descriptor = out.fileno()
    except (AttributeError, OSError):
        return out
    out.flush()
    mode = os.fstat(descriptor).st_mode
    if stat.S_ISFIFO(mode):
        return Pipe(out)
    if stat.S_ISREG(mode) and not fcntl.fcntl(descriptor, fcntl.F_GETFL) & os.O_APPEND:
        return File(out)
    return Stream(out)
