"""Loads files beside the server: takes the words of ./kq-page, and puts commands and news on standard output, each in a frame.

A frame is a letter, the number of its bytes in four bytes, and these: S is a command, N is news as JSON, T is a line that is told."""
import json
import os
import struct
import sys
import time

HERE = os.path.dirname(os.path.realpath(__file__))
sys.path.insert(0, HERE)
sys.path.insert(1, os.path.join(HERE, "..", "lib"))

from loading import Loading  # noqa: E402
from page_words import read_words  # noqa: E402
from problems import Stopped  # noqa: E402

HEAD = struct.Struct(">cI")
NEWS_EACH = 0.1


class Frames:
    """Writes frames."""

    def __init__(self, out):
        self.out = out

    def put(self, kind, data):
        self.out.write(HEAD.pack(kind, len(data)) + data)
        self.out.flush()

    def tell(self, text):
        self.put(b"T", text.encode("utf-8", "surrogateescape"))

    def news(self, **what):
        self.put(b"N", json.dumps(what).encode())


class Commands:
    """Takes the script as it is written, and hands on each command when its blank line has come."""

    def __init__(self, frames):
        self.frames = frames
        self.open = b""

    def write(self, data):
        *whole, self.open = (self.open + data).split(b"\n\n")
        for command in whole:
            if not command.startswith(b"//"):
                self.frames.put(b"S", command)

    def flush(self):
        pass


class Progress:
    """Tells how far the loading of a file is."""

    def __init__(self, frames):
        self.frames = frames
        self.source = None
        self.next = 0.0

    def begin(self, source):
        self.source, self.next = source, 0.0
        self.advance(0, 0)

    def advance(self, taken, rows):
        if time.monotonic() >= self.next and self.source is not None:
            self.frames.news(file=self.source.name, size=self.source.size, taken=taken)
            self.next = time.monotonic() + NEWS_EACH

    def end(self):
        self.source = None


def main():
    frames = Frames(os.fdopen(os.dup(1), "wb"))
    os.dup2(2, 1)
    options = read_words(sys.argv[1:])
    loading = Loading(options, Commands(frames), frames.tell, Progress(frames))
    try:
        loading.run()
        status = 0
    except Stopped as fault:
        loading.stop(fault)
        status = 1
    except BrokenPipeError:
        return 1
    loading.summary()
    if options.rejects is not None:
        options.rejects.close()
    return status


if __name__ == "__main__":
    sys.exit(main())
