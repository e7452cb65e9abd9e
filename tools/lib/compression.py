"""Compressed data, inflated a piece at a time: gzip, bzip2 and xz by Python's own libraries, zstd by its command."""
import bz2
import lzma
import shutil
import subprocess
import threading
import zlib


class Damaged(Exception):
    """The data ends early or isn't what it says; the text says why."""


class Missing(Exception):
    """What would inflate the data isn't there; the text says what to install."""


class Gzip:
    """One member of a file of gzip, with the calls that bz2 and lzma have."""

    def __init__(self):
        self.inflater = zlib.decompressobj(31)

    def decompress(self, data, most):
        return self.inflater.decompress(self.inflater.unconsumed_tail + data, most)

    @property
    def needs_input(self):
        return not self.inflater.unconsumed_tail

    @property
    def eof(self):
        return self.inflater.eof

    @property
    def unused_data(self):
        return self.inflater.unused_data


MARKS = [
    (b"\x1f\x8b", Gzip),
    (b"BZh", bz2.BZ2Decompressor),
    (b"\xfd7zXZ\0", lzma.LZMADecompressor),
]
ZSTD = b"\x28\xb5\x2f\xfd"
FAULTS = (zlib.error, lzma.LZMAError, OSError, ValueError, EOFError)


def pieces(first, read, most):
    """What data holds that begins with some bytes, the rest of which is read; none where it isn't compressed."""
    for mark, inflater in MARKS:
        if first.startswith(mark):
            return members(inflater, first, read, most)
    if first.startswith(ZSTD):
        command = shutil.which("zstd")
        if command is None:
            raise Missing("is compressed by zstd, and its command isn't there: apt-get install zstd")
        return by_command([command, "-dcq"], first, read, most)
    return None


def members(inflater, data, read, most):
    """What the members hold that stand one behind the other."""
    try:
        while data:
            member = inflater()
            while not member.eof:
                found = member.decompress(data, most)
                data = b""
                if found:
                    yield found
                elif not member.eof and member.needs_input:
                    data = read()
                    if not data:
                        raise Damaged("the end is missing")
            data = (member.unused_data or read()).lstrip(b"\0")
    except FAULTS as fault:
        raise Damaged(str(fault).split(": ")[-1]) from None


def by_command(words, data, read, most):
    """What a command makes of the data, which is given to it beside."""
    with subprocess.Popen(words, stdin=subprocess.PIPE, stdout=subprocess.PIPE, stderr=subprocess.PIPE) as process:

        def give():
            piece = data
            try:
                while piece:
                    process.stdin.write(piece)
                    piece = read()
                process.stdin.close()
            except (OSError, ValueError):
                # Nobody wants the rest.
                pass

        feeder = threading.Thread(target=give, daemon=True)
        feeder.start()
        try:
            while piece := process.stdout.read(most):
                yield piece
            feeder.join()
            told = process.stderr.read().decode(errors="replace").strip()
            if process.wait():
                raise Damaged(told.split(" : ")[-1].strip() or "zstd refuses it")
        finally:
            process.kill()
