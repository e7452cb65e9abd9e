"""The program as one process whose sessions are kept open: a block is sent, and its reply is read."""
import contextlib
import ctypes
import itertools
import os
import queue
import re
import secrets
import signal
import subprocess
import sys
import threading

import memory
from feeds import Feeds
from widths import visible_lines

STATUS = re.compile(rb"kq_console: status \d+\n?")
PR_SET_PDEATHSIG = 1


def read_reply(stream, is_wanted=lambda: True):
    """The next reply of a stream of bytes, without its empty line; less where the stream ends before; none at its end.

    A row may be an empty line, so the lines of an answer are counted. The rows of one that isn't wanted aren't kept."""
    first = stream.readline()
    if not first:
        return None
    lines = [first]
    words = first.split()
    count = int(words[1]) + 1 if len(words) == 2 and words[0] == b"rows" and words[1].isdigit() else 0
    for _ in range(count):
        lines.append(stream.readline())
        if not is_wanted():
            del lines[1:]
    stream.readline()
    return b"".join(lines)


def blocks(lines):
    """The blocks of a script, as lists of lines, each as soon as its blank line has come."""
    block = []
    for line in lines:
        if line.strip(" \t\r\n"):
            block.append(line.rstrip("\n"))
        elif block:
            yield block
            block = []
    if block:
        yield block


def is_comment(block):
    return all(line.lstrip(" \t").startswith("//") for line in block)


class Ended(Exception):
    """The program ended before it had answered; the text says how."""


@contextlib.contextmanager
def undisturbed(tell=None):
    """An interrupt that comes within waits for the end, or is only told where there is a call for that. Only the main thread is interrupted."""
    if threading.current_thread() is not threading.main_thread():
        yield
        return
    held = []
    before = signal.signal(signal.SIGINT, (lambda *_: tell()) if tell else (lambda *found: held.append(found)))
    try:
        yield
    finally:
        signal.signal(signal.SIGINT, before)
    if held and callable(before):
        before(signal.SIGINT, None)


class Session:
    """One session of the program. Its replies are read beside, so that the program never waits for a reader."""

    def __init__(self, source, sink, ended):
        self.input = source
        self.output = sink
        self.ended = ended
        self.replies = queue.Queue()
        # How many commands were sent, how many replies have come, and up to which of them nobody wants them.
        self.sent = self.come = self.dropped = 0
        self.is_open = True
        self.left = []
        self.reader = threading.Thread(target=self.read, daemon=True)
        self.reader.start()

    def read(self):
        for number in itertools.count(1):
            reply = read_reply(self.output, lambda: number > self.dropped)
            if reply is None:
                self.is_open = False
            else:
                self.come = number
            self.replies.put((number, reply))
            if reply is None:
                return

    @property
    def is_free(self):
        """Whether it is open, and has answered all that it was sent."""
        return self.is_open and self.come >= self.sent

    def send(self, text):
        with contextlib.suppress(BrokenPipeError):
            self.input.write(text.encode("utf-8", "surrogateescape") + b"\n\n")
            self.input.flush()

    def numbered(self, timeout=None):
        """The next reply with its number, from 1."""
        number, reply = self.replies.get(timeout=timeout)
        if reply is None:
            self.replies.put((number, None))
            raise Ended(self.ended())
        return number, reply.decode("utf-8", "surrogateescape")

    def reply(self):
        """The next reply."""
        return self.numbered()[1]

    def ask(self, text, slow=None, seconds=3):
        """The reply to a command, where all before was answered or left. An interrupt leaves the command: it runs on, and its reply is dropped.

        slow is called where no reply has come after some seconds."""
        is_sent = False
        try:
            with undisturbed():
                self.send(text)
                self.sent += 1
                is_sent = True
            wanted = self.sent
            while True:
                try:
                    number, reply = self.numbered(seconds if slow else None)
                except queue.Empty:
                    slow()
                    slow = None
                    continue
                if number >= wanted:
                    return reply
        except KeyboardInterrupt:
            if is_sent:
                self.dropped = self.sent
                self.left.append((self.sent, text))
            raise

    def greet(self):
        """Asks for a first answer, without which it isn't free: a feed for which there was no thread answers nothing."""
        self.send("print ready = true")
        self.sent += 1
        self.dropped = self.sent

    def late(self):
        """What was left and has been answered since: pairs of the command and the first line of its reply."""
        found, self.left = [pair for pair in self.left if pair[0] <= self.come], [pair for pair in self.left if pair[0] > self.come]
        if not found:
            return []
        replies = {}
        with contextlib.suppress(queue.Empty, Ended):
            while True:
                number, reply = self.numbered(0)
                replies[number] = reply
        return [(text, replies.get(number, "").split("\n")[0]) for number, text in found]

    def replies_so_far(self):
        """The replies to all that was sent. A question of our own, whose answer no other has, marks their end."""
        mark = secrets.token_hex(8)
        self.send(f"print mark = '{mark}'")
        while True:
            number, reply = self.numbered()
            if mark in reply:
                self.sent = number
                return
            yield reply

    def close(self):
        """Ends its input."""
        with contextlib.suppress(BrokenPipeError):
            self.input.close()

    def join(self):
        """Waits for the end of its output, which comes when the program has ended."""
        self.reader.join()
        self.output.close()


def bound_to(parent):
    """What a child does before it becomes the program: it asks the system to be killed when its parent ends, however that ends.

    The system goes by the thread that started the child, so another thread than the main one binds nothing."""
    if not sys.platform.startswith("linux") or threading.current_thread() is not threading.main_thread():
        return None
    # PyDLL doesn't let another thread in, which the child doesn't have.
    prctl = ctypes.PyDLL(None).prctl

    def bind():
        prctl(PR_SET_PDEATHSIG, signal.SIGKILL, 0, 0, 0)
        if os.getppid() != parent:
            os._exit(1)

    return bind


class Program:
    """A running program, with as many feeds beside its standard input as are asked for. It doesn't outlive this process.

    most   how many bytes of memory it gets; all where it isn't said"""

    def __init__(self, words, folder=None, feeds=0, most=None):
        pipes = Feeds(feeds)
        self.is_stopped = False
        try:
            self.start([*words, *pipes.names], folder, most)
            # The program opens all feeds before it answers anything.
            if feeds:
                list(self.first.replies_so_far())
            self.sessions += [Session(source, sink, self.how_ended) for source, sink in pipes.opened()]
            for session in self.sessions[1:]:
                session.greet()
        except BaseException:
            pipes.close()
            self.stop()
            raise

    def start(self, words, folder, most):
        self.sessions = []
        # A session of its own, so that an interrupt of the terminal doesn't end it.
        self.process = subprocess.Popen(
            words,
            stdin=subprocess.PIPE,
            stdout=subprocess.PIPE,
            stderr=subprocess.PIPE,
            start_new_session=True,
            cwd=folder,
            preexec_fn=bound_to(os.getpid()),
        )
        memory.limit(self.process.pid, most)
        self.told = threading.Thread(target=self.tell, daemon=True)
        self.told.start()
        self.first = Session(self.process.stdin, self.process.stdout, self.how_ended)
        self.sessions = [self.first]
        self.input = self.first.input
        self.send, self.reply, self.ask = self.first.send, self.first.reply, self.first.ask
        self.replies_so_far = self.first.replies_so_far

    def tell(self):
        """Hands its standard error on, but for its status: whoever ends it tells that where it matters."""
        for line in self.process.stderr:
            if not self.is_stopped and not STATUS.fullmatch(line):
                sys.stderr.write(visible_lines(line.decode("utf-8", "backslashreplace")))
                sys.stderr.flush()

    def how_ended(self):
        try:
            return f"the program ended with status {self.process.wait(1)}"
        except subprocess.TimeoutExpired:
            return "the program ended this session"

    def free(self):
        """A session that has answered all, of which the first is the last to be taken; none where all are taken."""
        return next((session for session in [*self.sessions[1:], self.first] if session.is_free), None)

    def running(self):
        """The commands that were left and have no reply yet."""
        return [text for session in self.sessions for number, text in session.left if number > session.come]

    def end(self):
        """Ends the input, and gives the program's status. Where a question that was left is still run, the program is killed."""
        if self.running():
            self.stop()
            return 0
        for session in self.sessions:
            session.close()
        status = self.process.wait()
        self.joined()
        return status

    def stop(self):
        """Kills the program where it still runs."""
        if self.is_stopped or not hasattr(self, "process"):
            return
        self.is_stopped = True
        # With it whatever it started, where the program is a script that runs another.
        with contextlib.suppress(ProcessLookupError):
            os.killpg(self.process.pid, signal.SIGKILL)
        self.process.wait()
        for session in self.sessions:
            session.close()
        self.joined()

    def joined(self):
        self.is_stopped = True
        for session in self.sessions:
            session.join()
        self.told.join()
        self.process.stderr.close()
