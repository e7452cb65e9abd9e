"""The one process of the program behind all pages. Commands wait their turn, questions before batches, and one is answered at a time."""
import concurrent.futures
import enum
import itertools
import queue
import threading
import time
from dataclasses import dataclass, field

import ends
from sessions import Ended, Program


# How often an idle program is looked at, in seconds: it may have been ended.
LOOK_EACH = 0.5


class Turn(enum.IntEnum):
    """Who goes first where several wait."""

    QUESTION = 0
    CATALOGUE = 1
    BATCH = 2
    END = 3


@dataclass(order=True)
class Waiting:
    """A command that waits or is being answered."""

    turn: Turn
    number: int
    text: str = field(compare=False)
    reply: concurrent.futures.Future = field(compare=False)


def is_whole(reply):
    """Whether a reply came to its end. The program may be ended in the middle of one."""
    if not reply.endswith("\n"):
        return False
    first, _, rest = reply.partition("\n")
    words = first.split(" ")
    if len(words) == 2 and words[0] == "rows" and words[1].isdigit():
        return rest.count("\n") == int(words[1]) + 1
    return True


class Engine:
    """A running program. `changed` is called, from a thread of the engine, whenever what it does is another."""

    def __init__(self, words, changed):
        self.program = Program(words)
        self.changed = changed
        self.waiting = queue.PriorityQueue()
        self.numbers = itertools.count()
        self.lock = threading.Lock()
        self.busy = None
        self.since = 0.0
        self.ended = None
        self.thread = threading.Thread(target=self.run, daemon=True)
        self.thread.start()

    def ask(self, text, turn=Turn.QUESTION):
        """Puts a command in the line. Its reply comes into the `reply` of what is given back."""
        command = Waiting(turn, next(self.numbers), text, concurrent.futures.Future())
        with self.lock:
            if self.ended is None:
                self.waiting.put(command)
                return command
        command.reply.set_exception(Ended(self.ended))
        return command

    def run(self):
        while True:
            try:
                command = self.waiting.get(timeout=LOOK_EACH)
            except queue.Empty:
                if self.program.process.poll() is None:
                    continue
                self.stop(None)
                return
            if command.turn is Turn.END:
                return
            if not command.reply.set_running_or_notify_cancel():
                continue
            self.begin(command)
            try:
                reply = self.program.ask(command.text)
                if not is_whole(reply):
                    self.program.reply()
            except Ended:
                self.stop(command)
                return
            finally:
                self.begin(None)
            command.reply.set_result(reply)

    def begin(self, command):
        self.busy, self.since = command, time.monotonic()
        self.changed()

    def stop(self, command):
        """The program has ended: nothing that waits is answered."""
        status = self.program.end()
        with self.lock:
            self.ended = ends.sentence(status)
        if command is not None:
            command.reply.set_exception(Ended(self.ended))
        while not self.waiting.empty():
            left = self.waiting.get()
            if left.turn is not Turn.END and left.reply.set_running_or_notify_cancel():
                left.reply.set_exception(Ended(self.ended))
        self.changed()

    def state(self):
        """What pages are told: the question that is being answered, its seconds, and how many wait."""
        command = self.busy
        shown = command is not None and command.turn is Turn.QUESTION
        return {
            "busy": command.text[:200] if shown else None,
            "loads": command is not None and command.turn is Turn.BATCH,
            "seconds": round(time.monotonic() - self.since, 1) if shown else 0,
            "waiting": self.waiting.qsize(),
            "ended": self.ended,
        }

    def close(self):
        """Ends the program, whatever it does."""
        self.waiting.put(Waiting(Turn.END, next(self.numbers), "", concurrent.futures.Future()))
        self.program.process.kill()
        self.thread.join()
        if self.ended is None:
            self.program.end()
