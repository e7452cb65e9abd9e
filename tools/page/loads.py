"""Loading the files into the program, by a process beside, while questions are asked."""
import json
import os
import subprocess
import sys
import threading
import time

from engine import Turn
from load_files import HEAD
from names import counted
from sessions import Ended, blocks, is_comment
from widths import visible

LOADER = os.path.join(os.path.dirname(os.path.realpath(__file__)), "load_files.py")
# The next batch is made and sent while the program takes this one.
AHEAD = 2
MOST_TOLD = 200


class Loads:
    """One loading of all files. `changed` is called whenever there is news."""

    def __init__(self, options, words, engine, changed, said=None):
        self.options, self.words, self.engine = options, words, engine
        self.changed = changed
        self.said = said or (lambda block, reply: None)
        self.process = None
        self.news = {}
        self.rows = self.skipped = 0
        self.told = []
        self.sent = []
        self.began, self.seconds = time.monotonic(), None
        self.status = None
        self.thread = threading.Thread(target=self.run, daemon=True)

    def start(self):
        self.thread.start()

    def state(self):
        """What pages are told."""
        seconds = time.monotonic() - self.began if self.seconds is None else self.seconds
        return {
            **self.news,
            "rows": self.rows,
            "seconds": round(seconds, 1),
            "files": [visible(os.path.basename(path)) for path in self.options.files],
            "told": self.told[-MOST_TOLD:],
            "done": self.status is not None,
            "failed": bool(self.status),
        }

    def tell(self, text):
        self.told.append(visible(text))
        self.changed()

    def run(self):
        try:
            self.first()
            status = self.load()
        except Ended:
            self.tell("the loading stopped, since the program ended")
            status = 1
        except OSError as fault:
            self.tell(f"the loading stopped: {fault}")
            status = 1
        finally:
            self.close()
        self.seconds = time.monotonic() - self.began
        before = f", and {counted(self.skipped, 'batch')} had gone in before" if self.skipped else ""
        self.told.append(visible(f"{self.options.into}: {counted(self.rows, 'row')} went in{before}"))
        self.status = status
        self.changed()

    def first(self):
        """The script before the files."""
        if not self.options.first:
            return
        with open(self.options.first, encoding="utf-8", errors="surrogateescape", newline="\n") as script:
            for block in blocks(script):
                if not is_comment(block):
                    text = "\n".join(block)
                    reply = self.engine.ask(text, Turn.BATCH).reply.result()
                    self.said(text, reply)
                    if reply.startswith("refused "):
                        self.tell(f"{self.options.first}: {reply.strip()}: {block[0][:100]}")

    def load(self):
        """Reads the frames of the loader, and gives its status."""
        self.process = subprocess.Popen([sys.executable, LOADER, *self.words], stdout=subprocess.PIPE, stdin=subprocess.DEVNULL, start_new_session=True)
        stream = self.process.stdout
        while True:
            head = stream.read(HEAD.size)
            if len(head) < HEAD.size:
                break
            kind, size = HEAD.unpack(head)
            data = stream.read(size)
            if len(data) < size:
                break
            self.take(kind, data)
        while self.sent:
            self.answered()
        return self.process.wait()

    def take(self, kind, data):
        text = data.decode("utf-8", "surrogateescape")
        if kind == b"S":
            command = self.engine.ask(text, Turn.BATCH)
            command.reply.add_done_callback(self.count)
            self.sent.append(command)
            if len(self.sent) >= AHEAD:
                self.answered()
        elif kind == b"T":
            self.tell(text)
        else:
            self.news = json.loads(text)
            self.news["file"] = visible(self.news["file"])
            self.changed()

    def answered(self):
        """Waits for the reply to the oldest batch that was sent."""
        self.sent.pop(0).reply.result()

    def count(self, future):
        """Takes the reply to a batch as soon as it has come."""
        if future.cancelled() or future.exception():
            return
        reply = future.result()
        words = reply.split()
        if words[0] == "ingested":
            self.rows += int(words[3])
        elif words[0] == "skipped":
            self.skipped += 1
        elif words[0] not in ("done", "kept"):
            self.tell(reply.strip())
        self.changed()

    def close_soon(self):
        """Has the loader end where it runs; the thread sees to the rest."""
        if self.process is not None:
            self.process.kill()

    def close(self):
        if self.process is not None:
            self.process.kill()
            self.process.wait()
            self.process.stdout.close()
