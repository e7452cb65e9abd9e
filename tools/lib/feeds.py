"""Feeds of the program (docs/RUNNING.md) that are pipes: a session can be asked through each while the program runs."""
import os
import shutil
import tempfile

MOST = 7


class Feeds:
    """Named pipes in a folder of our own. Once the program has opened them the folder is gone, so that nothing is left behind whatever ends us."""

    def __init__(self, count):
        self.folder = tempfile.mkdtemp(prefix="kq-log-") if count else None
        self.names = [os.path.join(self.folder, f"feed{number}") for number in range(1, count + 1)]
        self.readers, self.inputs, self.outputs = [], [], []
        try:
            for name in self.names:
                self.make(name)
        except OSError:
            self.close()
            raise

    def make(self, name):
        """Makes both pipes, and opens their other ends, so that the program's opening doesn't wait."""
        os.mkfifo(name, 0o600)
        os.mkfifo(name + ".out", 0o600)
        # A pipe can be opened for writing only where somebody reads it.
        self.readers.append(os.open(name, os.O_RDONLY | os.O_NONBLOCK))
        self.inputs.append(os.open(name, os.O_WRONLY))
        self.outputs.append(os.open(name + ".out", os.O_RDONLY | os.O_NONBLOCK))

    def opened(self):
        """A stream to write and one to read for each feed. It is called when the program has answered: by then it has opened all."""
        for output in self.outputs:
            os.set_blocking(output, True)
        found = [(open(source, "wb"), open(output, "rb")) for source, output in zip(self.inputs, self.outputs)]
        self.inputs, self.outputs = [], []
        self.close()
        return found

    def close(self):
        for end in self.readers + self.inputs + self.outputs:
            os.close(end)
        self.readers, self.inputs, self.outputs = [], [], []
        if self.folder is not None:
            shutil.rmtree(self.folder, ignore_errors=True)
            self.folder = None
