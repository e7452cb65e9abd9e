"""The questions that were typed before, each as a whole, as the arrow keys bring them back."""
import contextlib
import os

from sessions import blocks

try:
    import readline
except ImportError:
    readline = None

MOST = 1000


def place():
    return os.path.join(os.environ.get("XDG_STATE_HOME") or os.path.expanduser("~/.local/state"), "kq-log", "questions.kql")


class History:
    """The questions of a file, which is a script: a blank line stands between two."""

    def __init__(self, path):
        self.path = path
        self.questions = []
        if readline is not None:
            readline.set_auto_history(False)
            self.questions = read(path)[-MOST:]
            for question in self.questions:
                readline.add_history(question)

    def add(self, question):
        """Takes a question, which is in the file at once, whatever ends us."""
        if readline is not None and self.questions[-1:] != [question]:
            self.questions.append(question)
            readline.add_history(question)
            # Without a place for it there is no history, which is no reason to end.
            with contextlib.suppress(OSError):
                self.save()

    def save(self):
        os.makedirs(os.path.dirname(self.path), exist_ok=True)
        new = f"{self.path}.{os.getpid()}"
        # Questions may hold what nobody else is to read.
        with open(os.open(new, os.O_WRONLY | os.O_CREAT | os.O_TRUNC, 0o600), "w", encoding="utf-8", errors="surrogateescape") as file:
            file.write("".join(question + "\n\n" for question in self.questions[-MOST:]))
        os.replace(new, self.path)


def read(path):
    try:
        with open(path, encoding="utf-8", errors="surrogateescape", newline="\n") as file:
            return ["\n".join(block) for block in blocks(file)]
    except OSError:
        return []
