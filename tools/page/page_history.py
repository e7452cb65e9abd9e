"""The questions that were asked, in a file that outlives the page and the program."""
import datetime
import json
import os

MOST = 5000


def place():
    state = os.environ.get("XDG_STATE_HOME") or os.path.expanduser("~/.local/state")
    return os.path.join(state, "kq-page", "history.jsonl")


class History:
    """Each line of the file is an object with a question, when it was asked, and the first line of its reply."""

    def __init__(self, path):
        self.path = path
        self.entries = []
        if os.path.exists(path):
            with open(path, encoding="utf-8") as file:
                self.entries = list(filter(None, map(entry, file)))
        if len(self.entries) > MOST:
            self.entries = self.entries[-MOST:]
            self.write("w", self.entries)

    def add(self, text, reply):
        """Keeps a question. One that is asked again right away moves to the end."""
        found = {"text": text, "reply": reply, "when": datetime.datetime.now().isoformat(timespec="seconds")}
        if self.entries and self.entries[-1]["text"] == text:
            self.entries.pop()
        self.entries.append(found)
        self.write("a", [found])

    def write(self, mode, entries):
        os.makedirs(os.path.dirname(self.path), mode=0o700, exist_ok=True)
        flags = os.O_WRONLY | os.O_CREAT | (os.O_APPEND if mode == "a" else os.O_TRUNC)
        with open(os.open(self.path, flags, 0o600), mode, encoding="utf-8") as file:
            file.write("".join(json.dumps(one) + "\n" for one in entries))

    def latest(self, count=500):
        """The last questions, the newest first, each once."""
        found = {}
        for one in reversed(self.entries):
            found.setdefault(one["text"], one)
            if len(found) == count:
                break
        return list(found.values())


def entry(line):
    """What a line holds, or none where it isn't of the form."""
    try:
        found = json.loads(line)
    except ValueError:
        return None
    is_one = isinstance(found, dict) and all(isinstance(found.get(name), str) for name in ("text", "reply", "when"))
    return found if is_one else None
