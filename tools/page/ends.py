"""Why the program ended, in the words of docs/RUNNING.md."""
import re
import signal
from pathlib import Path

PAGE = Path(__file__).resolve().parents[2] / "docs" / "RUNNING.md"


def meanings(page=None):
    """What each status means: the rows of the table under `## Status`."""
    if page is None:
        page = PAGE.read_text(encoding="utf-8") if PAGE.exists() else ""
    rows = re.findall(r"^\| (\d+) \| (.*) \|$", page.partition("## Status\n")[2], re.M)
    return {int(status): meaning.replace("`", "") for status, meaning in rows}


def sentence(status):
    """A status as Python gives it, where a negative one is a signal."""
    if status < 0:
        try:
            return f"The program was ended by the signal {signal.Signals(-status).name}."
        except ValueError:
            return f"The program was ended by the signal {-status}."
    meaning = meanings().get(status)
    return f"The program ended with status {status}" + (f": {meaning}." if meaning else ".")
