"""Progress on standard error, by `rich` where it is a terminal."""
import sys

from widths import visible

try:
    from rich.console import Console
    from rich.markup import escape
    from rich.progress import BarColumn, Progress, TextColumn, TimeRemainingColumn, TransferSpeedColumn
except ImportError:
    Progress = None

MISSING = "for a progress bar: apt-get install python3-rich"


class Quiet:
    """Shows nothing."""

    def begin(self, source):
        pass

    def advance(self, taken, rows):
        pass

    def end(self):
        pass


class Bar:
    """A bar for each file, with rows and bytes a second."""

    def __init__(self):
        self.task = None
        self.bar = Progress(
            TextColumn("{task.description}", markup=False),
            BarColumn(),
            TextColumn("{task.percentage:>3.0f}%"),
            TransferSpeedColumn(),
            TextColumn("{task.fields[rows]:,} rows, {task.fields[rate]:,.0f} rows/s"),
            TimeRemainingColumn(),
            console=Console(stderr=True),
            transient=True,
        )

    def begin(self, source):
        self.bar.start()
        self.task = self.bar.add_task(escape(visible(source.name)), total=source.size, rows=0, rate=0.0)

    def advance(self, taken, rows):
        seconds = self.bar.tasks[self.task].elapsed or 0
        self.bar.update(self.task, completed=taken, rows=rows, rate=rows / seconds if seconds else 0.0)

    def end(self):
        if self.task is not None:
            self.bar.remove_task(self.task)
            self.bar.stop()
            self.task = None


def progress(say):
    """What shows how far the loading is."""
    if not sys.stderr.isatty():
        return Quiet()
    if Progress is None:
        say(MISSING)
        return Quiet()
    return Bar()
