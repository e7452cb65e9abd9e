"""What a script asks for, command by command, and whether the program's replies say that it was done."""
import dataclasses
import re

from names import counted

INGESTED = re.compile(r"ingested [0-9]+ rows ([0-9]+)\n?")


@dataclasses.dataclass(frozen=True)
class Sent:
    """A command that has a reply: what it is, and of a batch also its file, its number, its tag and how many rows it has."""

    what: str  # "table", "column" or "batch"
    source: str = ""
    number: int = 0
    tag: str = ""
    rows: int = 0

    def __str__(self):
        return f"{self.source}: batch {self.number}" if self.what == "batch" else f"the command for the {self.what} {self.source}"


@dataclasses.dataclass
class Tally:
    """What the replies say: rows that went in, batches that were there before, refusals, and what differs from what was sent."""

    rows: int = 0
    skipped: int = 0
    refused: list = dataclasses.field(default_factory=list)
    differences: list = dataclasses.field(default_factory=list)


def compared(sent, replies):
    """Holds each reply against the command that it is for."""
    tally, replies = Tally(), list(replies)
    for command, reply in zip(sent, replies):
        if reply.startswith("refused"):
            tally.refused.append(reply)
            tally.differences.append(
                f"{command} was refused: none of its {counted(command.rows, 'row')} went in" if command.rows else f"{command} was refused"
            )
        elif command.what != "batch":
            if not reply.startswith(("done", "kept")):
                tally.differences.append(f"{command} was answered with {reply.split(chr(10))[0]!r}")
        elif reply.startswith("skipped"):
            tally.skipped += 1
        else:
            take(tally, command, reply)
    if len(replies) != len(sent):
        tally.differences.append(f"{counted(len(sent), 'command')} went out, and {counted(len(replies), 'reply')} came back")
    return tally


def take(tally, batch, reply):
    """Counts the rows of a batch that went in."""
    found = INGESTED.fullmatch(reply)
    if found is None:
        tally.differences.append(f"{batch} was answered with {reply.split(chr(10))[0]!r}")
        return
    rows = int(found[1])
    tally.rows += rows
    if rows != batch.rows:
        tally.differences.append(f"{batch}: {counted(batch.rows, 'row')} went out, and {rows:,} went in (tag {batch.tag})")
