"""What becomes of records that can't be given as they stand: the kinds, what can be chosen for each, and their counts."""
import collections

# Each kind: what it is, and the choices, of which the first is the default.
KINDS = {
    "blank": ("a blank line within a cell", ("space", "stop", "reject")),
    "utf8": ("text that isn't UTF-8", ("stop", "replace", "latin1", "reject")),
    "datetime": ("a datetime of a form that isn't read", ("stop", "null", "reject")),
    "cell": ("a cell that has no form of its column's type", ("stop", "null", "reject")),
    "number": ("a number within a dynamic with a fraction or an exponent, or outside 64 bits", ("stop", "string", "text", "reject")),
    "deep": ("a dynamic nested deeper than 127 levels", ("stop", "text", "reject")),
    "json": ("a cell of a dynamic column that begins as an object or array and is no JSON", ("stop", "text", "reject")),
    "extra": ("a member or field that no column has", ("stop", "drop", "reject")),
    "line": ("a line that isn't of the format", ("stop", "reject")),
    "quote": ("a quote that isn't closed, or stands out of place", ("stop", "reject")),
    "short": ("a record with fewer cells than columns", ("fill", "stop", "reject")),
    "wide": ("a record with more cells than columns", ("stop", "cut", "reject")),
    "long": ("a record over 16 MiB, the most that a command has", ("stop", "reject")),
    "truncated": ("compressed data that ends early", ("stop", "keep")),
}
MEANINGS = {
    "space": "made one space",
    "replace": "given U+FFFD for each byte that is no UTF-8",
    "latin1": "read as Latin-1",
    "null": "made null",
    "string": "made strings within the dynamic",
    "text": "kept as one string",
    "drop": "left out",
    "fill": "filled up with nulls",
    "cut": "cut to the columns",
    "keep": "read up to the last whole line",
    "reject": "rejected",
}


class Stopped(Exception):
    """Loading can't go on; the text says where and why."""


class Problems:
    """Counts what is met, and says what becomes of it."""

    def __init__(self, choices=None, rejects=None, going_on=False):
        self.choices = {kind: offered[0] for kind, (_, offered) in KINDS.items()}
        if rejects is not None or going_on:
            self.choices.update((kind, "reject") for kind, (_, offered) in KINDS.items() if offered[0] == "stop" and "reject" in offered)
        if going_on:
            self.choices.update(truncated="keep")
        self.choices.update(choices or {})
        self.rejects = rejects
        self.counts = collections.Counter()
        self.first = {}
        self.hints = {}

    def meet(self, kind, place, why, others=None):
        """What becomes of something of this kind at a place. `others` are the choices that lead on, where these aren't all of the kind."""
        choice = self.choices[kind]
        if choice == "stop":
            raise Stopped(" ".join(filter(None, (f"{place}: {why}.", hint(kind, others)))))
        self.counts[kind, choice] += 1
        if (kind, choice) not in self.first:
            self.first[kind, choice] = f"{place}: {why}"
            self.hints[kind, choice] = otherwise(kind, choice, others)
        return choice

    def reject(self, raw):
        self.rejects.write(raw)

    def told(self):
        """A line for each kind that was met."""
        for (kind, choice), count in sorted(self.counts.items()):
            yield f"{kind}: {count:,} {MEANINGS[choice]}; the first: {self.first[kind, choice]}{self.hints[kind, choice]}"


def hint(kind, others=None):
    """The words by which a loading goes on that stopped."""
    ways = [f"--on {kind}={choice}" for choice in (KINDS[kind][1] if others is None else others) if choice not in ("stop", "reject")]
    if "reject" in KINDS[kind][1]:
        ways.append("--rejects FILE")
    return "To go on: " + " or ".join(ways) if ways else ""


def otherwise(kind, choice, others=None):
    """The words by which rejected records would go in, where there are any."""
    ways = [f"--on {kind}={other}" for other in (KINDS[kind][1] if others is None else others) if other not in ("stop", "reject", choice)]
    return f"; to take them: {' or '.join(ways)}" if choice == "reject" and ways else ""


def choices_of(words, rejects):
    """The choices that words such as `utf8=replace` make; a ValueError says what is wrong with one.

    `stop` and `reject` alone stand for all kinds that have the choice."""
    choices = {}
    for word in words:
        kind, _, choice = word.partition("=")
        if word in ("stop", "reject"):
            choices.update((each, word) for each, (_, offered) in KINDS.items() if offered[0] == "stop" and word in offered)
            kind, choice = "", word
        elif kind not in KINDS:
            raise ValueError(f"there is no kind {kind}; the kinds are {', '.join(KINDS)}")
        elif choice not in KINDS[kind][1]:
            raise ValueError(f"{kind} may become {', '.join(KINDS[kind][1])}, and not {choice or 'nothing'}")
        if choice == "reject" and rejects is None:
            raise ValueError(f"--on {word} needs --rejects FILE")
        choices.update({kind: choice} if kind else {})
    return choices
