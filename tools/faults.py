# faults.py PROGRAM SHIM LOG FEED ROUNDS: what tools/faults.sh does, which says it at its head.
import concurrent.futures, dataclasses, os, re, shutil, subprocess, sys, tempfile, time

sys.path.insert(0, os.path.join(os.path.dirname(os.path.realpath(__file__)), "lib"))

import shim  # noqa: E402

PROGRAM, SHIM, LOG, FEED = (os.path.realpath(path) for path in sys.argv[1:5])
ROUNDS = int(sys.argv[5])
# What each kind of commit makes.
COMMITS = {"CreateTable": "table", "SetPolicy": "policy", "CreateView": "view", "Ingest": "rows"}
# What a command makes, and what it leans on, by the word in its text.
MAKES = [
    (r"\.create table (\w+)", "table"),
    (r"\.alter table (\w+) policy", "policy"),
    (r"\.create materialized-view (\w+)", "view"),
    (r"\.ingest inline into table (\w+)", "rows"),
]
LEANS = [
    (r"\.alter table (\w+) policy", "table"),
    (r"\.create materialized-view \w+ on table (\w+)", "table"),
    (r"\.ingest inline into table (\w+)", "table"),
    (r"#fold (\w+)", "view"),
    (r"(Latest) ", "view"),
    (r"(Errors|Raw|Seen) ", "table"),
]
SHOW = ".show journal"
HEADER = "Place:long\tKind:string\tCursor:long\tActor:long\tNumber:long\tEntity:string"
STEP = 40


def commands(path):
    with open(path) as script:
        blocks = [block.strip("\n") for block in re.split(r"\n[ \t\r]*\n", script.read()) if block.strip()]
    return [block for block in blocks if not all(line.lstrip(" \t").startswith("//") for line in block.split("\n"))]


def replies(text):
    """The replies that were written whole, and what follows them."""
    *whole, rest = text.split("\n\n")
    return whole, rest


@dataclasses.dataclass
class Run:
    kind: str
    at: int
    status: int
    outputs: list  # of the main script, of the feed, and of the session that looks at the journal
    reached: bool
    path: str
    told: shim.Told


def run(kind, at, step):
    folder = tempfile.mkdtemp(prefix="faults")
    try:
        return run_in(folder, kind, at, step)
    finally:
        shutil.rmtree(folder)


def run_in(folder, kind, at, step):
    shutil.copy(FEED, f"{folder}/feed.kql")
    with open(LOG) as log, open(f"{folder}/main", "w") as main:
        main.write(log.read().rstrip("\n") + f"\n\n{SHOW}\n")
    shim.put_empty(f"{folder}/told")
    # The third session waits for its first byte until the others have ended.
    os.mkfifo(f"{folder}/journal")
    last = os.open(f"{folder}/journal", os.O_RDWR)
    outputs = [f"{folder}/printed", f"{folder}/feed.kql.out", f"{folder}/journal.out"]
    wanted = [len(commands(f"{folder}/main")), len(commands(FEED))]
    env = shim.environment(SHIM, f"{folder}/told", kind, at, step)
    with open(f"{folder}/main") as main, open(outputs[0], "wb") as printed, open(f"{folder}/errors", "wb") as errors:
        child = subprocess.Popen(
            [PROGRAM, "--workers", "2", "feed.kql", "journal"], stdin=main, stdout=printed, stderr=errors, cwd=folder, env=env
        )
        wait_for(child, outputs[:2], wanted)
        os.write(last, f"{SHOW}\n\n{SHOW}\n\n{SHOW}\n".encode())
        os.close(last)
        try:
            status = child.wait(60)
        except subprocess.TimeoutExpired:
            child.kill()
            child.wait()
            status = -1
    told = shim.read(f"{folder}/told")
    path = os.path.basename(told.path.decode())
    return Run(kind, at, status, [content(output) for output in outputs], told.failed > 0, path, told)


def content(path):
    if not os.path.exists(path):
        return ""
    with open(path, "rb") as file:
        return file.read().decode()


def wait_for(child, outputs, wanted):
    """Waits until both sessions have written all their replies, or nothing moves for a while."""
    before, moved = None, time.monotonic()
    while child.poll() is None and time.monotonic() - moved < 0.25:
        written = [content(output).count("\n\n") for output in outputs]
        if written == wanted:
            return
        if written != before:
            before, moved = written, time.monotonic()
        time.sleep(0.001)


class Wrong(Exception):
    pass


def want(holds, said):
    if not holds:
        raise Wrong(said)


REFUSED = "refused Memory"


def commit_of(journal, actor, number):
    return next((row for row in journal if (row.actor, row.number) == (actor, number) and row.kind in COMMITS), None)


def made_by(text):
    """What a command makes, or None where it makes no commit."""
    for form, kind in MAKES:
        found = re.match(form, text)
        if found:
            return f"{kind} {found[1]}"
    return None


class Session:
    """What is due to the commands of one session, by what its commits came to."""

    def __init__(self, actor, commands):
        self.actor, self.commands, self.stood = actor, commands, set()

    def due(self, number, journal, whole):
        """The form of the replies that a command of this number can have, want of memory aside."""
        text = self.commands[number - 1]
        row = commit_of(journal, self.actor, number)
        words = text.split()
        if text == SHOW:
            return r"rows \d+\n" + re.escape(HEADER) + r"(\n.*)*"
        if words[0] == "print":
            return "rows 1\nprint_0:string\nfeed"
        refused = self.refused(text)
        if refused:
            return refused
        if made_by(text):
            # A cursor that the journal doesn't tell is any where the journal was shown too early.
            cursor = row.cursor if row else "of no commit" if whole else r"\d+"
            return f"ingested {cursor} rows {text.count(chr(10))}" if "<|" in text else f"done {cursor}"
        if words[0] == "#fold":
            return r"folded \d+"
        return re.escape(self.answer(text))

    def refused(self, text):
        """The refusal of a command that leans on what was refused before it."""
        for form, kind in LEANS:
            found = re.match(form, text)
            if found and f"{kind} {found[1]}" not in self.stood:
                return f"refused Unknown at {found.start(1)}"
        if text.startswith(".alter table Errors policy") and "table Raw" not in self.stood:
            return "refused BadPolicy entry 0 Source"
        return None

    def answer(self, text):
        header, lines = ANSWERS[text]
        ingested = "rows Raw" in self.stood
        if text.startswith("Errors"):
            ingested = "rows Errors" in self.stood
        if text.startswith("Latest"):
            ingested = "rows Latest" in self.stood
        if text.endswith("| count"):
            return "rows 1\nCount:long\n" + ("1" if "rows Seen" in self.stood else "0")
        lines = lines if ingested else []
        return "\n".join([f"rows {len(lines)}", header, *lines])

    def note(self, text, reply):
        made = made_by(text)
        if made and not reply.startswith("refused"):
            self.stood.add(made)
            if made == "rows Raw":
                # What stood when the batch came.
                self.stood |= {f"rows {name}" for kind, name in (("policy", "Errors"), ("view", "Latest")) if f"{kind} {name}" in self.stood}


ANSWERS = {
    "Latest | project Device, Timestamp, Level": (
        "Device:string\tTimestamp:datetime\tLevel:string",
        ["d1\t2024-03-01T11:10:00.0000000Z\terror", "d2\t2024-03-01T10:50:00.0000000Z\terror"],
    ),
    "Errors | sort by Timestamp asc": (
        "Timestamp:datetime\tDevice:string\tMessage:string",
        ["2024-03-01T10:50:00.0000000Z\td2\tdoor open", "2024-03-01T11:10:00.0000000Z\td1\ttoo hot"],
    ),
    "Raw | mv-expand t = Payload.tags to typeof(string) | where isnotempty(t) | summarize n = count() by t": (
        "t:string\tn:long",
        ["a\t1", "b\t2"],
    ),
    "Raw | summarize n = count() by Hour = bin(Timestamp, 1h)": (
        "Hour:datetime\tn:long",
        ["2024-03-01T10:00:00.0000000Z\t2", "2024-03-01T11:00:00.0000000Z\t1"],
    ),
    "Seen | count": ("Count:long", []),
}


@dataclasses.dataclass
class Event:
    place: int
    kind: str
    cursor: int
    actor: int
    number: int
    entity: str


def events(reply):
    """The events of a journal that is shown."""
    first, header, *lines = reply.split("\n")
    want(header == HEADER and first == f"rows {len(lines)}", "a journal is shown in another form")
    cells = [line.split("\t") for line in lines]
    rows = [Event(int(c[0]), c[1], int(c[2]), int(c[3]), int(c[4]), c[5]) for c in cells]
    return sorted(rows, key=lambda row: row.place)


def shown(run):
    """The last journal that the third session was shown, else that which the main script was shown at its end, else none; and whether it is the whole one."""
    for output, whole in ((run.outputs[2], True), (run.outputs[0], False)):
        for reply in reversed(replies(output)[0]):
            if HEADER in reply:
                return events(reply), whole
    return [], False


def check_journal(journal):
    want([row.place for row in journal] == list(range(1, len(journal) + 1)), "the places of the journal have gaps")
    commits = [row for row in journal if row.kind in COMMITS]
    want([row.cursor for row in commits] == list(range(1, len(commits) + 1)), "the cursors of the journal have gaps")
    want(all(row.actor in (0, 1) for row in commits), "another actor made a commit")
    want(len({(row.actor, row.number) for row in commits}) == len(commits), "a command made two commits")
    want(all(row.actor in (0, 8, 9) and row.kind in ("Fold", "Merge") for row in journal if row.kind not in COMMITS), "an event is of no kind")
    return commits


def check_session(run, actor, script, journal, whole):
    """Whether what a session wrote is due. Gives its status, and the numbers of the commits whose replies it wrote."""
    session, (written, rest) = Session(actor, script), replies(run.outputs[actor])
    want(len(written) <= len(script), f"session {actor} has more replies than commands")
    told = set()
    for number, reply in enumerate(written, 1):
        text = script[number - 1]
        if reply != REFUSED:
            form = session.due(number, journal, whole)
            want(re.fullmatch(form, reply), f"session {actor}: command {number} is answered {reply!r}, and not {form!r}")
        session.note(text, reply)
        if made_by(text) and not reply.startswith("refused"):
            told.add(number)
            row = commit_of(journal, actor, number)
            want(not row or f"{COMMITS[row.kind]} {row.entity}" == made_by(text), f"session {actor}: the commit of command {number} is another")
    if rest:
        want(run.kind == "write" and run.reached, f"session {actor}: {rest!r} is no whole reply")
        form = session.due(len(written) + 1, journal, whole)
        want("\\" in form or form.startswith(rest.rstrip("\n")), f"session {actor}: {rest!r} begins no reply that is due")
    answered = len(written) == len(script) and not rest
    return 1 if REFUSED in written or not answered else 0, told, len(written)


def check(run, scripts):
    """Whether a run is as it has to be; the kind of its end."""
    nothing = all(output == "" for output in run.outputs)
    if nothing and run.status == 1:
        want(run.kind == "allocation" and run.reached, "there is no catalogue")
        return "no catalogue"
    journal, whole = shown(run)
    commits = check_journal(journal)
    statuses = []
    for actor, script in enumerate(scripts[:2]):
        status, told, written = check_session(run, actor, script, journal, whole)
        own = {row.number for row in commits if row.actor == actor}
        lost = {number for number in own if number > written}
        if journal:
            want(own - lost == told or (not whole and own - lost <= told), f"session {actor}: the replies tell of the commits {told}, and the journal of {own}")
        # A commit without its reply stands only where the reply's write failed.
        want(not lost or (run.kind == "write" and lost == {written + 1}), f"session {actor}: the commits {lost} have no replies")
        statuses.append(status)
    journal_replies = replies(run.outputs[2])[0]
    want(all(reply == REFUSED or HEADER in reply for reply in journal_replies), "the third session is answered otherwise")
    statuses.append(0 if len(journal_replies) == 3 and REFUSED not in journal_replies else 1)
    names = {"read": ["main", "feed.kql", "journal"], "write": ["printed", "feed.kql.out", "journal.out"]}
    if run.kind != "allocation" and run.reached:
        own = {"0": 0, "1": 0}.get(run.path, names[run.kind].index(run.path) if run.path in names[run.kind] else None)
        want(own is not None, f"a {run.kind} of {run.path!r} failed")
        want(all(status == 0 for actor, status in enumerate(statuses) if actor != own), f"another session than {own} is troubled: {statuses}")
        statuses[own] = {"read": 3, "write": 4}[run.kind]
    first = next((status for status in statuses if status), 0)
    if run.kind == "allocation" and run.reached and first == 0 and run.status == 1:
        return "status 1 where a session had answered all and found no room to go on"
    want(run.status == first, f"the status is {run.status}, and the sessions' are {statuses}")
    if not journal:
        return "journal not seen"
    return f"status {run.status}" if whole else "journal seen by the main script alone"


def tried(kind, at, step, scripts):
    told = run(kind, at, step)
    try:
        return told, check(told, scripts), None
    except Wrong as wrong:
        return told, "wrong", str(wrong)


def main():
    scripts = [commands(LOG) + [SHOW], commands(FEED)]
    whole = {step: [tried("none", 0, step, scripts) for _ in range(10)] for step in (0, STEP)}
    for told, _, wrong in whole[0] + whole[STEP]:
        if wrong or told.status != 0:
            sys.exit(f"faults: a run in which nothing fails is wrong: status {told.status}, {wrong}")
    counts, bad = {}, 0
    with concurrent.futures.ThreadPoolExecutor(os.cpu_count()) as pool:
        for kind, step in (("allocation", 0), ("read", STEP), ("write", STEP)):
            most = max(run.told.calls_of(kind) for run, _, _ in whole[step])
            numbers = [at for at in range(1, most + 1) for _ in range(ROUNDS)]
            ends = {}
            for told, end, wrong in pool.map(lambda at: tried(kind, at, step, scripts), numbers):
                if wrong:
                    bad += 1
                    print(f"{kind} {told.at}: {wrong}")
                if told.reached:
                    ends[end] = ends.get(end, 0) + 1
            counts[kind] = sum(ends.values())
            print(f"{most} {kind}s in a run, each failing in {ROUNDS} runs; {counts[kind]} failed:")
            print("".join(f"{count:>8} {end}\n" for end, count in sorted(ends.items())), end="")
    print(f"faults: {counts['allocation']} allocations, {counts['read']} reads and {counts['write']} writes failed, one a run; {bad} runs were wrong")
    return bad == 0


if __name__ == "__main__":
    sys.exit(0 if main() else 1)
