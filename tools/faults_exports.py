# faults_exports.py PROGRAM SHIM [KIND..]: what tools/faults.sh does with exports, which says it at its head; of all kinds of calls, or of these.
import concurrent.futures, csv, dataclasses, io, os, subprocess, sys, tempfile

sys.path.insert(0, os.path.join(os.path.dirname(os.path.realpath(__file__)), "lib"))

import shim  # noqa: E402

MEMORY, FAULT = "refused Memory", "refused ArtefactFault"
# The most bytes that a write moves, and the status of a program that is ended.
STEP, ENDED = 16, 86
# The calls of an export, and those that may also end the program.
FILES = ["create", "write", "sync", "rename"]
KINDS = FILES + ["allocation"]


def ingest(*keys):
    return ".ingest inline into table E <|\n" + "\n".join(f'{k},"said {k}, and more"' for k in keys)


# Each run of an export is asked for twice, so that one that fails is made good by the next, but for the last.
SCRIPT = [
    ".create table E (k:long, s:string)",
    "#export Each over E { E }",
    "#export Sums over E { E | summarize n = count(), s = sum(k) }",
    ingest(1, 2, 3),
    "#export Each",
    "#export Each",
    ingest(4),
    "#export Sums",
    "#export Sums",
    ingest(5, 6),
    ".create table F (k:long)",
    "#export Each",
    "#export Each",
    ingest(7),
    "#export Sums",
    "#export Each",
]


class Wrong(Exception):
    pass


def want(holds, said):
    if not holds:
        raise Wrong(said)


class Model:
    """What a session's commands are due, and which files its replies name."""

    def __init__(self):
        self.cursor, self.tables, self.records, self.ends = 0, {}, [], {}
        # What is in each file that a reply names, and what would be in each that was begun.
        self.named, self.begun = {}, {}

    def due(self, text):
        """The reply to a command where memory and files are at hand, and what is to be done where it is given."""
        words = text.split()
        if text.startswith(".create"):
            return self.due_table(words[2])
        if text.startswith(".ingest"):
            return self.due_rows(text)
        return self.due_definition(text, words[1]) if " over " in text else self.due_run(words[1])

    def due_table(self, name):
        if name in self.tables:
            return f"kept {self.tables[name]}", lambda: None
        return f"done {self.cursor + 1}", lambda: self.tables.update({name: self.commit()})

    def due_rows(self, text):
        if "E" not in self.tables:
            return f"refused Unknown at {text.index(' E ') + 1}", lambda: None
        keys = [int(line.split(",")[0]) for line in text.split("\n")[1:]]
        return f"ingested {self.cursor + 1} rows {len(keys)}", lambda: self.records.append((self.commit(), keys))

    def due_definition(self, text, name):
        if "E" not in self.tables:
            return f"refused Unknown at {text.index(' over ') + len(' over ')}", lambda: None
        return "exporting", lambda: self.ends.setdefault(name, 0)

    def due_run(self, name):
        if name not in self.ends:
            return "refused Unknown at 8", lambda: None
        if self.ends[name] == self.cursor:
            return "nothing", lambda: None
        file, content, rows = self.file_of(name)
        self.begun[file] = content

        def put():
            self.named[file], self.ends[name] = content, self.cursor

        return f"exported {self.ends[name] + 1} {self.cursor} rows {rows}", put

    def file_of(self, name):
        """The file of an export's next range, what is in it, and its number of rows."""
        keys = [key for cursor, some in self.records if cursor > self.ends[name] for key in some]
        if name == "Each":
            lines = ["k,s"] + [f'{key},"said {key}, and more"' for key in sorted(keys)]
        else:
            lines = ["n,s", f"{len(keys)},{sum(keys)}"]
        file = f"{name}-{self.ends[name] + 1}-{self.cursor}.csv"
        return file, "".join(line + "\n" for line in lines).encode(), len(lines) - 1

    def commit(self):
        self.cursor += 1
        return self.cursor


@dataclasses.dataclass
class Run:
    kind: str
    at: int
    ends: bool
    status: int
    printed: str
    files: dict
    told: shim.Told

    @property
    def reached(self):
        return self.told.failed > 0


def run(program, library, kind, at, ends):
    with tempfile.TemporaryDirectory(prefix="faults") as top:
        folder, told = f"{top}/folder", f"{top}/told"
        os.mkdir(folder)
        shim.put_empty(told)
        env = {**os.environ, **shim.environment(library, told, kind, at, STEP, ENDED if ends else None)}
        script = ("\n\n".join(SCRIPT) + "\n").encode()
        with open(f"{top}/script", "wb") as file:
            file.write(script)
        with open(f"{top}/script", "rb") as stdin, open(f"{top}/printed", "wb") as printed, open(f"{top}/errors", "wb") as errors:
            try:
                status = subprocess.run([program], stdin=stdin, stdout=printed, stderr=errors, cwd=folder, env=env, timeout=60).returncode
            except subprocess.TimeoutExpired:
                status = -1
        files = {entry.name: content(entry.path) for entry in os.scandir(folder)}
        return Run(kind, at, ends, status, content(f"{top}/printed").decode(), files, shim.read(told))


def content(path):
    with open(path, "rb") as file:
        return file.read()


def check_replies(run, model):
    """Follows the replies that were written whole; gives them, what follows them, and the file of the command that has none, where it writes one."""
    *replies, rest = run.printed.split("\n\n")
    want(len(replies) <= len(SCRIPT), "there are more replies than commands")
    for text, reply in zip(SCRIPT, replies):
        due, effect = model.due(text)
        if reply == due:
            effect()
            continue
        said = f"{text!r} is answered {reply!r}, and not {due!r}"
        want(run.reached and not run.ends and reply in (MEMORY, FAULT), said)
        want(run.kind == "allocation" or reply == FAULT, said)
        want(reply == MEMORY or due.startswith("exported"), said)
        want(run.kind == "allocation" or os.path.basename(run.told.path).decode() == list(model.begun)[-1] + ".part", f"{run.told.path} failed: {said}")
    refused = [reply for reply in replies if reply in (MEMORY, FAULT)]
    want(len(refused) <= 1, f"one call failed, and {len(refused)} commands are refused for it")
    unanswered = SCRIPT[len(replies)] if len(replies) < len(SCRIPT) else ""
    due = model.due(unanswered)[0] if unanswered else ""
    return replies, rest, model.file_of(unanswered.split()[1])[0] if due.startswith("exported") else None


def check_status(run, replies, rest):
    answered = len(replies) == len(SCRIPT) and not rest
    said = f"it ends with status {run.status}, and {len(replies)} replies of {len(SCRIPT)}"
    if run.ends and run.reached:
        want(run.status == ENDED, said)
    elif run.kind == "write" and run.reached and run.told.path == b"1":
        want(run.status == 4 and not answered, said)
    elif run.kind == "allocation" and run.reached:
        want(run.status == 1 or answered and run.status == 0 and MEMORY not in replies, said)
    else:
        want(run.status == 0 and answered, said)
        want(not run.reached or FAULT in replies, f"a {run.kind} failed, and no reply says so")


def check_files(run, model, unanswered):
    """The files that replies name are there and whole. Else there is at most the file of a run without its reply, whole too, and beginnings of files."""
    left = dict(run.files)
    for name, wanted in model.named.items():
        want(name in left, f"a reply names {name}, which isn't there")
        want(left.pop(name) == wanted, f"{name} has other bytes than its range gives")
    for name, found in left.items():
        file = name[: -len(".part")] if name.endswith(".part") else name
        want(run.reached and file in model.begun, f"{name} is left")
        if name == file:
            want(name == unanswered, f"{name} is there, and no reply names it")
            want(found == model.begun[name], f"{name} isn't whole")
        else:
            want(model.begun[file].startswith(found), f"{name} is no beginning of {file}")


def check_records(run, model):
    """Each record up to the end of the last range is in just one of the files that replies name."""
    keys = []
    for name in model.named:
        if name.startswith("Each-"):
            keys += [int(row["k"]) for row in csv.DictReader(io.StringIO(run.files[name].decode(), newline=""))]
    wanted = [key for cursor, some in model.records if cursor <= model.ends.get("Each", 0) for key in some]
    want(sorted(keys) == wanted, f"the files have the records {sorted(keys)}, and the ranges {wanted}")
    sums = [run.files[name].decode().split("\n")[1].split(",") for name in model.named if name.startswith("Sums-")]
    wanted = [key for cursor, some in model.records if cursor <= model.ends.get("Sums", 0) for key in some]
    want([sum(int(row[at]) for row in sums) for at in (0, 1)] == [len(wanted), sum(wanted)], "the sums of the files aren't those of the ranges")


def check(run):
    """Whether a run is as it has to be; the kind of its end."""
    model = Model()
    replies, rest, unanswered = check_replies(run, model)
    check_status(run, replies, rest)
    check_files(run, model, unanswered)
    check_records(run, model)
    want(run.told.unsynced == 0, "a file gets its name before it is synced")
    return next((reply for reply in replies if reply in (MEMORY, FAULT)), f"status {run.status}")


def tried(program, library, kind, at, ends):
    found = run(program, library, kind, at, ends)
    try:
        return found, check(found), None
    except Wrong as wrong:
        return found, "wrong", str(wrong)


def main(program, library, *kinds):
    whole, _, wrong = tried(program, library, "none", 0, False)
    if wrong:
        print(f"faults: a run of exports in which nothing fails is wrong: {wrong}")
        return 1
    counts, bad = [], 0
    with concurrent.futures.ThreadPoolExecutor(os.cpu_count()) as pool:
        for kind, ends in [(kind, False) for kind in kinds or KINDS] + [(kind, True) for kind in kinds or FILES]:
            most, found = whole.told.calls_of(kind), {}
            for run, end, wrong in pool.map(lambda at, kind=kind, ends=ends: tried(program, library, kind, at, ends), range(1, most + 1)):
                if wrong:
                    bad += 1
                    print(f"{kind} {run.at}{', at which it ends' if ends else ''}: {wrong}")
                if run.reached:
                    found[end] = found.get(end, 0) + 1
            counts.append(f"{sum(found.values())} {kind}s {'ended it' if ends else 'failed'}")
            print(f"of {most} {kind}s in a run of exports {counts[-1]}:" + "".join(f"\n{count:>8} {end}" for end, count in sorted(found.items())))
    print(f"exports: {', '.join(counts)}, one a run; {bad} runs were wrong")
    return 1 if bad else 0


if __name__ == "__main__":
    sys.exit(main(*(os.path.realpath(path) for path in sys.argv[1:3]), *sys.argv[3:]))
