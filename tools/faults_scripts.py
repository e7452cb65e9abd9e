# faults_scripts.py PROGRAM SHIM SCRIPT..: what tools/faults.sh does with scripts of one session, which says it at its head.
import concurrent.futures, dataclasses, os, re, subprocess, sys, tempfile

sys.path.insert(0, os.path.join(os.path.dirname(os.path.realpath(__file__)), "lib"))

import shim  # noqa: E402

MEMORY = "refused Memory"
# The most runs of a script.
RUNS = int(os.environ.get("FAULTS_RUNS", "3000"))


def commands(path):
    with open(path) as script:
        blocks = [block.strip("\n") for block in re.split(r"\n[ \t\r]*\n", script.read()) if block.strip()]
    return [block for block in blocks if not block.startswith("//")]


@dataclasses.dataclass
class Run:
    at: int
    status: int
    replies: list
    rest: str
    calls: int
    reached: bool


def run(program, library, script, at):
    with tempfile.TemporaryDirectory(prefix="faults") as folder:
        shim.put_empty(f"{folder}/told")
        env = shim.environment(library, f"{folder}/told", "allocation", at, 0)
        text = "\n\n".join(script) + "\n"
        ran = subprocess.run([program], input=text.encode(), capture_output=True, cwd=folder, env=env, timeout=120)
        told = shim.read(f"{folder}/told")
    *replies, rest = ran.stdout.decode().split("\n\n")
    return Run(at, ran.returncode, replies, rest, told.calls_of("allocation"), told.failed > 0)


class Expected:
    """What a script is answered where nothing fails and one of its commands, or none, is left out."""

    def __init__(self, program, library, script):
        self.program, self.library, self.script, self.found = program, library, script, {}

    def without(self, number):
        if number not in self.found:
            left = [text for at, text in enumerate(self.script) if at != number]
            self.found[number] = run(self.program, self.library, left, 0).replies
        return self.found[number]


def wrong_in(told, expected):
    """What is wrong in a run in which one allocation was refused, if anything is."""
    refused = [at for at, reply in enumerate(told.replies) if reply == MEMORY]
    if len(refused) > 1:
        return f"the commands {refused} are all refused"
    if told.rest:
        return f"{told.rest!r} is no whole reply"
    due = expected.without(refused[0] if refused else None)
    given = [reply for reply in told.replies if reply != MEMORY]
    if given != due[: len(given)]:
        at = next((at for at, (one, other) in enumerate(zip(given, due)) if one != other), len(due))
        return f"reply {at + 1} is {given[at]!r}, and not {due[at] if at < len(due) else 'none'!r}"
    whole = len(told.replies) == len(expected.script)
    if told.status not in ((0,) if whole and not refused else (1,)) and not (whole and told.status == 1 and told.reached):
        return f"the status is {told.status}"
    return None


def spread(calls):
    """The numbers of the allocations that are refused: each, or as many as there are to be runs, at even distances."""
    return range(1, calls + 1, -(-calls // RUNS))


def tried(program, library, path):
    """Prints what became of a script where one allocation is refused; how many failed, one a run, and how many runs were wrong."""
    script = commands(path)
    whole = run(program, library, script, 0)
    if whole.status != 0 or len(whole.replies) != len(script) or MEMORY in whole.replies:
        sys.exit(f"faults: a run of {path} in which nothing fails is wrong")
    expected, ends, bad = Expected(program, library, script), {}, 0
    with concurrent.futures.ThreadPoolExecutor(os.cpu_count()) as pool:
        for told in pool.map(lambda at: run(program, library, script, at), spread(whole.calls)):
            wrong = wrong_in(told, expected)
            bad += wrong is not None
            if wrong:
                print(f"allocation {told.at}: {wrong}")
            end = "not reached" if not told.reached else "a reply says so" if MEMORY in told.replies else "no reply says so"
            ends[end, told.status] = ends.get((end, told.status), 0) + 1
    print(f"{os.path.basename(path)}: {whole.calls} allocations in a run, of which one is refused:")
    print("".join(f"{count:>8} {end}, status {status}\n" for (end, status), count in sorted(ends.items())), end="")
    return sum(count for (end, _), count in ends.items() if end != "not reached"), bad


def main():
    program, library, *scripts = map(os.path.realpath, sys.argv[1:])
    found = [tried(program, library, path) for path in scripts]
    bad = sum(bad for _, bad in found)
    print(f"faults of scripts: {sum(failed for failed, _ in found)} allocations failed, one a run; {bad} runs were wrong")
    return bad == 0


if __name__ == "__main__":
    sys.exit(0 if main() else 1)
