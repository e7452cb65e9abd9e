"""A program that is asked through its standard input: how long it takes from a text to the end of its answer."""
import subprocess, sys, time


class Asked:
    def __init__(self, words, ended, folder=None):
        """`ended` is asked behind each text; its answer is the line 424242, by which the end of the text's own is known."""
        self.child = subprocess.Popen(words, stdin=subprocess.PIPE, stdout=subprocess.PIPE, cwd=folder)
        self.ended = ended

    def ask(self, text):
        """The seconds that the answer took."""
        begin = time.perf_counter()
        self.child.stdin.write((text + self.ended).encode())
        self.child.stdin.flush()
        for said in self.child.stdout:
            if said == b"424242\n":
                return time.perf_counter() - begin
            if said.startswith(b"refused "):
                sys.exit(f"{said.decode().strip()}: {text[:200]}")
        sys.exit("the other side ended")

    def best(self, text, times):
        """The least of so many answers."""
        return min(self.ask(text) for _ in range(times))

    def end(self):
        self.child.stdin.close()
        self.child.wait()


def engine(program, folder=None):
    return Asked([program], "\n\nprint end = 424242\n\n", folder)


def sqlite():
    return Asked(["sqlite3", ":memory:"], "\nselect 424242;\n")


def postgres(folder):
    return Asked(["psql", "-qAt", "-h", folder, "-U", "bench", "postgres"], "\nselect 424242;\n")
