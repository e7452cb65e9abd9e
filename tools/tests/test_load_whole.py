"""A load that is stopped at any moment leaves whole commands behind. Where there is a program, it then has each record once.

`python3 tools/tests/test_load_whole.py 200` stops as many loads and says how many left half of a command."""
import os
import random
import signal
import subprocess
import sys
import tempfile
import time
import unittest

from load_runs import PROGRAM, TOP

from outlets import outlet

LOAD = [sys.executable, os.path.join(TOP, "tools", "load"), "--into", "T"]
ROWS = 60_000
SIGNALS = (signal.SIGINT, signal.SIGTERM, signal.SIGKILL)
# A reader that takes a little at a time, so that the pipe is full most of the time.
SLOW = "import os, sys, time\nwhile True:\n    piece = os.read(0, 50_000)\n    if not piece: break\n    sys.stdout.buffer.write(piece); time.sleep(0.002)"


def put_log(folder, rows):
    path = os.path.join(folder, "a.csv")
    with open(path, "w") as file:
        file.write("n,s\n" + "".join(f"{i},text of row {i} that is neither short nor long\n" for i in range(rows)))
    return path


def script_of(path):
    return subprocess.run([*LOAD, path], stdout=subprocess.PIPE, stderr=subprocess.DEVNULL, check=True).stdout


def piped(path, number, seconds):
    """What a slow reader gets of a load that a signal ends after some time, and of the command behind it."""
    read, write = os.pipe()
    with tempfile.TemporaryFile() as got, subprocess.Popen([sys.executable, "-c", SLOW], stdin=read, stdout=got) as reader:
        os.close(read)
        load = subprocess.Popen([*LOAD, path], stdout=write, stderr=subprocess.DEVNULL)
        time.sleep(seconds)
        load.send_signal(number)
        load.wait(60)
        os.write(write, b"T | count\n\n")
        os.close(write)
        reader.wait(60)
        got.seek(0)
        return got.read()


def in_file(path, number, seconds):
    """The same where the script goes into a file."""
    with tempfile.TemporaryFile() as file:
        load = subprocess.Popen([*LOAD, path], stdout=file, stderr=subprocess.DEVNULL)
        time.sleep(seconds)
        load.send_signal(number)
        load.wait(60)
        file.write(b"T | count\n\n")
        file.seek(0)
        return file.read()


def commands(script):
    return [block for block in script.split(b"\n\n") if block and not block.startswith(b"//")]


def is_whole(found, script):
    """Whether the commands are the first of the script and the one behind it. One that was never finished is refused, not stored."""
    *before, last = commands(found)
    wanted = commands(script)[: len(before)]
    return before == wanted and (last == b"T | count" or last.startswith(b"!"))


def is_once(found, script):
    """Whether the program has each record once, where the rest of a load that was stopped is followed by the whole load."""
    question = b"T | summarize c = count(), s = sum(n)\n\n"
    told = subprocess.run([PROGRAM], input=found + script + question, stdout=subprocess.PIPE, check=True).stdout
    return told.endswith(f"\n{ROWS}\t{ROWS * (ROWS - 1) // 2}\n\n".encode())


def stopped(count, seed):
    """Stops loads at moments between the start and the end, and gives what was left wrong."""
    chance, faults = random.Random(seed), []
    with tempfile.TemporaryDirectory() as folder:
        path = put_log(folder, ROWS)
        began = time.monotonic()
        script = script_of(path)
        longest = time.monotonic() - began
        for run in range(count):
            number, where = SIGNALS[run % 3], (piped, piped, in_file)[run // 3 % 3]
            seconds = chance.uniform(0.05, longest * 1.2)
            found = where(path, number, seconds)
            if not is_whole(found, script) or PROGRAM and not is_once(found, script):
                faults.append((number.name, where.__name__, seconds))
    return faults


class Whole(unittest.TestCase):
    def test_a_load_that_is_stopped_leaves_whole_commands(self):
        self.assertEqual(stopped(9, 7), [])

    def test_a_command_is_taken_over_by_a_pipe_in_one_call(self):
        read, write = os.pipe()
        stream = os.fdopen(write, "wb")
        self.addCleanup(stream.close)
        out = outlet(stream)
        self.assertGreater(out.room, 10**6)
        calls = []
        before, os.write = os.write, lambda *words: calls.append(before(*words)) or calls[-1]
        try:
            out.write(b"x" * 10**6)
        finally:
            os.write = before
        self.assertEqual(calls, [10**6])
        os.close(read)
        with self.assertRaises(BrokenPipeError):
            out.write(b"y" * 10)

    def test_a_signal_waits_for_the_end_of_a_command(self):
        read, write = os.pipe()
        found, data = [], b"x" * 3_000_000
        child = os.fork()
        if child == 0:
            os.close(read)
            outlet(os.fdopen(write, "wb")).write(data)
            os._exit(0)
        os.close(write)
        found.append(os.read(read, 1000))
        os.kill(child, signal.SIGTERM)
        while found[-1]:
            found.append(os.read(read, 2**20))
        self.assertEqual(os.waitstatus_to_exitcode(os.waitpid(child, 0)[1]), -signal.SIGTERM)
        self.assertEqual(len(b"".join(found)), len(data))
        os.close(read)

    def test_a_script_in_a_file_behind_other_text(self):
        with tempfile.TemporaryFile() as file:
            file.write(b"first\n\n")
            out = outlet(file)
            out.write(b".second\n\n")
            out.write(b"third\n\n")
            file.seek(0)
            self.assertEqual(file.read(), b"first\n\n.second\n\nthird\n\n")


if __name__ == "__main__":
    if len(sys.argv) == 2 and sys.argv[1].isdigit():
        wrong = stopped(int(sys.argv[1]), time.time_ns())
        print(f"{sys.argv[1]} loads stopped, {len(wrong)} left half of a command: {wrong}")
        sys.exit(1 if wrong else 0)
    unittest.main()
