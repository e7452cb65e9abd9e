"""tools/faults_scripts.py tells a run in which one command alone is refused from those that are answered otherwise."""
import importlib.util
import pathlib
import unittest

TOOLS = pathlib.Path(__file__).resolve().parent.parent
SPEC = importlib.util.spec_from_file_location("faults_scripts", TOOLS / "faults_scripts.py")
faults = importlib.util.module_from_spec(SPEC)
SPEC.loader.exec_module(faults)

SCRIPT = ["make", "put", "ask"]
DUE = {None: ["done 1", "ingested 2", "rows 1"], 0: ["refused Unknown", "refused Unknown"], 1: ["done 1", "rows 0"], 2: ["done 1", "ingested 2"]}


class Due:
    script = SCRIPT

    def without(self, number):
        return DUE[number]


def wrong(replies, status=1, rest=""):
    return faults.wrong_in(faults.Run(7, status, replies, rest, 20, True), Due())


class Scripts(unittest.TestCase):
    def test_a_refused_command_is_as_if_it_had_not_been_there(self):
        self.assertIsNone(wrong(["done 1", "refused Memory", "rows 0"]))
        self.assertIn("reply 2", wrong(["done 1", "refused Memory", "rows 1"]))

    def test_a_session_may_end_where_memory_was_refused(self):
        self.assertIsNone(wrong(["done 1"]))
        self.assertIn("status", wrong(["done 1"], status=0))

    def test_nothing_shows_where_the_program_did_without_the_memory(self):
        self.assertIsNone(wrong(["done 1", "ingested 2", "rows 1"], status=0))
        self.assertIn("reply 3", wrong(["done 1", "ingested 2", "rows 2"], status=0))

    def test_one_refused_allocation_refuses_one_command(self):
        self.assertIn("all refused", wrong(["done 1", "refused Memory", "refused Memory"]))

    def test_a_reply_is_whole_or_not_there(self):
        self.assertIn("no whole reply", wrong(["done 1"], rest="ingest"))

    def test_the_status_tells_of_a_refusal(self):
        self.assertIn("status", wrong(["done 1", "refused Memory", "rows 0"], status=0))


if __name__ == "__main__":
    unittest.main()
