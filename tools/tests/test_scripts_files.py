"""The files that .ci/scripts looks for beside a script, with a stand-in for the program."""

import subprocess
import tempfile
import unittest
from pathlib import Path

SCRIPTS = Path(__file__).resolve().parents[2] / ".ci" / "scripts"
# It writes the files that its script names, each with the text behind the name, and answers each feed with its own text.
PROGRAM = """#!/bin/sh
for feed in "$@"; do cat "$feed" >"$feed.out"; done
while read -r name text; do printf "$text" >"$name"; echo "wrote $name"; done
"""


class Files(unittest.TestCase):
    def setUp(self):
        folder = tempfile.TemporaryDirectory()
        self.addCleanup(folder.cleanup)
        self.top = Path(folder.name)
        self.subject = self.top / "subject"
        self.put("program", PROGRAM)
        (self.top / "program").chmod(0o755)

    def put(self, name, text=""):
        path = self.top / name
        path.parent.mkdir(parents=True, exist_ok=True)
        path.write_bytes(text.encode())

    def script(self, text, wanted=None, out=None):
        """One script of the subject, the files that it is to leave, and what it is to print."""
        self.put("subject/a.kql", text)
        self.put("subject/a.out", "".join(f"wrote {line.split(' ')[0]}\n" for line in text.splitlines()) if out is None else out)
        for name, content in (wanted or {}).items():
            self.put(f"subject/a.files/{name}", content)

    def feed(self, name, text, answer=None):
        self.put("subject/a.words", name + "\n")
        self.put(f"subject/a.feeds/{name}", text)
        self.put(f"subject/a.feeds/{name}.out", text if answer is None else answer)

    def run_scripts(self):
        ran = subprocess.run([SCRIPTS, self.top / "program", self.subject], stdout=subprocess.PIPE, stderr=subprocess.STDOUT, text=True, timeout=60)
        return ran.returncode, ran.stdout

    def assertPasses(self):
        self.assertEqual(self.run_scripts(), (0, "scripts: 1 ran, 0 differences\n"))

    def assertDiffers(self, *words):
        status, told = self.run_scripts()
        self.assertEqual((status, told.splitlines()[-1]), (1, "scripts: 1 ran, 1 differences"))
        for word in (*words, "check failed: ", "leaves other files"):
            self.assertIn(word, told)

    def test_the_files_that_it_leaves(self):
        self.script("a.csv k\\n1\\n\nb.csv\n", {"a.csv": "k\n1\n", "b.csv": ""})
        self.assertPasses()

    def test_a_byte_that_is_another(self):
        self.script("a.csv k\\n1\\n\n", {"a.csv": "k\n2\n"})
        self.assertDiffers("-2\n", "+1\n")

    def test_a_last_line_without_its_end(self):
        self.script("a.csv k\\n1\n", {"a.csv": "k\n1\n"})
        self.assertDiffers("No newline at end of file")

    def test_a_carriage_return(self):
        self.script("a.csv k\\r\\n\n", {"a.csv": "k\n"})
        self.assertDiffers()

    def test_a_file_that_is_missing(self):
        self.script("a.csv k\\n\n", {"a.csv": "k\n", "b.csv": "k\n"})
        self.assertDiffers("b.csv")

    def test_a_file_too_many(self):
        self.script("a.csv k\\n\na.csv.part k\\n\n", {"a.csv": "k\n"})
        self.assertDiffers("a.csv.part")

    def test_a_hidden_file_too_many(self):
        self.script("a.csv\n.a k\\n\n", {"a.csv": ""})
        self.assertDiffers(".a")

    def test_a_script_with_no_files_beside_it_leaves_none(self):
        self.script("")
        self.assertPasses()
        self.script("a.csv k\\n\n")
        self.assertDiffers("a.csv")

    def test_feeds_and_their_answers_are_not_counted(self):
        self.script("a.csv k\\n\n", {"a.csv": "k\n"})
        self.feed("feed.kql", "print 1\n")
        self.assertPasses()

    def test_an_answer_that_no_feed_asked_for_is_counted(self):
        self.script("b.out k\\n\n")
        self.feed("feed.kql", "print 1\n")
        self.assertDiffers("b.out")

    def test_a_file_that_lay_there_is_written_over(self):
        self.script("a.csv k\\n1\\n\n", {"a.csv": "k\n1\n"})
        self.put("subject/a.feeds/a.csv", "of an earlier run\n")
        self.assertPasses()
        self.script("b.csv\n", {"b.csv": ""})
        self.assertDiffers("-k\n")

    def test_each_script_has_a_folder_of_its_own(self):
        self.script("a.csv k\\n\n", {"a.csv": "k\n"})
        self.put("subject/b.kql", "")
        self.put("subject/b.out", "")
        self.assertEqual(self.run_scripts(), (0, "scripts: 2 ran, 0 differences\n"))

    def test_other_differences_are_told_beside(self):
        self.script("a.csv k\\n\n", {"a.csv": "k\n"}, out="wrote nothing\n")
        status, told = self.run_scripts()
        self.assertEqual((status, told.splitlines()[-1]), (1, "scripts: 1 ran, 1 differences"))
        self.assertIn("prints something else", told)


if __name__ == "__main__":
    unittest.main()
