"""./check on a program that stands already: a release, made as release/make makes it, with a shell script as the program."""
import re
import shutil
import unittest

from checkouts import PROGRAM, Checkout

# It answers its script and its feeds with their own text, and writes the file that its script names, as an export would.
ANSWERS = (
    b"#!/bin/sh\nfor feed in \"$@\"; do cat \"$feed\" >\"$feed.out\"; done\n"
    b"while read -r word name; do [ \"$word\" != export ] || echo rows >\"$name\"; echo \"$word $name\"; done\n"
)


class Check(Checkout):
    is_released = True

    def check(self, *words):
        found = self.run_tool("check", *words)
        self.assertNotIn("Traceback", found.stderr)
        return found

    def assertEnds(self, found, passed, failed, skipped=0):
        last = found.stdout.splitlines()[-1]
        self.assertEqual(re.sub(r"in \d+ s$", "", last), f"{passed} passed, {failed} failed, {skipped} skipped ", found.stdout + found.stderr)
        self.assertEqual(found.returncode, 1 if failed or not passed else 0)

    def test_the_program_that_runs_is_named(self):
        found = self.check()
        self.assertEnds(found, 1, 0)
        commit = self.git("rev-parse", "HEAD~1")[:12]
        self.assertIn(f"the proved program of the release, commit {commit}, whose sources are those here", found.stdout)
        self.put("crates.txt", b"# other\n")
        found = self.check()
        self.assertEnds(found, 1, 0)
        self.assertIn("--unproved", found.stdout)
        self.assertIn(commit, found.stderr)
        self.put("crates/kq_console/out/kq_console", PROGRAM, 0o755)
        self.assertIn("the proved program of this checkout", self.check().stdout)

    def test_an_answer_that_differs_is_shown(self):
        self.put("scripts/b/b.kql", b"print 2\n")
        self.put("scripts/b/b.out", b"ran\nprint 3\n")
        found = self.check()
        self.assertEnds(found, 1, 1)
        for line in ("failed: scripts/b/b", "-print 3", "+print 2", "check failed: scripts/b/b prints something else"):
            self.assertIn(line, found.stdout.splitlines())

    def test_only_the_scripts_that_are_named(self):
        self.put("scripts/b/b.kql", b"print 2\n")
        self.put("scripts/b/b.out", b"ran\nprint 3\n")
        self.assertEnds(self.check("examples/a"), 1, 0)
        self.assertEnds(self.check("b/b"), 0, 1)
        self.assertEnds(self.check("none"), 0, 0)
        self.assertEqual(self.check("--wrong").returncode, 2)

    def test_feeds_and_exported_files_are_compared(self):
        self.make_release(ANSWERS)
        self.put("examples/a/a.out", b"print 1\n")
        self.put("scripts/b/b.kql", b"export rows.csv\n")
        self.put("scripts/b/b.out", b"export rows.csv\n")
        self.put("scripts/b/b.files/rows.csv", b"rows\n")
        self.put("scripts/c/c.kql", b"")
        self.put("scripts/c/c.out", b"")
        self.put("scripts/c/c.words", b"feed.kql\n")
        self.put("scripts/c/c.feeds/feed.kql", b"print 1\n")
        self.put("scripts/c/c.feeds/feed.kql.out", b"print 1\n")
        self.assertEnds(self.check(), 3, 0)
        self.put("scripts/b/b.files/rows.csv", b"other\n")
        self.put("scripts/c/c.feeds/feed.kql.out", b"other\n")
        found = self.check()
        self.assertEnds(found, 1, 2)
        self.assertIn("check failed: scripts/b/b leaves other files", found.stdout)
        self.assertIn("check failed: scripts/c/c: feed.kql.out says something else", found.stdout)

    def test_what_is_skipped_without_a_proved_program(self):
        self.put("scripts/c/c.kql", b"")
        self.put("scripts/c/c.out", b"")
        shutil.copytree(self.path("examples/a"), self.path("scripts/c/c.feeds"))
        # Its rt says of no script that it ran.
        unproved = self.check("--unproved")
        self.assertEnds(unproved, 0, 1, 1)
        self.assertEqual(unproved.stderr, "")
        self.assertIn("skipped: scripts/c/c has feeds, which need the proved program", unproved.stdout)
        self.put("release/kq_console.xz", b"")
        shutil.rmtree(self.cache, ignore_errors=True)
        damaged = self.check()
        self.assertEnds(damaged, 0, 1, 1)
        self.assertIn("cut short", damaged.stderr)
        self.assertIn("nothing proved", damaged.stderr)


if __name__ == "__main__":
    unittest.main()
