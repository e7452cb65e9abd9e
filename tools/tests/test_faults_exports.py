"""tools/faults_exports.py tells a program that writes its files as docs/RUNNING.md says from those that don't."""

import os
import shutil
import subprocess
import sys
import tempfile
import unittest
from pathlib import Path

TOOLS = Path(__file__).resolve().parents[1]
COMPILER = shutil.which(os.environ.get("CC", "cc"))


@unittest.skipUnless(COMPILER and sys.platform == "linux", "needs a C compiler, and Linux")
class Faults(unittest.TestCase):
    @classmethod
    def setUpClass(cls):
        folder = tempfile.TemporaryDirectory()
        cls.addClassCleanup(folder.cleanup)
        cls.library, cls.program = f"{folder.name}/faults.so", f"{folder.name}/program"
        subprocess.run([COMPILER, "-shared", "-fPIC", "-o", cls.library, TOOLS / "faults.c", "-ldl"], check=True)
        source = (TOOLS / "tests" / "export_program.py").read_text(encoding="utf-8")
        Path(cls.program).write_text(f"#!{sys.executable} -IS\n{source}", encoding="utf-8")
        os.chmod(cls.program, 0o755)

    def faults(self, wrong, *kinds):
        ran = subprocess.run(
            [sys.executable, TOOLS / "faults_exports.py", self.program, self.library, *kinds],
            env={**os.environ, "WRONG": wrong}, stdout=subprocess.PIPE, stderr=subprocess.STDOUT, text=True, timeout=1200,
        )
        return ran.returncode, ran.stdout

    def assertWrong(self, wrong, kind, said):
        status, told = self.faults(wrong, kind)
        self.assertEqual(status, 1, told)
        self.assertIn(said, told)

    def test_each_call_fails_and_each_ends_the_program(self):
        status, told = self.faults("", "create", "write", "sync", "rename")
        self.assertEqual(status, 0, told)
        last = told.splitlines()[-1]
        for count in ("5 creates failed", "5 syncs failed", "5 renames failed", "5 creates ended it", "5 syncs ended it", "5 renames ended it", "0 runs were wrong"):
            self.assertIn(count, last)
        self.assertNotIn(" 0 writes", last)

    def test_a_file_that_is_written_under_its_own_name(self):
        self.assertWrong("in place", "write", "isn't whole")

    def test_a_file_that_is_not_synced(self):
        self.assertWrong("no sync", "rename", "before it is synced")

    def test_a_write_that_moves_less_than_it_was_given(self):
        self.assertWrong("short", "sync", "has other bytes than its range gives")

    def test_a_range_that_is_kept_after_a_failed_put(self):
        self.assertWrong("range kept", "rename", "is answered 'nothing', and not 'exported")

    def test_a_range_that_is_exported_twice(self):
        self.assertWrong("range twice", "rename", "and not 'nothing'")

    def test_a_fault_that_no_reply_tells(self):
        self.assertWrong("fault ignored", "rename", "and no reply says so")

    def test_a_reply_before_its_file(self):
        self.assertWrong("reply first", "create", "which isn't there")


if __name__ == "__main__":
    unittest.main()
