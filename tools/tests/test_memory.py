"""Tests of .ci/memory: an error of memory that no refused allocation explains is found."""
import os
import shutil
import subprocess
import tempfile
import unittest

TOP = os.path.dirname(os.path.dirname(os.path.dirname(os.path.abspath(__file__))))


def check(folder):
    done = subprocess.run([f"{TOP}/.ci/memory", folder], capture_output=True, text=True, check=False)
    return done.returncode, done.stdout


class MemoryTest(unittest.TestCase):
    def setUp(self):
        self.folder = tempfile.mkdtemp()
        self.addCleanup(shutil.rmtree, self.folder)
        for name in os.listdir(f"{TOP}/crates"):
            shutil.copytree(f"{TOP}/crates/{name}/src", f"{self.folder}/crates/{name}/src")

    def put(self, name, before, after):
        path = f"{self.folder}/crates/{name}"
        with open(path, encoding="utf-8") as it:
            text = it.read()
        self.assertIn(before, text)
        with open(path, "w", encoding="utf-8") as it:
            it.write(text.replace(before, after, 1))

    def test_the_code_as_it_stands_passes(self):
        self.assertEqual(check(self.folder), (0, ""))

    def test_a_bound_on_depth_is_found(self):
        with open(f"{self.folder}/crates/kq_bind_expressions/src/depth.rt", "w", encoding="utf-8") as it:
            it.write("fn bounded(depth: usize) -> Result<(), BindFault> {\n    if depth > 0 {\n        return Err(BindFault::Memory);\n    }\n    Ok(())\n}\n")
        status, said = check(self.folder)
        self.assertEqual(status, 1)
        self.assertIn("kq_bind_expressions/depth.rt makes 1 errors of memory", said)

    def test_one_more_in_a_known_file_is_found(self):
        self.put("kq_store_rows/src/rows.rt", "            return Ok(());\n", "            return Err(AllocError);\n")
        status, said = check(self.folder)
        self.assertEqual(status, 1)
        self.assertIn("kq_store_rows/rows.rt makes 2 errors of memory", said)

    def test_an_error_that_is_handed_on_is_not_counted(self):
        with open(f"{self.folder}/crates/kq_bind_expressions/src/on.rt", "w", encoding="utf-8") as it:
            it.write("match part() {\n    Err(BindFault::Memory) => Err(AllocError),\n}\n")
        self.assertEqual(check(self.folder), (0, ""))


if __name__ == "__main__":
    unittest.main()
