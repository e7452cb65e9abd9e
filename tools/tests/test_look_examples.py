"""The made-up logs of examples/logs: the generator gives them again, and their answers are those of answers.py."""

import importlib.util
import subprocess
import sys
import unittest
from pathlib import Path

TOP = Path(__file__).resolve().parents[2]
LOGS = TOP / "examples" / "logs"


def module(name):
    spec = importlib.util.spec_from_file_location(name, LOGS / f"{name}.py")
    found = importlib.util.module_from_spec(spec)
    spec.loader.exec_module(found)
    return found


class Examples(unittest.TestCase):
    def test_the_generator_gives_the_logs_again(self):
        for name, text in module("generate").logs().items():
            self.assertEqual((LOGS / name).read_bytes(), text, name)

    def test_the_logs_have_the_messy_parts_of_real_ones(self):
        access, audit = ((LOGS / name).read_bytes() for name in ("access.log", "audit.jsonl"))
        for text in (access, audit):
            lines = text.split(b"\n")[:-1]
            self.assertIn(b"\r\n", text)
            self.assertLess(len(set(lines)), len(lines))
        for part in ('\\"beta\\", build', "日本語", '""', '"-" 400', "2001:db8::17", "+0100", "größe, 42"):
            self.assertIn(part.encode(), access)
        for part in ("jürgen", "\\u00fcrgen", '\\"beta\\"', '"rate":0.5', "/healthz", "developers, guests", '"userAgent":""'):
            self.assertIn(part.encode(), audit)

    def test_the_answers_are_those_of_the_logs(self):
        answers = module("answers")
        for name in ("access", "audit"):
            wanted = "".join(part + "\n" for part in getattr(answers, name)())
            self.assertEqual((LOGS / f"{name}.out").read_text(encoding="utf-8"), wanted, name)


class Pages(unittest.TestCase):
    def test_the_page_for_whoever_knows_the_language_agrees_with_its_answers(self):
        ran = subprocess.run([sys.executable, TOP / ".ci" / "from_kql", "--check"], stdout=subprocess.PIPE, check=False)
        self.assertEqual(ran.returncode, 0, ran.stdout.decode())


if __name__ == "__main__":
    unittest.main()
