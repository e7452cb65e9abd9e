"""How releases are made: the gate's stamp, release/make, and the gate's comparison with the release."""
import hashlib
import json
import lzma
import os
import unittest

from checkouts import KIT, LINES, MANIFEST, PACKED, PROGRAM, Checkout

import gate


class Make(Checkout):
    """When release/make writes a release, and what."""

    def assertRefuses(self, *told):
        made = self.run_tool("release/make")
        self.assertEqual((made.returncode, made.stdout), (1, ""))
        self.assertEqual(made.stderr.count("\n"), 1, made.stderr)
        for words in told:
            self.assertIn(words, made.stderr)
        self.assertEqual(os.listdir(self.path("release")), ["make"])

    def test_what_it_writes(self):
        self.pass_gate()
        commit = self.git("rev-parse", "HEAD")
        made = self.run_tool("release/make")
        self.assertEqual((made.returncode, made.stderr), (0, ""))
        self.assertEqual(sorted(os.listdir(self.path("release"))), ["kq_console.xz", "make", "manifest.json"])
        self.assertEqual(lzma.decompress(self.bytes_of(self.path(PACKED))), PROGRAM)
        said = json.loads(self.bytes_of(self.path(MANIFEST)))
        here = os.uname()
        self.assertEqual((said["commit"], said["program"], said["size"]), (commit, hashlib.sha256(PROGRAM).hexdigest(), len(PROGRAM)))
        self.assertEqual((said["kit"], said["system"]), (KIT, f"{here.sysname} {here.machine}"))
        self.assertEqual(said["gate"], ["105 passed, 0 failed", "scripts: 1 ran, 0 differences"])

    def test_the_same_bytes_each_time(self):
        self.pass_gate()
        first = [self.run_tool("release/make").returncode, self.bytes_of(self.path(PACKED)), self.bytes_of(self.path(MANIFEST))]
        self.assertEqual([self.run_tool("release/make").returncode, self.bytes_of(self.path(PACKED)), self.bytes_of(self.path(MANIFEST))], first)

    def test_it_refuses_where_the_gate_has_not_passed(self):
        self.put("crates/kq_console/out/kq_console", PROGRAM, 0o755)
        self.assertRefuses("the gate hasn't passed here")

    def test_it_refuses_while_the_gate_runs_anew(self):
        self.pass_gate()
        gate.remove(self.top)
        self.assertRefuses("the gate hasn't passed here")

    def test_it_refuses_other_sources(self):
        self.pass_gate()
        self.put("crates/kq_console/specs/A.antt", b"")
        self.assertRefuses("the sources have changed since the gate passed")

    def test_it_refuses_another_program(self):
        self.pass_gate()
        self.put("crates/kq_console/out/kq_console", PROGRAM + b"#", 0o755)
        self.assertRefuses("not the program that the gate tried")

    def test_it_refuses_sources_that_are_not_committed(self):
        self.put("crates/kq_console/src/b.rt", b"")
        self.pass_gate()
        self.assertRefuses("not committed", "crates/kq_console/src/b.rt")
        self.put("crates.txt", b"# changed\n")
        self.pass_gate()
        self.assertRefuses("not committed", "crates.txt")

    def test_it_refuses_sources_that_no_commit_would_have(self):
        self.put("crates/kq_console/src/out/b.rt", b"")
        self.pass_gate()
        self.assertRefuses("not committed", "crates/kq_console/src/out/")

    def test_other_files_need_not_be_committed(self):
        self.put("docs/PAGE.md", b"")
        self.make_release()


class Gate(Checkout):
    """What .ci/run asks."""

    is_released = True

    def compared(self):
        found = self.run_tool(".ci/release", self.path("crates/kq_console/out/kq_console"))
        self.assertEqual(found.stderr, "")
        return found.returncode, found.stdout

    def assertCompared(self, status, *told):
        found = self.compared()
        self.assertEqual(found[0], status, found[1])
        for words in told:
            self.assertIn(words, found[1])

    def test_no_release(self):
        self.pass_gate()
        os.remove(self.path(PACKED))
        os.remove(self.path(MANIFEST))
        self.assertEqual(self.compared(), (0, "release: there is none\n"))

    def test_the_same_bytes(self):
        self.pass_gate()
        self.assertCompared(0, "has the same bytes")

    def test_other_bytes_of_the_same_sources(self):
        self.pass_gate(PROGRAM + b"#")
        self.assertCompared(1, "check failed: ", "has other bytes")

    def test_other_bytes_of_other_sources(self):
        self.put("HANDLES", b"Handles allowed: Wait.\n")
        self.pass_gate(PROGRAM + b"#")
        self.assertCompared(0, "whose sources are others")

    def test_other_bytes_of_another_kit(self):
        self.change_manifest(kit="another")
        self.pass_gate(PROGRAM + b"#")
        self.assertCompared(0, "not compared")

    def test_a_damaged_release(self):
        self.pass_gate()
        self.put(PACKED, self.bytes_of(self.path(PACKED))[:-1])
        self.assertCompared(1, "check failed: ", "cut short")

    def test_a_run_that_passed_is_stamped(self):
        self.pass_gate()
        begun = self.run_tool(".ci/passed", "--begin").stdout.strip()
        self.assertIsNone(gate.read(self.top))
        self.put("../lines", "".join(LINES).encode())
        ended = self.run_tool(".ci/passed", begun, f"{self.room}/lines")
        self.assertEqual((ended.returncode, ended.stdout, ended.stderr), (0, "", ""))
        stamp = gate.read(self.top)
        self.assertEqual((stamp.sources, stamp.kit, stamp.lines), (begun, KIT, ["105 passed, 0 failed", "scripts: 1 ran, 0 differences"]))
        self.assertEqual(stamp.program, hashlib.sha256(PROGRAM).hexdigest())

    def test_sources_that_changed_while_it_ran(self):
        begun = self.run_tool(".ci/passed", "--begin").stdout.strip()
        self.put("crates/kq_console/src/main.rt", b"fn main() { }\n")
        self.put("crates/kq_console/out/kq_console", PROGRAM, 0o755)
        found = self.run_tool(".ci/passed", begun, os.devnull)
        self.assertEqual(found.returncode, 1)
        self.assertIn("have changed while the gate ran", found.stdout)
        self.assertIsNone(gate.read(self.top))


# The checks of the gate that these tests don't look into.
PAGES = ("crates", "pages", "libraries", "edits", "memory", "theorem")
CHECKS = [f".ci/{name}" for name in (*PAGES, "tools", "budget", "scripts", "pipe", "console")] + ["tools/processors"]


class Run(Checkout):
    """The gate, with stand-ins for rt and for the checks."""

    def lay_out(self):
        super().lay_out()
        for path in CHECKS:
            self.put(path, f"#!/bin/sh\necho of {path}\n".encode(), 0o755)
        self.put(".ci/sample", b"#!/bin/sh\nexec sleep 60\n", 0o755)
        self.put("../program", PROGRAM, 0o755)
        self.commit()

    out = "crates/kq_console/out"

    def setUp(self):
        super().setUp()
        self.rt("true", 0)

    def rt(self, more, status):
        """A stand-in that builds the program, does something more, and ends with a status."""
        self.put("../bin/rt", f"""#!/bin/sh
[ "$1" = version ] && echo {KIT} && exit
mkdir -p {self.out}
for name in kq_console kq_console.by-rattle; do cp '{self.room}/program' {self.out}/$name; done
{more}
echo first
echo 'rt: ok; handles allowed: none'
echo '105 passed, 0 failed'
exit {status}
""".encode(), 0o755)

    def test_where_all_passes_a_release_can_be_made(self):
        ran = self.run_tool(".ci/run")
        self.assertEqual((ran.returncode, ran.stderr), (0, ""), ran.stdout)
        told = ran.stdout.splitlines()
        for line in ("first", "105 passed, 0 failed", *(f"of {path}" for path in CHECKS), "release: there is none"):
            self.assertIn(line, told)
        lines = gate.read(self.top).lines
        self.assertEqual(lines[:4], ["rt: ok; handles allowed: none", "105 passed, 0 failed", "of .ci/scripts", "of .ci/scripts"])
        self.assertEqual(lines[-1], "of .ci/tools")
        self.assertEqual(self.run_tool("release/make").returncode, 0)

    def test_where_a_check_fails_there_is_no_stamp(self):
        for path in (".ci/crates", ".ci/scripts", ".ci/tools"):
            self.pass_gate()
            whole = self.bytes_of(self.path(path))
            self.put(path, whole + b"exit 1\n", 0o755)
            self.assertEqual((self.run_tool(".ci/run").returncode, gate.read(self.top)), (1, None), path)
            self.put(path, whole, 0o755)

    def test_where_the_proofs_fail_there_is_no_stamp(self):
        self.rt("true", 1)
        self.assertEqual((self.run_tool(".ci/run").returncode, gate.read(self.top)), (1, None))

    def test_where_the_sources_change_meanwhile_there_is_no_stamp(self):
        self.rt("echo >>crates.txt", 0)
        ran = self.run_tool(".ci/run")
        self.assertEqual((ran.returncode, gate.read(self.top)), (1, None))
        self.assertIn("have changed while the gate ran", ran.stdout)

    def test_where_the_release_has_other_bytes_it_fails(self):
        self.make_release(PROGRAM + b"#")
        ran = self.run_tool(".ci/run")
        self.assertEqual((ran.returncode, gate.read(self.top)), (1, None))
        self.assertIn("its program has other bytes", ran.stdout)


if __name__ == "__main__":
    unittest.main()
