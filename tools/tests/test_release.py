"""Releases, and which program ./kq runs: each release here is made as release/make makes it, with a shell script as the program."""
import lzma
import os
import shutil
import subprocess
import unittest

from checkouts import COPIED, MANIFEST, PACKED, PROGRAM, Checkout
from load_runs import TOP

import checksums
import programs
import release


def can_mount():
    ran = subprocess.run(["unshare", "-rm", "mount", "-t", "tmpfs", "none", "/mnt"], stdout=subprocess.DEVNULL, stderr=subprocess.DEVNULL)
    return ran.returncode == 0


class NoRelease(Checkout):
    """Which program is run without a release."""

    def test_the_sources_are_tried(self):
        self.assertCompiled(self.run_tool("kq", stdin="print 1\n"))
        self.assertEqual(self.run_tool("tools/program").returncode, 1)

    def test_words_and_status_are_handed_through(self):
        self.make_release(PROGRAM.replace(b"exit 0", b"exit $#"))
        found = self.run_tool("kq", "--workers", "2", stdin="x\n")
        self.assertEqual((found.stdout, found.returncode), ("ran --workers 2\nx\n", 2))


class Choice(Checkout):
    """Which program is run where there is a release."""

    is_released = True

    def kq(self, **how):
        return self.run_tool("kq", stdin="print 1\n", **how)

    def test_the_release_of_the_same_sources_is_run_without_a_word(self):
        self.assertRan(self.kq())
        self.assertRan(self.kq())

    def test_a_release_of_other_sources_says_its_commit(self):
        commit = self.git("rev-parse", "HEAD~1")
        self.put("crates/kq_console/src/main.rt", b"fn main() { }\n")
        found = self.kq()
        self.assertRan(found, commit[:12])
        self.assertEqual(found.stderr.count("\n"), 1)

    def test_each_kind_of_source_changes_the_checksum(self):
        found = [checksums.sources_checksum(self.top)]
        for path in ("crates.txt", "HANDLES", "crates/kq_console/specs/A.antt", "crates/kq_other/src/a/lib.rt", "crates/kq_console/proofs/A.antt"):
            self.put(path, b"other\n")
            found.append(checksums.sources_checksum(self.top))
        self.assertEqual(len(set(found)), 6)

    def test_other_files_are_no_sources(self):
        self.put("crates/kq_console/wrong/a.edit", b"no source\n")
        self.put("docs/PAGE.md", b"no source\n")
        self.assertRan(self.kq())

    def test_unproved_it_is_the_sources(self):
        found = self.run_tool("kq", "--unproved", "--workers", "1")
        self.assertCompiled(found)
        self.assertNotIn("not built", found.stderr)

    def test_the_proved_program_goes_before_the_release(self):
        self.put("crates/kq_console/out/kq_console", b"#!/bin/sh\necho proved\n", 0o755)
        self.assertEqual(self.kq().stdout, "proved\n")

    def test_a_proved_program_that_is_older_than_its_sources_is_not_run(self):
        self.put("crates/kq_console/out/kq_console", b"#!/bin/sh\necho proved\n", 0o755)
        os.utime(self.path("crates/kq_console/out/kq_console"), (1, 1))
        self.assertRan(self.kq())

    def test_the_path_of_the_program_is_printed_for_other_tools(self):
        found = self.run_tool("tools/program")
        self.assertEqual(self.bytes_of(found.stdout.strip()), PROGRAM)
        self.assertTrue(found.stdout.startswith(self.cache))


    def test_kq_log_runs_it_too(self):
        echo = os.path.join(TOP, "tools", "tests", "echo_program.py")
        self.make_release(f"#!/bin/sh\nexec python3 {echo}\n".encode())
        self.put("a.csv", b"n,s\n1,x\n")
        found = self.run_tool("kq-log", self.path("a.csv"), "--no-echo", stdin="print 1\n")
        self.assertEqual(found.returncode, 0, found.stderr)
        self.assertIn("print 1", found.stdout)
        self.assertNotIn("release: ", found.stderr)
        self.put("crates.txt", b"# other\n")
        found = self.run_tool("kq-log", self.path("a.csv"), stdin="print 1\n")
        self.assertEqual((found.returncode, found.stderr.count("release: this is the proved program of commit ")), (0, 1))


class Spoiled(Checkout):
    """Releases that must not be run, each with a sentence that says why."""

    is_released = True

    def assertRefused(self, told):
        chosen = self.choose()
        self.assertEqual((chosen.path, chosen.origin), (None, programs.Origin.NONE))
        self.assertTrue(chosen.told.startswith("release: "))
        self.assertNotIn("\n", chosen.told)
        self.assertIn(told, chosen.told)
        self.assertNothingIsLeft()

    def assertCompiledInstead(self, *told, before=()):
        """The same of ./kq, which compiles the sources instead."""
        self.assertCompiled(self.run_tool("kq", stdin="print 1\n", before=before), *told)
        self.assertNothingIsLeft()

    def assertNothingIsLeft(self):
        self.assertEqual([name for _, _, names in os.walk(self.cache) for name in names], [])

    def test_one_byte_changed(self):
        whole = self.bytes_of(self.path(PACKED))
        self.put(PACKED, whole[:-1] + b"\0")
        self.assertCompiledInstead("kq_console.xz is damaged")
        for place in range(0, len(whole), 9):
            self.put(PACKED, whole[:place] + bytes([whole[place] ^ 1]) + whole[place + 1 :])
            with self.assertRaisesRegex(release.Unusable, "damaged|checksum is wrong|cut short"):
                release.compare_packed(self.path("release"), release.read(self.path("release")))

    def test_another_program_in_its_place(self):
        self.put(PACKED, lzma.compress(PROGRAM[:-2] + b".\n"))
        self.assertRefused("its checksum is wrong")

    def test_a_program_that_is_much_longer(self):
        self.put(PACKED, lzma.compress(PROGRAM + bytes(1 << 24)))
        self.assertRefused("its checksum is wrong")

    def test_cut_short(self):
        whole = self.bytes_of(self.path(PACKED))
        self.put(PACKED, whole[: len(whole) // 2])
        self.assertCompiledInstead("cut short")
        for length in range(0, len(whole), 9):
            self.put(PACKED, whole[:length])
            with self.assertRaisesRegex(release.Unusable, "cut short"):
                release.compare_packed(self.path("release"), release.read(self.path("release")))

    def test_no_program(self):
        os.remove(self.path(PACKED))
        self.assertRefused("No such file")

    def test_no_manifest(self):
        os.remove(self.path(MANIFEST))
        self.assertRefused("manifest.json can't be read")

    def test_any_byte_of_the_manifest_changed(self):
        whole = self.bytes_of(self.path(MANIFEST))
        wanted = release.read(self.path("release"))
        for place in range(0, len(whole), 5):
            self.put(MANIFEST, whole[:place] + bytes([whole[place] ^ 1]) + whole[place + 1 :])
            try:
                self.assertEqual(release.read(self.path("release")), wanted, place)
            except release.Unusable as why:
                self.assertIn("manifest.json is damaged", str(why))

    def test_a_damaged_manifest(self):
        for text in (b"[]", b"{}", b"\xff", b'{"checksum": 1}'):
            self.put(MANIFEST, text)
            with self.assertRaisesRegex(release.Unusable, "manifest.json is damaged"):
                release.read(self.path("release"))
        self.put(MANIFEST, b"")
        self.assertRefused("manifest.json is damaged")

    def test_another_machine(self):
        here = os.uname()
        self.change_manifest(system=f"{here.sysname} another")
        self.assertCompiledInstead(f"is for {here.sysname} another, and this is {here.sysname} {here.machine}")

    def test_a_program_that_the_system_does_not_know(self):
        self.make_release(b"\x7fELF of another kind")
        self.assertRefused("doesn't start here")

    def test_a_program_that_fails_at_its_start(self):
        self.make_release(b"#!/bin/sh\nexit 3\n")
        self.assertRefused("ends here with status 3")

    def test_no_room_by_a_limit(self):
        # In blocks of 512 bytes: more than the files of other tools, less than the program.
        self.assertCompiledInstead("can't be unpacked", "File too large", before=["sh", "-c", 'ulimit -f 512; exec "$@"', "sh"])

    def mounted(self, options):
        os.makedirs(self.cache)
        return ["unshare", "-rm", "sh", "-c", f'mount -t tmpfs -o {options} none {self.cache} && exec "$@"', "sh"]

    @unittest.skipUnless(can_mount(), "no file system may be mounted here")
    def test_a_disk_without_room(self):
        self.assertCompiledInstead("can't be unpacked", "No space left on device", before=self.mounted("size=256k"))

    @unittest.skipUnless(can_mount(), "no file system may be mounted here")
    def test_a_disk_from_which_nothing_may_be_run(self):
        self.assertCompiledInstead("no program may be run from", before=self.mounted("noexec"))

    def test_a_folder_that_others_may_write_to(self):
        os.makedirs(os.path.join(self.cache, "kq"))
        os.chmod(os.path.join(self.cache, "kq"), 0o777)
        self.assertRefused("may be written by others")

    def test_a_folder_that_is_a_link(self):
        os.makedirs(os.path.join(self.room, "elsewhere"), mode=0o700)
        os.makedirs(self.cache)
        os.symlink(os.path.join(self.room, "elsewhere"), os.path.join(self.cache, "kq"))
        self.assertRefused("is a link")

    def test_a_file_in_the_place_of_the_folder(self):
        self.put("../cache", b"")
        self.assertRefused("can't be unpacked")


class Unpacked(Checkout):
    """What stands in the cache."""

    is_released = True

    def setUp(self):
        super().setUp()
        self.place = self.choose().path

    def assertWhole(self):
        self.assertEqual((self.choose().path, self.bytes_of(self.place)), (self.place, PROGRAM))

    def test_it_is_private(self):
        for path in (self.place, os.path.dirname(self.place), os.path.dirname(os.path.dirname(self.place))):
            self.assertEqual(os.stat(path).st_mode & 0o777, 0o700)

    def test_it_is_unpacked_once(self):
        before = os.stat(self.place)
        self.assertWhole()
        self.assertEqual(os.stat(self.place).st_ino, before.st_ino)

    def test_a_copy_that_was_changed_is_not_run(self):
        for spoiled in (PROGRAM.replace(b"echo ran", b"echo bad"), PROGRAM[:-1]):
            with open(self.place, "wb") as file:
                file.write(spoiled)
            self.assertWhole()

    def test_a_copy_that_lost_its_permission_is_made_anew(self):
        os.chmod(self.place, 0o600)
        self.assertWhole()

    def test_a_changed_copy_beside_a_damaged_release_is_not_run(self):
        with open(self.place, "ab") as file:
            file.write(b"echo bad\n")
        self.put(PACKED, b"")
        self.assertCompiled(self.run_tool("kq"), "cut short")

    def test_many_starts_at_once(self):
        shutil.rmtree(self.cache)
        environment = {**os.environ, **self.environment}
        started = [subprocess.Popen([self.path("tools/program")], stdout=subprocess.PIPE, env=environment) for _ in range(4)]
        self.assertEqual({process.communicate()[0].decode().strip() for process in started}, {self.place})
        self.assertEqual(os.listdir(os.path.dirname(self.place)), ["kq_console"])

    def test_another_release_stands_beside_it(self):
        other = PROGRAM + b"#\n"
        self.make_release(other)
        self.assertEqual(self.bytes_of(self.choose().path), other)
        self.assertEqual(self.bytes_of(self.place), PROGRAM)


class Sources(unittest.TestCase):
    """The checksum of the sources."""

    def test_a_shell_gives_the_same(self):
        words = "find crates.txt HANDLES crates/*/src crates/*/specs crates/*/proofs -type f | LC_ALL=C sort | xargs sha256sum | sha256sum"
        self.assertIn(words, checksums.sources_checksum.__doc__)
        found = subprocess.run(["bash", "-c", words], cwd=TOP, stdout=subprocess.PIPE, stderr=subprocess.DEVNULL).stdout.decode()
        self.assertEqual(found.split()[0], checksums.sources_checksum(TOP))

    def test_all_that_is_copied_is_there(self):
        self.assertEqual([path for path in COPIED if not os.access(os.path.join(TOP, path), os.X_OK)], [])


if __name__ == "__main__":
    unittest.main()
