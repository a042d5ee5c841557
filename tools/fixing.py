#!/usr/bin/env python3
"""Tests `rl_scan --fix PATH..` with the file system: each file must be written as a whole, and everything else must stay unchanged.

    tools/fixing.py PROGRAM [CASE..]    by hand; runs these cases, such as Fixing.test_links, or all; it prints a line for each
                                        case, in 15 s; the status is 1 if one fails

PROGRAM is an `rl_scan` with `--fix`, which must rewrite `1E5` as `1e5` in its default style. A file keeps its permissions to read,
write and run it, its owner and group, and the symbolic links to it. A file that wouldn't keep its other names (hard links), setuid
and similar bits, or an access control list stays as it is. Cases that need root, a tmpfs, `strace` or `chattr` are reported as skipped if it is
missing. No case tests a file that changes between the last check and the rename, which are two calls of the system: that is the one
gap.
"""

import os
import re
import resource
import shutil
import signal
import stat
import subprocess
import sys
import tempfile
import time
import unittest
from pathlib import Path

OLD = b"let a = 1E5;\n"
NEW = b"let a = 1e5;\n"
# A text that takes several writes.
LONG_OLD, LONG_NEW = OLD * 20_000, NEW * 20_000
PROGRAM = Path(sys.argv[1]).resolve() if len(sys.argv) > 1 else sys.exit(__doc__)
NOBODY = {"user": 65534, "group": 65534}
IS_ROOT = os.geteuid() == 0
# The system calls of writing a file that are made to fail, each with its error.
FAILING = ["write:error=EIO", "write:error=ENOSPC", "fchmod:error=EPERM", "fsync:error=EIO", "rename:error=EBUSY", "rename:error=EXDEV"]


class Fixing(unittest.TestCase):
    """The cases, each with an empty folder of its own."""

    def setUp(self):
        self.folder = Path(self.enterContext(tempfile.TemporaryDirectory(prefix="fixing-", ignore_cleanup_errors=True)))
        self.folder.chmod(0o755)

    def fix(self, *paths, status=0, words="", before=(), stdout=subprocess.DEVNULL, **how):
        """Runs the program, which must end with this status, and with these words on standard error. Returns its output."""
        command = [*before, PROGRAM, "--fix", *paths]
        done = subprocess.run(command, stdout=stdout, stderr=subprocess.PIPE, timeout=60, check=False, **how)
        self.assertEqual((done.returncode, words in done.stderr.decode()), (status, True), done.stderr)
        return done.stdout

    def left(self, path, words, text=OLD, **how):
        """Checks that the program leaves the only file, with this text, and ends with status 2 and these words."""
        self.fix(path, status=2, words=words, **how)
        self.expect(**{path.stem: text})

    def write(self, name="a.rs", text=OLD, mode=0o644):
        path = self.folder / name
        path.write_bytes(text)
        path.chmod(mode)
        return path

    def expect(self, folder=None, **files):
        """Checks that the folder contains these files `*.rs` and no others."""
        found = {path.name: path.read_bytes() for path in (folder or self.folder).iterdir() if path.is_file()}
        self.assertEqual(found.keys(), {f"{name}.rs" for name in files})
        self.assertTrue(all(found[f"{name}.rs"] == text for name, text in files.items()), "other bytes")

    def mount(self, *options):
        """Mounts a tmpfs at the folder, up to the end of the case."""
        command = ["mount", "-t", "tmpfs", *options, "tmpfs", self.folder]
        if not IS_ROOT or subprocess.run(command, capture_output=True, check=False).returncode:
            self.skipTest("no tmpfs can be mounted")
        self.addCleanup(subprocess.run, ["umount", self.folder], check=True)

    def strace(self, *words):
        """Returns the command line that runs a program under strace."""
        if not shutil.which("strace"):
            self.skipTest("no strace")
        return ["strace", "-f", "-qq", "-o", "/dev/null", *words]

    def test_written(self):
        self.fix(self.write("a.rs"), self.write("b.rs"))
        self.expect(a=NEW, b=NEW)

    def test_nothing_to_change(self):
        path = self.write()
        self.fix(path)
        os.utime(path, ns=(1, 1))
        before = path.stat()
        self.fix(path)
        self.assertEqual((path.stat().st_ino, path.stat().st_mtime_ns), (before.st_ino, before.st_mtime_ns))

    def test_a_script_is_left_alone(self):
        text = b"#!/bin/x\n" + OLD
        self.fix(self.write(text=text), words="left alone")
        self.expect(a=text)
        self.assertEqual(self.fix(words="left alone", input=text, stdout=subprocess.PIPE), text)

    def test_a_closed_output(self):
        self.write("a.rs")
        second = self.write("b.rs")
        reader, writer = os.pipe()
        os.close(reader)
        self.addCleanup(os.close, writer)
        self.fix(self.folder, status=2, words="write failed", stdout=writer)
        self.assertEqual(second.read_bytes(), OLD)

    def test_permissions_stay(self):
        for mode, umask in ((0o640, 0o027), (0o664, 0o002), (0o770, 0o007), (0o600, 0o077), (0o755, 0o077), (0o666, 0o077)):
            path = self.write(mode=mode)
            self.fix(path, umask=umask)
            self.assertEqual(stat.S_IMODE(path.stat().st_mode), mode)

    def test_permissions_that_could_change(self):
        # The last three files may have an access control list, whose mask their group would get.
        for mode, umask in ((0o4755, 0o022), (0o2755, 0o022), (0o1644, 0o022), (0o640, 0o022), (0o664, 0o022), (0o660, 0o002)):
            path = self.write(mode=mode)
            self.left(path, "its permissions or access control list could change", umask=umask)
            self.assertEqual(stat.S_IMODE(path.stat().st_mode), mode)

    def test_an_access_control_list(self):
        path = self.write(mode=0o640)
        if not shutil.which("setfacl") or subprocess.run(["setfacl", "-m", "u:nobody:rw", path], check=False).returncode:
            self.skipTest("no access control lists")
        self.left(path, "its permissions or access control list could change", umask=0o022)

    @unittest.skipUnless(IS_ROOT, "not root")
    def test_the_owner_stays(self):
        path = self.write(mode=0o640)
        os.chown(path, 1234, 2345)
        self.fix(path, umask=0o027)
        found = path.stat()
        self.assertEqual((found.st_uid, found.st_gid, stat.S_IMODE(found.st_mode)), (1234, 2345, 0o640))

    @unittest.skipUnless(IS_ROOT, "not root")
    def test_a_file_whose_owner_would_change(self):
        self.folder.chmod(0o777)
        # The program runs as a user who may write the files, and may not give them to another user or group.
        for user, group in ((1234, 2345), (NOBODY["user"], 2345), (1234, NOBODY["group"])):
            path = self.write(mode=0o666)
            os.chown(path, user, group)
            self.left(path, "its owner or group would change", **NOBODY)
            self.assertEqual((path.stat().st_uid, path.stat().st_gid), (user, group))

    @unittest.skipUnless(IS_ROOT, "not root")
    def test_a_file_that_the_user_may_not_write(self):
        self.folder.chmod(0o777)
        path = self.write(mode=0o644)
        os.chown(path, 1234, 2345)
        self.left(path, "permission denied", **NOBODY)

    def test_links_are_followed(self):
        inner, first, second = (self.folder / name for name in ("in", "b.rs", "c.rs"))
        inner.mkdir()
        self.write("in/a.rs", mode=0o755)
        first.symlink_to("in/a.rs")
        second.symlink_to(first)
        self.fix(second)
        self.assertTrue(first.is_symlink() and second.is_symlink())
        self.expect(inner, a=NEW)
        self.expect(b=NEW, c=NEW)

    def test_a_file_with_other_names(self):
        path = self.write()
        os.link(path, self.folder / "b.rs")
        self.fix(path, status=2, words="has other hard links")
        self.expect(a=OLD, b=OLD)

    def test_a_file_that_nobody_may_write(self):
        self.left(self.write(mode=0o444), "permission denied")

    def test_a_folder_that_may_not_be_written(self):
        path = self.write(mode=0o666)
        self.folder.chmod(0o555)
        # Permissions don't restrict root, so the program runs as another user.
        self.left(path, "no permission to write in its directory", **(NOBODY if IS_ROOT else {}))

    def test_a_folder_that_root_may_not_write(self):
        path = self.write()
        is_there = IS_ROOT and shutil.which("chattr")
        if not is_there or subprocess.run(["chattr", "+i", self.folder], capture_output=True, check=False).returncode:
            self.skipTest("no chattr")
        self.addCleanup(subprocess.run, ["chattr", "-i", self.folder], check=True)
        self.left(path, "no permission to write in its directory")

    def test_a_full_disk(self):
        self.mount("-o", "size=64k")
        text = OLD * (40_000 // len(OLD))
        self.left(self.write(text=text), "no space left", text)

    def test_a_disk_that_is_only_read(self):
        self.mount()
        path = self.write()
        subprocess.run(["mount", "-o", "remount,ro", self.folder], check=True)
        self.left(path, "read-only file system")

    def test_a_file_that_may_not_grow(self):
        def limit():
            signal.signal(signal.SIGXFSZ, signal.SIG_IGN)
            resource.setrlimit(resource.RLIMIT_FSIZE, (1_000, 1_000))

        self.left(self.write(text=LONG_OLD), "write failed", LONG_OLD, preexec_fn=limit)

    def test_a_name_that_gets_too_long(self):
        self.left(self.write(f"{'a' * 250}.rs"), "path too long")

    def test_leftovers_stay(self):
        path = self.write()
        self.write("a.rs.rl_scan-0", b"left"), self.write("a.rs.rl_scan-1", b"over")
        self.fix(path)
        self.assertEqual(path.read_bytes(), NEW)
        self.assertEqual(sorted(each.read_bytes() for each in self.folder.glob("a.rs.*")), [b"left", b"over"])

    def test_no_name_is_left(self):
        path = self.write()
        for number in range(100):
            self.write(f"a.rs.rl_scan-{number}", b"")
        self.fix(path, status=2, words="are in use")
        self.assertEqual((path.read_bytes(), len(list(self.folder.iterdir()))), (OLD, 101))

    def test_several_at_once(self):
        for _ in range(20):
            path = self.write(text=LONG_OLD)
            calls = [subprocess.Popen([PROGRAM, "--fix", path], stdout=subprocess.DEVNULL, stderr=subprocess.DEVNULL) for _ in range(4)]
            statuses = {call.wait(60) for call in calls}
            self.assertTrue(0 in statuses <= {0, 2}, statuses)
            self.expect(a=LONG_NEW)

    def changed_before(self, before, seconds, path, text):
        """Writes the text to the file while the program, which runs by the command `before`, waits `seconds` after it wrote the new
        file. The program must leave the text alone."""
        call = subprocess.Popen([*before, PROGRAM, "--fix", path], stdout=subprocess.DEVNULL, stderr=subprocess.PIPE)
        end = time.monotonic() + 20
        while not any(each.stat().st_size == len(NEW) for each in self.folder.glob("a.rs.*")) and time.monotonic() < end:
            time.sleep(0.01)
        time.sleep(seconds)
        path.write_bytes(text)
        said = call.communicate(timeout=60)[1].decode()
        self.assertEqual((call.returncode, "changed since it was read" in said), (2, True), said)
        self.expect(a=text)

    def test_a_file_that_changed_meanwhile(self):
        before = self.strace("-e", "trace=fsync", "-e", "inject=fsync:delay_enter=2000000")
        self.changed_before(before, 0, self.write(), b"let b = 2;\n")

    def test_a_file_that_changed_while_it_was_compared(self):
        # The file is opened to read it, to test whether it may be written, and to compare it. Each close after the first one waits.
        path = self.write()
        before = self.strace("-P", path, "-e", "trace=close", "-e", "inject=close:delay_enter=2000000:when=2+")
        self.changed_before(before, 1, path, b"let b = 1E6;\n")

    def test_calls_that_fail(self):
        for fails in FAILING:
            # Only calls for the new file fail, and not those for the program's output.
            new = self.folder / "a.rs.rl_scan-0"
            before = self.strace("-P", new, "-e", f"trace={fails.split(':')[0]}", "-e", f"inject={fails}")
            self.left(self.write(), "", before=before)
        # If the new file can't be removed either, it stays.
        path = self.write()
        self.fix(path, status=2, before=self.strace("-e", "trace=fsync,unlink", "-e", "inject=fsync,unlink:error=EIO"))
        self.assertEqual((path.read_bytes(), len(list(self.folder.iterdir()))), (OLD, 2))

    def fresh(self):
        """Creates two files to rewrite, and removes all others."""
        for path in self.folder.iterdir():
            path.unlink()
        return [self.write(name, LONG_OLD) for name in ("a.rs", "b.rs")]

    def test_killed_at_each_call(self):
        # The program is killed when it enters each system call on files of a whole run. Then each file must be the old or the new one.
        with tempfile.NamedTemporaryFile() as log:
            self.fix(*self.fresh(), before=self.strace("-o", log.name, "-e", "trace=%file,%desc"))
            # The first call starts the program.
            names = re.findall(r"^\d+\s+(\w+)\(", log.read().decode(), re.M)
        self.assertLessEqual({"write", "fchmod", "fsync"}, set(names[1:]))
        for at, name in list(enumerate(names))[1:]:
            number, paths = names[:at + 1].count(name), self.fresh()
            inject = f"inject={name}:signal=KILL:when={number}"
            before = self.strace("-e", f"trace={name}", "-e", inject)
            done = subprocess.run([*before, PROGRAM, "--fix", *paths], capture_output=True, timeout=60, check=False)
            self.assertNotEqual(done.returncode, 0, inject)
            left = [path.name for path in self.folder.iterdir() if path not in paths]
            self.assertTrue(len(left) <= 1 and all(re.fullmatch(r"[ab]\.rs\.rl_scan-\d+", each) for each in left), f"{inject}: {left}")
            self.assertTrue(all(path.read_bytes() in (LONG_OLD, LONG_NEW) for path in paths), f"{inject}: neither old nor new")


if __name__ == "__main__":
    unittest.main(argv=[sys.argv[0], "-v", *sys.argv[2:]])
