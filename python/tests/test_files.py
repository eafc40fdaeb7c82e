"""Files that are replaced: killed at any call of the system's, a document has its old content or its new
one, whole, and its backup the old one."""
import os
import resource
import shutil
import signal
import stat
import struct
import tempfile
import unittest
import unittest.mock
from pathlib import Path

from json_patch import _files

OLD, NEW = b"old" * 50_000, b"new" * 70_000
# the calls that may end in the middle of a change
CALLS = ("open", "write", "fsync", "fchmod", "fchown", "replace", "unlink", "close", "stat")
ACL, DEFAULT_ACL = "system.posix_acl_access", "system.posix_acl_default"


def access_list(group, other):
    """Of an owner who reads and writes, the user 4321 who does so too, and what the group and others may."""
    nobody, mask = 2**32 - 1, 6
    entries = (1, 6, nobody), (2, 6, 4321), (4, group, nobody), (16, mask, nobody), (32, other, nobody)
    return struct.pack("<I", 2) + b"".join(struct.pack("<HHI", *entry) for entry in entries)


def killed_at(number, after, change):
    """A process of its own makes a change, and is killed before or after its call of this number.
    Returns whether it was: else the change has fewer calls."""
    child = os.fork()
    if child == 0:
        count = 0

        def counted(call):
            def made(*arguments, **named):
                nonlocal count
                count += 1
                if count == number and not after:
                    os.kill(os.getpid(), signal.SIGKILL)
                told = call(*arguments, **named)
                if count == number:
                    os.kill(os.getpid(), signal.SIGKILL)
                return told

            return made

        try:
            for name in CALLS:
                setattr(os, name, counted(getattr(os, name)))
            change()
        finally:
            os._exit(0)
    return os.WIFSIGNALED(os.waitpid(child, 0)[1])


class Replaced(unittest.TestCase):
    def setUp(self):
        self.folder = Path(tempfile.mkdtemp())
        self.addCleanup(shutil.rmtree, self.folder)
        self.file = self.folder / "document.json"
        self.file.write_bytes(OLD)
        self.file.chmod(0o640)

    def replaced(self, keeps_old=False):
        _files.replace(str(self.file), NEW, keeps_old)

    @property
    def backup(self):
        return self.folder / "document.json.orig"

    def test_killed(self):
        for kept in (False, True):
            for after in (False, True):
                number = 1
                while killed_at(number, after, lambda: self.replaced(kept)):
                    content = self.file.read_bytes()
                    self.assertIn(content, (OLD, NEW))
                    self.assertEqual(stat.S_IMODE(self.file.stat().st_mode), 0o640)
                    if kept and content == NEW:
                        self.assertEqual(self.backup.read_bytes(), OLD)
                    for left in self.folder.iterdir():
                        left.unlink()
                    self.file.write_bytes(OLD)
                    self.file.chmod(0o640)
                    number += 1
                self.assertGreater(number, 5)
                self.assertEqual(self.file.read_bytes(), NEW)
                self.setUp()

    def test_permissions_and_owner(self):
        for mode in (0o600, 0o644, 0o755, 0o400):
            self.file.chmod(mode)
            self.replaced()
            self.assertEqual(stat.S_IMODE(self.file.stat().st_mode), mode)
        try:
            os.chown(self.file, 1234, 2345)
        except OSError:
            self.skipTest("a file can be given away by root alone")
        self.replaced()
        there = self.file.stat()
        self.assertEqual((there.st_uid, there.st_gid), (1234, 2345))

    def test_group_where_the_owner_stays(self):
        """Who isn't root can't give a file away, and may give it to a group of his."""
        real = os.fchown

        def refused(descriptor, owner, group):
            if owner not in (-1, os.getuid()):
                raise PermissionError
            real(descriptor, owner, group)

        try:
            os.chown(self.file, 1234, 2345)
        except OSError:
            self.skipTest("a file can be given away by root alone")
        with unittest.mock.patch("os.fchown", refused):
            self.replaced()
        there = self.file.stat()
        self.assertEqual((there.st_uid, there.st_gid), (os.getuid(), 2345))

    def test_access_lists(self):
        """Where there is one, the mode has its mask in place of what the group may."""
        given = access_list(group=0, other=0)
        try:
            os.setxattr(self.file, ACL, given)
        except OSError:
            self.skipTest("the file system has no lists for access")
        self.replaced(keeps_old=True)
        for file in (self.file, self.backup):
            self.assertEqual(os.getxattr(file, ACL), given)
        # a new file of this folder gets one, and the document has none
        os.removexattr(self.file, ACL)
        self.file.chmod(0o640)
        os.setxattr(self.folder, DEFAULT_ACL, given)
        self.replaced()
        self.assertEqual((os.listxattr(self.file), stat.S_IMODE(self.file.stat().st_mode)), ([], 0o640))

    def test_signals_wait(self):
        """One that ends the process comes when the file is in its place."""
        for number in (signal.SIGINT, signal.SIGTERM, signal.SIGHUP, signal.SIGQUIT, signal.SIGALRM, signal.SIGUSR1, signal.SIGPIPE):
            child = os.fork()
            if child == 0:
                resource.setrlimit(resource.RLIMIT_CORE, (0, 0))
                signal.signal(number, signal.SIG_DFL)
                with unittest.mock.patch("os.fsync", lambda _: os.kill(os.getpid(), number)):
                    self.replaced()
                os._exit(0)
            status = os.waitpid(child, 0)[1]
            with self.subTest(signal=number):
                self.assertTrue(os.WIFSIGNALED(status) and os.WTERMSIG(status) == number)
                self.assertEqual([file.name for file in self.folder.iterdir()], [self.file.name])
                self.assertEqual(self.file.read_bytes(), NEW)
            self.file.write_bytes(OLD)

    def test_new_files(self):
        new = self.folder / "new.json"
        before = os.umask(0o027)
        try:
            _files.replace(str(new), NEW)
        finally:
            os.umask(before)
        self.assertEqual(stat.S_IMODE(new.stat().st_mode), 0o640)

    def test_links(self):
        link = self.folder / "link"
        link.symlink_to("document.json")
        _files.replace(str(link), NEW)
        self.assertTrue(link.is_symlink())
        self.assertEqual(self.file.read_bytes(), NEW)

    def test_backups(self):
        self.replaced(keeps_old=True)
        self.assertEqual(stat.S_IMODE(self.backup.stat().st_mode), 0o640)
        _files.replace(str(self.file), b"newer", keeps_old=True)
        self.assertEqual((self.file.read_bytes(), self.backup.read_bytes()), (b"newer", NEW))
        self.assertEqual(len(list(self.folder.iterdir())), 2)

    def test_no_folder_becomes_a_file(self):
        for name in "new/", "new/.", "new/..":
            with self.assertRaises(IsADirectoryError):
                _files.replace(os.path.join(self.folder, name), NEW)
        self.assertEqual(list(self.folder.iterdir()), [self.file])

    def test_faults_leave_nothing(self):
        for name in ("write", "fsync", "fchmod", "replace"):
            with unittest.mock.patch(f"os.{name}", side_effect=OSError(28, "No space left on device")):
                for keeps_old in (False, True):
                    with self.subTest(name=name), self.assertRaises(OSError):
                        self.replaced(keeps_old)
            self.assertEqual(self.file.read_bytes(), OLD)
            self.assertEqual(list(self.folder.iterdir()), [self.file])


if __name__ == "__main__":
    unittest.main()
