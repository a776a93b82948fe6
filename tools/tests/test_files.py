"""A file that is written stands there whole, or is as it was."""

import errno
import os
import signal
import stat
import subprocess
import sys
import threading
import unittest
from unittest import mock

from helpers import TOOLS, FolderTest

import files

OLD, NEW = b"what was there before", b"all that is new\n" * 400


class Whole(FolderTest):
    """`write_whole`."""

    def setUp(self):
        super().setUp()
        self.file = self.folder / "file"

    def put_old(self, mode=0o640):
        self.file.write_bytes(OLD)
        self.file.chmod(mode)

    def names(self):
        return sorted(os.listdir(self.folder))

    def assert_told(self, path, reason):
        with self.assertRaises(files.AccessFailure) as caught:
            files.write_whole(str(path), NEW)
        self.assertEqual(str(caught.exception), f"{path}: cannot be written: {reason}")

    def test_a_new_file_has_all_bytes_and_the_usual_mode(self):
        for mask, mode in ((0o022, 0o644), (0o077, 0o600), (0, 0o666)):
            before = os.umask(mask)
            self.addCleanup(os.umask, before)
            files.write_whole(str(self.file), NEW)
            os.umask(before)
            self.assertEqual(self.file.read_bytes(), NEW)
            self.assertEqual(stat.S_IMODE(self.file.stat().st_mode), mode)
            self.assertEqual(self.names(), ["file"])
            self.file.unlink()

    def test_an_old_file_is_replaced_and_its_mode_kept(self):
        for mode in (0o640, 0o755, 0o666):
            self.put_old(mode)
            files.write_whole(str(self.file), NEW)
            self.assertEqual(self.file.read_bytes(), NEW)
            self.assertEqual(stat.S_IMODE(self.file.stat().st_mode), mode)
        self.assertEqual(self.names(), ["file"])

    def test_the_mode_is_kept_also_where_the_owner_cannot_be(self):
        for number in (errno.EPERM, errno.EINVAL, errno.EOPNOTSUPP):
            error = OSError(number, os.strerror(number))
            for only_owner in (True, False):
                def fchown(_, owner, group, only_owner=only_owner, error=error):
                    if owner != -1 or not only_owner:
                        raise error
                    self.groups.append(group)

                self.groups = []
                self.put_old(0o604)
                with mock.patch.object(os, "fchown", fchown):
                    files.write_whole(str(self.file), NEW)
                self.assertEqual(self.file.read_bytes(), NEW)
                self.assertEqual(stat.S_IMODE(self.file.stat().st_mode), 0o604)
                self.assertEqual(self.groups, [self.file.stat().st_gid] * only_owner)
        self.assertEqual(self.names(), ["file"])

    def test_who_has_the_old_file_open_reads_the_old_bytes(self):
        self.put_old()
        with open(self.file, "rb") as opened:
            files.write_whole(str(self.file), NEW)
            self.assertEqual(opened.read(), OLD)

    def test_where_a_step_fails_the_old_file_is_as_it_was(self):
        for step in ("fchmod", "fsync", "replace"):
            with self.subTest(step), mock.patch.object(os, step, side_effect=OSError(28, "full")):
                self.put_old()
                self.assert_told(self.file, "full")
                self.assertEqual((self.file.read_bytes(), self.names()), (OLD, ["file"]))
                self.file.unlink()
                self.assert_told(self.file, "full")
                self.assertEqual(self.names(), [])

    def test_where_the_disk_is_full_the_old_file_is_as_it_was(self):
        # A limit of no bytes for a file takes the place of a full disk.
        self.put_old()
        code = (
            "import files, resource\n"
            "resource.setrlimit(resource.RLIMIT_FSIZE, (0, 0))\n"
            f"files.run(lambda: files.write_whole({str(self.file)!r}, b'new'))\n"
        )
        command = [sys.executable, "-c", code]
        done = subprocess.run(command, cwd=TOOLS, capture_output=True, timeout=60)
        self.assertEqual((done.returncode, done.stdout), (3, b""), done.stderr)
        self.assertIn(os.strerror(errno.EFBIG).encode(), done.stderr)
        self.assertEqual((self.file.read_bytes(), self.names()), (OLD, ["file"]))

    def test_what_ends_the_tool_removes_the_new_file(self):
        self.put_old()
        for error in (KeyboardInterrupt, SystemExit, MemoryError):
            with mock.patch.object(os, "fsync", side_effect=error), self.assertRaises(error):
                files.write_whole(str(self.file), NEW)
            self.assertEqual((self.file.read_bytes(), self.names()), (OLD, ["file"]))

    def test_a_signal_waits_until_the_file_is_whole(self):
        seen = []
        before = signal.signal(signal.SIGTERM, lambda *_: seen.append(self.file.read_bytes()))
        self.addCleanup(signal.signal, signal.SIGTERM, before)
        self.put_old()
        fsync = os.fsync

        def interrupted(number):
            os.kill(os.getpid(), signal.SIGTERM)
            fsync(number)

        with mock.patch.object(os, "fsync", interrupted):
            files.write_whole(str(self.file), NEW)
        self.assertEqual(seen, [NEW])

    def test_links_are_followed(self):
        self.put_old()
        (self.folder / "sub").mkdir()
        (self.folder / "sub" / "link").symlink_to("../file")
        (self.folder / "link").symlink_to("sub/link")
        files.write_whole(str(self.folder / "link"), NEW)
        self.assertEqual(self.file.read_bytes(), NEW)
        self.assertEqual(os.readlink(self.folder / "link"), "sub/link")
        self.assertEqual(os.readlink(self.folder / "sub" / "link"), "../file")
        self.assertEqual(os.listdir(self.folder / "sub"), ["link"])

    def test_a_link_to_nothing_makes_what_it_names(self):
        (self.folder / "link").symlink_to("file")
        files.write_whole(str(self.folder / "link"), NEW)
        self.assertTrue((self.folder / "link").is_symlink())
        self.assertEqual(self.file.read_bytes(), NEW)

    def test_links_in_a_circle_are_told_and_stay(self):
        (self.folder / "a").symlink_to("b")
        (self.folder / "b").symlink_to("a")
        self.assert_told(self.folder / "a", os.strerror(errno.ELOOP))
        self.assertEqual((self.names(), os.readlink(self.folder / "a")), (["a", "b"], "b"))

    def test_what_can_t_be_a_file_is_told(self):
        self.put_old()
        for path, number in (
            (self.folder, errno.EISDIR), (f"{self.folder}/", errno.EISDIR),
            (f"{self.folder}/none/", errno.EISDIR), (self.folder / "none" / "file", errno.ENOENT),
            (self.file / "file", errno.ENOTDIR), (self.folder / ("x" * 300), errno.ENAMETOOLONG),
        ):
            with self.subTest(path):
                self.assert_told(path, os.strerror(number))
        self.assertEqual((self.file.read_bytes(), self.names()), (OLD, ["file"]))

    def test_a_file_that_may_not_be_written_is_as_it_was(self):
        self.put_old(0o444)
        with mock.patch.object(os, "access", return_value=False) as asked:
            self.assert_told(self.file, os.strerror(errno.EACCES))
        asked.assert_called_once_with(str(self.file.resolve()), os.W_OK)
        self.assertEqual((self.file.read_bytes(), self.names()), (OLD, ["file"]))

    def test_a_pipe_is_written_to(self):
        os.mkfifo(self.file)
        read = []
        reader = threading.Thread(target=lambda: read.append(self.file.read_bytes()))
        reader.start()
        files.write_whole(str(self.file), NEW)
        reader.join()
        self.assertEqual(read, [NEW])
        self.assertTrue(stat.S_ISFIFO(self.file.stat().st_mode))
        self.assertEqual(self.names(), ["file"])

    def test_a_device_is_written_to(self):
        files.write_whole("/dev/null", NEW)
        self.assert_told("/dev/full", os.strerror(errno.ENOSPC))
        for device in ("/dev/null", "/dev/full"):
            self.assertTrue(stat.S_ISCHR(os.stat(device).st_mode))

    def test_an_open_file_is_written_to_where_it_is(self):
        # By its number, or by a link as /dev/stdout is one: it goes on behind what is there.
        self.put_old()
        with open(self.file, "ab") as opened:
            files.write_whole(f"/dev/fd/{opened.fileno()}", b" and more")
            (self.folder / "link").symlink_to(f"/proc/self/fd/{opened.fileno()}")
            files.write_whole(str(self.folder / "link"), b", and more")
        self.assertEqual(self.file.read_bytes(), OLD + b" and more, and more")
        self.assertEqual(self.names(), ["file", "link"])


if __name__ == "__main__":
    unittest.main()
