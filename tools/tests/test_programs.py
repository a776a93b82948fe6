"""The proved programs are built and called; here scripts take their place."""

import signal
import subprocess
import sys
import unittest
from unittest import mock

from helpers import TOOLS, FolderTest

import files
import programs


class Scripts(FolderTest):
    """A folder as root of the repository."""

    def setUp(self):
        super().setUp()
        for name, value in (("ROOT", self.folder), ("BUILDING", self.folder / "building")):
            patch = mock.patch.object(programs, name, value)
            patch.start()
            self.addCleanup(patch.stop)

    def script(self, name, *rows):
        path = self.write(name, "\n".join(["#!/bin/sh", *rows]) + "\n")
        path.chmod(0o755)
        return path

    def assert_told(self, call, message):
        with self.assertRaises(files.AccessFailure) as caught:
            call()
        self.assertEqual(str(caught.exception), message)


class Output(Scripts):
    def output(self):
        return programs.output_of("some", b"model")

    def test_both_outputs_are_given(self):
        self.script("target/bin/some", "cat", "echo refused >&2")
        self.assertEqual(self.output(), (b"model", b"refused\n"))

    def test_a_program_may_leave_its_input_unread(self):
        self.script("target/bin/some", "echo told")
        self.assertEqual(programs.output_of("some", bytes(1_000_000)), (b"told\n", b""))

    def test_a_program_that_fails_is_a_failure(self):
        for row, why in (("exit 3", "status 3"), ("kill -SEGV $$", "signal 11"),
                         ("kill -KILL $$", "signal 9")):
            self.script("target/bin/some", "echo all; " + row)
            self.assert_told(self.output, f"the program some failed ({why})")

    def test_unexpected_messages_are_shown_in_one_row(self):
        for err, told in ((b"full\n", "full"), (b"a\tb\xff\nmore\n", r"a\tb\udcff"), (b"\n", "")):
            message = f"the program some failed (on standard error: {told})"
            self.assertEqual(str(programs.unexpected("some", err)), message)

    def test_a_program_that_does_not_end_is_a_failure(self):
        self.script("target/bin/some", "exec sleep 60")
        with mock.patch.object(programs, "TIME_LIMIT", 0.1):
            self.assert_told(self.output, "the program some failed (no answer in 0.1 s)")

    def test_a_program_that_can_t_be_run_is_named(self):
        path = self.folder / "target" / "bin" / "some"
        self.assert_told(self.output, f"{path} can't be run: No such file or directory")
        self.script("target/bin/some").chmod(0o644)
        self.assert_told(self.output, f"{path} can't be run: Permission denied")


class Ready(Scripts):
    def ready(self):
        programs.ready("some", "caller")

    def test_it_is_built_under_the_name_of_the_caller(self):
        # Standard input is not for it.
        self.script("building", f"{{ echo \"$@\"; cat; }} > '{self.folder}/words'")
        self.ready()
        self.assertEqual((self.folder / "words").read_text(), "caller some\n")

    def test_a_build_that_fails_is_a_failure(self):
        self.script("building", "exit 2")
        self.assert_told(self.ready, "the program is not ready, so nothing could be run")
        (self.folder / "building").unlink()
        path = self.folder / "building"
        self.assert_told(self.ready, f"{path} can't be run: No such file or directory")

    def test_an_interrupt_ends_the_build(self):
        # It has a moment to end what it has started. The interrupt comes when it has been started.
        ended = self.folder / "ended"
        self.script("building", f"trap 'touch {ended}; exit 143' TERM", "sleep 0.5", "echo on >&2",
                    "for _ in $(seq 500); do sleep 0.01; done")
        code = (
            "import pathlib, programs\n"
            f"programs.BUILDING = pathlib.Path({str(self.folder / 'building')!r})\n"
            "programs.ready('some', 'caller')\n"
        )
        pipes = {"stdout": subprocess.PIPE, "stderr": subprocess.PIPE}
        with subprocess.Popen([sys.executable, "-c", code], cwd=TOOLS, **pipes) as started:
            self.assertEqual(started.stderr.readline(), b"on\n")
            started.send_signal(signal.SIGINT)
            started.communicate(timeout=20)
        self.assertTrue(ended.exists())


if __name__ == "__main__":
    unittest.main()
