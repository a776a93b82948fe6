#!/usr/bin/env python3
"""Test the command `pepperscarp`, and `pepperscarp canonical` above all, as a user's shell would.

    command.py

What is expected of models is worked out by the exact program, digests by `hashlib` and by the
system's `sha256sum`. Tests are made in small clones with the built programs, target/bin/envelope
and target/bin/canonical, and fail where there are none. Nothing is proved (`clones`).
"""

from __future__ import annotations

import errno
import hashlib
import itertools
import os
import pty
import re
import shutil
import signal
import stat
import subprocess
import sys
import threading
import time
import unittest
from dataclasses import replace
from pathlib import Path
from typing import Any, Sequence

from claims import STILL
from clones import (
    EXAMPLES, PROGRAMS, ROOT, SAMPLE, SAMPLE_TEXT, TIME_LIMIT, Clone, heed_signals, is_free, script,
    until,
)

sys.path.insert(0, str(ROOT / "tools"))

import exact  # noqa: E402
import models  # noqa: E402
import pack  # noqa: E402
from layout import BOX, DEFAULT_STEPS, VERTICES, Model, Set, encode, zero_box  # noqa: E402

Done = subprocess.CompletedProcess
CUT = SAMPLE[:-1]
CUT_TOLD = (
    b"%s: refused 1 at 185: the file ends where a guard (40) or the end (FF) should come:"
    b" add it, or get the whole file\n"
)
TEXT = STILL  # nothing is rounded, and there is an input set
TEXT_FILE = bytes.fromhex(
    f"01010300 020000800000{'00' * 20} 1000000000{'00' * 20} 1108000000{'00' * 20}"
    f"2000000000{'00' * 20} 2101000000{'00' * 20} 3001000000{'00' * 20} 40000900000000000000 FF"
)
WRONG = "steps 3\n"
# One that can be saved in many ways, and one that differs from it in one entry.
SAVED = Model(2, DEFAULT_STEPS, ((-1, 0), (0, 131_072)), zero_box(2), zero_box(2), ((1, 0),), ((0, 4),))
OTHER = replace(SAVED, matrix=((-1, 0), (0, 131_071)))


def setUpModule() -> None:
    heed_signals()


def written(data: bytes) -> bytes:
    """The canonical file of a model, packed or as a text, as the exact program has it."""
    packed = data if data[:1] == b"\x01" else pack.parse(data.decode()).data
    model = exact.read_model(packed)
    assert isinstance(model, Model), model
    return exact.canonical(model)


def digest(data: bytes) -> bytes:
    return hashlib.sha256(written(data)).hexdigest().encode()


class Command(Clone):
    """The command `pepperscarp canonical` in a clone; models lie in a folder beside it."""

    WORDS = ("pepperscarp", "canonical")
    NAME = "canonical"
    SIGNALS = (signal.SIGINT, signal.SIGTERM, signal.SIGHUP)

    def setUp(self) -> None:
        super().setUp()
        self.models = self.folder / "models"
        self.models.mkdir()

    def put(self, name: str | bytes, content: str | bytes) -> Path:
        """A file among the models."""
        path = self.models / os.fsdecode(name)
        path.parent.mkdir(parents=True, exist_ok=True)
        path.write_bytes(content.encode() if isinstance(content, str) else content)
        return path

    def run_in(self, *words: str | bytes | Path, **how: Any) -> Done[bytes]:
        """What the command does among the models; nothing that it says tells of a fault in it."""
        done = self.run_on(*words, **{"cwd": self.models, **how})
        for output in (done.stdout or b"", done.stderr or b""):
            self.assertNotRegex(output, rb"Traceback|fault of the tool")
        return done

    def run_shell(self, text: str, **how: Any) -> Done[bytes]:
        """What a row of the shell does, in which `$c` is the command."""
        command = " ".join([f"'{self.clone / self.WORDS[0]}'", *self.WORDS[1:]])
        return self.run_in("-c", text.replace("$c", command), command="bash", **how)

    def assert_told(self, done: Done[bytes], status: int, *messages: str) -> None:
        """A status, nothing on standard output, and one row on standard error for each message."""
        self.assert_done(done, status, b"")
        rows = done.stderr.decode().splitlines()
        self.assertEqual(len(rows), len(messages), rows)
        for row, message in zip(rows, messages):
            self.assertRegex(row, message)

    def names(self, folder: Path | None = None) -> list[str]:
        return sorted(os.listdir(folder or self.models))

    def heeds(self, started: subprocess.Popen[bytes]) -> bool:
        """Whether it is loaded, and catches signals."""
        told = Path(f"/proc/{started.pid}/status").read_text()
        (caught,) = re.findall(r"^SigCgt:\s*(\w+)$", told, re.MULTILINE)
        return all(int(caught, 16) >> signal_ - 1 & 1 for signal_ in self.SIGNALS)

    def interrupt(self, started: subprocess.Popen[bytes], signal_: int, group: bool = False) -> None:
        """Send a signal to it alone, or to all of its processes, as a terminal does."""
        (os.killpg if group else os.kill)(started.pid, signal_)
        out, err = started.communicate(timeout=TIME_LIMIT)
        self.assertEqual((started.returncode, out, err), (128 + signal_, b"", b""))
        self.assertEqual(list(self.temporary.iterdir()), [])


class Words(Command):
    """`pepperscarp` itself."""

    WORDS = ("pepperscarp",)

    def test_without_a_command_it_tells_which_there_are(self) -> None:
        usage = r"^pepperscarp: usage: \./pepperscarp list \| report \| canonical \| changed "
        for words, message in (
            ([], "^pepperscarp: name a command: list, report, canonical or changed$"),
            ([""], "^pepperscarp: name a command: "),
            (["lists"], "^pepperscarp: unknown command lists$"),
            (["--none"], "^pepperscarp: unknown command --none$"),
            (["-"], "^pepperscarp: unknown command -$"),
            (["rail.model", "list"], "^pepperscarp: unknown command rail.model$"),
        ):
            with self.subTest(words):
                self.assert_told(self.run_in(*words), 2, message, usage)

    def test_help_tells_the_commands(self) -> None:
        done = self.run_in("--help")
        self.assertEqual((done.returncode, done.stderr), (0, b""))
        for part in (b"usage: ./pepperscarp COMMAND", b"\n  list ", b"./run", b"\n  report ", b"./report",
                     b"\n  canonical ", b"\n  changed ", b"--version"):
            self.assertIn(part, done.stdout)

    def test_the_examples_of_help_work(self) -> None:
        (self.clone / "examples").symlink_to(EXAMPLES)
        examples = re.findall(r"\n  (\./pepperscarp .*)", self.run_in("--help").stdout.decode())
        self.assertEqual([example.split()[1] for example in examples], ["list", "report", "canonical", "changed"])
        for example in examples:
            done = self.run_in("-c", example, command="bash", cwd=self.clone)
            self.assertEqual(done.returncode, 3 if "report" in example or "changed" in example else 0, done.stderr)
            self.assertTrue(done.stdout)

    def test_the_version_is_that_of_run(self) -> None:
        version = b"Pepperscarp " + (ROOT / "VERSION").read_bytes()
        for words in ([], ["list"], ["report"], ["canonical"], ["changed"]):
            self.assert_done(self.run_in(*words, "--version"), 0, version, b"")

    def test_list_and_report_are_run_and_report(self) -> None:
        self.put("m.model", TEXT)
        self.put("cut.bin", CUT)
        self.put("-dash.model", TEXT)
        calls = ["m.model"], ["cut.bin", "m.model"], ["missing"], [], ["--help"], ["--", "-dash.model"], ["-"]
        statuses = set()
        for sub, old in (("list", "run"), ("report", "report")):
            for words in calls:
                with self.subTest(f"{sub} {words}"):
                    expected = self.run_in(*words, command=self.clone / old, data=TEXT.encode())
                    done = self.run_in(sub, *words, data=TEXT.encode())
                    statuses.add((sub, done.returncode))
                    self.assert_done(done, expected.returncode, expected.stdout, expected.stderr)
        self.assertLessEqual({("list", 0), ("list", 1), ("list", 2), ("report", 1), ("report", 2)}, statuses)
        self.assert_done(self.run_in("list", "-", data=SAMPLE), 0, SAMPLE_TEXT, b"")

    def test_help_of_a_command_is_told(self) -> None:
        for sub, start in (("list", b"usage: ./run "), ("report", b"Answer models "),
                           ("canonical", b"Write the canonical file of a model"),
                           ("changed", b"Report which guards of models ")):
            done = self.run_in(sub, "--help")
            self.assertEqual((done.returncode, done.stderr), (0, b""))
            self.assertTrue(done.stdout.startswith(start), done.stdout)

    def test_help_has_one_term_and_says_what_is_left_out(self) -> None:
        for words in (["--help"], ["changed", "--help"], ["canonical", "--help"]):
            told = self.run_in(*words).stdout
            self.assertIn(b"guard is reached" if "changed" in words else b"canonical file", told)
            self.assertNotRegex(told, rb"one file|but for|is told|are taken")
        for part in (rb"hidden\s+files\s+and\s+folders", rb"sha256sum\s+-c\s+fails", rb"byte\s+01",
                     rb"rows\s+of\s+the\s+others\s+are\s+still\s+written"):
            self.assertRegex(told, part)

    def test_it_works_through_links_and_from_any_directory(self) -> None:
        self.put("m.model", TEXT)
        (self.bin / "pepperscarp").symlink_to(self.clone / "pepperscarp")
        (self.folder / "relative").symlink_to("bin/pepperscarp")
        for command in ("pepperscarp", "./relative", "clone/pepperscarp", "bash clone/pepperscarp"):
            for sub, expected in (("list", None), ("canonical", TEXT_FILE)):
                with self.subTest(f"{command} {sub}"):
                    line = f"{command} {sub} models/m.model"
                    done = self.run_in("-c", line, command="bash", cwd=self.folder)
                    self.assertEqual((done.returncode, done.stderr), (0, b""))
                    self.assertEqual(done.stdout, expected or exact.listing(TEXT_FILE).encode())
        self.assertEqual(self.calls(), 0)

    def test_the_folder_of_the_clone_may_have_any_name(self) -> None:
        moved = self.clone.rename(self.folder / "a clone's *")
        for words, expected in ((["list"], SAMPLE_TEXT), (["canonical"], SAMPLE)):
            done = self.run_in(*words, "-", command=moved / "pepperscarp", data=SAMPLE)
            self.assert_done(done, 0, expected, b"")
        os.utime(moved / "crates.txt")
        done = self.run_in("canonical", "-", command=moved / "pepperscarp", data=SAMPLE)
        self.assert_done(done, 0, SAMPLE)
        self.assertEqual(self.calls(), 1)

    def test_without_python3_a_packed_file_is_listed_and_the_rest_is_told(self) -> None:
        path = self.path(without="python3")
        self.assert_done(self.run_in("list", "-", data=SAMPLE, path=path), 0, SAMPLE_TEXT, b"")
        for sub in ("canonical", "changed"):
            told = f"^pepperscarp: {sub} needs python3, which was not found$"
            self.assert_told(self.run_in(sub, "-", data=SAMPLE, path=path), 2, told)
        self.assert_told(self.run_in("report", "-", data=SAMPLE, path=path), 2, "python3.* is not there$")

    def test_a_command_that_is_not_there_has_status_2(self) -> None:
        for name, sub in (("run", "list"), ("report", "report"), ("tools/canonical.py", "canonical"),
                          ("tools/changed.py", "changed")):
            (self.clone / name).unlink()
            done = self.run_in(sub, "-", data=SAMPLE)
            self.assert_done(done, 2, b"")
            self.assertIn(os.strerror(errno.ENOENT).encode(), done.stderr)

    def test_output_that_fails_has_status_2(self) -> None:
        for words in (["--help"], ["--version"], ["canonical", "--help"], ["canonical", "--version"],
                      ["changed", "--help"]):
            for output in ("> /dev/full", ">&-"):
                with self.subTest(f"{words} {output}"):
                    done = self.run_shell(f"$c {' '.join(words)} {output}")
                    self.assert_told(done, 2, "^(pepperscarp|run|canonical|changed): standard output.* written")


class OneFile(Command):
    """Without options: the canonical file of one model."""

    def test_a_text_and_its_packed_file_are_written(self) -> None:
        self.put("m.model", TEXT)
        self.put("m.bin", pack.parse(TEXT).data)
        for words in (["m.model"], ["m.bin"], ["--quiet", "m.model"], ["m.model", "-o", "-"]):
            with self.subTest(words):
                self.assert_done(self.run_in(*words), 0, TEXT_FILE, b"")

    def test_each_example_is_written_alike_from_both(self) -> None:
        paths = sorted(EXAMPLES.glob("*.model"))
        self.assertGreater(len(paths), 8)
        for text in paths[::4]:
            expected = written(text.with_suffix(".bin").read_bytes())
            self.assert_done(self.run_in("--quiet", text), 0, expected, b"")
            self.assert_done(self.run_in(text.with_suffix(".bin")), 0, expected, b"")
        names = [name for path in paths for name in (path.name, path.with_suffix(".bin").name)]
        rows = [digest((EXAMPLES / name).with_suffix(".bin").read_bytes()) + b"  " + name.encode() for name in names]
        done = self.run_in("--digest", "--quiet", *names, cwd=EXAMPLES)
        self.assert_done(done, 0, b"".join(row + b"\n" for row in rows), b"")

    def test_every_way_to_save_a_model_is_written_alike(self) -> None:
        ways = list(models.saved_ways(SAVED))
        expected = exact.canonical(SAVED)
        self.assertIn(expected, ways)
        for way in ways[::5]:
            self.assert_done(self.run_in("-", data=way), 0, expected, b"")

    def test_names_units_and_comments_have_no_part_in_it(self) -> None:
        other = "# another one\n" + TEXT.replace("value", "x").replace("largest", "d").replace("above", "g")
        other = other.replace("row", "time 5 ms\nunit x mV\nrow") + "unit d °C 16 # in sixteenths\n"
        self.assert_done(self.run_in("-", data=other.encode()), 0, TEXT_FILE, b"")

    def test_notes_are_told_as_run_tells_them(self) -> None:
        for name in ("rail", "cooling", "fitted"):
            text, expected = EXAMPLES / f"{name}.model", written((EXAMPLES / f"{name}.bin").read_bytes())
            notes = self.run_in(text, command=self.clone / "run").stderr
            self.assertRegex(notes, rb": \d+ entries were rounded ")
            self.assert_done(self.run_in(text), 0, expected, notes)
            self.assert_done(self.run_in(text, "--quiet"), 0, expected, b"")
        self.assertIn(b": no input set: ", self.run_in(EXAMPLES / "cooling.model").stderr)

    def test_standard_input_and_pipes_are_models(self) -> None:
        os.mkfifo(self.models / "pipe")
        for data in (TEXT.encode(), TEXT_FILE):
            self.assert_done(self.run_in("-", data=data), 0, TEXT_FILE, b"")
            self.assert_done(self.run_in("/dev/stdin", data=data), 0, TEXT_FILE, b"")
            writer = threading.Thread(target=(self.models / "pipe").write_bytes, args=(data,))
            writer.start()
            self.assert_done(self.run_in("pipe"), 0, TEXT_FILE, b"")
            writer.join()
            self.put("m", data)
            self.assert_done(self.run_shell("$c <(cat m)"), 0, TEXT_FILE, b"")
            self.assert_done(self.run_shell("cat m | $c - | $c - | cat"), 0, TEXT_FILE, b"")

    def test_a_terminal_gets_no_bytes(self) -> None:
        self.put("m.model", TEXT)
        master, slave = pty.openpty()
        try:
            for words in (["m.model"], ["m.model", "-o", "-"]):
                done = self.run_in(*words, stdout=slave)
                self.assertEqual(done.returncode, 2)
                self.assertRegex(done.stderr, rb"^canonical: .* -o.* > .*--help tells more\)\n$")
            self.assert_done(self.run_in("m.model", "-o", "out", stdout=slave), 0, None, b"")
            self.assertEqual((self.models / "out").read_bytes(), TEXT_FILE)
            self.assert_done(self.run_in("m.model", "--digest", stdout=slave), 0, None, b"")
            told = os.read(master, 4_096).replace(b"\r\n", b"\n")
            self.assertEqual(told, digest(TEXT_FILE) + b"  m.model\n")
        finally:
            os.close(slave)
            os.close(master)

    def test_several_models_or_a_folder_need_digest(self) -> None:
        self.put("a.model", TEXT)
        self.put("sub/b.model", TEXT)
        for words, message in (
            (["a.model", "a.model"], "^canonical: several models need --digest"),
            (["a.model", "a.model", "-o", "out"], "^canonical: several models need --digest"),
            (["sub"], "^canonical: sub is a folder.*--digest"),
            (["sub", "-o", "out"], "^canonical: sub is a folder.*--digest"),
        ):
            with self.subTest(words):
                self.assert_told(self.run_in(*words), 2, message)
        self.assertEqual(self.names(), ["a.model", "sub"])

    def test_names_may_be_any(self) -> None:
        for name in ("with blanks.model", "grün.model", "line\nfeed", b"\xff\xfe", "-dash", "--digest", "-o"):
            self.put(name, TEXT)
            self.assert_done(self.run_in("--", name), 0, TEXT_FILE, b"")
            self.assert_done(self.run_in("-o", "out", "--", name), 0, b"", b"")
            self.assertEqual((self.models / "out").read_bytes(), TEXT_FILE)

    def test_a_name_that_is_told_takes_one_row(self) -> None:
        self.put("line\nfeed", CUT)
        self.assert_done(self.run_in("line\nfeed"), 1, b"", CUT_TOLD % b"line\\nfeed")
        self.assert_told(self.run_in(b"\xff\nx"), 2, r"^canonical: \\udcff\\nx is not there$")


class Bad(Command):
    """What is refused, and what can't be read."""

    def test_a_refused_model_is_told_as_run_tells_it(self) -> None:
        summer = (EXAMPLES / "summer.bin").read_bytes()
        for data in (CUT, SAMPLE + b"\0", SAMPLE[:5] + b"\x01" + SAMPLE[6:], SAMPLE[:10] + b"\x01" + SAMPLE[11:],
                     summer[:57] + b"\xff\xff\xff\x7f" + summer[61:], b"\x01", b"\x01" + bytes(5_000)):
            self.put("m.bin", data)
            run = self.run_in("m.bin", command=self.clone / "run")
            self.assertEqual(run.returncode, 1)
            self.assert_done(self.run_in("m.bin"), 1, b"", run.stderr)
        self.put("m.bin", CUT)
        self.assert_done(self.run_in("m.bin"), 1, b"", CUT_TOLD % b"m.bin")
        self.assert_done(self.run_in("-", data=CUT), 1, b"", CUT_TOLD % b"standard input")

    def test_the_mistakes_of_a_text_are_told_as_run_tells_them(self) -> None:
        wrong = TEXT.replace("row 0.5", "row 0.3").replace("upper 8", "upper eight")
        for data in (wrong.encode(), WRONG.encode(), TEXT.encode("utf-16"), b" \n", b"\0\0"):
            self.put("m.model", data)
            run = self.run_in("m.model", command=self.clone / "run")
            self.assertEqual(run.returncode, 1)
            self.assert_done(self.run_in("m.model"), 1, b"", run.stderr)

    def test_an_empty_model_is_told(self) -> None:
        self.put("empty.model", b"")
        for word, data, name in (("empty.model", None, "empty.model"), ("/dev/null", None, "/dev/null"),
                                 ("-", b"", "standard input")):
            self.assert_told(self.run_in(word, data=data), 1, f"^canonical: {name} is empty$")

    def test_a_long_packed_file_is_refused(self) -> None:
        for more in (1, 1_862, 1_863, 3_000_000):
            self.put("long.bin", SAMPLE + bytes(more))
            self.assert_told(self.run_in("long.bin"), 1, "^long.bin: refused 10 at 186: ")

    def test_a_text_is_read_up_to_its_limit(self) -> None:
        self.put("long.model", TEXT + "#" * (1_048_575 - len(TEXT)))
        self.assert_done(self.run_in("long.model"), 0, TEXT_FILE, b"")
        self.put("long.model", TEXT + "#" * (1_048_576 - len(TEXT)))
        self.assert_told(self.run_in("long.model"), 2, "^canonical: long.model is too long: ")

    def test_what_cannot_be_read_has_status_2(self) -> None:
        for word, message in (
            ("missing.model", "^canonical: missing.model is not there$"),
            ("missing/m.model", "^canonical: missing/m.model is not there$"),
            ("/dev/zero", "^canonical: /dev/zero is too long: "),
            ("/proc/self/mem", "^canonical: /proc/self/mem can't be read$"),
            ("m" * 300, "^canonical: m+ can't be read$"),
            ("", "^canonical: an empty name is no model$"),
        ):
            with self.subTest(word):
                self.assert_told(self.run_in(word, "-o", "out"), 2, message)
        self.assert_told(self.run_shell("$c - <&-"), 2, "^canonical: standard input is closed$")
        self.assertEqual(self.names(), [])

    def test_an_unreadable_file_has_status_2(self) -> None:
        self.put("locked.model", TEXT).chmod(0)
        if os.access(self.models / "locked.model", os.R_OK):
            self.skipTest("this user may read everything")
        self.assert_told(self.run_in("locked.model"), 2, "^canonical: locked.model can't be read$")

    def test_a_wrong_command_has_status_2(self) -> None:
        self.put("m.model", TEXT)
        for words in (
            [], ["--"], ["--digest"], ["--same"], ["-o", "out"], ["--none", "m.model"], ["m.model", "-x"],
            ["m.model", "-o"], ["m.model", "-o", ""], ["--dig", "m.model"], ["--digest=1", "m.model"],
        ):
            with self.subTest(words):
                more = r"\(\./pepperscarp canonical --help tells more\)"
                self.assert_told(self.run_in(*words), 2, f"^canonical: .+ {more}$")
        self.assertEqual(self.names(), ["m.model"])

    def test_output_that_fails_has_status_2(self) -> None:
        self.put("m.model", TEXT)
        for words in ("m.model", "--digest m.model", "m.model -o -", "m.model -o /dev/stdout"):
            for output in ("> /dev/full", ">&-"):
                with self.subTest(f"{words} {output}"):
                    done = self.run_shell(f"$c {words} {output}")
                    self.assert_told(done, 2, "^canonical: (standard output|/dev/stdout): cannot be written: ")
        self.assert_told(self.run_shell("$c m.model -o /dev/full"), 2, "^canonical: /dev/full: cannot be written: ")

    def test_messages_that_cannot_be_written_change_no_status(self) -> None:
        self.put("cut.bin", CUT)
        shutil.copy(EXAMPLES / "rail.model", self.models)
        expected = written((EXAMPLES / "rail.bin").read_bytes())
        tried = ("missing", 2, b""), ("cut.bin", 1, b""), ("--none", 2, b""), ("rail.model", 0, expected)
        for words, status, out in tried:
            for errors in ("2>&-", "2> /dev/full"):
                with self.subTest(f"{words} {errors}"):
                    self.assert_done(self.run_shell(f"$c {words} {errors}"), status, out, b"")

    def test_a_reader_that_goes_away_gets_no_messages(self) -> None:
        for words in (["-"], ["-", "-o", "-"], ["--digest", "-"], ["-", "-o", "/dev/stdout"]):
            with self.subTest(words):
                started = self.start(*words, stdin=subprocess.PIPE)
                started.stdout.close()
                started.stdin.write(TEXT_FILE)
                started.stdin.close()
                status = started.wait(TIME_LIMIT)
                self.assertIn(status, (128 + signal.SIGPIPE, -signal.SIGPIPE))
                self.assertEqual(started.stderr.read(), b"")


class Into(Command):
    """What is written under a name stands there whole, or not at all."""

    OLD = b"\x01 and the rest of what was there before"  # of a packed model
    OLD_ROWS = b"0  what was there before\n"

    def setUp(self) -> None:
        super().setUp()
        self.put("m.model", TEXT)
        self.out = self.models / "out" / "file"
        self.out.parent.mkdir()

    def put_old(self, digest: bool = False) -> None:
        self.out.write_bytes(self.OLD_ROWS if digest else self.OLD)

    def assert_old(self, digest: bool = False) -> None:
        """The file is as it was, and nothing is beside it."""
        self.assert_new(self.OLD_ROWS if digest else self.OLD)

    def assert_new(self, data: bytes = TEXT_FILE) -> None:
        self.assertEqual((self.names(self.out.parent), self.out.read_bytes()), (["file"], data))

    def test_the_file_is_made_or_replaced(self) -> None:
        self.assert_done(self.run_in("m.model", "-o", self.out), 0, b"", b"")
        self.assert_new()
        self.put_old()
        self.assert_done(self.run_in("-o", "out/file", "m.model"), 0, b"", b"")
        self.assert_new()
        self.out.write_bytes(b"")
        self.assert_done(self.run_in("m.model", "-o", self.out), 0, b"", b"")
        self.assert_new()

    def test_the_mode_is_the_usual_one_or_that_of_the_old_file(self) -> None:
        self.assert_done(self.run_shell("umask 027; $c m.model -o out/file"), 0, b"", b"")
        self.assertEqual(stat.S_IMODE(self.out.stat().st_mode), 0o640)
        self.out.chmod(0o604)
        self.assert_done(self.run_in("m.model", "-o", self.out), 0, b"", b"")
        self.assertEqual(stat.S_IMODE(self.out.stat().st_mode), 0o604)

    def test_a_model_may_be_replaced_by_its_canonical_file(self) -> None:
        for way in list(models.saved_ways(SAVED))[::7]:
            self.out.write_bytes(way)
            self.assert_done(self.run_in(self.out, "-o", self.out), 0, b"", b"")
            self.assert_new(exact.canonical(SAVED))
        self.assert_done(self.run_shell("$c - < out/file -o out/file"), 0, b"", b"")
        self.assert_new(exact.canonical(SAVED))

    def test_a_text_is_not_replaced_by_its_packed_file_and_no_model_by_rows(self) -> None:
        self.put("m.bin", SAMPLE)
        (self.models / "link").symlink_to("m.model")
        line = "^canonical: {} would be replaced by {}.*: choose another FILE$"
        for words, message in (
            ("m.model -o m.model", line.format("m.model", "a packed file")),
            ("m.model -o link", line.format("m.model", "a packed file")),
            ("link -o out/../m.model", line.format("link", "a packed file")),
            ("- -o m.model < m.model", line.format("standard input", "a packed file")),
            ("--digest m.bin m.model -o m.model", line.format("m.model", "rows")),
            ("--same . -o m.bin", line.format("./m.bin", "rows")),
        ):
            with self.subTest(words):
                self.assert_told(self.run_shell(f"$c {words}"), 2, message)
        self.assertEqual((self.models / "m.model").read_text(), TEXT)
        self.assertEqual((self.models / "m.bin").read_bytes(), SAMPLE)
        self.assertEqual(self.names(), ["link", "m.bin", "m.model", "out"])

    def test_no_given_file_is_replaced_by_rows_whatever_was_read_of_it(self) -> None:
        # Names without an ending: only that they are given keeps these files.
        kept = {"wrong": WRONG.encode(), "mistakes.model": WRONG.encode() * 9, "cut": CUT, "cut.bin": CUT,
                "utf16": TEXT.encode("utf-16"), "empty": b"", "empty.model": b"", "long": b"#" * 1_048_576,
                "m.bin": SAMPLE, "locked.model": WRONG.encode()}
        for name, content in kept.items():
            self.put(name, content)
        (self.models / "locked.model").chmod(0)
        (self.models / "link").symlink_to("wrong")
        line = "^canonical: {} would be replaced by rows of digests: choose another FILE$"
        for name in kept:
            for words in (f"--digest {name} m.bin -o {name}", f"--same m.bin {name} m.model -o ./{name}",
                          f"--digest m.bin ./{name} -o out/../{name}"):
                with self.subTest(words):
                    self.assert_told(self.run_shell(f"$c {words}"), 2, line.format(rf"(\./)?{name}"))
            if name.endswith((".model", ".bin")):
                self.assert_told(self.run_shell(f"$c --digest . -o {name}"), 2, line.format(f"./{name}"))
        self.assert_told(self.run_shell("$c --digest m.bin link -o wrong"), 2, line.format("link"))
        self.assert_told(self.run_shell("$c --digest m.bin wrong -o link"), 2, line.format("wrong"))
        self.assert_told(self.run_shell("$c --digest m.bin - -o wrong < wrong"), 2, line.format("standard input"))
        for words in ("wrong -o wrong", "link -o wrong", "utf16 -o utf16", "long -o long", "- -o wrong < wrong"):
            with self.subTest(words):
                told = "^canonical: .* would be replaced by a packed file, .*: choose another FILE$"
                self.assert_told(self.run_shell(f"$c {words}"), 2, told)
        (self.models / "locked.model").chmod(0o600)
        self.assertEqual({name: (self.models / name).read_bytes() for name in kept}, kept)
        self.assertEqual(self.names(), sorted([*kept, "link", "m.model", "out"]))

    def test_what_is_no_packed_model_is_not_replaced_by_one(self) -> None:
        self.put("a.bin", SAMPLE)
        kept = {"other.model": TEXT, "wrong.model": WRONG, "notes": "notes\n", "rows.bin": "0  a.bin\n", "x": "\0"}
        for name, content in kept.items():
            self.put(name, content)
        (self.models / "link").symlink_to("other.model")
        line = ("^canonical: {0} is not a packed model and would be replaced by one:"
                " choose another FILE, or delete {0} first$")
        for name in (*kept, "link", "out/../other.model"):
            for words in (f"a.bin -o {name}", f"m.model -o {name}", f"cat m.model | $c - -o {name}"):
                with self.subTest(words):
                    words = words if "$c" in words else f"$c {words}"
                    self.assert_told(self.run_shell(words), 2, line.format(name))
        self.assert_told(self.run_shell("cat m.model | $c - -o m.model"), 2, line.format("m.model"))
        self.assert_told(self.run_shell("$c <(cat m.model) -o m.model"), 2, line.format("m.model"))
        for name, content in {**kept, "m.model": TEXT}.items():
            self.assertEqual((self.models / name).read_text(), content)
        self.assertEqual(self.names(), sorted([*kept, "a.bin", "link", "m.model", "out"]))
        (self.models / "other.model").unlink()  # as the message says
        self.assert_done(self.run_in("a.bin", "-o", "other.model"), 0, b"", b"")
        self.assertEqual((self.models / "other.model").read_bytes(), SAMPLE)

    def test_rows_replace_rows_and_no_model(self) -> None:
        kept = {"other.model": TEXT.encode(), "wrong.model": b"#", "b.bin": SAMPLE, "packed": SAMPLE,
                "cut": CUT, "one": b"\x01", "text.bin": TEXT.encode(), ".hidden.model": TEXT.encode()}
        for name, content in kept.items():
            self.put(name, content)
        (self.models / "link").symlink_to("other.model")
        (self.models / "link.model").symlink_to("out/file")
        self.put_old(digest=True)
        line = ("^canonical: {0} looks like a model and would be replaced by rows of digests:"
                " choose another FILE, or delete {0} first$")
        for name in (*kept, "link", "link.model"):
            for words in (["--digest", "m.model"], ["--same", "m.model", "m.model"]):
                with self.subTest(f"{words} {name}"):
                    self.assert_told(self.run_in(*words, "-o", name), 2, line.format(name))
        self.assert_old(digest=True)
        self.assertEqual({name: (self.models / name).read_bytes() for name in kept}, kept)
        row = digest(TEXT_FILE) + b"  m.model\n"
        for words, expected in ((["m.model"], row), (["m.model", "m.model"], row * 2), (["m.model"], row)):
            self.assert_done(self.run_in("--digest", *words, "-o", self.out), 0, b"", b"")
            self.assert_new(expected)
        self.put("empty.model", b"")
        self.assert_done(self.run_in("--digest", "m.model", "-o", "empty.model"), 0, b"", b"")
        self.assertEqual((self.models / "empty.model").read_bytes(), row)

    def test_a_file_that_cannot_be_checked_is_not_replaced(self) -> None:
        self.put_old()
        self.out.chmod(0o200)
        if os.access(self.out, os.R_OK):
            self.skipTest("this user may read everything")
        for options in ([], ["--digest"]):
            done = self.run_in(*options, "m.model", "-o", self.out)
            self.assert_told(done, 2, "^canonical: .*: cannot be read: Permission denied$")
        self.out.chmod(0o600)
        self.assert_old()

    def test_a_link_is_followed(self) -> None:
        (self.models / "link").symlink_to("out/file")
        for _ in range(2):  # the file is made, and then replaced
            self.assert_done(self.run_in("m.model", "-o", "link"), 0, b"", b"")
            self.assertEqual(os.readlink(self.models / "link"), "out/file")
            self.assert_new()
            self.put_old()

    def test_what_is_no_plain_file_is_written_to(self) -> None:
        pipe = self.models / "pipe"
        os.mkfifo(pipe)
        reader = self.start(pipe, command="cat")
        self.assert_done(self.run_in("m.model", "-o", pipe), 0, b"", b"")
        self.assertEqual(reader.communicate(timeout=TIME_LIMIT)[0], TEXT_FILE)
        self.assertTrue(stat.S_ISFIFO(pipe.stat().st_mode))
        self.assert_done(self.run_in("m.model", "-o", "/dev/stdout"), 0, TEXT_FILE, b"")
        self.assert_done(self.run_in("m.model", "-o", "/dev/null"), 0, b"", b"")
        self.assert_done(self.run_shell("$c m.model -o /dev/fd/3 3>&1"), 0, TEXT_FILE, b"")
        self.put_old()
        self.assert_done(self.run_shell("$c m.model -o /dev/stdout >> out/file"), 0, b"", b"")
        self.assert_new(self.OLD + TEXT_FILE)
        self.assertEqual(self.names(), ["m.model", "out", "pipe"])

    def test_a_model_without_a_file_leaves_the_old_one(self) -> None:
        self.put("cut.bin", CUT)
        self.put("wrong.model", WRONG)
        for options in ([], ["--same"]):
            for word, status in (("cut.bin", 1), ("wrong.model", 1), ("missing", 2)):
                with self.subTest(f"{options} {word}"):
                    self.put_old(bool(options))
                    self.assertEqual(self.run_in(*options, word, "-o", self.out).returncode, status)
                    self.assert_old(bool(options))
                    self.out.unlink()
                    self.assertEqual(self.run_in(*options, word, "-o", self.out).returncode, status)
                    self.assertEqual(self.names(self.out.parent), [])

    def test_a_write_that_fails_leaves_the_old_file(self) -> None:
        # A limit of no bytes for a file takes the place of a full disk.
        for options in ("", "--digest"):
            self.put_old(bool(options))
            done = self.run_shell(f"ulimit -f 0; $c {options} m.model -o out/file")
            self.assert_told(done, 2, f"^canonical: out/file: cannot be written: {os.strerror(errno.EFBIG)}$")
            self.assert_old(bool(options))
            self.out.unlink()
            done = self.run_shell(f"ulimit -f 0; $c {options} m.model -o out/file")
            self.assert_told(done, 2, "^canonical: out/file: cannot be written: ")
            self.assertEqual(self.names(self.out.parent), [])

    def test_a_name_that_no_file_can_have_has_status_2(self) -> None:
        self.put_old()
        for path, number in (("missing/file", errno.ENOENT), ("out", errno.EISDIR), ("out/", errno.EISDIR),
                             ("out/file/more", errno.ENOTDIR), ("out/" + "x" * 300, errno.ENAMETOOLONG)):
            with self.subTest(path):
                told = f"^canonical: {path}: cannot be written: {os.strerror(number)}$"
                self.assert_told(self.run_in("m.model", "-o", path), 2, told)
        self.assert_old()

    def test_what_may_not_be_written_has_status_2(self) -> None:
        self.put_old()
        self.out.chmod(0o444)
        if os.access(self.out, os.W_OK):
            self.skipTest("this user may write everything")
        self.assert_told(self.run_in("m.model", "-o", self.out), 2, "cannot be written: Permission denied$")
        self.out.chmod(0o644)
        self.out.parent.chmod(0o555)
        self.addCleanup(self.out.parent.chmod, 0o755)
        self.assert_told(self.run_in("m.model", "-o", self.out), 2, "cannot be written: Permission denied$")
        self.assert_old()

    def test_a_program_that_fails_leaves_the_old_file(self) -> None:
        self.put("m.bin", SAMPLE)
        self.put("cut.bin", CUT)
        self.put("other.bin", written(encode(OTHER)))
        refused = "echo 'refused 1 at 185' >&2"
        for name, row in (
            ("m.bin", "exit 3"), ("m.bin", ":"), ("m.bin", "echo what"), ("m.bin", "kill -SEGV $$"),
            ("m.bin", "cat; kill -KILL $$"), ("m.bin", "cat; exit 1"), ("m.bin", "head -c 100"),
            ("m.bin", f"cat '{self.models}/other.bin'"), ("m.bin", "cat; echo more >&2"),
            ("m.bin", f"cat; {refused}"), ("m.bin", refused), ("m.bin", "echo 'canonical: standard output: full' >&2"),
            ("cut.bin", ":"), ("cut.bin", "cat"), ("cut.bin", f"cat; {refused}"), ("cut.bin", f"{refused}; exit 1"),
            ("cut.bin", "echo 'refused 1 at 184' >&2"), ("cut.bin", "echo 'refused 1 at 185'"),
            ("cut.bin", f"{refused}; {refused}"),
        ):
            with self.subTest(f"{name} {row}"):
                script(self.program, f"#!/bin/sh\n{row}\n")
                self.put_old()
                self.assert_told(self.run_in(name, "-o", self.out), 2, f"^canonical: {name}: ")
                self.assert_old()
        self.put_old(digest=True)
        for options in ([], ["--digest"], ["--same", "-o", self.out]):
            self.assert_told(self.run_in(*options, name), 2, f"^canonical: {name}: ")
        self.assert_old(digest=True)
        for row, why in (("exit 3", "status 3"), ("kill -SEGV $$", "signal 11"),
                         ("echo 'a\tb' >&2; echo c >&2", r"on standard error: a\\tb")):
            script(self.program, f"#!/bin/sh\n{row}\n")
            told = rf"^canonical: m.bin: the program canonical failed \({why}\)$"
            self.assert_told(self.run_in("m.bin"), 2, told)
        script(self.program, "#!/bin/sh\ncat\n")
        self.assert_done(self.run_in("m.bin"), 0, SAMPLE, b"")
        script(self.program, f"#!/bin/sh\n{refused}\n")
        self.assert_done(self.run_in("cut.bin"), 1, b"", CUT_TOLD % b"cut.bin")


class Digests(Command):
    """A row for each model, as `sha256sum` writes it."""

    NAMES = ("plain.model", "with blanks .bin", "grün-µ.model", "back\\slash.bin", "line\nfeed.model",
             "return\r.bin", b"\xff\xfe bytes.model", "tab\t.bin", "*.model", "-dash.model", "'quoted\".bin",
             "\\n.model", "esc\x1b[31m.bin")

    def put_names(self) -> list[str]:
        """Models with these names, each another one."""
        names = [os.fsdecode(name) for name in self.NAMES]
        for steps, name in enumerate(names, start=1):
            text = TEXT.replace("steps 3", f"steps {steps}")
            self.put(name, pack.parse(text).data if name.endswith(".bin") else text)
        return names

    def rows(self, *names: str) -> bytes:
        """The rows of files whose names have nothing that is escaped."""
        return b"".join(
            digest((self.models / name).read_bytes()) + b"  " + os.fsencode(name) + b"\n" for name in names
        )

    def test_a_row_has_the_digest_of_the_one_file_and_the_name(self) -> None:
        self.put("b.model", TEXT)
        self.put("a.bin", encode(SAVED, 0, True, None, True))
        self.put("c.bin", SAMPLE)
        self.assert_done(self.run_in("--digest", "c.bin", "b.model", "a.bin", "c.bin"), 0,
                         self.rows("c.bin", "b.model", "a.bin", "c.bin"), b"")
        self.assert_done(self.run_in("b.model", "--digest", "./a.bin"), 0,
                         self.rows("b.model", "./a.bin"), b"")
        expected = hashlib.sha256(TEXT_FILE).hexdigest().encode() + b"  -\n"
        for data in (TEXT.encode(), TEXT_FILE):
            self.assert_done(self.run_in("--digest", "-", data=data), 0, expected, b"")

    def test_rows_are_those_of_sha256sum_of_the_written_files(self) -> None:
        names = self.put_names()
        made = self.folder / "written"
        made.mkdir()
        for name in names:
            self.assert_done(self.run_in("-o", made / name, "--", name), 0, b"", b"")
            self.assertEqual((made / name).read_bytes(), written((self.models / name).read_bytes()))
        expected = self.run_in("--", *names, command="sha256sum", cwd=made).stdout
        self.assertEqual(expected.count(b"\n\\"), 4)
        self.assert_done(self.run_in("--digest", "--", *names), 0, expected, b"")
        self.assert_done(self.run_in("--digest", "--", *names, cwd=made), 0, expected, b"")
        checked = self.run_in("--strict", "-c", "-", command="sha256sum", cwd=made, data=expected)
        self.assertEqual(checked.returncode, 0, checked.stderr)

    def test_sha256sum_checks_the_rows_of_canonical_files_alone(self) -> None:
        self.put("canonical.bin", SAMPLE)
        self.put("saved.bin", encode(SAVED, 0))
        for name, status in (("canonical.bin", 0), ("saved.bin", 1)):
            row = self.run_in("--digest", name).stdout
            checked = self.run_in("--strict", "-c", "-", command="sha256sum", data=row)
            self.assertEqual(checked.returncode, status, name)

    def test_sort_and_uniq_find_the_same_models(self) -> None:
        for number, way in enumerate(models.saved_ways(SAVED)):
            self.put(f"{number}.bin", way)
        self.put("other.bin", encode(OTHER))
        line = "$c --digest . | cut -c -64 | sort | uniq -c | sort -n | tr -s ' '"
        told = self.run_shell(line).stdout.split(b"\n")
        self.assertEqual(told, [b" 1 " + digest(encode(OTHER)), b" 32 " + digest(encode(SAVED)), b""])

    def test_a_folder_is_taken_whole(self) -> None:
        # As `report` finds models, and packed copies of texts too.
        packed = pack.parse(TEXT).data
        for name, content in {
            "top/b.model": TEXT, "top/b.bin": packed, "top/a.model": TEXT, "top/alone.bin": SAMPLE,
            "top/notes.txt": TEXT, "top/model": TEXT, "top/B.MODEL": TEXT, "top/.hidden.model": TEXT,
            "top/.folder/m.model": TEXT, "top/below/deep/z.model": TEXT, "top/below/c.model": TEXT,
            "top/dir.model/m.model": TEXT, "beside/m.model": TEXT,
        }.items():
            self.put(name, content)
        (self.models / "top" / "link").symlink_to("../beside")
        os.mkfifo(self.models / "top" / "pipe.model")
        taken = ["top/a.model", "top/alone.bin", "top/b.bin", "top/b.model", "top/below/c.model",
                 "top/below/deep/z.model", "top/dir.model/m.model"]
        self.assert_done(self.run_in("--digest", "top"), 0, self.rows(*taken), b"")
        self.assert_done(self.run_in("--digest", "top/"), 0, self.rows(*taken), b"")
        order = ["top/b.model", *taken, "beside/m.model"]
        self.assert_done(self.run_in("--digest", "top/b.model", "top", "beside"), 0, self.rows(*order), b"")
        told = self.run_in("--plain", "--csv", "top", command=self.clone / "report").stdout
        found = {row.split(",")[0] for row in told.decode().splitlines()[1:]}
        self.assertEqual(found, {*taken} - {"top/b.bin"})
        (self.models / "none").mkdir()
        self.assert_told(self.run_in("--digest", "none"), 2, "^canonical: none is a folder without a model ")

    def test_each_model_has_its_row_whatever_the_others_are(self) -> None:
        self.put("a.model", TEXT)
        self.put("b.bin", SAMPLE)
        self.put("cut.bin", CUT)
        self.put("wrong.model", WRONG)
        good = self.rows("a.model", "b.bin")
        for words, status in (
            (["a.model", "cut.bin", "b.bin"], 1), (["wrong.model", "a.model", "b.bin"], 1),
            (["a.model", "missing", "b.bin"], 2), (["cut.bin", "a.model", "", "b.bin", "wrong.model"], 2),
            (["/dev/zero", "a.model", "b.bin", "/dev/null"], 2), (["."], 1), ([".", "missing"], 2),
        ):
            for same in ([], ["--same"]):
                with self.subTest(f"{words} {same}"):
                    done = self.run_in("--digest", *same, *words)
                    rows = good.replace(b"  ", b"  ./") if "." in words else good
                    expected = rows.replace(b"\n", b"\n\n", 1) if same else rows
                    self.assert_done(done, status, expected)
                    self.assertTrue(done.stderr)
                    if "wrong.model" not in words:
                        continue
                    into = self.run_in("--digest", *same, *words, "-o", "../rows")
                    self.assert_done(into, status, b"", done.stderr)
                    self.assertEqual((self.folder / "rows").read_bytes(), expected)
                    (self.folder / "rows").unlink()

    def test_what_is_said_of_reading_comes_before_what_the_program_says(self) -> None:
        self.put("cut.bin", CUT)
        shutil.copy(EXAMPLES / "cooling.model", self.models / "cooling.model")
        done = self.run_in("--digest", "missing", "cooling.model", "cut.bin", "none")
        told = [row.split(" ")[:2] for row in done.stderr.decode().splitlines()]
        self.assertEqual(told, [["canonical:", "missing"], ["cooling.model:", "7"], ["cooling.model:", "no"],
                                ["canonical:", "none"], ["cut.bin:", "refused"]])

    def test_a_folder_of_a_thousand_models_has_a_row_for_each(self) -> None:
        texts = {f"{steps:03}-{name}.model": TEXT.replace("steps 3", f"steps {steps}").replace("value", name)
                 for steps in range(1, 251) for name in ("a", "b", "c", "d")}
        for name, text in texts.items():
            self.put(name, text)
        self.assert_done(self.run_in("--digest", "."), 0, b"".join(
            digest(text.encode()) + b"  ./" + name.encode() + b"\n" for name, text in sorted(texts.items())), b"")


class Same(Command):
    """Models that are the same stand together."""

    def setUp(self) -> None:
        super().setUp()
        # Of each model texts and packed files, saved in several ways; a comment and names differ.
        box = Set(BOX, ((0, 0), (0, 1)))
        self.kinds = [SAVED, OTHER, replace(SAVED, steps=7), replace(SAVED, input=box),
                      replace(SAVED, input=Set(VERTICES, ((0, 0),)))]
        self.files: dict[str, int] = {}
        for kind, model in enumerate(self.kinds):
            ways = list(dict.fromkeys(models.saved_ways(model)))
            for number, way in enumerate(ways[:: max(1, len(ways) // 4)]):
                self.save(f"{number}-{kind}.bin", kind, way)
                text = pack.unpack(way).replace("d0", f"name{number}") + f"# saved by way {number}\n"
                self.save(f"{number}-{kind}.model", kind, text)
        self.save("alone.bin", len(self.kinds), SAMPLE)

    def save(self, name: str, kind: int, content: str | bytes) -> None:
        self.put(name, content)
        self.files[name] = kind

    def expected(self, names: Sequence[str], prefix: str = "") -> bytes:
        """The blocks of these files, by the kind that each was made for."""
        kinds = list(dict.fromkeys(self.files[name] for name in names))
        blocks = []
        for kind in kinds:
            model = self.kinds[kind] if kind < len(self.kinds) else exact.read_model(SAMPLE)
            told = hashlib.sha256(exact.canonical(model)).hexdigest()
            blocks.append("".join(f"{told}  {prefix}{name}\n" for name in names if self.files[name] == kind))
        return "\n".join(blocks).encode()

    def test_the_same_models_stand_in_one_block(self) -> None:
        names = sorted(self.files)
        self.assertGreater(len(names), 30)
        expected = self.expected(names)
        self.assertEqual(expected.count(b"\n\n"), len(self.kinds))
        for options in (["--same"], ["--digest", "--same"], ["--same", "--digest"]):
            self.assert_done(self.run_in(*options, "--quiet", *names), 0, expected, b"")
        self.assert_done(self.run_in("--same", "--quiet", "."), 0, self.expected(names, "./"), b"")
        self.assert_done(self.run_in("--same", "--quiet", *names, "-o", "../rows"), 0, b"", b"")
        self.assertEqual((self.folder / "rows").read_bytes(), expected)

    def test_blocks_and_rows_stand_in_the_order_given(self) -> None:
        names = sorted(self.files, key=lambda name: name[::-1])
        self.assertNotEqual(names, sorted(names))
        self.assert_done(self.run_in("--same", "--quiet", *names), 0, self.expected(names), b"")
        names.reverse()
        self.assert_done(self.run_in("--same", "--quiet", *names), 0, self.expected(names), b"")

    def test_a_model_without_another_stands_alone(self) -> None:
        names = ["0-0.bin", "alone.bin", "0-1.bin"]
        expected = self.expected(names)
        self.assertEqual((expected.count(b"\n\n"), expected.count(b"\n")), (2, 5))
        self.assert_done(self.run_in("--same", *names), 0, expected, b"")
        self.assert_done(self.run_in("--same", "alone.bin"), 0, self.expected(["alone.bin"]), b"")

    def test_the_examples_of_help_work(self) -> None:
        (self.clone / "examples").symlink_to(EXAMPLES)
        told = self.run_in("--help").stdout.decode()
        examples = re.findall(r"\n  (\./pepperscarp canonical .*)", told)
        self.assertEqual(len(examples), 4)
        outputs = []
        for example in examples:
            done = self.run_in("-c", example, command="bash", cwd=self.clone)
            self.assertEqual(done.returncode, 0, done.stderr)
            outputs.append(done.stdout)
        self.assertEqual((self.clone / "rail.bin").read_bytes(), written((EXAMPLES / "rail.bin").read_bytes()))
        count = len(list(EXAMPLES.glob("*.model")))
        self.assertEqual([output.count(b"\n") for output in outputs[:3]], [0, 2 * count, 3 * count - 1])
        # The last one tells those that are more than one.
        self.assertEqual(outputs[3].strip(), outputs[2].strip())
        line = examples[3].replace("./pepperscarp", f"'{self.clone}/pepperscarp'").replace("examples", ".")
        told = self.run_in("-c", line, command="bash").stdout
        several = [block for block in self.expected(sorted(self.files), "./").split(b"\n\n") if b"\n" in block.strip()]
        self.assertEqual(told.strip().split(b"\n\n"), [block.strip() for block in several])
        self.assertNotIn(b"alone.bin", told)


class Build(Command):
    """How the program is built."""

    def setUp(self) -> None:
        super().setUp()
        self.put("m.model", TEXT)
        self.put("m.bin", SAMPLE)
        # The last command of an `rt` that ends when it is told to.
        self.pause = f"for _ in {{1..999}}; do [ ! -e '{self.notes}/on' ] || break; sleep 0.01; done"

    def go_on(self) -> None:
        (self.notes / "on").touch()

    def test_rt_is_not_called_where_the_program_is_newer(self) -> None:
        self.assert_done(self.run_in("m.model"), 0, TEXT_FILE, b"")
        self.assert_done(self.run_in("m.model", path=self.path()), 0, TEXT_FILE, b"")
        self.assertEqual(self.calls(), 0)

    def test_the_program_is_built_where_it_is_missing(self) -> None:
        self.program.unlink()
        done = self.run_in("--digest", "m.model", "m.bin")
        self.assertEqual((done.returncode, done.stdout.count(b"\n")), (0, 2))
        rows = done.stderr.decode().splitlines()
        self.assertRegex(rows[0], "^canonical: proving and building the program; ")
        self.assertEqual(rows[1:], [f"canonical: proved {crate} (3 functions), {place} of {len(self.used)} crates"
                                    for place, crate in enumerate(self.used, 1)])
        self.assert_done(self.run_in("m.bin"), 0, SAMPLE, b"")
        self.assertEqual((self.notes / "calls").read_text(), "run canonical\n")

    def test_rt_is_called_where_a_source_of_the_program_is_newer(self) -> None:
        sources = [self.clone / "crates.txt", *self.clone.glob("crates/reader/*/**/*.antt")]
        sources += [self.clone / "crates" / crate / "src" / "lib.rt" for crate in self.used]
        self.assertIn("reader", self.used)
        for count, source in enumerate(sources, 1):
            with self.subTest(source.relative_to(self.clone)):
                self.age()
                os.utime(source)
                self.assert_done(self.run_in("m.bin"), 0, SAMPLE)
                self.assertEqual(self.calls(), count)
        others = {path.name for path in (self.clone / "crates").iterdir()} - {*self.used}
        self.assertIn("figures", others)
        for crate in others:
            self.make_newer(self.clone / "crates" / crate / "src" / "lib.rt")
        self.assert_done(self.run_in("m.bin"), 0, SAMPLE, b"")

    def test_a_temporary_folder_is_made_only_for_a_build(self) -> None:
        for command in ("$c m.bin", f"'{self.clone}/tools/building.sh' some canonical"):
            done = self.run_shell(f"TMPDIR={self.folder}/missing {command}")
            self.assert_done(done, 0, SAMPLE if "m.bin" in command else b"", b"")
        self.assertEqual(self.calls(), 0)
        self.program.unlink()
        done = self.run_shell(f"TMPDIR={self.folder}/missing $c m.bin", stderr=subprocess.PIPE)
        self.assert_done(done, 2, b"")
        self.assertIn(b"canonical: no temporary folder can be made in %s/missing\n" % bytes(self.folder), done.stderr)
        self.assertEqual(self.calls(), 0)
        self.assert_done(self.run_in("m.bin"), 0, SAMPLE)

    def test_rt_is_not_called_for_what_cannot_be_read(self) -> None:
        self.program.unlink()
        self.put("wrong.model", WRONG)
        for words, status in ((["missing"], 2), (["wrong.model"], 1), (["m.bin", "m.bin"], 2), (["--help"], 0),
                              (["."], 2), (["--digest", "missing", "wrong.model"], 2)):
            self.assertEqual(self.run_in(*words).returncode, status, words)
        self.assertEqual(self.calls(), 0)

    def test_without_program_and_rt_it_has_status_2(self) -> None:
        self.program.unlink()
        done = self.run_in("m.bin", "-o", "out", path=self.path())
        self.assert_told(done, 2, r"^canonical: .*\(rt\) is not there$", "^canonical: the program is not ready")
        self.assertEqual(self.names(), ["m.bin", "m.model"])

    def test_a_failed_build_is_shown_and_nothing_is_written(self) -> None:
        self.program.unlink()
        self.rt("(echo 'src/lib.rt:3: error' >&2; exit 1)", crates=[])
        for _ in range(2):
            done = self.run_in("m.bin", "-o", "out")
            self.assert_told(done, 2, "proving and building", "src/lib.rt:3: error", "could not be built$",
                             "^canonical: the program is not ready")
        self.assertEqual(self.names(), ["m.bin", "m.model"])
        self.assertEqual(self.calls(), 2)

    def test_a_failed_build_of_one_program_says_nothing_of_the_other(self) -> None:
        self.program.unlink()
        self.rt("false")
        self.assertEqual(self.run_in("m.bin").returncode, 2)
        self.assert_done(self.run_in("m.bin", command=self.clone / "run"), 0, SAMPLE_TEXT, b"")
        self.assertEqual(self.calls(), 1)
        self.rt()
        os.utime(self.clone / "crates" / "envelope" / "src" / "lib.rt")
        self.assert_done(self.run_in("m.bin", command=self.clone / "run"), 0, SAMPLE_TEXT)
        self.assert_done(self.run_in("m.bin"), 0, SAMPLE)
        self.assertEqual(self.calls(), 3)

    def test_never_two_rt_at_a_time_whatever_is_built(self) -> None:
        shutil.rmtree(self.program.parent)
        self.rt(self.pause, crates=[])
        started = [self.start("m.bin", cwd=self.models),
                   self.start("m.bin", cwd=self.models, command=self.clone / "run"),
                   self.start("m.bin", cwd=self.models)]
        rows = [one.stderr.readline() for one in started]
        self.assertEqual(sum(b": proving and building" in row for row in rows), 1, rows)
        self.assertEqual(sum(b": another run is building" in row for row in rows), 2, rows)
        self.go_on()
        for one, expected in zip(started, (SAMPLE, SAMPLE_TEXT, SAMPLE)):
            out, err = one.communicate(timeout=TIME_LIMIT)
            self.assertEqual((one.returncode, out), (0, expected), err)
        self.assertEqual(sorted((self.notes / "calls").read_text().split("\n")),
                         ["", "run canonical", "run envelope"])
        self.assertFalse((self.notes / "overlaps").exists())

    def test_a_signal_ends_rt_too(self) -> None:
        for signal_ in (signal.SIGINT, signal.SIGTERM, signal.SIGHUP):
            with self.subTest(signal_):
                self.program.unlink(missing_ok=True)
                self.rt(seconds=60)
                started = self.start("m.bin", "-o", "out", cwd=self.models)
                until((self.notes / "busy").exists)
                started.send_signal(signal_)
                _, err = started.communicate(timeout=TIME_LIMIT)
                self.assertEqual(started.returncode, 128 + signal_)
                self.assertNotIn(b"Traceback", err)
                self.assertEqual(list(self.temporary.iterdir()), [])
                with open(self.clone / "target" / "run.lock", "a") as lock:
                    until(lambda: is_free(lock.fileno()))
                (self.notes / "busy").rmdir()
                self.assertEqual(self.names(), ["m.bin", "m.model"])
        self.rt()
        self.assert_done(self.run_in("m.bin"), 0, SAMPLE)

    def test_a_tool_can_have_a_program_built(self) -> None:
        building = self.clone / "tools" / "building.sh"
        self.program.unlink()
        done = self.run_in("some", "canonical", command=building, cwd="/")
        self.assert_done(done, 0, b"")
        self.assertTrue(done.stderr.startswith(b"some: proving and building the program; "), done.stderr)
        self.assertEqual(self.program.read_bytes(), (PROGRAMS / "canonical").read_bytes())
        self.assert_done(self.run_in("some", "canonical", command=building, cwd="/"), 0, b"", b"")
        self.assertEqual(self.calls(), 1)
        for words in ([], ["canonical"], ["some", "canonical", "more"]):
            self.assert_told(self.run_in(*words, command=building), 2, "^usage: tools/building.sh CALLER PROGRAM$")


class Interrupts(Command):
    """Signals end it without a word, and with the status of the signal."""

    def test_while_it_reads(self) -> None:
        (self.models / "out").write_bytes(b"\x01old")
        for signal_, group in itertools.product(self.SIGNALS, (False, True)):
            for words in (["-", "-o", "out"], ["--digest", "-"]):
                with self.subTest(f"{signal_} {group} {words}"):
                    started = self.start(*words, cwd=self.models, stdin=subprocess.PIPE, start_new_session=True)
                    until(lambda: self.heeds(started))
                    self.interrupt(started, signal_, group)
        self.assertEqual((self.names(), (self.models / "out").read_bytes()), (["out"], b"\x01old"))

    def test_while_the_program_runs(self) -> None:
        self.put("m.bin", SAMPLE)
        (self.models / "out").write_bytes(b"\x01old")
        script(self.program, f"#!/bin/sh\ntouch '{self.notes}/runs'\nexec sleep 60\n")
        for signal_, group in itertools.product(self.SIGNALS, (False, True)):
            for words in (["m.bin", "-o", "out"], ["--same", "m.bin", "m.bin"]):
                with self.subTest(f"{signal_} {group} {words}"):
                    started = self.start(*words, cwd=self.models, start_new_session=True)
                    until((self.notes / "runs").exists)
                    self.interrupt(started, signal_, group)
                    (self.notes / "runs").unlink()
        self.assertEqual((self.names(), (self.models / "out").read_bytes()), (["m.bin", "out"], b"\x01old"))

    def test_while_it_waits_for_a_reader(self) -> None:
        # It has come to writing, into a pipe that nobody opens.
        self.put("m.bin", SAMPLE)
        os.mkfifo(self.models / "pipe")
        for signal_ in self.SIGNALS:
            started = self.start("m.bin", "-o", "pipe", cwd=self.models)
            until(lambda: self.heeds(started))
            time.sleep(0.3)
            self.assertIsNone(started.poll())
            self.interrupt(started, signal_)

    def test_at_any_moment_the_file_is_whole_or_as_it_was(self) -> None:
        self.put("m.bin", SAMPLE)
        out = self.models / "out" / "file"
        out.parent.mkdir()
        ended = []
        for number in range(24):
            out.write_bytes(b"\x01old")
            started = self.start("m.bin", "-o", out, cwd=self.models)
            time.sleep(0.01 * number + 0.05)
            started.send_signal(signal.SIGTERM)
            _, err = started.communicate(timeout=TIME_LIMIT)
            self.assertEqual((self.names(out.parent), err), (["file"], b""))
            self.assertIn(started.returncode, (0, -signal.SIGTERM, 128 + signal.SIGTERM))
            self.assertIn(out.read_bytes(), (b"\x01old", SAMPLE) if started.returncode else (SAMPLE,))
            ended.append(started.returncode == 0)
        self.assertIn(False, ended)

    def test_what_is_ignored_stays_so(self) -> None:
        line = f"trap '' INT TERM HUP; exec '{self.clone}/pepperscarp' canonical -"
        started = self.start("-c", line, command="bash", stdin=subprocess.PIPE)
        for _ in range(4):
            time.sleep(0.15)
            for signal_ in self.SIGNALS:
                started.send_signal(signal_)
        out, err = started.communicate(SAMPLE, TIME_LIMIT)
        self.assertEqual((started.returncode, out, err), (0, SAMPLE, b""))


if __name__ == "__main__":
    unittest.main()
