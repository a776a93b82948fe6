#!/usr/bin/env python3
"""Test the command `run` from outside, as a user's shell would.

    run.py

Each test has a small clone of its own, with the built program, target/bin/envelope, and fails where
there is none. Nothing is proved (`clones`).
"""

from __future__ import annotations

import errno
import os
import re
import shutil
import signal
import subprocess
import sys
import tempfile
import time
import unittest
from pathlib import Path

from clones import (
    EXAMPLES, ROOT, SAMPLE, SAMPLE_TEXT, TIME_LIMIT, Clone, crates_of, heed_signals, is_free, script,
    until,
)

sys.path.insert(0, str(ROOT / "tools"))

import pack  # noqa: E402

RAIL_BIN, RAIL_TEXT = EXAMPLES / "rail.bin", EXAMPLES / "rail.listing"
# A text of the rail with whole numbers, so that nothing is rounded and nothing is said of it.
TEXTS = tempfile.TemporaryDirectory()
RAIL = Path(TEXTS.name) / "rail.model"
RAIL.write_text(pack.unpack(RAIL_BIN.read_bytes()))
USED = crates_of("envelope")


def setUpModule() -> None:
    heed_signals()


class Models(Clone):
    def test_a_text_and_its_packed_file_give_the_listing(self) -> None:
        for model in (RAIL, RAIL_BIN):
            with self.subTest(model.name):
                self.assert_done(self.run_on(model), 0, RAIL_TEXT.read_bytes(), b"")

    def test_several_models_stand_under_their_names(self) -> None:
        sample = EXAMPLES / "verdicts.model"
        rows = f"==> {RAIL} <==\n", RAIL_TEXT.read_text(), f"\n==> {sample} <==\n", SAMPLE_TEXT.decode()
        self.assert_done(self.run_on(RAIL, sample), 0, "".join(rows).encode(), b"")

    def test_each_model_is_answered_whatever_the_others_are(self) -> None:
        (self.folder / "cut.bin").write_bytes(SAMPLE[:-1])
        (self.folder / "wrong.model").write_text("steps 3\n")
        (self.folder / "good.bin").write_bytes(SAMPLE)
        cut, good = b"==> cut.bin <==\nrefused 1 at 185\n", b"==> good.bin <==\n" + SAMPLE_TEXT
        for words, status, out in (
            ("cut.bin missing good.bin", 2, cut + b"\n" + good),
            ("missing cut.bin", 2, cut),
            ("good.bin cut.bin", 1, good + b"\n" + cut),
            ("wrong.model good.bin", 1, good),
            ("good.bin wrong.model /", 2, good),
        ):
            with self.subTest(words):
                self.assert_done(self.run_on(*words.split(), cwd=self.folder), status, out)

    def test_standard_input_is_a_model(self) -> None:
        for data in (RAIL.read_bytes(), RAIL_BIN.read_bytes()):
            self.assert_done(self.run_on("-", data=data), 0, RAIL_TEXT.read_bytes(), b"")

    def test_standard_input_has_a_name(self) -> None:
        done = self.run_on("-", RAIL, data=SAMPLE)
        self.assertTrue(done.stdout.startswith(b"==> standard input <==\nmodel 1 3\n"), done.stdout)
        for data in (b"steps 3\n", SAMPLE[:-1]):
            done = self.run_on("-", data=data)
            self.assertEqual(done.returncode, 1)
            self.assertIn(b"standard input:", done.stderr)
            self.assertNotIn(bytes(self.temporary), done.stderr)

    def test_a_pipe_is_a_model(self) -> None:
        pipe = self.folder / "pipe"
        os.mkfifo(pipe)
        for model in (RAIL, RAIL_BIN):
            self.start(model, pipe, command="cp")
            self.assert_done(self.run_on(pipe), 0, RAIL_TEXT.read_bytes(), b"")
            number = self.start(model, command="cat").stdout.fileno()
            done = self.run_on(f"/dev/fd/{number}", pass_fds=[number])
            self.assert_done(done, 0, RAIL_TEXT.read_bytes(), b"")

    def test_input_without_end_ends(self) -> None:
        self.assertRegex(self.run_on("/dev/zero").stderr, b"^run: /dev/zero is too long")
        done = self.run_on("-", stdin=self.start(RAIL_BIN, "/dev/zero", command="cat").stdout)
        self.assert_done(done, 1, b"refused 10 at %d\n" % len(RAIL_BIN.read_bytes()))

    def test_a_refused_file_is_told_in_words(self) -> None:
        file = self.folder / "cut.bin"
        file.write_bytes(SAMPLE[:-1])
        done = self.run_on(file)
        self.assert_done(done, 1, b"refused 1 at 185\n")
        self.assertRegex(done.stderr.decode(), rf"{file}\b.* ends? ")

    def test_an_empty_input_is_told(self) -> None:
        self.assert_done(self.run_on("-", data=b""), 1, b"refused 1 at 0\n", b"run: standard input is empty\n")
        self.assert_done(self.run_on("/dev/null"), 1, b"refused 1 at 0\n", b"run: /dev/null is empty\n")

    def test_bad_input_is_named(self) -> None:
        for words, status, message in (
            ([], 2, b"usage"),
            ([EXAMPLES / "missing.model"], 2, b"missing.model is not there"),
            ([EXAMPLES], 2, b"is a directory"),
            ([ROOT / "README.md"], 1, b"README.md:3: "),
        ):
            with self.subTest(words):
                done = self.run_on(*words)
                self.assert_done(done, status, b"")
                self.assertIn(message, done.stderr)

    def test_output_that_fails_has_a_status(self) -> None:
        with open("/dev/full", "wb") as full:
            for words in ([RAIL_BIN], [RAIL_BIN, RAIL_BIN], ["--help"], ["--version"]):
                done = self.run_on(*words, stdout=full)
                self.assertEqual((done.returncode, done.stderr), (2, b"run: standard output could not be written\n"))

    def test_a_reader_that_goes_away_gets_no_messages(self) -> None:
        started = self.start(*[EXAMPLES / "head.bin"] * 40)
        self.assertEqual(started.stdout.readline(), b"==> %s <==\n" % bytes(EXAMPLES / "head.bin"))
        started.stdout.close()
        self.assertEqual((started.wait(TIME_LIMIT), started.stderr.read()), (128 + signal.SIGPIPE, b""))
        self.assertEqual(list(self.temporary.iterdir()), [])


class Words(Clone):
    def test_help_tells_the_words_and_the_statuses(self) -> None:
        for words in (["--help"], [RAIL, "--help"]):
            done = self.run_on(*words)
            self.assertEqual((done.returncode, done.stderr), (0, b""))
            for part in (b"usage: ./run [--quiet] MODEL", b"--version", b"tools/pack.py", b"  0  ", b"  1  ", b"  2  "):
                self.assertIn(part, done.stdout)
            told = rb"rounded \(~[^)]*\) .* no input set, where it has none;[^.]*--quiet"
            self.assertRegex(done.stdout, told)

    def test_the_examples_of_help_work(self) -> None:
        (self.clone / "examples").symlink_to(EXAMPLES)
        examples = re.findall(r"\n  (\./run .*)", self.run_on("--help").stdout.decode())
        self.assertEqual(len(examples), 2)
        for example in examples:
            done = self.run_on("-c", example, command="bash", cwd=self.clone)
            self.assertEqual(done.returncode, 0)
            self.assertRegex(done.stderr, rb"^(examples/rail\.model: \d+ entries were rounded .*\n)?$")
            self.assertIn(RAIL_TEXT.read_bytes(), done.stdout)

    def test_rounding_is_told_unless_quiet(self) -> None:
        done = self.run_on(EXAMPLES / "rail.model")
        self.assert_done(done, 0, RAIL_TEXT.read_bytes())
        self.assertRegex(done.stderr, rb"^\S*rail\.model: 5 entries were rounded \(~\); .*\n$")
        self.assert_done(self.run_on("--quiet", EXAMPLES / "rail.model"), 0, RAIL_TEXT.read_bytes(), b"")

    def test_no_input_set_is_told_unless_quiet(self) -> None:
        # Figures 4, whose input is zero.
        file, packed = self.folder / "still.model", self.folder / "still.bin"
        text = "coordinates 1\nsteps 3\nrow 0.5\ninitial box\nlower 0\nupper 100\ndirection d 1\n"
        file.write_text(text)
        packed.write_bytes(pack.parse(text).data)
        listing = b"model 1 3\ndir 0 spare 10\n0 100 0\n1 50 0\n2 25 0\n3 13 1\n"
        note = b"%s: no input set: the input is zero in every coordinate\n"
        self.assert_done(self.run_on(file), 0, listing, note % bytes(file))
        self.assert_done(self.run_on("-", data=text.encode()), 0, listing, note % b"standard input")
        self.assert_done(self.run_on("--quiet", file), 0, listing, b"")
        self.assert_done(self.run_on(packed), 0, listing, b"")
        file.write_text(text + "input box\nlower 0\nupper 0\n")
        self.assert_done(self.run_on(file), 0, listing, b"")

    def test_the_example_without_an_input_set_is_listed(self) -> None:
        text, listing = EXAMPLES / "cooling.model", (EXAMPLES / "cooling.listing").read_bytes()
        done = self.run_on(text)
        self.assert_done(done, 0, listing)
        self.assertRegex(done.stderr, rb"^\S*: \d+ entries were rounded .*\n\S*: no input set: .*\n$")
        self.assert_done(self.run_on("--quiet", text), 0, listing, b"")
        self.assert_done(self.run_on(EXAMPLES / "cooling.bin"), 0, listing, b"")

    def test_the_example_with_fitted_rows_is_listed(self) -> None:
        text, listing = EXAMPLES / "fitted.model", (EXAMPLES / "fitted.listing").read_bytes()
        done = self.run_on(text)
        self.assert_done(done, 0, listing)
        note = rb"^\S*fitted\.model: 6 entries were rounded \(fitted\); .*\n$"
        self.assertRegex(done.stderr, note)
        self.assert_done(self.run_on("--quiet", text), 0, listing, b"")
        self.assert_done(self.run_on(EXAMPLES / "fitted.bin"), 0, listing, b"")

    def test_the_example_with_a_drift_is_listed(self) -> None:
        text, listing = EXAMPLES / "summer.model", (EXAMPLES / "summer.listing").read_bytes()
        done = self.run_on(text)
        self.assert_done(done, 0, listing)
        self.assertRegex(done.stderr, rb"^\S*summer\.model: 4 entries were rounded \(~\); .*\n$")
        self.assert_done(self.run_on(EXAMPLES / "summer.bin"), 0, listing, b"")
        # Without its drift the first guard is no longer reached.
        still = text.read_bytes().replace(b"\ndrift 2367 1179", b"")
        self.assertIn(b"\nguard 0 HIT 183\n", listing)
        self.assertIn(b"\nguard 0 CLEAR\n", self.run_on("-", data=still).stdout)

    def test_why_a_drift_is_refused_is_told_in_words(self) -> None:
        # The first entry of the example's drift, whose record is at 56, becomes another.
        data = (EXAMPLES / "summer.bin").read_bytes()
        self.assertEqual(data[56:61], b"\x05" + (2_367).to_bytes(4, "little"))
        for drift, offset, told in (
            (1_048_577, 56, "the drift: entry 1,048,577 in coordinate 0 .* to 1,048,576\n$"),
            (-999_425, 156, "the upper corner of the input set: .* is 49,152, which with the drift"
                            " of -999,425 makes 1,048,577; .* at most 1,048,576\n$"),
        ):
            entry = drift.to_bytes(4, "little", signed=True)
            done = self.run_on("-", data=data[:57] + entry + data[61:])
            self.assert_done(done, 1, b"refused 17 at %d\n" % offset)
            self.assertRegex(done.stderr.decode(), told)

    def test_why_a_fitted_row_is_refused_is_told_in_words(self) -> None:
        # The first entry of the example's first row, at offset 6, becomes infinite.
        data = (EXAMPLES / "fitted.bin").read_bytes()
        infinite = data[:6] + (0x7FF << 52).to_bytes(8, "little") + data[14:]
        done = self.run_on("-", data=infinite)
        self.assert_done(done, 1, b"refused 15 at 4\n")
        told = rb"fitted row 0 \(the first\): entry inf in column 0 .* from -2 to 2\n$"
        self.assertRegex(done.stderr, told)

    def test_why_something_beyond_n_is_refused_is_told_in_words(self) -> None:
        # The example has two coordinates. The last column of its drift, whose record is at 56, becomes 7,
        # or the third of its first direction, at 181.
        data = (EXAMPLES / "summer.bin").read_bytes()
        for at, kind, column, told in (
            (56, 0x05, 5, "the drift, record 3 of"), (181, 0x30, 2, "direction 0.* record 8 of")
        ):
            place = at + 1 + 4 * column
            self.assertEqual((data[at], data[place : place + 4]), (kind, bytes(4)))
            done = self.run_on("-", data=data[:place] + b"\x07" + data[place + 1 :])
            self.assert_done(done, 1, b"refused 16 at %d\n" % at)
            words = f"{told}.*entry 7 in column {column}.*columns 2 to 5 must be zero"
            self.assertRegex(done.stderr.decode(), words)

    def test_the_version_is_that_of_the_bindings(self) -> None:
        (version,) = re.findall(rb'^version = "(.*)"$', (ROOT / "rust" / "Cargo.toml").read_bytes(), re.MULTILINE)
        self.assert_done(self.run_on("--version"), 0, b"Pepperscarp %s\n" % version, b"")

    def test_an_unknown_option_is_told(self) -> None:
        for words in (["--none"], ["-x", RAIL], [RAIL, "-x"]):
            done = self.run_on(*words)
            self.assert_done(done, 2, b"")
            self.assertRegex(done.stderr, rb"^run: unknown option -.+\nrun: usage: \./run \[--quiet\] MODEL")

    def test_two_dashes_end_the_options(self) -> None:
        for name in ("--help", "-x.model", "-o"):
            shutil.copy(EXAMPLES / "verdicts.model", self.folder / name)
            self.assert_done(self.run_on("--", name, cwd=self.folder), 0, SAMPLE_TEXT, b"")
        self.assert_done(self.run_on("--", "-", data=SAMPLE), 0, SAMPLE_TEXT, b"")
        self.assertEqual(self.run_on("--").returncode, 2)


class Places(Clone):
    def test_it_works_through_links_and_from_any_directory(self) -> None:
        shutil.copy(EXAMPLES / "verdicts.model", self.folder / "own.model")
        (self.bin / "pepperscarp").symlink_to(self.clone / "run")
        (self.folder / "relative").symlink_to("bin/pepperscarp")
        for command in ("pepperscarp", "./relative", "clone/run", "bash clone/run"):
            with self.subTest(command):
                done = self.run_on("-c", f"{command} own.model", command="bash", cwd=self.folder)
                self.assert_done(done, 0, SAMPLE_TEXT, b"")
        self.assertEqual(self.calls(), 0)

    def test_it_builds_through_a_link(self) -> None:
        self.program.unlink()
        link = self.folder / "link"
        link.symlink_to(self.clone / "run")
        self.assert_done(self.run_on(RAIL, command=link, cwd="/"), 0, RAIL_TEXT.read_bytes())
        self.assertEqual(self.calls(), 1)

    def test_the_folder_of_the_clone_may_have_any_name(self) -> None:
        moved = self.clone.rename(self.folder / "a clone's *")
        for words in (["-"], [RAIL]):
            done = self.run_on(*words, command=moved / "run", data=SAMPLE)
            self.assertEqual((done.returncode, done.stderr), (0, b""))
        os.utime(moved / "crates.txt")
        self.assertEqual(self.run_on(RAIL, command=moved / "run").returncode, 0)
        self.assertEqual(self.calls(), 1)


class Sources(Clone):
    """When `rt` is called."""

    def test_rt_is_not_called_where_the_program_is_newer(self) -> None:
        for model in (RAIL, RAIL_BIN):
            self.assert_done(self.run_on(model), 0, RAIL_TEXT.read_bytes(), b"")
        self.assertEqual(self.calls(), 0)

    def test_rt_is_not_called_in_this_clone_where_its_program_is_newer(self) -> None:
        program = ROOT / "target" / "bin" / "envelope"
        parts = [ROOT / "crates" / crate / part for crate in USED for part in ("src", "specs", "proofs")]
        sources = [file for part in parts if part.exists() for file in (part, *part.rglob("*"))]
        newest = max(file.stat().st_mtime_ns for file in [ROOT / "crates.txt", *sources])
        if newest > program.stat().st_mtime_ns:
            self.skipTest("a source is newer")
        self.assert_done(self.run_on(RAIL_BIN, command=ROOT / "run"), 0, RAIL_TEXT.read_bytes(), b"")
        self.assertEqual(self.calls(), 0)

    def test_rt_need_not_be_there_where_the_program_is_newer(self) -> None:
        path = self.path()
        for model in (RAIL, RAIL_BIN):
            self.assert_done(self.run_on(model, path=path), 0, RAIL_TEXT.read_bytes(), b"")

    def test_rt_must_be_there_where_a_source_is_newer(self) -> None:
        self.make_newer(self.clone / "crates.txt")
        done = self.run_on(RAIL, path=self.path())
        self.assert_done(done, 2, b"")
        self.assertRegex(done.stderr, rb"^run: .*\(rt\) is not there\n$")

    def test_rt_is_called_where_a_source_is_newer(self) -> None:
        sources = [self.clone / "crates.txt"]
        sources += [self.clone / "crates" / crate / "src" / "lib.rt" for crate in USED]
        sources += self.clone.glob("crates/reader/*/**/*.antt")
        self.assertEqual(len(sources), 1 + len(USED) + 2)
        self.run_on(RAIL_BIN)
        self.assertEqual(self.calls(), 0)
        for count, source in enumerate(sources, 1):
            with self.subTest(source.relative_to(self.clone)):
                self.age()
                os.utime(source)
                self.assert_done(self.run_on(RAIL_BIN), 0, RAIL_TEXT.read_bytes())
                self.assertEqual(self.calls(), count)
        self.assertEqual(set((self.notes / "calls").read_text().split("\n")), {"run envelope", ""})

    def test_rt_is_called_where_a_source_was_taken_away(self) -> None:
        self.age()
        (self.clone / "crates" / "reader" / "proofs" / "some" / "Proof.antt").unlink()
        for _ in range(2):
            self.run_on(RAIL_BIN)
            self.assertEqual(self.calls(), 1)
        shutil.rmtree(self.clone / "crates" / "judge" / "src")
        self.run_on(RAIL_BIN)
        self.assertEqual(self.calls(), 2)

    def test_rt_is_not_called_for_what_the_program_is_not_made_of(self) -> None:
        for file in ("figures/src/lib.rt", "reader/must-fail/some.edit"):
            self.make_newer(self.clone / "crates" / file)
        self.assert_done(self.run_on(RAIL_BIN), 0, RAIL_TEXT.read_bytes(), b"")
        self.assertEqual(self.calls(), 0)

    def test_rt_is_called_for_a_crate_that_only_another_names(self) -> None:
        rows = "deep:\nbelow: deep\nenvelope: below io # all\n"
        (self.clone / "crates.txt").write_text(rows)
        for crate in ("deep", "below"):
            (self.clone / "crates" / crate / "src").mkdir(parents=True)
        self.age()
        for count in range(2):
            self.run_on(RAIL_BIN)
            self.assertEqual(self.calls(), count)
            os.utime(self.clone / "crates" / "deep" / "src")

    def test_rt_is_called_where_the_program_is_missing(self) -> None:
        self.stamp()
        self.program.unlink()
        self.assert_done(self.run_on(RAIL_BIN), 0, RAIL_TEXT.read_bytes())
        shutil.rmtree(self.clone / "target")
        self.assert_done(self.run_on(RAIL_BIN), 0, RAIL_TEXT.read_bytes())
        self.assertEqual(self.calls(), 2)

    def test_rt_is_not_called_for_a_model_that_cannot_be_read(self) -> None:
        self.program.unlink()
        self.assertEqual(self.run_on(EXAMPLES / "missing.model").returncode, 2)
        self.assertEqual(self.run_on("-", data=b"steps 3\n").returncode, 1)
        self.assertEqual(self.calls(), 0)

    def test_a_program_that_rt_left_alone_counts_as_newer(self) -> None:
        self.stamp()
        self.age()
        os.utime(self.clone / "crates" / "text" / "src" / "lib.rt")
        for _ in range(2):
            self.assertEqual(self.run_on(RAIL_BIN).returncode, 0)
        self.assertEqual(self.calls(), 1)

    def test_a_source_that_was_changed_meanwhile_counts_as_newer(self) -> None:
        self.program.unlink()
        self.rt("touch ../text/src/lib.rt && sleep 0.05 && touch out/envelope", seconds=0.05)
        self.assertEqual(self.run_on(RAIL_BIN).returncode, 0)
        self.rt()
        self.assertEqual(self.run_on(RAIL_BIN).returncode, 0)
        self.assertEqual(self.calls(), 2)
        self.assertEqual(self.run_on(RAIL_BIN).returncode, 0)
        self.assertEqual(self.calls(), 2)


class Build(Clone):
    """How the program is built."""

    def setUp(self) -> None:
        super().setUp()
        # The last command of an `rt` that ends when it is told to.
        self.pause = f"for _ in {{1..999}}; do [ ! -e '{self.notes}/on' ] || break; sleep 0.01; done"

    def go_on(self) -> None:
        (self.notes / "on").touch()

    def note_runs(self) -> Path:
        """A program that notes that it was run, out of date."""
        ran = self.notes / "ran"
        script(self.program, f"#!/bin/sh\ntouch '{ran}'\necho model\n")
        self.age()
        os.utime(self.clone / "crates.txt")
        return ran

    def test_it_tells_how_far_it_is(self) -> None:
        self.program.unlink()
        rows = self.run_on(RAIL_BIN).stderr.decode().splitlines()
        self.assertRegex(rows[0], "^run: proving and building .* about six minutes the first time$")
        for place, crate in enumerate(USED, 1):
            self.assertEqual(rows[place], f"run: proved {crate} (3 functions), {place} of {len(USED)} crates")
        self.assertEqual(len(rows), 1 + len(USED))

    def test_it_tells_this_while_it_proves(self) -> None:
        self.program.unlink()
        self.rt(self.pause, crates=["text"])
        started = self.start(RAIL_BIN)
        rows = [started.stderr.readline() for _ in range(2)]
        self.assertEqual(rows[1], b"run: proved text (3 functions), %d of %d crates\n" % (USED.index("text") + 1, len(USED)))
        self.go_on()
        self.assertEqual(started.communicate(timeout=TIME_LIMIT), (RAIL_TEXT.read_bytes(), b""))

    def test_unchanged_crates_are_counted_and_not_told(self) -> None:
        # `rt` says nothing of text, which is unchanged.
        self.program.unlink()
        rows = "crate listing: modules loaded=1 checked=1", "logic=proved functions=27 sum=0", "rt: running out/x"
        self.rt("printf '%s\\n' " + " ".join(f"'{row}'" for row in rows) + " >&2", crates=[])
        self.assertEqual(
            self.run_on(RAIL_BIN).stderr.splitlines()[1:],
            [b"run: proved listing (27 functions), %d of %d crates" % (USED.index("listing") + 1, len(USED))],
        )

    def test_one_function_is_told_as_one(self) -> None:
        self.program.unlink()
        rows = "crate text: modules loaded=1 checked=1", "logic=proved functions=1 sum=0"
        self.rt("printf '%s\\n' " + " ".join(f"'{row}'" for row in rows) + " >&2", crates=[])
        self.assertIn(b"\nrun: proved text (1 function), ", self.run_on(RAIL_BIN).stderr)

    def test_a_failed_build_is_shown_and_nothing_is_run(self) -> None:
        ran = self.note_runs()
        self.stamp()
        last = "src/lib.rt:3:1: error: `some`", "fn text::full: not proved", "logic=not-proved functions=2 sum=0"
        self.rt("(printf '%s\\n' " + " ".join(f"'{row}'" for row in last) + " >&2; exit 1)")
        for _ in range(2):
            done = self.run_on(RAIL_BIN, RAIL)
            self.assert_done(done, 2, b"")
            for row in ("fn text::some: proved", *last):
                self.assertIn(b"\n" + row.encode() + b"\n", done.stderr)
            self.assertTrue(done.stderr.endswith(b"\nrun: the program could not be built\n"))
        self.assertFalse(ran.exists())
        self.assertEqual(self.calls(), 2)

    def test_a_program_whose_trial_failed_is_not_run(self) -> None:
        # It was linked, and is newer than every source.
        self.program.unlink()
        self.rt("false")
        for _ in range(2):
            self.assert_done(self.run_on(RAIL_BIN), 2, b"")
        self.rt()
        for _ in range(2):
            self.assert_done(self.run_on(RAIL_BIN), 0, RAIL_TEXT.read_bytes())
        self.assertEqual(self.calls(), 3)

    def test_a_build_that_makes_no_program_has_failed(self) -> None:
        self.program.unlink()
        self.rt("rm out/envelope")
        done = self.run_on(RAIL_BIN)
        self.assert_done(done, 2, b"")
        self.assertIn(b"has made no", done.stderr)

    def test_rt_takes_nothing_of_standard_input(self) -> None:
        self.program.unlink()
        self.rt("cat > /dev/null")
        done = self.run_on(RAIL_BIN, "-", data=SAMPLE)
        self.assertEqual(done.returncode, 0)
        self.assertTrue(done.stdout.endswith(b"\n\n==> standard input <==\n" + SAMPLE_TEXT))

    def test_of_two_at_once_one_builds_and_both_answer(self) -> None:
        self.program.unlink()
        self.rt(self.pause)
        started = [self.start(model) for model in (RAIL, RAIL_BIN, RAIL)]
        rows = [one.stderr.readline() for one in started]
        self.assertEqual(sum(row.startswith(b"run: proving and building") for row in rows), 1)
        self.assertEqual(sum(row.startswith(b"run: another run is building") for row in rows), 2)
        self.go_on()
        for one in started:
            out, err = one.communicate(timeout=TIME_LIMIT)
            self.assertEqual((one.returncode, out), (0, RAIL_TEXT.read_bytes()), err)
        self.assertEqual(self.calls(), 1)

    def test_never_two_rt_at_a_time(self) -> None:
        self.program.unlink()
        self.rt(f"{self.pause}; sleep 0.1; false")
        started = [self.start(RAIL_BIN) for _ in range(3)]
        for one in started:
            self.assertRegex(one.stderr.readline(), b"^run: ")
        self.go_on()
        for one in started:
            one.communicate(timeout=TIME_LIMIT)
            self.assertEqual(one.returncode, 2)
        self.assertEqual(self.calls(), 3)
        self.assertFalse((self.notes / "overlaps").exists())

    def test_a_program_that_is_being_made_is_not_run(self) -> None:
        self.program.unlink()
        self.rt(f"touch '{self.notes}/linked'; {self.pause}")
        first = self.start(RAIL_BIN)
        until((self.notes / "linked").exists)
        second = self.start(RAIL_BIN)
        self.assertRegex(second.stderr.readline(), b"^run: another run is building the program")
        self.go_on()
        self.assertEqual(second.communicate(timeout=TIME_LIMIT), (RAIL_TEXT.read_bytes(), b""))
        first.communicate(timeout=TIME_LIMIT)
        self.assertEqual(self.calls(), 1)

    def test_a_lock_that_was_left_hinders_nobody(self) -> None:
        self.program.unlink()
        (self.clone / "target" / "run.lock").touch()
        self.assert_done(self.run_on(RAIL_BIN), 0, RAIL_TEXT.read_bytes())

    def test_the_lock_is_free_once_the_program_is_built(self) -> None:
        self.program.unlink()
        started = self.start(RAIL_BIN, "-", stdin=subprocess.PIPE)
        self.assertEqual(started.stdout.readline(), b"==> %s <==\n" % bytes(RAIL_BIN))
        with open(self.clone / "target" / "run.lock", "a") as lock:
            self.assertTrue(is_free(lock.fileno()))
        self.assertTrue(started.communicate(SAMPLE, TIME_LIMIT)[0].endswith(SAMPLE_TEXT))

    def test_a_run_that_was_killed_leaves_the_lock_to_its_rt(self) -> None:
        self.program.unlink()
        self.rt(self.pause, crates=[])  # it writes nothing, which nobody would read
        first = self.start(RAIL_BIN)
        until((self.notes / "busy").exists)
        first.kill()
        second = self.start(RAIL_BIN)
        self.assertRegex(second.stderr.readline(), b"^run: another run is building the program")
        self.go_on()
        self.assertEqual(second.communicate(timeout=TIME_LIMIT)[0], RAIL_TEXT.read_bytes())
        self.assertFalse((self.notes / "overlaps").exists())
        self.assertEqual(self.calls(), 2)

    def test_a_signal_ends_rt_too(self) -> None:
        for signal_ in (signal.SIGINT, signal.SIGTERM):
            with self.subTest(signal_):
                self.program.unlink(missing_ok=True)
                self.rt(seconds=60)
                started = self.start(RAIL_BIN)
                until((self.notes / "busy").exists)
                started.send_signal(signal_)
                started.communicate(timeout=TIME_LIMIT)
                self.assertEqual(started.returncode, 128 + signal_)
                self.assertEqual(list(self.temporary.iterdir()), [])
                with open(self.clone / "target" / "run.lock", "a") as lock:
                    until(lambda: is_free(lock.fileno()))
                (self.notes / "busy").rmdir()
                self.rt()
                self.assert_done(self.run_on(RAIL_BIN), 0, RAIL_TEXT.read_bytes())

    def test_a_signal_ends_a_run_that_waits(self) -> None:
        self.program.unlink()
        with open(self.clone / "target" / "run.lock", "a") as lock:
            self.assertTrue(is_free(lock.fileno()))
            started = self.start(RAIL_BIN)
            self.assertRegex(started.stderr.readline(), b"^run: another run is building the program")
            started.terminate()
            self.assertEqual(started.wait(TIME_LIMIT), 128 + signal.SIGTERM)
        self.assertEqual((list(self.temporary.iterdir()), self.calls()), ([], 0))

    def test_without_flock_it_builds_and_says_so(self) -> None:
        self.program.unlink()
        done = self.run_on(RAIL_BIN, path=self.path(without="flock", more=("cp", "rmdir", "rt", "sleep")))
        self.assert_done(done, 0, RAIL_TEXT.read_bytes())
        self.assertRegex(done.stderr, b"^run: there is no flock: ")

    def test_a_folder_that_cannot_be_written_is_named(self) -> None:
        shutil.rmtree(self.clone / "target")
        (self.clone / "target").touch()
        done = self.run_on(RAIL_BIN)
        self.assert_done(done, 2, b"", b"run: %s/target can't be written\n" % bytes(self.clone))


class Without(Clone):
    """What is missing or full has status 2."""

    def test_without_python3_a_text_has_status_2(self) -> None:
        path = self.path(without="python3")
        done = self.run_on(RAIL, RAIL_BIN, path=path)
        self.assert_done(done, 2, b"==> %s <==\n" % bytes(RAIL_BIN) + RAIL_TEXT.read_bytes())
        self.assertRegex(done.stderr, b"^run: .*rail.model is a text, and python3, .* is not there\n$")

    def test_without_python3_a_packed_file_is_listed_or_refused(self) -> None:
        path = self.path(without="python3")
        self.assert_done(self.run_on(RAIL_BIN, path=path), 0, RAIL_TEXT.read_bytes(), b"")
        done = self.run_on("-", data=SAMPLE + b"\0", path=path)
        self.assert_done(done, 1, b"refused 10 at 186\n")
        self.assertRegex(done.stderr, rb"^run: standard input is refused by number 10; .*/README.md .*\n$")

    def test_a_python3_that_cannot_run_the_tools_has_status_2(self) -> None:
        (self.bin / "python3").unlink()
        for status in (1, 127):
            script(self.bin / "python3", f"#!/bin/sh\nexit {status}\n")
            done = self.run_on(RAIL)
            self.assert_done(done, 2, b"")
            self.assertIn(b"could not be packed", done.stderr)

    def test_a_temporary_folder_that_is_not_there_has_status_2(self) -> None:
        self.temporary.rmdir()
        started = self.start(RAIL)
        out, err = started.communicate(timeout=TIME_LIMIT)
        self.temporary.mkdir()
        self.assertEqual((started.returncode, out), (2, b""))
        self.assertIn(b"run: no temporary folder can be made in %s\n" % bytes(self.temporary), err)

    def test_a_full_temporary_folder_has_status_2(self) -> None:
        # A link to /dev/full takes no byte, as a file on a full disk.
        for name, model in (("model", RAIL), ("model", RAIL_BIN), ("packed", RAIL)):
            with self.subTest(f"{name} of {model.name}"):
                real = shutil.which("mktemp")
                full = f'folder=$({real} -d) && ln -s /dev/full "$folder/{name}" && echo "$folder"'
                script(self.bin / "mktemp", f"#!/bin/sh\n{full}\n")
                done = self.run_on(model)
                self.assert_done(done, 2, b"")
                self.assertIn(os.strerror(errno.ENOSPC).encode(), done.stderr)
                place = b"could not be .* temporary folder .*%s\n$" % bytes(self.temporary)
                self.assertRegex(done.stderr, b"run: .*rail.* " + place)

    def test_a_mktemp_that_makes_no_folder_has_status_2(self) -> None:
        file = self.folder / "file"
        file.touch()
        for line in (f"echo '{file}'", "exit 1", ":"):
            script(self.bin / "mktemp", f"#!/bin/sh\n{line}\n")
            done = self.run_on(RAIL)
            self.assert_done(done, 2, b"")
            self.assertIn(b"no temporary folder can be made in ", done.stderr)
        self.assertTrue(file.exists())

    def test_a_signal_removes_temporary_files(self) -> None:
        pipe = self.folder / "pipe"
        os.mkfifo(pipe)
        for signal_ in (signal.SIGINT, signal.SIGTERM, signal.SIGHUP):
            for words in ([pipe], ["-"]):
                with self.subTest(f"{signal_} {words}"):
                    started = self.start(*words, stdin=subprocess.PIPE)
                    until(lambda: any(self.temporary.iterdir()))
                    time.sleep(0.05)
                    started.send_signal(signal_)
                    self.assertEqual(started.wait(TIME_LIMIT), 128 + signal_)
                    self.assertEqual(list(self.temporary.iterdir()), [])
                    self.assertEqual(started.communicate(timeout=TIME_LIMIT), (b"", b""))

    def test_a_program_that_fails_has_status_2(self) -> None:
        for line, message in (
            ("exit 3", b"did not end well"),
            ("echo what", b"wrote no reply"),
            (":", b"wrote no reply"),
        ):
            with self.subTest(line):
                script(self.program, f"#!/bin/sh\n{line}\n")
                done = self.run_on(RAIL_BIN)
                self.assert_done(done, 2, b"")
                self.assertIn(message, done.stderr)


if __name__ == "__main__":
    unittest.main()
