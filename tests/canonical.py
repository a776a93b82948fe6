#!/usr/bin/env python3
"""Test the program `canonical` from outside, as a user's shell would.

    canonical.py [--program PROGRAM] [--seed N] [--count N]

What it writes is held against bytes that are worked out by hand, and against the exact program
(`exact.read_model`, `exact.canonical`): on the files of the reader's tests, on every way to save a
model, on 20,000 random accepted models or as many as `--count` says, each saved in a random way,
and on random files, most of the refused ones among them, 3 for each 20 models. The numbers of what
was tried are printed. It takes the built program, target/bin/canonical, or another one, and fails
if there is none.
"""

from __future__ import annotations

import argparse
import collections
import errno
import os
import random
import shutil
import subprocess
import sys
import tempfile
import unittest
from dataclasses import replace
from pathlib import Path
from typing import Any
from unittest import mock

ROOT = Path(__file__).resolve().parent.parent
READER_FILES = ROOT / "crates" / "readings" / "data"
TIME_LIMIT = 10  # seconds; a program that has not ended by then hangs

sys.path.insert(0, str(ROOT / "tools"))

import exact  # noqa: E402
import models  # noqa: E402
import readerfiles  # noqa: E402
from layout import (  # noqa: E402
    DEFAULT_STEPS, LONGEST_FILE, LONGEST_WRITTEN, MAX_DIRECTIONS, MAX_GUARDS, MAX_N, MAX_STEPS,
    READ_LIMIT, VERTICES, Model, Set, encode, fitted_rows_of, states_drift, states_input, zero_box,
)
from listings import Growth, Refusal  # noqa: E402

REST = "00" * 20  # entries 1 to 5
START = f"01 01 0300 02 00 00800000 {REST}"  # n 1, 3 steps, the row 32,768
INITIAL = f"10 00000000 {REST} 11 00000000 {REST}"
INPUT = f"20 00000000 {REST} 21 01000000 {REST}"
ASKED = f"30 01000000 {REST}"
GUARDS = "40 00 0100000000000000 40 00 0200000000000000 40 00 0300000000000000"
SAMPLE = bytes.fromhex(f"{START} {INITIAL} {INPUT} {ASKED} {GUARDS} FF")  # Listing 8

program = str(ROOT / "target" / "bin" / "canonical")
seed, count = 2026, 20_000
# What the random models were, and the random files: accepted, or refused with which number.
seen_models: collections.Counter[str] = collections.Counter()
seen_files: collections.Counter[str] = collections.Counter()


def run(data: bytes | None = None, **how: Any) -> subprocess.CompletedProcess[bytes]:
    if data is not None:
        how["input"] = data
    return subprocess.run([program], timeout=TIME_LIMIT, **{"capture_output": True, **how})


def run_by(shell: str, data: bytes = SAMPLE) -> subprocess.CompletedProcess[bytes]:
    """What the program, `$0` of a shell's command, does."""
    command = ["sh", "-c", shell, program]
    return subprocess.run(command, input=data, capture_output=True, timeout=TIME_LIMIT)


def saved(rng: random.Random, model: Model) -> bytes:
    """A file of a model, saved in one of its ways."""
    share = rng.choice((0, 0, 0.5, 1))
    rows = {
        number: (
            *(models.becoming(rng, entry) for entry in entries),
            *rng.choices((0, models.SIGN), k=MAX_N - model.n),
        )
        for number, entries in enumerate(model.matrix)
        if rng.random() < share
    }
    stated_steps = 0 if model.steps == DEFAULT_STEPS and rng.random() < 0.5 else None
    input_stated = model.input != zero_box(model.n) or rng.random() < 0.5
    return encode(model, stated_steps, input_stated, rows, rng.random() < 0.3)


class Spawned:
    """The program on many files, one after the other.

    A file is short enough for a pipe to hold it, and what the program writes goes to files, so that
    starting it is all that takes time.
    """

    def __init__(self) -> None:
        self.out, self.err = tempfile.TemporaryFile(), tempfile.TemporaryFile()

    def __enter__(self) -> Spawned:
        return self

    def __exit__(self, *_: object) -> None:
        self.out.close()
        self.err.close()

    def answer(self, data: bytes) -> tuple[bytes, bytes]:
        """What the program writes on standard output and on standard error."""
        reading, writing = os.pipe()
        os.write(writing, data)
        os.close(writing)
        ends = ((reading, 0), (self.out.fileno(), 1), (self.err.fileno(), 2))
        actions = [(os.POSIX_SPAWN_DUP2, end, number) for end, number in ends]
        process = os.posix_spawn(program, [program], os.environ, file_actions=actions)
        os.close(reading)
        _, status = os.waitpid(process, 0)
        assert status == 0, f"status {os.waitstatus_to_exitcode(status)}: {data.hex()}"
        return self._taken(self.out.fileno()), self._taken(self.err.fileno())

    @staticmethod
    def _taken(number: int) -> bytes:
        """All that a file holds, which then is empty."""
        length = os.lseek(number, 0, os.SEEK_CUR)
        data = os.pread(number, length, 0)
        os.ftruncate(number, 0)
        os.lseek(number, 0, os.SEEK_SET)
        return data


class Canonical(unittest.TestCase):
    def assert_answer(
        self, done: subprocess.CompletedProcess[bytes], out: bytes, err: bytes = b""
    ) -> None:
        self.assertEqual((done.stdout, done.stderr, done.returncode), (out, err, 0))

    def assert_refused(self, data: bytes, number: int, offset: int) -> None:
        self.assert_answer(run(data), b"", b"refused %d at %d\n" % (number, offset))


class Bytes(Canonical):
    """Writing 1 and 2 by hand; each file is given with what is to be written of it."""

    def written(self, given: str, expected: str) -> None:
        wanted = bytes.fromhex(expected)
        self.assert_answer(run(bytes.fromhex(given)), wanted)
        self.assert_answer(run(wanted), wanted)

    def kept(self, given: str) -> None:
        self.written(given, given)

    def test_the_sample_is_written_as_it_is(self) -> None:
        self.assertEqual(len(SAMPLE), 186)
        self.assertEqual(SAMPLE, (ROOT / "crates" / "envelope" / "stdin").read_bytes())
        self.assert_answer(run(SAMPLE), SAMPLE)

    def test_figures_29(self) -> None:
        start = f"02 00 FFFFFFFF {REST} {INITIAL}"
        end = f"{ASKED} 40 00 FEFFFFFFFFFFFFFF FF"
        for vertices in ("", f"24 00000000 {REST}"):
            saved = f"01 01 0000 {start} {vertices} {end}"
            written = bytes.fromhex(f"01 01 7800 {start} {vertices} {end}")
            self.assertEqual(run(bytes.fromhex(saved)).stdout, written)
            self.assertEqual(len(written), 141 if vertices else 116)

    def test_steps_of_0_are_written_as_120(self) -> None:
        rest = f"02 00 00800000 {REST} {INITIAL} {INPUT} {ASKED} FF"
        self.written(f"01 01 0000 {rest}", f"01 01 7800 {rest}")
        for steps in ("0100", "7700", "7800", "7900", "0001"):
            self.kept(f"01 01 {steps} {rest}")

    def test_a_fitted_row_is_written_scaled(self) -> None:
        # 0.5; 1.5 / 65,536, which becomes the even 2; -2; the smallest number above 0; -0.
        for bits, entry in (
            ("000000000000E03F", "00800000"), ("000000000000F83E", "02000000"),
            ("00000000000000C0", "0000FEFF"), ("0100000000000000", "00000000"),
            ("0000000000000080", "00000000"),
        ):
            rest = f"{INITIAL} {INPUT} {ASKED} FF"
            for beyond in ("00" * 40, "0000000000000080" * 5):
                given = f"01 01 0300 03 00 {bits} {beyond} {rest}"
                self.written(given, f"01 01 0300 02 00 {entry} {REST} {rest}")

    def test_a_drift_is_written_only_where_it_is_not_zero(self) -> None:
        rest = f"{INITIAL} {INPUT} {ASKED} FF"
        self.written(f"{START} 05 00000000 {REST} {rest}", f"{START} {rest}")
        for entry in ("01000000", "FFFFFFFF", "00000100"):
            self.kept(f"{START} 05 {entry} {REST} {rest}")

    def test_a_zero_box_is_left_out_as_input_alone(self) -> None:
        zero = f"20 00000000 {REST} 21 00000000 {REST}"
        self.written(f"{START} {INITIAL} {zero} {ASKED} FF", f"{START} {INITIAL} {ASKED} FF")
        for low, high in (("FFFFFFFF", "00000000"), ("00000000", "01000000"), ("01000000",) * 2):
            self.kept(f"{START} {INITIAL} 20 {low} {REST} 21 {high} {REST} {ASKED} FF")

    def test_other_sets_of_zeros_are_written(self) -> None:
        for part in (
            f"24 00000000 {REST}", f"24 00000000 {REST}" * 2,
            f"22 00000000 {REST} 23 00000000 {REST}",
        ):
            self.kept(f"{START} {INITIAL} {part} {ASKED} FF")
        for part in (f"14 00000000 {REST}", f"12 00000000 {REST} 13 00000000 {REST}"):
            self.kept(f"{START} {part} {ASKED} FF")

    def test_points_directions_and_guards_stand_in_stored_order(self) -> None:
        # Largest first, an equal one again, and all of them once more the other way round.
        def file(initial: list[int], input_: list[int], directions: list[int], guards: list[int]) -> str:
            parts = [START, f"05 FFFFFFFF {REST}", f"12 09000000 {REST}"]
            parts += [f"13 {entry:02X}000000 {REST}" for entry in initial]
            parts += [f"24 {entry:02X}000000 {REST}" for entry in input_]
            parts += [f"30 {entry:02X}000000 {REST}" for entry in directions]
            parts += [f"40 {number:02X} 00000000000000{number + 126:02X}" for number in guards]
            return " ".join([*parts, "FF"])

        lists = [5, 4, 5, 0], [8, 7, 0, 8], [3, 1, 3], [2, 0, 2, 1]
        self.kept(file(*lists))
        self.kept(file(*(one[::-1] for one in lists)))

    def test_the_longest_file_is_written_in_the_longest_way(self) -> None:
        points = Set(VERTICES, tuple((k,) * MAX_N for k in range(16)))
        directions = tuple((d + 1,) * MAX_N for d in range(MAX_DIRECTIONS))
        guards = tuple((d, 1_000 - d) for d in range(MAX_GUARDS))
        matrix = ((9_000, -9_000) * 3,) * MAX_N
        model = Model(MAX_N, MAX_STEPS, matrix, points, points, directions, guards, (1,) * MAX_N)
        given = encode(model, fitted_rows=readerfiles.fitted_rows(model))
        self.assertEqual((len(given), LONGEST_FILE), (1_690, 1_690))
        self.assertEqual((len(encode(model)), LONGEST_WRITTEN), (1_546, 1_546))
        self.assert_answer(run(given), encode(model))
        self.assert_refused(given + b"\xff", 10, LONGEST_FILE)


class Refused(Canonical):
    def test_a_refused_file_has_its_number_and_nothing_is_written(self) -> None:
        for data, number, offset in (
            (b"", 1, 0), (SAMPLE[:-1], 1, 185), (SAMPLE[:100], 1, 80), (b"\x77", 2, 0),
            (SAMPLE[4:], 3, 0), (b"\x01\x07\x03\x00", 4, 0), (SAMPLE[:5] + b"\x01" + SAMPLE[6:], 5, 4),
            (SAMPLE[:84] + b"\x7f" + SAMPLE[85:], 6, 80), (SAMPLE[:131] + bytes(24) + SAMPLE[155:], 7, 130),
            (SAMPLE[:156] + b"\x01" + SAMPLE[157:], 8, 155), (SAMPLE[:155] + SAMPLE[130:155] * 16, 9, 530),
            (SAMPLE + b"\0", 10, 186), (SAMPLE[:10] + b"\x01" + SAMPLE[11:], 16, 4),
        ):
            with self.subTest(number):
                self.assert_refused(data, number, offset)

    def test_a_text_is_refused(self) -> None:
        # `c` is no kind, and `#` that of a generator of the input set.
        self.assert_refused(b"coordinates 1\n", 2, 0)
        self.assert_refused((ROOT / "README.md").read_bytes(), 3, 0)


class Files(Canonical):
    """What the exact program says, of many files."""

    def check(self, spawned: Spawned, data: bytes) -> Model | Refusal:
        """Check the answer to a file, and that to what is written for it."""
        read = exact.read_model(data)
        out, err = spawned.answer(data)
        if isinstance(read, Refusal):
            told = f"refused {read.number} at {read.offset}\n".encode()
            self.assertEqual((out, err), (b"", told), data.hex())
            return read
        self.assertEqual((out, err), (exact.canonical(read), b""), data.hex())
        if out != data:  # where it is, both have been done
            self.assertEqual(exact.read_model(out), read, data.hex())
            self.assertEqual(spawned.answer(out), (out, b""), data.hex())
        return read

    def test_the_files_of_the_reader_are_written_or_refused(self) -> None:
        paths = sorted(READER_FILES.iterdir())
        self.assertGreaterEqual(len(paths), 1_426)
        found: collections.Counter[str] = collections.Counter()
        with Spawned() as spawned:
            for path in paths:
                data = path.read_bytes()
                read = self.check(spawned, data)
                refused = isinstance(read, Refusal)
                found[str(read.number) if refused else "accepted"] += 1
                found["written otherwise"] += not refused and exact.canonical(read) != data
        numbers = {str(number) for number in exact.REASONS}
        self.assertEqual(set(found), {"accepted", "written otherwise", *numbers})
        self.assertGreater(found["written otherwise"], 50, found)

    def test_every_way_to_save_a_model_gives_one_file(self) -> None:
        rng = random.Random(8)
        tried = [models.random_model(rng) for _ in range(60)]
        zero = zero_box(2)
        tried += [
            Model(2, DEFAULT_STEPS, ((-1, 0), (0, 131_072)), zero, zero, ((1, 0),), ((0, 4),)),
            Model(2, 3, ((0, 0), (7, 0)), zero, Set(VERTICES, ((0, 0),)), ((1, 0),), (), (0, 5)),
        ]
        most = 0
        with Spawned() as spawned:
            for model in tried:
                ways = set(models.saved_ways(model))
                written = {spawned.answer(way) for way in ways}
                self.assertEqual(written, {(exact.canonical(model), b"")})
                most = max(most, len(ways))
        self.assertEqual(most, 2 * 2 * 4 * 2)

    def test_models_that_differ_have_different_files(self) -> None:
        # Each differs from the first in one stored number, in an order or in a count.
        first = Model(2, 7, ((1, 2), (3, 4)), Set(VERTICES, ((5, 6), (7, 8))), zero_box(2),
                      ((1, 0), (0, 1)), ((0, 9), (1, 10)))
        changes: list[dict[str, Any]] = [
            {"steps": 8}, {"matrix": ((1, 2), (3, 5))}, {"matrix": ((1, 3), (2, 4))},
            {"drift": (0, 1)}, {"drift": (1, 0)},
            {"initial": Set(VERTICES, ((7, 8), (5, 6)))}, {"initial": Set(VERTICES, ((5, 6),))},
            {"initial": Set("box", ((5, 6), (7, 8)))}, {"initial": Set("zonotope", ((5, 6), (7, 8)))},
            {"input": Set(VERTICES, ((0, 0),))}, {"input": Set(VERTICES, ((0, 0),) * 2)},
            {"input": Set("zonotope", ((0, 0),) * 2)}, {"input": Set("box", ((0, 0), (0, 1)))},
            {"directions": ((0, 1), (1, 0))}, {"directions": ((1, 0), (0, 1), (0, 1))},
            {"guards": ((1, 10), (0, 9))}, {"guards": ((0, 9),)}, {"guards": ((0, 9), (1, 11))},
            {"guards": ((0, 9), (0, 10))},
        ]
        tried = [first, *(Model(**{**vars(first), **change}) for change in changes)]
        with Spawned() as spawned:
            written = [spawned.answer(encode(model)) for model in tried]
        self.assertEqual(len(set(written)), len(tried))
        for model, (out, err) in zip(tried, written):
            self.assertEqual((exact.read_model(out), err), (model, b""))

    def checked(self, spawned: Spawned, data: bytes, name: str) -> Model | Refusal:
        """`check`, which says on what it failed."""
        try:
            return self.check(spawned, data)
        except AssertionError as error:
            raise AssertionError(f"{name} of seed {seed}: {error}") from None

    def test_random_models_are_written_and_read_back(self) -> None:
        by_bytes: dict[bytes, Model] = {}
        # `models` sweeps a model to put guards near its bounds, which would take most of the time and
        # makes no difference to a writer; where no sweep has bounds, it takes any levels.
        unswept = mock.patch.object(exact, "sweep", return_value=Growth(1))
        with Spawned() as spawned, unswept:
            for number in range(count):
                rng = random.Random(f"{seed}/model {number}")
                model = models.random_model(rng)
                if rng.random() < 0.06:
                    model = replace(model, steps=DEFAULT_STEPS)
                data = saved(rng, model)
                read = self.checked(spawned, data, f"model {number}")
                self.assertEqual(read, model, f"model {number} of seed {seed}")
                written = exact.canonical(model)
                self.assertEqual(by_bytes.setdefault(written, model), model)
                zero_input = model.input == zero_box(model.n)
                seen_models["accepted"] += 1
                seen_models["written otherwise than given"] += written != data
                seen_models["with fitted rows"] += bool(fitted_rows_of(data, model.n))
                seen_models["with a drift"] += any(model.drift)
                seen_models["with a drift of zeros"] += states_drift(data) and not any(model.drift)
                seen_models["without input"] += zero_input
                seen_models["with corners of zeros"] += states_input(data) and zero_input
                seen_models["with steps of 0"] += data[2:4] == b"\0\0"
        seen_models["different"] = len(by_bytes)
        self.assertEqual(seen_models["accepted"], count)
        if count >= 2_000:
            self.assertGreater(min(seen_models.values()), count // 100, seen_models)
            self.assertGreater(len(by_bytes), 0.99 * count)

    def test_random_files_are_written_or_refused(self) -> None:
        tried = 3 * count // 20
        with Spawned() as spawned:
            for number, data in enumerate(models.stream(seed, tried)):
                read = self.checked(spawned, data, f"file {number}")
                refused = isinstance(read, Refusal)
                seen_files[str(read.number) if refused else "accepted"] += 1
        if count >= 20_000:
            numbers = {str(number) for number in exact.REASONS}
            self.assertEqual(set(seen_files), {"accepted", *numbers}, seen_files)


class Input(Canonical):
    def test_a_file_that_comes_byte_by_byte_is_read_whole(self) -> None:
        pipes = {"stdin": subprocess.PIPE, "stdout": subprocess.PIPE}
        with subprocess.Popen([program], **pipes) as started:
            for byte in SAMPLE:
                os.write(started.stdin.fileno(), bytes([byte]))
            started.stdin.close()
            self.assertEqual(started.stdout.read(), SAMPLE)

    def test_no_more_than_2048_bytes_are_read(self) -> None:
        self.assertEqual(READ_LIMIT, 2_048)
        for more in (1_862, 1_863, 4_000):
            with tempfile.TemporaryFile() as file:
                file.write(SAMPLE + bytes(more))
                file.seek(0)
                self.assert_answer(run(stdin=file), b"", b"refused 10 at 186\n")
                self.assertEqual(os.lseek(file.fileno(), 0, os.SEEK_CUR), 2_048)

    def test_what_lies_behind_2048_bytes_makes_no_difference(self) -> None:
        # A vertex list that is cut at byte 2,048 only where no more is read. It is one too long anyway.
        start = bytes.fromhex(START)
        vertices = (b"\x14" + bytes(24)) * 100
        self.assert_refused(start + vertices, 9, 30 + 16 * 25)
        self.assert_refused((start + vertices)[:2_048], 9, 30 + 16 * 25)

    def test_input_without_end_gets_an_answer(self) -> None:
        with open("/dev/zero", "rb") as zeros:
            self.assert_answer(run(stdin=zeros), b"", b"refused 2 at 0\n")

    def test_closed_input_is_an_empty_file(self) -> None:
        self.assert_answer(run_by('"$0" <&-'), b"", b"refused 1 at 0\n")

    def test_a_directory_as_input_is_an_empty_file(self) -> None:
        folder = os.open(ROOT, os.O_RDONLY)
        try:
            self.assert_answer(run(stdin=folder), b"", b"refused 1 at 0\n")
        finally:
            os.close(folder)


class Output(Canonical):
    def test_output_that_fails_is_told_on_standard_error(self) -> None:
        for output, number in ((">&-", errno.EBADF), ("> /dev/full", errno.ENOSPC)):
            with self.subTest(output):
                told = f"canonical: standard output: {os.strerror(number)}\n".encode()
                self.assert_answer(run_by(f'"$0" {output}'), b"", told)

    def test_a_refused_file_needs_no_output(self) -> None:
        for output in (">&-", "> /dev/full"):
            with self.subTest(output):
                self.assert_answer(run_by(f'"$0" {output}', SAMPLE[:-1]), b"", b"refused 1 at 185\n")

    def test_messages_that_cannot_be_written_change_nothing(self) -> None:
        for errors in ("2>&-", "2> /dev/full"):
            with self.subTest(errors):
                self.assert_answer(run_by(f'"$0" {errors}', SAMPLE[:-1]), b"")
                self.assert_answer(run_by(f'"$0" {errors}'), SAMPLE)

    def test_a_reader_that_goes_away_ends_the_program(self) -> None:
        reading, writing = os.pipe()
        os.close(reading)
        try:
            told = f"canonical: standard output: {os.strerror(errno.EPIPE)}\n".encode()
            done = run(SAMPLE, capture_output=False, stdout=writing, stderr=subprocess.PIPE)
            self.assertEqual((done.returncode, done.stderr), (0, told))
            # Where its signal is ignored too.
            command = ["sh", "-c", 'trap "" PIPE; exec "$0"', program]
            done = subprocess.run(command, input=SAMPLE, stdout=writing, stderr=subprocess.PIPE)
            self.assertEqual((done.returncode, done.stderr), (0, told))
        finally:
            os.close(writing)


def tearDownModule() -> None:
    if seen_models:
        told = ", ".join(f"{number:,} {what}" for what, number in seen_models.items())
        print(f"\nrandom models: {told}", file=sys.stderr)
    if seen_files:
        accepted = seen_files["accepted"]
        refused = seen_files.total() - accepted
        print(f"\nrandom files: {accepted:,} accepted, {refused:,} refused", file=sys.stderr)


def main() -> None:
    global program, seed, count
    parser = argparse.ArgumentParser(description="Test the program `canonical` from outside.")
    parser.add_argument("--program", default=program, help="target/bin/canonical without it")
    parser.add_argument("--seed", type=int, default=seed, metavar="N", help="of the random models and files")
    parser.add_argument("--count", type=int, default=count, metavar="N", help="how many random models")
    options, rest = parser.parse_known_args()
    seed, count = options.seed, options.count
    found = shutil.which(os.path.abspath(options.program))
    if found is None:
        sys.exit(f"{options.program}: not a program that can be run")
    program = found
    unittest.main(argv=[sys.argv[0], *rest])


if __name__ == "__main__":
    main()
