#!/usr/bin/env python3
"""Test the program `envelope` from outside, as a user's shell would.

    program.py

What the program writes is compared byte by byte with listings that it did not make, and bounds of
sets that get one point after the other with what Sets 17 and 18 say. It takes the built program,
target/bin/envelope, and fails where there is none.
"""

from __future__ import annotations

import collections
import itertools
import os
import random
import re
import socket
import struct
import subprocess
import sys
import tempfile
import unittest
from operator import mul
from pathlib import Path
from typing import Callable

ROOT = Path(__file__).resolve().parent.parent
PROGRAM = ROOT / "target" / "bin" / "envelope"
EXAMPLES = ROOT / "examples"
READER_FILES = ROOT / "crates" / "readings" / "data"
SAMPLE = (ROOT / "crates" / "envelope" / "stdin").read_bytes()
SAMPLE_TEXT = (ROOT / "crates" / "envelope" / "stdout").read_bytes()
TIME_LIMIT = 10  # seconds; a program that has not ended by then hangs
MOST_MEMORY = 4 * 1024  # kB

sys.path.insert(0, str(ROOT / "tools"))

import exact  # noqa: E402
import listings  # noqa: E402
import models  # noqa: E402
import readerfiles  # noqa: E402
from layout import (  # noqa: E402
    BOX, LONGEST_FILE, MAX_DIRECTION_ENTRY, MAX_DIRECTIONS, MAX_GUARDS, MAX_LEVEL, MAX_N,
    MAX_POINTS, MAX_REACH, MAX_STEPS, MIN_LEVEL, MIN_POINTS, VERTICES, ZONOTOPE, Model, Set,
    Vector, encode, zero_box,
)


def largest() -> bytes:
    """A model with as many rows as there can be, and long figures in them."""
    ends = tuple([-MAX_REACH] * MAX_N), tuple([MAX_REACH] * MAX_N)
    matrix = tuple(tuple(65_535 if p == i else 0 for i in range(MAX_N)) for p in range(MAX_N))
    directions = tuple(
        tuple((-1) ** (d + i) * (700 + d) for i in range(MAX_N)) for d in range(MAX_DIRECTIONS)
    )
    guards = tuple((g % MAX_DIRECTIONS, 10**12) for g in range(MAX_GUARDS))
    return encode(Model(MAX_N, MAX_STEPS, matrix, Set(BOX, ends), Set(BOX, ends), directions, guards))


def single(entry: int, initial: tuple[int, int], direction: int, steps: int) -> bytes:
    """A model of one coordinate without an input set, and with a box as initial set."""
    box = Set(BOX, tuple((end,) for end in initial))
    model = Model(1, steps, ((entry,),), box, zero_box(1), ((direction,),), ())
    return encode(model, input_stated=False)


def reply(data: bytes) -> bytes:
    """What the program writes for a file."""
    done = subprocess.run([PROGRAM], input=data, capture_output=True, timeout=TIME_LIMIT)
    assert done.returncode == 0 and not done.stderr, done
    return done.stdout


class Text(unittest.TestCase):
    def test_the_sample_is_listed_as_in_the_specification(self) -> None:
        self.assertEqual(len(SAMPLE), 186)
        self.assertEqual(reply(SAMPLE), SAMPLE_TEXT)

    def test_each_example_has_its_listing(self) -> None:
        models = sorted(EXAMPLES.glob("*.bin"))
        self.assertGreater(len(models), 5)
        for model in models:
            with self.subTest(model.name):
                self.assertEqual(reply(model.read_bytes()), model.with_suffix(".listing").read_bytes())

    def test_the_largest_listing_is_whole(self) -> None:
        data = largest()
        text = reply(data)
        self.assertEqual(text, exact.listing(data).encode("ascii"))
        self.assertEqual(text.count(b"\n"), 1 + 16 * (1 + 257) + 16)

    def test_equal_corners_and_equal_vertices_are_accepted(self) -> None:
        corners, vertices = Set(BOX, ((2, 3), (2, 5))), Set(VERTICES, ((4, -1),) * 3 + ((0, 0),) * 2)
        matrix = ((40_000, -7), (12, 50_000))
        for initial, input_ in ((corners, vertices), (vertices, corners), (vertices, vertices)):
            data = encode(Model(2, 5, matrix, initial, input_, ((3, -2),), ((0, 7),)))
            text = reply(data)
            self.assertTrue(text.startswith(b"model 2 5\n"), text)
            self.assertEqual(text, exact.listing(data).encode("ascii"))

    def test_one_to_eight_generators_are_accepted(self) -> None:
        first, size = 55, 25  # the offset behind the centre, and the length of a point's record
        for count in range(11):
            initial = Set(ZONOTOPE, ((1,),) * (1 + count))
            data = encode(Model(1, 2, ((9,),), initial, Set(BOX, ((0,), (0,))), ((1,),), ()))
            expected = {0: f"refused 3 at {first}\n"}.get(count, exact.listing(data))
            if count > 8:
                expected = f"refused 9 at {first + 8 * size}\n"
            with self.subTest(count):
                self.assertEqual(reply(data).decode(), expected)
                self.assertEqual(expected.startswith("model 1 2\n"), 1 <= count <= 8)

    def test_kinds_are_hexadecimal(self) -> None:
        # The sample's box begins with the kind 10, sixteen, at offset 30; ten is no kind.
        self.assertEqual(SAMPLE[30], 0x10)
        self.assertEqual(reply(SAMPLE[:30] + bytes([10]) + SAMPLE[31:]), b"refused 2 at 30\n")

    def test_a_head_that_says_0_gets_the_reply_to_120(self) -> None:
        # File 4, of every file of the reader's tests that has a whole head, refused ones too.
        replies = set()
        for path in sorted(READER_FILES.iterdir()):
            data = path.read_bytes()
            if data[:1] == b"\x01" and len(data) >= 4:
                none, said = (
                    reply(data[:2] + steps.to_bytes(2, "little") + data[4:]) for steps in (0, 120)
                )
                self.assertEqual(none, said, path.name)
                replies.add(none.split(b"\n")[0].split(b" at ")[0])
        refused = {f"refused {number}".encode() for number in (*range(1, 11), *range(15, 18))}
        self.assertLessEqual({b"model 1 120", b"model 6 120", *refused}, replies)

    def test_every_other_head_says_its_own_steps(self) -> None:
        for steps in range(1, MAX_STEPS + 1):
            data = SAMPLE[:2] + steps.to_bytes(2, "little") + SAMPLE[4:]
            text = reply(data)
            self.assertTrue(text.startswith(b"model 1 %d\n" % steps), text)
            self.assertEqual(text, exact.listing(data).encode("ascii"))

    def test_a_model_without_an_input_set_is_listed(self) -> None:
        # Figures 4, 5 and 8 without their input sets.
        for entry, largest_, steps, rows in (
            (32_768, 100, 3, "dir 0 spare 10/0 100 0/1 50 0/2 25 0/3 13 1/"),
            (1, 100, 2, "dir 0 spare 10/0 100 0/1 1 1/2 1 2/"),
            (131_072, 0, 11, "dir 0 growth 11/"),
        ):
            initial = Set(BOX, ((0,), (largest_,)))
            model = Model(1, steps, ((entry,),), initial, zero_box(1), ((1,),), ())
            text = f"model 1 {steps}/{rows}".replace("/", "\n")
            for stated in (False, True):
                self.assertEqual(reply(encode(model, input_stated=stated)).decode(), text)

    def test_bounds_and_slacks_are_those_worked_by_hand(self) -> None:
        # Figures 6; two odd T and an even one; halves above and below 0, which go up; a raw slack
        # of 1,200,000.
        for entry, initial, direction, rows in (
            (1, (0, 100), -1, "spare 10/0 0 0/1 0 0/2 1 2/"),
            (1, (0, 1), 1, "spare 10/0 1 0/1 1 1/2 1 2/"),
            (32, (1, 3), -3, "spare 8/0 -3 0/1 0 1/2 1 2/"),
            (32, (1, 2), -3, "spare 8/0 -3 0/1 0 1/2 0 1/"),
            (32, (0, MAX_REACH), 2, "spare 9/0 2097152 0/1 1024 0/2 2 2/"),
            (32, (-MAX_REACH, 0), -2, "spare 9/0 2097152 0/1 1024 0/2 1 2/"),
            (100, (0, 600_000), 1, "spare 10/0 600000 0/1 916 1/2 2 2/3 1 3/"),
        ):
            steps = rows.count("/") - 2
            text = f"model 1 {steps}/dir 0 {rows}".replace("/", "\n")
            self.assertEqual(reply(single(entry, initial, direction, steps)).decode(), text)

    def test_a_level_is_reached_only_above_it(self) -> None:
        # By hand: the sample's bounds 0, 1, 2, 2 and bounds - slacks 0, 1, 1, 1; 3, 2, 1 and 3, 1, 0;
        # without a slack 5, -5, and 1, 2, 3.
        halved, kept = 32_768, 65_536
        for entry, initial, entering, direction, steps, said in (
            (halved, (0, 0), 1, 1, 3, {-1: "HIT 0", 0: "HIT 1", 1: "UNKNOWN 2", 2: "CLEAR", 3: "CLEAR"}),
            (halved, (3, 3), 0, 1, 2, {2: "HIT 0", 3: "CLEAR", 1: "HIT 0", 0: "HIT 0"}),
            (kept, (5, 5), 0, 1, 2, {4: "HIT 0", 5: "CLEAR", 6: "CLEAR"}),
            (kept, (5, 5), 0, -1, 2, {-6: "HIT 0", -5: "CLEAR", -4: "CLEAR"}),
            (kept, (0, 1), 1, 1, 2, {0: "HIT 0", 1: "HIT 1", 2: "HIT 2", 3: "CLEAR"}),
        ):
            ends = {MIN_LEVEL: "HIT 0", MIN_LEVEL + 1: "HIT 0", MAX_LEVEL - 1: "CLEAR", MAX_LEVEL: "CLEAR"}
            said = {**said, **ends}
            sets = (Set(BOX, ((low,), (high,))) for low, high in (initial, (0, entering)))
            guards = tuple((0, level) for level in said)
            told = reply(encode(Model(1, steps, ((entry,),), *sets, ((direction,),), guards))).decode()
            found = re.findall(r"^guard \d+ (.+)$", told, re.MULTILINE)
            self.assertEqual(dict(zip(said, found, strict=True)), said)

    def test_t_is_halved_once(self) -> None:
        # T is 2 at the last step, of two terms that are 1: of two coordinates, of both sets, of two
        # inputs. The supports there are -1.
        zero, first, second = (0, 0), (1, 0), (0, 1)
        for matrix, lower, upper, input_, direction, rows in (
            (((32, 0), (0, 32)), first, (1, 1), zero, (-3, -3), "spare 8/0 -3 0/1 0 1/2 0 1/"),
            (((32, 65_536), zero), second, second, first, (-3, 0),
             "spare 8/0 0 0/1 -3 0/2 0 1/3 0 1/"),
            (((3, 0), (0, 2_048)), second, second, first, (-1, -1),
             "spare 10/0 -1 0/1 0 1/2 0 1/3 0 2/4 0 1/"),
        ):
            steps = rows.count("/") - 2
            sets = Set(BOX, (lower, upper)), Set(BOX, (zero, input_))
            text = f"model 2 {steps}/dir 0 {rows}".replace("/", "\n")
            data = encode(Model(2, steps, matrix, *sets, (direction,), ()))
            self.assertEqual(reply(data).decode(), text)

    def test_growth_and_spare_figure_count_half_of_e_rounded_up(self) -> None:
        # Half of e passes the limit, or the limit halved some times, meets it, or stays below it.
        for entry, direction, steps, said in (
            (99_334, 2, 15, "growth 15"),
            (99_334, 2, 14, "spare 0"),
            (99_334, 16, 10, "spare 0"),
            (99_334, 2, 5, "spare 5"),
            (99_334, 16, 5, "spare 3"),
            (118_715, 1, 7, "spare 4"),
            (66_993, 58, 36, "spare 2"),
        ):
            told = reply(single(entry, (0, 0), direction, steps)).decode().split("\n")
            self.assertEqual(told[1], f"dir 0 {said}")
        # |r| is at the limit at step 2, and e is 1, or 0.
        for entry, said in ((-131_071, "growth 2"), (-131_072, "spare 0")):
            matrix = (131_072, 0), (1, entry)
            data = encode(Model(2, 2, matrix, zero_box(2), zero_box(2), ((256, 1),), ()))
            self.assertEqual(reply(data).decode().split("\n")[1], f"dir 0 {said}")

    def test_only_a_direction_stands_straight_after_the_initial_set(self) -> None:
        # The sample's records: lower and upper corner of both sets at 30, 55, 80 and 105, a direction
        # at 130 and a guard at 155.
        direction, guard = SAMPLE[130:155], SAMPLE[155:165]
        for data, expected in (
            (SAMPLE[:80] + direction, "refused 1 at 105"),
            (SAMPLE[:80] + guard, "refused 3 at 80"),
            (SAMPLE[:80] + b"\xff", "refused 3 at 80"),
            (SAMPLE[:55] + direction, "refused 3 at 55"),
            (SAMPLE[:30] + b"\x12" + SAMPLE[31:55] + direction, "refused 3 at 55"),
            (SAMPLE[:105] + direction, "refused 3 at 105"),
            (SAMPLE[:80] + b"\x22" + SAMPLE[81:105] + direction, "refused 3 at 105"),
            (SAMPLE[:80] + direction + SAMPLE[80:], "refused 3 at 105"),
        ):
            self.assertEqual(reply(data).decode(), expected + "\n")

    def test_a_file_without_an_input_set_gets_the_reply_to_zero_corners(self) -> None:
        # File 10, of every file of the reader's tests in which a direction stands straight after
        # the initial set. What is expected of both is the exact program's reply to the one with
        # corners. No refusal is at the corners; one before them has the same offset in both files.
        replies, before = set(), set()
        for path in sorted(READER_FILES.iterdir()):
            data = path.read_bytes()
            found = readerfiles.with_zero_corners(data)
            if found is None:
                continue
            at, with_corners = found
            expected = exact.listing(with_corners)
            self.assertEqual(reply(with_corners).decode(), expected, path.name)
            if refused := re.fullmatch(r"refused (\d+) at (\d+)\n", expected):
                why, offset = map(int, refused.groups())
                self.assertFalse(at <= offset < at + 50, path.name)
                if offset < at:
                    before.add(why)
                else:
                    expected = f"refused {why} at {offset - 50}\n"
                    replies.add(why)
            else:
                replies.add(expected.split("\n")[0])
            self.assertEqual(reply(data).decode(), expected, path.name)
        self.assertLessEqual({"model 1 1", "model 1 120", "model 6 256"}, replies)
        self.assertLessEqual({1, 3, 7, 8, 9, 10, 16}, replies)
        self.assertLessEqual({16, 17}, before)

    def test_the_longest_file_is_listed_and_a_byte_more_is_refused(self) -> None:
        vertices = Set(VERTICES, tuple((k,) * MAX_N for k in range(16)))
        directions = tuple((d + 1,) * MAX_N for d in range(MAX_DIRECTIONS))
        guards = tuple((d, 1_000) for d in range(MAX_GUARDS))
        matrix = ((9_000, -9_000) * 3,) * MAX_N
        sets, drift = (vertices, vertices), (MAX_REACH - 15, 15 - MAX_REACH, 3, -4, 0, 0)
        model = Model(MAX_N, MAX_STEPS, matrix, *sets, directions, guards, drift)
        data = encode(model, fitted_rows=readerfiles.fitted_rows(model))
        self.assertEqual((len(data), LONGEST_FILE), (1_690, 1_690))
        self.assertEqual(reply(data).decode(), exact.listing(encode(model)))
        self.assertEqual(reply(data + b"\xff"), b"refused 10 at 1690\n")

    def test_an_empty_file_is_refused_by_1_at_0(self) -> None:
        self.assertEqual(reply(b""), b"refused 1 at 0\n")

    def test_a_text_is_refused(self) -> None:
        self.assertEqual(reply((ROOT / "README.md").read_bytes()), b"refused 3 at 0\n")

    def test_what_lies_behind_2048_bytes_makes_no_difference(self) -> None:
        self.assertEqual(reply(SAMPLE + bytes(4000)), b"refused 10 at 186\n")
        self.assertEqual(reply((SAMPLE + bytes(4000))[:2048]), b"refused 10 at 186\n")


class Fitted(unittest.TestCase):
    """Fitted rows by their bytes. `rounding.py` tries what very many entries become."""

    def file(self, *rows: str) -> bytes:
        """A model with these rows, in hexadecimal; its vertex is 65,536 in every coordinate."""
        n = len(rows)
        vertex = struct.pack("<B6i", 0x14, *[65_536] * n, *[0] * (6 - n))
        asked = (struct.pack("<B6i", 0x30, *(int(i == p) for i in range(6))) for p in range(n))
        head = bytes([1, n, 1, 0])
        return b"".join([head, *map(bytes.fromhex, rows), vertex, *asked, b"\xff"])

    def sums(self, *rows: str) -> list[int]:
        """The sum of the entries of each row, which is the bound of step 1."""
        told = listings.parse(reply(self.file(*rows)).decode())
        self.assertEqual({swept.slacks for swept in told.directions}, {(0, 0)})
        return [swept.bounds[1] for swept in told.directions]

    REST = "00" * 40
    NAN = "000000000000F87F"
    TWO = "0000000000000040"

    def test_figures_23(self) -> None:
        for bits, entry in (
            # 1.5, 2.5, -1.5 and -2.5 over 65,536; the next above and below 2.5 / 65,536
            ("000000000000F83E", 2), ("000000000000043F", 2),
            ("000000000000F8BE", -2), ("00000000000004BF", -2),
            ("010000000000043F", 3), ("FFFFFFFFFFFF033F", 2),
            # 2, -2 and the next above 2
            (self.TWO, 131_072), ("00000000000000C0", -131_072), ("0100000000000040", None),
            # both zeros, the smallest above 0 and 0.5 / 65,536
            ("0000000000000000", 0), ("0000000000000080", 0),
            ("0100000000000000", 0), ("000000000000E03E", 0),
            # both infinities and two NaNs
            ("000000000000F07F", None), ("000000000000F0FF", None),
            (self.NAN, None), ("010000000000F0FF", None),
        ):
            row = f"03 00 {bits} {self.REST}"
            if entry is None:
                self.assertEqual(reply(self.file(row)), b"refused 15 at 4\n", bits)
            else:
                self.assertEqual(self.sums(row), [entry], bits)

    def test_scaled_and_fitted_rows_in_every_mixture(self) -> None:
        # Row i has i + 1 in its last column; fitted, it is 0.25 less, so rounding makes it whole.
        for kinds in itertools.product((2, 3), repeat=3):
            rows = []
            for i, kind in enumerate(kinds):
                entry = (i + 1).to_bytes(4, "little").hex()
                bits = struct.pack("<d", (i + 0.75) / 65_536).hex()
                last = entry + "00" * 12 if kind == 2 else bits + "00" * 24
                rows.append(f"0{kind} 0{i} {'00' * (8 if kind == 2 else 16)} {last}")
            self.assertEqual(self.sums(*rows), [1, 2, 3])

    def test_either_zero_passes_beyond_n_and_nothing_else_does(self) -> None:
        zero, minus = "00" * 8, "00" * 7 + "80"
        for beyond in (zero * 5, minus * 5, minus + zero * 3 + minus):
            self.assertEqual(self.sums(f"03 00 {self.TWO} {beyond}"), [131_072])
        # The smallest numbers, 1 and a NaN, next to n and in the last column.
        for bits in ("01" + "00" * 7, "01" + "00" * 6 + "80", "00" * 6 + "F03F", self.NAN):
            for beyond in (bits + zero * 4, minus * 4 + bits):
                row = f"03 00 {self.TWO} {beyond}"
                self.assertEqual(reply(self.file(row)), b"refused 16 at 4\n", row)

    def test_body_then_number_then_entries(self) -> None:
        start = bytes([1, 1, 1, 0])
        wrong = bytes.fromhex(f"03 01 {self.NAN} {self.REST}")
        for length in (1, 2, 10, 26, 49):
            self.assertEqual(reply(start + wrong[:length]), b"refused 1 at 4\n")
        self.assertEqual(reply(start + wrong), b"refused 5 at 4\n")
        self.assertEqual(reply(start + b"\x03\0" + wrong[2:]), b"refused 15 at 4\n")
        self.assertEqual(reply(self.file(f"02 00 {'00' * 24}", f"03 02 {self.NAN} {self.REST}")),
                         b"refused 5 at 30\n")
        self.assertEqual(reply(self.file(f"02 00 {'00' * 24}", f"03 01 {self.NAN} {self.REST}")),
                         b"refused 15 at 30\n")
        self.assertEqual(reply(wrong), b"refused 3 at 0\n")


class BeyondN(unittest.TestCase):
    """Entries beyond n by their bytes (Refusals 16)."""

    def test_figures_28(self) -> None:
        # A fitted row at 4 with 0.5 and its last column, and a drift at 54.
        def said(number: int, last: bytes, drift: bytes) -> bytes:
            row = bytes([3, number]) + struct.pack("<d", 0.5) + bytes(32) + last
            rest = b"\x05" + bytes(4) + drift + bytes(16) + b"\x14" + bytes(24) + b"\x30\x01" + bytes(23)
            return reply(b"\x01\x01\x01\x00" + row + rest + b"\xff")

        zero, minus, smallest, four = bytes(8), bytes(7) + b"\x80", b"\x01" + bytes(7), bytes(4)
        self.assertEqual(said(0, zero, four), b"model 1 1\ndir 0 spare 10\n0 0 0\n1 0 0\n")
        self.assertEqual(said(0, minus, four), said(0, zero, four))
        self.assertEqual(said(0, smallest, four), b"refused 16 at 4\n")
        self.assertEqual(said(1, smallest, four), b"refused 16 at 4\n")
        self.assertEqual(said(1, zero, four), b"refused 5 at 4\n")
        self.assertEqual(said(0, minus, b"\x01\0\0\0"), b"refused 16 at 54\n")

    def test_each_byte_beyond_n_of_the_sample_is_tested(self) -> None:
        # n is 1: the row is at 4 and has its number first; four corners and a direction follow.
        places = [(4, 2), *((at, 1) for at in (30, 55, 80, 105, 130))]
        for at, first in places:
            for offset in range(at + first + 4, at + first + 24):
                for byte in (1, 0x80, 0xFF):
                    data = SAMPLE[:offset] + bytes([byte]) + SAMPLE[offset + 1 :]
                    self.assertEqual(reply(data), b"refused 16 at %d\n" % at, (offset, byte))

    def test_it_comes_before_the_row_number_and_the_values(self) -> None:
        # The row's number becomes 1, the first entry of a record 2 ** 31 - 1, the last one 1.
        for at, first, alone in ((4, 2, 5), (30, 1, 6), (80, 1, 6), (130, 1, 7)):
            large = b"\xff\xff\xff\x7f"
            wrong = SAMPLE[: at + first] + large + SAMPLE[at + first + 4 :]
            self.assertEqual(reply(wrong), b"refused %d at %d\n" % (alone, at))
            both = wrong[: at + first + 20] + b"\x01" + wrong[at + first + 21 :]
            self.assertEqual(reply(both), b"refused 16 at %d\n" % at)
            # Of a body that is cut behind it nothing is tested.
            self.assertEqual(reply(both[: at + first + 23]), b"refused 1 at %d\n" % at)
        turned = SAMPLE[:5] + b"\x01" + SAMPLE[6:]
        self.assertEqual(reply(turned), b"refused 5 at 4\n")
        self.assertEqual(reply(turned[:10] + b"\x01" + turned[11:]), b"refused 16 at 4\n")

    def test_head_and_guard_have_no_such_entries(self) -> None:
        # A level fills its eight bytes.
        data = SAMPLE[:157] + b"\xff" * 7 + b"\x7f" + SAMPLE[165:]
        self.assertIn(b"\nguard 0 CLEAR\n", reply(data))

    def test_three_coordinates_that_were_saved_from_four(self) -> None:
        # One entry in the fourth column, of the first row, the drift or the direction.
        def file(row: int, drift: int, direction: int) -> bytes:
            def record(kind: int, *entries: int) -> bytes:
                return struct.pack("<B6i", kind, *entries, *[0] * (6 - len(entries)))

            rows = (struct.pack("<BB6i", 2, i, 9, 9, 9, row, 0, 0) for i in range(3))
            parts = record(5, 1, 1, 1, drift), record(0x14, 2, 2, 2), record(0x30, 1, 0, 0, direction)
            return b"".join([bytes([1, 3, 1, 0]), *rows, *parts, b"\xff"])

        self.assertTrue(reply(file(0, 0, 0)).startswith(b"model 3 1\n"))
        for entries, offset in (((9, 1, 1), 4), ((0, 1, 1), 82), ((0, 0, 1), 132)):
            self.assertEqual(reply(file(*entries)), b"refused 16 at %d\n" % offset)


def number(value: int) -> bytes:
    """Four bytes, and zeros up to six numbers."""
    return value.to_bytes(4, "little", signed=True) + bytes(20)


class Drift(unittest.TestCase):
    """The drift by its bytes: what it adds, where it stands and what is refused.

    Models have one coordinate and an initial set of zeros. The record of the drift is at 30, the
    initial corners are at 55 and 80, the input corners at 105 and 130.
    """

    def file(
        self, drift: int | None, entry: int, input_: tuple[int, int], direction: int, steps: int
    ) -> bytes:
        head, row = bytes([1, 1, steps, 0]), b"\x02\0" + number(entry)
        middle = b"" if drift is None else b"\x05" + number(drift)
        corners = zip((0x10, 0x11, 0x20, 0x21), (0, 0, *input_))
        points = (bytes([kind]) + number(corner) for kind, corner in corners)
        return b"".join([head, row, middle, *points, b"\x30", number(direction), b"\xff"])

    def told(self, data: bytes) -> str:
        """The steps, bounds and slacks of the only direction, in one row."""
        return "/".join(reply(data).decode().splitlines()[2:])

    def test_figures_24_and_25(self) -> None:
        for direction in (1, -1):
            data = self.file(3 * direction, 65_536, (0, 0), direction, 2)
            self.assertEqual(self.told(data), "0 0 0/1 3 0/2 6 0")
        # Against the direction it takes away.
        self.assertEqual(self.told(self.file(-3, 65_536, (0, 1), 1, 2)), "0 0 0/1 -2 0/2 -4 0")

    def test_figures_26(self) -> None:
        for sign in (1, -1):
            said = [
                reply(self.file(sign * entry, 0, (0, high), 1, 1)).decode().split("\n")[0]
                for entry, high in ((MAX_REACH, 0), (MAX_REACH, 1), (MAX_REACH + 1, 0))
            ]
            self.assertEqual(said, ["model 1 1", "refused 17 at 130", "refused 17 at 30"])

    def test_figures_27(self) -> None:
        start = "0 0 0/1 524288 0/2 524296 0/3 524297 2/4 524297 2"
        data = self.file(524_288, 1, (-524_288, 0), 1, 5)
        self.assertEqual(self.told(data), f"{start}/5 524298 4")
        moved = self.file(None, 1, (0, 524_288), 1, 5)
        self.assertEqual(self.told(moved), f"{start}/5 524297 3")

    def test_the_numbers_at_each_place(self) -> None:
        good = self.file(7, 9, (-1, 1), 1, 1)
        drift = good[30:55]
        for at in (0, 4, 55, 80, 105, 130, 155, 180):
            self.assertEqual(reply(good[:at] + drift + good[at:]), b"refused 3 at %d\n" % at)
        self.assertEqual(reply(good + drift), b"refused 10 at 181\n")
        for length in range(31, 55):
            self.assertEqual(reply(good[:length]), b"refused 1 at 30\n")
        # 6 comes before 17, also where the upper corner is below the lower.
        for low, high, expected in ((0, -1, "6 at 130"), (0, MAX_REACH + 1, "6 at 130"),
                                    (MAX_REACH + 1, 0, "6 at 105"), (1, 1, "17 at 105"),
                                    (0, 1, "17 at 130")):
            data = self.file(MAX_REACH, 9, (low, high), 1, 1)
            self.assertEqual(reply(data).decode(), f"refused {expected}\n")

    def test_a_drift_of_zeros_gets_the_reply_to_none(self) -> None:
        # File 15, of every file of the reader's tests that comes to the place without a drift. What
        # is expected of both is the exact program's reply to the one without. A refusal before the
        # place has the same offset in both files.
        replies, before = set(), set()
        for path in sorted(READER_FILES.iterdir()):
            data = path.read_bytes()
            found = readerfiles.with_zero_drift(data)
            if found is None:
                continue
            at, with_zeros = found
            expected = exact.listing(data)
            self.assertEqual(reply(data).decode(), expected, path.name)
            if refused := re.fullmatch(r"refused (\d+) at (\d+)\n", expected):
                why, offset = map(int, refused.groups())
                if offset < at:
                    before.add(why)
                else:
                    expected = f"refused {why} at {offset + 25}\n"
                    replies.add(why)
            else:
                replies.add(expected.split("\n")[0])
            self.assertEqual(reply(with_zeros).decode(), expected, path.name)
        self.assertLessEqual({"model 1 1", "model 1 120", "model 6 256"}, replies)
        self.assertLessEqual({1, 2, 3, 6, 7, 8, 9, 10, 16}, replies)
        self.assertLessEqual({4, 5, 15, 16}, before)

    def test_each_byte_beyond_n_is_tested_before_the_size(self) -> None:
        for entry, alone in ((7, b"model 1 1\n"), (MAX_REACH + 1, b"refused 17 at 30\n")):
            data = self.file(entry, 9, (-1, 1), 1, 1)
            self.assertTrue(reply(data).startswith(alone))
            for at in range(35, 55):
                unclean = data[:at] + b"\x01" + data[at + 1 :]
                self.assertEqual(reply(unclean), b"refused 16 at 30\n")


class OnePointMore(unittest.TestCase):
    """Sets 16 to 19: the initial set (step 0) and the input set (step 1) get point after point.

    The matrix is zero and K is 1, so that r(1) is 0 and no r is rounded: the bound of step 0 is the
    support of the initial set at the direction, that of step 1 is the input set's.
    """

    def file(self, step: int, set_: Set, directions: list[Vector]) -> bytes:
        """A model with this initial or input set; the other set is the vertex (1, 2, ..)."""
        n = len(directions[0])
        sets = [Set(VERTICES, (tuple(range(1, n + 1)),))] * 2
        sets[step] = set_
        return encode(Model(n, 1, ((0,) * n,) * n, *sets, tuple(directions), ()))

    def check(self, form: str, joined: Callable[[int, int], int]) -> None:
        """Check bounds of sets of each n that get one point after the other.

        A bound is `joined` of the one in the file before and the new point's product; of one point
        it is the product. A product of each sign comes below, at and above the bound so far.
        """
        rng = random.Random(4)
        seen = collections.Counter()
        for step, n in itertools.product((0, 1), [*range(1, MAX_N + 1)] * 2):
            drawn = [models.vectors(rng, n, MAX_DIRECTION_ENTRY, 4) for _ in range(12)]
            directions = list(filter(any, sum(drawn, [])))[:MAX_DIRECTIONS]
            points = models.growing(rng, form, n)
            for count, new in enumerate(points, start=1):
                products = [sum(map(mul, direction, new)) for direction in directions]
                if count == 1:
                    bounds = products
                else:
                    seen.update(
                        (step, product > 0, product < 0, product > bound, product < bound)
                        for product, bound in zip(products, bounds)
                    )
                    bounds = list(map(joined, bounds, products))
                if count >= MIN_POINTS[form]:
                    data = self.file(step, Set(form, points[:count]), directions)
                    told = listings.parse(reply(data).decode()).directions
                    self.assertEqual([swept.bounds[step] for swept in told], bounds)
                    self.assertEqual({swept.slacks for swept in told}, {(0, 0)})
        self.assertEqual(len(seen), 2 * 3 * 3)
        self.assertGreater(min(seen.values()), 3, seen)

    def test_one_vertex_more_makes_the_larger_of_two_supports(self) -> None:
        self.check(VERTICES, max)

    def test_one_generator_more_adds_a_magnitude(self) -> None:
        self.check(ZONOTOPE, lambda bound, product: bound + abs(product))

    def test_the_reach_is_that_of_the_points_so_far(self) -> None:
        # The first points reach to the limit in a coordinate, and so may one vertex more; one
        # generator more has to be 0 there. Often zeros follow, so that it isn't the set's last.
        rng = random.Random(5)
        for step, form, n in itertools.product((0, 1), (VERTICES, ZONOTOPE), range(1, MAX_N + 1)):
            for count in range(1, MAX_POINTS[form]):
                *points, new = map(list, models.growing(rng, form, n)[: count + 1])
                i = rng.randrange(n)
                models.stretch(points, form, rng.randrange(count), i, MAX_REACH)
                most = 0 if form == ZONOTOPE else MAX_REACH
                zeros = [[0] * n] * rng.randrange(MAX_POINTS[form] - count)
                at = 4 + 26 * n + 25 * (count + step)  # head, rows, and the points before
                for size in sorted({0, most, most + 1}):
                    new[i] = rng.choice((-size, size))
                    set_ = Set(form, tuple(map(tuple, (*points, new, *zeros))))
                    text = reply(self.file(step, set_, [(1,) * n])).decode()
                    expected = f"model {n} 1" if size <= most else f"refused 6 at {at}"
                    self.assertEqual(text.split("\n")[0], expected)


class Input(unittest.TestCase):
    def test_a_file_that_comes_byte_by_byte_is_read_whole(self) -> None:
        with subprocess.Popen([PROGRAM], stdin=subprocess.PIPE, stdout=subprocess.PIPE) as started:
            for byte in SAMPLE:
                os.write(started.stdin.fileno(), bytes([byte]))
            started.stdin.close()
            self.assertEqual(started.stdout.read(), SAMPLE_TEXT)

    def test_input_without_end_gets_a_reply(self) -> None:
        with open("/dev/zero", "rb") as zeros:
            done = subprocess.run([PROGRAM], stdin=zeros, capture_output=True, timeout=TIME_LIMIT)
        self.assertEqual(done.stdout, b"refused 2 at 0\n")

    def test_no_more_than_2048_bytes_are_read(self) -> None:
        with tempfile.TemporaryFile() as file:
            file.write(SAMPLE + bytes(4000))
            file.seek(0)
            subprocess.run([PROGRAM], stdin=file, capture_output=True, timeout=TIME_LIMIT)
            self.assertEqual(os.lseek(file.fileno(), 0, os.SEEK_CUR), 2048)

    def test_closed_input_is_an_empty_file(self) -> None:
        done = subprocess.run(
            ["sh", "-c", f"'{PROGRAM}' <&-"], capture_output=True, timeout=TIME_LIMIT
        )
        self.assertEqual(done.stdout, b"refused 1 at 0\n")

    def test_a_directory_as_input_is_an_empty_file(self) -> None:
        folder = os.open(EXAMPLES, os.O_RDONLY)
        try:
            done = subprocess.run([PROGRAM], stdin=folder, capture_output=True, timeout=TIME_LIMIT)
        finally:
            os.close(folder)
        self.assertEqual(done.stdout, b"refused 1 at 0\n")


class Output(unittest.TestCase):
    def test_the_largest_listing_takes_one_write(self) -> None:
        # A packet for each write.
        ours, theirs = socket.socketpair(socket.AF_UNIX, socket.SOCK_SEQPACKET)
        theirs.setsockopt(socket.SOL_SOCKET, socket.SO_SNDBUF, 1 << 20)
        with ours, theirs, subprocess.Popen([PROGRAM], stdin=subprocess.PIPE, stdout=theirs) as started:
            started.stdin.write(largest())
            started.stdin.close()
            theirs.close()
            ours.settimeout(TIME_LIMIT)
            packets = []
            while packet := ours.recv(1 << 20):
                packets.append(packet)
        self.assertEqual(b"".join(packets), exact.listing(largest()).encode("ascii"))
        self.assertEqual(len(packets), 1)

    def test_output_that_fails_is_told_on_standard_error(self) -> None:
        for output in (">&-", "> /dev/full"):
            with self.subTest(output):
                done = subprocess.run(
                    ["sh", "-c", f"'{PROGRAM}' {output}"],
                    input=SAMPLE, capture_output=True, timeout=TIME_LIMIT,
                )
                self.assertRegex(done.stderr, rb"^envelope: standard output: .+\n$")

    def test_a_reader_that_goes_away_ends_the_program(self) -> None:
        with subprocess.Popen([PROGRAM], stdin=subprocess.PIPE, stdout=subprocess.PIPE) as started:
            started.stdout.close()
            started.stdin.write(largest())
            started.stdin.close()
            started.wait(TIME_LIMIT)

    def test_the_largest_listing_fits_in_4_mb_of_address_space(self) -> None:
        done = subprocess.run(
            ["sh", "-c", f"ulimit -v {MOST_MEMORY} && exec '{PROGRAM}'"],
            input=largest(), capture_output=True, timeout=TIME_LIMIT,
        )
        self.assertEqual(done.stdout, exact.listing(largest()).encode("ascii"))


if __name__ == "__main__":
    unittest.main()
