#!/usr/bin/env python3
"""Test calm models from outside: the slacks of `envelope`, and three functions of the archive.

    calm.py [--program PROGRAM] [--archive FILE] [--seed N] [--count N]

A model is calm if in each column of its matrix the magnitudes of the entries sum to at most 65,536.
X is the sum of the initial reaches, and Y that of the input reaches and the magnitudes of the
drift. The limit of the slack at step k is (k * X + (0 + 1 + .. + (k - 1)) * Y + 1) / 1,048,576,
rounded up, plus 1. It is worked out here, from the bytes of a file and by fractions, and has to be
that of the exact program (`exact.calm`, `exact.slack_limit`, `exact.steps_within`).

Slacks: 5,000 random calm models, or as many as --count says, and models by hand, some of which
attain the limit. No direction has growth, and no slack passes its limit, but some slack passes each
limit of WRONG_LIMITS. The smallest distances of a slack from its limit are printed.

Archive: pepperscarp_calm, pepperscarp_slack_limit and pepperscarp_steps_within, asked by a small C
program about random models that are calm, almost calm or calm in their rows, about random files of
every sort and about the files of the reader's tests.

It takes the built program, target/bin/envelope, and the archive of `tools/archive`,
target/staticlib/libpepperscarp.a, or others, and fails if one of them is missing.
"""

from __future__ import annotations

import argparse
import collections
import math
import os
import random
import shlex
import shutil
import struct
import subprocess
import sys
import tempfile
import unittest
from dataclasses import dataclass
from fractions import Fraction
from operator import add, gt
from pathlib import Path
from typing import Callable, Iterable, Iterator

import rounding

ROOT = Path(__file__).resolve().parent.parent
READER_FILES = ROOT / "crates" / "readings" / "data"
TIME_LIMIT = 120  # seconds for all questions to the archive

sys.path.insert(0, str(ROOT / "tools"))

import exact  # noqa: E402
import listings  # noqa: E402
import models  # noqa: E402
from layout import (  # noqa: E402
    BODY_LENGTHS, BOX, CENTRE, DEFAULT_STEPS, DRIFT, FITTED, HEAD, INITIAL, INPUT, MAX_REACH,
    MAX_STEPS, ROW, VERTICES, ZONOTOPE, Model, Set, encode, offsets, zero_box,
)
from listings import Growth, Refusal  # noqa: E402

program = str(ROOT / "target" / "bin" / "envelope")
archive = str(ROOT / "target" / "staticlib" / "libpepperscarp.a")
seed, count = 2026, 5_000
ENOUGH = 2_000  # random models; with fewer, not every sort has to be seen
LARGE = 10  # a limit from here on is large
findings: list[str] = []  # what is printed at the end


# Files, and the limits of their slacks


@dataclass(frozen=True)
class Packed:
    """What calm and the limits depend on, from the bytes of a file that is accepted."""

    n: int
    steps: int
    columns: tuple[int, ...]  # the sum of the magnitudes in each
    initial: tuple[int, ...]  # the reach in each coordinate
    input: tuple[int, ...]  # the same, without the drift
    drift: tuple[int, ...]
    largest: tuple[int, ...]  # the largest magnitude of an initial point; of a box the reach

    @property
    def calm(self) -> bool:
        return max(self.columns) <= 65_536

    @property
    def first(self) -> int:
        """X"""
        return sum(self.initial)

    @property
    def entering(self) -> tuple[int, ...]:
        """The reach of what enters at a step, in each coordinate."""
        return tuple(map(add, self.input, map(abs, self.drift)))

    @property
    def each(self) -> int:
        """Y"""
        return sum(self.entering)


def packed(data: bytes) -> Packed:
    bodies = collections.defaultdict(list)
    for at in offsets(data):
        bodies[data[at]].append(data[at + 1 : at + 1 + BODY_LENGTHS[data[at]]])
    n, said = struct.unpack("<BH", bodies[HEAD][0])
    rows = [struct.unpack_from(f"<{n}i", body, 1) for body in bodies[ROW]]
    for body in bodies[FITTED]:
        rows.append(tuple(map(rounding.entry_of, struct.unpack_from(f"<{n}Q", body, 1))))

    def magnitudes(part: int) -> Iterator[tuple[int, ...]]:
        """Those of the points of a set, for each coordinate; zeros if it has none."""
        points = [body for kind in range(part, part + 5) for body in bodies[kind]] or [bytes(24)]
        return zip(*(map(abs, struct.unpack_from(f"<{n}i", body)) for body in points))

    def reach(part: int) -> tuple[int, ...]:
        return tuple(map(sum if bodies[part + CENTRE] else max, magnitudes(part)))

    return Packed(
        n=n,
        steps=said or DEFAULT_STEPS,
        columns=tuple(sum(map(abs, column)) for column in zip(*rows)),
        initial=reach(INITIAL),
        input=reach(INPUT),
        drift=struct.unpack_from(f"<{n}i", (bodies[DRIFT] or [bytes(24)])[0]),
        largest=tuple(map(max, magnitudes(INITIAL))),
    )


def limit_of(total: int) -> int:
    """The limit for this sum of reaches."""
    return math.ceil(Fraction(total + 1, 1_048_576)) + 1


def limits_of(model: Packed) -> list[int]:
    """The limits of steps 0 to K."""
    limits, earlier = [], 0  # the sum of all steps before this one
    for step in range(model.steps + 1):
        limits.append(limit_of(step * model.first + earlier * model.each))
        earlier += step
    return limits


def steps_within(limits: list[int], slack: int) -> int | None:
    """The step before the first with a limit above this slack, or the last; None if none is."""
    for step, limit in enumerate(limits):
        if limit > slack:
            return step - 1 if step else None
    return len(limits) - 1


def pairs(k: int) -> int:
    return sum(range(k))


# Each gives a limit of step k that is too small for some slack. Not here: (k - 1) * X and
# (k - 1) * (k - 2) / 2 * Y, or the sum without its 1. No slack passes these, since the first step
# rounds nothing and an odd sum is no multiple of 1,048,576.
WRONG_LIMITS: dict[str, Callable[[Packed, int], int]] = {
    "X left out": lambda m, k: limit_of(pairs(k) * m.each),
    "X two steps short": lambda m, k: limit_of(max(k - 2, 0) * m.first + pairs(k) * m.each),
    "X of the largest reach": lambda m, k: limit_of(k * max(m.initial) + pairs(k) * m.each),
    "X without the last coordinate":
        lambda m, k: limit_of(k * (m.first - m.initial[-1]) + pairs(k) * m.each),
    "X of the largest generators": lambda m, k: limit_of(k * sum(m.largest) + pairs(k) * m.each),
    "Y left out": lambda m, k: limit_of(k * m.first),
    "Y without the drift": lambda m, k: limit_of(k * m.first + pairs(k) * sum(m.input)),
    "Y with the sign of the drift":
        lambda m, k: limit_of(k * m.first + pairs(k) * (sum(m.input) + sum(m.drift))),
    "Y without the input set":
        lambda m, k: limit_of(k * m.first + pairs(k) * sum(map(abs, m.drift))),
    "Y of the largest reach": lambda m, k: limit_of(k * m.first + pairs(k) * max(m.entering)),
    "Y once at a step": lambda m, k: limit_of(k * m.first + k * m.each),
    "Y short of a step and of 1":
        lambda m, k: limit_of(k * m.first + max(pairs(k - 1) - 1, 0) * m.each),
    "rounded down": lambda m, k: (k * m.first + pairs(k) * m.each + 1) // 1_048_576 + 1,
    "unit doubled":
        lambda m, k: math.ceil(Fraction(k * m.first + pairs(k) * m.each + 1, 2_097_152)) + 1,
    "last 1 left out": lambda m, k: limit_of(k * m.first + pairs(k) * m.each) - 1,
}


def box(*sides: tuple[int, int]) -> Set:
    """The box with these ends, a pair for each coordinate."""
    return Set(BOX, tuple(zip(*sides)))


def single(
    entry: int, initial: tuple[int, int], input_: tuple[int, int], direction: int, steps: int,
    drift: int = 0,
) -> Model:
    """A model of one coordinate."""
    sets = box(initial), box(input_)
    return Model(1, steps, ((entry,),), *sets, ((direction,),), (), (drift,))


# Each column has 65,521 and five times 3, which is 65,536 in all.
SIX = tuple(tuple(65_521 if i == (p + 1) % 6 else 3 for i in range(6)) for p in range(6))
TURNED = tuple(tuple(65_536 if i == (p + 1) % 6 else 0 for i in range(6)) for p in range(6))
FAR = box(*[(-MAX_REACH, MAX_REACH)] * 6)
# Calm models, with the slack and the limit of some steps. All but the last four attain the limit.
CALM: dict[str, tuple[Model, dict[int, tuple[int, int]]]] = {
    "initial set": (
        single(65_535, (0, 500_000), (0, 0), 1, 4),
        {0: (0, 2), 1: (1, 2), 2: (2, 2), 3: (2, 3), 4: (3, 3)},
    ),
    "entry below 0": (single(-65_535, (-499_000, 1_000), (0, 0), -1, 4), {2: (2, 2), 4: (3, 3)}),
    "input and drift": (
        single(65_535, (0, 0), (0, 100_000), 1, 5, drift=80_000),
        {0: (0, 2), 1: (0, 2), 2: (1, 2), 3: (2, 2), 4: (2, 3), 5: (3, 3)},
    ),
    "drift below 0": (single(65_535, (0, 0), (0, 0), 1, 5, drift=-180_000), {4: (2, 3), 5: (3, 3)}),
    # 254 * 1,044,470 is just above 253 * 1,048,576, and 256 * 1,044,470 just below 255 * 1,048,576.
    "256 steps": (
        single(65_535, (0, 1_044_470), (0, 0), 1, 256), {254: (254, 255), 256: (256, 256)},
    ),
    "six coordinates": (
        Model(
            6, 256, SIX,
            Set(ZONOTOPE, ((100,) * 6, (-40_000, 30_000, 1, 2, 3, 4),
                           (5, 6, 70_000, -8, 90_000, 11))),
            Set(VERTICES, ((10, -20, 30, -40, 50, -60),)), ((1, -1, 2, -2, 3, -3),), (),
            (-70, 80, 0, 0, 1, 2),
        ),
        {254: (68, 68), 255: (68, 69), 256: (69, 69)},
    ),
    # k * X + k * (k - 1) / 2 * Y + 1 is 1,048,576 at some step, and one more.
    "initial set at a multiple": (
        single(0, (0, 1_048_575), (0, 0), 1, 2), {0: (0, 2), 1: (0, 2), 2: (0, 3)},
    ),
    "initial set beyond it": (
        single(0, (-1_048_576, 0), (0, 0), 1, 2), {0: (0, 2), 1: (0, 3), 2: (0, 4)},
    ),
    "both sets at a multiple": (
        single(0, (0, 524_285), (0, 5), 1, 3), {1: (0, 2), 2: (0, 2), 3: (0, 3)},
    ),
    "largest limit": (
        Model(6, 256, TURNED, FAR, box(*[(-1, 1)] * 6), ((1,) * 6,), (),
              (MAX_REACH - 1, 1 - MAX_REACH) * 3),
        {0: (0, 2), 255: (0, 195_842), 256: (0, 197_378)},
    ),
}
# The same of models that are not calm: their slacks pass what would be the limit.
NOT_CALM: dict[str, tuple[Model, dict[int, tuple[int, int]]]] = {
    "one unit more": (
        single(65_537, (0, 1_000_000), (0, 0), 1, 5),
        {2: (2, 3), 3: (4, 4), 4: (6, 5), 5: (8, 6)},
    ),
    "calm in its rows": (
        Model(2, 6, ((3, 65_533), (1, 65_535)), box((0, 0), (0, 1_000_000)), zero_box(2),
              ((1, 0),), ()),
        {3: (4, 4), 4: (7, 5), 5: (10, 6), 6: (13, 7)},
    ),
}


# What the program prints


@dataclass(frozen=True)
class Seen:
    """A file, and what the program printed for it."""

    name: str
    data: bytes
    model: Packed
    limits: list[int]
    grown: int  # how many directions have growth
    slacks: int  # how many there are
    most: list[int]  # the largest of all directions, for each step

    def place(self, step: int) -> str:
        figures = f"slack {self.most[step]}, limit {self.limits[step]}"
        return f"{figures}, n {self.model.n}, K {self.model.steps}, step {step}"


def seen_of(name: str, data: bytes, text: str) -> Seen:
    read, model = listings.parse(text, name), packed(data)
    assert not isinstance(read, Refusal), f"{name}: {text}"
    assert (read.n, read.steps) == (model.n, model.steps), name
    swept = [each.slacks for each in read.directions if not isinstance(each, Growth)]
    grown = len(read.directions) - len(swept)
    most = [max(slacks) for slacks in zip(*swept)]
    return Seen(name, data, model, limits_of(model), grown, sum(map(len, swept)), most)


def printed(named: Iterable[tuple[str, bytes]]) -> list[Seen]:
    """What the program prints for each of these files."""
    rounding.command = shlex.quote(program)
    names, files = zip(*named)
    return list(map(seen_of, names, files, rounding.replies(files)))


Maker = Callable[[random.Random], Model]


def random_files(make: Maker, what: str, most: int) -> Iterator[tuple[str, bytes]]:
    """Names and files of this many random models."""
    for index in range(most):
        rng = random.Random(f"{seed}/{what} {index}")
        yield f"{what} {index} of seed {seed}", models.saved(rng, make(rng))


def nearest(seen: Iterable[Seen], limits: range) -> tuple[int, str]:
    """The smallest distance from a limit in this range, and where: at the largest such limit."""
    found = (
        (limit - slack, -limit, each.place(step))
        for each in seen
        for step, (slack, limit) in enumerate(zip(each.most, each.limits))
        if limit in limits
    )
    distance, _, place = min(found, default=(sys.maxsize, 0, "none seen"))
    return distance, place


class Slacks(unittest.TestCase):
    """The program's slacks, and the limits."""

    at_random: list[Seen]
    by_hand: list[Seen]

    @classmethod
    def setUpClass(cls) -> None:
        cls.at_random = printed(random_files(models.calm_model, "calm", count))
        cls.by_hand = printed((name, encode(model)) for name, (model, _) in CALM.items())

    def test_no_direction_has_growth(self) -> None:
        for each in (*self.at_random, *self.by_hand):
            self.assertEqual(each.grown, 0, each.name)

    def test_no_slack_passes_its_limit(self) -> None:
        for each in (*self.at_random, *self.by_hand):
            self.assertTrue(each.model.calm, each.name)
            self.assertEqual(len(each.most), len(each.limits), each.name)
            for step, (slack, limit) in enumerate(zip(each.most, each.limits)):
                if slack > limit:
                    self.fail(f"{each.name}: {each.place(step)}: file {each.data.hex()}")

    def test_limits_are_those_of_the_exact_program(self) -> None:
        for each in (*self.at_random, *self.by_hand):
            model = exact.read_model(each.data)
            self.assertTrue(exact.calm(model), each.name)
            limits = [exact.slack_limit(model, step) for step in range(model.steps + 1)]
            self.assertEqual(limits, each.limits, each.name)

    def test_models_by_hand(self) -> None:
        for each, (_, figures) in zip(self.by_hand, CALM.values(), strict=True):
            for step, figure in figures.items():
                self.assertEqual((each.most[step], each.limits[step]), figure, (each.name, step))

    def test_some_slack_passes_each_wrong_limit(self) -> None:
        passed = collections.Counter()
        left = dict(WRONG_LIMITS)
        for each in (*self.by_hand, *self.at_random):
            for name, wrong in list(left.items()):
                steps = range(each.model.steps, -1, -1)
                passed[name] += any(each.most[step] > wrong(each.model, step) for step in steps)
                if passed[name] == 3:
                    del left[name]
        for name in WRONG_LIMITS:
            self.assertGreaterEqual(passed[name], 3 if count >= ENOUGH else 0, name)

    def test_models_that_are_not_calm_pass_the_limit(self) -> None:
        seen = printed((name, encode(model)) for name, (model, _) in NOT_CALM.items())
        for each, (_, figures) in zip(seen, NOT_CALM.values(), strict=True):
            self.assertFalse(each.model.calm, each.name)
            for step, figure in figures.items():
                self.assertEqual((each.most[step], each.limits[step]), figure, (each.name, step))
            self.assertGreater(each.most[-1], each.limits[-1])

    def test_the_limit_is_attained(self) -> None:
        """At large limits too, and by random models; the smallest distances are printed."""
        for sort, seen in (("at random", self.at_random), ("by hand", self.by_hand)):
            small, large = nearest(seen, range(LARGE)), nearest(seen, range(LARGE, sys.maxsize))
            slacks = sum(each.slacks for each in seen)
            above = sum(any(map(gt, each.most, each.limits)) for each in seen)
            findings.append(
                f"{len(seen):,} calm models {sort}, {slacks:,} slacks, {above or 'none'} above the"
                f" limit; smallest distance from a limit below {LARGE}: {small[0]} ({small[1]}),"
                f" of {LARGE} or more: {large[0]} ({large[1]})"
            )
            if sort == "by hand" or count >= ENOUGH:
                self.assertEqual((small[0], large[0]), (0, 0), findings[-1])

    def test_every_sort_is_tried(self) -> None:
        if count < ENOUGH:
            self.skipTest("too few models")
        tried = [each.model for each in self.at_random]
        self.assertEqual({model.n for model in tried}, set(range(1, 7)))
        self.assertLessEqual({1, DEFAULT_STEPS, MAX_STEPS}, {model.steps for model in tried})
        full = sum(max(model.columns) == 65_536 for model in tried)
        self.assertGreater(full, len(tried) / 3)
        for what in ("initial", "input", "drift"):
            reaches = [max(map(abs, getattr(model, what))) for model in tried]
            self.assertEqual((min(reaches), max(reaches)), (0, MAX_REACH), what)


# The archive

FUNCTIONS = ("pepperscarp_calm", "pepperscarp_slack_limit", "pepperscarp_steps_within")
CALM_ASKED, LIMIT_ASKED, WITHIN_ASKED = range(3)
NOT_CALM_NUMBER, NO_SUCH_STEP, SLACK_TOO_SMALL = 26, 27, 28
# A step or slack that is cut to fewer bits, or taken as negative, becomes another one.
WIDE = (2**8, 2**16, 2**31, 2**32, 2**32 + 2, 2**48, 2**63, 2**63 + 3, 2**64 - 1)
Question = tuple[int, int]  # the function and its argument, which is 0 for the first one
# Further questions about models by hand, and the answers.
BY_HAND = (
    ("initial set", LIMIT_ASKED, 5, 27),
    ("256 steps", LIMIT_ASKED, 257, 27),
    ("one unit more", LIMIT_ASKED, 6, 26),
    ("one unit more", LIMIT_ASKED, 2**64 - 1, 26),
    ("initial set", WITHIN_ASKED, 0, 28),
    ("initial set", WITHIN_ASKED, 1, 28),
    ("initial set", WITHIN_ASKED, 2, 2 << 16),
    ("initial set", WITHIN_ASKED, 3, 4 << 16),
    ("initial set", WITHIN_ASKED, 2**64 - 1, 4 << 16),
    ("input and drift", WITHIN_ASKED, 2, 3 << 16),
    ("input and drift", WITHIN_ASKED, 3, 5 << 16),
    ("256 steps", WITHIN_ASKED, 255, 254 << 16),
    ("256 steps", WITHIN_ASKED, 256, 256 << 16),
    ("largest limit", WITHIN_ASKED, 195_842, 255 << 16),
    ("largest limit", WITHIN_ASKED, 197_377, 255 << 16),
    ("largest limit", WITHIN_ASKED, 197_378, 256 << 16),
    ("one unit more", WITHIN_ASKED, 0, 26),
    ("calm in its rows", WITHIN_ASKED, 2**64 - 1, 26),
)
DRIVER = r"""
/* Answers questions about files. Standard input: the length of a file and the number of questions,
 * the file, and for each question the number of the function and its argument. Standard output: the
 * answers. All numbers have 8 bytes. */
#include "pepperscarp.h"

#include <stdio.h>
#include <stdlib.h>

int main(void)
{
    uint64_t sizes[2], question[2], answer;
    while (fread(sizes, sizeof sizes, 1, stdin) == 1) {
        size_t length = (size_t)sizes[0];
        uint8_t *file = malloc(length + (length == 0));
        if (file == NULL || fread(file, 1, length, stdin) != length)
            return 1;
        for (; sizes[1] > 0; sizes[1]--) {
            if (fread(question, sizeof question, 1, stdin) != 1)
                return 1;
            if (question[0] == 0)
                answer = pepperscarp_calm(file, length);
            else if (question[0] == 1)
                answer = pepperscarp_slack_limit(file, length, (size_t)question[1]);
            else
                answer = pepperscarp_steps_within(file, length, question[1]);
            if (fwrite(&answer, sizeof answer, 1, stdout) != 1)
                return 1;
        }
        free(file);
    }
    return fflush(stdout) != 0;
}
"""


@dataclass(frozen=True)
class Asked:
    """A file, and what is asked about it."""

    name: str
    data: bytes
    read: Packed | Refusal | None  # None if the answers are known otherwise
    limits: list[int]
    questions: list[Question]

    def answer(self, question: Question) -> int:
        """What the archive has to answer."""
        function, argument = question
        if isinstance(self.read, Refusal):
            return self.read.number + 65_536 * self.read.offset
        if function == CALM_ASKED:
            return 65_536 * self.read.calm
        if not self.read.calm:
            return NOT_CALM_NUMBER
        if function == LIMIT_ASKED:
            return NO_SUCH_STEP if argument > self.read.steps else 65_536 * self.limits[argument]
        step = steps_within(self.limits, argument)
        return SLACK_TOO_SMALL if step is None else 65_536 * step


def asked(name: str, data: bytes) -> Asked:
    """A file with its questions: of a calm model every step, and slacks around every limit."""
    refusal = exact.read_model(data)
    read = refusal if isinstance(refusal, Refusal) else packed(data)
    limits: list[int] = []
    steps, slacks = {0, 1, 2, *WIDE}, {0, 1, 2, 3, *WIDE}
    if isinstance(read, Packed):
        limits = limits_of(read)
        steps |= {read.steps, read.steps + 1}
        if read.calm:
            steps |= set(range(read.steps))
            slacks |= {limit + more for limit in limits for more in (-1, 0, 1)}
    questions = [(CALM_ASKED, 0)]
    questions += [(LIMIT_ASKED, step) for step in sorted(steps)]
    questions += [(WITHIN_ASKED, slack) for slack in sorted(slacks)]
    return Asked(name, data, read, limits, questions)


class Archive(unittest.TestCase):
    """The three functions, against this test's own limits and against the exact program."""

    driver: str
    answers: collections.Counter[str] = collections.Counter()
    files = 0

    @classmethod
    def setUpClass(cls) -> None:
        folder = tempfile.TemporaryDirectory()
        cls.addClassCleanup(folder.cleanup)
        source = Path(folder.name, "driver.c")
        source.write_text(DRIVER, encoding="ascii")
        cls.driver = str(source.with_suffix(""))
        command = ["cc", "-std=c99", "-pedantic", "-Wall", "-Wextra", "-Werror", "-O2",
                   "-I", str(ROOT / "c"), "-o", cls.driver, str(source), archive]
        subprocess.run(command, check=True, timeout=TIME_LIMIT)

    @classmethod
    def tearDownClass(cls) -> None:
        sorts = ", ".join(f"{number:,} {sort}" for sort, number in cls.answers.items())
        answers = f"{cls.answers.total():,} answers about {cls.files:,} files"
        findings.append(f"archive: {answers}: {sorts}")

    def ask(self, tried: list[Asked]) -> Iterator[tuple[Asked, list[int]]]:
        """The archive's answers about each file."""
        parts = []
        for each in tried:
            parts += [struct.pack("<QQ", len(each.data), len(each.questions)), each.data]
            parts += [struct.pack("<QQ", *question) for question in each.questions]
        done = subprocess.run([self.driver], input=b"".join(parts), stdout=subprocess.PIPE,
                              timeout=TIME_LIMIT)
        self.assertEqual(done.returncode, 0)
        self.assertEqual(len(done.stdout), 8 * sum(len(each.questions) for each in tried))
        at = 0
        for each in tried:
            yield each, list(struct.unpack_from(f"<{len(each.questions)}Q", done.stdout, at))
            at += 8 * len(each.questions)

    def check(self, named: Iterable[tuple[str, bytes]]) -> collections.Counter[str]:
        """Compare all answers about these files; how many there were of each sort."""
        sorts: collections.Counter[str] = collections.Counter()
        for each, found in self.ask([asked(name, data) for name, data in named]):
            type(self).files += 1
            refused = isinstance(each.read, Refusal)
            sort = "refused" if refused else "calm" if each.read.calm else "not calm"
            for question, answer in zip(each.questions, found, strict=True):
                expected = each.answer(question)
                if answer != expected:
                    self.fail(
                        f"{each.name}: {FUNCTIONS[question[0]]}, argument {question[1]:,}:"
                        f" number {answer % 65_536}, figure {answer >> 16:,};"
                        f" expected {expected % 65_536}, {expected >> 16:,}: file {each.data.hex()}"
                    )
            sorts[sort] += 1
            self.answers[sort] += len(found)
        return sorts

    def check_random(self, make: Maker, what: str, share: int) -> collections.Counter[str]:
        return self.check(random_files(make, what, max(count // share, 1)))

    def test_models_by_hand(self) -> None:
        """Answers worked out by hand, and not by this test's formula."""
        figures = {**CALM, **NOT_CALM}
        wanted = [(name, CALM_ASKED, 0, (name in CALM) << 16) for name in figures]
        wanted += [
            (name, LIMIT_ASKED, step, limit << 16 if name in CALM else 26)
            for name, (_, steps) in figures.items()
            for step, (_, limit) in steps.items()
        ]
        wanted += BY_HAND
        tried = [Asked(name, encode(figures[name][0]), None, [], [(function, argument)])
                 for name, function, argument, _ in wanted]
        for (name, function, argument, answer), (_, found) in zip(wanted, self.ask(tried)):
            self.assertEqual(found, [answer], (name, FUNCTIONS[function], argument))

    def test_calm_models(self) -> None:
        self.assertEqual(set(self.check_random(models.calm_model, "calm", 4)), {"calm"})

    def test_models_that_are_almost_calm(self) -> None:
        sorts = self.check_random(models.almost_calm_model, "almost", 4)
        self.assertEqual(set(sorts), {"not calm"})

    def test_models_that_are_calm_in_their_rows(self) -> None:
        self.assertEqual(set(self.check_random(models.calm_rows_model, "rows", 8)), {"not calm"})

    def test_random_files(self) -> None:
        sorts = self.check(
            (f"file {number} of seed {seed}", data)
            for number, data in enumerate(models.stream(seed, max(2 * count // 5, 1)))
        )
        if count >= ENOUGH:
            self.assertGreater(min(sorts[sort] for sort in ("refused", "calm", "not calm")), 100)

    def test_the_files_of_the_reader(self) -> None:
        paths = sorted(READER_FILES.iterdir())
        self.assertGreaterEqual(len(paths), 1_426)
        sorts = self.check((path.name, path.read_bytes()) for path in paths)
        self.assertEqual(set(sorts), {"refused", "calm", "not calm"})

    def test_this_tests_answers_are_those_of_the_exact_program(self) -> None:
        """On fewer files, since the exact program works every limit out anew."""
        rng = random.Random(seed)
        most = max(count // 20, 1)
        for name, data in (*random_files(models.calm_model, "calm", most),
                           *random_files(models.almost_calm_model, "almost", most)):
            each, model = asked(name, data), exact.read_model(data)
            self.assertEqual(each.answer((CALM_ASKED, 0)), 65_536 * exact.calm(model), name)
            if not exact.calm(model):
                continue
            step = rng.randint(0, model.steps)
            limit = exact.slack_limit(model, step)
            self.assertEqual(each.answer((LIMIT_ASKED, step)), 65_536 * limit, name)
            for slack in (1, limit - 1, limit, rng.randint(0, 2 * limit)):
                within = exact.steps_within(model, slack)
                expected = 28 if within is None else 65_536 * within
                self.assertEqual(each.answer((WITHIN_ASKED, slack)), expected, (name, slack))


def tearDownModule() -> None:
    print("", *findings, sep="\n")


def main() -> None:
    global program, archive, seed, count
    parser = argparse.ArgumentParser(description="Test calm models from outside.")
    parser.add_argument("--program", default=program, help="target/bin/envelope without it")
    parser.add_argument("--archive", default=archive, metavar="FILE",
                        help="target/staticlib/libpepperscarp.a without it")
    parser.add_argument("--seed", type=int, default=seed, metavar="N", help="of the random models")
    parser.add_argument("--count", type=int, default=count, metavar="N",
                        help="how many random models")
    options, rest = parser.parse_known_args()
    seed, count = options.seed, options.count
    found = shutil.which(os.path.abspath(options.program))
    if found is None:
        sys.exit(f"{options.program}: not a program that can be run")
    if not os.path.isfile(options.archive):
        sys.exit(f"{options.archive}: no such file; run tools/archive")
    program, archive = found, os.path.abspath(options.archive)
    unittest.main(argv=[sys.argv[0], *rest])


if __name__ == "__main__":
    main()
