#!/usr/bin/env python3
"""Test the command `report` from outside, as a user's shell would.

    report.py

Every number that it prints is checked (`claims`), and `Checks` shows of each kind of figure that a
wrong one is found.

It takes the built program, target/bin/envelope, and fails where there is none. A test that needs
another one, or none, has a small clone of its own; nothing is proved.
"""

from __future__ import annotations

import collections
import itertools
import math
import os
import pty
import random
import re
import shutil
import signal
import subprocess
import sys
import tempfile
import threading
import time
import unittest
from concurrent.futures import ThreadPoolExecutor
from dataclasses import replace
from fractions import Fraction
from pathlib import Path
from typing import Any, Callable, Iterator, Sequence
from unittest import mock

sys.path.insert(0, str(Path(__file__).resolve().parent.parent / "tools"))

import exact  # noqa: E402
import models  # noqa: E402
from claims import (  # noqa: E402
    AS_WRITTEN, Answer, COUNTED, Case, Done, EXAMPLES, FADING, FED, FOOTER, NO_GUARD, NUMBER,
    PACKED_MODELS, PROGRAM, Printed, RAIL, REACHED, REPORT, ROOT, STILL, TEXTS, TIME_LIMIT,
    check_all, check_claim, check_csv_model, check_json_model, check_text_margin,
    check_text_model, check_text_verdict, finished, finished_all, guard_words, in_csv, in_json,
    largest_values, lines, listed, matched, must, random_cases, random_text, reply, sections,
    table,
)
from layout import (  # noqa: E402
    BOX, MATRIX_UNIT, MAX_DIRECTION_ENTRY, MAX_DIRECTIONS, MAX_LEVEL, MIN_LEVEL, Model, Set,
    encode, zero_box,
)
from listings import CLEAR, GROWTH, HIT, UNKNOWN, Growth, Verdict  # noqa: E402


def executable(number: int | str) -> str:
    """The name of what this process runs, which for a script is its shell; empty if it is gone."""
    try:
        return os.path.basename(os.readlink(f"/proc/{number}/exe"))
    except OSError:
        return ""


def state_and_parent(number: int | str) -> tuple[str, int]:
    try:
        state, parent = Path(f"/proc/{number}/stat").read_text().rpartition(") ")[2].split()[:2]
    except OSError:
        return "", 0
    return state, int(parent)


def reads(number: int) -> bool:
    """Whether this process has become Python and waits for its input."""
    return executable(number).startswith("python") and state_and_parent(number)[0] == "S"


def works(number: int) -> bool:
    """Whether this process has others that run the program, or Python."""
    return any(
        state_and_parent(one)[1] == number and executable(one).startswith(("python", "envelope"))
        for one in os.listdir("/proc") if one.isdigit()
    )


def setUpModule() -> None:
    # What a shell starts in the background ignores this, and hands that on.
    signal.signal(signal.SIGINT, lambda *_: sys.exit(2))


class Folder(unittest.TestCase):
    """A test with a folder of its own."""

    def setUp(self) -> None:
        self.folder = Path(tempfile.mkdtemp())
        self.addCleanup(shutil.rmtree, self.folder, ignore_errors=True)

    def put(self, name: str | bytes, content: str | bytes) -> str | bytes:
        """A file in the folder; its name there."""
        path = os.path.join(os.fsencode(self.folder), os.fsencode(name))
        os.makedirs(os.path.dirname(path), exist_ok=True)
        with open(path, "wb") as file:
            file.write(content.encode() if isinstance(content, str) else content)
        return name

    def put_case(self, name: str, text: str) -> Case:
        self.put(name, text)
        return Case(name, text.encode())

    def report(self, *words: str | bytes | Path, **how: Any) -> Done:
        return finished(*words, cwd=self.folder, **how)

    def reports(self, *calls: Sequence[str | bytes | Path]) -> Iterator[tuple[list[Any], Done]]:
        """Several calls, each with what it did."""
        return zip(calls, finished_all(calls, cwd=self.folder))

    def assert_told(self, done: Done, status: int, *messages: str) -> None:
        """The status, and each message on standard error."""
        told = (done.stderr or b"").decode()
        self.assertEqual(done.returncode, status, told)
        for message in messages:
            self.assertRegex(told, message)


class Figures(Folder):
    """Every printed number is implied by what is exact."""

    def test_every_figure_of_the_examples_is_implied(self) -> None:
        cases = [Case(path.name, path.read_bytes()) for path in sorted(EXAMPLES.glob("*.model"))]
        self.assertGreater(len(cases), 8)
        for plain in (False, True):
            check_all(cases, EXAMPLES, plain)

    def test_every_figure_of_random_models_is_implied(self) -> None:
        cases = list(random_cases(7, PACKED_MODELS, TEXTS))
        for case in cases:
            self.put(case.name, case.data)
        words, seen, borders = (collections.Counter() for _ in range(3))
        for plain in (False, True):
            answers = check_all(cases, self.folder, plain, part=5)
            for answer in answers:
                words.update(map(answer.word, range(len(answer.case.model.guards))))
                written = answer.case.written
                seen["as written"] += written is not None
                for number, swept in enumerate(answer.listing.directions):
                    seen["growth"] += isinstance(swept, Growth)
                    seen["above"] += written is not None and bool(answer.above(number))
                borders.update((plain, *place) for place in self.borders(answer))
            if not plain:
                sharp = answers
        for word in (HIT, AS_WRITTEN, GROWTH, UNKNOWN, CLEAR):
            self.assertGreater(words[word], 5, words)
        self.assertGreater(min(seen.values()), 20, seen)
        places = ("bound",), ("bound", "slack"), ("low",), ("low", "slack"), ("as written",)
        for plain, place in itertools.product((False, True), places):
            self.assertGreater(borders[plain, *place], 8, borders)
        self.compare(sharp, answers)

    def borders(self, answer: Answer) -> Iterator[tuple[str, ...]]:
        """Where guards stand at what their verdicts depend on; also where that has a slack."""
        for number, level in answer.case.model.guards:
            if answer.case.written is not None and level == max(answer.case.written[number]):
                yield ("as written",)
            swept = answer.listing.directions[number]
            if not isinstance(swept, Growth):
                lows = [bound - slack for bound, slack in zip(swept.bounds, swept.slacks)]
                slack = ["slack"] if max(lows) < max(swept.bounds) else []
                for name, values in (("bound", swept.bounds), ("low", lows)):
                    if answer.factors[number] * level == max(values):
                        yield name, *slack

    def compare(self, sharp: list[Answer], plain: list[Answer]) -> None:
        """Sharp says no less than plain."""
        for one, other in zip(sharp, plain):
            for number, swept in enumerate(other.listing.directions):
                if not isinstance(swept, Growth):
                    self.assertLessEqual(max(one.bounds(number)), max(other.bounds(number)), one.case.name)
            for said, before in zip(one.listing.guards, other.listing.guards):
                if before.word in (HIT, CLEAR):
                    self.assertEqual(said.word, before.word, one.case.name)

    def test_every_figure_of_a_model_of_each_limit_is_implied(self) -> None:
        # Levels at the ends of 64 bits, counts that no decimal divides, times of many decimals,
        # bounds at 0 and below, entries at 1,000.
        top, bottom = MAX_LEVEL, MIN_LEVEL
        guards = "".join(f"guard {d} {level}\n" for d in ("up", "down") for level in (top, bottom, 0, -1, 1))
        sets = "initial box\nlower -3 -2\nupper -1 0\ninput box\nlower 0 -1\nupper 0 0\n"
        directions = "direction up 1 0\ndirection down -1000 -1000\ndirection mixed 999 -1\n"
        head = "coordinates a b\nsteps 80\ntime 0.0000001 s\nrow ~0.99 ~0.001\nfitted -0.1 0.97\n"
        cases = [
            self.put_case("ends.model", head + sets + directions + guards),
            self.put_case(
                "counts.model",
                head + "unit a µm 1000000000\nunit b µm 1000000000\n" + sets + directions
                + "unit down l 3\n" + guards,
            ),
        ]
        for plain in (False, True):
            check_all(cases, self.folder, plain)

    def test_the_slack_of_the_rail_is_tens_of_mv_plain_and_below_1_mv_without(self) -> None:
        verdicts, slacks = [], []
        for options in (["--plain"], []):
            (model,) = in_json(finished("--json", *options, RAIL).stdout)["models"]
            (lowest,) = (one for one in model["directions"] if one["name"] == "lowest")
            (edge,) = (one for one in model["guards"] if one["name"] == "edge")
            slacks.append(lowest["peak"]["slack"])
            verdicts.append(edge["verdict"])
        self.assertTrue(10 <= slacks[0] < 100 and slacks[1] < 1, slacks)
        self.assertEqual(verdicts, [UNKNOWN, CLEAR])


class Factors(Folder):
    def all_accepted(self, model: Model, number: int) -> list[int]:
        """The factors within the entries' limit for which the program has a bound."""
        direction = model.directions[number]
        most = MAX_DIRECTION_ENTRY // max(map(abs, direction))
        found: list[int] = []
        for start in range(1, most + 1, MAX_DIRECTIONS):
            factors = range(start, min(start + MAX_DIRECTIONS, most + 1))
            asked = [tuple(factor * entry for entry in direction) for factor in factors]
            swept = listed(replace(model, directions=tuple(asked), guards=())).directions
            found += [factor for factor, one in zip(factors, swept) if not isinstance(one, Growth)]
        return found

    def test_the_factor_is_the_largest_that_is_accepted(self) -> None:
        # Limited by growth: the direction, or what rounding adds, grows.
        rng = random.Random(11)
        cases: list[Case] = []
        while len(cases) < 16:
            n = rng.randint(1, 3)
            temper = rng.choice(("cancelling", "wide", "turning", "extreme"))
            limit = rng.choice((1, 1, 2, 5, 40))
            direction = tuple(rng.choice((-1, 1)) * rng.randint(0, limit) for _ in range(n))
            if not any(direction):
                continue
            box = Set(BOX, ((-5,) * n, (7,) * n))
            matrix = models._matrix(rng, n, temper)
            for steps in rng.sample(range(1, 40), 39):
                model = Model(n, steps, matrix, box, box, (direction,), ())
                most = MAX_DIRECTION_ENTRY // max(map(abs, direction))
                multiplied = tuple(most * entry for entry in direction)
                ends = [exact.sweep(model, one) for one in (direction, multiplied)]
                if isinstance(ends[1], Growth) and (not isinstance(ends[0], Growth) or rng.random() < 0.1):
                    name = f"{len(cases)}.bin"
                    cases.append(Case(name, encode(model)))
                    self.put(name, cases[-1].data)
                    break
        told = in_json(self.report("--json", *(case.name for case in cases)).stdout)["models"]
        limited = collections.Counter()
        for case, one in zip(cases, told):
            (direction,) = one["directions"]
            accepted = self.all_accepted(case.model, 0)
            self.assertEqual(direction["factor"], max(accepted, default=1), case.name)
            self.assertEqual(direction["growth_step"] is None, bool(accepted), case.name)
            limited["growth" if not accepted else "limited"] += 1
            limited["gaps"] += bool(accepted) and len(accepted) != max(accepted)
        self.assertGreater(limited["limited"], 8, limited)

    def test_a_factor_is_found_where_smaller_ones_are_refused(self) -> None:
        # A reflection in eighths, and then another order of the coordinates: values stay small, and
        # three bits more are needed at each step. What rounding adds doubles at each step, and starts
        # later where the factor is a power of two.
        normal, n = (3, 2, 1, 1, 1), 5
        eighths = [[8 * (i == j) - normal[i] * normal[j] for j in range(n)] for i in range(n)]
        order = random.Random(4).sample(range(n), n)
        matrix = tuple(tuple(MATRIX_UNIT // 8 * entry for entry in eighths[i]) for i in order)
        box = Set(BOX, ((0,) * n, (1,) * n))
        for direction in ((1, 0, 0, 0, 0), (0, 0, 1, 0, 0)):
            model = Model(n, 43, matrix, box, zero_box(n), (direction,), ((0, 2),))
            accepted = self.all_accepted(model, 0)
            self.assertTrue(accepted and min(accepted) > 1, accepted)
            case = Case("gap.bin", encode(model))
            self.put(case.name, case.data)
            (answer,) = check_all([case], self.folder, plain=False)
            self.assertEqual(answer.factors, [max(accepted)])
            (answer,) = check_all([case], self.folder, plain=True)
            self.assertEqual(answer.word(0), GROWTH)

    def test_a_direction_refused_for_growth_has_factor_1_and_its_step(self) -> None:
        growing = STILL.replace("row 0.5", "row 2").replace("steps 3", "steps 40")
        case = self.put_case("growing.model", growing)
        done = self.report("--json", case.name)
        (direction,) = in_json(done.stdout)["models"][0]["directions"]
        self.assertEqual((direction["factor"], direction["growth_step"]), (1, 11))
        self.assertEqual(self.all_accepted(case.model, 0), [])
        self.assertEqual(done.returncode, 3)
        check_all([case], self.folder, plain=False)


class Written(Folder):
    """The matrix as written, where entries were rounded."""

    def test_a_model_that_passes_its_bounds_by_hundreds_is_told(self) -> None:
        case = self.put_case("fading.model", FADING)
        (answer,) = check_all([case], self.folder, plain=False)
        above = answer.above(0)
        self.assertGreater(max(above.values()), 500)
        self.assertEqual(len(above), 256)
        done = self.report(case.name)
        self.assertRegex(done.stdout.decode(), r"\nWARNING: as written, largest passes ")
        self.assertRegex(done.stdout.decode(), r"at 256 steps, by up to 1,\d{3}(\.\d+)? counts at 256\n")
        # Its largest bound is at the start, and is not passed; without guards nothing is reached.
        self.assertEqual((done.returncode, max(case.written[0])), (0, 1_048_576))

    def test_a_largest_bound_that_is_passed_by_hundreds_is_told(self) -> None:
        case = self.put_case("fed.model", FED)
        (answer,) = check_all([case], self.folder, plain=False)
        self.assertGreater(max(case.written[0]) - max(answer.bounds(0)), 500)
        self.assertIn("\nWARNING: ", self.report(case.name).stdout.decode())

    def test_a_guard_that_only_the_matrix_as_written_reaches_has_status_3(self) -> None:
        text = FED + "guard largest 1072000 between\nguard largest 1074000 beyond\n"
        case = self.put_case("between.model", text)
        (answer,) = check_all([case], self.folder, plain=False)
        self.assertEqual([answer.word(0), answer.word(1)], [AS_WRITTEN, CLEAR])
        done = self.report(case.name)
        self.assertEqual(done.returncode, 3)
        self.assertRegex(done.stdout.decode(), rf"\nbetween .* {AS_WRITTEN} .* from step \d+\n")
        self.assertRegex(lines(done.stdout)[0], ": 1 REACHED AS WRITTEN, 1 CLEAR$")
        # In a row of several, too.
        self.put("other.model", NO_GUARD)
        done = self.report(case.name, "other.model")
        self.assertEqual(done.returncode, 3)
        self.assertRegex(done.stdout.decode(), rf"\nbetween.model .* {AS_WRITTEN} ")
        # Packed, nothing is known of it.
        self.put("between.bin", case.source.data)
        self.assertEqual(self.report("between.bin").returncode, 0)

    def test_the_step_that_is_farthest_above_its_bound_is_named(self) -> None:
        # Of two that differ by less than the last decimal too.
        for name in ("cooling.model", "fitted.model"):
            case = Case(name, (EXAMPLES / name).read_bytes())
            done = finished("--json", name, cwd=EXAMPLES)
            (model,) = in_json(done.stdout)["models"]
            answer = check_json_model(case, in_json(done.stdout)["models"][0])
            for one in model["directions"]:
                above, step = answer.above(int(one["number"])), one["as_written"]["most_above_bound_step"]
                with self.subTest(f"{name} {one['name']}"):
                    self.assertEqual(above[int(step)], max(above.values()))

    def test_nothing_is_told_of_it_where_nothing_was_rounded(self) -> None:
        self.put("still.model", STILL)
        self.put("marked.model", STILL.replace("row 0.5", "row ~0.5"))
        self.put("fitted.model", STILL.replace("row 0.5", "fitted 0.5"))
        names = "still.model", "marked.model", "fitted.model"
        (_, as_text), (_, as_json) = self.reports(["--full", *names], ["--json", *names])
        told = as_text.stdout.decode()
        self.assertEqual(told.count("as written"), told.count("values as written and the layout"))
        self.assertNotIn("WARNING", as_text.stdout.decode())
        for model in in_json(as_json.stdout)["models"]:
            self.assertIsNone(model["directions"][0]["as_written"])

    def test_fitted_rows_of_a_packed_file_are_as_written(self) -> None:
        data = (EXAMPLES / "fitted.bin").read_bytes()
        self.put("fitted.bin", data)
        (answer,) = check_all([Case("fitted.bin", data)], self.folder, plain=False)
        self.assertTrue(answer.above(2))


class Border(Folder):
    """A guard is reached only above its level: at it, it is clear by 0."""

    def told(self, text: str, plain: bool) -> tuple[dict[str, dict[str, str]], int]:
        """The row of each guard by its name, with every number checked, and the status."""
        case = self.put_case("border.model", text)
        check_all([case], self.folder, plain)
        done = self.report(*["--plain"] * plain, case.name)
        rows = sections(done.stdout)[0].tables[0]
        return {row.pop("guard"): row for row in rows}, done.returncode

    def test_a_largest_bound_equal_to_the_level(self) -> None:
        # The largest values are 8, 4, 2, 1.
        text = NO_GUARD.replace("upper 1\n", "upper 0\n")
        for plain in (False, True):
            rows, status = self.told(text + "guard largest 8 at\n", plain)
            self.assertEqual((status, rows), (0, {"at": {
                "reached where": "value > 8 counts", "verdict": CLEAR, "margin": "clear by 0 counts"}}))
            rows, status = self.told(text + "guard largest 8 at\nguard largest 7 below\n", plain)
            self.assertEqual((status, rows["at"]["verdict"]), (3, CLEAR))
            self.assertEqual(rows["below"], {"reached where": "value > 7 counts", "verdict": "HIT at step 0",
                                             "margin": "passed by 1 count"})

    def test_a_lowest_value_is_reached_below_its_level(self) -> None:
        text = NO_GUARD.replace("lower 0\n  upper 8", "lower 4\n  upper 8").replace("steps 3", "steps 1")
        text = text.replace("direction largest 1", "direction lowest -1\nunit lowest mV")
        for plain in (False, True):
            rows, status = self.told(text + "guard lowest -2 at\nguard lowest -3 above\n", plain)
            self.assertEqual((rows["at"]["reached where"], rows["at"]["verdict"], rows["at"]["margin"]),
                             ("value < 2 mV", CLEAR, "clear by 0 mV"))
            self.assertEqual((rows["above"]["reached where"], rows["above"]["verdict"], rows["above"]["margin"]),
                             ("value < 3 mV", "HIT at step 1", "passed by 1 mV"))
            self.assertEqual(status, 3)

    def test_a_bound_minus_its_slack_equal_to_the_level(self) -> None:
        # Without a factor the bounds are 0, 1, 2, 2 and the slacks 0, 0, 1, 1.
        text = NO_GUARD.replace("upper 8", "upper 0") + "guard largest 1 low\nguard largest 2 high\n"
        rows, status = self.told(text, plain=True)
        self.assertEqual((rows["low"]["verdict"], rows["low"]["margin"]),
                         ("UNKNOWN at step 2", "between 0 short and 1 count past"))
        self.assertEqual((rows["high"]["verdict"], rows["high"]["margin"]), (CLEAR, "clear by 0 counts"))
        self.assertEqual(status, 3)

    def test_a_value_as_written_equal_to_the_level(self) -> None:
        # 0.7 of 1,000,000 is 700,000; stored is 45,875/65,536, which makes 699,996.95.
        text = """coordinates whole part
steps 1
row 1 0
row ~0.7 0
initial box
  lower 1000000 0
  upper 1000000 0
direction part 0 1
guard part 700000 at
"""
        rows, status = self.told(text, plain=False)
        self.assertEqual((rows["at"]["verdict"], status), (CLEAR, 0))
        self.assertRegex(rows["at"]["as written"], r"^clear by 0\.0+ counts$")
        rows, status = self.told(text + "guard part 699999 below\n", plain=False)
        self.assertEqual((rows["below"]["verdict"], rows["at"]["verdict"], status), (AS_WRITTEN, CLEAR, 3))
        self.assertRegex(rows["below"]["as written"], r"^passed by 1\.0+ counts from step 1$")


class Order(Folder):
    def test_the_most_urgent_guards_come_first(self) -> None:
        # Each word in one model, in another order; `turns` has a slack, is UNKNOWN one count below its
        # bound and CLEAR at it.
        text = """coordinates value other turning more
steps 30
row ~0.9999 0 0 0
row 0 2 0 0
scaled 0 0 46341 -46341
scaled 0 0 46341 46341
initial box
  lower 0 0 -9 -9
  upper 1048576 1 9 9
input box
  lower 0 0 0 0
  upper 200 0 0 0
direction largest 1 0 0 0
direction grows 0 1 0 0
direction turns 0 0 1 0
"""
        alone = Case("", text.encode())
        turns = max(listed(alone.model).directions[2].bounds)
        most = math.floor(max(alone.written[0]))
        for name, level, guard in (
            ("largest", most + 9_000, "far"), ("largest", most + 1, "near"), ("turns", turns, "touched"),
            ("turns", turns - 1, "unsure"), ("grows", 7, "grown"), ("largest", most, "between"),
            ("largest", 5, "passed"), ("largest", 1, "well"),
        ):
            text += f"guard {name} {level} {guard}\n"
        case = self.put_case("all.model", text)
        (answer,) = check_all([case], self.folder, plain=True)
        words = [answer.word(guard) for guard in range(8)]
        self.assertEqual(words, [CLEAR, CLEAR, CLEAR, UNKNOWN, GROWTH, AS_WRITTEN, HIT, HIT])
        (model,) = in_json(self.report("--plain", "--json", case.name).stdout)["models"]
        names = [one["name"] for one in model["guards"]]
        self.assertEqual(names, ["well", "passed", "between", "grown", "unsure", "touched", "near", "far"])

    def test_models_of_several_stand_in_the_order_of_their_words(self) -> None:
        texts = {
            "clear.model": STILL,
            "hit.model": REACHED,
            "growth.model": STILL.replace("row 0.5", "row 2").replace("steps 3", "steps 40"),
            "written.model": FED + "guard largest 1072000\n",
        }
        for name, text in texts.items():
            self.put(name, text)
        self.put("cut.bin", b"\x01\x01")
        done = self.report("none.model", *texts, "cut.bin")
        rows = table(done.stdout.decode().split("\n\n")[0].split("\n"))
        order = [row["model"] for row in rows]
        self.assertEqual(order[2:], ["hit.model", "written.model", "growth.model", "clear.model"])
        self.assertEqual(set(order[:2]), {"none.model", "cut.bin"})

    def test_json_and_csv_keep_the_order_of_the_words(self) -> None:
        words = [self.put(f"{name}.model", text) for name, text in (("c", STILL), ("a", REACHED), ("b", STILL))]
        words = [*words, "missing", *reversed(words)]
        told = in_json(self.report("--json", *words).stdout)
        self.assertEqual([one["name"] for one in told["models"]], words)
        rows = in_csv(self.report("--csv", *words).stdout)
        self.assertEqual([name for name, _ in itertools.groupby(row["model"] for row in rows)], words)


class Statuses(Folder):
    def setUp(self) -> None:
        super().setUp()
        self.put("clear.model", STILL)
        self.put("hit.model", REACHED)
        self.put("free.model", NO_GUARD)
        self.put("wrong.model", "steps 3\n")
        self.put("cut.bin", b"\x01\x01\x03")
        self.kinds = {
            "clear.model": 0, "free.model": 0, "hit.model": 3, "cut.bin": 1, "wrong.model": 1, "missing.model": 2
        }

    def test_a_model_alone_has_its_status(self) -> None:
        calls = [[name] for name in self.kinds]
        for option in ("--json", "--csv", "--plain", "--full"):
            calls += [[option, name] for name in ("hit.model", "cut.bin", "missing.model")]
        for words, done in self.reports(*calls):
            with self.subTest(words):
                self.assertEqual(done.returncode, self.kinds[words[-1]])

    def test_of_several_statuses_the_first_of_2_1_3_0_is_told(self) -> None:
        names = ["clear.model", "hit.model", "cut.bin", "missing.model"]
        several = [words for count in (2, 3, 4) for words in itertools.combinations(names, count)]
        for (_, *words), done in self.reports(*(["--json", *words] for words in several)):
            statuses = [self.kinds[word] for word in words]
            expected = next(status for status in (2, 1, 3, 0) if status in statuses)
            with self.subTest(words):
                told = in_json(done.stdout)
                self.assertEqual((done.returncode, told["status"]), (expected, expected))
                self.assertEqual([one["status"] for one in told["models"]], statuses)

    def test_each_word_of_a_guard_but_clear_has_status_3(self) -> None:
        cases = list(random_cases(23, 60, 0))
        for case in cases:
            self.put(case.name, case.data)
        seen = set()
        for one in in_json(self.report("--plain", "--json", *(case.name for case in cases)).stdout)["models"]:
            words = {guard["verdict"] for guard in one["guards"]}
            clear = all(guard["clear"] for guard in one["guards"])
            self.assertEqual(one["status"], 0 if clear else 3)
            self.assertTrue(clear or words != {CLEAR} or one["directions"][0]["as_written"])
            if len(words) == 1:
                seen |= words
        self.assertLessEqual({HIT, UNKNOWN, CLEAR, GROWTH}, seen)

    def test_against_has_the_status_of_the_new_model_or_of_what_fails(self) -> None:
        calls = {
            ("clear.model", "clear.model"): 0, ("hit.model", "clear.model"): 3, ("clear.model", "hit.model"): 0,
            ("free.model", "clear.model"): 0, ("clear.model", "cut.bin"): 1, ("cut.bin", "hit.model"): 1,
            ("missing.model", "cut.bin"): 2, ("cut.bin", "missing.model"): 2, ("hit.model", "missing.model"): 2,
            ("wrong.model", "clear.model"): 1, ("hit.model", "cut.bin"): 1,
        }
        for (_, new, _, old), done in self.reports(*(["--json", new, "--against", old] for new, old in calls)):
            with self.subTest(f"{new} {old}"):
                told = in_json(done.stdout)
                self.assertEqual((done.returncode, told["status"]), (calls[new, old],) * 2)
        for options in ([], ["--csv"]):
            self.assertEqual(self.report(*options, "hit.model", "--against", "cut.bin").returncode, 1)
            self.assertEqual(self.report(*options, "clear.model", "--against", "hit.model").returncode, 0)

    def test_help_tells_the_options_the_rule_and_the_statuses(self) -> None:
        done = self.report("--help")
        self.assertEqual((done.returncode, done.stderr), (0, b""))
        options = ("--json", "--csv", "--html", "--plain", "--full", "--against", "--jobs", "--version")
        rule = "A guard is reached only above its level:"
        for part in (*options, "\n  0  ", "\n  1  ", "\n  2  ", "\n  3  ", "2, 1, 3, 0", rule):
            self.assertIn(part, done.stdout.decode())

    def test_the_version_is_told(self) -> None:
        version = (ROOT / "VERSION").read_text().strip()
        done = self.report("--version")
        self.assertEqual((done.returncode, done.stdout.decode()), (0, f"Pepperscarp {version}\n"))
        self.put("m.model", STILL)
        self.assertEqual(in_json(self.report("--json", "m.model").stdout)["program_version"], version)

    def test_the_examples_of_help_work(self) -> None:
        examples = re.findall(r"\n  (\./report .*)", self.report("--help").stdout.decode())
        self.assertEqual(len(examples), 4)
        calls = [["-c", example] for example in examples if "--html" not in example]
        for done in finished_all(calls, command=["bash"], cwd=ROOT):
            self.assert_told(done, 3)
            self.assertTrue(done.stdout)


class Bad(Folder):
    """Bad input is told, with its status; never by a traceback."""

    def test_what_cannot_be_read_has_status_2(self) -> None:
        os.mkdir(self.folder / "none")
        told = {
            "missing.model": "^report: missing.model is not there\n$",
            "none": "^report: none .*without a model",
            "/dev/zero": "^report: /dev/zero is too long",
            "missing/m.model": "missing/m.model",
            "m" * 300 + ".model": "can't be read|is not there",
            "": "empty name",
            "/proc/self/mem": "/proc/self/mem can't be read",
        }
        for (word,), done in self.reports(*([word] for word in told)):
            with self.subTest(word):
                self.assert_told(done, 2, told[word])
                self.assertEqual(done.stdout, b"")

    def test_an_unreadable_file_is_told(self) -> None:
        self.put("locked.model", STILL)
        (self.folder / "locked.model").chmod(0)
        if os.access(self.folder / "locked.model", os.R_OK):
            self.skipTest("this user may read everything")
        self.assert_told(self.report("locked.model"), 2, "^report: locked.model can't be read")

    def test_what_is_no_model_has_status_1(self) -> None:
        self.put("empty.model", "")
        self.put("blank.model", " \n\n")
        self.put("cut.bin", (EXAMPLES / "rail.bin").read_bytes()[:100])
        self.put("long.bin", (EXAMPLES / "rail.bin").read_bytes() + bytes(3_000_000))
        self.put("utf16.model", STILL.encode("utf-16"))
        told = {
            "empty.model": "^report: empty.model is empty\n$",
            "/dev/null": "^report: /dev/null is empty\n$",
            "blank.model": "^blank.model: .*blanks",
            "cut.bin": "^cut.bin: refused 1 at 82: the file ends within the centre of the initial set",
            "long.bin": "^long.bin: refused 10 at ",
            "utf16.model": "UTF-16",
            str(ROOT / "README.md"): "README.md:3: ",
        }
        for (word,), done in self.reports(*([word] for word in told)):
            with self.subTest(word):
                self.assert_told(done, 1, told[word])
                self.assertEqual(done.stdout, b"")

    def test_all_mistakes_of_a_text_are_told_with_their_rows(self) -> None:
        wrong = STILL.replace("row 0.5", "row 0.3").replace("upper 8", "upper eight") + "guard smallest 1\n"
        self.put("wrong.model", wrong)
        for data, name in ((None, "wrong.model"), (wrong.encode(), "standard input")):
            done = self.report("-" if data else name, data=data)
            self.assert_told(done, 1)
            told = [matched(rf"{name}:(\d+): .*", row)[0] for row in lines(done.stderr)]
            self.assertEqual(told, ["3", "6", "12"])

    def test_standard_input_is_a_model_once(self) -> None:
        text = STILL.encode()
        done = self.report("-", data=text)
        self.assertEqual((done.returncode, lines(done.stdout)[0].split(":")[0]), (0, "standard input"))
        done = self.report("-", data=Case("", text).source.data)
        self.assertEqual(done.returncode, 0)
        self.assert_told(self.report("-", data=b""), 1, "standard input is empty")
        done = finished("-c", f"'{REPORT}' - <&-", command=["sh"])
        self.assert_told(done, 2, "^report: standard input is closed\n$")

    def test_a_pipe_is_a_model(self) -> None:
        for text in (STILL.encode(), Case("", STILL.encode()).source.data):
            os.mkfifo(self.folder / "pipe")
            writer = threading.Thread(target=(self.folder / "pipe").write_bytes, args=(text,))
            writer.start()
            self.assertEqual(self.report("pipe").returncode, 0)
            writer.join()
            os.unlink(self.folder / "pipe")

    def test_output_that_fails_has_status_2(self) -> None:
        self.put("m.model", STILL)
        with open("/dev/full", "wb") as full:
            calls = (["m.model"], ["--json", "m.model"], ["--csv", "m.model"], ["m.model"] * 2,
                     ["--help"], ["--version"], ["m.model", "--against", "m.model"])
            for words, done in zip(calls, finished_all(calls, cwd=self.folder, stdout=full)):
                with self.subTest(words):
                    self.assert_told(done, 2, "^report: standard output.*\n$")
        done = finished("-c", f"'{REPORT}' m.model >&-", command=["sh"], cwd=self.folder)
        self.assert_told(done, 2, "^report: standard output.*\n$")

    def test_messages_that_cannot_be_written_change_no_status(self) -> None:
        self.put("cut.bin", b"\x01")
        statuses = {"missing": 2, "cut.bin": 1, "--none": 2}
        tried = list(itertools.product(statuses, ("2>&-", "2> /dev/full")))
        calls = [["-c", f"'{REPORT}' {word} {errors}"] for word, errors in tried]
        for (word, errors), done in zip(tried, finished_all(calls, command=["sh"], cwd=self.folder)):
            with self.subTest(f"{word} {errors}"):
                self.assertEqual((done.returncode, done.stdout), (statuses[word], b""))

    def test_a_reader_that_goes_away_gets_no_messages(self) -> None:
        for words in (["--plain", "--json", *[RAIL] * 20], ["--plain", "--full", *[RAIL] * 60]):
            with tempfile.TemporaryDirectory() as temporary:
                started = subprocess.Popen(
                    [REPORT, *words], stdout=subprocess.PIPE, stderr=subprocess.PIPE, bufsize=0,
                    env={**os.environ, "TMPDIR": temporary},
                )
                started.stdout.read(1)
                started.stdout.close()
                with started:
                    self.assertEqual(started.stderr.read(), b"")
                    status = started.wait(TIME_LIMIT)
                self.assertIn(status, (128 + signal.SIGPIPE, -signal.SIGPIPE))
                self.assertEqual(os.listdir(temporary), [])

    def test_a_wrong_command_has_status_2(self) -> None:
        for name in ("m.model", "n.model", "folder/a.model", "folder/b.model"):
            self.put(name, STILL)
        calls = (
            [], ["--none"], ["m.model", "-x"], ["--json"], ["--json", "--csv", "m.model"],
            ["m.model", "n.model", "--against", "m.model"], ["--against", "m.model"],
            ["m.model", "--against"], ["m.model", "--against", "folder"],
            ["folder", "--against", "m.model"], ["--jobs", "0", "m.model"], ["--jobs", "-1", "m.model"],
            ["--jobs", "two", "m.model"], ["--jobs", "", "m.model"], ["--jobs", "m.model"],
            ["m.model", "--html"], ["--"], ["--full"], ["--js", "m.model"],
        )
        for words, done in self.reports(*calls):
            with self.subTest(words):
                self.assert_told(done, 2, "^report: .+\n$")
                self.assertEqual(done.stdout, b"")

    def test_a_page_into_a_missing_folder_has_status_2(self) -> None:
        self.put("m.model", STILL)
        done = self.report("--html", "missing/page.html", "m.model")
        self.assert_told(done, 2, "^report: .*missing/page.html.*\n$")

    def test_without_python3_it_has_status_2(self) -> None:
        os.mkdir(self.folder / "bin")
        for name in ("bash", "readlink"):
            (self.folder / "bin" / name).symlink_to(str(shutil.which(name)))
        self.put("m.model", STILL)
        for words in (["m.model"], ["--help"]):
            done = self.report(*words, env={"PATH": str(self.folder / "bin")})
            self.assert_told(done, 2, "^report: python3.* is not there\n$")
            self.assertEqual(done.stdout, b"")

    def test_files_may_have_any_name(self) -> None:
        names = ["with blanks.model", "grün-µ.model", "line\nfeed.model", b"\xff\xfe bytes.model", "tab\t.model",
                 "'quoted\".model", "-dash.model", "--json", "$(x) *.model", "a,b.model", "esc\x1b[31m.model"]
        for name in names:
            self.put(name, STILL)
        done = self.report("--json", "--", *names)
        self.assert_told(done, 0)
        told = in_json(done.stdout)["models"]
        self.assertEqual([one["result"] for one in told], ["answered"] * len(names))
        self.assertEqual(len({one["name"] for one in told}), len(names))
        for one in told:
            self.assertTrue(one["name"].isprintable(), one["name"])
        rows = in_csv(self.report("--csv", "--", *names).stdout)
        self.assertEqual([row["model"] for row in rows], [one["name"] for one in told])
        text = self.report("--", *names).stdout.decode()
        self.assertEqual(text.split("\n\n")[0].count("\n"), len(names))
        for _, done in self.reports(*(["--", name] for name in names[2:8])):
            self.assert_told(done, 0)
            self.assertEqual(len(sections(done.stdout)), 1)
        # Those that are not there are told in one row each.
        done = self.report("--", *(os.fsencode(name) + b"x" for name in names))
        self.assert_told(done, 2)
        self.assertEqual(len(lines(done.stderr)), len(names))

    def test_damaged_files_are_each_answered_or_told(self) -> None:
        rng = random.Random(3)
        data = list(models.stream(31, 70))
        texts = [random_text(rng).encode() for _ in range(20)] + [RAIL.read_bytes()] * 4
        for _ in range(50):
            text = bytearray(rng.choice(texts))
            for _ in range(rng.choice((1, 1, 2, 9))):
                at = rng.randrange(len(text))
                how = rng.choice(("change", "drop", "double", "cut"))
                if how == "change":
                    text[at] = rng.choice((rng.randrange(256), *b"0123456789-~. \n#"))
                elif how == "drop":
                    del text[at : at + rng.choice((1, 2, 40))]
                elif how == "double":
                    text[at:at] = text[at : at + rng.choice((1, 5, 60))]
                elif how == "cut" and rng.random() < 0.3:
                    del text[at:]
                text = text or bytearray(b"\n")
            data.append(bytes(text))
        names = [self.put(f"{number}.x", each) for number, each in enumerate(data)]
        done = self.report("--json", *names)
        self.assert_told(done, 1)
        told = in_json(done.stdout)["models"]
        self.assertEqual([one["name"] for one in told], names)
        results = collections.Counter(one["result"] for one in told)
        self.assertEqual(set(results), {"answered", "refused"})
        self.assertGreater(min(results.values()), 25, results)
        for one, each in zip(told, data):
            if one["result"] == "refused":
                self.assertIn(one["message"], done.stderr.decode())
                self.assertTrue(one["name"] in one["message"], one)
            said = reply(each[:2048]) if each[:1] == b"\x01" or not each else ""
            if said.startswith("refused"):
                self.assertEqual((one["result"], one["said"]), ("refused", said.strip()))
            elif said:
                self.assertEqual(one["result"], "answered")
        calls = (["--plain", option, *names] for option in ("--plain", "--csv", "--full"))
        for (_, option, *_), other in self.reports(*calls):
            self.assertEqual((other.returncode, other.stderr), (1, done.stderr))
            if option == "--csv":
                self.assertEqual({row["model"] for row in in_csv(other.stdout)}, set(names))

    def test_no_model_stops_the_others(self) -> None:
        self.put("good.model", STILL)
        self.put("cut.bin", b"\x01")
        words = ["cut.bin", "good.model", "missing", "/dev/zero", "good.model", "", "/dev/null"]
        told = in_json(self.report("--json", *words).stdout)["models"]
        results = ["refused", "answered", "not run", "not run", "answered", "not run", "refused"]
        self.assertEqual([one["result"] for one in told], results)
        found = sections(self.report("--full", *words).stdout)
        self.assertEqual([section.name for section in found], ["good.model"] * 2)


class Many(Folder):
    def test_a_folder_is_taken_whole(self) -> None:
        packed = Case("", STILL.encode()).source.data
        other = Case("", REACHED.encode()).source.data
        files = {
            "top/b.model": STILL, "top/b.bin": packed,  # left out: what the text packs to
            "top/a.model": STILL, "top/a.bin": other,  # another one
            "top/alone.bin": packed, "top/notes.txt": "no model", "top/model": STILL, "top/B.MODEL": STILL,
            "top/.hidden.model": STILL, "top/.folder/m.model": STILL,
            "top/below/deep/z.model": STILL, "top/below/deep/b.bin": packed, "top/below/c.model": STILL,
            "top/wrong.model": "steps 3\n", "top/wrong.bin": packed,
            "top/dir.model/m.model": STILL,
        }
        for name, content in files.items():
            self.put(name, content)
        taken = [
            "top/a.bin", "top/a.model", "top/alone.bin", "top/b.model", "top/below/c.model",
            "top/below/deep/b.bin", "top/below/deep/z.model", "top/dir.model/m.model", "top/wrong.bin",
            "top/wrong.model",
        ]
        for word in ("top", "top/"):
            done = self.report("--json", word)
            self.assert_told(done, 1, r"^top/wrong.model:1: ")
            names = [one["name"] for one in in_json(done.stdout)["models"]]
            self.assertEqual(sorted(names), taken)
        # Sorted, in each folder: what is told does not depend on the order of the disk.
        self.assertEqual(names, sorted(names, key=lambda name: (name.count("/") > 1, name)))
        rows = table(self.report("top").stdout.decode().split("\n\n")[0].split("\n"))
        self.assertEqual(sorted(row["model"] for row in rows), taken)
        # Named by itself, a packed file is taken also where its text is there.
        told = in_json(self.report("--json", "top/b.model", "top/b.bin").stdout)["models"]
        self.assertEqual([one["name"] for one in told], ["top/b.model", "top/b.bin"])

    def test_a_row_tells_the_most_urgent_guard_of_each_model(self) -> None:
        cases = list(random_cases(5, 40, 40))
        for case in cases:
            self.put(case.name, case.data)
        words = [case.name for case in cases]
        told = in_json(self.report("--plain", "--json", *words).stdout)["models"]
        firsts = {one["name"]: [int(guard["number"]) for guard in one["guards"][:1]] for one in told}
        answers = {case.name: check_json_model(case, one, plain=True) for case, one in zip(cases, told)}
        done = self.report("--plain", *words)
        block, footer = done.stdout.decode().split("\n\n")
        self.assertRegex(footer, f"^{FOOTER.pattern}\n$")
        rows = table(block.split("\n"))
        self.assertEqual(sorted(row["model"] for row in rows), words)
        for row in rows:
            answer = answers[row.pop("model")]
            must(row.pop("guards") == guard_words(answer), row)
            above = 0
            if answer.case.written is not None:
                directions = range(len(answer.case.model.directions))
                above = sum(bool(answer.above(number)) for number in directions)
            expected = f"above {above} bound{'s' * (above > 1)}" if above else ""
            self.assertEqual(row.pop("as written"), expected)
            if not firsts[answer.case.name]:
                self.assertFalse(any(row.values()), row)
                continue
            (guard,) = firsts[answer.case.name]
            name, where = row.pop("most urgent").split(": ", 1)
            self.assertEqual(name, answer.case.guard_names[guard])
            number, level = answer.case.model.guards[guard]
            level_ = Fraction(level, answer.case.unit(number)[1])
            check_claim(answer.case, number, where, level_, exactly=True)
            check_text_verdict(answer, guard, row.pop("verdict"))
            check_text_margin(answer, guard, row.pop("margin"))
            self.assertFalse(row)

    def test_any_number_of_jobs_gives_the_same_output(self) -> None:
        cases = list(random_cases(6, 12, 12))
        names = [self.put(case.name, case.data) for case in cases]
        names += ["missing", self.put("cut.bin", b"\x01"), str(RAIL)]
        for option in ("--full", "--json", "--csv", "--plain"):
            calls = ([option, "--plain", "--jobs", jobs, *names] for jobs in ("1", "4"))
            (_, one), (_, four) = self.reports(*calls)
            self.assertEqual(one.stdout, four.stdout)
            self.assertEqual((one.stderr, one.returncode), (four.stderr, four.returncode))

    def terminal(self, *words: str | Path, **how: Any) -> tuple[int, bytes]:
        """The status, and what a terminal that is standard error is sent."""
        master, slave = pty.openpty()
        started = subprocess.Popen(
            [REPORT, *words], stdin=subprocess.DEVNULL, stderr=slave, cwd=self.folder,
            **{"stdout": subprocess.DEVNULL, **how},
        )
        os.close(slave)
        sent = b""
        try:
            while part := os.read(master, 4096):
                sent += part
        except OSError:  # the other side is closed
            pass
        os.close(master)
        with started:
            return started.wait(TIME_LIMIT), sent

    def test_progress_is_shown_on_a_terminal_and_erased(self) -> None:
        status, sent = self.terminal(EXAMPLES)
        self.assertEqual(status, 3)
        count = len(list(EXAMPLES.glob("*.model")))
        shown = sent.split(b"\r\x1b[K")
        self.assertEqual((shown[0], shown[-1]), (b"", b""), "each bar is erased, the last one too")
        for done, bar in enumerate(shown[1:-1]):
            self.assertRegex(bar, rb"^\[#*\.*\] %d of %d\b" % (done, count))
            self.assertNotIn(b"\n", bar)
        self.assertEqual(len(shown), count + 3)

    def test_progress_leaves_messages_alone(self) -> None:
        self.put("cut.bin", b"\x01")
        status, sent = self.terminal("cut.bin", "missing", EXAMPLES)
        self.assertEqual(status, 2)
        rest = re.sub(rb"[^\n]*\r\x1b\[K", b"", sent).replace(b"\r\n", b"\n")
        self.assertRegex(rest, rb"^cut.bin: refused .*\nreport: missing is not there\n$")

    def test_progress_is_not_shown_without_a_terminal(self) -> None:
        done = self.report("--plain", EXAMPLES)
        self.assertEqual((done.returncode, done.stderr), (3, b""))

    def interrupt(
        self, words: Sequence[str | Path], at_work: Callable[[int], bool], group: bool, seconds: float
    ) -> None:
        """Send SIGINT to it alone, or to all of its processes, as a terminal does, once it is at work."""
        with tempfile.TemporaryDirectory() as temporary:
            started = subprocess.Popen(
                [REPORT, *words], stdin=subprocess.PIPE, stdout=subprocess.PIPE, stderr=subprocess.PIPE,
                start_new_session=True, env={**os.environ, "TMPDIR": temporary},
            )
            end = time.monotonic() + TIME_LIMIT
            while started.poll() is None and not at_work(started.pid):
                if time.monotonic() > end:
                    os.killpg(started.pid, signal.SIGKILL)
                    started.communicate()
                    self.fail("it has not begun to work")
                time.sleep(0.003)
            time.sleep(seconds)
            self.assertIsNone(started.poll(), "it has ended before")
            (os.killpg if group else os.kill)(started.pid, signal.SIGINT)
            try:
                out, err = started.communicate(timeout=4)
            except subprocess.TimeoutExpired:
                os.killpg(started.pid, signal.SIGKILL)
                started.communicate()
                self.fail("it has not ended")
            self.assertEqual((started.returncode, out), (130, b""), err)
            self.assertNotIn(b"Traceback", err)
            self.assertLessEqual(len(lines(err)), 1)
            self.assertEqual(os.listdir(temporary), [])

    def test_an_interrupt_ends_it_while_it_reads(self) -> None:
        for group in (False, True):
            self.interrupt(["-"], reads, group, 0.1)

    def test_an_interrupt_ends_it_while_it_works(self) -> None:
        # Where several processes work, it may come at many moments.
        rng = random.Random(2)
        tried = [(jobs, rng.random() < 0.5, rng.uniform(0, 0.5)) for jobs in ("1", *["4"] * 7)]

        def one(jobs: str, group: bool, seconds: float) -> None:
            self.interrupt(["--jobs", jobs, *[EXAMPLES] * 60], works, group, seconds)

        with ThreadPoolExecutor(2) as pool:
            list(pool.map(one, *zip(*tried)))


class Against(Folder):
    """What changed from another model."""

    OLD = """coordinates rail current
steps 20
time 0.5 ms
unit rail mV
unit current mA 4
row ~0.7 0.125
row 0.0625 0.5
initial box
  lower 0 0
  upper 100 60
input box
  lower -20 -5
  upper 30 10
direction highest 1 0
direction lowest -1 0
direction flow 0 1
direction gone 1 1
guard highest 150 limit
guard highest 90
guard lowest 400 floor
guard flow 1000 trips
guard gone 5 only-old
"""
    NEW = (
        OLD.replace("upper 30 10", "upper 55 10").replace("direction gone 1 1", "direction come 1 -1")
        .replace("guard gone 5 only-old", "guard come 500 only-new").replace("guard flow 1000 trips", "guard flow 90 trips")
    )

    def both(self) -> tuple[Case, Case]:
        return self.put_case("new.model", self.NEW), self.put_case("old.model", self.OLD)

    def figures(self, case: Case) -> tuple[dict[str, Any], dict[str, Any]]:
        """The printed directions and guards of a model alone, by name."""
        (model,) = in_json(self.report("--json", case.name).stdout)["models"]
        guards = {case.guard_names[int(one["number"])]: one for one in model["guards"]}
        return {one["name"]: one for one in model["directions"]}, guards

    def test_changes_are_the_differences_of_the_printed_figures(self) -> None:
        new, old = self.both()
        (new_directions, new_guards), (old_directions, old_guards) = self.figures(new), self.figures(old)
        done = self.report("--json", new.name, "--against", old.name)
        told = in_json(done.stdout)
        self.assertEqual([one["name"] for one in told["models"]], [new.name, old.name])
        for one, case in zip(told["models"], (new, old)):
            check_json_model(case, one)
        changes = told["changes"]
        self.assertEqual((changes["old"], changes["new"]), (old.name, new.name))
        self.assertEqual({one["name"] for one in changes["directions"]}, {*new_directions, *old_directions})
        for one in changes["directions"]:
            before, now = old_directions.get(one["name"]), new_directions.get(one["name"])
            self.compare(one, "bound", before and before["peak"]["bound"], now and now["peak"]["bound"])
            self.assertEqual(one["old_bound_step"], before and before["peak"]["step"])
            self.assertEqual(one["new_bound_step"], now and now["peak"]["step"])
        self.assertEqual(len(changes["guards"]), len({*new_guards, *old_guards}))
        for one in changes["guards"]:
            name = one["name"] or "guard 1"
            before, now = old_guards.get(name), new_guards.get(name)
            self.compare(one, "margin", before and before["margin_least"], now and now["margin_least"])
            for end, guard in (("old", before), ("new", now)):
                self.assertEqual(one[f"{end}_verdict"], guard and guard["verdict"])
                self.assertEqual(one[f"{end}_verdict_step"], guard and guard["step"])
                self.assertEqual(one[f"{end}_level"], guard and guard["level"])
        self.assertTrue(any(one["bound_change"] for one in changes["directions"]))
        self.assertTrue(any(one["margin_change"] for one in changes["guards"]))

    def compare(self, change: dict[str, Any], what: str, old: Any, new: Any) -> None:
        self.assertEqual((change[f"old_{what}"], change[f"new_{what}"]), (old, new), change)
        expected = None if old is None or new is None else new - old
        self.assertEqual(change[f"{what}_change"], expected, change)

    def test_the_text_and_csv_tell_the_same_changes(self) -> None:
        new, old = self.both()
        changes = in_json(self.report("--json", new.name, "--against", old.name).stdout)["changes"]
        rows = in_csv(self.report("--csv", new.name, "--against", old.name).stdout)
        self.assertEqual(len(rows), len(changes["directions"]) + len(changes["guards"]))
        by_name = {(row["direction"], row["guard"]): row for row in rows}

        def same(text: str, value: Any) -> None:
            self.assertEqual(Printed(text) if text else None, value)

        for one in changes["directions"]:
            row = by_name[one["name"], ""]
            for column in ("old_bound", "new_bound", "bound_change", "old_bound_step",
                           "new_bound_step"):
                same(row[column], one[column])
            units = ["" if one[f"{end}_bound"] is None else one[f"{end}_unit"] or "counts"
                     for end in ("old", "new")]
            self.assertEqual([row["old_unit"], row["new_unit"]], units)
        for one in changes["guards"]:
            row = by_name[one["direction"], one["name"] or "guard 1"]
            for column in ("old_margin", "new_margin", "margin_change", "old_verdict_step",
                           "new_verdict_step", "old_level", "new_level"):
                same(row[column], one[column])
            self.assertEqual((row["old_verdict"], row["new_verdict"]),
                             (one["old_verdict"] or "", one["new_verdict"] or ""))
        done = self.report(new.name, "--against", old.name)
        head, guards, directions, rest = done.stdout.decode().split("\n\n")
        self.assertRegex(head, rf"^{new.name} against {old.name}\nwas: 2 coord.*\nis:  2 coord.*$")
        self.assertRegex(rest, FOOTER.pattern + "\n$")
        self.check_text(directions, {one["name"]: one for one in changes["directions"]}, "bound")
        self.check_text(guards, {one["name"] or "guard 1": one for one in changes["guards"]}, "margin")

    def check_text(self, block: str, changes: dict[str, Any], what: str) -> None:
        """A table of changes, whose two columns `is` have one heading, by where its figures stand."""
        heading, *rows = block.split("\n")
        self.assertEqual(len(rows), len(changes))
        for row in rows:
            name = next(name for name in changes if row.startswith(name + " "))
            change = changes.pop(name)
            numbers = re.findall(rf"(?<![\w(.-])({NUMBER})(?![\w.)]| \w*\))", row.replace("guard 1", ""))
            old, new, difference = (change[f"{key}"] for key in (f"old_{what}", f"new_{what}", f"{what}_change"))
            told = [value for value in (old, new) if value is not None]
            told += [difference] if difference else []
            if what == "margin":
                verdicts = [change[f"{end}_verdict"] for end in ("old", "new")]
                self.assertEqual(re.findall(r"HIT|CLEAR|UNKNOWN|not there", row), [word or "not there" for word in verdicts])
            figures = [Printed(number) for number in numbers]
            for value in told:
                self.assertIn(value, figures, row)
            self.assertEqual(bool(re.search(r"  same(  |$)", row)), difference == 0, row)

    def test_what_is_in_one_model_only_is_told(self) -> None:
        new, old = self.both()
        text = self.report(new.name, "--against", old.name).stdout.decode()
        for name in ("only-new", "only-old"):
            self.assertRegex(text, rf"\n{name} .*not there")
        for name in ("come", "gone"):
            self.assertRegex(text, rf"\n{name} .*not there")

    def test_a_model_against_itself_has_no_change(self) -> None:
        new, _ = self.both()
        changes = in_json(self.report("--json", new.name, "--against", new.name).stdout)["changes"]
        self.assertEqual({one["bound_change"] for one in changes["directions"]}, {0})
        self.assertEqual({one["margin_change"] for one in changes["guards"]}, {0})

    def test_a_packed_file_against_its_text_takes_the_names(self) -> None:
        case = self.put_case("m.model", self.OLD)
        self.put("m.bin", case.source.data)
        for words in (["m.bin", "--against", "m.model"], ["m.model", "--against", "m.bin"]):
            told = in_json(self.report("--json", *words).stdout)
            changes = told["changes"]
            names = {one["name"] for one in changes["directions"]}
            self.assertEqual(names, set(case.source.directions))
            self.assertEqual({one["name"] or "guard 1" for one in changes["guards"]}, set(case.guard_names))
            for key in ("old_unit", "new_unit"):
                units = {one[key] for one in changes["directions"]}
                self.assertEqual(units, {"mV", "mA", None})
            for one in (*changes["directions"], *changes["guards"]):
                self.assertEqual(one.get("bound_change", one.get("margin_change")), 0, one)
            text = self.report(*words).stdout.decode()
            self.assertNotIn("not there", text)
            for name in ("highest", "limit", "floor", "trips"):
                self.assertRegex(text, rf"\n{name} ")

    def test_each_figure_has_its_own_unit(self) -> None:
        text = NO_GUARD + "guard largest 40\nunit largest "
        self.put("new.model", text + "mV\n")
        self.put("old.model", text + "°C 16\n")
        words = "new.model", "--against", "old.model"
        changes = in_json(self.report("--json", *words).stdout)["changes"]
        for (one,), what in ((changes["directions"], "bound"), (changes["guards"], "margin")):
            self.assertEqual((one["old_unit"], one["new_unit"]), ("°C", "mV"))
            self.assertEqual(one[f"old_{what}"] * 16, one[f"new_{what}"])
            self.assertIsNone(one[f"{what}_change"])
        self.assertRegex(self.report(*words).stdout.decode(), r"\nlargest .* not comparable +°C → mV ")

    def test_a_guard_that_is_reached_as_written_is_not_clear(self) -> None:
        level = math.floor(max(Case("", FED.encode()).written[0]))
        self.put("new.model", FED + f"guard largest {level}\n")
        self.put("old.model", FED + f"guard largest {2 * level}\n")
        words = "new.model", "--against", "old.model"
        (guard,) = in_json(self.report("--json", *words).stdout)["changes"]["guards"]
        self.assertEqual((guard["old_verdict"], guard["new_verdict"]), (CLEAR, CLEAR))
        self.assertEqual((guard["old_clear"], guard["new_clear"]), (True, False))
        row = in_csv(self.report("--csv", *words).stdout)[-1]
        self.assertEqual((row["old_clear"], row["new_clear"]), ("yes", "no"))
        self.assertIn(AS_WRITTEN, self.report(*words).stdout.decode())

    def test_a_direction_that_was_renamed_goes_by_its_entries(self) -> None:
        new = self.put_case("new.model", self.OLD.replace("highest", "top"))
        old = self.put_case("old.model", self.OLD)
        changes = in_json(self.report("--json", new.name, "--against", old.name).stdout)["changes"]
        self.assertEqual([one["bound_change"] for one in changes["directions"]], [0] * 4)

    def test_growth_that_comes_or_goes_has_no_figures(self) -> None:
        growing = STILL.replace("row 0.5", "row 2").replace("steps 3", "steps 40")
        self.put("grows.model", growing)
        self.put("still.model", STILL)
        pairs = ("grows.model", "still.model"), ("still.model", "grows.model"), ("grows.model", "grows.model")
        calls = (["--json", new, "--against", old] for new, old in pairs)
        for (_, new, _, old), done in self.reports(*calls):
            (direction,), (guard,) = (in_json(done.stdout)["changes"][key] for key in ("directions", "guards"))
            self.assertIsNone(direction["bound_change"])
            self.assertIsNone(guard["margin_change"])
            words = tuple(GROWTH if "grows" in name else CLEAR for name in (old, new))
            self.assertEqual((guard["old_verdict"], guard["new_verdict"]), words)
        self.assertIn("GROWTH at step", self.report(*pairs[0][:1], "--against", pairs[0][1]).stdout.decode())


class Names(Folder):
    """The keys of JSON and the columns of CSV stay."""

    COLUMNS = (
        "model,result,direction,unit,factor,bound,bound_step,bound_time,slack,growth_step,"
        "largest_as_written,above_largest_bound,most_above_bound,guard,level,verdict,verdict_step,"
        "verdict_time,margin_least,margin_most,margin_as_written,reached_as_written_step,clear,"
        "time_unit,message"
    )
    CHANGE_COLUMNS = (
        "direction,guard,old_unit,new_unit,old_bound,new_bound,bound_change,old_bound_step,"
        "new_bound_step,old_level,new_level,old_margin,new_margin,margin_change,old_verdict,"
        "new_verdict,old_verdict_step,new_verdict_step,old_clear,new_clear"
    )
    KEYS = {
        "": "format format_version program_version status models changes",
        "models": "name result status sha256 packed_sha256 coordinates steps time_of_step time_unit plain"
        " notes guards directions",
        "refused": "name result status said message",
        "guards": "name number direction level level_counts verdict step time margin_least margin_most"
        " margin_as_written reached_as_written reached_as_written_step clear",
        "directions": "name number entries unit counts_per_unit factor growth_step peak as_written bounds"
        " slacks proved",
        "peak": "step time bound slack",
        "as_written": "step time largest above_largest_bound steps_above_bound most_above_bound"
        " most_above_bound_step values",
        "proved": "spare bounds slacks",
        "changes": "old new directions guards",
        "changed directions": "name old_unit new_unit old_bound new_bound bound_change"
        " old_bound_step new_bound_step",
        "changed guards": "name direction old_unit new_unit old_number new_number old_level"
        " new_level old_verdict new_verdict old_verdict_step new_verdict_step old_clear new_clear"
        " old_margin new_margin margin_change",
    }

    def test_the_columns_of_csv(self) -> None:
        self.put("m.model", FED + "guard largest 5\n")
        self.assertEqual(lines(self.report("--csv", "m.model").stdout)[0], self.COLUMNS)
        self.assertEqual(lines(self.report("--csv", "missing").stdout)[0], self.COLUMNS)
        told = lines(self.report("--csv", "m.model", "--against", "m.model").stdout)
        self.assertEqual(told[0], self.CHANGE_COLUMNS)

    def test_the_keys_of_json(self) -> None:
        self.put("m.model", FED + "guard largest 5\n")
        self.put("cut.bin", b"\x01")
        told = in_json(self.report("--json", "m.model", "--against", "m.model").stdout)
        (model, _), changes = told["models"], told["changes"]
        refused, missing = in_json(self.report("--json", "cut.bin", "missing").stdout)["models"]
        found = {
            "": told, "models": model, "refused": refused, "guards": model["guards"][0],
            "directions": model["directions"][0], "changes": changes,
            "changed directions": changes["directions"][0], "changed guards": changes["guards"][0],
            **{key: model["directions"][0][key] for key in ("peak", "as_written", "proved")},
        }
        for part, keys in self.KEYS.items():
            self.assertEqual(list(found[part]), keys.split(), part)
        self.assertEqual(list(missing), list(refused))
        self.assertEqual((told["format"], told["format_version"]), ("pepperscarp-report", 2))
        alone = in_json(self.report("--json", "m.model").stdout)
        self.assertEqual(list(alone), self.KEYS[""].split()[:-1])


class Clone(Folder):
    """A small clone, whose `rt` only notes that it was called."""

    def setUp(self) -> None:
        super().setUp()
        self.clone, self.bin = self.folder / "clone", self.folder / "bin"
        for folder in (self.clone, self.bin, self.clone / "target" / "bin"):
            folder.mkdir(parents=True)
        for name in ("run", "report", "VERSION", "crates.txt"):
            shutil.copy(ROOT / name, self.clone / name)
        shutil.copytree(ROOT / "tools", self.clone / "tools", ignore=shutil.ignore_patterns("__pycache__", "tests"))
        for crate in [path.name for path in (ROOT / "crates").iterdir()]:
            (self.clone / "crates" / crate / "src").mkdir(parents=True)
        self.program = self.clone / "target" / "bin" / "envelope"
        shutil.copy(PROGRAM, self.program)
        self.put("m.model", REACHED)
        self.put("wrong.model", "steps 3\n")

    def rt(self, last: str) -> None:
        file = self.bin / "rt"
        file.write_text(f"#!/usr/bin/env bash\necho called >> '{self.folder}/calls'\n{last}\n")
        file.chmod(0o755)

    def calls(self) -> int:
        calls = self.folder / "calls"
        return len(calls.read_text().splitlines()) if calls.exists() else 0

    def run_clone(self, *words: str | Path, **how: Any) -> Done:
        path = f"{self.bin}:{os.environ['PATH']}"
        return self.report(*words, command=[self.clone / "report"], env={"PATH": path}, **how)

    def test_the_program_is_built_where_it_is_missing(self) -> None:
        self.rt(f"mkdir -p out && cp '{PROGRAM}' out/envelope")
        self.assert_told(self.run_clone("m.model"), 3)
        self.assertEqual(self.calls(), 0)
        self.program.unlink()
        self.assert_told(self.run_clone("m.model", "m.model", "wrong.model"), 1, "run: proving and building")
        self.assertEqual(self.calls(), 1)

    def test_without_program_and_rt_it_has_status_2(self) -> None:
        self.program.unlink()
        commands = "awk bash find flock head mkdir mkfifo mktemp od readlink rm sed tac touch wc python3".split()
        for name in commands:
            (self.bin / name).symlink_to(str(shutil.which(name)))
        how = {"command": [self.clone / "report"], "env": {"PATH": str(self.bin)}}
        for options in ([], ["--json"]):
            done = self.report(*options, "m.model", **how)
            self.assert_told(done, 2, r"\(rt\) is not there")
        self.assert_told(self.report("wrong.model", **how), 1, "^wrong.model:1: ")

    def test_a_failed_build_has_status_2(self) -> None:
        self.program.unlink()
        self.rt("echo 'src/lib.rt:3: error' >&2; exit 1")
        self.assert_told(self.run_clone("m.model"), 2, "could not be built")

    def test_a_wrong_text_needs_no_build(self) -> None:
        self.program.unlink()
        self.rt("exit 1")
        self.assert_told(self.run_clone("wrong.model"), 1, "^wrong.model:1: ")
        self.assert_told(self.run_clone("missing.model"), 2, "^report: missing.model is not there")
        self.assert_told(self.run_clone("--help"), 0)
        self.assertEqual(self.calls(), 0)

    def test_a_program_that_fails_has_status_2(self) -> None:
        for text in ("exit 3", "echo what", ":", "kill -SEGV $$", "echo model 1 3"):
            self.program.write_text(f"#!/bin/sh\n{text}\n")
            with self.subTest(text):
                done = self.run_clone("m.model")
                self.assert_told(done, 2, "^(run: .+\n)?report: .+\n$")
                self.assertEqual(done.stdout, b"")

    def test_it_works_from_any_directory_and_through_links(self) -> None:
        (self.bin / "answer").symlink_to(self.clone / "report")
        (self.folder / "relative").symlink_to("bin/answer")
        path = f"{self.bin}:{os.environ['PATH']}"
        expected = self.run_clone("m.model").stdout
        for command in ("answer", "./relative", "clone/report", "bash clone/report"):
            with self.subTest(command):
                done = self.report("-c", f"{command} m.model", command=["bash"], env={"PATH": path})
                self.assertEqual((done.returncode, done.stdout, done.stderr), (3, expected, b""))
        done = finished(self.folder / "m.model", command=[self.folder / "relative"], cwd="/")
        self.assertEqual(done.returncode, 3)

    def test_the_folder_of_the_clone_may_have_any_name(self) -> None:
        moved = self.clone.rename(self.folder / "a clone's *")
        self.assertEqual(self.report("m.model", command=[moved / "report"]).returncode, 3)


class Checks(unittest.TestCase):
    """The checks of this file find a wrong figure of each kind."""

    @classmethod
    def setUpClass(cls) -> None:
        cls.case = Case("standard input", RAIL.read_bytes() + b"guard highest 24639 at\n")
        words = [["--plain", option, "-"] for option in ("--json", "--csv", "--full")]
        cls.json, cls.csv, cls.text = (one.stdout for one in finished_all(words, data=cls.case.data))

    def model(self) -> dict[str, Any]:
        return in_json(self.json)["models"][0]

    def assert_found(self, change: Callable[[dict[str, Any]], None]) -> None:
        told = self.model()
        change(told)
        self.assertNotEqual(told, self.model(), "nothing was changed")
        with self.assertRaises((AssertionError, KeyError, ValueError)):
            check_json_model(self.case, told, plain=True)

    def numbers(self, told: Any, place: tuple[Any, ...] = ()) -> Iterator[tuple[Any, ...]]:
        """Where numbers stand."""
        items = told.items() if isinstance(told, dict) else enumerate(told) if isinstance(told, list) else ()
        for key, value in items:
            if isinstance(value, Printed):
                yield (*place, key)
            yield from self.numbers(value, (*place, key))

    def test_the_model_itself_passes(self) -> None:
        answer = check_json_model(self.case, self.model(), plain=True)
        self.assertEqual({answer.word(guard) for guard in range(9)}, {HIT, UNKNOWN, CLEAR})

    def test_every_number_of_json_that_is_one_too_large_or_too_small_is_found(self) -> None:
        rng = random.Random(1)
        places = list(self.numbers(self.model()))
        kinds = collections.defaultdict(list)
        for place in places:
            kinds[tuple(key for key in place if isinstance(key, str))].append(place)
        self.assertGreater(len(kinds), 25)
        for kind, same in kinds.items():
            for place in rng.sample(same, min(len(same), 2)):
                for change in (1, -1):
                    def changed(told: dict[str, Any]) -> None:
                        *way, last = place
                        for key in way:
                            told = told[key]
                        old = told[last]
                        step = change * (old.last if old.decimals else 1)
                        told[last] = Printed(f"{float(old + step):.{old.decimals}f}")

                    with self.subTest(f"{kind} {place} {change}"):
                        self.assert_found(changed)

    def test_a_word_that_is_wrong_is_found(self) -> None:
        for key, value in (("verdict", CLEAR), ("verdict", HIT), ("clear", True), ("reached_as_written", False),
                           ("direction", "current"), ("name", "other")):
            with self.subTest(key):
                guard = next(i for i, one in enumerate(self.model()["guards"]) if one["verdict"] == UNKNOWN)
                self.assert_found(lambda told: told["guards"][guard].update({key: value}))
        self.assert_found(lambda told: told["guards"].reverse())
        self.assert_found(lambda told: told.update(more=1))
        self.assert_found(lambda told: told["notes"].clear())

    def test_every_number_of_the_text_that_is_wrong_is_found(self) -> None:
        text = self.text.decode()
        answer = check_json_model(self.case, self.model(), plain=True)
        (section,) = sections(text.encode())
        check_text_model(answer, section)
        body = text[: FOOTER.search(text).start()]
        note = body.index("note: ")  # of which only the count is tried
        found = 0
        for place in re.finditer(r"\d", body):
            at = place.start()
            if at > note and not body.startswith("note: 5", at - 6):
                continue
            digit = str((int(body[at]) + 1) % 10)
            wrong = text[:at] + digit + text[at + 1 :]
            with self.subTest(body[max(at - 30, 0) : at + 12]):
                with self.assertRaises((AssertionError, ValueError, KeyError)):
                    (section,) = sections(wrong.encode())
                    check_text_model(answer, section)
                found += 1
        self.assertGreater(found, 150)

    def test_every_number_of_csv_that_is_wrong_is_found(self) -> None:
        rows = in_csv(self.csv)
        answer = check_json_model(self.case, self.model(), plain=True)
        check_csv_model(answer, rows)
        found = collections.Counter()
        for index, row in enumerate(rows):
            for column, value in row.items():
                if re.fullmatch(r"-?[\d.]+", value):
                    changed = value[:-1] + str((int(value[-1]) + 1) % 10)
                    wrong = [dict(each) for each in rows]
                    wrong[index][column] = changed
                    with self.subTest(f"{column} {value}"), self.assertRaises((AssertionError, ValueError)):
                        check_csv_model(answer, wrong)
                    found[column] += 1
        columns = {"factor", "bound", "bound_step", "bound_time", "slack", "largest_as_written", "level", "verdict_step",
                   "verdict_time", "margin_least", "margin_most", "margin_as_written",
                   "reached_as_written_step"}
        self.assertEqual(set(found), columns)

    def test_a_claim_that_is_wrong_is_found(self) -> None:
        for number, told, good in (
            (0, "rail ≥ 21,504 mV", True), (0, "rail ≥ 21,516 mV", False), (0, "rail ≤ 21,504 mV", False),
            (0, "current ≥ 21,504 mV", False), (0, "rail ≥ 21,504 mA", False), (0, "-rail ≤ -21,504 mV", False),
            (0, "lowest ≤ -21,504 mV", False), (1, "rail ≤ 24,640 mV", True), (1, "rail ≤ 24,639 mV", False),
            (1, "2 rail ≤ 60,000 mV", False), (1, "rail + current ≤ 60,000 mV", False),
        ):
            with self.subTest(told):
                if good:
                    check_claim(self.case, number, told, None, exactly=False)
                else:
                    with self.assertRaises((AssertionError, KeyError)):
                        check_claim(self.case, number, told, None, exactly=False)

    def test_a_level_with_the_sign_of_a_bound_is_found(self) -> None:
        for number, told, level, good in (
            (0, "rail < 22,800 mV", -22_800, True), (0, "rail ≤ 22,800 mV", -22_800, False),
            (0, "rail > 22,800 mV", -22_800, False), (0, "rail < 22,801 mV", -22_800, False),
            (1, "rail > 24,600 mV", 24_600, True), (1, "rail ≥ 24,600 mV", 24_600, False),
            (1, "rail < 24,600 mV", 24_600, False),
        ):
            with self.subTest(told):
                if good:
                    check_claim(self.case, number, told, Fraction(level), exactly=True)
                else:
                    with self.assertRaises(AssertionError):
                        check_claim(self.case, number, told, Fraction(level), exactly=True)

    def test_a_guard_at_its_level_that_is_told_as_reached_is_found(self) -> None:
        case = Case("standard input", (NO_GUARD + "guard largest 8 at\n").encode())
        done = finished("--json", "-", data=case.data)
        self.assertEqual(done.returncode, 0)
        answer = check_json_model(case, in_json(done.stdout)["models"][0])
        check_text_margin(answer, 0, "clear by 0 counts")
        for margin in ("reached", "passed by 0 counts", "between 0 short and 0 counts past"):
            with self.subTest(margin), self.assertRaises(AssertionError):
                check_text_margin(answer, 0, margin)
        for changes in ({"verdict": HIT, "step": Printed("0")}, {"verdict": UNKNOWN, "step": Printed("0")},
                        {"clear": False}):
            (told,) = in_json(done.stdout)["models"]
            told["guards"][0].update(changes)
            with self.subTest(changes), self.assertRaises(AssertionError):
                check_json_model(case, told)
        # A program that had the other rule would be found too.
        for said in (Verdict(HIT, 0), Verdict(UNKNOWN, 0)):
            (told,) = in_json(done.stdout)["models"]
            told["guards"][0].update(verdict=said.word, step=Printed("0"), clear=False)
            told["status"] = Printed("3")
            wrong = replace(answer.listing, guards=(said,))
            with (self.subTest(said), mock.patch.object(Case, "multiplied", lambda *_: wrong),
                  self.assertRaisesRegex(AssertionError, "another rule")):
                check_json_model(case, told)

    def test_the_exact_values_as_written_are_those_of_two_ways(self) -> None:
        # Of a stored matrix they are those of the exact program.
        for case in random_cases(9, 40, 0):
            matrix = [[Fraction(entry, MATRIX_UNIT) for entry in row] for row in case.model.matrix]
            self.assertEqual(largest_values(case.model, matrix), case.values)
        # By hand: 1 and then 0.3, 0.09.
        text = "coordinates 1\nsteps 2\nrow ~0.3\ninitial box\nlower 0\nupper 1\ndirection d 1\n"
        self.assertEqual(Case("", text.encode()).written, [[1, Fraction(3, 10), Fraction(9, 100)]])


def tearDownModule() -> None:
    told = ", ".join(f"{count:,} {what}" for what, count in COUNTED.items())
    print(f"checked: {told}", file=sys.stderr)


if __name__ == "__main__":
    unittest.main()
