#!/usr/bin/env python3
"""Test the command `pepperscarp changed`, as a user's shell would.

    changed.py

What was said of a guard before version 0.8.0, and what is said now, is worked out here by a rule of
its own for each: from the sweeps of the exact program, of each direction as it is and times its
largest factor, and from the exact largest values of the matrix as written (`claims`). Tests are made
in small clones with the built program, target/bin/envelope, and fail where there is none. Nothing is
proved (`clones`).
"""

from __future__ import annotations

import collections
import itertools
import math
import os
import pty
import random
import re
import shutil
import signal
import subprocess
import unittest
from dataclasses import replace
from fractions import Fraction
from functools import cached_property
from typing import Iterable, Iterator, NamedTuple, Sequence

from claims import FED, STILL, Case, first_at, in_csv, in_json, listed, random_cases
from clones import EXAMPLES, SAMPLE, TIME_LIMIT, heed_signals, script, until
from command import CUT, CUT_TOLD, WRONG, Command, Done

import exact
from layout import (
    BOX, MAX_DIRECTION_ENTRY, MAX_GUARDS, MAX_LEVEL, MIN_LEVEL, Model, Set, encode, fitted_rows_of,
    states_input,
)
from listings import CLEAR, GROWTH, HIT, UNKNOWN, Growth, Sweep

PACKED_MODELS, TEXTS, SHARES = 20, 25, 40  # random ones
AS_WRITTEN = "REACHED AS WRITTEN"
# All the ways in which a verdict can change, to a later step or to another word.
LISTING_WAYS = {(HIT, HIT), (HIT, UNKNOWN), (HIT, CLEAR), (UNKNOWN, UNKNOWN), (UNKNOWN, CLEAR)}
REPORT_WAYS = LISTING_WAYS | {
    (HIT, AS_WRITTEN), (UNKNOWN, AS_WRITTEN), (AS_WRITTEN, AS_WRITTEN), (AS_WRITTEN, CLEAR),
}
KEEPS = "With the level to keep, the listing has the verdict of versions 0.4.0 to 0.7.2; see --help.\n"
VERDICTS = (EXAMPLES / "verdicts.model").read_text()
# From step 1 on x is a share of y, which stays. 65,536 times 0.7 is 45,875.2, so that less is stored.
SHARE = """coordinates x y
steps 2
row {back} ~{part}
row 0 1
initial box
  lower 0 0
  upper 0 {of}
direction largest 1 0
"""


def share(of: int, *levels: int, part: str = "0.7", back: str = "0") -> str:
    """A text with guards, whose largest value as written is 0, and then `part` of a number.

    At step 2 `back` of what x was at step 1 is added.
    """
    text = SHARE.format(back=back, part=part, of=of)
    return text + "".join(f"guard largest {level}\n" for level in levels)


def setUpModule() -> None:
    heed_signals()


# What is true


def reaches(value: Fraction | int, level: int, old: bool) -> bool:
    """Whether a value reaches a level, by Verdicts 1 before version 0.8.0 or since then."""
    return value >= level if old else value > level


def verdict(swept: Sweep | Growth, level: int, old: bool) -> str:
    """What a listing says of a guard by one of the two rules."""
    if isinstance(swept, Growth):
        return f"{GROWTH} {swept.step}"
    lows = [bound - slack for bound, slack in zip(swept.bounds, swept.slacks)]
    for word, values in ((HIT, lows), (UNKNOWN, swept.bounds)):
        step = first_at(values, lambda value: reaches(value, level, old))
        if step is not None:
            return f"{word} {step}"
    return CLEAR


class Said(NamedTuple):
    """What is said of a guard in the listing and in the report, by the old rule and the new one."""

    old_listing: str
    new_listing: str
    old_report: str
    new_report: str

    @property
    def changes(self) -> tuple[bool, bool]:
        """Whether the listing changes, and the report."""
        return self.old_listing != self.new_listing, self.old_report != self.new_report


def ways(saids: Iterable[Said]) -> tuple[set[tuple[str, str]], set[tuple[str, str]]]:
    """The ways in which verdicts change in the listing and in the report: the words of before and now."""
    found: tuple[set[tuple[str, str]], set[tuple[str, str]]] = (set(), set())
    for said in saids:
        for pair, seen in zip((said[:2], said[2:]), found):
            if pair[0] != pair[1]:
                seen.add(tuple(each.rstrip(" 0123456789") for each in pair))
    return found


class Judged(Case):
    """A model file with what is said of its guards."""

    @cached_property
    def sweeps(self) -> list[Sweep | Growth]:
        return [exact.sweep(self.model, direction) for direction in self.model.directions]

    @cached_property
    def sharp(self) -> list[tuple[int, Sweep | Growth]]:
        """Of each direction its largest factor, and the sweep of the direction times it."""
        found = []
        for direction in self.model.directions:
            most = MAX_DIRECTION_ENTRY // max(map(abs, direction))
            for factor in (*range(most, 0, -1), 1):
                swept = exact.sweep(self.model, tuple(factor * entry for entry in direction))
                if isinstance(swept, Sweep):
                    break
            found.append((factor, swept))
        return found

    def said(self, guard: int) -> Said:
        number, level = self.model.guards[guard]
        factor, sharp = self.sharp[number]
        pairs = []
        for old in (True, False):
            listing, report = verdict(self.sweeps[number], level, old), verdict(sharp, factor * level, old)
            if report == CLEAR and self.written is not None:
                step = first_at(self.written[number], lambda value: reaches(value, level, old))
                report = CLEAR if step is None else f"{AS_WRITTEN} {step}"
            pairs.append((listing, report))
        return Said(*itertools.chain(*zip(*pairs)))

    @cached_property
    def changed(self) -> dict[int, Said]:
        """The guards whose verdict changes, by number."""
        said = {guard: self.said(guard) for guard in range(len(self.model.guards))}
        return {guard: each for guard, each in said.items() if any(each.changes)}

    def rows(self) -> list[dict[str, str]]:
        """The rows of CSV that are expected."""
        found = []
        for guard, said in self.changed.items():
            number, level = self.model.guards[guard]
            unit, counts = self.unit(number)
            row = {
                "model": self.name, "guard": self.guard_names[guard], "number": str(guard),
                "direction": self.source.directions[number], "unit": unit or "counts",
                "level": shown(Fraction(level, counts)).replace(",", ""), "level_counts": str(level),
                "level_counts_to_keep": str(level - 1),
            }
            for name, each in said._asdict().items():
                row[name], _, row[f"{name}_step"] = re.fullmatch(r"(\D+?)( (\d+))?", each).groups("")
            found.append(row)
        return found

    def text(self) -> list[str]:
        """The rows of the text that are expected, with one blank between cells; none where nothing changes."""
        units = any(self.unit(self.model.guards[guard][0])[0] for guard in self.changed)
        unit = "in its unit " * units
        rows = [self.name, f"guard direction level {unit}listing was is report was is level to keep"]
        for guard, said in self.changed.items():
            number, level = self.model.guards[guard]
            name, counts = self.unit(number)
            in_unit = f"{shown(Fraction(level, counts))} {name} " if name else ""
            rows.append(f"{self.guard_names[guard]} {self.source.directions[number]} {level} {in_unit}"
                        f"{' '.join(said)} {level - 1}")
        return [*rows, ""] if self.changed else []


def shown(value: Fraction) -> str:
    """An exact number as a report writes it."""
    places = next((k for k in range(100) if 10**k % value.denominator == 0), None)
    if places is None:
        return f"{value.numerator:,}/{value.denominator:,}"
    whole, rest = divmod(abs(value.numerator) * 10**places // value.denominator, 10**places)
    return "-" * (value < 0) + f"{whole:,}" + (f".{rest:0{places}}" if places else "")


def summary(cases: Sequence[Judged], failed: int = 0) -> str:
    """The last row."""
    guards, changed = sum(len(case.model.guards) for case in cases), sum(len(case.changed) for case in cases)
    count = f"{changed} of {guards}, in {sum(bool(case.changed) for case in cases)} of"
    told = f"{count if changed else f'none of {guards}, in'} {len(cases)} {'model' if len(cases) == 1 else 'models'}"
    return f"guards whose verdict changed: {told}" + f"; not checked: {failed}" * bool(failed)


def expected(cases: Sequence[Judged], failed: int = 0) -> str:
    """The whole text, with one blank between cells."""
    rows = [row for case in cases for row in case.text()]
    return "\n".join(rows) + "\n" * bool(rows) + KEEPS * bool(rows) + summary(cases, failed) + "\n"


# Random models with guards that matter


def near(rng: random.Random, case: Judged, number: int) -> int:
    """A level at what is compared with it, or one count beside that; now and then at an end of 64 bits."""
    exact_values, written = case.values[number], (case.written or case.values)[number]
    kinds = [[max(exact_values), max(written), rng.choice(written)]]
    for factor, swept in ((1, case.sweeps[number]), case.sharp[number]):
        if isinstance(swept, Sweep):
            pairs = list(zip(swept.bounds, swept.slacks))
            chosen = max(pairs), rng.choice(pairs)
            kinds.append([Fraction(each, factor) for bound, slack in chosen for each in (bound, bound - slack)])
    values = rng.choice(kinds)
    whole = [value for value in values if value.denominator == 1]
    level = math.floor(rng.choice(whole or values)) + rng.choice((-1, 0, 0, 0, 1))
    return rng.choice((MIN_LEVEL, MAX_LEVEL)) if rng.random() < 0.03 else level


def guarded(rng: random.Random, case: Case) -> Judged:
    """A model with other guards."""
    case = Judged(case.name, case.data)
    directions = range(len(case.model.directions))
    numbers = [rng.choice(directions) for _ in range(rng.choice((1, 3, 6, MAX_GUARDS)))]
    guards = tuple((number, near(rng, case, number)) for number in numbers)
    if case.data[:1] == b"\x01":
        fitted, model = fitted_rows_of(case.data, case.model.n), replace(case.model, guards=guards)
        return Judged(case.name, encode(model, None, states_input(case.data), fitted))
    rows = [row for row in case.data.decode().splitlines() if not row.startswith("guard ")]
    for place, (number, level) in enumerate(guards):
        rows.append(f"guard {case.source.directions[number]} {level}" + rng.choice(("", f" g{place}")))
    return Judged(case.name, "\n".join(rows).encode())


def cases_of(seed: int) -> Iterator[Judged]:
    """Random models, and some whose largest values as written are about whole numbers of counts."""
    rng = random.Random(seed)
    yield from (guarded(rng, case) for case in random_cases(seed, PACKED_MODELS, TEXTS))
    for number in range(SHARES):
        part = rng.choice((100 * rng.randint(1, 9), rng.randint(1, 999)))
        text = share(rng.choice((10, 10**3, 10**6)), part=f"0.{part:03}{rng.choice(('', '001'))}",
                     back=rng.choice(("0", "~0.000001", "~0.0001")))
        yield guarded(rng, Case(f"s{number:03}.model", text.encode()))


class Changed(Command):
    """The command `pepperscarp changed` in a clone."""

    WORDS = ("pepperscarp", "changed")
    NAME = "envelope"

    def case(self, name: str, content: str | bytes) -> Judged:
        return Judged(name, self.put(name, content).read_bytes())

    def assert_rows(self, done: Done[bytes], status: int, told: str, err: bytes = b"") -> None:
        """A status, and standard output but for how many blanks stand between two cells."""
        self.assertEqual((done.returncode, done.stderr), (status, err))
        self.assertEqual(re.sub(" +", " ", done.stdout.decode()), told)

    def saids(self, *words: str) -> list[list[str]]:
        """The columns from `listing was` to `level to keep` of each row, of a text without units."""
        rows = [re.split(" {2,}", row) for row in self.run_in(*words).stdout.decode().splitlines()]
        return [row[3:] for row in rows if len(row) == 8 and row[0] != "guard"]


class Rule(Changed):
    """Which guards are told, and with which verdicts."""

    def test_the_sample(self) -> None:
        told = (
            "verdicts.model\n"
            "guard    direction  level  listing was  is         report was  is     level to keep\n"
            "guard 0  largest        1  HIT 1        UNKNOWN 2  HIT 1       HIT 2              0\n"
            "guard 1  largest        2  UNKNOWN 2    CLEAR      CLEAR       CLEAR              1\n"
            f"\n{KEEPS}guards whose verdict changed: 2 of 3, in 1 of 1 model\n"
        )
        case = self.case("verdicts.model", VERDICTS)
        self.assertEqual(re.sub(" +", " ", told), expected([case]))
        self.assert_done(self.run_in("verdicts.model"), 3, told.encode(), b"")
        told = told.replace("verdicts.model", "standard input").replace("largest", "d0     ")
        self.assert_done(self.run_in("-", data=SAMPLE), 3, told.encode(), b"")

    def test_levels_are_told_in_their_unit_too(self) -> None:
        text = VERDICTS + "unit largest °C 16\ndirection other 2\nguard other 2 two\nguard other 99 far\n"
        case = self.case("m.model", text)
        units = [(row["unit"], row["level"], row["level_counts"]) for row in case.rows()]
        self.assertEqual(units, [("°C", "0.0625", "1"), ("°C", "0.125", "2"), ("counts", "2", "2")])
        self.assertEqual(in_csv(self.run_in("--csv", "m.model").stdout), case.rows())
        done = self.run_in("m.model")
        self.assert_rows(done, 3, expected([case]))
        self.assertRegex(done.stdout.decode(), r"\nguard 0  largest        1    0\.0625 °C  HIT 1  ")
        self.assertRegex(done.stdout.decode(), r"\ntwo      other          2               HIT 1  ")

    def test_random_models(self) -> None:
        cases = list(cases_of(31))
        for case in cases:
            self.put(case.name, case.data)
        names = [case.name for case in cases]
        done = self.run_in("--csv", *names)
        rows = in_csv(done.stdout)
        self.assertEqual((done.returncode, done.stderr), (3, b""))
        self.assertEqual(rows, [row for case in cases for row in case.rows()])
        self.assert_rows(self.run_in(*names[::5]), 3, expected(cases[::5]))
        # Each kind of change is there, and guards without one are.
        changed = [said for case in cases for said in case.changed.values()]
        kinds = collections.Counter(said.changes for said in changed)
        self.assertGreater(min(kinds[kind] for kind in ((True, True), (True, False), (False, True))), 2, kinds)
        self.assertEqual(ways(changed), (LISTING_WAYS, REPORT_WAYS))
        self.assertGreater(sum(len(case.model.guards) for case in cases) - len(changed), 100)
        # With the level to keep the program itself says what was said before.
        for case in cases:
            guards = list(case.model.guards)
            for row in rows:
                if row["model"] == case.name:
                    number = int(row["number"])
                    guards[number] = (guards[number][0], int(row["level_counts_to_keep"]))
            told = listed(replace(case.model, guards=tuple(guards))).guards
            for guard, said in case.changed.items():
                self.assertEqual(str(told[guard]), said.old_listing, case.name)

    def test_each_way_a_verdict_can_go(self) -> None:
        # The value stays within 0 to 5, or rises by 0 to 1 in each step, or is 5 at step 0 alone.
        text = "coordinates value\nsteps 3\nrow {}\ninitial box\nlower 0\nupper {}\ninput box\nlower 0\nupper {}\n"
        told = []
        for name, more, levels in (
            ("stays", (1, 5, 0), {4: [], 5: ["HIT 0", CLEAR], 6: []}),
            ("rises", (1, 0, 1), {-1: [], 0: ["HIT 0", "HIT 1"], 1: ["HIT 1", "HIT 2"], 3: ["HIT 3", CLEAR], 4: []}),
            ("falls", (0, 5, 0), {0: [], 5: ["HIT 0", CLEAR], 6: []}),
        ):
            guards = "".join(f"guard d {level}\n" for level in levels)
            self.put(f"{name}.model", text.format(*more) + "direction d 1\n" + guards)
            told += [[*pair, *pair, str(level - 1)] for level, pair in levels.items() if pair]
        self.assertEqual(self.saids("stays.model", "rises.model", "falls.model"), told)
        # A part of y, and at step 2 of x too; what is stored may be less than what is written.
        names, told = [], []
        for of, level, part, back, *said in (
            (10, 5, "0.500001", "0", "HIT 1", CLEAR, "HIT 1", f"{AS_WRITTEN} 1"),
            (10, 7, "0.700001", "0", "UNKNOWN 1", CLEAR, "UNKNOWN 1", f"{AS_WRITTEN} 1"),
            (10, 7, "0.7", "0", "UNKNOWN 1", CLEAR, "UNKNOWN 1", CLEAR),
            (10_000, 7_000, "0.7", "0", "UNKNOWN 1", CLEAR, f"{AS_WRITTEN} 1", CLEAR),
            (10**6, 700_000, "0.7", "~0.000001", CLEAR, CLEAR, f"{AS_WRITTEN} 1", f"{AS_WRITTEN} 2"),
            (10, 5, "0.49997", "~0.00012", "UNKNOWN 1", "UNKNOWN 2", "UNKNOWN 1", "UNKNOWN 2"),
            (1_000, 262, "0.26199", "~0.00003", "UNKNOWN 1", "UNKNOWN 2", "HIT 2", "UNKNOWN 2"),
            (10, 5, "0.5", "0", "HIT 1", CLEAR, "HIT 1", CLEAR),
            (10, 0, "0.5", "0", "HIT 0", "HIT 1", "HIT 0", "HIT 1"),
        ):
            names.append(f"{len(names)}.model")
            case = self.case(names[-1], share(of, level, part=part, back=back))
            self.assertEqual(case.said(0), tuple(said), case.data.decode())
            told.append([*said, str(level - 1)])
        self.assertEqual(self.saids(*names), told)
        self.put("verdicts.model", VERDICTS)
        told += self.saids("verdicts.model")
        self.assertEqual(ways(Said(*row[:4]) for row in told), (LISTING_WAYS, REPORT_WAYS))

    def test_the_ends_of_64_bits(self) -> None:
        # As far from 0 as a value can be, and a factor by which a level is no number of 64 bits.
        guards = tuple((0, level) for level in (MIN_LEVEL, MIN_LEVEL + 1, MAX_LEVEL - 1, MAX_LEVEL))
        cases = []
        for entry, far in itertools.product((1, 1_000), (1_048_576, -1_048_576)):
            box = Set(BOX, ((far,),) * 2)
            model = Model(1, 256, ((65_536,),), box, box, ((entry,),), guards)
            cases.append(self.case(f"{entry}{far}.bin", encode(model)))
            self.assertEqual([str(said) for said in listed(model).guards], ["HIT 0", "HIT 0", "CLEAR", "CLEAR"])
        told = "guards whose verdict changed: none of 16, in 4 models\n"
        self.assertEqual(expected(cases), told)
        self.assert_rows(self.run_in("."), 0, told)

    def test_growth_and_no_guard_at_all(self) -> None:
        growing = STILL.replace("row 0.5", "row 2").replace("steps 3", "steps 40")
        growing += "guard largest 8\nguard largest 0\n"
        cases = [self.case("growing.model", growing), self.case("none.model", STILL.replace("guard", "# guard"))]
        self.assertEqual(cases[0].said(1), ("GROWTH 11",) * 4)
        told = "guards whose verdict changed: none of 3, in 2 models\n"
        self.assertEqual(expected(cases), told)
        self.assert_rows(self.run_in("growing.model", "none.model"), 0, told)
        self.assert_rows(self.run_in("none.model"), 0, "guards whose verdict changed: none of 0, in 1 model\n")

    def test_a_lowest_value_has_its_level_to_keep_as_in_the_file(self) -> None:
        # The rail is never below this; in the file the sign of its level is turned.
        rail = ("coordinates rail\nsteps 3\nrow 1\ninitial box\nlower {}\nupper 24000\nunit rail mV\n"
                "direction lowest -1\nguard lowest {} fades\n").format
        case = self.case("m.model", rail(22_800, -22_800))
        done = self.run_in("m.model")
        self.assert_rows(done, 3, expected([case]))
        row = re.split(" {2,}", done.stdout.decode().splitlines()[2])
        self.assertEqual(row, ["fades", "lowest", "-22800", "-22,800 mV", "HIT 0", CLEAR, "HIT 0", CLEAR, "-22801"])
        (row,) = in_csv(self.run_in("--csv", "m.model").stdout)
        levels = [row[name] for name in ("level", "level_counts", "level_counts_to_keep")]
        self.assertEqual(levels, ["-22800", "-22800", "-22801"])
        # The level to keep is HIT as it was; -22799 is CLEAR, also of a rail that reaches -22800 by both rules.
        for lowest, level, told, said in (
            (22_800, -22_800, "22,800", CLEAR), (22_800, -22_801, "22,801", "HIT at step 0"),
            (22_799, -22_800, "22,800", "HIT at step 0"), (22_799, -22_799, "22,799", CLEAR),
        ):
            self.put("m.model", rail(lowest, level))
            report = self.run_in("m.model", command=self.clone / "report").stdout.decode()
            self.assertRegex(report, rf"\nfades +rail < {told} mV +{said} ")


class Sharp(Changed):
    """The report's verdicts, which are of fractions of a count."""

    def test_the_report_may_change_alone(self) -> None:
        # 700,000 as written; what is stored gives 699,996.9, and 699,997 is the bound of the listing.
        case = self.case("share.model", share(1_000_000, 700_000, 699_999, 699_997))
        self.assertEqual(case.changed, {
            0: Said(CLEAR, CLEAR, f"{AS_WRITTEN} 1", CLEAR),
            2: Said("UNKNOWN 1", CLEAR, f"{AS_WRITTEN} 1", f"{AS_WRITTEN} 1"),
        })
        self.assert_rows(self.run_in("share.model"), 3, expected([case]))

    def test_a_level_that_the_matrix_as_written_is_at(self) -> None:
        # The report said UNKNOWN where the multiplied bound is at the level too.
        for far, before in ((10, "UNKNOWN 1"), (10_000, f"{AS_WRITTEN} 1")):
            case = self.case(f"{far}.model", share(far, far * 7 // 10))
            self.assertEqual(case.changed, {0: Said("UNKNOWN 1", CLEAR, before, CLEAR)})
        self.assertEqual(self.saids("10.model", "10000.model"), [
            ["UNKNOWN 1", CLEAR, "UNKNOWN 1", CLEAR, "6"], ["UNKNOWN 1", CLEAR, f"{AS_WRITTEN} 1", CLEAR, "6999"]])

    def test_a_later_step_as_written_is_another_verdict(self) -> None:
        # What comes back of x is too little to be stored.
        case = self.case("share.model", share(1_000_000, 700_000, back="~0.000001"))
        self.assertEqual(case.said(0), (CLEAR, CLEAR, f"{AS_WRITTEN} 1", f"{AS_WRITTEN} 2"))
        self.assertEqual(self.saids("share.model"), [[*case.said(0), "699999"]])

    def test_what_the_report_says_now_is_what_it_says(self) -> None:
        self.put("share.model", share(10_000, 7_000, 6_999))
        self.put("fed.model", FED + "guard largest 1048576\nguard largest 1070000\nguard largest 1048575\n")
        self.put("verdicts.model", VERDICTS)
        self.put("unit.model", VERDICTS + "unit largest °C 3\n")
        names = ["share.model", "fed.model", "verdicts.model", "unit.model"]
        report = in_json(self.run_in("--json", *names, command=self.clone / "report").stdout)
        in_report = in_csv(self.run_in("--csv", *names, command=self.clone / "report").stdout)
        rows = in_csv(self.run_in("--csv", *names).stdout)
        self.assertEqual({row["model"] for row in rows}, {*names})
        self.assertIn(("°C", "1/3"), {(row["unit"], row["level"]) for row in rows})
        for row in rows:
            same = "model", "guard", "direction", "unit", "level"
            self.assertIn([row[name] for name in same], [[one[name] for name in same] for one in in_report])
            (model,) = (one for one in report["models"] if one["name"] == row["model"])
            (guard,) = (one for one in model["guards"] if str(one["number"]) == row["number"])
            as_written = guard["verdict"] == CLEAR and guard["reached_as_written"]
            step = guard["reached_as_written_step"] if as_written else guard["step"]
            word = AS_WRITTEN if as_written else guard["verdict"]
            self.assertEqual((row["new_report"], row["new_report_step"]), (word, "" if step is None else str(step)))
            self.assertEqual((row["level"], row["level_counts"]), (str(guard["level"]), str(guard["level_counts"])))

    def test_a_level_one_count_lower_is_stricter_in_the_report(self) -> None:
        # As its help says: 1.75 is between the levels 1 and 2, of which 2 was CLEAR by both rules.
        self.put("verdicts.model", VERDICTS.replace("guard largest 2", "guard largest 1"))
        (model,) = in_json(self.run_in("--json", "verdicts.model", command=self.clone / "report").stdout)["models"]
        (guard,) = (one for one in model["guards"] if one["number"] == 1)
        self.assertEqual((guard["verdict"], guard["step"]), (HIT, 2))


class Statuses(Changed):
    """Models that are refused, folders, and what the status says."""

    def setUp(self) -> None:
        super().setUp()
        self.still, self.other = self.case("still.model", STILL), self.case("verdicts.model", VERDICTS)
        self.put("cut.bin", CUT)
        self.put("wrong.model", WRONG)

    def test_of_several_statuses_the_first_of_2_1_3_0_is_told(self) -> None:
        names = {0: "still.model", 3: "verdicts.model", 1: "cut.bin", 2: "missing"}
        cases = {0: self.still, 3: self.other}
        messages = {1: CUT_TOLD % b"cut.bin", 2: b"changed: missing is not there\n"}
        for chosen in ([0], [3, 0], [0, 1], [1, 3], [3, 2], [0, 3, 1, 2]):
            with self.subTest(chosen):
                worst = next(status for status in (2, 1, 3, 0) if status in chosen)
                done = self.run_in(*(names[status] for status in chosen))
                there = [cases[status] for status in chosen if status in cases]
                err = b"".join(messages[status] for status in chosen if status in messages)
                self.assert_rows(done, worst, expected(there, len(chosen) - len(there)) if there else "", err)

    def test_a_refused_model_is_told_and_stops_no_other(self) -> None:
        for words, status, failed in (
            (["cut.bin", "verdicts.model", "wrong.model"], 1, 2), (["", "verdicts.model", "/dev/null"], 2, 2),
        ):
            done = self.run_in(*words)
            self.assert_rows(done, status, expected([self.other], failed), done.stderr)
            self.assertEqual(done.stderr.count(b"\n"), failed)
        done = self.run_in("--csv", *words)
        self.assertEqual((done.returncode, in_csv(done.stdout)), (status, self.other.rows()))
        run = self.run_in("wrong.model", command=self.clone / "run")
        self.assert_done(self.run_in("wrong.model"), 1, b"", run.stderr)
        self.assert_told(self.run_in("/dev/null"), 1, "^changed: /dev/null is empty$")
        self.assert_told(self.run_in("--csv", "cut.bin"), 1, "^cut.bin: refused 1 at ")

    def test_a_folder_is_taken_whole_without_copies(self) -> None:
        for name in ("top/a.model", "top/below/b.model", "top/.hidden.model"):
            self.put(name, VERDICTS)
        self.put("top/a.bin", SAMPLE)
        self.put("top/c.bin", SAMPLE)
        self.put("top/notes.txt", VERDICTS)
        (self.models / "none").mkdir()
        names = ["top/a.model", "top/c.bin", "top/below/b.model"]
        cases = [Judged(name, (self.models / name).read_bytes()) for name in names]
        self.assert_rows(self.run_in("top"), 3, expected(cases))
        self.assert_rows(self.run_in("still.model", "top/c.bin", "top"), 3, expected([self.still, cases[1], *cases]))
        self.assert_told(self.run_in("none"), 2, "^changed: none is a folder without a model ")

    def test_pipes_and_standard_input(self) -> None:
        case = Judged("standard input", SAMPLE)
        self.assert_rows(self.run_in("-", data=SAMPLE), 3, expected([case]))
        self.assert_rows(self.run_shell("cat verdicts.model | $c - still.model"), 3,
                         expected([Judged("standard input", VERDICTS.encode()), self.still]))
        done = self.run_shell("$c <(cat verdicts.model)")
        self.assertEqual((done.returncode, done.stdout.partition(b"\n")[2]),
                         (3, self.run_in("verdicts.model").stdout.partition(b"\n")[2]))

    def test_csv_without_a_change_is_its_heading(self) -> None:
        heading = self.run_in("--csv", "verdicts.model").stdout.partition(b"\n")[0]
        self.assert_done(self.run_in("--csv", "still.model"), 0, heading + b"\n", b"")
        self.assertEqual(heading.decode().split(","), [
            "model", "guard", "number", "direction", "unit", "level", "level_counts", "old_listing",
            "old_listing_step", "new_listing", "new_listing_step", "old_report", "old_report_step", "new_report",
            "new_report_step", "level_counts_to_keep"])
        told = " ".join(self.run_in("--help").stdout.decode().split())
        self.assertIn(re.sub(",([^,]*)$", r" and \1.", heading.decode()).replace(",", ", "), told)

    def test_a_wrong_command_has_status_2(self) -> None:
        for words in (["--csv"], ["--none", "still.model"], ["still.model", "-o", "out"]):
            with self.subTest(words):
                told = r"^changed: .+ \(\./pepperscarp changed --help tells more\)$"
                self.assert_told(self.run_in(*words), 2, told)

    def test_names_may_be_any(self) -> None:
        names = "line\nfeed.model", b"\xff\xfe.model", "-dash.model", "grün.model", "--csv", "esc\x1b[31m"
        shown = "line\\nfeed.model", "\\udcff\\udcfe.model", "-dash.model", "grün.model", "--csv", "esc\\x1b[31m"
        cases = []
        for name, told in zip(names, shown):
            cases.append(Judged(told, self.put(name, VERDICTS).read_bytes()))
        self.assert_rows(self.run_in("--", *names), 3, expected(cases))
        rows = in_csv(self.run_in("--csv", "--", *names).stdout)
        self.assertEqual(rows, [row for case in cases for row in case.rows()])
        self.assert_told(self.run_in(b"\xff\nx"), 2, r"^changed: \\udcff\\nx is not there$")

    def test_the_help_tells_the_rule_the_columns_and_the_statuses(self) -> None:
        told = self.run_in("--help").stdout.decode()
        heading = self.run_in("verdicts.model").stdout.decode().splitlines()[1]
        for head in re.split(" {2,}", heading):
            self.assertIn("listing was, is" if head in ("listing was", "is") else head, told)
        for part in ("\n  0  if no verdict changes", "\n  3  if a verdict changes", str(MIN_LEVEL)):
            self.assertIn(part, told)
        for part in ("reached only above its level. Before, it was reached at its level too",
                     "one count lower in the file", "-22801 in place of -22800", "Do not write -22799",
                     "up to a count stricter", "on L - 1", "on F x L - 1", "from exact fractions: tested, not proved",
                     "versions 0.4.0 to 0.7.2", "in the order 2, 1, 3, 0"):
            self.assertIn(part, " ".join(told.split()))
        self.assertLess(max(map(len, told.splitlines())), 101)

    def test_the_help_lists_every_way_a_verdict_can_change(self) -> None:
        told = self.run_in("--help").stdout.decode().partition("verdict before      verdict now\n")[2]
        found = set()
        for row in told.partition("\n\n")[0].splitlines():
            before, now = re.fullmatch(r"  (\S.*?)  +(\S.*)", row).groups()
            for word in (HIT, UNKNOWN, CLEAR, AS_WRITTEN):
                self.assertEqual(f"{word} at a later step" in now, word == before)
                found |= {(before, word)} if word in now else set()
            self.assertEqual("./report" in now, AS_WRITTEN in (before, *re.findall(AS_WRITTEN, now)))
        self.assertEqual(found, REPORT_WAYS)

    def test_the_examples_of_help_work(self) -> None:
        (self.clone / "examples").symlink_to(EXAMPLES)
        examples = re.findall(r"\n  (\./pepperscarp changed .*)", self.run_in("--help").stdout.decode())
        folder, one = (self.run_in("-c", example, command="bash", cwd=self.clone) for example in examples)
        cases = [Judged(f"examples/{path.name}", path.read_bytes()) for path in sorted(EXAMPLES.glob("*.model"))]
        self.assert_rows(folder, 3, expected(cases))
        (case,) = (case for case in cases if case.name == "examples/verdicts.model")
        self.assertEqual((one.returncode, in_csv(one.stdout)), (3, case.rows()))


class Failures(Changed):
    """What goes wrong beside the models."""

    def setUp(self) -> None:
        super().setUp()
        self.put("m.bin", SAMPLE)

    def test_a_program_that_fails_has_status_2(self) -> None:
        # Of the model as it is, of its factors and of it multiplied it says what it should, and then this.
        shutil.copy(self.program, self.folder / "real")
        later = f"echo >> '{self.notes}/runs'; [ $(wc -l < '{self.notes}/runs') -gt 3 ] || exec '{self.folder}/real'"
        for rows, why in (
            ("exit 3", r"the program envelope failed \(status 3\)"), (":", "the program wrote no reply to it"),
            (f"{later}; exit 1", r"failed \(status 1\)"),
            (f"{later}; echo refused 1 at 0", "accepts it, and not what is made of it: refused 1 at 0"),
            (f"{later}; cat '{EXAMPLES}/verdicts.listing'", "the program gives other bounds for other levels"),
        ):
            with self.subTest(rows):
                script(self.program, f"#!/bin/sh\n{rows}\n")
                (self.notes / "runs").unlink(missing_ok=True)
                self.assert_told(self.run_in("m.bin"), 2, f"^changed: m.bin: .*{why}$")

    def test_the_program_is_built_where_it_is_missing(self) -> None:
        expected = self.run_in("m.bin").stdout
        self.program.unlink()
        self.assert_told(self.run_in("missing"), 2, "^changed: missing is not there$")
        self.assertEqual(self.calls(), 0)
        done = self.run_in("m.bin")
        self.assert_done(done, 3, expected)
        self.assertRegex(done.stderr, rb"^changed: proving and building the program; ")
        self.program.unlink()
        done = self.run_in("m.bin", path=self.path())
        self.assert_told(done, 2, r"^changed: .*\(rt\) is not there$", "^changed: the program is not ready")

    def test_output_that_fails_has_status_2(self) -> None:
        for output in ("> /dev/full", ">&-"):
            self.assert_told(self.run_shell(f"$c m.bin {output}"), 2, "^changed: standard output: cannot be written: ")
        told = self.run_in("m.bin", "missing").stdout
        for errors in ("2>&-", "2> /dev/full"):
            self.assert_done(self.run_shell(f"$c m.bin missing {errors}"), 2, told, b"")

    def test_a_reader_that_goes_away_gets_no_messages(self) -> None:
        started = self.start("-", stdin=subprocess.PIPE)
        started.stdout.close()
        started.stdin.write(SAMPLE)
        started.stdin.close()
        self.assertIn(started.wait(TIME_LIMIT), (128 + signal.SIGPIPE, -signal.SIGPIPE))
        self.assertEqual(started.stderr.read(), b"")

    def test_signals_end_it_without_a_word(self) -> None:
        script(self.program, f"#!/bin/sh\ntouch '{self.notes}/runs'\nexec sleep 60\n")
        for signal_ in self.SIGNALS:
            started = self.start("-", cwd=self.models, stdin=subprocess.PIPE, start_new_session=True)
            until(lambda: self.heeds(started))
            self.interrupt(started, signal_)
        started = self.start("m.bin", "m.bin", cwd=self.models, start_new_session=True)
        until((self.notes / "runs").exists)
        self.interrupt(started, signal.SIGINT, group=True)

    def test_how_far_it_is_is_shown_on_a_terminal_and_erased(self) -> None:
        master, slave = pty.openpty()
        try:
            self.assertEqual(self.run_in("m.bin", "missing", "m.bin", stderr=slave).returncode, 2)
            told = os.read(master, 4_096).decode()
        finally:
            os.close(slave)
            os.close(master)
        self.assertRegex(told, r"\[\.{30}\] 0 of 3 .*\r\x1b\[K\[#{30}\] 3 of 3 ")
        self.assertTrue(told.endswith("\r\x1b[Kchanged: missing is not there\r\n"), told)


if __name__ == "__main__":
    unittest.main()
