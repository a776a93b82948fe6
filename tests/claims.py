"""What a report claims: read back, and held against what is true.

Every number that `./report` prints, in the text, as JSON and as CSV, is held against what the built
program lists for the multiplied directions, and against exact largest values by corners, as
fractions: those of the stored matrix (`exact.exact_values`), and here those of the matrix as it is
written. A figure that was rounded must be implied by the exact one, and be less than one unit of its
last decimal away from it. Nothing of the report's own code is used.

In order: running it; what is true of a model; what is printed; the checks of JSON, CSV and text;
random models.
"""

from __future__ import annotations

import collections
import csv
import hashlib
import io
import json
import math
import os
import random
import re
import subprocess
import sys
import tempfile
from concurrent.futures import ThreadPoolExecutor
from dataclasses import dataclass, replace
from decimal import Decimal
from fractions import Fraction
from functools import cache, cached_property
from operator import add, mul, sub
from pathlib import Path
from typing import Any, Callable, Iterable, Iterator, Sequence

ROOT = Path(__file__).resolve().parent.parent
REPORT, PROGRAM, EXAMPLES = ROOT / "report", ROOT / "target" / "bin" / "envelope", ROOT / "examples"
sys.path.insert(0, str(ROOT / "tools"))

import exact  # noqa: E402
import listings  # noqa: E402
import models  # noqa: E402
import pack  # noqa: E402
from layout import (  # noqa: E402
    MATRIX_UNIT, MAX_DIRECTION_ENTRY, MAX_LEVEL, MIN_LEVEL, Model, encode, fitted_rows_of,
    float_of, zero_box,
)
from listings import CLEAR, GROWTH, HIT, UNKNOWN, Growth, Listing, Verdict  # noqa: E402

TIME_LIMIT = 60  # seconds; a command that has not ended by then hangs
MOST_COST = 12_000  # of the exact values of a random model
PACKED_MODELS, TEXTS = 100, 110  # random ones
AS_WRITTEN = "CLEAR as stored, REACHED as written"
# The sign between a value and a level that it reaches (Verdicts 1), and between a value and its
# bound; first of a direction as it is, then of one that is turned round.
REACHED_SIGNS, BOUND_SIGNS = "><", "≤≥"
COUNTED = collections.Counter()  # what was checked

RAIL = EXAMPLES / "rail.model"
# Nothing is rounded, and the largest value is 8; all guards are CLEAR, or one is not.
STILL = """coordinates value
steps 3
row 0.5
initial box
  lower 0
  upper 8
input box
  lower 0
  upper 1
direction largest 1
guard largest 9 above
"""
REACHED = STILL + "guard largest 7 passed\n"
NO_GUARD = STILL.replace("guard largest 9 above\n", "")
# Of the matrix as written, no run of the stored one: 0.9999 is 65,529.4464 of 1/65,536.
FADING = """coordinates value
steps 256
row ~0.9999
initial box
  lower 0
  upper 1048576
direction largest 1
"""
FED = FADING.replace("direction", "input box\nlower 0\nupper 200\ndirection")


# Running it


Done = subprocess.CompletedProcess


def finished(
    *words: str | bytes | Path, command: Sequence[str | Path] = (REPORT,), data: bytes | None = None,
    env: dict[str, str] | None = None, **how: Any,
) -> Done:
    """What a command did. No output tells of a traceback, and no temporary file is left."""
    with tempfile.TemporaryDirectory() as temporary:
        if data is not None:
            how["input"] = data
        elif "stdin" not in how:
            how["stdin"] = subprocess.DEVNULL
        how = {"stdout": subprocess.PIPE, "stderr": subprocess.PIPE, **how}
        done = subprocess.run(
            [*command, *words], env={**os.environ, "TMPDIR": temporary, **(env or {})},
            timeout=TIME_LIMIT, **how,
        )
        left = os.listdir(temporary)
    assert not left, f"temporary files are left: {left}"
    for output in (done.stdout, done.stderr):
        assert b"Traceback" not in (output or b""), output
        assert b"fault of the tool" not in (output or b""), output
    return done


def finished_all(calls: Iterable[Sequence[str | Path]], **how: Any) -> list[Done]:
    """What each call did, two at a time."""
    with ThreadPoolExecutor(2) as pool:
        return list(pool.map(lambda words: finished(*words, **how), calls))


def lines(data: bytes) -> list[str]:
    return data.decode().splitlines()


@cache
def reply(data: bytes) -> str:
    """What the program itself writes for a file."""
    done = subprocess.run([PROGRAM], input=data, capture_output=True, timeout=TIME_LIMIT)
    assert done.returncode == 0 and not done.stderr, done
    return done.stdout.decode()


def listed(model: Model) -> Listing:
    told = listings.parse(reply(encode(model)))
    assert isinstance(told, Listing), told
    return told


# What is true


def dot(a: Sequence[int], b: Sequence[int]) -> int:
    return sum(map(mul, a, b))


def largest_values(model: Model, matrix: Sequence[Sequence[Fraction]]) -> list[list[Fraction]]:
    """The exact largest value of each direction at steps 0 to K, of a matrix of any fractions.

    Forward by corners: the images of first states and of what enters go by the matrix, and each is
    chosen by itself. After k moves they are counted in 1/unit^k.
    """
    unit = math.lcm(*(entry.denominator for entries in matrix for entry in entries))
    rows = [[int(entry * unit) for entry in entries] for entries in matrix]
    states = exact.corners(model.initial)
    inputs = [tuple(map(add, corner, model.drift)) for corner in exact.corners(model.input)]
    entered = [0] * len(model.directions)  # in 1/unit^k too
    values: list[list[Fraction]] = [[] for _ in model.directions]
    for k in range(model.steps + 1):
        for number, direction in enumerate(model.directions):
            largest = max(dot(direction, state) for state in states)
            values[number].append(Fraction(largest + entered[number], unit**k))
            most = max(dot(direction, point) for point in inputs)
            entered[number] = unit * (entered[number] + most)
        states, inputs = (
            [tuple(dot(entries, point) for entries in rows) for point in points]
            for points in (states, inputs)
        )
    return values


def written_matrix(data: bytes, model: Model) -> list[list[Fraction]]:
    """The matrix as a text, or the fitted rows of a packed file, have it."""
    matrix = [[Fraction(entry, MATRIX_UNIT) for entry in entries] for entries in model.matrix]
    if data[:1] == b"\x01":
        for number, patterns in fitted_rows_of(data, model.n).items():
            matrix[number] = [Fraction(float_of(bits)) for bits in patterns]
        return matrix
    rows = [row.partition("#")[0].split() for row in data.decode().splitlines()]
    stated = [row for row in rows if row and row[0] in ("row", "scaled", "fitted")]
    for number, (word, *entries) in enumerate(stated):
        for column, entry in enumerate(entries[-model.n :]):
            if word == "row":
                matrix[number][column] = Fraction(Decimal(entry.lstrip("~")))
            elif word == "fitted":
                made = float.fromhex if "x" in entry.lower() else float
                matrix[number][column] = Fraction(made(entry))
    return matrix


@dataclass(frozen=True)
class Case:
    """A model file, by the name under which it is told, and what is true of it."""

    name: str
    data: bytes

    @cached_property
    def source(self) -> pack.Source:
        read = pack.read_source if self.data[:1] == b"\x01" else pack.read_text
        return read(self.data, self.name)

    @property
    def model(self) -> Model:
        return self.source.model

    @cached_property
    def values(self) -> list[list[Fraction]]:
        return exact.exact_values(self.model)

    @cached_property
    def written(self) -> list[list[Fraction]] | None:
        """The values of the matrix as written, where any entry was rounded."""
        matrix = written_matrix(self.data, self.model)
        kept = [[Fraction(entry, MATRIX_UNIT) for entry in row] for row in self.model.matrix]
        return None if matrix == kept else largest_values(self.model, matrix)

    @cached_property
    def guard_names(self) -> list[str]:
        return [name or f"guard {number}" for number, name in enumerate(self.source.guards)]

    def unit(self, number: int) -> tuple[str, int]:
        """The unit of a direction and its counts, by the words of `pack.py --help`."""
        own = self.source.units[number]
        entries = self.model.directions[number]
        of = {unit for unit, entry in zip(self.source.coordinate_units, entries) if entry}
        return own or (of.pop() if len(of) == 1 else None) or ("", 1)

    def multiplied(self, factors: Sequence[int]) -> Listing:
        """The program's listing with each direction and its levels multiplied."""
        directions = [
            tuple(factor * entry for entry in direction)
            for factor, direction in zip(factors, self.model.directions)
        ]
        guards = [
            (number, min(max(factors[number] * level, MIN_LEVEL), MAX_LEVEL))
            for number, level in self.model.guards
        ]
        return listed(replace(self.model, directions=tuple(directions), guards=tuple(guards)))

    def time(self, step: int | None) -> Fraction | None:
        time_ = self.source.time
        return None if step is None or time_ is None else step * time_[0]


def reaches(value: Fraction, level: int) -> bool:
    """Whether a value reaches a level (Verdicts 1): it is above it, and not only at it."""
    return value > level


def first_at(values: Sequence[Any], condition: Callable[[Any], bool]) -> int | None:
    return next((step for step, value in enumerate(values) if condition(value)), None)


# What is printed


class Printed(Fraction):
    """A printed number, with its decimals."""

    def __new__(cls, text: str) -> Printed:
        self = super().__new__(cls, text.replace(",", ""))
        self.decimals = len(text.partition(".")[2])
        return self

    @property
    def last(self) -> Fraction:
        """One unit of the last decimal."""
        return Fraction(1, 10**self.decimals)


def in_json(text: bytes) -> Any:
    return json.loads(text, parse_float=Printed, parse_int=Printed)


NUMBER = r"-?\d{1,3}(?:,\d{3})*(?:\.\d+)?"
FIGURE = rf"{NUMBER}|-?\d\.\d\de\d+"  # a huge one is told by three digits
PLACE = rf"(\d+)(?: \(({NUMBER}) (\S+)\))?"
HEADING = re.compile(
    rf"(.*): (\d) coordinates?, steps 0 to (\d+)(?: \(({NUMBER}) (\S+)\))?: (.*)", re.DOTALL
)
# The last two rows, which say what is proved and what is tested.
FOOTER = re.compile(r"Bounds, slacks and verdicts are the proved program's, .*\n.* tested, not proved\.")


def matched(pattern: str, text: str) -> tuple[str | None, ...]:
    found = re.fullmatch(pattern, text)
    assert found, f"{text!r} is not {pattern!r}"
    return found.groups()


def table(rows: list[str]) -> list[dict[str, str]]:
    """The cells of a table by their headings: columns stand two blanks apart, and no row has any there."""
    width = max(map(len, rows))
    rows = [row.ljust(width) for row in rows]
    used = "".join(" " if all(row[i] == " " for row in rows) else "x" for i in range(width))
    spans = [found.span() for found in re.finditer(r"x+( x+)*", used)]
    heading, *cells = ([row[a:b].strip() for a, b in spans] for row in rows)
    return [dict(zip(heading, row, strict=True)) for row in cells]


@dataclass
class Section:
    """A model of the text: its heading, its tables in order, and the rows below."""

    name: str
    heading: re.Match[str]
    tables: list[list[dict[str, str]]]
    rest: list[str]


def sections(text: bytes) -> list[Section]:
    """The models of a text, each whole."""
    found: list[Section] = []
    for block in text.decode().split("\n\n"):
        rows = block.strip("\n").split("\n")
        if heading := HEADING.fullmatch(rows[0]):
            assert len(rows) == 1, rows
            found.append(Section(heading[1], heading, [], []))
        elif rows[0].startswith(("guard ", "direction ")):
            found[-1].tables.append(table(rows))
        else:
            assert FOOTER.fullmatch("\n".join(rows[-2:])), rows
            found[-1].rest = rows[:-2]
    return found


# Checks. Each takes away what it has checked, so that nothing printed is left out.


def must(condition: bool, *told: object) -> None:
    COUNTED["figures"] += 1
    assert condition, told


def check_rounded_up(printed: Printed, value: Fraction, *told: object) -> None:
    must(0 <= printed - value < printed.last, "not rounded up", printed, float(value), *told)


def check_rounded_down(printed: Printed, value: Fraction, *told: object) -> None:
    must(0 <= value - printed < printed.last, "not rounded down", printed, float(value), *told)


def check_bound(
    bound: Printed, slack: Printed, proved: tuple[int, int], scale: int, *told: object
) -> None:
    """A printed bound and slack follow from proved ones in 1/scale, and not from much more."""
    check_rounded_up(bound, Fraction(proved[0], scale), "bound", *told)
    must(slack >= 0 and slack.decimals == bound.decimals, slack, bound, *told)
    low = Fraction(proved[0] - proved[1], scale)
    must(0 <= low - (bound - slack) < bound.last, "slack", slack, float(low), *told)


def terms_of(left: str) -> dict[str, Fraction]:
    """A sum such as `-rail + 0.5 set.point`: what each coordinate is multiplied by."""
    found: dict[str, Fraction] = {}
    number = r"\d+(?:\.\d+)?(?:/\d+)?"
    for sign, factor, name in re.findall(rf"([+-]?)(?:({number}) )?([^\s+-]\S*)",
                                         re.sub(r" ([+-]) ", r" \1", left)):
        must(name not in found, "twice", left)
        found[name] = Fraction(factor or 1) * (-1 if sign == "-" else 1)
    return found


def expected_terms(case: Case, number: int) -> dict[str, Fraction] | None:
    """What coordinates in their units are multiplied by; None where the text doesn't tell it."""
    entries, (name, counts) = case.model.directions[number], case.unit(number)
    of = {
        coordinate: (entry, unit)
        for coordinate, entry, unit in zip(case.source.coordinates, entries,
                                           case.source.coordinate_units)
        if entry
    }
    if not name:
        return {coordinate: Fraction(entry) for coordinate, (entry, _) in of.items()}
    if all(unit is not None and unit[0] == name for _, unit in of.values()):
        # entry * (counts of the coordinate), in the direction's unit
        return {key: Fraction(entry * unit[1], counts) for key, (entry, unit) in of.items()}
    if all(unit is None and abs(entry) == 1 for entry, unit in of.values()):
        return {coordinate: Fraction(entry) for coordinate, (entry, _) in of.items()}
    return None


def check_claim(
    case: Case, number: int, told: str, value: Fraction | None, exactly: bool
) -> Printed | None:
    """An inequality such as `-rail + 4 driver ≥ 5,000 counts`; its value for the direction as written.

    With `exactly` it says where the level `value` is reached, and otherwise what the bound is.
    """
    signs = REACHED_SIGNS if exactly else BOUND_SIGNS
    left, sign, figure, unit = matched(rf"(.*) ([{signs}]) ({NUMBER}(?:/{NUMBER})?) (\S+)", told)
    name, _ = case.unit(number)
    check_unit(unit, name, figure)
    expected, turned = expected_terms(case, number), False
    if expected is None:
        must(left == case.source.directions[number], "no name", told)
    else:
        shown = terms_of(left)
        turned = shown == {key: -factor for key, factor in expected.items()}
        must(turned or shown == expected, "another direction", told, expected)
        must(turned == (max(expected.values()) < 0), "turned", told)
    must(sign == signs[turned], "the wrong way", told)
    if exactly:
        must(Fraction(figure.replace(",", "")) == (-value if turned else value), "level", told)
        return None
    bound = Printed(figure)
    if turned:
        bound = Printed(figure[1:] if figure.startswith("-") else f"-{figure}")
    largest = max(case.values[number]) / case.unit(number)[1]
    must(largest <= bound, "some run passes it", told)
    return bound


def check_unit(told: str, name: str, figure: str) -> None:
    """The unit behind a figure; without one, counts."""
    must(told == (name or ("count" if figure in ("1", "-1") else "counts")), told, name, figure)


def check_place(case: Case, told: str, step: int | None = None) -> int:
    """A step, with its time where the model has one; the step."""
    number, time_, unit = matched(PLACE, told)
    at = case.time(int(number))
    if step is not None:
        must(int(number) == step, "step", told, step)
    must((time_ is None) == (at is None), told)
    if time_ is not None:
        must(Printed(time_) == at and unit == case.source.time[1], "time", told, at)
    return int(number)


@dataclass
class Answer:
    """What was found true of a model's printed directions, which guards are checked with."""

    case: Case
    factors: list[int]
    plain: bool

    @cached_property
    def listing(self) -> Listing:
        return self.case.multiplied(self.factors)

    def scale(self, number: int) -> int:
        """How many proved counts make the unit of a direction."""
        return self.factors[number] * self.case.unit(number)[1]

    def bounds(self, number: int) -> list[Fraction]:
        swept = self.listing.directions[number]
        return [Fraction(bound, self.scale(number)) for bound in swept.bounds]

    def lows(self, number: int) -> list[Fraction]:
        swept = self.listing.directions[number]
        pairs = zip(swept.bounds, swept.slacks)
        return [Fraction(bound - slack, self.scale(number)) for bound, slack in pairs]

    def above(self, number: int) -> dict[int, Fraction]:
        """By how much the values as written are above the bounds, at the steps where they are."""
        if isinstance(self.listing.directions[number], Growth):
            return {}
        counts = self.case.unit(number)[1]
        pairs = zip(self.case.written[number], self.bounds(number))
        above = {step: value / counts - bound for step, (value, bound) in enumerate(pairs)}
        return {step: more for step, more in above.items() if more > 0}

    def reached(self, number: int, level: int) -> int | None:
        """The first step at which the matrix as written reaches a level."""
        if self.case.written is None:
            return None
        return first_at(self.case.written[number], lambda value: reaches(value, level))

    def verdict(self, guard: int) -> Verdict:
        """The verdict by Verdicts 2 to 4, of the proved figures and of the level times the factor."""
        number, level = self.case.model.guards[guard]
        swept = self.listing.directions[number]
        if isinstance(swept, Growth):
            return Verdict(GROWTH, swept.step)
        lows = list(map(sub, swept.bounds, swept.slacks))
        for word, values in ((HIT, lows), (UNKNOWN, swept.bounds)):
            step = first_at(values, lambda value: reaches(value, self.factors[number] * level))
            if step is not None:
                return Verdict(word, step)
        return Verdict(CLEAR)

    def word(self, guard: int) -> str:
        """The word of a guard by its urgency."""
        number, level = self.case.model.guards[guard]
        word = self.listing.guards[guard].word
        return AS_WRITTEN if word == CLEAR and self.reached(number, level) is not None else word

    def margin(self, guard: int) -> Fraction:
        number, level = self.case.model.guards[guard]
        return Fraction(level, self.case.unit(number)[1]) - max(self.bounds(number))

    @property
    def status(self) -> int:
        guards = range(len(self.case.model.guards))
        return 3 if any(self.word(guard) != CLEAR for guard in guards) else 0

    def check_factors(self) -> None:
        """Each factor is within the limits, and the next one is not."""
        beyond = []
        for factor, direction in zip(self.factors, self.case.model.directions):
            most = MAX_DIRECTION_ENTRY // max(map(abs, direction))
            must(1 <= factor <= (1 if self.plain else most), "factor", factor)
            beyond.append(0 if self.plain or factor == most else factor + 1)
        asked = [max(factor, 1) for factor in beyond]
        if any(beyond):
            for factor, swept in zip(beyond, self.case.multiplied(asked).directions):
                must(not factor or isinstance(swept, Growth), "a larger factor is accepted", factor)
        for factor, swept in zip(self.factors, self.listing.directions):
            must(factor == 1 or not isinstance(swept, Growth), "growth", factor)


def check_order(answer: Answer, guards: list[int]) -> None:
    """The most urgent first: by their words, and those of one direction by their margins."""
    must(sorted(guards) == list(range(len(answer.case.model.guards))), "each once", guards)
    words = [HIT, AS_WRITTEN, GROWTH, UNKNOWN, CLEAR]
    ranks = [words.index(answer.word(guard)) for guard in guards]
    must(ranks == sorted(ranks), "order", ranks)
    kinds = collections.defaultdict(list)
    for guard, rank in zip(guards, ranks):
        kinds[answer.case.model.guards[guard][0], rank].append(guard)
    for (_, rank), same in kinds.items():
        if words[rank] != GROWTH:
            margins = [answer.margin(guard) for guard in same]
            must(margins == sorted(margins), "order by margin", same, margins)


def check_accuracy(answer: Answer, guard: int) -> None:
    """A verdict is true of the exact largest values."""
    number, level = answer.case.model.guards[guard]
    said, values = answer.listing.guards[guard], answer.case.values[number]
    if said.word == HIT:
        must(reaches(values[said.step], level), guard, said)
    elif said.word == UNKNOWN:
        slack = Fraction(answer.listing.directions[number].slacks[said.step], answer.factors[number])
        must(abs(values[said.step] - level) <= slack, guard, said)
    elif said.word == CLEAR:
        must(not reaches(max(values), level), guard, said)


def check_above_largest(answer: Answer, number: int, told: Printed | None) -> None:
    """By how much the largest value as written passes the largest bound, where it does."""
    if isinstance(answer.listing.directions[number], Growth):
        must(told is None, "no bound", told)
        return
    counts = answer.case.unit(number)[1]
    more = max(answer.case.written[number]) / counts - max(answer.bounds(number))
    must((told is None) == (more <= 0), "above the largest bound", told, float(more))
    if told is not None:
        check_rounded_up(told, more, "above the largest bound")


def check_written_margin(answer: Answer, guard: int, told: Printed | None) -> None:
    case, (number, level) = answer.case, answer.case.model.guards[guard]
    must((told is None) == (case.written is None), "as written")
    if told is not None:
        check_rounded_down(told, (level - max(case.written[number])) / case.unit(number)[1], told)
        must((told < 0) == (answer.reached(number, level) is not None), "reached as written", told)


# JSON


def check_json_written(answer: Answer, number: int, told: dict[str, Any]) -> None:
    case, counts = answer.case, answer.case.unit(number)[1]
    values = [value / counts for value in case.written[number]]
    printed = told.pop("values")
    must(len(printed) == len(values), "steps")
    for step, (one, value) in enumerate(zip(printed, values)):
        check_rounded_up(one, value, "as written", step)
    largest, step = told.pop("largest"), int(told.pop("step"))
    check_rounded_up(largest, max(values), "largest")
    must(step == values.index(max(values)), "step as written", step)
    must(told.pop("time") == case.time(step), "time")
    above = answer.above(number)
    check_above_largest(answer, number, told.pop("above_largest_bound"))
    must(told.pop("steps_above_bound") == list(above), "steps above", above)
    most, step = told.pop("most_above_bound"), told.pop("most_above_bound_step")
    if above:
        check_rounded_up(most, max(above.values()), "above")
        check_rounded_up(most, above[int(step)], "step above", step)
    else:
        must(most is None and step is None, "above nothing")
    must(not told, "more", told)


def check_json_direction(answer: Answer, told: dict[str, Any]) -> None:
    case = answer.case
    number = int(told.pop("number"))
    unit, counts = case.unit(number)
    must(told.pop("name") == case.source.directions[number], "name")
    must(told.pop("entries") == list(case.model.directions[number]), "entries")
    must((told.pop("unit"), told.pop("counts_per_unit")) == (unit or None, counts), "unit")
    must(told.pop("factor") == answer.factors[number], "factor")
    swept, growth = answer.listing.directions[number], told.pop("growth_step")
    bounds, slacks, proved, peak = (told.pop(k) for k in ("bounds", "slacks", "proved", "peak"))
    written = told.pop("as_written")
    must((written is None) == (case.written is None), "as written")
    if written is not None:
        check_json_written(answer, number, written)
    must(not told, "more", told)
    if isinstance(swept, Growth):
        must(growth == swept.step, "growth", growth, swept)
        must((bounds, slacks, proved, peak) == ([], [], None, None), "figures", bounds)
        return
    must(growth is None, "growth", growth)
    must(proved.pop("spare") == swept.spare, "spare")
    must(tuple(proved.pop("bounds")) == swept.bounds, "proved bounds")
    must(tuple(proved.pop("slacks")) == swept.slacks, "proved slacks")
    must(not proved, "more", proved)
    must(len(bounds) == len(slacks) == case.model.steps + 1, "steps")
    step = int(peak.pop("step"))
    must(step == swept.bounds.index(max(swept.bounds)), "peak", step)
    must(peak.pop("time") == case.time(step), "time")
    must((peak.pop("bound"), peak.pop("slack")) == (bounds[step], slacks[step]), "peak")
    must(not peak, "more", peak)
    must(max(bounds) == bounds[step], "the largest bound")
    pairs = zip(bounds, slacks, zip(swept.bounds, swept.slacks), case.values[number])
    for k, (bound, slack, both, value) in enumerate(pairs):
        check_bound(bound, slack, both, answer.scale(number), number, k)
        must(value <= bound * counts, "a run passes the bound", number, k)
        must(value >= (bound - slack) * counts, "no run comes near", number, k)


def check_margins(answer: Answer, guard: int, least: Printed, most: Printed) -> None:
    """The two margins, which also tell the verdict: at 0 a level is not reached."""
    number, level = answer.case.model.guards[guard]
    word = answer.verdict(guard).word
    must((word == HIT) == (most < 0), "certainly passed", guard, most)
    must((word == CLEAR) == (least >= 0), "certainly clear", guard, least)
    counts = answer.case.unit(number)[1]
    check_rounded_down(least, answer.margin(guard), "margin", guard)
    check_rounded_up(most, Fraction(level, counts) - max(answer.lows(number)), "margin", guard)
    truth = (level - max(answer.case.values[number])) / counts
    must(least <= truth <= most, "margins", guard, least, most, float(truth))


def check_json_guard(answer: Answer, told: dict[str, Any]) -> int:
    case = answer.case
    guard = int(told.pop("number"))
    number, level = case.model.guards[guard]
    said = answer.listing.guards[guard]
    must(told.pop("name") == case.source.guards[guard], "name")
    must(told.pop("direction") == case.source.directions[number], "direction")
    must(told.pop("level_counts") == level, "level")
    must(Fraction(told.pop("level")) == Fraction(level, case.unit(number)[1]), "level")
    must((told.pop("verdict"), told.pop("step")) == (said.word, said.step), "verdict", said)
    must(said == answer.verdict(guard), "another rule", said)
    must(told.pop("time") == case.time(said.step), "time")
    must(told.pop("clear") == (answer.word(guard) == CLEAR), "clear")
    reached, step = told.pop("reached_as_written"), answer.reached(number, level)
    must(reached == (None if case.written is None else step is not None), "as written", reached)
    must(told.pop("reached_as_written_step") == step, "as written", step)
    check_written_margin(answer, guard, told.pop("margin_as_written"))
    least, most = told.pop("margin_least"), told.pop("margin_most")
    if said.word == GROWTH:
        must(least is None and most is None, "no margin")
    else:
        check_margins(answer, guard, least, most)
    check_accuracy(answer, guard)
    must(not told, "more", told)
    return guard


def check_json_model(case: Case, told: dict[str, Any], plain: bool = False) -> Answer:
    """All that is printed of one model; what is told is used up."""
    model = case.model
    directions, guards = told.pop("directions"), told.pop("guards")
    by_number = {int(one["number"]): one for one in directions}
    must(sorted(by_number) == list(range(len(model.directions))), "each direction once")
    factors = [int(by_number[number]["factor"]) for number in range(len(by_number))]
    answer = Answer(case, factors, plain)
    answer.check_factors()
    must(told.pop("name") == case.name, "name")
    must((told.pop("result"), told.pop("plain")) == ("answered", plain), "result")
    must(told.pop("coordinates") == list(case.source.coordinates), "coordinates")
    must(told.pop("steps") == model.steps, "steps")
    time_ = case.source.time or (None, None)
    must((told.pop("time_of_step"), told.pop("time_unit")) == time_, "time")
    must(told.pop("sha256") == hashlib.sha256(case.data).hexdigest(), "sha256")
    packed = case.data if case.data[:1] == b"\x01" else case.source.data
    must(told.pop("packed_sha256") == hashlib.sha256(packed).hexdigest(), "packed_sha256")
    check_notes(case, told.pop("notes"))
    for one in directions:
        check_json_direction(answer, dict(one))
    check_order(answer, [check_json_guard(answer, dict(one)) for one in guards])
    must(told.pop("status") == answer.status, "status")
    must(not told, "more", told)
    COUNTED["models"] += 1
    COUNTED["directions"] += len(directions)
    COUNTED["guards"] += len(guards)
    return answer


def check_notes(case: Case, notes: list[str]) -> None:
    """How much was rounded, and that there is no input set; of a packed file nothing of either."""
    matrix, stored = written_matrix(case.data, case.model), case.model.matrix
    changes = [
        abs(MATRIX_UNIT * entry - kept) / abs(MATRIX_UNIT * entry)
        for row, entries in zip(matrix, stored)
        for entry, kept in zip(row, entries)
        if MATRIX_UNIT * entry != kept
    ]
    left = list(notes)
    for note in notes:
        if found := re.match(r"(\d+) entr\S+ w\S+ rounded \(.*\); .* change is ([\d.]+) %", note):
            must(int(found[1]) == len(changes), "rounded", note)
            percent = Printed(found[2])
            must(abs(percent - 100 * max(changes)) <= percent.last, "change", note)
            left.remove(note)
        elif note.startswith("no input set: "):
            must(not case.source.input_stated, note)
            left.remove(note)
    must(not left, "other notes", left)
    if case.data[:1] != b"\x01":
        must(len(notes) == bool(changes) + (not case.source.input_stated), notes, len(changes))


# CSV


def in_csv(text: bytes) -> list[dict[str, str]]:
    return list(csv.DictReader(io.StringIO(text.decode(), newline="")))


def check_csv_row(answer: Answer, row: dict[str, str]) -> int | None:
    """A row of a guard or, of a direction without one, of that; the guard's number."""
    case, row = answer.case, dict(row)
    number = case.source.directions.index(row.pop("direction"))
    unit, counts = case.unit(number)
    swept, peak = answer.listing.directions[number], None

    def number_or_none(column: str) -> Printed | None:
        text = row.pop(column)
        return Printed(text) if text else None

    must((row.pop("model"), row.pop("result")) == (case.name, "answered"), "model")
    must(row.pop("unit") == (unit or "counts"), "unit")
    must(int(row.pop("factor")) == answer.factors[number], "factor")
    bound, slack = number_or_none("bound"), number_or_none("slack")
    if isinstance(swept, Growth):
        must(bound is None and slack is None, "no bound")
    else:
        peak = swept.bounds.index(max(swept.bounds))
        proved = (swept.bounds[peak], swept.slacks[peak])
        check_bound(bound, slack, proved, answer.scale(number), number)
        must(max(case.values[number]) <= bound * counts, "a run passes the bound")
        must(case.values[number][peak] >= (bound - slack) * counts, "no run comes near")
    must(number_or_none("bound_step") == peak, "step")
    must(number_or_none("bound_time") == case.time(peak), "time")
    growth = swept.step if isinstance(swept, Growth) else None
    must(number_or_none("growth_step") == growth, "growth")
    largest, above = number_or_none("largest_as_written"), number_or_none("most_above_bound")
    largest_above = number_or_none("above_largest_bound")
    if case.written is None:
        must(largest is None and above is None and largest_above is None, "as written")
    else:
        check_above_largest(answer, number, largest_above)
        check_rounded_up(largest, max(case.written[number]) / counts, "as written")
        most = max(answer.above(number).values(), default=None)
        must((above is None) == (most is None), "above")
        if most is not None:
            check_rounded_up(above, most, "above")
    must(row.pop("time_unit") == (case.source.time or (0, ""))[1], "time unit")
    must(row.pop("message") == "", "message")
    name = row.pop("guard")
    if not name:
        must(not any(row.values()), "no guard", row)
        return None
    guard = case.guard_names.index(name)
    must(case.model.guards[guard][0] == number, "direction of the guard")
    level, said = case.model.guards[guard][1], answer.listing.guards[guard]
    must(Fraction(row.pop("level")) == Fraction(level, counts), "level")
    must(row.pop("verdict") == said.word, "verdict")
    must(number_or_none("verdict_step") == said.step, "step")
    must(number_or_none("verdict_time") == case.time(said.step), "time")
    must(number_or_none("reached_as_written_step") == answer.reached(number, level), "as written")
    check_written_margin(answer, guard, number_or_none("margin_as_written"))
    least, most = number_or_none("margin_least"), number_or_none("margin_most")
    if said.word == GROWTH:
        must(least is None and most is None, "no margin")
    else:
        check_margins(answer, guard, least, most)
    must(row.pop("clear") == ("yes" if answer.word(guard) == CLEAR else "no"), "clear")
    must(not row, "more", row)
    return guard


def check_csv_model(answer: Answer, rows: list[dict[str, str]]) -> None:
    guards = [check_csv_row(answer, row) for row in rows]
    check_order(answer, [guard for guard in guards if guard is not None])
    told = {row["direction"] for row in rows}
    must(told == set(answer.case.source.directions), "every direction has a row", told)


# The text


def guard_words(answer: Answer) -> str:
    """How many guards have which word, as the text tells it."""
    words = [HIT, AS_WRITTEN, GROWTH, UNKNOWN, CLEAR]
    counts = collections.Counter(map(answer.word, range(len(answer.case.model.guards))))
    told = [f"{counts[word]} {word}" for word in words if counts[word]]
    return ", ".join(told).replace(AS_WRITTEN, "REACHED AS WRITTEN") or "no guard"


def check_text_verdict(answer: Answer, guard: int, told: str) -> None:
    said = answer.listing.guards[guard]
    if said.word == CLEAR:
        must(told == answer.word(guard), "verdict", told)
        return
    word, place = matched(r"(\w+) at step (.*)", told)
    must(word == said.word, "verdict", told, said)
    check_place(answer.case, place, said.step)


def check_text_margin(answer: Answer, guard: int, told: str) -> None:
    """What the margin says is true, and not much weaker than what is proved."""
    number, level = answer.case.model.guards[guard]
    word = answer.listing.guards[guard].word
    if word == GROWTH:
        must(told == "no bound", told)
        return
    name, counts = answer.case.unit(number)
    truth = (level - max(answer.case.values[number])) / counts
    low = Fraction(level, counts) - max(answer.lows(number))
    if word == CLEAR:
        figure, unit = matched(rf"clear by ({NUMBER}) (\S+)", told)
        check_unit(unit, name, figure)
        check_rounded_down(Printed(figure), answer.margin(guard), told)
        must(0 <= Printed(figure) <= truth, told)
    elif word == UNKNOWN:
        short, past, unit = matched(rf"between ({NUMBER}) short and ({NUMBER}) (\S+) past", told)
        check_unit(unit, name, past)
        check_rounded_up(Printed(short), low, told)
        check_rounded_up(Printed(past), -answer.margin(guard), told)
        must(-Printed(past) <= truth <= Printed(short), told)
        must(Printed(short) >= 0 < Printed(past), told)
    else:
        figure, unit = matched(rf"passed by ({NUMBER}) (\S+)", told)
        check_unit(unit, name, figure)
        passed = Printed(figure)
        must(passed > 0, told)
        check_rounded_down(passed, -low, told)
        must(-truth >= passed, told)


def check_text_guard(answer: Answer, cells: dict[str, str]) -> int:
    case, cells = answer.case, dict(cells)
    guard = case.guard_names.index(cells.pop("guard"))
    number, level = case.model.guards[guard]
    level_ = Fraction(level, case.unit(number)[1])
    check_claim(case, number, cells.pop("reached where"), level_, exactly=True)
    check_text_verdict(answer, guard, cells.pop("verdict"))
    rounded = case.written is not None
    check_text_margin(answer, guard, cells.pop("margin as stored" if rounded else "margin"))
    if rounded:
        check_text_as_written(answer, guard, cells.pop("as written"))
    must(not cells, "more", cells)
    return guard


def check_text_as_written(answer: Answer, guard: int, told: str) -> None:
    """`clear by 5.03 °C` or `passed by 0.26 °C from step 255`."""
    case, (number, level) = answer.case, answer.case.model.guards[guard]
    name, counts = case.unit(number)
    margin = (level - max(case.written[number])) / counts
    step = answer.reached(number, level)
    pattern = rf"clear by ({FIGURE}) (\S+)" if step is None else (
        rf"passed by ({FIGURE}) (\S+) from step {step}")
    figure, unit = matched(pattern, told)
    check_unit(unit, name, figure)
    check_figure(figure, margin if step is None else -margin, step is not None, told)
    shown = Fraction(figure.replace(",", ""))
    must(shown > 0 or step is None and shown == 0, told)


def check_figure(figure: str, value: Fraction, up: bool, told: str) -> None:
    """A figure that is rounded; a huge one is told by three digits."""
    if "e" in figure:
        must(abs(value) >= 10**18, "not huge", told)
        shown = Fraction(figure)
        must(0 <= (shown - value) * (1 if up else -1) <= abs(value) / 99, "huge", told)
    else:
        (check_rounded_up if up else check_rounded_down)(Printed(figure), value, told)


def check_text_direction(answer: Answer, cells: dict[str, str]) -> int:
    case, cells = answer.case, dict(cells)
    number = case.source.directions.index(cells.pop("direction"))
    name, counts = case.unit(number)
    swept = answer.listing.directions[number]
    rounded = case.written is not None
    claim = cells.pop("so in every run as stored" if rounded else "so in every run")
    bound, slack = cells.pop("largest bound"), cells.pop("slack")
    place, factor = cells.pop("at step"), cells.pop("factor")
    must(not cells, "more", cells)
    if isinstance(swept, Growth):
        must(claim.startswith("refused for growth at step "), claim)
        check_place(case, claim.removeprefix("refused for growth at step "), swept.step)
        must((bound, place, slack, factor) == ("none", "", "", ""), cells)
        return number
    must(int(factor) == answer.factors[number], "factor")
    peak = check_place(case, place, swept.bounds.index(max(swept.bounds)))
    figures = []
    for cell in (bound, slack):
        figure, unit = matched(rf"({NUMBER}) (\S+)", cell)
        check_unit(unit, name, figure)
        figures.append(Printed(figure))
    check_bound(*figures, (swept.bounds[peak], swept.slacks[peak]), answer.scale(number), number)
    must(max(case.values[number]) <= figures[0] * counts, "a run passes the bound")
    must(case.values[number][peak] >= (figures[0] - figures[1]) * counts, "no run comes near")
    must(check_claim(case, number, claim, None, exactly=False) == figures[0], "claim", claim)
    return number


def check_text_written(answer: Answer, cells: dict[str, str]) -> int:
    case, cells = answer.case, dict(cells)
    number = case.source.directions.index(cells.pop("direction"))
    name, counts = case.unit(number)
    values = [value / counts for value in case.written[number]]
    figure, unit = matched(rf"({FIGURE}) (\S+)", cells.pop("largest as written"))
    check_unit(unit, name, figure)
    check_figure(figure, max(values), True, "as written")
    check_place(case, cells.pop("at step"), values.index(max(values)))
    told, above = cells.pop("above its bound"), answer.above(number)
    must(not cells, "more", cells)
    if isinstance(answer.listing.directions[number], Growth):
        must(told == "no bound", told)
    elif not above:
        must(told == "at no step", told)
    else:
        pattern = rf"at (\d+) (steps?), by up to ({NUMBER}) (\S+) at (.*)"
        count, steps, figure, unit, place = matched(pattern, told)
        check_unit(unit, name, figure)
        must(int(count) == len(above) and steps == "step" + "s" * (len(above) > 1), told)
        check_rounded_up(Printed(figure), max(above.values()), told)
        check_rounded_up(Printed(figure), above[check_place(case, place)], "step above", told)
    return number


def check_text_model(answer: Answer, section: Section) -> None:
    case, model = answer.case, answer.case.model
    _, n, steps, time_, unit, words = section.heading.groups()
    must((section.name, int(n), int(steps)) == (case.name, model.n, model.steps), "heading")
    at = case.time(model.steps)
    must((Printed(time_) if time_ else None) == at, "time", time_)
    must(unit == (case.source.time[1] if case.source.time else None), "time unit")
    must(words == guard_words(answer), "words", words)
    tables = list(section.tables)
    if model.guards:
        check_order(answer, [check_text_guard(answer, cells) for cells in tables.pop(0)])
    checks = [check_text_direction] + [check_text_written] * (case.written is not None)
    must(len(tables) == len(checks), "tables")
    for check, cells in zip(checks, tables):
        numbers = [check(answer, one) for one in cells]
        must(sorted(numbers) == list(range(len(model.directions))), "each direction once")
    warnings = [row for row in section.rest if row.startswith("WARNING: ")]
    passed = set()
    if case.written is not None:
        names = case.source.directions
        passed = {name for number, name in enumerate(names) if answer.above(number)}
    must(len(warnings) == bool(passed), "warnings", warnings)
    for row in warnings:
        check_warning(answer, row, passed)
    notes = [row.removeprefix("note: ") for row in section.rest if row.startswith("note: ")]
    must(len(notes) + len(warnings) == len(section.rest), "rows", section.rest)
    check_notes(case, notes)


def check_warning(answer: Answer, row: str, passed: set[str]) -> None:
    """Each direction that passes a bound is named once, and its largest bound with the amount."""
    (told,) = matched(r"WARNING: as written, (.*); the bounds are those of the stored, rounded matrix",
                      row)
    named = []
    for part in re.split(r", (?=\S+ passes)", told):
        name, largest, figure, unit = matched(
            rf"(\S+) passes (?:its largest bound by (({NUMBER}) (\S+))|the bound of some step)", part)
        number = answer.case.source.directions.index(name)
        check_above_largest(answer, number, Printed(figure) if largest else None)
        if largest:
            check_unit(unit, answer.case.unit(number)[0], figure)
        named.append(name)
    must(sorted(named) == sorted(passed), "warning", row)


def check_all(cases: list[Case], folder: Path, plain: bool, part: int = 1) -> list[Answer]:
    """Run the report on some models as JSON, and on each so many of them as CSV and text too.

    Every number is checked.
    """
    options = ["--plain"] * plain
    words, some = ([case.name for case in each] for each in (cases, cases[::part]))
    calls = ["--json", *options, *words], ["--csv", *options, *some], ["--full", *options, *some]
    as_json, as_csv, as_text = finished_all(calls, cwd=folder)
    told = in_json(as_json.stdout)
    assert [one["name"] for one in told["models"]] == words
    answers = [check_json_model(case, one, plain) for case, one in zip(cases, told["models"])]
    for done, answered in ((as_json, answers), (as_csv, answers[::part]), (as_text, answers[::part])):
        status = 3 if any(answer.status for answer in answered) else 0
        assert (done.returncode, done.stderr) == (status, b""), done
    assert told["status"] == as_json.returncode
    rows = collections.defaultdict(list)
    for row in in_csv(as_csv.stdout):
        rows[row["model"]].append(row)
    found = sections(as_text.stdout)
    assert list(rows) == [section.name for section in found] == some
    for answer, section in zip(answers[::part], found):
        check_csv_model(answer, rows[answer.case.name])
        check_text_model(answer, section)
    return answers


# Random models


def random_text(rng: random.Random) -> str:
    """A text with units, counts, a time, names, and rows of all kinds."""
    while True:
        model = models.random_model(rng)
        if exact.check_cost(model) < MOST_COST and model.steps <= 16:
            break
    names = rng.choice((["rail", "current", "set.point", "a-b", "Ω", "_x"], [f"x{i}" for i in range(6)]))
    names = names[: model.n]
    rows = [f"coordinates {' '.join(names)}" if rng.random() < 0.8 else f"coordinates {model.n}"]
    if rows[0][-1].isdigit():
        names = [f"x{i}" for i in range(model.n)]
    rows.append(f"steps {model.steps}")
    if rng.random() < 0.6:
        rows.append(f"time {rng.choice(('1.25', '0.125', '3', '1000', '0.00001', '7.3'))} {rng.choice(('ms', 's', 'µs'))}")
    rounded = rng.random() < 0.8
    for entries in model.matrix:
        kind = rng.choice(("~", "~", "fitted", "row", "scaled")) if rounded else rng.choice(("row", "scaled"))
        rows.append(random_row(rng, kind, entries))
    if any(model.drift):
        rows.append(f"drift {' '.join(map(str, model.drift))}")
    sets = [("initial", model.initial)] + [("input", model.input)] * (model.input != zero_box(model.n))
    for which, set_ in sets:
        rows.append(f"{which} {set_.form}")
        first, other = {"box": ("lower", "upper"), "zonotope": ("centre", "generator")}.get(
            set_.form, ("vertex", "vertex")
        )
        for index, point in enumerate(set_.points):
            rows.append(f"  {other if index else first} {' '.join(map(str, point))}")
    counts = ("", " 2", " 3", " 7", " 16", " 60", " 1000", " 4096", " 1000000", " 999999937")
    for name in names if rng.random() < 0.5 else ():
        rows.append(f"unit {name} {rng.choice(('mV', '°C'))}{rng.choice(counts[:5])}")
    called = [f"d{number}" if rng.random() < 0.5 else f"peak.{number}" for number in range(len(model.directions))]
    for name, entries in zip(called, model.directions):
        rows.append(f"direction {name} {' '.join(map(str, entries))}")
        if rng.random() < 0.5:
            rows.append(f"unit {name} {rng.choice(('A', 'W/m²', '%'))}{rng.choice(counts)}")
    text = "\n".join(rows) + "\n"
    return text + random_guards(rng, Case("", text.encode()), called)


def random_row(rng: random.Random, kind: str, entries: Sequence[int]) -> str:
    """A row that becomes about this one."""
    if kind == "scaled":
        return "scaled " + " ".join(map(str, entries))
    if kind == "row":
        return "row " + " ".join(f"{Decimal(entry) / MATRIX_UNIT:f}" for entry in entries)
    shifts = [rng.choice((0, rng.uniform(-0.5, 0.5))) for _ in entries]
    values = [(entry + shift) / MATRIX_UNIT for entry, shift in zip(entries, shifts)]
    values = [min(max(value, -2.0), 2.0) for value in values]
    if kind == "fitted":
        return "fitted " + " ".join(rng.choice((repr, float.hex))(value) for value in values)
    return "row " + " ".join(f"~{value:.{rng.choice((4, 6, 9))}f}" for value in values)


def swept_levels(rng: random.Random, model: Model, number: int) -> list[int]:
    """Levels at or beside bounds of a direction as it is and, where one is whole, multiplied.

    A bound - slack counts as a bound here.
    """
    entries = model.directions[number]
    levels = [models.level_near(rng, exact.sweep(model, entries))]
    factor = MAX_DIRECTION_ENTRY // max(map(abs, entries))
    swept = exact.sweep(model, tuple(factor * entry for entry in entries))
    if not isinstance(swept, Growth):
        values = (*swept.bounds, *map(sub, swept.bounds, swept.slacks))
        whole = [value // factor for value in values if value % factor == 0]
        levels += [rng.choice((max(whole), *whole)) + rng.choice((-1, 0, 0, 1))] if whole else []
    return levels


def random_guards(rng: random.Random, case: Case, names: list[str]) -> str:
    """Guards at and about the bounds and the largest values, those as written too."""
    rows = []
    for number in range(rng.choice((0, 1, 3, 6, 16))):
        direction = rng.randrange(len(names))
        values = rng.choice((case.values, case.written or case.values))[direction]
        value = rng.choice((max(values), max(values), rng.choice(values)))
        near = (math.floor(value), math.ceil(value), math.floor(value) - 1, math.ceil(value) + 1)
        spread = math.ceil(max(values) - min(values))
        far = (value.__ceil__() + rng.randint(-spread, spread), MIN_LEVEL, MAX_LEVEL, 0)
        if case.written is not None and rng.random() < 0.2:
            near = far = (math.floor(max(case.written[direction])),)  # maybe above all stored values
        levels = (*near, *near, *far)
        if rng.random() < 0.4:
            levels = swept_levels(rng, case.model, direction)
        level = min(max(rng.choice(levels), MIN_LEVEL), MAX_LEVEL)
        rows.append(f"guard {names[direction]} {level}" + rng.choice(("", f" g{number}")))
    return "".join(row + "\n" for row in rows)


def random_cases(seed: int, packed: int, texts: int) -> Iterator[Case]:
    """Accepted models, packed (some with fitted rows) and as texts."""
    rng = random.Random(seed)
    for number in range(packed):
        while True:
            model = models.random_model(rng)
            if exact.check_cost(model) < MOST_COST and model.steps <= 16:
                break
        fitted = {}
        if rng.random() < 0.3:
            rows = range(model.n)
            fitted = {row: [models.becoming(rng, entry) for entry in model.matrix[row]] for row in rows}
            tiny = [bits for row in fitted.values() for bits in row if abs(float_of(bits)) < 2**-90]
            fitted = {} if any(map(float_of, tiny)) else fitted  # figures of many thousand digits
        stated = model.input != zero_box(model.n) or rng.random() < 0.5
        yield Case(f"p{number:03}.bin", encode(model, input_stated=stated, fitted_rows=fitted))
    for number in range(texts):
        yield Case(f"t{number:03}.model", random_text(rng).encode())
