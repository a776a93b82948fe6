#!/usr/bin/env python3
"""The exact program: slow, plain, and written apart from the Rattle code.

It was made from the words of the request, before docs/SPECIFICATION.md was. A change of it is made
from the changed clauses, before the Rattle side is looked at.

In order: the reader of files, and how it rounds fitted entries; the writer; supports and reaches,
of a set and of what enters at a step; the recurrence over whole numbers; the listing; calm models
and the limit of their slacks; and, apart from all of these, the exact largest values as fractions,
by corners, with the check of the accuracy rule against them. `unrounded_values` has those of a
matrix of any fractions.

    exact.py FILE              print the listing of a file (standard input without FILE, or for `-`)
    exact.py --check FILE      and check the accuracy rule of what is printed, and the limit of the
                               slacks if the model is calm
    exact.py --canonical FILE  write the one file of its model in place of the listing

FILE is a packed model, or a text, which is packed first.
"""

from __future__ import annotations

import argparse
import itertools
import math
import sys
from fractions import Fraction
from operator import add, mul
from typing import Collection, Iterator, Sequence

import files
import listings
from layout import (
    BODY_LENGTHS, BOX, CENTRE, DEFAULT_STEPS, DIRECTION, DIRECTION_UNIT, DRIFT, END, FITTED,
    GROWTH_LIMIT, GUARD, HEAD, INITIAL, INPUT, LOWER, MATRIX_UNIT, MAX_DIRECTION_ENTRY,
    MAX_DIRECTIONS, MAX_ENTRY, MAX_FACTOR, MAX_GUARDS, MAX_N, MAX_POINTS, MAX_REACH, MAX_SPARE,
    MAX_STEPS, MIN_POINTS, POINT_KINDS, READ_LIMIT, ROW, VERTEX, ZONOTOPE, Model, Set, Vector,
    encode, zero_box,
)
from listings import CLEAR, GROWTH, HIT, UNKNOWN, Growth, Listing, Refusal, Sweep, Verdict

# "Refusals by place", in words.
REASONS = {
    1: "the file ends before the record does",
    2: "unknown kind of record",
    3: "a record of this kind is not allowed here",
    4: f"n is not 1 to {MAX_N}, or the steps are not 0 to {MAX_STEPS}",
    5: f"a row out of turn, or an entry of a scaled row not {-MAX_ENTRY:,} to {MAX_ENTRY:,}",
    6: f"the reach of the set passes {MAX_REACH:,}, or its upper corner is below its lower",
    7: f"an entry beyond {-MAX_DIRECTION_ENTRY:,} to {MAX_DIRECTION_ENTRY:,}, or all entries zero",
    8: "a guard on a direction that is not there",
    9: "one generator, vertex, direction or guard too many",
    10: "bytes follow the end",
    15: f"an entry of a fitted row that is no number from {-MAX_FACTOR} to {MAX_FACTOR}",
    16: "an entry beyond n that is not zero",
    17: f"the drift, or the reach of the input set with the drift, passes {MAX_REACH:,}",
}


# The file and its refusals


class _Refused(Exception):
    pass


class _File:
    """A place in a file, moved on record by record."""

    def __init__(self, data: bytes) -> None:
        self.data = data[:READ_LIMIT]
        self.at = 0  # the next record's kind byte
        self.start = 0  # the kind byte of the record whose body was taken last

    def kind(self, allowed: Collection[int], full: Collection[int] = ()) -> int:
        """The next kind, tested by 1, 2, 3 (not `allowed`) and 9 (of a list that is `full`)."""
        if self.at == len(self.data):
            raise _Refused(1, len(self.data))
        kind = self.data[self.at]
        if kind not in BODY_LENGTHS:
            raise _Refused(2, self.at)
        if kind not in allowed:
            raise _Refused(3, self.at)
        if kind in full:
            raise _Refused(9, self.at)
        return kind

    def body(self) -> bytes:
        """The next record's body, tested by 1; the place moves behind it."""
        end = self.at + 1 + BODY_LENGTHS[self.data[self.at]]
        if end > len(self.data):
            raise _Refused(1, self.at)
        body = self.data[self.at + 1 : end]
        self.start, self.at = self.at, end
        return body

    def require(self, condition: bool, number: int) -> None:
        """Refuse the record taken last by this number unless the condition holds."""
        if not condition:
            raise _Refused(number, self.start)

    def require_zeros(self, beyond: Sequence[Fraction | int | None]) -> None:
        """Refuse the record taken last unless its entries beyond n are all zero (Refusals 16)."""
        self.require(all(entry == 0 for entry in beyond), 16)


def _signed(data: bytes) -> int:
    return int.from_bytes(data, "little", signed=True)


def _numbers(data: bytes) -> Vector:
    """The six numbers of 4 bytes."""
    return tuple(_signed(data[4 * i : 4 * i + 4]) for i in range(MAX_N))


def _vector(file: _File, n: int) -> Vector:
    """The first n numbers of the next body, which holds six and nothing else."""
    numbers = _numbers(file.body())
    file.require_zeros(numbers[n:])
    return numbers[:n]


# Fitted entries


def binary64(bits: int) -> Fraction | None:
    """The exact value of a number of 64 bits (File 11); None of an infinity and of a NaN."""
    sign, exponent, fraction = bits >> 63, bits >> 52 & 0x7FF, bits & 2**52 - 1
    if exponent == 0x7FF:
        return None
    # Without the leading 1 where the exponent is at its least: zeros and the tiniest numbers.
    significand = fraction if exponent == 0 else 2**52 + fraction
    return (-1) ** sign * significand * Fraction(2) ** (max(exponent, 1) - 1075)


def nearest(value: Fraction) -> int:
    """The whole number nearest to a value, and of two that are equally near the even one."""
    below = math.floor(value)
    rest = value - below
    above = rest > Fraction(1, 2) or (rest == Fraction(1, 2) and below % 2 == 1)
    return below + 1 if above else below


def fitted_entry(value: Fraction) -> int:
    """The matrix entry that a fitted value becomes (File 12)."""
    return nearest(MATRIX_UNIT * value)


def _fitted_values(data: bytes) -> tuple[Fraction | None, ...]:
    """The exact values of the six entries of 8 bytes."""
    return tuple(binary64(int.from_bytes(data[8 * i : 8 * i + 8], "little")) for i in range(MAX_N))


# The records of a file


def _read_row(file: _File, number: int, n: int) -> Vector:
    """The entries of the row with this number, scaled or fitted."""
    kind = file.kind({ROW, FITTED})
    body = file.body()
    all_six = _numbers(body[1:]) if kind == ROW else _fitted_values(body[1:])
    file.require_zeros(all_six[n:])
    file.require(body[0] == number, 5)
    values = all_six[:n]
    if kind == ROW:
        file.require(all(abs(entry) <= MAX_ENTRY for entry in values), 5)
        return values
    file.require(all(value is not None and abs(value) <= MAX_FACTOR for value in values), 15)
    return tuple(map(fitted_entry, values))


def _read_drift(file: _File, n: int) -> Vector:
    """The drift, which is zero where the initial set follows the rows."""
    if file.kind({DRIFT, INITIAL + LOWER, INITIAL + CENTRE, INITIAL + VERTEX}) != DRIFT:
        return (0,) * n
    drift = _vector(file, n)
    file.require(all(abs(entry) <= MAX_REACH for entry in drift), 17)
    return drift


def _read_set(file: _File, part: int, drift: Vector, later: set[int]) -> Set:
    """One of the three forms of a set, whose points enter with this drift.

    `later` are the kinds that the next part starts with.
    """
    n = len(drift)
    firsts = {part + first: form for form, (first, _) in POINT_KINDS.items()}
    form = firsts[file.kind(firsts)]
    other = part + POINT_KINDS[form][1]
    points: list[Vector] = []
    while True:
        points.append(_vector(file, n))
        so_far = Set(form, tuple(points))
        in_reach = max(reach(so_far, n)) <= MAX_REACH
        in_order = form != BOX or all(low <= high for low, high in zip(points[0], points[-1]))
        file.require(in_reach and in_order, 6)
        file.require(max(entering_reach(so_far, drift)) <= MAX_REACH, 17)
        allowed = {other} if form != BOX or len(points) == 1 else set()
        if len(points) >= MIN_POINTS[form]:
            allowed |= later
        full = {other} if len(points) == MAX_POINTS[form] else ()
        if file.kind(allowed, full) != other:
            return so_far


def _read(file: _File) -> Model:
    file.kind({HEAD})
    body = file.body()
    n, stated_steps = body[0], int.from_bytes(body[1:], "little")
    file.require(1 <= n <= MAX_N and stated_steps <= MAX_STEPS, 4)
    steps = DEFAULT_STEPS if stated_steps == 0 else stated_steps

    matrix = tuple(_read_row(file, number, n) for number in range(n))
    drift = _read_drift(file, n)
    later = {INPUT + LOWER, INPUT + CENTRE, INPUT + VERTEX, DIRECTION}
    initial = _read_set(file, INITIAL, (0,) * n, later)
    if file.kind(later) == DIRECTION:
        input_ = zero_box(n)
    else:
        input_ = _read_set(file, INPUT, drift, later={DIRECTION})

    directions: list[Vector] = []
    allowed = {DIRECTION}
    while file.kind(allowed, {DIRECTION} if len(directions) == MAX_DIRECTIONS else ()) == DIRECTION:
        entries = _vector(file, n)
        in_limits = all(abs(entry) <= MAX_DIRECTION_ENTRY for entry in entries)
        file.require(in_limits and any(entries), 7)
        directions.append(entries)
        allowed = {DIRECTION, GUARD, END}

    guards: list[tuple[int, int]] = []
    allowed = {GUARD, END}
    while file.kind(allowed, {GUARD} if len(guards) == MAX_GUARDS else ()) == GUARD:
        body = file.body()
        file.require(body[0] < len(directions), 8)
        guards.append((body[0], _signed(body[1:])))

    file.body()
    if file.at < len(file.data):
        raise _Refused(10, file.at)
    return Model(n, steps, matrix, initial, input_, tuple(directions), tuple(guards), drift)


def read_model(data: bytes) -> Model | Refusal:
    """The model of a file, or the number and the offset of its refusal."""
    try:
        return _read(_File(data))
    except _Refused as refused:
        return Refusal(*refused.args)


# Writing


def canonical(model: Model) -> bytes:
    """The one file of a model: nothing is written that a reader puts in by itself.

    Steps are named outright and rows are scaled, a zero drift and an input set that is the box of
    zeros are left out, and points and lists stand in stored order.
    """
    return encode(model, input_stated=model.input != zero_box(model.n))


# Sets and the recurrence


def dot(a: Sequence[int], b: Sequence[int]) -> int:
    return sum(map(mul, a, b))


def support(set_: Set, r: Sequence[int]) -> int:
    """The largest r · x for x in the set, by the formula of its form."""
    if set_.form == BOX:
        lower, upper = set_.points
        return sum(x * (high if x > 0 else low) for x, low, high in zip(r, lower, upper))
    if set_.form == ZONOTOPE:
        centre, *generators = set_.points
        return dot(centre, r) + sum(abs(dot(generator, r)) for generator in generators)
    return max(dot(vertex, r) for vertex in set_.points)


def reach(set_: Set, n: int) -> Vector:
    """The set's largest |coordinate|, for each coordinate; also of a set that is still read."""
    over = sum if set_.form == ZONOTOPE else max
    return tuple(over(abs(point[i]) for point in set_.points) for i in range(n))


def entering_support(input_: Set, drift: Vector, r: Sequence[int]) -> int:
    """The support at r of what enters at a step (Recurrence 15)."""
    return support(input_, r) + dot(drift, r)


def entering_reach(input_: Set, drift: Vector) -> Vector:
    """The reach of what enters (Recurrence 16); also of an input set that is still read."""
    return tuple(map(add, reach(input_, len(drift)), map(abs, drift)))


def up(numerator: int, denominator: int) -> int:
    """The quotient rounded up."""
    return -(-numerator // denominator)


def working(model: Model, direction: Vector) -> Iterator[tuple[list[int], list[int]]]:
    """The working direction r(j) and its errors e(j), in half units; j = 0, 1, .. without end."""
    r = [DIRECTION_UNIT * entry for entry in direction]
    e = [0] * model.n
    columns = list(zip(*model.matrix))
    magnitudes = [[abs(entry) for entry in column] for column in columns]
    while True:
        yield r, e
        sums = [dot(column, r) for column in columns]
        e = [
            up(dot(magnitude, e), MATRIX_UNIT) + (1 if total % MATRIX_UNIT else 0)
            for magnitude, total in zip(magnitudes, sums)
        ]
        # To the nearest unit: // rounds toward minus infinity, so a half goes up.
        r = [(total + MATRIX_UNIT // 2) // MATRIX_UNIT for total in sums]


def growth_sum(r: Sequence[int], e: Sequence[int]) -> int:
    """The largest |r| plus half of e, rounded up, of one step."""
    return max(abs(x) + up(y, 2) for x, y in zip(r, e))


def sweep(model: Model, direction: Vector) -> Sweep | Growth:
    """Spare figure, bounds and slacks of a direction, or the first step with growth."""
    steps = []
    largest = 0
    for j, (r, e) in enumerate(itertools.islice(working(model, direction), model.steps + 1)):
        largest = max(largest, growth_sum(r, e))
        if largest > GROWTH_LIMIT:
            return Growth(j)
        steps.append((r, e))
    spare = max(h for h in range(MAX_SPARE + 1) if 2**h * largest <= GROWTH_LIMIT)

    initial_reach = reach(model.initial, model.n)
    entered_reach = entering_reach(model.input, model.drift)
    bounds, slacks = [], []
    entered = entered_errors = 0  # the sums over all j below k
    for r, e in steps:
        half = up(dot(e, initial_reach) + entered_errors, 2)
        raw_bound = support(model.initial, r) + entered + half
        raw_slack = 2 * half
        bounds.append(up(raw_bound, DIRECTION_UNIT))
        slacks.append(up(raw_slack, DIRECTION_UNIT) + (1 if raw_bound % DIRECTION_UNIT else 0))
        entered += entering_support(model.input, model.drift, r)
        entered_errors += dot(e, entered_reach)
    return Sweep(spare, tuple(bounds), tuple(slacks))


def reaches(value: Fraction | int, level: int) -> bool:
    """Whether a value reaches a level: only above it (Verdicts 1)."""
    return value > level


def verdict(swept: Sweep | Growth, level: int) -> Verdict:
    """What is said of a guard with this level, by the first-step rules."""
    if isinstance(swept, Growth):
        return Verdict(GROWTH, swept.step)
    for step, (bound, slack) in enumerate(zip(swept.bounds, swept.slacks)):
        if reaches(bound - slack, level):
            return Verdict(HIT, step)
    for step, bound in enumerate(swept.bounds):
        if reaches(bound, level):
            return Verdict(UNKNOWN, step)
    return Verdict(CLEAR)


def listing_of(model: Model) -> Listing:
    """The listing of a model, as a value."""
    sweeps = tuple(sweep(model, direction) for direction in model.directions)
    guards = tuple(verdict(sweeps[number], level) for number, level in model.guards)
    return Listing(model.n, model.steps, sweeps, guards)


def listing(data: bytes) -> str:
    """The whole text that the program `envelope` writes for a file."""
    model = read_model(data)
    return listings.write(model if isinstance(model, Refusal) else listing_of(model))


# Calm models: how far rounding can take the slack, whatever the direction


def column_sums(model: Model) -> Vector:
    """The sum of the magnitudes of the entries in each column of the matrix."""
    return tuple(sum(map(abs, column)) for column in zip(*model.matrix))


def calm(model: Model) -> bool:
    """Whether in each column the magnitudes of the entries sum to at most 65,536."""
    return all(total <= MATRIX_UNIT for total in column_sums(model))


def slack_limit(model: Model, step: int) -> int:
    """What no slack of a calm model is above at this step."""
    first = sum(reach(model.initial, model.n))
    each = sum(entering_reach(model.input, model.drift))
    total = step * first + step * (step - 1) // 2 * each
    return up(total + 1, DIRECTION_UNIT) + 1


def steps_within(model: Model, slack: int) -> int | None:
    """The largest step up to which the limit of a calm model stays at or below a slack."""
    kept = itertools.takewhile(lambda step: slack_limit(model, step) <= slack,
                               range(model.steps + 1))
    return max(kept, default=None)


def check_limit(model: Model, found: Listing) -> None:
    """Assert of a calm model's listing: no direction has growth, and no slack passes its limit."""
    limits = [slack_limit(model, step) for step in range(model.steps + 1)]
    for number, swept in enumerate(found.directions):
        assert isinstance(swept, Sweep), f"direction {number}: growth at step {swept.step}"
        assert len(swept.slacks) == len(limits), f"direction {number}: steps 0 to K"
        for step, (slack, limit) in enumerate(zip(swept.slacks, limits)):
            place = f"direction {number} step {step}"
            assert slack <= limit, f"{place}: slack {slack} passes limit {limit}"


# Exact largest values: no support formula, no working direction and no rounding from here on


def corners(set_: Set) -> list[Vector]:
    """Points of the set among which every linear function takes its largest value."""
    if set_.form == BOX:
        return sorted(set(itertools.product(*zip(*set_.points))))
    if set_.form == ZONOTOPE:
        centre, *generators = set_.points
        points = {centre}
        for generator in generators:
            points = {
                tuple(x + sign * y for x, y in zip(point, generator))
                for point in points
                for sign in (-1, 1)
            }
        return sorted(points)
    return sorted(set(set_.points))


def exact_values(model: Model) -> list[list[Fraction]]:
    """The exact largest value of each direction at steps 0 to K.

    A state is the image of the first state plus one image for each input with the drift, and each
    is chosen by itself. So the largest value is the sum of the largest over the images of the
    initial set's corners, and of the input set's, each moved by the drift. The images go forward by
    the matrix, and after k moves are counted in 1 / 65,536^k.
    """
    states = corners(model.initial)
    inputs = [tuple(map(add, corner, model.drift)) for corner in corners(model.input)]
    driven = [Fraction(0)] * len(model.directions)
    values: list[list[Fraction]] = [[] for _ in model.directions]
    for k in range(model.steps + 1):
        unit = MATRIX_UNIT**k
        for number, direction in enumerate(model.directions):
            largest = max(dot(direction, state) for state in states)
            values[number].append(Fraction(largest, unit) + driven[number])
            driven[number] += Fraction(max(dot(direction, point) for point in inputs), unit)
        states, inputs = (
            [tuple(dot(entries, point) for entries in model.matrix) for point in points]
            for points in (states, inputs)
        )
    return values


def unrounded_values(
    model: Model, matrix: Sequence[Sequence[Fraction]]
) -> tuple[int, list[list[int]]]:
    """The exact largest values of the model with this matrix in place of its own.

    The recurrence without its rounding: a direction goes back by the transposed matrix, and a value
    is the sum of the supports there. The entries count in 1/unit, and so the direction after k
    moves, and the value at step k, in 1/unit^k. The answer is the unit, and for each direction its
    values in these counts. It takes no corners, so that large sets cost little.
    """
    unit = math.lcm(*(entry.denominator for entries in matrix for entry in entries))
    columns = [[int(unit * entry) for entry in column] for column in zip(*matrix)]
    values: list[list[int]] = []
    for direction in model.directions:
        r, entered, found = list(direction), 0, []
        for _ in range(model.steps + 1):
            found.append(support(model.initial, r) + entered)
            entered = unit * (entered + entering_support(model.input, model.drift, r))
            r = [dot(column, r) for column in columns]
        values.append(found)
    return unit, values


def check_cost(model: Model) -> int:
    """About how many products `exact_values` takes."""
    points = len(corners(model.initial)) + len(corners(model.input))
    return points * model.n * (model.n + len(model.directions)) * (model.steps + 1)


def check_accuracy(model: Model, told: Listing) -> None:
    """Assert the accuracy rule of a listing's own figures, against the exact largest values."""
    values = exact_values(model)
    assert len(told.directions) == len(model.directions), "as many directions as the model"
    assert len(told.guards) == len(model.guards), "as many guards as the model"
    for number, (swept, exact) in enumerate(zip(told.directions, values)):
        if isinstance(swept, Growth):
            continue
        assert len(swept.bounds) == model.steps + 1, f"direction {number}: steps 0 to K"
        for k, (bound, slack) in enumerate(zip(swept.bounds, swept.slacks)):
            place = f"direction {number} step {k}: exact {float(exact[k])}"
            assert exact[k] <= bound, f"{place} passes bound {bound}"
            assert exact[k] >= bound - slack, f"{place} is below bound {bound} - slack {slack}"
    for index, ((number, level), said) in enumerate(zip(model.guards, told.guards)):
        exact, swept = values[number], told.directions[number]
        place = f"guard {index} level {level}: {said}"
        if isinstance(swept, Growth):
            assert said == Verdict(GROWTH, swept.step), place
        elif said.word == HIT:
            assert reaches(exact[said.step], level), place
        elif said.word == UNKNOWN:
            assert abs(exact[said.step] - level) <= swept.slacks[said.step], place
        else:
            assert said == Verdict(CLEAR), place
            assert not any(reaches(value, level) for value in exact), place


def main() -> None:
    import pack  # these two are above this module
    import refusal

    parser = argparse.ArgumentParser(description="Print the listing of a model.")
    parser.add_argument("file", nargs="?", default="-",
                        help="a model, packed or as a text; - is standard input")
    parser.add_argument("--check", action="store_true",
                        help="also check the accuracy rule, and the slack limit of a calm model")
    parser.add_argument("--canonical", action="store_true",
                        help="write the one file of its model in place of the listing")
    options = parser.parse_args()
    if options.check and options.canonical:
        parser.error("--check is for a listing, and --canonical writes none")
    data, name = files.read_bytes(options.file), files.shown(options.file)
    if pack.starts_as_text(data):
        data = pack.read_text(data, name).data
    model = read_model(data)
    text = listing(data)
    if not options.canonical:
        files.write_bytes(None, text.encode("ascii"))
    if isinstance(model, Refusal):
        raise files.Failure(refusal.message(name, data))
    if options.canonical:
        files.write_bytes(None, canonical(model))
    if options.check:
        checks = {"the accuracy rule": check_accuracy}
        if calm(model):
            checks["the slack limit of a calm model"] = check_limit
        for what, check in checks.items():
            try:
                check(model, listings.parse(text))
            except AssertionError as error:
                raise files.Failure(f"{name}: {what} fails: {error}") from None
            print(f"{what} holds", file=sys.stderr)


if __name__ == "__main__":
    files.run(main)
