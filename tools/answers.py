"""What is answered of the directions and guards of a model, in exact fractions of its own units.

A direction may be multiplied by a whole number, its *factor*, before it is swept, and the levels of
its guards with it: the runs are the same ones, and bound and slack are then divided by the factor.
So everything here is a fraction, in the direction's unit where the text names one and otherwise in
counts. Nothing is run here (`reporting`).

In order: when a level is reached; guards; values of a matrix as it was written; directions, with
nothing rounded; their figures as they are told, rounded outward; the directions of a model, and
pairs of them.
"""

from __future__ import annotations

import math
from dataclasses import dataclass
from fractions import Fraction
from functools import cached_property
from typing import Mapping, Sequence

from layout import Vector
from listings import CLEAR, GROWTH, HIT, UNKNOWN, Growth, Listing, Sweep, Verdict
from quantities import exactly, places_for, places_to, rounded_down, rounded_up
from textform import Source, Unit

# When a level is reached (Verdicts 1): in words, in numbers and as a sign, for reports and charts.
REACHED_MEANS = (
    "A level is reached only where the value is above it; the level of a lowest value, only where"
    " the value is below it."
)


def reaches(value: int, level: int) -> bool:
    """Whether a value reaches a level: only above it. Both are numerators over one denominator."""
    return value > level


def reached_sign(turned: bool) -> str:
    """The sign between a value and a level that it reaches; `turned` if both are negated."""
    return "<" if turned else ">"


@dataclass(frozen=True)
class Guard:
    """A guard: its number and name, its level in counts, and what is said of it."""

    number: int
    name: str | None
    level: int
    said: Verdict

    @property
    def label(self) -> str:
        return self.name or f"guard {self.number}"


@dataclass(frozen=True)
class Written:
    """The exact largest values of the matrix as it was written, before its entries were rounded.

    That of step k is numerators[k] / unit^k, in counts. It is no Fraction: to reduce numbers of
    many thousand digits takes longer than all else.
    """

    unit: int
    numerators: tuple[int, ...]

    @cached_property
    def denominators(self) -> tuple[int, ...]:
        found = [1]
        for _ in self.numerators[1:]:
            found.append(found[-1] * self.unit)
        return tuple(found)

    def passes(self, step: int, counts: Fraction) -> bool:
        """Whether the value is above this one."""
        value = self.numerators[step] * counts.denominator
        return value > counts.numerator * self.denominators[step]

    def reached(self, level: int) -> int | None:
        """The first step at which the value reaches this level."""
        pairs = enumerate(zip(self.numerators, self.denominators))
        return next((step for step, (value, one) in pairs if reaches(value, level * one)), None)

    @cached_property
    def peak(self) -> int:
        """The first step with the largest value."""
        largest, peak = self.numerators[0], 0
        for step, value in enumerate(self.numerators[1:], 1):
            largest *= self.unit
            if value > largest:
                largest, peak = value, step
        return peak

    def minus(self, step: int, counts: int, less: Fraction) -> tuple[int, int]:
        """The value in units of so many counts, minus `less`: numerator and denominator."""
        below = counts * self.denominators[step]
        above = self.numerators[step] * less.denominator - less.numerator * below
        return above, below * less.denominator

    def up(self, step: int, counts: int, places: int, less: Fraction = Fraction(0)) -> Fraction:
        """The same, rounded up to these decimals."""
        above, below = self.minus(step, counts, less)
        return Fraction(-(-above * 10**places // below), 10**places)

    def farthest(self, bounds: Mapping[int, Fraction], counts: int) -> int | None:
        """Of steps with their bounds the first at which the value is the most above the bound."""
        found, most = None, (0, 1)
        for step, bound in bounds.items():
            above, below = self.minus(step, counts, bound)
            if found is None or above * most[1] > most[0] * below:
                found, most = step, (above, below)
        return found


@dataclass(frozen=True)
class Direction:
    """A direction with its guards; `swept` is that of the entries times the factor."""

    number: int
    name: str
    entries: Vector
    swept: Sweep | Growth
    factor: int = 1
    unit: Unit | None = None
    guards: tuple[Guard, ...] = ()
    written: Written | None = None  # only where the matrix was rounded
    # What the coordinates, in the unit that figures are in, are multiplied by; None where the text
    # doesn't tell it.
    coefficients: tuple[Fraction, ...] | None = None

    @property
    def counts(self) -> int:
        """How many counts make one of what its figures are in."""
        return 1 if self.unit is None else self.unit[1]

    @property
    def unit_name(self) -> str:
        return "counts" if self.unit is None else self.unit[0]

    def figure(self, counts: int | Fraction) -> Fraction:
        """A value of this direction, from counts."""
        return Fraction(counts) / self.counts

    @cached_property
    def bounds(self) -> tuple[Fraction, ...]:
        """The bound at each step; none where the direction is refused for growth."""
        if isinstance(self.swept, Growth):
            return ()
        return tuple(self.figure(Fraction(bound, self.factor)) for bound in self.swept.bounds)

    @cached_property
    def lows(self) -> tuple[Fraction, ...]:
        """The bound minus the slack: some run comes to it."""
        if isinstance(self.swept, Growth):
            return ()
        pairs = zip(self.swept.bounds, self.swept.slacks)
        return tuple(self.figure(Fraction(bound - slack, self.factor)) for bound, slack in pairs)

    @cached_property
    def peak(self) -> int:
        """The first step with the largest bound."""
        return self.bounds.index(max(self.bounds))

    @property
    def largest_bound(self) -> Fraction:
        return self.bounds[self.peak]

    @cached_property
    def largest_low(self) -> Fraction:
        """What some run comes to at some step."""
        return max(self.lows)

    def level(self, guard: Guard) -> Fraction:
        return self.figure(guard.level)

    def margin(self, guard: Guard) -> tuple[Fraction, Fraction]:
        """Between which two numbers the level minus the true largest value lies."""
        level = self.level(guard)
        return level - self.largest_bound, level - self.largest_low


# What is said of a guard, the most urgent first. A guard that the stored matrix leaves clear, and
# that the matrix as written reaches, stands right behind those that are hit.
REACHED_AS_WRITTEN = "REACHED AS WRITTEN"
URGENCY = (HIT, REACHED_AS_WRITTEN, GROWTH, UNKNOWN, CLEAR)


@dataclass(frozen=True)
class Figures:
    """A direction with the decimals that its figures are told with, all rounded outward."""

    direction: Direction

    @cached_property
    def places(self) -> int:
        """As many as tell a tenth of the slack and of each margin; fewer where that is exact.

        Where there is no slack, a count of the multiplied direction stands for ten of it.
        """
        one = self.direction
        if isinstance(one.swept, Growth):
            return places_to(Fraction(1, one.counts))
        finest = Fraction(1, 10 * one.factor * one.counts)
        slacks = [bound - low for bound, low in zip(one.bounds, one.lows)]
        margins = [end for guard in one.guards for end in one.margin(guard)]
        sizes = [slacks[one.peak] or finest, *map(abs, filter(None, margins))]
        peak = [one.largest_bound, one.lows[one.peak], *margins]
        every = [*one.bounds, *one.lows]
        return max(places_for(peak, min(sizes)), places_for(every, max(slacks) or finest))

    def bound(self, step: int) -> Fraction:
        return rounded_up(self.direction.bounds[step], self.places)

    def slack(self, step: int) -> Fraction:
        """What lies between the bound as told and a value that some run comes to."""
        return self.bound(step) - rounded_down(self.direction.lows[step], self.places)

    def margin(self, guard: Guard) -> tuple[Fraction, Fraction]:
        """As `Direction.margin`: the lower end rounded down, the upper one up."""
        least, most = self.direction.margin(guard)
        return rounded_down(least, self.places), rounded_up(most, self.places)

    @property
    def largest_slack(self) -> Fraction:
        return max(self.slack(step) for step in range(len(self.direction.bounds)))

    def written(self, step: int) -> Fraction:
        """The exact value of the matrix as written, rounded up."""
        return self.direction.written.up(step, self.direction.counts, self.places)

    @cached_property
    def above(self) -> dict[int, Fraction]:
        """The steps at which that value is above the bound, with the difference rounded up."""
        one = self.direction
        if one.written is None or isinstance(one.swept, Growth):
            return {}
        return {
            step: one.written.up(step, one.counts, self.places, bound)
            for step, bound in enumerate(one.bounds)
            if one.written.passes(step, one.counts * bound)
        }

    @cached_property
    def most_above(self) -> int | None:
        """The first step at which that difference is largest."""
        one = self.direction
        bounds = {step: one.bounds[step] for step in self.above}
        return one.written.farthest(bounds, one.counts) if bounds else None

    @cached_property
    def above_largest(self) -> Fraction | None:
        """By how much the largest value as written is above the largest bound, rounded up."""
        one, bound = self.direction, self.direction.largest_bound if self.above else None
        if bound is None or not one.written.passes(one.written.peak, one.counts * bound):
            return None
        return one.written.up(one.written.peak, one.counts, self.places, bound)

    def written_margin(self, guard: Guard) -> Fraction:
        """The level minus the largest value as written, rounded down."""
        one = self.direction
        level = one.level(guard)
        return -one.written.up(one.written.peak, one.counts, self.places, level)

    @cached_property
    def reached(self) -> dict[int, int | None]:
        """Of each guard the first step at which the matrix as written reaches the level."""
        written = self.direction.written
        return {
            guard.number: None if written is None else written.reached(guard.level)
            for guard in self.direction.guards
        }

    def reached_as_written(self, guard: Guard) -> int | None:
        return self.reached[guard.number]

    def word(self, guard: Guard) -> str:
        """The verdict's word, or that the level is reached by the matrix as written alone."""
        if guard.said.word == CLEAR and self.reached_as_written(guard) is not None:
            return REACHED_AS_WRITTEN
        return guard.said.word

    def urgency(self, guard: Guard) -> tuple[int, Fraction]:
        """What guards are ordered by: the verdict, then the margin as a share of all bounds."""
        word, one = self.word(guard), self.direction
        if isinstance(one.swept, Growth):
            return URGENCY.index(word), Fraction(0)
        span = one.largest_bound - min(one.lows)
        margin = one.margin(guard)[1 if word == HIT else 0]
        return URGENCY.index(word), margin / (span or 1)


def directions_of(
    listing: Listing,
    source: Source,
    factors: Sequence[int] = (),
    written: Sequence[Written] = (),
) -> tuple[Direction, ...]:
    """The directions of a model, from the listing of the model multiplied by the factors."""
    guards: list[list[Guard]] = [[] for _ in source.directions]
    told = zip(source.model.guards, source.guards, listing.guards)
    for number, ((on, level), name, said) in enumerate(told):
        guards[on].append(Guard(number, name, level, said))
    units = source.direction_units
    return tuple(
        Direction(
            number,
            name,
            source.model.directions[number],
            listing.directions[number],
            factors[number] if factors else 1,
            units[number],
            tuple(guards[number]),
            written[number] if written else None,
            coefficients(source, number),
        )
        for number, name in enumerate(source.directions)
    )


def coefficients(source: Source, number: int) -> tuple[Fraction, ...] | None:
    """Of a direction in its unit, by the coordinates in theirs; None where that isn't known.

    In counts these are its entries. Where all coordinates in it have the unit of the direction,
    their counts and its own make up for each other. Where none of them has a unit, a sum or
    difference of single coordinates is in their counts.
    """
    entries, unit = source.model.directions[number], source.direction_units[number]
    if unit is None:
        return tuple(map(Fraction, entries))
    units = [one for one, entry in zip(source.coordinate_units, entries) if entry]
    if all(one is not None and one[0] == unit[0] for one in units):
        counts = [1 if one is None else one[1] for one in source.coordinate_units]
        return tuple(Fraction(entry * each, unit[1]) for entry, each in zip(entries, counts))
    alone = not any(units) and max(map(abs, entries)) == 1
    return tuple(map(Fraction, entries)) if alone else None


def scale(direction: Direction) -> Fraction:
    """How many counts of its primitive direction (entries without a common divisor) make a unit."""
    return Fraction(direction.counts, math.gcd(*direction.entries))


def opposite(one: Direction, other: Direction) -> bool:
    """Whether two directions are the highest and the lowest of the same, in the same unit."""

    def primitive(entries: Vector) -> Vector:
        return tuple(entry // math.gcd(*entries) for entry in entries)

    turned = tuple(-entry for entry in primitive(other.entries))
    same_unit = one.unit_name == other.unit_name and scale(one) == scale(other)
    return primitive(one.entries) == turned and same_unit


def expression(factors: Sequence[int | Fraction], names: Sequence[str]) -> str:
    """A sum over the coordinates: `-rail + 2 sink`."""
    told = ""
    for factor, name in zip(factors, names):
        if factor:
            sign = "-" if factor < 0 else "+" if told else ""
            times = "" if abs(factor) == 1 else f"{exactly(Fraction(abs(factor)), grouped=False)} "
            told += f" {sign} {times}{name}" if told else f"{sign}{times}{name}"
    return told
