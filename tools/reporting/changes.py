"""What differs between two reports: of each direction the peak, of each guard verdict and margin.

Directions go together by their names, and where a name is in one report only, by their entries;
guards by their names, then by direction and level, and what is left of a direction in order.
"""

from __future__ import annotations

from dataclasses import dataclass, replace
from fractions import Fraction
from typing import Callable, Hashable, Iterable, TypeVar

from answers import Direction, Figures, Guard

from .reports import Report

Part = TypeVar("Part")
GuardFigures = tuple[Figures, Guard]


def paired(
    old: Iterable[Part], new: Iterable[Part], keys: Iterable[Callable[[Part], Hashable | None]]
) -> list[tuple[Part | None, Part | None]]:
    """The parts of two reports that go together, by the first key that fits; then the old ones."""
    left_old, left_new = list(old), list(new)
    order, found = list(left_new), {}
    for key in keys:
        for one in list(left_new):
            fitting = (o for o in left_old if key(one) is not None and key(o) == key(one))
            if (other := next(fitting, None)) is not None:
                found[id(one)] = other
                left_old.remove(other)
                left_new.remove(one)
    return [(found.get(id(one)), one) for one in order] + [(one, None) for one in left_old]


@dataclass(frozen=True)
class Change:
    """A figure before and now as told, with its decimals; None where there is none."""

    old: Fraction | None
    new: Fraction | None
    places: int
    comparable: bool = False  # of one quantity, in one unit
    same: bool = False  # and equal, before any rounding

    @property
    def difference(self) -> Fraction | None:
        if self.old is None or self.new is None or not self.comparable:
            return None
        return self.new - self.old


@dataclass(frozen=True)
class DirectionChange:
    old: Figures | None
    new: Figures | None
    comparable: bool  # whether both are there, and are the same direction in the same unit

    @property
    def either(self) -> Figures:
        return self.new or self.old

    @property
    def units(self) -> list[str]:
        """The units of the two, one where they are in the same."""
        there = [one.direction.unit_name for one in (self.old, self.new) if one is not None]
        return list(dict.fromkeys(there))

    def change(
        self, told: Callable[[Figures], Fraction], exact: Callable[[Direction], Fraction]
    ) -> Change:
        """The change of a figure that is told so, and is exactly so."""
        old, new = (one if one is not None and one.direction.bounds else None
                    for one in (self.old, self.new))
        places = max((one.places for one in (old, new) if one is not None), default=0)
        values = [None if one is None else told(one) for one in (old, new)]
        both = self.comparable and old is not None and new is not None
        same = both and exact(old.direction) == exact(new.direction)
        return Change(*values, places, self.comparable, same)

    @property
    def bound(self) -> Change:
        """The largest bound."""
        return self.change(lambda one: one.bound(one.direction.peak), lambda one: one.largest_bound)


@dataclass(frozen=True)
class GuardChange:
    old: GuardFigures | None
    new: GuardFigures | None
    direction: DirectionChange

    @property
    def either(self) -> GuardFigures:
        return self.new or self.old

    @property
    def margin(self) -> Change:
        """How far the largest bound stays below the level; below 0 where it is above it."""
        guards = {id(one.direction): guard for one, guard in filter(None, (self.old, self.new))}
        return self.direction.change(
            lambda one: one.margin(guards[id(one.direction)])[0],
            lambda one: one.margin(guards[id(one)])[0],
        )


@dataclass(frozen=True)
class Changes:
    old: Report
    new: Report
    directions: list[DirectionChange]
    guards: list[GuardChange]


def named_like(report: Report, other: Report) -> Report:
    """The report of a packed file with the names and units of a text that has its directions."""
    entries = [[one.entries for one in each.directions] for each in (report, other)]
    if not report.packed or other.packed or entries[0] != entries[1]:
        return report
    guards = [each.source.model.guards for each in (report, other)]
    names = other.source.guards if guards[0] == guards[1] else (None,) * len(guards[0])
    return replace(
        report,
        source=replace(
            report.source, coordinates=other.source.coordinates, time=other.source.time,
            directions=other.source.directions,
        ),
        directions=tuple(
            replace(
                one, name=by.name, unit=by.unit, coefficients=by.coefficients,
                guards=tuple(replace(guard, name=names[guard.number]) for guard in one.guards),
            )
            for one, by in zip(report.directions, other.directions)
        ),
    )


def changes(old: Report, new: Report) -> Changes:
    """What differs in a report from another one, in the order of the new one.

    A packed file has neither names nor units; where its directions are those of the text that it
    is compared with, it takes the text's.
    """
    old, new = named_like(old, new), named_like(new, old)
    directions = paired(
        old.ordered, new.ordered,
        (lambda one: one.direction.name, lambda one: one.direction.entries),
    )
    # The name of a direction in the new report, so that guards on the same one can be told.
    names = {id(o): n.direction.name for o, n in directions if o is not None and n is not None}

    def watched(pair: GuardFigures) -> str:
        return names.get(id(pair[0]), pair[0].direction.name)

    guards = paired(
        old.guards, new.guards,
        (
            lambda pair: pair[1].name,
            lambda pair: (watched(pair), pair[0].direction.level(pair[1])),
            lambda pair: watched(pair) if pair[1].name is None else None,
        ),
    )

    def between(before: Figures | None, now: Figures | None) -> DirectionChange:
        there = before is not None and now is not None
        same = there and quantity(before, old) == quantity(now, new)
        return DirectionChange(before, now, same)

    return Changes(
        old, new,
        [between(*pair) for pair in directions],
        [GuardChange(*pair, between(*(side and side[0] for side in pair))) for pair in guards],
    )


def quantity(figures: Figures, report: Report) -> tuple[str, dict[str, Fraction]]:
    """What a direction is: its unit, and of each coordinate by name how much of it makes one."""
    one = figures.direction
    entries = zip(report.source.coordinates, one.entries)
    return one.unit_name, {name: Fraction(entry, one.counts) for name, entry in entries if entry}
