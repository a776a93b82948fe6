"""The factor of each direction: the largest whole number that it can be multiplied by.

The entries stay within their limit, and the program doesn't refuse the direction for growth. Both
are asked for each factor by itself, from the largest on: an error may be larger for a smaller
factor, since a division is exact for some factors and not for others, so one that is refused says
nothing of the others.
"""

from __future__ import annotations

from dataclasses import replace
from typing import Callable, Sequence

from layout import MAX_DIRECTION_ENTRY, MAX_DIRECTIONS, MAX_LEVEL, MIN_LEVEL, Model, Vector
from listings import Growth, Sweep

Swept = Callable[[Sequence[Vector]], Sequence[Sweep | Growth]]  # of at most sixteen directions


def times(factor: int, entries: Vector) -> Vector:
    return tuple(factor * entry for entry in entries)


def factors_by_limit(entries: Vector) -> range:
    """The factors that keep a direction's entries within their limit, from the largest on."""
    return range(MAX_DIRECTION_ENTRY // max(map(abs, entries)), 0, -1)


def largest_factors(directions: Sequence[Vector], swept: Swept) -> list[int]:
    """The largest factor of each direction that growth doesn't refuse; 1 where it refuses all."""
    found = [1] * len(directions)
    pending = {number: factors_by_limit(entries) for number, entries in enumerate(directions)}
    while pending:
        share = MAX_DIRECTIONS // len(pending)
        tried = [(number, factor) for number, rest in pending.items() for factor in rest[:share]]
        told = swept([times(factor, directions[number]) for number, factor in tried])
        for (number, factor), said in zip(tried, told):
            if number in pending and isinstance(said, Sweep):
                found[number] = factor
                del pending[number]
        pending = {number: rest[share:] for number, rest in pending.items() if rest[share:]}
    return found


def multiplied(model: Model, factors: Sequence[int]) -> Model:
    """The model with each direction, and the levels of its guards, multiplied by its factor.

    A level that 64 bits don't hold any more becomes the last one that they hold. No bound and no
    bound - slack comes near either end, so the verdict is that of the level itself (Verdicts 6).
    """

    def level(number: int, value: int) -> int:
        return min(max(factors[number] * value, MIN_LEVEL), MAX_LEVEL)

    return replace(
        model,
        directions=tuple(map(times, factors, model.directions)),
        guards=tuple((number, level(number, value)) for number, value in model.guards),
    )
