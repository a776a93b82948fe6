"""Figures, steps, claims and margins in words, for the terminal and for the page."""

from __future__ import annotations

from fractions import Fraction

from answers import (
    REACHED_AS_WRITTEN, URGENCY, Direction, Figures, Guard, expression, reached_sign,
)
from listings import GROWTH, HIT, UNKNOWN, Growth
from quantities import about, exactly, told

from .reports import Report

MOST_DIGITS = 18  # of a figure before the point; beyond that it is told by its first digits

# What a report rests on, as a text ends with it.
RESTS_ON = (
    "Bounds, slacks and verdicts are the proved program's, for each direction times its factor.",
    "Scaling, outward rounding, values as written and the layout are by tools: tested, not proved.",
)


# The verdict on a guard that the stored matrix leaves clear, and that the one as written reaches.
NOT_AS_WRITTEN = "CLEAR as stored, REACHED as written"


def in_unit(written: str, direction: Direction) -> str:
    """A number with the direction's unit behind it."""
    one = direction.unit is None and written in ("1", "-1")
    return f"{written} {'count' if one else direction.unit_name}"


def quantity(value: Fraction, figures: Figures) -> str:
    """A figure of a direction, which has its decimals, with the unit."""
    return in_unit(told(value, figures.places), figures.direction)


def written_quantity(value: Fraction, figures: Figures, up: bool = True) -> str:
    """The same of a value as written: a huge one, as growth has, is told by its first digits."""
    if abs(value) < 10**MOST_DIGITS:
        return quantity(value, figures)
    return in_unit(about(value, up), figures.direction)


def at_time(step: int, report: Report) -> str:
    """The time of a step; nothing where the text gives none."""
    if report.source.time is None:
        return ""
    length, unit = report.source.time
    return f"{exactly(step * length)} {unit}"


def at_step(step: int, report: Report) -> str:
    """A step with its time: `58 (72.5 ms)`."""
    time = at_time(step, report)
    return f"{step} ({time})" if time else str(step)


def turned(direction: Direction) -> bool:
    """Whether a direction is told turned round, since its largest value is a lowest one."""
    return direction.coefficients is not None and max(direction.coefficients) <= 0


def left_side(direction: Direction, report: Report) -> str:
    """What is compared: the coordinates, or the direction by its name where that can't be told."""
    if direction.coefficients is None:
        return direction.name
    sign = -1 if turned(direction) else 1
    factors = [sign * factor for factor in direction.coefficients]
    return expression(factors, report.source.coordinates)


def bound_sign(turned: bool) -> str:
    """The sign between a value and its bound; not `reached_sign`, which is that of levels."""
    return "≥" if turned else "≤"


def claim(figures: Figures, report: Report) -> str:
    """What the largest bound says of every run: `rail ≥ 21,504 mV`."""
    one = figures.direction
    bound = figures.bound(one.peak)
    value = quantity(-bound if turned(one) else bound, figures)
    return f"{left_side(one, report)} {bound_sign(turned(one))} {value}"


def condition(direction: Direction, guard: Guard, report: Report) -> str:
    """Where a guard is reached: `rail < 21,000 mV`."""
    level = direction.level(guard)
    value = in_unit(exactly(-level if turned(direction) else level), direction)
    return f"{left_side(direction, report)} {reached_sign(turned(direction))} {value}"


def verdict(figures: Figures, guard: Guard, report: Report) -> str:
    """`HIT at step 2 (2.5 ms)`."""
    said = guard.said
    if figures.word(guard) == REACHED_AS_WRITTEN:
        return NOT_AS_WRITTEN
    return said.word if said.step is None else f"{said.word} at step {at_step(said.step, report)}"


def margin(figures: Figures, guard: Guard) -> str:
    """How far the largest bound stays below the level, or by how much it is certainly passed.

    What is passed is above 0, also as told; `clear by 0` is said of a bound equal to the level.
    """
    if guard.said.word == GROWTH:
        return "no bound"
    least, most = figures.margin(guard)
    if guard.said.word == HIT:
        return f"passed by {quantity(-most, figures)}"
    if guard.said.word == UNKNOWN:
        short = told(most, figures.places)
        return f"between {short} short and {quantity(-least, figures)} past"
    return f"clear by {quantity(least, figures)}"


def verdict_counts(report: Report) -> str:
    """How many guards have which verdict: `1 HIT, 3 CLEAR`."""
    words = [one.word(guard) for one, guard in report.guards]
    found = [f"{words.count(word)} {word}" for word in URGENCY if word in words]
    return ", ".join(found) or "no guard"


def size(report: Report) -> str:
    """`3 coordinates, steps 0 to 60 (75 ms)`."""
    n, steps = report.source.model.n, report.source.model.steps
    return f"{n} coordinate{'s' if n > 1 else ''}, steps 0 to {at_step(steps, report)}"


def growth(direction: Direction, report: Report) -> str:
    """What is told of a direction that is refused for growth."""
    assert isinstance(direction.swept, Growth)
    return f"refused for growth at step {at_step(direction.swept.step, report)}"


def above(figures: Figures, report: Report) -> str:
    """By how much, and where, the matrix as written passes the bound."""
    if isinstance(figures.direction.swept, Growth):
        return "no bound"
    most = figures.most_above
    if most is None:
        return "at no step"
    count = len(figures.above)
    passed, where = quantity(figures.above[most], figures), at_step(most, report)
    return f"at {count} step{'s' if count > 1 else ''}, by up to {passed} at {where}"


def warning(report: Report) -> str | None:
    """Which bounds the matrix as written passes: the largest one, or only that of some step."""
    parts = [
        f"{one.direction.name} passes its largest bound by {quantity(one.above_largest, one)}"
        for one in report.passed_as_written
        if one.above_largest is not None
    ]
    parts += [
        f"{one.direction.name} passes the bound of some step"
        for one in report.passed_as_written
        if one.above_largest is None
    ]
    if not parts:
        return None
    return f"as written, {', '.join(parts)}; the bounds are those of the stored, rounded matrix"


def as_written(figures: Figures, guard: Guard) -> str:
    """The margin by the matrix as written, and from which step on it passes the level."""
    step, margin = figures.reached_as_written(guard), figures.written_margin(guard)
    if step is None:
        return f"clear by {written_quantity(margin, figures, up=False)}"
    return f"passed by {written_quantity(-margin, figures)} from step {step}"
