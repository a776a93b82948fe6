"""The tables of a report as rows of words, for the terminal and for the page."""

from __future__ import annotations

from dataclasses import dataclass
from typing import Sequence

from answers import Figures
from inputs import Failed
from listings import Growth
from quantities import exactly, told

from . import words
from .changes import Change, Changes, GuardChange
from .reports import WORST_LAST, Report, Result


@dataclass(frozen=True)
class Table:
    """Headings and rows; the columns in `right` end flush."""

    heads: tuple[str, ...]
    rows: list[list[str]]
    right: tuple[int, ...] = ()


def guards(report: Report) -> Table:
    """A row for each guard, the most urgent first."""
    heads = ("guard", "reached where", "verdict", "margin")
    if report.rounded:
        heads = (*heads[:3], "margin as stored", "as written")
    rows = []
    for one, guard in report.guards:
        cells = [
            guard.label,
            words.condition(one.direction, guard, report),
            words.verdict(one, guard, report),
            words.margin(one, guard),
        ]
        rows.append(cells + ([words.as_written(one, guard)] if report.rounded else []))
    return Table(heads, rows)


def directions(report: Report) -> Table:
    """A row for each direction: its largest bound."""
    rows = []
    for one in report.ordered:
        direction = one.direction
        if isinstance(direction.swept, Growth):
            rows.append([direction.name, "none", "", "", "", words.growth(direction, report)])
            continue
        rows.append([
            direction.name,
            words.quantity(one.bound(direction.peak), one),
            words.at_step(direction.peak, report),
            words.quantity(one.slack(direction.peak), one),
            str(direction.factor),
            words.claim(one, report),
        ])
    claim = "so in every run as stored" if report.rounded else "so in every run"
    heads = ("direction", "largest bound", "at step", "slack", "factor", claim)
    return Table(heads, rows, right=(1, 3, 4))


def written(report: Report) -> Table:
    """A row for each direction: its largest value by the matrix as written, where that differs."""
    rows = []
    for one in report.ordered if report.rounded else ():
        peak = one.direction.written.peak
        rows.append([
            one.direction.name,
            words.written_quantity(one.written(peak), one),
            words.at_step(peak, report),
            words.above(one, report),
        ])
    heads = ("direction", "largest as written", "at step", "above its bound")
    return Table(heads, rows, right=(1,))


def urgent_first(results: Sequence[Result]) -> list[Result]:
    """Those without an answer first, then by the most urgent guard; without guards, at the end."""

    def key(result: Result) -> tuple:
        if isinstance(result, Failed):
            return (0, -WORST_LAST.index(result.status))
        if not result.guards:
            return (2,)
        one, guard = result.guards[0]
        return (1, *one.urgency(guard))

    return sorted(results, key=key)


def models(results: Sequence[Result]) -> Table:
    """A row for each model, with its most urgent guard."""
    rows = []
    for result in urgent_first(results):
        if isinstance(result, Failed):
            rows.append([result.name, result.said, "", "", "", ""])
            continue
        urgent = ["", "", ""]
        if result.guards:
            one, guard = result.guards[0]
            urgent = [
                f"{guard.label}: {words.condition(one.direction, guard, result)}",
                words.verdict(one, guard, result),
                words.margin(one, guard),
            ]
        passed = len(result.passed_as_written)
        above = f"above {passed} bound{'s' if passed > 1 else ''}" if passed else ""
        rows.append([result.name, words.verdict_counts(result), *urgent, above])
    heads = ("model", "guards", "most urgent", "verdict", "margin", "as written")
    return Table(heads, rows)


# Two models side by side


def told_change(change: Change) -> list[str]:
    """A figure before and now, and the difference with its sign."""
    cells = ["" if one is None else told(one, change.places) for one in (change.old, change.new)]
    if change.same:
        return [*cells, "same"]
    if change.difference is None:
        return [*cells, "" if None in (change.old, change.new) else "not comparable"]
    sign = "+" if change.difference > 0 else ""
    return [*cells, f"{sign}{told(change.difference, change.places)}"]


def told_level(change: GuardChange) -> str:
    """The level, or the old one and the new one."""
    pairs = [pair for pair in (change.old, change.new) if pair is not None]
    levels = [words.in_unit(exactly(one.direction.level(guard)), one.direction)
              for one, guard in pairs]
    return " → ".join(dict.fromkeys(levels))


def changed_guards(found: Changes) -> Table:
    """Of each guard the verdict and the level minus the largest bound, before and now."""
    rows = []
    for change in found.guards:
        sides = (change.old, found.old), (change.new, found.new)
        said = ["not there" if pair is None else words.verdict(*pair, report)
                for pair, report in sides]
        name = change.either[1].label
        rows.append([name, told_level(change), *said, *told_change(change.margin)])
    heads = ("guard", "level", "verdict was", "is", "level - bound was", "is", "change")
    return Table(heads, rows, right=(4, 5, 6))


def changed_directions(found: Changes) -> Table:
    """Of each direction the largest bound and its step, before and now."""
    rows = []
    for change in found.directions:
        sides = (change.old, found.old), (change.new, found.new)
        steps = [peak_step(one, report) for one, report in sides]
        figures, units = told_change(change.bound), " → ".join(change.units)
        rows.append([change.either.direction.name, *figures, units, *steps])
    heads = ("direction", "largest bound was", "is", "change", "unit", "at step was", "is")
    return Table(heads, rows, right=(1, 2, 3))


def peak_step(one: Figures | None, report: Report) -> str:
    if one is None:
        return "not there"
    if isinstance(one.direction.swept, Growth):
        return words.growth(one.direction, report)
    return words.at_step(one.direction.peak, report)
