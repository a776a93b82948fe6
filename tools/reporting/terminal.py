"""A report as text for a terminal: one model whole, several in a row each, or two side by side."""

from __future__ import annotations

import re
from typing import Sequence

import pack
from answers import REACHED_AS_WRITTEN
from listings import CLEAR, GROWTH, HIT, UNKNOWN

from . import tables, words
from .changes import Changes
from .reports import Report, Result
from .tables import Table

GAP = "  "
RED, YELLOW, GREEN = "1;31", "33", "32"
COLOURS = {
    words.NOT_AS_WRITTEN: RED, REACHED_AS_WRITTEN: RED, HIT: RED, GROWTH: YELLOW, UNKNOWN: YELLOW,
    CLEAR: GREEN,
}
COLOURED = re.compile(rf"(?<=  )({'|'.join(map(re.escape, COLOURS))})\b")


def lines_of(table: Table, colours: bool = False) -> list[str]:
    """A table as lines, where it has any row; verdicts in colour."""
    if not table.rows:
        return []
    cells = [table.heads, *table.rows]
    widths = [max(map(len, column)) for column in zip(*cells)]
    found = [""]
    for row in cells:
        aligned = [
            cell.rjust(width) if place in table.right else cell.ljust(width)
            for place, (cell, width) in enumerate(zip(row, widths))
        ]
        found.append(GAP.join(aligned).rstrip())
    if not colours:
        return found
    return [COLOURED.sub(lambda word: f"\x1b[{COLOURS[word[0]]}m{word[0]}\x1b[0m", line)
            for line in found]


def text(lines: Sequence[str]) -> str:
    return "\n".join([*lines, *words.RESTS_ON]) + "\n"


def summary(report: Report) -> str:
    return f"{words.size(report)}: {words.verdict_counts(report)}"


def warnings(reports: Sequence[Report]) -> list[str]:
    """Of several reports each is named."""
    found = []
    for report in reports:
        name = f"{report.name}: " if len(reports) > 1 else ""
        found += [f"WARNING: {name}{said}" for said in [words.warning(report)] if said]
    return found


def whole(report: Report, colours: bool = False) -> str:
    """The report of one model."""
    return text([
        f"{report.name}: {summary(report)}",
        *lines_of(tables.guards(report), colours),
        *lines_of(tables.directions(report)),
        *lines_of(tables.written(report)),
        "",
        *warnings([report]),
        *(f"note: {note}" for note in pack.notes(report.source)),
    ])


def rows(results: Sequence[Result], colours: bool = False) -> str:
    """A row for each model."""
    return text([*lines_of(tables.models(results), colours)[1:], ""])


def side_by_side(found: Changes, colours: bool = False) -> str:
    """What changed from the old model to the new one."""
    return text([
        f"{found.new.name} against {found.old.name}",
        f"was: {summary(found.old)}",
        f"is:  {summary(found.new)}",
        *lines_of(tables.changed_guards(found), colours),
        *lines_of(tables.changed_directions(found)),
        "",
        *warnings([found.old, found.new]),
    ])
