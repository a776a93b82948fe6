#!/usr/bin/env python3
"""Report which guards of models changed their verdict with version 0.8.0.

    ./pepperscarp changed [--csv] MODEL ..

Since version 0.8.0 a guard is reached only above its level. Before, it was reached at its level
too. A verdict can therefore change only if a bound, a bound minus its slack, or a largest value of
the matrix as written is equal to the level at some step. These are all the ways:

  verdict before      verdict now
  HIT                 HIT at a later step, UNKNOWN or CLEAR; in ./report also REACHED AS WRITTEN
  UNKNOWN             UNKNOWN at a later step or CLEAR; in ./report also REACHED AS WRITTEN
  REACHED AS WRITTEN  REACHED AS WRITTEN at a later step or CLEAR (./report only)

REACHED AS WRITTEN 4 is what ./report prints as "CLEAR as stored, REACHED as written", with the
first step at which the level is reached.

For each MODEL in which a verdict changed, the command prints its name and a table of the guards:

  guard            the name of the guard, or its number from 0
  direction        the direction that the guard is on
  level            the level in counts, as in the file
  in its unit      the level in the unit of the direction, if the text names one
  listing was, is  the verdict in the listing (./run), by the old rule and by the new one
  report was, is   the verdict in ./report, which multiplies directions and is sharper
  level to keep    the level in counts that keeps the old meaning: one count lower in the file

Guards whose verdict stays the same are not printed. The last row counts the guards and the models.
--csv prints a row for each of the same guards, with the columns model, guard, number, direction,
unit, level, level_counts, old_listing, old_listing_step, new_listing, new_listing_step, old_report,
old_report_step, new_report, new_report_step and level_counts_to_keep. The column level is in the
unit; the unit is counts if the text names none.

To keep the old meaning, write the level to keep, as in "guard hottest 3199" for a level of 3200.
The level of a lowest value stands in the file with its sign turned, so one count lower in the file
is one count higher in ./report: write -22801 in place of -22800, printed as rail < 22,801 mV in
place of rail < 22,800 mV. Do not write -22799: it is laxer than both rules.

Levels and bounds are whole counts, so the listing then has the same verdict as before, with the
same step. ./report measures in fractions of a count. There the level to keep is up to a count
stricter than the old level: a run that comes between the two reaches it. If the level itself is
permitted in use, leave it as it is. The lowest level, -9223372036854775808, has no level below it;
its verdict is the same by both rules.

HIT, UNKNOWN and CLEAR come from the proved program envelope, by both rules. The old verdict of the
listing on a level L is the program's verdict on L - 1. The old verdict of ./report, which
multiplies a direction by F, is the program's on F x L - 1. REACHED AS WRITTEN is worked out by this
tool from exact fractions: tested, not proved. The program is built first if it is missing or older
than its sources.

Both rules use the bounds of this version, which are those of versions 0.4.0 to 0.7.2. The verdicts
before are those of these versions; ./report came with 0.7.1. Versions before 0.4.0 had other bounds
and slacks, and their listings may differ in more verdicts.

A MODEL is a text (python3 tools/pack.py --help shows the form) or a packed file. It may be a pipe,
and - is standard input. After -- every word is a MODEL. A folder means all texts (*.model) and
packed files (*.bin) in it and in the folders below it, except hidden files and folders, links to
folders, and a packed file beside the text that it was packed from. If a model is refused or cannot
be read, standard error says why, and the others are still checked.

The status is
  0  if no verdict changes,
  1  if a model is refused or a text is wrong,
  2  if a model cannot be read, the program cannot be built or run, the output cannot be written, or
     the command is wrong,
  3  if a verdict changes;
the first in the order 2, 1, 3, 0 if there are several.
"""

from __future__ import annotations

import interrupts  # before anything else

import argparse
import signal
from dataclasses import dataclass, replace
from functools import cache
from typing import Sequence

import commands
import files
import inputs
import programs
from answers import REACHED_AS_WRITTEN, Direction, Figures, Guard, Written, directions_of
from inputs import Failed, Input
from layout import MIN_LEVEL, Model
from listings import Growth, Listing, Refusal, Sweep, Verdict
from quantities import exactly
from reporting import data, program, reports, sharpen, terminal, words
from reporting.batch import Progress
from reporting.tables import Table

NAME = "changed"
UNCHANGED, CHANGED = reports.ALL_CLEAR, reports.NOT_CLEAR  # the statuses 0 and 3
EXAMPLES = """examples:
  ./pepperscarp changed examples
  ./pepperscarp changed --csv examples/verdicts.model"""
COLUMNS = (
    "model", "guard", "number", "direction", "unit", "level", "level_counts", "old_listing",
    "old_listing_step", "new_listing", "new_listing_step", "old_report", "old_report_step",
    "new_report", "new_report_step", "level_counts_to_keep",
)
KEEPS = (
    "With the level to keep, the listing has the verdict of versions 0.4.0 to 0.7.2; see --help."
)


@dataclass(frozen=True)
class Said:
    """What is said of a guard: in the listing, and in the report."""

    listing: Verdict
    report: Verdict


@dataclass(frozen=True)
class Change:
    """A guard whose verdict changes."""

    direction: Direction
    guard: Guard
    old: Said
    new: Said

    @property
    def to_keep(self) -> int:
        """The level on which the listing has the verdict that it had before."""
        return lower(self.guard.level)


@dataclass(frozen=True)
class Checked:
    """A model: how many guards it has, and which of them change."""

    name: str
    guards: int
    changes: tuple[Change, ...]

    @property
    def status(self) -> int:
        return CHANGED if self.changes else UNCHANGED


Result = Checked | Failed


# The old rule


def lower(level: int) -> int:
    """One count lower; the lowest level stays, whose verdict is no other one (Verdicts 6)."""
    return max(level - 1, MIN_LEVEL)


def with_lower_levels(model: Model) -> Model:
    """The model on which the program says now what it said of this one before (Verdicts 5).

    Levels of a multiplied model, F x L, become F x L - 1 (Report 10).
    """
    guards = tuple((number, lower(level)) for number, level in model.guards)
    return replace(model, guards=guards)


def with_larger_values(written: Written) -> Written:
    """Values that reach now what these reached before: each numerator is one larger.

    That is the same law: a value and a level are whole numbers over the denominator of the step.
    """
    return replace(written, numerators=tuple(value + 1 for value in written.numerators))


# What changes


def in_report(figures: Figures, guard: Guard) -> Verdict:
    """What the report says; of a level reached as written, with the step from which on it is."""
    word = figures.word(guard)
    step = figures.reached_as_written(guard) if word == REACHED_AS_WRITTEN else guard.said.step
    return Verdict(word, step)


def said_of(listing: Listing, figures: Sequence[Figures]) -> dict[int, Said]:
    """What is said of each guard, by its number."""
    pairs = [(one, guard) for one in figures for guard in one.direction.guards]
    return {
        guard.number: Said(listing.guards[guard.number], in_report(one, guard))
        for one, guard in pairs
    }


def checked(given: Input, reply: reports.Reply = program.reply) -> Result:
    """Which guards of a model change, or why that can't be told."""
    reply = cache(reply)
    listing = reply(given.packed, given.name)
    if isinstance(listing, Refusal):
        return inputs.refused(NAME, given, listing)
    report = reports.report_of(given, reply=reply)
    if isinstance(report, Failed):
        return report
    source, directions = report.source, report.directions

    def listed_before(model: Model, sweeps: Sequence[Sweep | Growth]) -> Listing:
        """What was listed before of a model with these sweeps, which levels have no part in."""
        lowered = replace(source, model=with_lower_levels(model))
        told = program.accepted(reply(lowered.data, given.name))
        if told.directions != sweeps:
            raise files.AccessFailure("the program gives other bounds for other levels")
        return told

    factors = [one.factor for one in directions]
    multiplied = sharpen.multiplied(source.model, factors)
    sharp = listed_before(multiplied, tuple(one.swept for one in directions))
    written = [with_larger_values(one.written) for one in directions if one.written is not None]
    old_figures = list(map(Figures, directions_of(sharp, source, factors, written)))
    old = said_of(listed_before(source.model, listing.directions), old_figures)
    new = said_of(listing, report.figures)
    guards = [(one, guard) for one in directions for guard in one.guards]
    changes = [
        Change(one, guard, old[guard.number], new[guard.number])
        for one, guard in sorted(guards, key=lambda pair: pair[1].number)
        if old[guard.number] != new[guard.number]
    ]
    return Checked(given.name, len(guards), tuple(changes))


# What is printed


def table(changes: Sequence[Change]) -> Table:
    """A row for each guard; the level in its unit where one of them has a unit."""
    has_units = any(change.direction.unit for change in changes)
    rows = []
    for change in changes:
        one, guard = change.direction, change.guard
        unit = words.in_unit(exactly(one.level(guard)), one) if one.unit else ""
        said = change.old.listing, change.new.listing, change.old.report, change.new.report
        rows.append([guard.label, one.name, str(guard.level), *[unit] * has_units,
                     *map(str, said), str(change.to_keep)])
    heads = ("guard", "direction", "level", *["in its unit"] * has_units,
             "listing was", "is", "report was", "is", "level to keep")
    return Table(heads, rows, right=(2, 3, 8) if has_units else (2, 7))


def summary(results: Sequence[Result]) -> str:
    there = [one for one in results if isinstance(one, Checked)]
    guards, count = sum(one.guards for one in there), sum(len(one.changes) for one in there)
    models = f"{len(there)} model{'s' if len(there) > 1 else ''}"
    if count:
        models = f"{sum(bool(one.changes) for one in there)} of {models}"
    failed = f"; not checked: {len(results) - len(there)}" if len(there) < len(results) else ""
    return f"guards whose verdict changed: {count or 'none'} of {guards}, in {models}{failed}"


def as_text(results: Sequence[Result]) -> str:
    rows: list[str] = []
    for one in results:
        if isinstance(one, Checked) and one.changes:
            rows += [one.name, *terminal.lines_of(table(one.changes))[1:], ""]
    return "\n".join([*rows, *[KEEPS] * bool(rows), summary(results)]) + "\n"


def cells(model: str, change: Change) -> dict[str, object]:
    """A row of CSV."""
    one, guard, said = change.direction, change.guard, {"old": change.old, "new": change.new}
    found = {
        "model": model,
        "guard": guard.label,
        "number": guard.number,
        "direction": one.name,
        "unit": one.unit_name,
        "level": data.number(one.level(guard)),
        "level_counts": guard.level,
        "level_counts_to_keep": change.to_keep,
    }
    for where in ("listing", "report"):
        verdicts = {when: getattr(each, where) for when, each in said.items()}
        found |= data.both(where, {when: each.word for when, each in verdicts.items()})
        found |= data.both(f"{where}_step", {when: each.step for when, each in verdicts.items()})
    return found


def as_csv(results: Sequence[Result]) -> str:
    there = (one for one in results if isinstance(one, Checked))
    return data.csv_text(COLUMNS, [cells(one.name, each) for one in there for each in one.changes])


# The command


def options_of(arguments: Sequence[str]) -> argparse.Namespace:
    parser = commands.Parser(f"./pepperscarp {NAME}", __doc__, EXAMPLES)
    parser.add_argument("--csv", action="store_true", help="print CSV, a row for each guard")
    return parser.parsed(arguments)


def results_of(given: Sequence[Input | Failed]) -> list[Result]:
    """What comes of each model. The program is built only where there is one to run it on."""
    if any(isinstance(one, Input) for one in given):
        programs.ready(program.NAME, NAME)
    progress, found = Progress(len(given)), []
    try:
        for one in given:
            failed = isinstance(one, Failed)
            found.append(one if failed else commands.attempted(NAME, one, checked))
            progress.step(one.name)
    finally:
        progress.end()
    return found


def run(arguments: Sequence[str]) -> int:
    options = options_of(arguments)
    results = results_of(inputs.models_of(NAME, options.models))
    for one in results:
        if isinstance(one, Failed):
            commands.tell(one.message)
    if any(isinstance(one, Checked) for one in results):
        told = as_csv(results) if options.csv else as_text(results)
        # Only now: a program that leaves a part of its input unread would end this one too.
        signal.signal(signal.SIGPIPE, signal.SIG_DFL)
        files.write_bytes(None, told.encode("utf-8"))
    return reports.worst([one.status for one in results])


if __name__ == "__main__":
    with interrupts.exit_at_signals():
        commands.run(NAME, run)
