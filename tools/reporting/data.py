"""A report as JSON and as CSV, with names that stay.

Figures are in the direction's unit and rounded outward. They are decimal numbers, written out, and
whoever needs them exact reads them as decimals. `proved` has the whole numbers that the program
gave for the direction times its factor. docs/REPORT.md tells all names.
"""

from __future__ import annotations

import csv
import io
import json
from fractions import Fraction
from typing import Mapping, Sequence

import pack
import programs
from answers import Figures, Guard
from inputs import Failed
from listings import CLEAR, Growth
from quantities import exactly, told

from .changes import Change, Changes, DirectionChange, GuardChange
from .reports import Report, Result

FORMAT = "pepperscarp-report"
FORMAT_VERSION = 2
ANSWERED, REFUSED, NOT_RUN = "answered", "refused", "not run"


class Numeral(str):
    """A number as it is to be written."""


def numeral(value: Fraction | None, places: int) -> Numeral | None:
    return None if value is None else Numeral(told(value, places, grouped=False))


def number(value: Fraction) -> Numeral | str:
    """A number that is told exactly; a fraction that is no decimal is a text."""
    written = exactly(value, grouped=False)
    return written if "/" in written else Numeral(written)


def encoded(value: object, indent: str = "") -> str:
    """JSON, with a row for each name, and lists of numbers in one row."""
    if isinstance(value, Numeral):
        return str(value)
    inner = indent + "  "
    if isinstance(value, Mapping) and value:
        rows = [f'{inner}"{name}": {encoded(part, inner)}' for name, part in value.items()]
        return "{\n" + ",\n".join(rows) + f"\n{indent}}}"
    if isinstance(value, (list, tuple)) and any(isinstance(part, Mapping) for part in value):
        rows = [inner + encoded(part, inner) for part in value]
        return "[\n" + ",\n".join(rows) + f"\n{indent}]"
    if isinstance(value, (list, tuple)):
        return "[" + ", ".join(encoded(part) for part in value) + "]"
    return json.dumps(value, ensure_ascii=False)


def time_of(step: int | None, report: Report) -> Numeral | str | None:
    if step is None or report.source.time is None:
        return None
    return number(step * report.source.time[0])


def peak_of(one: Figures, report: Report) -> dict[str, object] | None:
    direction = one.direction
    if isinstance(direction.swept, Growth):
        return None
    return {
        "step": direction.peak,
        "time": time_of(direction.peak, report),
        "bound": numeral(one.bound(direction.peak), one.places),
        "slack": numeral(one.slack(direction.peak), one.places),
    }


def written_of(one: Figures, report: Report) -> dict[str, object] | None:
    written = one.direction.written
    if written is None:
        return None
    steps = range(len(written.numerators))
    return {
        "step": written.peak,
        "time": time_of(written.peak, report),
        "largest": numeral(one.written(written.peak), one.places),
        "above_largest_bound": numeral(one.above_largest, one.places),
        "steps_above_bound": list(one.above),
        "most_above_bound": numeral(one.above.get(one.most_above), one.places),
        "most_above_bound_step": one.most_above,
        "values": [numeral(one.written(step), one.places) for step in steps],
    }


def direction_of(one: Figures, report: Report) -> dict[str, object]:
    direction = one.direction
    swept, unit = direction.swept, direction.unit
    grown = isinstance(swept, Growth)
    steps = range(len(direction.bounds))
    return {
        "name": direction.name,
        "number": direction.number,
        "entries": list(direction.entries),
        "unit": None if unit is None else unit[0],
        "counts_per_unit": direction.counts,
        "factor": direction.factor,
        "growth_step": swept.step if grown else None,
        "peak": peak_of(one, report),
        "as_written": written_of(one, report),
        "bounds": [numeral(one.bound(step), one.places) for step in steps],
        "slacks": [numeral(one.slack(step), one.places) for step in steps],
        "proved": None if grown else {
            "spare": swept.spare, "bounds": list(swept.bounds), "slacks": list(swept.slacks)
        },
    }


def guard_of(one: Figures, guard: Guard, report: Report) -> dict[str, object]:
    grown = isinstance(one.direction.swept, Growth)
    least, most = (None, None) if grown else one.margin(guard)
    rounded, reached = one.direction.written is not None, one.reached_as_written(guard)
    return {
        "name": guard.name,
        "number": guard.number,
        "direction": one.direction.name,
        "level": number(one.direction.level(guard)),
        "level_counts": guard.level,
        "verdict": guard.said.word,
        "step": guard.said.step,
        "time": time_of(guard.said.step, report),
        "margin_least": numeral(least, one.places),
        "margin_most": numeral(most, one.places),
        "margin_as_written": numeral(one.written_margin(guard) if rounded else None, one.places),
        "reached_as_written": reached is not None if rounded else None,
        "reached_as_written_step": reached,
        "clear": one.word(guard) == CLEAR,
    }


def result_of(result: Result) -> str:
    if isinstance(result, Report):
        return ANSWERED
    return REFUSED if result.data is not None else NOT_RUN


def model_of(result: Result) -> dict[str, object]:
    if isinstance(result, Failed):
        said = {"said": result.said, "message": result.message}
        return {"name": result.name, "result": result_of(result), "status": result.status, **said}
    time = result.source.time
    return {
        "name": result.name,
        "result": ANSWERED,
        "status": result.status,
        "sha256": result.sha256,
        "packed_sha256": result.packed_sha256,
        "coordinates": list(result.source.coordinates),
        "steps": result.source.model.steps,
        "time_of_step": None if time is None else number(time[0]),
        "time_unit": None if time is None else time[1],
        "plain": result.plain,
        "notes": pack.notes(result.source),
        "guards": [guard_of(one, guard, result) for one, guard in result.guards],
        "directions": [direction_of(one, result) for one in result.ordered],
    }


def change_of(name: str, change: Change) -> dict[str, object]:
    return {
        f"old_{name}": numeral(change.old, change.places),
        f"new_{name}": numeral(change.new, change.places),
        f"{name}_change": numeral(change.difference, change.places),
    }


def both(name: str, values: Mapping[str, object]) -> dict[str, object]:
    """What was and what is; None for what isn't there."""
    return {f"{when}_{name}": values.get(when) for when in ("old", "new")}


def units_of(change: DirectionChange) -> dict[str, object]:
    """The units of the two, None for counts."""
    there = {"old": change.old, "new": change.new}
    units = {when: one.direction.unit for when, one in there.items() if one is not None}
    return both("unit", {when: unit and unit[0] for when, unit in units.items()})


def direction_change(change: DirectionChange) -> dict[str, object]:
    sides = {"old": change.old, "new": change.new}
    there = {when: one.direction for when, one in sides.items() if one is not None}
    peaks = {when: one.peak if one.bounds else None for when, one in there.items()}
    return {
        "name": change.either.direction.name,
        **units_of(change),
        **change_of("bound", change.bound),
        **both("bound_step", peaks),
    }


def guard_change(change: GuardChange) -> dict[str, object]:
    one, guard = change.either
    sides = {"old": change.old, "new": change.new}
    there = {when: pair for when, pair in sides.items() if pair is not None}
    levels = {when: number(one.direction.level(guard)) for when, (one, guard) in there.items()}
    return {
        "name": guard.name,
        "direction": one.direction.name,
        **units_of(change.direction),
        **both("number", {when: guard.number for when, (_, guard) in there.items()}),
        **both("level", levels),
        **both("verdict", {when: guard.said.word for when, (_, guard) in there.items()}),
        **both("verdict_step", {when: guard.said.step for when, (_, guard) in there.items()}),
        **both("clear", {when: one.word(guard) == CLEAR for when, (one, guard) in there.items()}),
        **change_of("margin", change.margin),
    }


def as_json(results: Sequence[Result], status: int, found: Changes | None = None) -> str:
    """All that is told of some models; of two, with what changed."""
    whole: dict[str, object] = {
        "format": FORMAT,
        "format_version": FORMAT_VERSION,
        "program_version": programs.version(),
        "status": status,
        "models": [model_of(result) for result in results],
    }
    if found is not None:
        whole["changes"] = {
            "old": found.old.name,
            "new": found.new.name,
            "directions": [direction_change(change) for change in found.directions],
            "guards": [guard_change(change) for change in found.guards],
        }
    return encoded(whole) + "\n"


# CSV: a row for each guard, and one for each direction without a guard

COLUMNS = (
    "model", "result", "direction", "unit", "factor", "bound", "bound_step", "bound_time", "slack",
    "growth_step", "largest_as_written", "above_largest_bound", "most_above_bound", "guard",
    "level", "verdict", "verdict_step", "verdict_time", "margin_least", "margin_most",
    "margin_as_written", "reached_as_written_step", "clear", "time_unit", "message",
)
CHANGE_COLUMNS = (
    "direction", "guard", "old_unit", "new_unit", "old_bound", "new_bound", "bound_change",
    "old_bound_step", "new_bound_step", "old_level", "new_level", "old_margin", "new_margin",
    "margin_change", "old_verdict", "new_verdict", "old_verdict_step", "new_verdict_step",
    "old_clear", "new_clear",
)


def csv_text(columns: Sequence[str], rows: Sequence[Mapping[str, object]]) -> str:
    out = io.StringIO()
    writer = csv.DictWriter(out, columns, lineterminator="\n", extrasaction="ignore")
    writer.writeheader()
    writer.writerows(rows)
    return out.getvalue()


def yes_or_no(value: object) -> str | None:
    return None if value is None else "yes" if value else "no"


def direction_cells(one: Figures, report: Report) -> dict[str, object]:
    found = direction_of(one, report)
    peak, written = found["peak"] or {}, found["as_written"] or {}
    return {
        "model": report.name,
        "result": ANSWERED,
        "direction": found["name"],
        "unit": one.direction.unit_name,
        "factor": found["factor"],
        "bound": peak.get("bound"),
        "bound_step": peak.get("step"),
        "bound_time": peak.get("time"),
        "slack": peak.get("slack"),
        "growth_step": found["growth_step"],
        "largest_as_written": written.get("largest"),
        "above_largest_bound": written.get("above_largest_bound"),
        "most_above_bound": written.get("most_above_bound"),
        "time_unit": None if report.source.time is None else report.source.time[1],
    }


def guard_cells(one: Figures, guard: Guard, report: Report) -> dict[str, object]:
    found = guard_of(one, guard, report)
    same = {name: found[name] for name in ("level", "verdict", "margin_least", "margin_most",
                                           "margin_as_written", "reached_as_written_step")}
    cells = {"guard": guard.label, "verdict_step": found["step"], "verdict_time": found["time"],
             "clear": yes_or_no(found["clear"])}
    return {**direction_cells(one, report), **same, **cells}


def as_csv(results: Sequence[Result]) -> str:
    rows: list[Mapping[str, object]] = []
    for result in results:
        if isinstance(result, Failed):
            rows.append({"model": result.name, "result": result_of(result),
                         "message": result.message})
            continue
        rows += [guard_cells(one, guard, result) for one, guard in result.guards]
        unguarded = (one for one in result.ordered if not one.direction.guards)
        rows += [direction_cells(one, result) for one in unguarded]
    return csv_text(COLUMNS, rows)


def changes_as_csv(found: Changes) -> str:
    """A row for each direction, then one for each guard."""
    rows: list[dict[str, object]] = []

    def cells(told: dict[str, object], change: DirectionChange) -> dict[str, object]:
        """As in JSON, but for units and what is yes or no."""
        there = {"old": change.old, "new": change.new}
        units = {when: one.direction.unit_name for when, one in there.items() if one is not None}
        clear = {when: yes_or_no(told.get(f"{when}_clear")) for when in there}
        return {**told, **both("unit", units), **both("clear", clear)}

    for change in found.directions:
        told = cells(direction_change(change), change)
        rows.append({**told, "direction": change.either.direction.name})
    for change in found.guards:
        told = cells(guard_change(change), change.direction)
        rows.append({**told, "guard": change.either[1].label})
    return csv_text(CHANGE_COLUMNS, rows)
