#!/usr/bin/env python3
"""Models as texts: packed into files, and files unpacked into texts; and what rounding changes.

    pack.py pack [--name NAME] [--quiet] TEXT [-o FILE]
    pack.py unpack FILE [--names TEXT] [-o TEXT]
    pack.py rounded MODEL

A text has one statement in a row, and `#` starts a comment:

    coordinates NAME ..           1 to 6 names, or how many; this comes first
    steps K                       1 to 256; left out, the file leaves them to the default
    time NUMBER UNIT              how long a step takes, as in `time 1.25 ms`; may be left out
    row [NAME] ENTRY ..           a row of the matrix, in the order of the coordinates
    scaled [NAME] ENTRY ..        the same, in whole numbers of 1/65,536
    fitted [NAME] ENTRY ..        the same, in numbers of binary64, as a fitting tool exports them
    drift ENTRY ..                what every step adds beside the input; left out, it is zero
    initial FORM                  the initial set; FORM is box, zonotope or vertices, and below it:
      lower .., upper ..          the two corners of a box
      centre .., generator ..     the centre of a zonotope and its 1 to 8 generators
      vertex ..                   1 to 16 vertices
    input FORM                    the input set, in the same way; left out, the input is zero
    direction NAME ENTRY ..       1 to 16, whole numbers
    unit NAME UNIT [COUNTS]       what a direction above it or a coordinate is in, as in
                                  `unit hottest °C 16`, and how many counts make one (1 without);
                                  may be left out
    guard DIRECTION LEVEL [NAME]  0 to 16, each on a direction above it; reached only where the
                                  direction's value is above LEVEL; the name may be left out

An ENTRY of a `row` is a decimal from -2 to 2. It must be a multiple of 1/65,536, as 0.5 is;
`~0.97` stands for the nearest multiple (of two equally near the even one), so that in a `row` all
rounding shows in the text. An ENTRY of a `fitted` row, from -2 to 2 as well, is a decimal of any
length, as 0.97 or -9.7e-3, or a hexadecimal float, as -0x1.8p-3. The file has the nearest number of
binary64, bit by bit, and the reader rounds that one to the nearest multiple, in the same way and
without a `~`. `pack` says on standard error how much was rounded, and that there is no input set
where there is none, unless it is to be quiet. Points, the drift and levels are whole counts. What
the reader would refuse is refused here: all mistakes, up to twenty, are told with the text's name,
or NAME, and the row.

The NAME of a `unit` is that of a direction above it, or else of a coordinate. A direction without a
unit of its own takes the one, with its counts, that all coordinates have whose entries in it are
not zero.

A file has no names, units or time. Unpacked, its coordinates are x0, x1, .., its directions d0, d1,
.. and its guards have no names, or all of these are those of the text that `--names` gives. Fitted
rows stay so: each entry is the shortest decimal that gives its 64 bits again. Beyond its
coordinates a text packs zeros, and a file that has anything else there is refused.

`rounded` prints how far the matrix of MODEL, a text or a file, is from what was written. For each
entry that rounding changes: row, column, the entry (cut where it is long), the whole number of
1/65,536 that is stored, 65,536 times the entry minus that number, and the relative change. A fitted
entry counts as its number of binary64. The last line sums up. Of a file only fitted entries can be
told, each as it is unpacked: it has nothing of a `~`.
"""

from __future__ import annotations

import argparse
import dataclasses
import math
import sys
from fractions import Fraction
from typing import Iterable

import exact
import files
import refusal
from layout import (
    DEFAULT_STEPS, HEAD, MATRIX_UNIT, MAX_N, ROW_KINDS, fitted_rows_of, states_drift, states_input,
)
from listings import Refusal
from spelling import FLOAT, decimal_text, float_text
from textform import POINT_WORDS, Source, Unit, parse, rounded_in


def read_source(data: bytes, name: str = "file") -> Source:
    """The model of a file, with names made up."""
    model = exact.read_model(data)
    if isinstance(model, Refusal):
        raise files.Failure(refusal.message(name, data))
    fitted = fitted_rows_of(data, model.n)
    rounded = [
        entry
        for number, row in fitted.items()
        for entry in rounded_in(number, FLOAT, [*map(float_text, row)], model.matrix[number])
    ]
    return Source(
        model,
        int.from_bytes(data[2:4], "little"),
        states_input(data),
        tuple(f"x{i}" for i in range(model.n)),
        tuple(f"d{i}" for i in range(len(model.directions))),
        (None,) * len(model.directions),
        fitted=fitted,
        rounded=tuple(rounded),
        drift_stated=states_drift(data),
    )


def looks_packed(data: bytes) -> bool:
    """Whether bytes are those of a packed model, whose first byte may be wrong."""
    starts = len(data) > 4 and data[4] in ROW_KINDS and 1 <= data[1] <= MAX_N
    return data[:1] == bytes([HEAD]) or starts


def starts_as_text(data: bytes) -> bool:
    """Whether bytes are to be read as a text: they are there, and start with no control byte."""
    return bool(data) and not files.CONTROL.match(data) and not looks_packed(data)


def read_text(data: bytes, name: str) -> Source:
    """The model of a text's bytes."""
    if not data:
        raise files.Failure(f"{name}: the file is empty; a model's text starts with 'coordinates'")
    if looks_packed(data):
        packed = "a packed model" if data[0] == HEAD else "maybe a packed model"
        wrong = "" if data[0] == HEAD else f" whose first byte is {data[0]:02X} and not {HEAD:02X}"
        raise files.Failure(f"{name}: not a text, but {packed}{wrong}")
    text, wrong = files.decoded(data, name)
    return parse(text, name, wrong)


def load(path: str) -> Source:
    """The model at a path, packed or as a text."""
    data, name = files.read_bytes(path), files.shown(path)
    return read_source(data, name) if data[:1] == bytes([HEAD]) else read_text(data, name)


def renamed(source: Source, by: Source, name: str, by_name: str) -> Source:
    """A model with the names, the units and the time of another, which has as many.

    Its guards may be more or fewer where it names none of them.
    """
    for what in ("coordinates", "directions", *["guards"] * any(by.guards)):
        count, there = len(getattr(source, what)), len(getattr(by, what))
        if count != there:
            raise files.Failure(
                f"{by_name}: no names for {name}: {there} {what} where the file has {count}"
            )
    return dataclasses.replace(
        source,
        coordinates=by.coordinates,
        directions=by.directions,
        units=by.units,
        time=by.time,
        coordinate_units=by.coordinate_units,
        guards=by.guards if any(by.guards) else (),
    )


def write_text(source: Source) -> str:
    """A text of a model; packed again it gives the same file."""

    def statement(word: str, entries: Iterable[object]) -> str:
        return " ".join([word, *map(str, entries)])

    def unit_rows(names: Iterable[str], units: Iterable[Unit | None]) -> list[str]:
        return [
            f"unit {name} {unit[0]}" + (f" {unit[1]}" if unit[1] > 1 else "")
            for name, unit in zip(names, units)
            if unit is not None
        ]

    model, names = source.model, source.coordinates
    made_up = names == tuple(f"x{i}" for i in range(model.n))
    rows = [f"coordinates {model.n if made_up else ' '.join(names)}"]
    stated = source.stated_steps
    rows.append(f"steps {stated}" if stated else f"# steps: the default, {DEFAULT_STEPS}")
    if source.time is not None:
        rows.append(f"time {decimal_text(source.time[0])} {source.time[1]}")
    # Above all directions, of which one may have the same name.
    rows += unit_rows(names, source.coordinate_units)
    rows.append("")
    for number, (name, entries) in enumerate(zip(names, model.matrix)):
        fitted = source.fitted.get(number)
        word = "scaled" if fitted is None else "fitted"
        written = entries if fitted is None else map(float_text, fitted)
        rows.append(statement(word if made_up else f"{word} {name}", written))
    rows += ["", statement("drift", model.drift)] if source.drift_stated else []
    inputs = [("input", model.input)] if source.input_stated else []
    for which, set_ in [("initial", model.initial), *inputs]:
        rows += ["", f"{which} {set_.form}"]
        first, other = POINT_WORDS[set_.form]
        for index, entries in enumerate(set_.points):
            rows.append("  " + statement(other if index else first, entries))
    rows += [] if inputs else ["", "# input: none, zero in every coordinate"]
    rows.append("")
    for name, entries, unit in zip(source.directions, model.directions, source.units):
        rows.append(statement(f"direction {name}", entries))
        rows += unit_rows([name], [unit])
    for (number, level), name in zip(model.guards, source.guards):
        guard = f"guard {source.directions[number]}"
        rows.append(statement(guard, [level] if name is None else [level, name]))
    return "\n".join(rows) + "\n"


def unpack(data: bytes, name: str = "file") -> str:
    """The text of a packed file; one that the reader refuses is a failure."""
    return write_text(read_source(data, name))


def percent(change: Fraction) -> str:
    """A relative change to two digits, without an exponent."""
    value = float(100 * change)
    return f"{value:.{max(0, 1 - math.floor(math.log10(value)))}f} %"


def rounding(source: Source) -> str | None:
    """How much was rounded, in words, where anything was."""
    if not source.rounded:
        return None
    count = len(source.rounded)
    told = "1 entry was" if count == 1 else f"{count} entries were"
    marked = [entry.word.startswith("~") for entry in source.rounded]
    how = " and ".join(["~"] * any(marked) + ["fitted"] * (not all(marked)))
    most = max(source.rounded, key=lambda entry: entry.change)
    of = f"{most.word} in row {source.coordinates[most.row]!r}"
    told += f" rounded ({how}); the largest relative change is"
    if most.change == 1:
        return f"{told} 100 %: {of} becomes 0"
    return f"{told} {percent(most.change)}, of {of}"


def distance_text(distance: Fraction) -> str:
    """A distance to four decimals, without its sign; one too small for these has an exponent."""
    if abs(distance) < Fraction(1, 10_000):
        return f"{float(abs(distance)):.1e}"
    count = exact.nearest(10_000 * abs(distance))
    return f"{count // 10_000}.{count % 10_000:04}"


def rounded_entries(source: Source) -> str:
    """What rounding changes: a line for each entry, and one that sums up."""
    names, rounded = source.coordinates, source.rounded
    cells = []
    for entry in rounded:
        place = (names[entry.row], names[entry.column])
        distance = ("-" if entry.distance < 0 else "+") + distance_text(entry.distance)
        cells.append((*place, entry.word, str(entry.stored), distance, percent(entry.change)))
    sides = (str.ljust,) * 3 + (str.rjust,) * 3
    widths = [max(map(len, column)) for column in zip(*cells)]
    lines = [
        "  ".join(side(cell, width) for side, cell, width in zip(sides, line, widths))
        for line in cells
    ]
    told = f"entries changed by rounding: {len(rounded) or 'none'} of {source.model.n ** 2}"
    if rounded:
        most = distance_text(max(abs(entry.distance) for entry in rounded))
        told += f"; the largest distance is {most} of 1/{MATRIX_UNIT:,}"
    return "\n".join([*lines, told]) + "\n"


def notes(source: Source) -> list[str]:
    """What is told of a text that packs: rounding, and an input set that may only be forgotten."""
    missing = None if source.input_stated else "no input set: the input is zero in every coordinate"
    return [said for said in (rounding(source), missing) if said]


def main() -> None:
    raw = argparse.RawDescriptionHelpFormatter
    form = __doc__.replace("to the default", f"to the default, {DEFAULT_STEPS}")
    parser = argparse.ArgumentParser(description=form, formatter_class=raw)
    commands = parser.add_subparsers(dest="command", required=True)
    subs = {}
    for command, does, what, to in (
        ("pack", "text to file", "TEXT", "FILE"),
        ("unpack", "file to text", "FILE", "TEXT"),
        ("rounded", "what rounding changes in a text or a file", "MODEL", None),
    ):
        sub = commands.add_parser(command, help=does, description=form, formatter_class=raw)
        sub.add_argument("source", metavar=what, help="- is standard input")
        if to is not None:
            sub.add_argument("-o", dest="to", metavar=to, help="standard output without it")
        subs[command] = sub
    subs["pack"].add_argument("--name", help="what messages call the text")
    subs["pack"].add_argument("--quiet", action="store_true",
                              help="say nothing of rounding, or of an input set that is left out")
    subs["unpack"].add_argument("--names", metavar="TEXT", help="the names, units and time")
    options = parser.parse_args()
    if options.command == "rounded":
        files.write_bytes(None, rounded_entries(load(options.source)).encode("utf-8"))
        return
    data, name = files.read_bytes(options.source), files.shown(options.source)
    if options.command == "pack":
        name = options.name or name
        source = read_text(data, name)
        if options.to is None and sys.stdout.isatty():
            raise files.Failure("a packed model is no text: name a file with -o")
        files.write_bytes(options.to, source.data)
        for said in () if options.quiet else notes(source):
            print(f"{name}: {said}", file=sys.stderr)
        return
    source = read_source(data, name)
    if source.data != data:
        print(f"{name}: note: negative zeros beyond n become zeros", file=sys.stderr)
    if options.names is not None:
        by_name = files.shown(options.names)
        by = read_text(files.read_bytes(options.names), by_name)
        source = renamed(source, by, name, by_name)
    files.write_bytes(options.to, write_text(source).encode("utf-8"))


if __name__ == "__main__":
    files.run(main)
