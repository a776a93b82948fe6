#!/usr/bin/env python3
"""Test files for a reader, with the reply that each must get.

    readerfiles.py OUTDIR

Writes the files 0001, 0002, .. and three texts: `names` (one in a row), `expected` (NAME: reply,
which is `refused N at P` or `model N K`, by `exact`) and `about` (NAME: what the file is).
The files and their order are always the same.
"""

from __future__ import annotations

import argparse
import itertools
import os
from dataclasses import replace
from typing import Iterator, Sequence

import exact
import files
from layout import (
    BODY_LENGTHS, BOX, CENTRE, DEFAULT_STEPS, DIRECTION, DRIFT, END, ENTRY_KINDS, FITTED, GENERATOR,
    GUARD, HEAD, INITIAL, INPUT, LOWER, MATRIX_UNIT, MAX_DIRECTION_ENTRY, MAX_DIRECTIONS, MAX_ENTRY,
    MAX_GUARDS, MAX_LEVEL, MAX_N, MAX_POINTS, MAX_REACH, MAX_STEPS, MIN_POINTS, MIN_LEVEL,
    POINT_KINDS, READ_LIMIT, ROW, ROW_KINDS, UPPER, VERTEX, VERTICES, ZONOTOPE, Model, Set,
    direction, drift, encode, fitted, guard, head, zero_box, offsets, pattern, point, records, row,
    set_records,
)
from listings import Refusal
from models import NO_ENTRIES, SIGN

File = tuple[str, bytes]  # what it is, and its bytes

FORMS = (BOX, ZONOTOPE, VERTICES)
LATER_KINDS = (FITTED, DRIFT)  # which have files of their own
START = b""


def made_set(form: str, n: int, count: int) -> Set:
    """A set of this many points with small coordinates, each point larger than the one before."""
    return Set(form, tuple(tuple(10 * p + i for i in range(n)) for p in range(count)))


def made_model(form: str, n: int = 1, full: bool = False) -> Model:
    """A model with both sets in this form, and with the least counts or the largest."""
    count = MAX_POINTS[form] if full else MIN_POINTS[form]
    points = made_set(form, n, count)
    return Model(
        n=n,
        steps=MAX_STEPS if full else 1,
        matrix=tuple(tuple(1_000 * i + j for j in range(n)) for i in range(n)),
        initial=points,
        input=points,
        directions=tuple((d + 1,) * n for d in range(MAX_DIRECTIONS if full else 1)),
        guards=tuple((d, 7 * d) for d in range(MAX_GUARDS if full else 0)),
    )


SAMPLE = Model(  # Listing 8
    n=1,
    steps=3,
    matrix=((32_768,),),
    initial=Set(BOX, ((0,), (0,))),
    input=Set(BOX, ((0,), (1,))),
    directions=((1,),),
    guards=((0, 1), (0, 2), (0, 3)),
)
# The file that is cut and changed everywhere.
SMALL = replace(made_model(VERTICES), guards=((0, 2),))
WIDE = replace(made_model(BOX, n=2), guards=((0, 5),))
# The head and the rows of a file with n 2, and a direction.
ROWS = head(2, 3) + row(0, [32_768, 1]) + row(1, [0, 16_384])
ASKED = direction([1, -1])
# For the entries beyond n, where n is 1.
RUBBISH = [2**31 - 1, -(2**31), 1, -1, 0x01020304]
HALF = pattern(0.5)
NAN = NO_ENTRIES["the first quiet NaN"]


def places() -> dict[int, bytes]:
    """For each kind a start of a file that ends just behind a record of that kind; 0 is none."""
    rows = head(1, 3) + row(0, [32_768])
    found = {0: START, HEAD: head(1, 3), ROW: rows}
    for part, before in ((INITIAL, rows), (INPUT, rows + point(INITIAL + VERTEX, [5]))):
        for form in FORMS:
            first, *others = set_records(part, made_set(form, 1, MIN_POINTS[form]))
            found[first[0]] = before + first
            for other in others:
                found[other[0]] = before + first + other
    found[DIRECTION] = found[INPUT + UPPER] + direction([1])
    found[GUARD] = found[DIRECTION] + guard(0, 2)
    return found


def behind(place: int) -> str:
    """Where the next record of a start stands, in words."""
    return f"after {place:02X}" if place else "at the start"


def with_zero_corners(data: bytes) -> tuple[int, bytes] | None:
    """Where a direction is straight after a complete initial set, and the file with corners there.

    The corners are the two records of zeros that stand for what is left out (File 10).
    """
    last = (INITIAL + UPPER, INITIAL + GENERATOR, INITIAL + VERTEX)
    before = None
    for at in offsets(data):
        if data[at] == DIRECTION and before in last:
            corners = point(INPUT + LOWER, ()) + point(INPUT + UPPER, ())
            return at, data[:at] + corners + data[at:]
        before = data[at]
    return None


def with_zero_drift(data: bytes) -> tuple[int, bytes] | None:
    """Where the last row of a file without a drift ends, and the file with one of zeros there."""
    n = data[1] if data[:1] == bytes([HEAD]) and len(data) > 1 else 0
    rows = [at for at in itertools.islice(offsets(data), 1, 1 + n) if data[at] in ROW_KINDS]
    at = rows[-1] + 1 + BODY_LENGTHS[data[rows[-1]]] if rows else len(data) + 1
    if len(rows) < n or at > len(data) or data[at : at + 1] == bytes([DRIFT]):
        return None
    return at, data[:at] + drift(()) + data[at:]


def accepted_files() -> Iterator[File]:
    """Models of each form and at their limits; the last file has any numbers beyond n (16)."""
    yield "the sample of the specification", encode(SAMPLE)
    for form in FORMS:
        yield f"shortest with {form}", encode(made_model(form))
        yield f"longest with {form}", encode(made_model(form, MAX_N, full=True))
    for n in range(2, MAX_N + 1):
        yield f"n {n}", encode(made_model(ZONOTOPE, n))
    yield "the head says 0 steps", encode(SAMPLE, stated_steps=0)
    yield "steps at their limit", encode(replace(SAMPLE, steps=MAX_STEPS))
    for sign in (1, -1):
        yield "entry at its limit", encode(replace(SAMPLE, matrix=((sign * MAX_ENTRY,),)))
        largest = sign * MAX_REACH
        yield "reach at its limit", encode(replace(SAMPLE, input=Set(VERTICES, ((largest,),))))
        extreme = sign * MAX_DIRECTION_ENTRY
        yield "direction at its limit", encode(replace(SAMPLE, directions=((extreme,),)))
    spread = Set(ZONOTOPE, ((-MAX_REACH + 7,), (4,), (-3,)))
    yield "reach of a zonotope at its limit", encode(replace(SAMPLE, initial=spread))
    yield "extreme levels", encode(replace(SAMPLE, guards=((0, MIN_LEVEL), (0, MAX_LEVEL))))
    yield "a generator of zeros", encode(replace(SAMPLE, input=Set(ZONOTOPE, ((0,), (0,)))))
    parts = [
        head(1, 3),
        row(0, [32_768, *RUBBISH]),
        point(INITIAL + LOWER, [0, *RUBBISH]),
        point(INITIAL + UPPER, [0, *RUBBISH[1:], 0]),
        point(INPUT + VERTEX, [1, *RUBBISH]),
        direction([1, *RUBBISH]),
        bytes([END]),
    ]
    yield "any numbers beyond n", b"".join(parts)


def order_files() -> Iterator[File]:
    """Numbers 1, 2 and 3 at every place, each kind by its byte alone; not those of LATER_KINDS."""
    unknown = (0x00, 0x04, 0x15, 0x25, 0x31, 0x41, 0xFE)
    known = [kind for kind in BODY_LENGTHS if kind not in LATER_KINDS]
    for index, (place, start) in enumerate(places().items()):
        if place:
            yield f"{place:02X} without its last byte", start[:-1]
        yield f"{behind(place)}: no byte", start
        for kind in (unknown[index % len(unknown)], *known):
            yield f"{behind(place)}: kind {kind:02X} alone", start + bytes([kind])
    yield "after all rows: row n + 1", places()[ROW] + row(1, [0])
    yield "after 11: a second upper corner", places()[INITIAL + UPPER] + point(INITIAL + UPPER, [9])
    yield "a whole model after a head", head(1, 3) + encode(SAMPLE)


def count_files() -> Iterator[File]:
    """Number 9, for whole records and for kind bytes alone, and 3 before it."""
    starts = places()
    many = {
        INITIAL + GENERATOR: starts[INITIAL + CENTRE] + point(INITIAL + GENERATOR, [1]) * 8,
        INITIAL + VERTEX: starts[ROW] + point(INITIAL + VERTEX, [1]) * 16,
        INPUT + GENERATOR: starts[INPUT + CENTRE] + point(INPUT + GENERATOR, [1]) * 8,
        INPUT + VERTEX: starts[INITIAL + UPPER] + point(INPUT + VERTEX, [1]) * 16,
        DIRECTION: starts[INPUT + UPPER] + direction([1]) * 16,
        GUARD: starts[DIRECTION] + guard(0, 1) * 16,
    }
    for kind, start in many.items():
        yield f"one {kind:02X} too many", start + bytes([kind]) + bytes(BODY_LENGTHS[kind])
        yield f"one {kind:02X} too many, its kind alone", start + bytes([kind])
        yield f"{kind:02X} at its largest count", start
    yield "a 17th direction after a guard", many[DIRECTION] + guard(0, 1) + direction([1])


def value_files() -> Iterator[File]:
    """Numbers 4 to 8 and 10, and 16 for one direction."""
    for n, steps in ((0, 3), (7, 3), (255, 3), (1, 257), (1, 65_535), (0, 257)):
        yield f"head {n} {steps}", head(n, steps) + b"".join(records(SAMPLE)[1:])

    beyond = (MAX_ENTRY + 1, -MAX_ENTRY - 1, 2**31 - 1, -(2**31))
    for entry in beyond:
        yield f"entry {entry}", encode(replace(SAMPLE, matrix=((entry,),)))
    yield "entry beyond its limit in the last column", encode(
        replace(WIDE, matrix=((0, MAX_ENTRY + 1), (0, 0)))
    )
    for number in (1, 255):
        yield f"first row is number {number}", head(1, 3) + row(number, [0])
    for number in (0, 2):
        yield f"second row is number {number}", head(2, 3) + row(0, [0, 0]) + row(number, [0, 0])

    starts = places()
    before = {INITIAL: starts[ROW], INPUT: starts[INITIAL + VERTEX]}
    for part, start in before.items():
        ahead = {
            LOWER: start,
            UPPER: start + point(part + LOWER, [0]),
            CENTRE: start,
            GENERATOR: start + point(part + CENTRE, [-1]),
            VERTEX: start + point(part + VERTEX, [1]),
        }
        for which, so_far in ahead.items():
            kind = part + which
            largest = MAX_REACH if which == GENERATOR else MAX_REACH + 1
            yield f"reach beyond its limit by one at {kind:02X}", so_far + point(kind, [largest])
        yield f"crossed corners at {part + UPPER:02X}", ahead[UPPER] + point(part + UPPER, [-1])
        least = -(2**31)
        yield f"{part + VERTEX:02X} of {least}", start + point(part + VERTEX, [least])
    wide_rows = b"".join(records(WIDE)[:3])
    yield "corners crossed in the last coordinate", wide_rows + b"".join(
        point(INITIAL + which, corner) for which, corner in ((LOWER, [0, 3]), (UPPER, [5, 2]))
    )
    yield "reach passed by a second generator", starts[INITIAL + CENTRE] + b"".join(
        point(INITIAL + GENERATOR, [entry]) for entry in (MAX_REACH, 1)
    )

    for entries in ([MAX_DIRECTION_ENTRY + 1], [-MAX_DIRECTION_ENTRY - 1], [-(2**31)], [0], [0, 1]):
        yield f"direction {entries}, n 1", starts[INPUT + UPPER] + direction(entries)
    wide_sets = b"".join(records(WIDE)[:7])
    yield "direction [0, 1001], n 2", wide_sets + direction([0, MAX_DIRECTION_ENTRY + 1])
    yield "direction [0, 1], n 2", wide_sets + direction([0, 1]) + bytes([END])

    for number in (1, 255):
        yield f"guard on direction {number} of 1", starts[DIRECTION] + guard(number, 0)
    yield "a wrong head without its last byte", head(7, 3)[:-1]
    yield "a wrong row without its last byte", head(1, 3) + row(1, [2**31 - 1])[:-1]

    sample = encode(SAMPLE)
    for what, after in (
        ("a zero byte", b"\0"),
        ("a second end", bytes([END])),
        ("itself again", sample),
        ("as many bytes as are read", bytes(READ_LIMIT - len(sample))),
        ("one byte more than is read", bytes(READ_LIMIT + 1 - len(sample))),
        ("many bytes", bytes(5_000)),
    ):
        yield f"the sample, then {what}", sample + after
    longest = encode(made_model(VERTICES, MAX_N, full=True))
    yield "the longest file with scaled rows, then a byte", longest + b"\0"
    yield "the longest file with scaled rows without its end", longest[:-1]


def spoilt_files() -> Iterator[File]:
    """Every cut of a good file, and each of its bytes changed."""
    data = encode(SMALL)
    yield "a good file", data
    for length in range(len(data)):
        yield f"its first {length} bytes", data[:length]
    for offset in range(len(data)):
        changed = bytes(255 - byte if i == offset else byte for i, byte in enumerate(data))
        yield f"all bits changed of byte {offset}", changed


def steps_files() -> Iterator[File]:
    """Steps that the head says outright: the least, 60, and the default (File 4)."""
    for steps in (1, 60, DEFAULT_STEPS):
        yield f"steps of {steps} in the head", encode(replace(SAMPLE, steps=steps))


def behind_initial_files() -> Iterator[File]:
    """What comes straight after a complete initial set, of each form and with each count."""
    unknown = iter((0x15, 0x1F, 0x25, 0x2F, 0x31))
    firsts = itertools.cycle(INPUT + first for first, _ in POINT_KINDS.values())
    for form in FORMS:
        for count in sorted({MIN_POINTS[form], MAX_POINTS[form]}):
            points = set_records(INITIAL, made_set(form, 2, count))
            first, last, no_kind = next(firsts), points[-1], next(unknown)
            for what, record in (
                ("no byte", b""),
                ("a direction", ASKED),
                ("a direction without its last byte", ASKED[:-1]),
                ("a direction beyond its limit", direction([0, MAX_DIRECTION_ENTRY + 1])),
                ("a guard", guard(0, 1)),
                ("the end", bytes([END])),
                (f"kind {no_kind:02X} alone", bytes([no_kind])),
                (f"record {first:02X}", point(first, [0, 0])),
                (f"one {last[0]:02X} more", last),
            ):
                about = f"initial {form} of count {count}, then {what}"
                yield about, ROWS + b"".join(points) + record


def no_input_files() -> Iterator[File]:
    """No input set (File 10): the order before and behind the directions, and whole models."""
    initial = ROWS + point(INITIAL + VERTEX, [5, 6])
    for what, start in (
        ("the head", head(2, 3)),
        ("row 0 of 2", head(2, 3) + row(0, [0, 0])),
        ("all rows", ROWS),
        ("10 alone", ROWS + point(INITIAL + LOWER, [5, 6])),
        ("12 alone", ROWS + point(INITIAL + CENTRE, [5, 6])),
        ("20 alone", initial + point(INPUT + LOWER, [0, 0])),
        ("22 alone", initial + point(INPUT + CENTRE, [0, 0])),
    ):
        yield f"a direction after {what}", start + ASKED
    for kind in (*range(INPUT + LOWER, INPUT + VERTEX + 1), INITIAL + VERTEX):
        yield f"no input set: {kind:02X} after a direction", initial + ASKED + point(kind, [0, 0])

    whole = {f"shortest with {form}": made_model(form) for form in FORMS}
    whole |= {f"longest with {form}": made_model(form, MAX_N, full=True) for form in FORMS}
    whole |= {f"n {n}": made_model(form, n) for n, form in zip(range(2, MAX_N), FORMS * 2)}
    for what, model in whole.items():
        yield f"no input set: {what}", encode(model, input_stated=False)
        zero = replace(model, input=zero_box(model.n))
        yield f"input set from zero to zero: {what}", encode(zero)
    yield "no input set: the head says 0 steps", encode(SAMPLE, stated_steps=0, input_stated=False)
    start = head(1, 3) + row(0, [32_768, *RUBBISH]) + point(INITIAL + VERTEX, [5, *RUBBISH])
    zeros = point(INPUT + LOWER, [0, *RUBBISH]) + point(INPUT + UPPER, [0, *RUBBISH[1:], 0])
    end = direction([1, *RUBBISH]) + bytes([END])
    yield "no input set: any numbers beyond n", start + end
    yield "input set from zero to zero: any numbers beyond n", start + zeros + end

    many = initial + ASKED * MAX_DIRECTIONS
    yield "no input set: a 17th direction", many + ASKED
    yield "no input set: a 17th direction, its kind alone", many + bytes([DIRECTION])
    yield "no input set: guard on direction 1 of 1", initial + ASKED + guard(1, 0)
    longest = encode(made_model(VERTICES, MAX_N, full=True), input_stated=False)
    yield "no input set: the longest file with scaled rows, then a byte", longest + b"\0"


def fitted_rows(model: Model) -> dict[int, list[int]]:
    """Fitted rows that become those of a model, each entry a quarter of 1/65,536 above its own."""
    return {
        number: [pattern((entry + 0.25) / MATRIX_UNIT) for entry in entries]
        for number, entries in enumerate(model.matrix)
    }


def fitted_place_files() -> Iterator[File]:
    """Kind 03 at every place, and every kind behind a fitted row, each by its byte alone."""
    for place, start in places().items():
        yield f"{behind(place)}: kind 03 alone", start + bytes([FITTED])
    rows = head(1, 3) + fitted(0, [HALF])
    yield "03 without its last byte", rows[:-1]
    yield "after 03: no byte", rows
    for kind in (0x00, *(kind for kind in BODY_LENGTHS if kind != DRIFT)):
        yield f"after 03: kind {kind:02X} alone", rows + bytes([kind])
    for first in (row(0, [0, 0]), fitted(0, [0, 0])):
        for kind in (*ROW_KINDS, INITIAL + LOWER, DIRECTION, END):
            what = f"after {first[0]:02X} of 2 rows: kind {kind:02X}"
            yield what, head(2, 3) + first + bytes([kind])
    yield "a fitted row before the head", fitted(0, [HALF]) + encode(SAMPLE)
    yield "after all rows: fitted row n + 1", places()[ROW] + fitted(1, [HALF])
    yield "after all fitted rows: row n + 1", rows + row(1, [0])
    yield "after all fitted rows: fitted row n + 1", rows + fitted(1, [HALF])


def mixed_files() -> Iterator[File]:
    """Scaled and fitted rows in every mixture of three, each n, and any bits beyond n (16)."""
    model = made_model(BOX, n=3)
    for kinds in itertools.product(ROW_KINDS, repeat=3):
        chosen = {i: bits for i, bits in fitted_rows(model).items() if kinds[i] == FITTED}
        told = " ".join(f"{kind:02X}" for kind in kinds)
        yield f"rows {told}", encode(model, fitted_rows=chosen)
    for n in range(1, MAX_N + 1):
        whole = made_model(FORMS[n % 3], n)
        yield f"fitted rows, n {n}", encode(whole, fitted_rows=fitted_rows(whole))
    rubbish = [bits | sign for bits in NO_ENTRIES.values() for sign in (0, SIGN)]
    for n in range(1, MAX_N):
        some = rubbish[n:] + rubbish[:n]
        rows = {i: bits + some[: MAX_N - n] for i, bits in fitted_rows(made_model(BOX, n)).items()}
        yield f"fitted rows, any bits beyond n {n}", encode(made_model(BOX, n), fitted_rows=rows)


def fitted_value_files() -> Iterator[File]:
    """Entries and numbers of fitted rows: 15, and 1, 5 and 16 before it."""
    signs = {"": 0, "minus ": SIGN}
    for (sign, bit), (what, bits) in itertools.product(signs.items(), NO_ENTRIES.items()):
        yield f"fitted entry: {sign}{what}", encode(SAMPLE, fitted_rows={0: [bits | bit]})
    wrong = itertools.cycle(bits | bit for bits in NO_ENTRIES.values() for bit in signs.values())
    for n in (2, 3, MAX_N):
        for i in range(n):
            model = made_model(VERTICES, n)
            rows = fitted_rows(model)
            rows[n - 1][i] = next(wrong)
            yield f"wrong fitted entry {i} of {n}", encode(model, fitted_rows=rows)

    ties = [pattern((k + 0.5) / MATRIX_UNIT) for k in (0, 1, 2, 3, MAX_ENTRY - 2, MAX_ENTRY - 1)]
    two, normal = pattern(2.0), 2**52
    right = {
        "2, the next below it, 1": [two, two - 1, pattern(1.0)],
        "0, the smallest, the next": [0, 1, 2],
        "the largest below the normal ones, the smallest normal one": [normal - 1, normal],
        "ties": ties,
        "the next below ties": [bits - 1 for bits in ties],
        "the next above ties": [bits + 1 for bits in ties],
    }
    for (sign, bit), (what, patterns) in itertools.product(signs.items(), right.items()):
        rows = {0: [bits | bit for bits in patterns]}
        yield f"fitted entries: {sign}{what}", encode(made_model(BOX, MAX_N), fitted_rows=rows)

    for number, (what, bits) in itertools.product((1, 255), (("", HALF), (", wrong entry", NAN))):
        yield f"first fitted row is number {number}{what}", head(1, 3) + fitted(number, [bits])
    for number in (0, 2):
        for first, second in ((row, fitted), (fitted, row), (fitted, fitted)):
            start, record = head(2, 3) + first(0, [0, 0]), second(number, [0, 0])
            kinds = f"{start[4]:02X} then {record[0]:02X}"
            yield f"second row is number {number}, {kinds}", start + record
        both = head(2, 3) + fitted(0, [0, 0]) + fitted(number, [0, NAN])
        yield f"second row is number {number}, wrong entry", both

    yield "a wrong fitted row without its last byte", head(1, 3) + fitted(1, [NAN])[:-1]
    yield "a fitted row of the length of a scaled one", head(1, 3) + fitted(0, [HALF])[:26]
    yield "a scaled row with kind 03", encode(SAMPLE).replace(b"\x02", b"\x03", 1)
    changed = encode(SAMPLE, fitted_rows={0: [HALF]})
    yield "a fitted row with kind 02", changed.replace(b"\x03\0\x03", b"\x03\0\x02", 1)
    for offset in range(4, 14):
        what = f"a fitted row, all bits changed of byte {offset}"
        yield what, bytes(255 - byte if i == offset else byte for i, byte in enumerate(changed))


def fitted_length_files() -> Iterator[File]:
    """The longest files without a drift, and what comes behind the longest of them."""
    for form in FORMS:
        model = made_model(form, MAX_N, full=True)
        rows = fitted_rows(model)
        yield f"longest with {form} and fitted rows", encode(model, fitted_rows=rows)
    longest = encode(model, fitted_rows=rows)
    yield "the longest file with fitted rows, then a byte", longest + b"\0"
    yield "the longest file with fitted rows without its end", longest[:-1]
    yield "no input set: longest with fitted rows", encode(
        model, input_stated=False, fitted_rows=rows
    )


def with_drift(model: Model, entries: Sequence[int]) -> bytes:
    """The file of a model with a drift record of these entries, which may be beyond n."""
    parts = records(model)
    return b"".join([*parts[: 1 + model.n], drift(entries), *parts[1 + model.n :]])


def drift_place_files() -> Iterator[File]:
    """Kind 05 at every place, and every kind behind a drift, each by its byte alone."""
    for place, start in places().items():
        yield f"{behind(place)}: kind 05 alone", start + bytes([DRIFT])
    rows = {"02": places()[ROW], "03": head(1, 3) + fitted(0, [HALF])}
    yield "after 03: kind 05 alone", rows["03"] + bytes([DRIFT])
    for what, start in rows.items():
        yield f"after {what}: 05 without its last byte", start + drift([1])[:-1]
        yield f"after {what}: a drift, then no byte", start + drift([1])
    for kind in (0x04, *BODY_LENGTHS):
        yield f"after 05: kind {kind:02X} alone", rows["02"] + drift([1]) + bytes([kind])
    for first in (row(0, [0, 0]), fitted(0, [0, 0])):
        yield f"a drift after {first[0]:02X} of 2 rows", head(2, 3) + first + drift([1, 1])
    yield "a drift before the head", drift([1]) + encode(SAMPLE)

    parts = records(replace(WIDE, drift=(3, -4)))  # the drift is the fourth
    yield "a drift in its place", b"".join(parts)
    for at in range(1, len(parts) + 1):
        if parts[at - 1][0] != ROW:
            start = b"".join(parts[:at])
            yield f"a second drift at {len(start)}", start + parts[3] + b"".join(parts[at:])
    others = parts[:3] + parts[4:]
    for at in range(1, len(others)):
        if at != 3:
            moved = [*others[:at], parts[3], *others[at:]]
            yield f"the only drift behind {others[at - 1][0]:02X}", b"".join(moved)


def drift_value_files() -> Iterator[File]:
    """Entries of the drift at and beyond their limit, each of every n; and any beyond n (16)."""
    for n in range(1, MAX_N + 1):
        model = replace(made_model(BOX, n), input=zero_box(n))
        last = {n - 1: [HALF] * n} if n % 2 else {}
        for i, size in itertools.product(range(n), (MAX_REACH, MAX_REACH + 1)):
            for sign in (1, -1):
                entries = tuple(sign * size if j == i else 0 for j in range(n))
                about = f"drift entry {i} of {n} is {sign * size}"
                # Without the input set's records the drift alone counts.
                stated = (i + n) % 2 == 0
                yield about, encode(replace(model, drift=entries), None, stated, last)
    limits = itertools.cycle((MAX_REACH, -MAX_REACH))
    for n in range(1, MAX_N + 1):
        model = replace(made_model(VERTICES, n), drift=tuple(itertools.islice(limits, n)))
        yield f"no input set: drift at its limits, n {n}", encode(model, input_stated=False)
    for entry in (2**31 - 1, -(2**31)):
        yield f"drift of {entry}", encode(replace(SAMPLE, drift=(entry,)))
    for n in range(1, MAX_N):
        model = made_model(FORMS[n % 3], n)
        yield f"drift, any numbers beyond n {n}", with_drift(model, [7] * n + RUBBISH[n - 1 :])
    wrong = drift([MAX_REACH + 1])
    yield "a wrong drift without its last byte", places()[ROW] + wrong[:-1]
    yield "a wrong drift a second time", places()[ROW] + drift([1]) + wrong
    for form in FORMS:
        model = made_model(form, n=2)
        yield f"no drift: {form}", encode(model)
        yield f"drift of zeros: {form}", encode(model, drift_stated=True)


def drifting(n: int, i: int, entry: int) -> bytes:
    """The start of a file with this drift in coordinate i, up to its initial set."""
    rows = b"".join(records(made_model(VERTICES, n))[: 1 + n])
    return rows + drift([0] * i + [entry]) + point(INITIAL + VERTEX, [])


def entering_files() -> Iterator[File]:
    """The sum of the input set's reach and the drift: at its limit, beyond by one, and 6 before."""
    # By the kind of a point: those before it in its coordinate, and what makes the reach 100.
    points = {
        LOWER: ((), -100, 100), UPPER: ((-60,), 100), CENTRE: ((), -100, 100),
        GENERATOR: ((-50, 9), -41, 41), VERTEX: ((-70, 30), -100, 100),
    }
    firsts = {UPPER: LOWER, GENERATOR: CENTRE}
    signs, coordinates = itertools.cycle((1, 1, -1, -1)), itertools.cycle(range(MAX_N))
    for which, (before, *lasts) in points.items():
        kinds = [firsts.get(which, which)] * bool(before) + [which] * max(len(before), 1)
        for last in lasts:
            i, sign = next(coordinates), next(signs)
            for more in (0, 1):
                values = (*before, last + (more if last > 0 else -more))
                data = drifting(MAX_N, i, sign * (MAX_REACH - 100)) + b"".join(
                    point(INPUT + kind, [0] * i + [value]) for kind, value in zip(kinds, values)
                )
                what = "beyond its limit by one" if more else "at its limit"
                about = f"sum {what} at {INPUT + which:02X}, {last} in {i} with a drift of {sign}"
                yield about, data if more else data + bytes([END])
    for i, sign, side in itertools.product(range(MAX_N), (1, -1), (1, -1)):
        about = f"sum beyond its limit in the last coordinate of {i + 1}, {sign} and {side}"
        entry = sign * (MAX_REACH // 2)
        last_point = point(INPUT + VERTEX, [0] * i + [side * (MAX_REACH // 2 + 1)])
        yield about, drifting(i + 1, i, entry) + last_point

    two = ROWS + drift([0, MAX_REACH]) + point(INITIAL + VERTEX, [MAX_REACH, MAX_REACH])
    upper, generator = INPUT + UPPER, INPUT + GENERATOR
    corner, centre = point(INPUT + LOWER, [3, 0]), point(INPUT + CENTRE, [0, 0])
    for what, data in (
        ("reach beyond its limit at 20", two + point(INPUT + LOWER, [0, MAX_REACH + 1])),
        ("reach beyond its limit at 21", two + corner + point(upper, [3, MAX_REACH + 1])),
        ("crossed corners", two + corner + point(upper, [3, -1])),
        ("crossed corners in the other coordinate", two + corner + point(upper, [2, 1])),
        ("reach beyond its limit at 22", two + point(INPUT + CENTRE, [0, -MAX_REACH - 1])),
        ("reach beyond its limit at 23", two + centre + point(generator, [0, MAX_REACH + 1])),
        ("reach beyond its limit at 24", two + point(INPUT + VERTEX, [0, -(2**31)])),
        ("reach beyond in the other coordinate", two + point(INPUT + VERTEX, [MAX_REACH + 1, 1])),
    ):
        yield f"6 before 17: {what}", data
    yield "17 at the upper corner", two + corner + point(upper, [3, 1])
    yield "17 at a corner without its last byte", two + point(INPUT + LOWER, [0, 1])[:-1]
    yield "17 at a ninth generator", two + centre + point(generator, [0, 0]) * 8 + point(
        generator, [0, 1]
    )
    yield "17 toward zero", two + point(INPUT + VERTEX, [0, -1])
    yield "the initial set beside the drift", two + ASKED + bytes([END])
    yield "6 at the initial set", ROWS + drift([0, MAX_REACH]) + point(
        INITIAL + VERTEX, [0, MAX_REACH + 1]
    )
    spread = Set(ZONOTOPE, ((-9, 8), *((1, -2),) * 8))
    full = replace(made_model(BOX, n=2), input=spread, drift=(17 - MAX_REACH, MAX_REACH - 24))
    yield "sums at their limit with eight generators", encode(full)
    box = Set(BOX, ((-7, 5), (6, 5)))
    full = replace(made_model(BOX, n=2), input=box, drift=(7 - MAX_REACH, 5 - MAX_REACH))
    yield "sums at their limit with corners", encode(full)


def drift_length_files() -> Iterator[File]:
    """The longest files (File 9), and what comes behind the longest of all."""
    for form in FORMS:
        model = replace(made_model(form, MAX_N, full=True), drift=(1, -2, 3, -4, 5, -6))
        rows = fitted_rows(model)
        yield f"longest with {form}, fitted rows and a drift", encode(model, fitted_rows=rows)
    longest = encode(model, fitted_rows=rows)
    yield "the longest file, then a byte", longest + b"\0"
    yield "the longest file without its end", longest[:-1]
    yield "longest with a drift and scaled rows", encode(model)


# Entries beyond n (Refusals 16)

# What is no zero: the least in magnitude, one bit of each byte, the largest; of a fitted row the
# smallest, 1, a bit by itself and what is no number.
NO_ZEROS = (1, -1, 2**31 - 1, -(2**31), 1 << 8, 1 << 16, 1 << 24, 7)
NO_FITTED_ZEROS = {
    "the smallest": 1,
    "the largest below the normal ones": 2**52 - 1,
    "1": pattern(1.0),
    "a bit of the high half": 1 << 32,
    "infinity": NO_ENTRIES["infinity"],
    "the first signalling NaN": NO_ENTRIES["the first signalling NaN"],
    "the first quiet NaN": NAN,
    "the last quiet NaN": NO_ENTRIES["the last quiet NaN"],
}


def start_of(n: int, kind: int) -> bytes:
    """The start of a file behind which a record of this kind may stand; of a row the last one."""
    rows = [row(i, [9] * n) for i in range(n)]
    if kind in ROW_KINDS:
        return head(n, 3) + b"".join(rows[:-1])
    firsts = {part + UPPER: part + LOWER for part in (INITIAL, INPUT)}
    firsts |= {part + GENERATOR: part + CENTRE for part in (INITIAL, INPUT)}
    before = [point(INITIAL + VERTEX, [2] * n)] if kind >= INPUT else []
    before += [point(firsts[kind], [0] * n)] if kind in firsts else []
    return head(n, 3) + b"".join(rows + before)


def six(kind: int, n: int, entries: Sequence[int], number: int | None = None) -> bytes:
    """A record of this kind with these entries; of a row with the last number, or with this one."""
    number = n - 1 if number is None else number
    if kind == FITTED:
        return fitted(number, entries)
    return row(number, entries) if kind == ROW else point(kind, entries)


def first_entries(kind: int, n: int) -> list[int]:
    """Right entries up to n."""
    return [HALF if kind == FITTED else 1] * n


def with_rubbish(kind: int, n: int, column: int, entry: int, number: int | None = None) -> bytes:
    """A record that is right up to n, but for its number, and has this entry in a column beyond."""
    entries = first_entries(kind, n) + [0] * (column - n) + [entry]
    return six(kind, n, entries, number)


def column_files() -> Iterator[File]:
    """Each kind with something in each column beyond each n, and in all of them."""
    numbers, signs = itertools.cycle(NO_ZEROS), (0, SIGN)
    patterns = itertools.cycle(bits | bit for bits in NO_FITTED_ZEROS.values() for bit in signs)
    for kind, n in itertools.product(ENTRY_KINDS, range(1, MAX_N)):
        start = start_of(n, kind)
        for column in range(n, MAX_N):
            entry = next(patterns if kind == FITTED else numbers)
            about = f"{kind:02X}, n {n}: column {column} is not zero"
            yield about, start + with_rubbish(kind, n, column, entry)
    for kind, n in zip(ENTRY_KINDS, itertools.cycle(range(1, MAX_N - 1))):
        source = patterns if kind == FITTED else numbers
        entries = first_entries(kind, n) + list(itertools.islice(source, MAX_N - n))
        about = f"{kind:02X}, n {n}: no column beyond is zero"
        yield about, start_of(n, kind) + six(kind, n, entries)


def beyond_order_files() -> Iterator[File]:
    """16 before the row number and the other values, and behind 1, 3 and 9."""
    for kind, n in itertools.product(ROW_KINDS, range(1, MAX_N)):
        wrong_numbers = itertools.cycle((255, n, 0) if n > 1 else (255, n))  # it should be n - 1
        for column, number in zip(range(n, MAX_N), wrong_numbers):
            about = f"{kind:02X} with number {number}, n {n}: column {column} is not zero"
            yield about, start_of(n, kind) + with_rubbish(kind, n, column, 1, number)

    sizes = {ROW: MAX_ENTRY + 1, FITTED: NAN, DIRECTION: MAX_DIRECTION_ENTRY + 1}
    for kind, n in zip(ENTRY_KINDS, itertools.cycle((3, 1, 5, 2, 4))):
        start, wrong = start_of(n, kind), [sizes.get(kind, MAX_REACH + 1)] + [0] * (MAX_N - 2)
        yield f"{kind:02X} with a wrong entry, n {n}", start + six(kind, n, wrong[:n])
        about = f"{kind:02X} with a wrong entry, n {n}: column {MAX_N - 1} is not zero"
        yield about, start + six(kind, n, [*wrong, 1])
    nothing = start_of(2, DIRECTION) + direction([0, 0, 0, 1])
    yield "30 with zeros up to n, n 2: column 3 is not zero", nothing
    for part in (INITIAL, INPUT):
        crossed = point(part + UPPER, [0, -1, 1])
        about = f"crossed corners at {part + UPPER:02X}, n 2: column 2 is not zero"
        yield about, start_of(2, part + UPPER) + crossed
    full = ROWS + drift([0, MAX_REACH]) + point(INITIAL + VERTEX, [0, 0])
    for kind in (INPUT + LOWER, INPUT + CENTRE, INPUT + VERTEX):
        about = f"sum beyond its limit at {kind:02X}, n 2: column 4 is not zero"
        yield about, full + point(kind, [0, 1, 0, 0, -1])

    for kind, n in zip(ENTRY_KINDS, itertools.cycle((1, 4, 2, 3))):
        cut = six(kind, n, [1] * MAX_N)[:-1]
        yield f"{kind:02X} with rubbish, without its last byte, n {n}", start_of(n, kind) + cut
        before = start_of(n, DIRECTION) + direction([1] * n) + guard(0, 1)
        about = f"{kind:02X} with rubbish behind a guard, n {n}"
        yield about, before + with_rubbish(kind, n, n, 1)
    yield "02 with rubbish before the head, n 1", with_rubbish(ROW, 1, 1, 1) + encode(SAMPLE)
    n = 4
    for kind, count in (
        (INITIAL + GENERATOR, 8), (INITIAL + VERTEX, 16), (INPUT + GENERATOR, 8),
        (INPUT + VERTEX, 16), (DIRECTION, 16),
    ):
        start, last = start_of(n, kind), with_rubbish(kind, n, n + 1, 1)
        others = [point(kind, [1] * n)] * count
        yield f"one {kind:02X} too many, with rubbish", start + b"".join(others) + last
        yield f"the last {kind:02X} with rubbish", start + b"".join(others[1:]) + last


def zero_files() -> Iterator[File]:
    """Either zero beyond n in fitted rows, and all else there; zeros in place of rubbish.

    Also a file of three coordinates that was saved from four, and which of two records is told.
    """
    for n in range(1, MAX_N):
        model = made_model(BOX, n)
        for what, zero in (("zeros", 0), ("negative zeros", SIGN)):
            rows = {i: bits + [zero] * (MAX_N - n) for i, bits in fitted_rows(model).items()}
            yield f"fitted rows, {what} beyond n {n}", encode(model, fitted_rows=rows)
    mixed = {0: [HALF, 0, SIGN, 0, SIGN, SIGN]}
    yield "fitted row, zeros of either sign beyond n 1", encode(SAMPLE, fitted_rows=mixed)
    for what, bits in NO_FITTED_ZEROS.items():
        for sign, bit, column in (("", 0, MAX_N - 1), ("minus ", SIGN, 1)):
            rows = {0: [HALF] + [SIGN] * (column - 1) + [bits | bit]}
            about = f"fitted row, {sign}{what} in column {column} beyond n 1"
            yield about, encode(SAMPLE, fitted_rows=rows)

    sample = records(SAMPLE)
    for index, record in enumerate(sample):
        if record[0] in ENTRY_KINDS:
            changed = [*sample[:index], record[:-1] + b"\x80", *sample[index + 1 :]]
            yield f"the sample with a bit in the last column of {record[0]:02X}", b"".join(changed)
    corners = point(INITIAL + LOWER, [0]) + point(INITIAL + UPPER, [0])
    rows = head(1, 3) + row(0, [32_768])
    vertex, asked = point(INITIAL + VERTEX, [5]), direction([1]) + bytes([END])
    zero_corners = point(INPUT + LOWER, []) + point(INPUT + UPPER, [])
    for what, data in (
        ("any numbers beyond n", rows + corners + point(INPUT + VERTEX, [1]) + asked),
        ("no input set: any numbers beyond n", rows + vertex + asked),
        ("input set from zero to zero: any numbers beyond n", rows + vertex + zero_corners + asked),
        *((f"drift, any numbers beyond n {n}", with_drift(made_model(FORMS[n % 3], n), [7] * n))
          for n in range(1, MAX_N)),
    ):
        yield f"zeros in place of: {what}", data

    # A file of three coordinates that was saved from a model of four.
    four = made_model(BOX, 4)
    parts = records(four)
    saved = [head(3, four.steps), *parts[1:4], *parts[5:]]
    yield "three coordinates saved from four", b"".join(saved)
    zeros = [record[:13] + bytes(12) if record[0] in ENTRY_KINDS else record for record in saved]
    zeros[1:4] = (record[:14] + bytes(12) for record in saved[1:4])
    yield "three coordinates saved from four, and zeros beyond", b"".join(zeros)

    # The first wrong record is told.
    early, late = with_rubbish(ROW, 2, 2, 1, 0), with_rubbish(ROW, 2, MAX_N - 1, -1, 1)
    for what, rows_ in (
        ("both rows", early + late), ("the second row", row(0, [1, 1]) + late),
        ("the first row, and number 0 twice", early + row(0, [1, 1])),
        ("the second row, and a wrong entry in the first", row(0, [MAX_ENTRY + 1]) + late),
    ):
        yield f"rubbish in {what}", head(2, 3) + rows_


def all_files() -> list[File]:
    """All files, in their order."""
    makers = (
        accepted_files, order_files, count_files, value_files, spoilt_files, steps_files,
        behind_initial_files, no_input_files, fitted_place_files, mixed_files, fitted_value_files,
        fitted_length_files, drift_place_files, drift_value_files, entering_files,
        drift_length_files, column_files, beyond_order_files, zero_files,
    )
    return [file for maker in makers for file in maker()]


def reply(data: bytes) -> str:
    """What the reader must say of a file."""
    read = exact.read_model(data)
    if isinstance(read, Refusal):
        return f"refused {read.number} at {read.offset}"
    return f"model {read.n} {read.steps}"


def contents() -> dict[str, bytes]:
    """All that is written, by name."""
    made = {f"{number:04}": file for number, file in enumerate(all_files(), 1)}
    texts = {
        "names": [name for name in made],
        "expected": [f"{name}: {reply(data)}" for name, (_, data) in made.items()],
        "about": [f"{name}: {what}" for name, (what, _) in made.items()],
    }
    return {name: data for name, (_, data) in made.items()} | {
        name: "".join(row + "\n" for row in rows).encode("ascii") for name, rows in texts.items()
    }


def main() -> None:
    parser = argparse.ArgumentParser(description="Write test files for a reader.")
    parser.add_argument("folder", metavar="OUTDIR")
    options = parser.parse_args()
    files.make_folder(options.folder)
    made = contents()
    for name, data in made.items():
        files.write_bytes(os.path.join(options.folder, name), data)
    print(f"{made['names'].count(10)} files in {options.folder}")


if __name__ == "__main__":
    files.run(main)
