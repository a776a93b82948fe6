#!/usr/bin/env python3
"""Random models and files, the same for the same seed.

In order: the parts of an accepted model; guards near the model's own bounds; fitted rows that
become those of the model; values beyond a limit; damaged files; rubbish beyond n, alone and beside
another fault; points for tests that build a set point by point; all ways to save one model; calm
models and models that are almost calm. Most models have few steps and directions, so that checking
them is quick.

    models.py SEED NUMBER    write file NUMBER of that seed to standard output
"""

from __future__ import annotations

import argparse
import itertools
import math
import random
import struct
from dataclasses import replace
from fractions import Fraction
from operator import sub
from typing import Iterator

import exact
import files
from layout import (
    BODY_LENGTHS, BOX, DEFAULT_STEPS, DIRECTION, END, FITTED, GUARD, HEAD, INITIAL, INPUT,
    LONGEST_FILE, MATRIX_UNIT, MAX_DIRECTION_ENTRY, MAX_DIRECTIONS, MAX_ENTRY, MAX_GUARDS,
    MAX_LEVEL, MAX_N, MAX_POINTS, MAX_REACH, MAX_STEPS, MIN_LEVEL, READ_LIMIT, ROW, ROW_KINDS,
    VERTICES, ZONOTOPE, Model, Set, Vector, drift, encode, entry_places, guard, head, pattern,
    point, records, zero_box,
)
from listings import Growth, Refusal

I32_EXTREMES = (-(2**31), 2**31 - 1)
SIGN = 1 << 63  # of 64 bits
# Numbers of 64 bits that no fitted row may hold (Refusals 15), here without their sign.
NO_ENTRIES = {
    "the next above 2": pattern(2.0) + 1,
    "4": pattern(4.0),
    "the largest": 0x7FEF_FFFF_FFFF_FFFF,
    "infinity": 0x7FF0_0000_0000_0000,
    "the first signalling NaN": 0x7FF0_0000_0000_0001,
    "the last signalling NaN": 0x7FF7_FFFF_FFFF_FFFF,
    "the first quiet NaN": 0x7FF8_0000_0000_0000,
    "the last quiet NaN": 0x7FFF_FFFF_FFFF_FFFF,
}

# Matrix entry, direction entry and step at which two sums lie on two sides of the growth limit, or
# of that limit halved several times, where the spare figure changes.
EDGES = (
    # |r|, and |r| + half of e: growth, then the spare figure.
    (99_334, 2, 15),
    (66_153, 849, 20),
    (72_845, 2, 59),
    (81_325, 87, 5),
    (99_334, 4, 10),
    (66_725, 12, 16),
    # |r| + half of e, and |r| + e: growth, then the spare figure.
    (99_334, 16, 10),
    (80_132, 75, 13),
    (99_334, 16, 5),  # half of e takes |r| to 2^27, and no further
    (118_715, 1, 7),
    # |r| + half of e rounded down, and rounded up: the spare figure.
    (66_993, 58, 36),
    (65_867, 50, 49),
)


# Parts of an accepted model


TEMPERS = (
    *("calm",) * 3,  # magnitudes of a column sum to 1 at most, or by chance to 4 / 65,536 more
    "turning",
    "shuffled",  # each coordinate goes to another one unchanged: the largest sums that are swept
    "cancelling",  # r stays small while e grows
    "tiny",
    "halving",  # powers of two: what is rounded is now and then a half
    "sparse",
    "wide",
    "extreme",
    "edge",  # powers of two meet the growth limit, and ones beside them pass it by little
)


def _matrix(rng: random.Random, n: int, temper: str | None = None) -> tuple[Vector, ...]:
    """A matrix of this temper, or of any."""
    temper = temper or rng.choice(TEMPERS)
    angle = rng.uniform(0.01, 1.5)
    cos, sin = round(MATRIX_UNIT * math.cos(angle)), round(MATRIX_UNIT * math.sin(angle))
    order = rng.sample(range(n), n)
    scales = [rng.randint(60_000, MAX_ENTRY) for _ in range(n)]
    power = rng.choice((32, 512, 8_192))

    def entry(i: int, j: int) -> int:
        if temper == "calm":
            return rng.randint(-MATRIX_UNIT // n, MATRIX_UNIT // n)
        if temper == "turning":
            other = i + 1 if i % 2 == 0 else i - 1
            return cos if i == j else (sin, -sin)[i % 2] if j == other else 0
        if temper == "shuffled":
            return rng.choice((MATRIX_UNIT, -MATRIX_UNIT)) if j == order[i] else 0
        if temper == "cancelling":
            return (-1) ** i * scales[j]
        if temper == "tiny":
            return rng.randint(-3, 3)
        if temper == "halving":
            return rng.choice((power, -power, 0))
        if temper == "sparse":
            return rng.choice((0, 0, rng.randint(-90_000, 90_000)))
        if temper == "wide":
            return rng.randint(-MAX_ENTRY, MAX_ENTRY)
        if temper == "extreme":
            return rng.choice((MAX_ENTRY, -MAX_ENTRY, MATRIX_UNIT, -MATRIX_UNIT, 1, -1, 0, 0))
        return rng.choice((MAX_ENTRY, -MAX_ENTRY)) if i == j else rng.choice((0, 0, 0, 1, -1))

    return tuple(tuple(entry(i, j) for j in range(n)) for i in range(n))


def _edge(rng: random.Random, model: Model) -> Model:
    """The model with one of EDGES in a coordinate, its first direction and its steps."""
    entry, d, step = rng.choice(EDGES)
    i = rng.randrange(model.n)
    alone = tuple(1 if j == i else 0 for j in range(model.n))
    return replace(
        model,
        steps=step,
        matrix=tuple(
            tuple(entry * x for x in alone) if j == i else other
            for j, other in enumerate(model.matrix)
        ),
        directions=(tuple(d * x for x in alone), *model.directions[1:]),
    )


def _set(rng: random.Random, n: int, largest: bool = False) -> Set:
    """A set in one of the three forms: of any size, or of the largest count and reach."""
    form = rng.choice((BOX, ZONOTOPE, VERTICES))
    scale = rng.choice((0, 1, 9, 100, 2_000, 50_000, MAX_REACH))
    count = 2 if form == BOX else rng.choice((1, 2, 2, 3, 4, MAX_POINTS[form]))
    if largest:
        scale, count = MAX_REACH, MAX_POINTS[form]
    if form == ZONOTOPE:
        count = max(count, 2)
        scale //= count
    points = [[rng.randint(-scale, scale) for _ in range(n)] for _ in range(count)]
    for i in range(n) if largest else rng.choice(((), (), (), (rng.randrange(n),))):
        stretch(points, form, rng.randrange(count), i, MAX_REACH)
    if form == BOX:
        points = [[f(pair) for pair in zip(*points)] for f in (min, max)]
    return Set(form, tuple(map(tuple, points)))


def stretch(points: list[list[int]], form: str, index: int, i: int, reach: int) -> None:
    """Give the set this reach in coordinate i, by its point of this index."""
    others = sum(abs(p[i]) for p in points) - abs(points[index][i]) if form == ZONOTOPE else 0
    sign = -1 if points[index][i] < 0 else 1
    points[index][i] = sign * (reach - others)


def _drift(rng: random.Random, model: Model, largest: bool = False) -> Vector:
    """A drift that the model can have: of any size, or as large as its input set leaves room."""
    scale = rng.choice((1, 9, 2_000, MAX_REACH))
    entries = []
    for reach in exact.reach(model.input, model.n):
        room = MAX_REACH - reach
        at_limit = largest or scale == MAX_REACH and rng.random() < 0.5
        size = room if at_limit else rng.randint(0, min(scale, room))
        entries.append(rng.choice((-1, 1)) * size)
    return tuple(entries)


def _direction(rng: random.Random, n: int) -> Vector:
    limit = rng.choice((1, 1, 3, 20, MAX_DIRECTION_ENTRY))
    entries = [rng.randint(-limit, limit) for _ in range(n)]
    if rng.random() < 0.3:
        entries = [0] * n
    entries[rng.randrange(n)] = rng.choice((-limit, limit))
    return tuple(entries)


def level_near(rng: random.Random, swept: exact.Sweep | Growth) -> int:
    """A level at a bound or a bound - slack, or one count beside it; now and then any other.

    It is that of any step, that of the peak, or the largest of all, at which verdicts change.
    """
    if isinstance(swept, Growth) or rng.random() < 0.1:
        return rng.choice((MIN_LEVEL, MAX_LEVEL, 0, rng.randint(-(10**6), 10**6)))
    lows = tuple(map(sub, swept.bounds, swept.slacks))
    peak = swept.bounds.index(max(swept.bounds))
    step = rng.choice((rng.randrange(len(lows)), peak, None))
    values = rng.choice((swept.bounds, lows))
    return (max(values) if step is None else values[step]) + rng.choice((-1, 0, 0, 1))


def _largest(rng: random.Random) -> Model:
    """A model with every count, the reaches and the steps at their limits.

    Either the input set reaches as far as it may, or it does so together with a drift.
    """
    n = MAX_N
    extreme = MAX_DIRECTION_ENTRY
    model = Model(
        n=n,
        steps=MAX_STEPS,
        matrix=_matrix(rng, n, rng.choice(("shuffled", "calm"))),
        initial=_set(rng, n, largest=True),
        input=_set(rng, n, largest=rng.random() < 0.5),
        directions=tuple(
            tuple(rng.choice((-extreme, extreme)) for _ in range(n)) for _ in range(MAX_DIRECTIONS)
        ),
        guards=(),
    )
    return replace(model, drift=_drift(rng, model, largest=True))


def random_model(rng: random.Random) -> Model:
    """An accepted model."""
    n = rng.randint(1, MAX_N)
    steps = rng.choice((1, 2, 3, 4, 6, 8, 11, 16)) if rng.random() < 0.95 else MAX_STEPS
    many = rng.random() < 0.03 and steps < MAX_STEPS
    count = MAX_DIRECTIONS if many else rng.choice((1, 1, 1, 2, 2, 3))
    directions = [_direction(rng, n) for _ in range(count)]
    if rng.random() < 0.1:
        directions[-1] = directions[0]
    model = Model(n, steps, _matrix(rng, n), _set(rng, n), _set(rng, n), tuple(directions), ())
    choice = rng.random()
    if choice < 0.03:
        model = _edge(rng, model)
    if rng.random() < 0.08:
        model = replace(model, input=zero_box(model.n))
    if rng.random() < 0.5:
        model = replace(model, drift=_drift(rng, model))
    if 0.03 <= choice < 0.032:
        model = _largest(rng)
    return replace(model, guards=_guards(rng, model))


def _guards(rng: random.Random, model: Model) -> tuple[tuple[int, int], ...]:
    largest = len(model.directions) == MAX_DIRECTIONS
    count = MAX_GUARDS if largest else rng.choice((0, 1, 2, 3, 4, 5, MAX_GUARDS))
    numbers = [rng.randrange(len(model.directions)) for _ in range(count)]
    sweeps = {number: exact.sweep(model, model.directions[number]) for number in set(numbers)}
    return tuple((number, level_near(rng, sweeps[number])) for number in numbers)


# Files of accepted models


def becoming(rng: random.Random, entry: int) -> int:
    """The 64 bits of a fitted value that becomes this entry: at it, near it, at a tie or beside."""
    if entry == 0 and rng.random() < 0.4:
        tiny = (0, 0, 1, 2**52 - 1, 2**52, rng.getrandbits(52), rng.randrange(pattern(2.0**-17)))
        return rng.choice(tiny) | rng.choice((0, SIGN))
    side = rng.choice((1, -1))
    if abs(entry) == MAX_ENTRY:
        side = -1 if entry > 0 else 1
    how = rng.choice(("at", "near", "near", "tie", "beside"))
    if how == "at":
        return pattern(entry / MATRIX_UNIT)
    if how == "near":
        return pattern((entry + side * rng.uniform(0, 0.4999)) / MATRIX_UNIT)
    tie = (entry + side * 0.5) / MATRIX_UNIT
    if how == "tie" and entry % 2 == 0:
        return pattern(tie)
    # One bit nearer to the entry, which is toward 0 where tie and side have the same sign.
    return pattern(tie) + (-1 if tie * side > 0 else 1)


def _fitted_rows(rng: random.Random, model: Model) -> dict[int, Vector]:
    """Fitted rows that become those of the model: none in half of the models, some or all."""
    share = rng.choice((0, 0, 0.5, 1))
    zeros = rng.choice(((0,), (SIGN,), (0, SIGN)))  # beyond n
    return {
        number: (
            *(becoming(rng, entry) for entry in entries),
            *rng.choices(zeros, k=MAX_N - model.n),
        )
        for number, entries in enumerate(model.matrix)
        if rng.random() < share
    }


def _records(rng: random.Random, model: Model, stated_steps: int | None = None) -> list[bytes]:
    """The records of a model, most of the time without those of what is zero."""
    left_out = model.input == zero_box(model.n) and rng.random() < 0.8
    fitted_rows = _fitted_rows(rng, model)
    return records(model, stated_steps, not left_out, fitted_rows, rng.random() < 0.15)


def _stated(rng: random.Random, model: Model) -> list[bytes]:
    """The records of a model, now and then with its steps left to the default."""
    if model.steps < MAX_STEPS and len(model.directions) < 3 and rng.random() < 0.06:
        return _records(rng, model, stated_steps=0)
    return _records(rng, model)


def saved(rng: random.Random, model: Model) -> bytes:
    """A file of a model, saved in a random way; now and then its steps become the default."""
    return b"".join(_stated(rng, model))


def _put(record: bytes, offset: int, form: str, value: int) -> bytes:
    """A record with a number put in its place at an offset."""
    data = bytearray(record)
    struct.pack_into("<" + form, data, offset, value)
    return bytes(data)


def _no_entry(rng: random.Random) -> int:
    """The 64 bits of what is no fitted entry, of either sign."""
    return rng.choice(list(NO_ENTRIES.values())) | rng.choice((0, SIGN))


# Values at and beyond the limits


def _around(limit: int) -> tuple[int, ...]:
    return (limit, limit + 1, -limit, -limit - 1, *I32_EXTREMES)


def _strained(rng: random.Random, model: Model) -> list[bytes]:
    """The records of a model with one value at its limit, beyond it by one, or far beyond.

    Of a fitted row an entry and the number may both be wrong.
    """
    parts = _records(rng, model)
    fitted = [i for i, record in enumerate(parts) if record[0] == FITTED]
    anywhere = range(len(parts) - 1)
    index = rng.choice((0, *rng.choices(anywhere, k=2), *rng.choices(fitted or anywhere, k=2)))
    record = parts[index]
    kind = record[0]
    at = rng.choice(entry_places(kind)[: model.n] or [0])
    if kind == FITTED and rng.random() < 0.9:
        two = pattern(2.0) | rng.choice((0, SIGN))
        bits = rng.choice((two, two - 1, rng.getrandbits(64), *(_no_entry(rng) for _ in range(4))))
        parts[index] = record = _put(record, at, "Q", bits)
    if kind == HEAD:
        n = rng.choice((0, 1, MAX_N, MAX_N + 1, 255, model.n))
        parts[0] = head(n, rng.choice((0, 1, MAX_STEPS, MAX_STEPS + 1, 2**16 - 1, 3)))
    elif kind == GUARD:
        parts[index] = _put(record, 1, "B", rng.choice((len(model.directions), 255, 0)))
    elif kind in ROW_KINDS and rng.random() < 0.3:
        parts[index] = _put(record, 1, "B", rng.choice((record[1] + 1, record[1] - 1 & 255, 255)))
    elif kind == DIRECTION and rng.random() < 0.3:
        parts[index] = point(kind, ())
    elif kind != FITTED:
        limit = {ROW: MAX_ENTRY, DIRECTION: MAX_DIRECTION_ENTRY}.get(kind, MAX_REACH)
        parts[index] = _put(record, at, "i", rng.choice(_around(limit)))
    return parts


def _overreaching(rng: random.Random, model: Model) -> list[bytes]:
    """The records of a model, one set of which passes its reach or has crossed corners, by one."""
    name = rng.choice(("initial", "input"))
    set_ = getattr(model, name)
    points = [list(p) for p in set_.points]
    i = rng.randrange(model.n)
    if set_.form == BOX and rng.random() < 0.5:
        points[1][i] = points[0][i] - 1
    else:
        stretch(points, set_.form, rng.randrange(len(points)), i, MAX_REACH + 1)
    return _records(rng, replace(model, **{name: Set(set_.form, tuple(map(tuple, points)))}))


def _overdrifting(rng: random.Random, model: Model) -> list[bytes]:
    """The records of a model whose drift is beyond its limit, or is so with the input set.

    The sum is at its limit or beyond it by one; or the input set is wrong by itself as well.
    """
    i = rng.randrange(model.n)
    size = rng.choice((1, MAX_REACH // 2, MAX_REACH, rng.randint(1, MAX_REACH)))
    points = [list(p) for p in model.input.points]
    how = rng.choice(("own", *("sum",) * 4, *("both",) * 2))
    if how == "own":
        size = rng.choice((MAX_REACH + 1, 2**31 - 1))
    elif how == "sum":
        reach = MAX_REACH - size + rng.choice((0, 1, 1))
        stretch(points, model.input.form, rng.randrange(len(points)), i, reach)
    elif model.input.form == BOX and rng.random() < 0.5:
        points[1][i] = points[0][i] - 1
        size = MAX_REACH - abs(points[0][i])
    else:
        stretch(points, model.input.form, rng.randrange(len(points)), i, MAX_REACH + 1)
    entries = tuple(rng.choice((-1, 1)) * size if j == i else 0 for j in range(model.n))
    set_ = Set(model.input.form, tuple(map(tuple, points)))
    return _records(rng, replace(model, input=set_, drift=entries))


def _crowded(rng: random.Random, model: Model) -> list[bytes]:
    """The records of a model with one list at its largest count, or one beyond it."""
    extra = rng.choice((0, 1))
    what = rng.choice(("initial", "input", "directions", "guards"))
    if what == "directions":
        directions = [_direction(rng, model.n) for _ in range(MAX_DIRECTIONS + extra)]
        model = replace(model, directions=tuple(directions))
    elif what == "guards":
        model = replace(model, guards=((0, rng.randint(-9, 9)),) * (MAX_GUARDS + extra))
    else:
        form = rng.choice((BOX, ZONOTOPE, VERTICES))
        points = [[rng.randint(-9, 9) for _ in range(model.n)] for _ in range(MAX_POINTS[form])]
        points = sorted(points) + [points[0]] * extra
        model = replace(model, **{what: Set(form, tuple(map(tuple, points)))})
        model = replace(model, drift=() if what == "input" else model.drift)
    return _records(rng, model)


# Damaged files


def _of_part(parts: list[bytes], part: int) -> list[int]:
    """Where the records of the initial set, the input set or the directions are, by their kinds."""
    return [i for i, record in enumerate(parts) if record[0] & 0xF0 == part]


def _with_wrong_sets(rng: random.Random, model: Model) -> list[bytes]:
    """The records of a model with an input set that is short, behind the directions, or left out.

    The last is right. Or both sets are wrong: there is no input set, and of the initial one the
    first point alone.
    """
    parts = _records(rng, model)
    initial, input_ = _of_part(parts, INITIAL), _of_part(parts, INPUT)
    how = rng.choice(("left out", "behind", "without first", *("first alone", "both") * 2))
    gone = {"without first": input_[:1], "first alone": input_[1:], "both": initial[1:] + input_}
    kept = [record for i, record in enumerate(parts) if i not in gone.get(how, input_)]
    if how == "behind":
        place = _of_part(kept, DIRECTION)[-1] + 1
        kept[place:place] = (parts[i] for i in input_)
    return kept


def _disordered(rng: random.Random, model: Model) -> list[bytes]:
    """The records of a model with one or two swapped, dropped, doubled, put elsewhere or new.

    Or a drift stands anywhere, or a guard or the end right behind the initial set.
    """
    parts = _records(rng, model)
    for _ in range(rng.choice((1, 1, 2))):
        how = rng.choice(("swap", "drop", "double", "move", "kind", "unknown", "early", "drift"))
        i, j = rng.randrange(len(parts)), rng.randrange(len(parts))
        if how == "swap":
            parts[i], parts[j] = parts[j], parts[i]
        elif how == "drop" and len(parts) > 1:
            del parts[i]
        elif how == "double":
            parts.insert(j, parts[i])
        elif how == "move":
            parts.insert(j, parts.pop(i))
        elif how == "early":
            behind = max(_of_part(parts, INITIAL), default=0) + 1
            parts.insert(behind, rng.choice((guard(0, 1), bytes([END]))))
        elif how == "drift":
            parts.insert(j, drift(model.drift))
        else:
            kinds = BODY_LENGTHS if how == "kind" else range(256)
            parts[i] = bytes([rng.choice(list(kinds))]) + parts[i][1:]
    return parts


def _damaged(rng: random.Random, parts: list[bytes]) -> bytes:
    """A file cut, with a byte changed, with bytes after its end, far too long, or of any bytes."""
    data = b"".join(parts)
    how = rng.choice(("cut", "stray", "change", "change", "change", "trail", "long", "random"))
    if how == "cut":
        return data[: rng.randrange(len(data) + 1)]
    if how == "stray":  # some records and a kind byte alone
        start = b"".join(parts[: rng.randrange(len(parts) + 1)])
        return start + bytes([rng.choice(list(BODY_LENGTHS))])
    if how == "change":
        changed = bytearray(data)
        changed[rng.randrange(len(data))] = rng.choice((rng.randrange(256), *BODY_LENGTHS))
        return bytes(changed)
    if how == "trail":
        return data + rng.randbytes(rng.choice((1, 1, 2, 9, 30)))
    if how == "long":
        size = rng.choice((LONGEST_FILE, READ_LIMIT - 1, READ_LIMIT, READ_LIMIT + 1, 5_000))
        filler = rng.choice((bytes(size), bytes([END]) * size, data * (size // len(data) + 1)))
        return rng.choice((data, data[:-1])) + filler
    return bytes([rng.choice(list(BODY_LENGTHS))]) + rng.randbytes(rng.randrange(300))


# Rubbish beyond n


def _rubbish(rng: random.Random, kind: int) -> int:
    """What no entry of a record may be beyond n: 1 or -1, one bit, the largest, any; no number."""
    if kind == FITTED:
        one_bit = 1 << rng.randrange(63)
        bits = rng.choice((1, one_bit, pattern(1.0), _no_entry(rng), rng.randrange(1, SIGN)))
        return bits | rng.choice((0, SIGN))
    one_bit, size = 1 << rng.randrange(31), rng.randrange(1, 2**31)
    return rng.choice((1, -1, one_bit, *I32_EXTREMES, size, -size))


def _fits(record: bytes) -> bool:
    """Whether a record has six entries and the length that its kind says."""
    return bool(entry_places(record[0])) and len(record) == 1 + BODY_LENGTHS[record[0]]


def _with_rubbish(rng: random.Random, record: bytes, n: int) -> bytes:
    """A record with rubbish beyond n: next to n, in the last column, in any one, some or all."""
    places = entry_places(record[0])[n:]
    some = rng.sample(places, rng.randint(1, len(places)))
    for at in rng.choice((places[:1], places[-1:], some[:1], some, places)):
        form = "Q" if record[0] == FITTED else "i"
        record = _put(record, at, form, _rubbish(rng, record[0]))
    return record


def _saved(rng: random.Random, model: Model) -> list[bytes]:
    """The records of a model whose head says fewer coordinates, without the rows beyond them."""
    n = rng.randint(1, model.n)
    parts = _records(rng, model)
    return [head(n, model.steps), *parts[1 : 1 + n], *parts[1 + model.n :]]


def _refused_record(parts: list[bytes]) -> int | None:
    """Which record of a file is refused, where one is."""
    read = exact.read_model(b"".join(parts))
    at = 0
    for index, record in enumerate(parts):
        if isinstance(read, Refusal) and read.offset == at:
            return index
        at += len(record)
    return None


def _with_wrong_value(rng: random.Random, record: bytes, n: int) -> bytes:
    """A record of six entries with a wrong number, an entry beyond its limit, or zeros alone."""
    kind, at = record[0], rng.choice(entry_places(record[0])[:n])
    if kind in ROW_KINDS and rng.random() < 0.5:
        return _put(record, 1, "B", rng.choice((record[1] + 1 & 255, record[1] - 1 & 255, 255)))
    if kind == FITTED:
        return _put(record, at, "Q", _no_entry(rng))
    if kind == DIRECTION and rng.random() < 0.5:
        return point(kind, ())
    limit = {ROW: MAX_ENTRY, DIRECTION: MAX_DIRECTION_ENTRY}.get(kind, MAX_REACH)
    return _put(record, at, "i", rng.choice((-1, 1)) * (limit + 1))


def _unclean(rng: random.Random, model: Model) -> bytes:
    """A file with rubbish beyond n, alone or beside a fault of the same record or of another.

    The other fault is one of its values or its place, or its list is full, or its body is cut.
    """
    sources = (_stated, _overreaching, _overdrifting, _crowded, _disordered)
    [source] = rng.choices(sources, weights=(52, 8, 10, 20, 10))
    parts = source(rng, model)
    index = _refused_record(parts)
    if index is None or not _fits(parts[index]) or rng.random() < 0.1:
        # Rows come oftenest, and all other kinds equally often, though there are more of some.
        fitting = [i for i, record in enumerate(parts) if _fits(record)]
        kinds = sorted({parts[i][0] for i in fitting})
        kind = rng.choice(kinds + 2 * [kind for kind in kinds if kind in ROW_KINDS])
        index = rng.choice([i for i in fitting if parts[i][0] == kind])
        if rng.random() < 0.4:
            parts[index] = _with_wrong_value(rng, parts[index], model.n)
    parts[index] = _with_rubbish(rng, parts[index], model.n)
    if rng.random() < 0.15:
        parts = [
            _with_rubbish(rng, record, model.n) if _fits(record) and rng.random() < 0.3 else record
            for record in parts
        ]
    data = b"".join(parts)
    if rng.random() < 0.12:
        start = len(b"".join(parts[:index]))
        return data[: start + rng.randrange(1, len(parts[index]))]
    return data


def random_file(rng: random.Random) -> bytes:
    """A file: of an accepted model, of one at or beyond a limit, with rubbish, or a damaged one."""
    model = random_model(rng)
    choice = rng.random()
    if choice < 0.53:
        parts = _stated(rng, model)
    elif choice < 0.63:
        parts = _strained(rng, model)
    elif choice < 0.67:
        parts = _overreaching(rng, model)
    elif choice < 0.71:
        parts = _overdrifting(rng, model)
    elif choice < 0.74:
        parts = _crowded(rng, model)
    elif choice < 0.77:
        parts = _with_wrong_sets(rng, model)
    elif choice < 0.83:
        parts = _disordered(rng, model)
    elif choice < 0.84:
        parts = _saved(rng, model)
    elif choice < 0.94 and model.n < MAX_N:
        return _unclean(rng, model)
    else:
        return _damaged(rng, _records(rng, model))
    return b"".join(parts)


def file_of(seed: int, number: int) -> bytes:
    """File `number` of a seed's stream; it can be made again without those before it."""
    return random_file(random.Random(f"{seed}/{number}"))


def stream(seed: int, count: int) -> Iterator[bytes]:
    """The first `count` files of a seed."""
    return (file_of(seed, number) for number in range(count))


# Sets that are built point by point


def vectors(rng: random.Random, n: int, most: int, count: int) -> list[Vector]:
    """Vectors with magnitudes up to `most`, often that or 0; two times in three all of one sign."""
    low, high = rng.choice(((-most, most), (0, most), (-most, 0)))
    return [
        tuple(rng.choice((low, 0, high, rng.randint(low, high))) for _ in range(n))
        for _ in range(count)
    ]


def growing(rng: random.Random, form: str, n: int) -> tuple[Vector, ...]:
    """Points of a set of the largest count; the first ones alone keep the limits too.

    One in five or more is equal to one before it.
    """
    count = MAX_POINTS[form]
    points = vectors(rng, n, MAX_REACH // count if form == ZONOTOPE else MAX_REACH, count)
    for index in range(1, count):
        if rng.random() < 0.2:
            points[index] = rng.choice(points[:index])
    return tuple(points)


# Files of one model


def saved_ways(model: Model) -> Iterator[bytes]:
    """Files of one model: all that a save may leave out or put otherwise, in every mixture."""
    rows = {
        number: [pattern(entry / MATRIX_UNIT) for entry in entries]
        for number, entries in enumerate(model.matrix)
    }
    zeros = {number: [bits or SIGN for bits in entries] for number, entries in rows.items()}
    for stated, input_stated, patterns, drift_stated in itertools.product(
        (None, 0) if model.steps == DEFAULT_STEPS else (None,),
        (True, False) if model.input == zero_box(model.n) else (True,),
        (None, rows, zeros, {0: rows[0]}),
        (False, True),
    ):
        yield encode(model, stated, input_stated, patterns, drift_stated)


# Calm models (`exact.calm`), and models that are almost calm


CALM_TEMPERS = (
    *("full",) * 3,  # each column sums to 65,536
    *("odd",) * 2,  # to 65,536 or 65,535, of odd entries
    *("short",) * 3,  # to some units less
    "kept",  # each coordinate goes to another one, or to itself, nearly unchanged
    "shuffled",  # the same, unchanged
    "one row",  # each column is in one row: the row sums to n times 65,536
    "sparse",
    "loose",  # to any sum up to 65,536
)
CALM_STEPS = (1, 2, 3, 4, 5, 8, 12, 16, 24, 32, 48, 64, DEFAULT_STEPS, MAX_STEPS)


def _parts(rng: random.Random, count: int, total: int) -> list[int]:
    """Numbers from 0 on with this sum."""
    cuts = sorted(rng.randint(0, total) for _ in range(count - 1))
    return list(map(sub, (*cuts, total), (0, *cuts)))


def _alone(n: int, place: int, size: int) -> list[int]:
    """A column that is zero but for one entry."""
    return [size if p == place else 0 for p in range(n)]


def _calm_matrix(rng: random.Random, n: int) -> tuple[Vector, ...]:
    """A matrix of a calm model; its columns are of one temper, or each is of any."""
    mixed = rng.random() < 0.2
    tempers = rng.choices(CALM_TEMPERS, k=n) if mixed else [rng.choice(CALM_TEMPERS)] * n
    order, one = rng.sample(range(n), n), rng.randrange(n)
    short = rng.choice((1, 3, 20, 300))
    signs = rng.choice(((1,), (1,), (-1,), (1, -1)))

    def column(i: int, temper: str) -> list[int]:
        if temper == "full":
            return _parts(rng, n, MATRIX_UNIT)
        if temper == "odd":
            return [1 + 2 * half for half in _parts(rng, n, (MATRIX_UNIT - n) // 2)]
        if temper == "short":
            return _parts(rng, n, MATRIX_UNIT - rng.randint(1, short))
        if temper == "kept":
            return _alone(n, order[i], MATRIX_UNIT - rng.choice((1, short)))
        if temper == "shuffled":
            return _alone(n, order[i], MATRIX_UNIT)
        if temper == "one row":
            return _alone(n, one, MATRIX_UNIT)
        loose = _parts(rng, n, rng.randint(0, MATRIX_UNIT))
        return [rng.choice((0, size)) for size in loose] if temper == "sparse" else loose

    sizes = map(column, range(n), tempers)
    return tuple(zip(*([rng.choice(signs) * size for size in each] for each in sizes)))


def _shrunk(points: tuple[Vector, ...], reach: int, total: int) -> tuple[Vector, ...]:
    """Points that reach this far in all coordinates together, scaled so that it is `total` at most.

    Numbers are rounded toward 0.
    """
    scale = Fraction(min(total, reach), max(reach, 1))
    return tuple(tuple(int(scale * entry) for entry in entries) for entries in points)


def _slow(rng: random.Random, model: Model) -> Model:
    """The model with reaches so small that a step adds about one count to the limit of its slacks.

    One of the two sets may become zero. A slack of such a model can be at its limit, even if that
    is large.
    """
    first = sum(exact.reach(model.initial, model.n))
    each = sum(exact.entering_reach(model.input, model.drift))
    most, share = rng.randint(1, MAX_REACH), rng.choice((0, 1, rng.random()))
    firsts, others = int(share * most), int((1 - share) * most) // model.steps
    return replace(
        model,
        initial=replace(model.initial, points=_shrunk(model.initial.points, first, firsts)),
        input=replace(model.input, points=_shrunk(model.input.points, each, others)),
        drift=_shrunk((model.drift,), each, others)[0],
    )


def calm_model(rng: random.Random) -> Model:
    """An accepted model that is calm: in each column the magnitudes sum to at most 65,536."""
    n, steps = rng.randint(1, MAX_N), rng.choice(CALM_STEPS)
    count = rng.choice((1, 1, 2, 3)) if rng.random() < 0.95 else MAX_DIRECTIONS
    large, small = rng.random() < 0.1, rng.random() < 0.5
    model = Model(
        n=n,
        steps=steps,
        matrix=_calm_matrix(rng, n),
        initial=_set(rng, n, large),
        input=zero_box(n) if rng.random() < 0.1 else _set(rng, n, large and rng.random() < 0.5),
        directions=tuple(_direction(rng, n) for _ in range(count)),
        guards=tuple(
            (rng.randrange(count), rng.choice((MIN_LEVEL, MAX_LEVEL, rng.randint(-(10**6), 10**6))))
            for _ in range(rng.choice((0, 0, 1, 3)))
        ),
    )
    if rng.random() < 0.5:
        model = replace(model, drift=_drift(rng, model, large))
    return _slow(rng, model) if small and not large else model


def almost_calm_model(rng: random.Random) -> Model:
    """A model that would be calm if one column did not sum to 65,537."""
    model = calm_model(rng)
    columns = list(zip(*model.matrix))
    signs = rng.choice(((1,), (-1,), (1, -1)))
    sizes = _parts(rng, model.n, MATRIX_UNIT + 1)
    columns[rng.randrange(model.n)] = tuple(rng.choice(signs) * size for size in sizes)
    return replace(model, matrix=tuple(zip(*columns)))


def calm_rows_model(rng: random.Random) -> Model:
    """A model that is not calm, and would be with its rows in place of its columns."""
    while True:
        model = calm_model(rng)
        turned = replace(model, matrix=tuple(zip(*model.matrix)))
        if not exact.calm(turned):
            return turned


def main() -> None:
    parser = argparse.ArgumentParser(description="Write one random file to standard output.")
    parser.add_argument("seed", type=int)
    parser.add_argument("number", type=int)
    options = parser.parse_args()
    files.write_bytes(None, file_of(options.seed, options.number))


if __name__ == "__main__":
    files.run(main)
