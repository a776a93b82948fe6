#!/usr/bin/env python3
"""Tell in words why a packed file is refused.

    refusal.py [--name NAME] FILE

On standard error: the number and the offset of the refusal, the record there, what is wrong with
it and what to change; or that the file is not refused. NAME is what messages call the file. The
status is 0 in both cases. Number, offset and what may stand at a place are those of the reader of
`exact`; only the words are made here.
"""

from __future__ import annotations

import argparse
import struct
import sys

import exact
import files
from layout import (
    BODY_LENGTHS, BOX, CENTRE, DEFAULT_STEPS, DIRECTION, DRIFT, END, FITTED, GENERATOR, GUARD, HEAD,
    INITIAL, INPUT, LOWER, MATRIX_UNIT, MAX_DIRECTION_ENTRY, MAX_DIRECTIONS, MAX_ENTRY, MAX_FACTOR,
    MAX_GENERATORS, MAX_GUARDS, MAX_N, MAX_REACH, MAX_STEPS, MAX_VERTICES, POINT_KINDS, ROW,
    ROW_KINDS, UPPER, VERTEX, Set, Vector, beyond, float_of,
)
from listings import Refusal

ORDINALS = (
    "first second third fourth fifth sixth seventh eighth ninth tenth eleventh twelfth thirteenth"
    " fourteenth fifteenth sixteenth seventeenth"
).split()
POINT_NAMES = {
    LOWER: "lower corner", UPPER: "upper corner", CENTRE: "centre", GENERATOR: "generator",
    VERTEX: "vertex",
}
PARTS = {INITIAL: "initial", INPUT: "input"}
SET_KINDS = {part + point for part in PARTS for point in POINT_NAMES}
COUNTS = {
    GENERATOR: f"a zonotope has 1 to {MAX_GENERATORS} generators",
    VERTEX: f"a set has 1 to {MAX_VERTICES} vertices",
    DIRECTION: f"a model has 1 to {MAX_DIRECTIONS} directions",
    GUARD: f"a model has 0 to {MAX_GUARDS} guards",
}


def counted(what: str, number: int) -> str:
    """A thing by its number from 0, and by its place."""
    return f"{what} {number} (the {ORDINALS[number]})"


def kind_name(kind: int) -> str:
    """A kind of record, with its byte."""
    names = {
        HEAD: "the head", ROW: "a scaled row", FITTED: "a fitted row", DRIFT: "the drift",
        DIRECTION: "a direction", GUARD: "a guard",
    }
    if kind in SET_KINDS:
        part, point = kind & 0xF0, kind & 0x0F
        article = "a" if point in (GENERATOR, VERTEX) else "the"
        name = f"{article} {POINT_NAMES[point]} of the {PARTS[part]} set"
    else:
        name = names.get(kind, "the end")
    return f"{name} ({kind:02X})"


def choice(kinds: list[int]) -> str:
    """Kinds in words, with `or` before the last."""
    names = [kind_name(kind) for kind in kinds]
    return " or ".join([", ".join(names[:-1]), names[-1]] if len(names) > 1 else names)


def may_follow(data: bytes) -> list[int]:
    """The kinds that may stand behind these records, as the reader has it."""

    def refused(kind: int) -> bool:
        read = exact.read_model(data + bytes([kind]))
        return isinstance(read, Refusal) and read.offset == len(data) and read.number != 1

    return [kind for kind in BODY_LENGTHS if not refused(kind)]


class Place:
    """The record at an offset, and those before it, none of which is wrong."""

    def __init__(self, data: bytes, offset: int) -> None:
        self.data, self.offset = data, offset
        self.before: list[tuple[int, bytes]] = []
        at = 0
        while at < offset:
            end = at + 1 + BODY_LENGTHS[data[at]]
            self.before.append((data[at], data[at + 1 : end]))
            at = end
        self.kind = data[offset] if offset < len(data) else None
        self.body = data[offset + 1 : offset + 1 + BODY_LENGTHS.get(self.kind, 0)]
        self.n = self.before[0][1][0] if self.before else 0

    def bodies(self, *kinds: int) -> list[bytes]:
        return [body for kind, body in self.before if kind in kinds]

    @property
    def name(self) -> str:
        """The record, with its number among those of its kind; rows of both kinds count alike."""
        kinds = ROW_KINDS if self.kind in ROW_KINDS else (self.kind,)
        count = len(self.bodies(*kinds))
        if self.kind in SET_KINDS:
            point, which = self.kind & 0x0F, f"of the {PARTS[self.kind & 0xF0]} set"
            if point in (GENERATOR, VERTEX):
                return f"{counted(POINT_NAMES[point], count)} {which}"
            return f"the {POINT_NAMES[point]} {which}"
        names = {ROW: "row", FITTED: "fitted row", DIRECTION: "direction", GUARD: "guard"}
        if self.kind in names:
            return counted(names[self.kind], count)
        return "the drift" if self.kind == DRIFT else "the head"

    # What is wrong, by the number of the refusal

    def ends(self) -> str:
        due = may_follow(self.data[: self.offset])
        if not self.data:
            return f"the file is empty: a packed model starts with {kind_name(HEAD)}"
        if self.kind is None:
            return f"the file ends where {choice(due)} should come: add it, or get the whole file"
        whole = 1 + BODY_LENGTHS[self.kind]
        missing = whole - (len(self.data) - self.offset)
        are = "is" if missing == 1 else "are"
        return (
            f"the file ends within {self.name}: {missing} of its {whole} bytes {are} missing;"
            " get the whole file"
        )

    def start(self) -> str:
        """What to say more of the first byte."""
        if self.offset:
            return ""
        told = f"; a packed model starts with byte {HEAD:02X}"
        control = files.CONTROL.match(self.data)
        return told if control else f"{told}; if this is a text, pack it first (pack.py pack)"

    def unknown(self) -> str:
        due = choice(may_follow(self.data[: self.offset]))
        return f"byte {self.kind:02X} is no kind of record; here may stand {due}{self.start()}"

    def not_here(self) -> str:
        due = may_follow(self.data[: self.offset])
        more = self.start()
        if self.kind in (GUARD, END) and DIRECTION in due:
            more = f"; {COUNTS[DIRECTION]}"
            more += ", also without an input set" if INPUT + LOWER in due else ""
        elif self.kind & 0xF0 == INPUT and self.bodies(DIRECTION):
            more = "; the input set comes before the directions"
        elif self.kind == DRIFT and self.before:
            more = "; it comes once at most, between the last row and the initial set"
        return f"{kind_name(self.kind)} stands where only {choice(due)} may stand{more}"

    def head(self) -> str:
        n, steps = self.body[0], int.from_bytes(self.body[1:], "little")
        told = [f"n is {n}; it must be 1 to {MAX_N}"] if not 1 <= n <= MAX_N else []
        if steps > MAX_STEPS:
            default = f"1 to {MAX_STEPS}, or 0 for {DEFAULT_STEPS}"
            told.append(f"the number of steps is {steps:,}; it must be {default}")
        return f"{self.name}: {'; '.join(told)}"

    def vector(self, body: bytes) -> Vector:
        return struct.unpack("<6i", body)[: self.n]

    def beyond_n(self) -> str:
        """Which entries beyond n are not zero, and in which record of the file."""
        found = beyond(bytes([self.kind]) + self.body, self.n)
        shown = (lambda bits: repr(float_of(bits))) if self.kind == FITTED else "{:,}".format
        told = [
            f"entry {shown(entry)} in {counted('column', column)}"
            for column, entry in found.items()
        ]
        last = MAX_N - 1
        columns = f"column {last}" if self.n == last else f"columns {self.n} to {last}"
        return (
            f"{self.name}, record {len(self.before)} of the file from 0: {'; '.join(told)}; n is"
            f" {self.n}, so that {columns} must be zero: put zeros there, or save the model with"
            " all of its coordinates"
        )

    def beyond(self, entries: Vector, limit: int, what: str = "column") -> list[str]:
        return [
            f"entry {entry:,} in {counted(what, number)} must be {-limit:,} to {limit:,}"
            for number, entry in enumerate(entries)
            if abs(entry) > limit
        ]

    def beyond_fitted(self) -> list[str]:
        """What is wrong with the entries of a fitted row: beyond their limit, or no numbers."""
        values = struct.unpack("<6d", self.body[1:])[: self.n]
        return [
            f"entry {value!r} in {counted('column', column)}"
            f" must be a number from {-MAX_FACTOR} to {MAX_FACTOR}"
            for column, value in enumerate(values)
            if not abs(value) <= MAX_FACTOR  # which is so of a NaN
        ]

    def row(self) -> str:
        number = len(self.bodies(*ROW_KINDS))
        if self.kind == FITTED:
            told = self.beyond_fitted()
        elif told := self.beyond(self.vector(self.body[1:]), MAX_ENTRY):
            told[-1] += f" in 1/{MATRIX_UNIT:,}, which is {-MAX_FACTOR} to {MAX_FACTOR}"
        if self.body[0] != number:
            told.insert(0, f"it says number {self.body[0]} and must say {number}")
        return f"{self.name}: {'; '.join(told)}"

    def set_so_far(self) -> Set:
        """The points of a set up to this record, and with it."""
        part = self.kind & 0xF0
        form = next(form for form, kinds in POINT_KINDS.items() if self.kind - part in kinds)
        bodies = self.bodies(*(part + point for point in POINT_NAMES)) + [self.body]
        return Set(form, tuple(map(self.vector, bodies)))

    def points(self) -> str:
        set_ = self.set_so_far()
        told = [
            f"with it the set's reach in {counted('coordinate', i)} is {reach:,};"
            f" it must be at most {MAX_REACH:,}"
            for i, reach in enumerate(exact.reach(set_, self.n))
            if reach > MAX_REACH
        ]
        if set_.form == BOX:
            told += [
                f"upper {high:,} is below lower {low:,} in {counted('coordinate', i)};"
                " it must be as large or larger"
                for i, (low, high) in enumerate(zip(set_.points[0], set_.points[-1]))
                if high < low
            ]
        return f"{self.name}: {'; '.join(told)}"

    def drift(self) -> str:
        """What is wrong with the drift, or with the input set beside it."""
        if self.kind == DRIFT:
            told = self.beyond(self.vector(self.body), MAX_REACH, "coordinate")
            return f"{self.name}: {'; '.join(told)}"
        [drift] = map(self.vector, self.bodies(DRIFT))
        set_ = self.set_so_far()
        reaches = zip(exact.reach(set_, self.n), drift, exact.entering_reach(set_, drift))
        told = [
            f"with it the set's reach in {counted('coordinate', i)} is {reach:,}, which with the"
            f" drift of {entry:,} makes {both:,}; together they must be at most {MAX_REACH:,}"
            for i, (reach, entry, both) in enumerate(reaches)
            if both > MAX_REACH
        ]
        return f"{self.name}: {'; '.join(told)}"

    def direction(self) -> str:
        entries = self.vector(self.body)
        told = self.beyond(entries, MAX_DIRECTION_ENTRY)
        if not any(entries):
            first = "its entry is" if self.n == 1 else f"all of its {self.n} entries are"
            told.append(f"{first} zero; one must not be")
        return f"{self.name}: {'; '.join(told)}"

    def guard(self) -> str:
        count = len(self.bodies(DIRECTION))
        there = "the only one is direction 0" if count == 1 else f"there are 0 to {count - 1}"
        return f"{self.name}: it is on direction {self.body[0]}, but {there}; name such a one"

    def too_many(self) -> str:
        limit = COUNTS[self.kind & 0x0F if self.kind in SET_KINDS else self.kind]
        return f"{self.name}, kind {self.kind:02X}, is one too many: {limit}; leave it out"

    def behind_end(self) -> str:
        count = len(self.data) - self.offset
        told = "1 byte follows" if count == 1 else f"{count:,} bytes follow"
        return f"{told} {kind_name(END)}, behind which nothing may stand; leave out what follows"


WORDS = {
    1: Place.ends, 2: Place.unknown, 3: Place.not_here, 4: Place.head, 5: Place.row,
    6: Place.points, 7: Place.direction, 8: Place.guard, 9: Place.too_many, 10: Place.behind_end,
    15: Place.row, 16: Place.beyond_n, 17: Place.drift,
}


def message(name: str, data: bytes) -> str:
    """Why a file is refused, in words for the person who named it; or that it is not."""
    read = exact.read_model(data)
    if not isinstance(read, Refusal):
        return f"{name}: not refused: a model with n {read.n} and {read.steps} steps"
    said = WORDS[read.number](Place(data, read.offset))
    return f"{name}: refused {read.number} at {read.offset}: {said}"


def main() -> None:
    parser = argparse.ArgumentParser(description="Tell in words why a packed file is refused.")
    parser.add_argument("file", metavar="FILE", help="a packed model; - is standard input")
    parser.add_argument("--name", help="what messages call the file")
    options = parser.parse_args()
    data = files.read_bytes(options.file)
    print(message(options.name or files.shown(options.file), data), file=sys.stderr)


if __name__ == "__main__":
    files.run(main)
