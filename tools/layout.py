"""The limits, the record layout and the model values of the specification, each stated once.

In order: limits and units; record kinds and body lengths; sets and models; makers of records; where
records start, and the six entries of a record. The makers fill up to six entries with zeros and
test nothing, so that wrong files can be made too. Not here: reading a file (`exact`).
"""

from __future__ import annotations

import struct
from dataclasses import dataclass
from typing import Iterator, Mapping, Sequence

Vector = tuple[int, ...]
FittedRows = Mapping[int, Sequence[int]]  # by their numbers, the 64 bits of each entry

# "Limits" and "Sets"
MAX_N = 6  # Limits 1
MAX_STEPS = 256  # Limits 2
DEFAULT_STEPS = 120  # File 4: what 0 in the head stands for
MAX_ENTRY = 131_072  # Limits 3
MAX_REACH = 1_048_576  # Limits 4; also that of the drift and of what enters, Limits 11
MAX_DIRECTION_ENTRY = 1_000  # Limits 5
MAX_DIRECTIONS = 16  # Limits 6
MAX_GUARDS = 16  # Limits 7
MAX_GENERATORS = 8  # Sets 5
MAX_VERTICES = 16  # Sets 7
MIN_LEVEL, MAX_LEVEL = -(2**63), 2**63 - 1  # Model 5

# "Recurrence"
MATRIX_UNIT = 65_536  # Model 3
MAX_FACTOR = MAX_ENTRY // MATRIX_UNIT  # Limits 3; also that of a fitted entry, Refusals 15
DIRECTION_UNIT = 1_048_576  # Recurrence 1
GROWTH_LIMIT = 1_073_741_824  # Recurrence 7
MAX_SPARE = 10  # Recurrence 9

# "File"
READ_LIMIT = 2_048  # Reading 4
LONGEST_FILE = 1_690  # File 9
LONGEST_WRITTEN = 1_546  # Writing 6
HEAD, ROW, FITTED, DRIFT, DIRECTION, GUARD, END = 0x01, 0x02, 0x03, 0x05, 0x30, 0x40, 0xFF  # File 3
ROW_KINDS = (ROW, FITTED)
INITIAL, INPUT = 0x10, 0x20  # the kinds of a set's points are one of these plus one of the next
LOWER, UPPER, CENTRE, GENERATOR, VERTEX = 0, 1, 2, 3, 4
BODY_LENGTHS = {
    HEAD: 3,
    ROW: 25,
    FITTED: 49,
    DRIFT: 24,
    **{part + point: 24 for part in (INITIAL, INPUT) for point in range(5)},
    DIRECTION: 24,
    GUARD: 9,
    END: 0,
}
ENTRY_KINDS = tuple(kind for kind in BODY_LENGTHS if kind not in (HEAD, GUARD, END))  # six entries

BOX, ZONOTOPE, VERTICES = "box", "zonotope", "vertices"
# The kind of a form's first point and that of the others.
POINT_KINDS = {BOX: (LOWER, UPPER), ZONOTOPE: (CENTRE, GENERATOR), VERTICES: (VERTEX, VERTEX)}
MIN_POINTS = {BOX: 2, ZONOTOPE: 2, VERTICES: 1}
MAX_POINTS = {BOX: 2, ZONOTOPE: 1 + MAX_GENERATORS, VERTICES: MAX_VERTICES}


@dataclass(frozen=True)
class Set:
    """A set's form and its points: lower and upper; centre and generators; or vertices."""

    form: str
    points: tuple[Vector, ...]


def zero_box(n: int) -> Set:
    """The box from zero to zero: the input set of a file that has none (File 10)."""
    return Set(BOX, ((0,) * n,) * 2)


@dataclass(frozen=True)
class Model:
    """A model without its unused entries: every vector has n entries.

    A drift that is left out is zero (File 15).
    """

    n: int
    steps: int
    matrix: tuple[Vector, ...]
    initial: Set
    input: Set
    directions: tuple[Vector, ...]
    guards: tuple[tuple[int, int], ...]  # direction number and level
    drift: Vector = ()

    def __post_init__(self) -> None:
        if not self.drift:
            object.__setattr__(self, "drift", (0,) * self.n)


def _six(entries: Sequence[int]) -> bytes:
    return struct.pack("<6i", *entries, *[0] * (MAX_N - len(entries)))


def head(n: int, steps: int) -> bytes:
    return struct.pack("<BBH", HEAD, n, steps)


def row(number: int, entries: Sequence[int]) -> bytes:
    return bytes([ROW, number]) + _six(entries)


def fitted(number: int, patterns: Sequence[int]) -> bytes:
    """A fitted row of the 64 bits of each entry: as a float, not every NaN would keep its bits."""
    return struct.pack("<BB6Q", FITTED, number, *patterns, *[0] * (MAX_N - len(patterns)))


def pattern(value: float) -> int:
    """The 64 bits of a number of binary64."""
    return int.from_bytes(struct.pack("<d", value), "little")


def float_of(bits: int) -> float:
    """The number of binary64 that has these 64 bits."""
    return struct.unpack("<d", bits.to_bytes(8, "little"))[0]


def point(kind: int, entries: Sequence[int]) -> bytes:
    return bytes([kind]) + _six(entries)


def drift(entries: Sequence[int]) -> bytes:
    return point(DRIFT, entries)


def direction(entries: Sequence[int]) -> bytes:
    return point(DIRECTION, entries)


def guard(number: int, level: int) -> bytes:
    return struct.pack("<BBq", GUARD, number, level)


def set_records(part: int, set_: Set) -> list[bytes]:
    """The records of the initial set (part INITIAL) or the input set (part INPUT)."""
    first, other = POINT_KINDS[set_.form]
    return [
        point(part + (other if index else first), entries)
        for index, entries in enumerate(set_.points)
    ]


def records(
    model: Model,
    stated_steps: int | None = None,
    input_stated: bool = True,
    fitted_rows: FittedRows | None = None,
    drift_stated: bool = False,
) -> list[bytes]:
    """The records of a model.

    `stated_steps` is what the head says where that is not K. An input set that is not stated has
    no records, and the file is read with that of `zero_box`, whatever the model has. A row whose
    number is in `fitted_rows` is a fitted one of these patterns, whatever the matrix has. A drift
    of zero has a record only where it is stated.
    """
    patterns = fitted_rows or {}
    return [
        head(model.n, model.steps if stated_steps is None else stated_steps),
        *(
            fitted(number, patterns[number]) if number in patterns else row(number, entries)
            for number, entries in enumerate(model.matrix)
        ),
        *([drift(model.drift)] if drift_stated or any(model.drift) else ()),
        *set_records(INITIAL, model.initial),
        *(set_records(INPUT, model.input) if input_stated else ()),
        *map(direction, model.directions),
        *(guard(number, level) for number, level in model.guards),
        bytes([END]),
    ]


def encode(
    model: Model,
    stated_steps: int | None = None,
    input_stated: bool = True,
    fitted_rows: FittedRows | None = None,
    drift_stated: bool = False,
) -> bytes:
    """The file of a model, of its `records`."""
    return b"".join(records(model, stated_steps, input_stated, fitted_rows, drift_stated))


def offsets(data: bytes) -> Iterator[int]:
    """Where the records of a file start, as long as their kinds are known; the last may be cut."""
    at = 0
    while at < len(data) and data[at] in BODY_LENGTHS:
        yield at
        at += 1 + BODY_LENGTHS[data[at]]


def fitted_rows_of(data: bytes, n: int) -> dict[int, Vector]:
    """The fitted rows of a file that is accepted, with the first n entries of each."""
    starts = (at for at in offsets(data) if data[at] == FITTED)
    return {data[at + 1]: struct.unpack_from(f"<{n}Q", data, at + 2) for at in starts}


def states_input(data: bytes) -> bool:
    """Whether a file has a record of the input set."""
    return any(data[at] & 0xF0 == INPUT for at in offsets(data))


def states_drift(data: bytes) -> bool:
    """Whether a file has a drift record."""
    return any(data[at] == DRIFT for at in offsets(data))


# The six entries of a record


def entry_places(kind: int) -> range:
    """Where the entries of a record start, counted from its kind byte; none of other kinds."""
    if kind not in ENTRY_KINDS:
        return range(0)
    return range(2 if kind in ROW_KINDS else 1, 1 + BODY_LENGTHS[kind], 8 if kind == FITTED else 4)


def beyond(record: bytes, n: int) -> dict[int, int]:
    """The entries of a whole record beyond n that are not zero, by column (Refusals 16).

    Those of a fitted row are told by their 64 bits, and either zero is one.
    """
    places = entry_places(record[0])
    if not places:
        return {}
    entries = struct.unpack_from("<6Q" if record[0] == FITTED else "<6i", record, places[0])
    zeros = (0, pattern(-0.0)) if record[0] == FITTED else (0,)
    return {column: entries[column] for column in range(n, MAX_N) if entries[column] not in zeros}
