"""The parser of texts, whose form is described at the top of `pack.py`.

All mistakes of a text are told, up to twenty, each with its row. So a wrong statement counts as
what it was meant to be: a wrong entry is None, a wrong row is a row, a wrong direction has a name.
What then follows from one mistake alone is not told as another.
"""

from __future__ import annotations

import re
from dataclasses import dataclass, field
from fractions import Fraction
from functools import partial
from typing import Callable, NoReturn, Sequence, TypeVar

import exact
import files
from layout import (
    BOX, DEFAULT_STEPS, MATRIX_UNIT, MAX_DIRECTION_ENTRY, MAX_DIRECTIONS, MAX_ENTRY, MAX_FACTOR,
    MAX_GENERATORS, MAX_GUARDS, MAX_LEVEL, MAX_N, MAX_POINTS, MAX_REACH, MAX_STEPS, MAX_VERTICES,
    MIN_LEVEL, MIN_POINTS, VERTICES, ZONOTOPE, Model, Set, Vector, encode, zero_box,
)
from spelling import (
    CALLED, DECIMAL, ENDLESS, FLOAT, NOT_FINITE, WHOLE, cut, pattern_of, plain, quoted, suggestion,
    two_readings,
)

MOST_TOLD = 20
LONGEST_UNIT = 12
MOST_COUNTS = 1_000_000_000

# The words of a form's first point and of the others.
POINT_WORDS = {
    BOX: ("lower", "upper"),
    ZONOTOPE: ("centre", "generator"),
    VERTICES: ("vertex", "vertex"),
}
POINTS = tuple(dict.fromkeys(word for pair in POINT_WORDS.values() for word in pair))
SET_LIMITS = {
    BOX: "a box has one lower and one upper corner",
    ZONOTOPE: f"a zonotope has one centre and 1 to {MAX_GENERATORS} generators",
    VERTICES: f"a vertex list has 1 to {MAX_VERTICES} vertices",
}
NAME = re.compile(r"[^\W\d][\w.-]*")
NAME_FORM = "a letter, then letters, digits, '_', '.' or '-'"
# The statements of a row, and the form of its entries.
ROW_FORMS = {"row": DECIMAL, "scaled": WHOLE, "fitted": FLOAT}
MARK = "~ marks entries of a 'row' only"
LIMIT = f"{-MAX_FACTOR} to {MAX_FACTOR}"
Number = TypeVar("Number", int, Fraction)
Unit = tuple[str, int]  # its name, and how many counts make one


@dataclass(frozen=True)
class Rounded:
    """A `~` or fitted entry that rounding changed: as written, its place, and what it became."""

    word: str
    row: int
    column: int
    scaled: Fraction  # 65,536 times the entry
    stored: int  # the nearest to that

    @property
    def distance(self) -> Fraction:
        """How far the entry is above what is stored, in 1/65,536; below, where it is negative."""
        return self.scaled - self.stored

    @property
    def change(self) -> Fraction:
        """The relative change."""
        return abs(self.distance / self.scaled)


@dataclass(frozen=True)
class Source:
    """A model with what its text says beside it; the steps are 0 where the text has none."""

    model: Model
    stated_steps: int
    input_stated: bool  # or there is no input set, and the model's is that of `zero_box`
    coordinates: tuple[str, ...]
    directions: tuple[str, ...]
    units: tuple[Unit | None, ...]  # of each direction, as far as the text states them
    time: tuple[Fraction, str] | None = None  # how long a step takes, and in which unit
    fitted: dict[int, Vector] = field(default_factory=dict)  # the fitted rows, by their numbers
    rounded: tuple[Rounded, ...] = ()  # in the order of the matrix
    drift_stated: bool = False  # which it may be also where it is zero
    coordinate_units: tuple[Unit | None, ...] = ()  # likewise
    guards: tuple[str | None, ...] = ()  # their names, as far as they have any

    def __post_init__(self) -> None:
        for what, count in (("coordinate_units", self.model.n), ("guards", len(self.model.guards))):
            if not getattr(self, what):
                object.__setattr__(self, what, (None,) * count)

    @property
    def direction_units(self) -> tuple[Unit | None, ...]:
        """The unit of each direction: its own, or else the one that all its coordinates have."""
        found = []
        for unit, entries in zip(self.units, self.model.directions):
            of = {each for each, entry in zip(self.coordinate_units, entries) if entry}
            found.append(unit or (of.pop() if len(of) == 1 else None))
        return tuple(found)

    @property
    def data(self) -> bytes:
        stated = self.stated_steps, self.input_stated
        return encode(self.model, *stated, self.fitted, self.drift_stated)


class _Wrong(Exception):
    """What is wrong with a number, or with a statement whose rest is then left."""


def _fail(message: str) -> NoReturn:
    raise _Wrong(message)


def _value(word: str, form: re.Pattern[str]) -> Fraction | None:
    """The exact value of an entry, of a fitted one that of its 64 bits; None of one too large."""
    if form is FLOAT:
        bits = pattern_of(word)
        return None if bits is None else exact.binary64(bits)
    return Fraction(word.lstrip("~"))


def _marked(words: Sequence[str]) -> bool:
    return any(word.startswith("~") for word in words)


def rounded_in(
    row: int, form: re.Pattern[str], words: Sequence[str], entries: Sequence[int | None]
) -> list[Rounded]:
    """The entries of a row that rounding changed, in the order of their columns; no wrong ones."""
    found = []
    for column, (word, entry) in enumerate(zip(words, entries)):
        if entry is not None and form.fullmatch(word):
            scaled = MATRIX_UNIT * _value(word, form)
            if entry != scaled:
                found.append(Rounded(cut(word), row, column, scaled, entry))
    return found


def _limited(
    low: int, high: int, what: str, where: str = "", more: str = ""
) -> Callable[[str], int]:
    """Reads a whole number from low to high."""

    def read(word: str) -> int:
        value = int(word)
        if not low <= value <= high:
            _fail(f"{what} {value:,}{where} is beyond {low:,} to {high:,}{more}")
        return value

    return read


@dataclass
class _SetText:
    """A set as far as it is read; of a doubtful one only the numbers are tested."""

    which: str
    form: str | None
    start: int
    doubtful: bool = False
    points: list[list[int | None]] = field(default_factory=list)

    @property
    def sure_form(self) -> str:
        """Its form; where that is not sure, the one that has the least reach."""
        return VERTICES if self.doubtful or self.form is None else self.form

    def reach(self, column: int, *more: int) -> int:
        """How far its points reach, wrong numbers left out, with more of them behind."""
        entries = [point[column] or 0 for point in self.points] + [*more]
        return exact.reach(Set(self.sure_form, tuple((x,) for x in entries or [0])), 1)[0]


class _Parser:
    """Takes the statements of a text one by one, and tests each against its limits."""

    def __init__(self, name: str, wrong: dict[int, str]) -> None:
        self.name = name
        self.at = 0  # the number of the row in the text
        self.behind = 0  # the first statement behind the matrix
        self.mistakes = list(wrong.items())
        self.muted = set(wrong)  # rows of which nothing more is told
        self.stopped = False  # nothing more can be tested
        self.coordinates: tuple[str, ...] = ()
        self.named = 0  # where the coordinates are
        self.sure_names = True  # the coordinates' names are as they are meant
        self.counted = False  # a row has one number for each of them
        self.miscounted: list[tuple[int, int, str]] = []  # where, how many there are, message
        self.steps: int | None = None
        self.time: tuple[Fraction, str] | None = None
        self.seen: set[str] = set()  # statements that come once
        self.matrix: list[list[int | None] | None] = []
        self.last_row = -1
        self.out_of_turn: list[tuple[int, int, str]] = []  # where, the row that was due, message
        self.second_rows: list[tuple[int, str]] = []  # where, and whose row
        self.surplus: list[tuple[int, str]] = []  # rows behind the last: where, message
        self.fitted: dict[int, list[str]] = {}  # the entries of each fitted row
        self.rounded: list[Rounded] = []
        self.drift: list[int | None] = []
        self.sets: dict[str, _SetText] = {}
        self.open: _SetText | None = None  # the set that points belong to
        self.lost_sets = 0  # sets and points that may have been meant for a set that is missing
        self.directions: dict[str, list[int | None]] = {}
        self.nameless = False  # there is a direction whose name is not known
        # Of each kind, by name.
        self.units: dict[str, dict[str, Unit]] = {"direction": {}, "coordinate": {}}
        # The direction of each, its level, and its name where it has one.
        self.guards: list[tuple[str, int | None, str | None]] = []
        self.statements: dict[str, Callable[[list[str]], None]] = {
            "coordinates": self.take_coordinates,
            "steps": self.take_steps,
            "time": self.take_time,
            **{word: partial(self.take_row, form) for word, form in ROW_FORMS.items()},
            "drift": self.take_drift,
            "initial": lambda words: self.take_set("initial", words),
            "input": lambda words: self.take_set("input", words),
            "direction": self.take_direction,
            "unit": self.take_unit,
            "guard": self.take_guard,
        }

    # Mistakes

    def tell(self, message: str, at: int | None = None) -> None:
        if (at or self.at) not in self.muted:
            self.mistakes.append((at or self.at, message))

    def failure(self) -> files.Failure:
        told = sorted(self.mistakes, key=lambda mistake: mistake[0])
        rows = [f"{self.name}:{at}: {message}" for at, message in told[:MOST_TOLD]]
        if len(told) > MOST_TOLD:
            rows.append(f"{self.name}: and {len(told) - MOST_TOLD} more")
        return files.Failure("\n".join(rows))

    # Numbers

    def number(
        self,
        word: str,
        read: Callable[[str], Number],
        form: re.Pattern[str] = WHOLE,
        fitted: Callable[[str], int] | None = None,
    ) -> Number | None:
        """What `read` makes of a number; a wrong one is told, with a spelling that is right.

        `fitted` is how a fitted row would read it, where one may be meant.
        """
        value = None
        try:
            if form.fullmatch(word):
                return read(word)
            told = [f"{quoted(word)} is no {CALLED[form]}"]
            spelled, readings = plain(word, form), two_readings(word) if form is WHOLE else []
            if ENDLESS.fullmatch(word) and form is DECIMAL:
                told = [f"{quoted(word)} has more than 40 digits before or behind the point"]
            elif NOT_FINITE.fullmatch(word) and form is FLOAT:
                told = [f"{quoted(word)} is no finite number; an entry is {LIMIT}"]
            elif readings and all(self.advice([each], read)[1] is not None for each in readings):
                told.append(f"write {' or '.join(readings)}")
            elif spelled is not None and form.fullmatch(spelled):
                marked = word.startswith("~")
                written = [spelled] * (not marked) + ["~" + spelled] * (form is DECIMAL)
                advice, value = self.advice(written, read)
                told.append(advice)
            if fitted is not None and FLOAT.fullmatch(word):
                advice, entry = self.advice([word], fitted)
                if entry is not None:
                    told.append("a 'fitted' row takes it as it is")
                elif len(told) == 1:
                    told.append(advice)
        except _Wrong as wrong:
            told = [str(wrong)]
        self.tell("; ".join(told))
        return value

    def advice(
        self, spellings: list[str], read: Callable[[str], Number]
    ) -> tuple[str, Number | None]:
        """To write the first of these that `read` takes, or what is wrong with the first."""
        reasons = []
        for written in spellings:
            try:
                value = read(written)
                return f"write {written}", value
            except _Wrong as wrong:
                reasons.append(str(wrong))
        return (reasons[0] if reasons else MARK), None

    def entries(
        self,
        words: list[str],
        reader: Callable[[int], Callable[[str], int]],
        form: re.Pattern[str] = WHOLE,
    ) -> list[int | None]:
        """One number for each coordinate, None for a wrong one; `reader` is that of a column."""
        n = len(self.coordinates)
        if len(words) == n:
            self.counted = True
            # A `row` without a mark may be meant as a fitted one.
            other = form is DECIMAL and not _marked(words)
            fitted = [partial(self.fitted_entry, i) if other else None for i in range(n)]
            return [
                self.number(word, reader(i), form, fitted[i]) for i, word in enumerate(words)
            ]
        told = f"expected {n} numbers, one for each coordinate" if n > 1 else "expected 1 number"
        hint = "; numbers stand apart by blanks" if "," in "".join(words) else ""
        if "~" in words:
            hint = "; ~ stands right before its number" if form is DECIMAL else f"; {MARK}"
        self.miscounted.append((self.at, len(words), f"{told}, found {len(words)}{hint}"))
        return [None] * n

    def beyond(self, column: int, word: str) -> NoReturn:
        _fail(f"entry {cut(word)} in column {self.coordinates[column]!r} is beyond {LIMIT}")

    def fitted_entry(self, column: int, word: str) -> int:
        """A number of binary64 in units of 1/65,536."""
        if word.startswith("~"):
            _fail(MARK)
        value = _value(word, FLOAT)
        if value is None or abs(value) > MAX_FACTOR:
            self.beyond(column, word)
        return exact.fitted_entry(value)

    def row_entry(self, column: int, word: str) -> int:
        """A decimal in units of 1/65,536."""
        scaled = MATRIX_UNIT * _value(word, DECIMAL)
        nearest = exact.nearest(scaled)
        if abs(nearest) > MAX_ENTRY:
            self.beyond(column, word)
        if not word.startswith("~") and nearest != scaled:
            _fail(
                f"{word} is no multiple of 1/{MATRIX_UNIT:,};"
                f" write ~{word} for the nearest, which is {nearest}/{MATRIX_UNIT}"
            )
        return nearest

    def entries_of_row(
        self, row: int, form: re.Pattern[str], words: list[str]
    ) -> list[int | None]:
        """The entries of a row in units of 1/65,536; those that rounding changes are noted."""
        if form is WHOLE:
            return self.entries(words, self.column_limit(MAX_ENTRY, "entry"))
        # A `row` with a hexadecimal float is meant as a fitted one, where no decimal needs a mark.
        hexadecimal = any(FLOAT.fullmatch(word) and "x" in word.lower() for word in words)
        meant = form is FLOAT or hexadecimal and not _marked(words)
        read = self.fitted_entry if meant else self.row_entry
        entries = self.entries(words, lambda column: partial(read, column), form)
        self.rounded += rounded_in(row, form, words, entries)
        return entries

    def column_limit(self, limit: int, what: str) -> Callable[[int], Callable[[str], int]]:
        """The reader of each column for numbers up to a limit, of either sign."""
        return lambda column: _limited(
            -limit, limit, what, f" in column {self.coordinates[column]!r}"
        )

    def point_entry(self, set_: _SetText, column: int, word: str) -> int:
        """A point's number, tested with the points before it, and with the drift above it."""
        value, name = int(word), self.coordinates[column]
        reach = set_.reach(column, value)
        if reach > MAX_REACH:
            which = f"the {set_.which} set" if set_.which else "the set"
            _fail(f"the reach of {which} in {name!r} is {reach:,}, beyond {MAX_REACH:,}")
        before = [point[column] for point in set_.points]
        if set_.sure_form == BOX and before and before[0] is not None and value < before[0]:
            _fail(f"upper {value:,} is below lower {before[0]:,} in {name!r}")
        if set_.which == "input" and self.drift:
            self.test_entering(column, reach, self.drift[column])
        return value

    def drift_entry(self, column: int, word: str) -> int:
        """A number of the drift, tested by itself, and with the input set above it."""
        value = self.column_limit(MAX_REACH, "drift")(column)(word)
        if "input" in self.sets:
            self.test_entering(column, self.sets["input"].reach(column), value)
        return value

    def test_entering(self, column: int, reach: int, drift: int | None) -> None:
        """Refuse a sum of the input set's reach and the drift's magnitude beyond its limit."""
        both = reach + abs(drift or 0)
        if both > MAX_REACH:
            _fail(
                f"the reach of the input set in {self.coordinates[column]!r}, {reach:,}, and the"
                f" drift of {drift:,} make {both:,}, beyond {MAX_REACH:,}"
            )

    # Words

    def take(self, at: int, words: list[str]) -> None:
        self.at = at
        word, rest = words[0], words[1:]
        if word not in self.statements and word not in POINTS:
            known, rest = self.guessed(words)
        else:
            known = word
            if not self.coordinates and word != "coordinates":
                self.tell(f"{word!r} comes where 'coordinates' is due; a model starts with it")
        if not self.coordinates and known != "coordinates":
            self.stopped = True
        elif known is None:
            self.open = self.open or _SetText("", None, at)
            self.open.doubtful = True
        elif known in POINTS:
            self.take_point(known, rest)
        else:
            if known in ROW_FORMS:
                self.behind = 0
            elif known not in ("coordinates", "steps", "time", "unit"):
                self.behind = self.behind or at
            self.open = None
            try:
                self.statements[known](rest)
            except _Wrong as wrong:
                self.tell(str(wrong))

    def allowed(self) -> list[str]:
        """The words that may come next."""
        if not self.coordinates:
            return ["coordinates"]
        words: list[str] = []
        set_ = self.open
        if set_ is not None and set_.form is not None:
            if len(set_.points) < MAX_POINTS[set_.form]:
                words.append(POINT_WORDS[set_.form][1 if set_.points else 0])
            if len(set_.points) < MIN_POINTS[set_.form]:
                return words
        elif set_ is not None and set_.which:
            return list(POINTS)
        words += [word for word in ("steps", "time") if word not in self.seen]
        words += ROW_FORMS if None in self.matrix else []
        words += ["drift"] if "drift" not in self.seen else []
        words += [which for which in ("initial", "input") if which not in self.sets]
        words += ["direction"] if len(self.directions) < MAX_DIRECTIONS else []
        names = (*self.directions, *self.coordinates)
        words += ["unit"] if any(name not in self.units[self.kind(name)] for name in names) else []
        return words + (["guard"] if self.directions and len(self.guards) < MAX_GUARDS else [])

    def guessed(self, words: list[str]) -> tuple[str | None, list[str]]:
        """Tell an unknown word; what it may stand for, where that has something behind it."""
        word, rest = words[0], words[1:]
        allowed = self.allowed()
        guess = suggestion(word, allowed) if rest else None
        if guess in ("initial", "input", "unit") and DECIMAL.fullmatch(rest[0]):
            guess = None  # a form or a name would follow, and no number
        hint = f" did you mean {guess!r}?" if guess else ""
        if guess is None:
            guess = self.left_out(words, allowed)
            if guess:
                rest = words
                hint = f" did you mean '{guess} {word}{' ..' * (len(words) > 1)}'?"
            elif close := suggestion(word, allowed):
                hint = f" did you mean {close!r}?"
        self.tell(f"unknown word {quoted(word)};{hint} allowed here: {', '.join(allowed)}")
        return (guess if rest else None), rest

    def left_out(self, words: list[str], allowed: list[str]) -> str | None:
        """The word that is missing in front of a statement, where what is there tells which."""
        n, count = len(self.coordinates), len(words)
        numbers = DECIMAL.fullmatch(words[0]) is not None
        if numbers and count == 1 < n:
            fitting: tuple[str, ...] = ("steps",)
        elif numbers:
            fitting = (*POINTS, "row") if count == n else ()
        elif words[0] in POINT_WORDS:
            fitting = ("initial", "input") if count == 1 else ()
        elif count == n + 1 and all(map(DECIMAL.fullmatch, words[1:])):
            named = words[0] in self.coordinates and "row" in allowed
            fitting = ("row",) if named else ("direction",) if NAME.fullmatch(words[0]) else ()
        elif all(map(FLOAT.fullmatch, words[-n:])) and count - n == (words[0] in self.coordinates):
            fitting = ("fitted",)
        else:
            fitting = ()
        return next((each for each in allowed if each in fitting), None)

    def once(self, word: str) -> None:
        """Refuse the second statement of its kind."""
        if word in self.seen:
            _fail(f"a second {word!r}")
        self.seen.add(word)

    def kind(self, name: str) -> str:
        """What a unit of this name is of: a direction above it has precedence."""
        return "direction" if name in self.directions else "coordinate"

    def test_named(self, name: str, what: str, coordinates: Sequence[str] = ()) -> None:
        """Tell a name that no direction above has, and none of these coordinates.

        Not where that may follow from a mistake.
        """
        names = list(dict.fromkeys((*self.directions, *coordinates)))
        if name in names or self.nameless or coordinates and not self.sure_names:
            return
        guess = suggestion(name, names)
        hint = f"; did you mean {guess!r}?" if guess else ";"
        above = ", ".join(self.directions)
        there = f"above it are {above}" if above else "no direction is above it"
        neither = ", and no coordinate" if coordinates else ""
        there += f"; coordinates are {', '.join(coordinates)}" if coordinates else ""
        self.tell(f"no direction named {quoted(name)} above this {what}{neither}{hint} {there}")

    def test_unit(self, unit: str) -> None:
        if len(unit) > LONGEST_UNIT or not unit.isprintable() or plain(unit, DECIMAL) is not None:
            self.tell(
                f"{quoted(unit)} is no unit: one word of 1 to {LONGEST_UNIT} characters"
                " that is no number, such as mV"
            )

    # Statements

    def take_coordinates(self, words: list[str]) -> None:
        self.once("coordinates")
        self.named = self.at
        self.stopped = True  # unless it is known how many columns there are
        if len(words) == 1 and plain(words[0], WHOLE) is not None:
            count = self.number(words[0], _limited(1, MAX_N, "coordinates"))
            if count is None:
                return
            words = [f"x{i}" for i in range(count)]
        if not 1 <= len(words) <= MAX_N:
            _fail(f"{len(words)} coordinates; a model has 1 to {MAX_N}")
        self.stopped = False
        told = len(self.mistakes)
        for name in words:
            if not NAME.fullmatch(name):
                hint = "; names stand apart by blanks" if "," in name else ""
                self.tell(f"{quoted(name)} is no name: {NAME_FORM}{hint}")
                # Then it isn't known how many coordinates are meant.
                self.stopped |= "," in name or not any(map(str.isalnum, name))
        if len(set(words)) < len(words):
            self.tell("two coordinates have the same name")
        self.sure_names = told == len(self.mistakes) and self.at not in self.muted
        self.coordinates = tuple(words)
        self.matrix = [None] * len(words)

    def take_steps(self, words: list[str]) -> None:
        self.once("steps")
        if len(words) != 1:
            _fail("expected 'steps' and one number")
        default = "; without 'steps' the default holds"
        self.steps = self.number(words[0], _limited(1, MAX_STEPS, "steps", more=default))

    def take_time(self, words: list[str]) -> None:
        self.once("time")
        if len(words) != 2:
            _fail("expected 'time', a number and a unit, as in 'time 1.25 ms'")

        def above_zero(word: str) -> Fraction:
            if word.startswith("~"):
                _fail(MARK)
            value = Fraction(word)
            return value if value > 0 else _fail(f"time {word} is not above 0")

        value = self.number(words[0], above_zero, DECIMAL)
        self.test_unit(words[1])
        self.time = (value or Fraction(1), words[1])

    def take_row(self, form: re.Pattern[str], words: list[str]) -> None:
        n = len(self.coordinates)
        missing = [number for number, entries in enumerate(self.matrix) if entries is None]
        if not missing:
            self.surplus.append((self.at, f"one row too many: the matrix has {n} by {n} entries"))
            return
        number = next((each for each in missing if each > self.last_row), missing[0])
        if words and (words[0] in self.coordinates or NAME.fullmatch(words[0]) and len(words) > n):
            name, *words = words
            due = self.coordinates[number]
            told = f"row {name!r} comes where row {due!r} is due"
            later = [each for each in missing if self.coordinates[each] == name]
            if name != due and later:
                self.out_of_turn.append((self.at, number, told))
                number = later[0]
            elif name != due and self.sure_names and name in self.coordinates:
                self.second_rows.append((self.at, name))
                return
            elif name != due and self.sure_names:
                self.tell(told)
        self.last_row = number
        self.matrix[number] = self.entries_of_row(number, form, words)
        if form is FLOAT:
            self.fitted[number] = words

    def take_drift(self, words: list[str]) -> None:
        self.once("drift")
        self.drift = self.entries(words, lambda column: partial(self.drift_entry, column))

    def take_set(self, which: str, words: list[str]) -> None:
        forms = list(POINT_WORDS)
        takes = f"{which} takes one of {', '.join(forms)}"
        form = suggestion(words[0], forms) if words else None
        self.open = _SetText(which, form, self.at)
        if which in self.sets:
            self.lost_sets += 1
            self.sets[which].doubtful = True
            self.tell(f"a second {which} set")
        else:
            self.sets[which] = self.open
        if words and words[0] != form:
            hint = f"; did you mean {form!r}?" if form else ";"
            left_out = ", and is left out where there is no input" if which == "input" else ""
            self.tell(f"unknown form {quoted(words[0])}{hint} {takes}{left_out}")
        elif len(words) != 1:
            self.tell(f"{takes}; its points stand in rows below it")

    def take_point(self, word: str, words: list[str]) -> None:
        if self.open is None:
            self.lost_sets += 1
            self.tell(f"{word!r} stands below no 'initial' or 'input'")
            self.open = _SetText("", None, self.at)
        set_ = self.open
        if set_.form is not None and not set_.doubtful:
            due = POINT_WORDS[set_.form][1 if set_.points else 0]
            full = len(set_.points) == MAX_POINTS[set_.form]
            set_.doubtful = full or word != due
            if full or word not in POINT_WORDS[set_.form]:
                self.tell(f"{word!r} here: {SET_LIMITS[set_.form]}")
            elif word != due:
                self.tell(f"{word!r} comes where {due!r} is due")
        reader = lambda column: lambda entry: self.point_entry(set_, column, entry)  # noqa: E731
        set_.points.append(self.entries(words, reader))

    def take_direction(self, words: list[str]) -> None:
        if not words or not NAME.fullmatch(words[0]):
            self.nameless = True
            _fail(f"a direction needs a name: {NAME_FORM}")
        name, *rest = words
        if name in self.directions:
            self.nameless = True
            self.tell(f"a second direction named {name!r}")
        elif len(self.directions) == MAX_DIRECTIONS:
            self.tell(f"one direction too many: 1 to {MAX_DIRECTIONS}")
        entries = self.entries(rest, self.column_limit(MAX_DIRECTION_ENTRY, "direction entry"))
        if all(entry == 0 for entry in entries):
            self.tell(f"all entries of direction {name!r} are zero")
        self.directions.setdefault(name, entries)

    def take_unit(self, words: list[str]) -> None:
        if len(words) not in (2, 3):
            _fail(
                "expected 'unit', the name of a direction or of a coordinate, a unit and, where it"
                " is not 1, how many counts make one, as in 'unit hottest °C 16'"
            )
        name, unit, *rest = words
        self.test_named(name, "unit", self.coordinates)
        kind = self.kind(name)
        units = self.units[kind]
        # A second one may be meant for a direction or a coordinate whose name above is wrong.
        sure = name in self.coordinates and self.sure_names and not self.nameless
        if name in units and (kind == "direction" or sure):
            self.tell(f"a second unit of {kind} {name!r}")
        self.test_unit(unit)
        read = _limited(1, MOST_COUNTS, "counts")
        counts = self.number(rest[0], read) if rest else 1
        units.setdefault(name, (unit, counts or 1))

    def take_guard(self, words: list[str]) -> None:
        # With a name where the level is due, and the level behind it.
        turned = len(words) == 3 and NAME.fullmatch(words[1]) and WHOLE.fullmatch(words[2])
        if len(words) not in (2, 3) or turned:
            _fail(
                "expected 'guard', a direction's name, a level and, where it has one, the guard's"
                " name, as in 'guard hottest 4480 limit'"
            )
        if len(self.guards) == MAX_GUARDS:
            self.tell(f"one guard too many: 0 to {MAX_GUARDS}")
        direction, level, *rest = words
        self.test_named(direction, "guard")
        value = self.number(level, _limited(MIN_LEVEL, MAX_LEVEL, "level"))
        name = rest[0] if rest else None
        if name is not None and not NAME.fullmatch(name):
            hint = "; a level is one number" if plain(name, DECIMAL) is not None else ""
            self.tell(f"{quoted(name)} is no name: {NAME_FORM}{hint}")
        elif name is not None and any(name == each for _, _, each in self.guards):
            self.tell(f"a second guard named {name!r}")
        self.guards.append((direction, value, name))

    # The end

    def tell_counts(self) -> None:
        """Rows with too few or too many numbers; one mistake where it lies in the coordinates."""
        counts = {count for _, count, _ in self.miscounted}
        n = len(self.coordinates)
        if len(self.miscounted) > 1 and len(counts) == 1 and not self.counted and min(counts) > 0:
            self.stopped = True
            names = "1 coordinate" if n == 1 else f"{n} coordinates"
            self.tell(f"{names}, but the rows below have {min(counts)} numbers each", self.named)
            return
        for at, told in [(at, told) for at, _, told in self.miscounted] + self.surplus:
            self.tell(told, at)

    def tell_missing(self) -> None:
        """What is missing, once all statements are taken."""
        missing = [i for i, entries in enumerate(self.matrix) if entries is None]
        place = self.behind or self.at
        for at, due, told in self.out_of_turn:
            if due in missing:
                place = min(place, at)
            else:
                self.tell(told, at)
        for at, name in self.second_rows:
            meant = f", where row {self.coordinates[missing.pop(0)]!r} is due" if missing else ""
            self.tell(f"a second row {name!r}{meant}", at)
        if missing:
            names = ", ".join(repr(self.coordinates[number]) for number in missing)
            self.tell(f"no row for {names}", place)
        if "initial" not in self.sets and not self.lost_sets:
            self.tell("no initial set")
        for which, set_ in self.sets.items():
            if set_.form and not set_.doubtful and len(set_.points) < MIN_POINTS[set_.form]:
                told = f"the {which} set is not complete: {SET_LIMITS[set_.form]}"
                self.tell(told, set_.start)
        if not self.directions and not self.nameless:
            self.tell(f"no direction: a model has 1 to {MAX_DIRECTIONS}")

    def finished(self) -> Source:
        """The model, once all statements are taken; nothing may be wrong or missing."""
        self.tell_counts()
        if not self.stopped:
            self.tell_missing()
        if self.mistakes:
            raise self.failure()
        n, names = len(self.coordinates), tuple(self.directions)
        sets = {
            which: Set(set_.form, tuple(map(tuple, set_.points)))
            for which, set_ in self.sets.items()
        }
        model = Model(
            n,
            self.steps or DEFAULT_STEPS,
            tuple(map(tuple, self.matrix)),
            sets["initial"],
            sets.get("input", zero_box(n)),
            tuple(map(tuple, self.directions.values())),
            tuple((names.index(name), level) for name, level, _ in self.guards),
            tuple(self.drift),
        )
        return Source(
            model,
            self.steps or 0,
            "input" in sets,
            self.coordinates,
            names,
            tuple(map(self.units["direction"].get, names)),
            self.time,
            {number: tuple(map(pattern_of, words)) for number, words in self.fitted.items()},
            tuple(self.rounded),
            "drift" in self.seen,
            tuple(map(self.units["coordinate"].get, self.coordinates)),
            tuple(name for _, _, name in self.guards),
        )


def parse(text: str, name: str = "model", wrong: dict[int, str] | None = None) -> Source:
    """The model of a text; a failure tells each mistake with the text's name and the row.

    `wrong` says of rows what is wrong with their bytes.
    """
    parser = _Parser(name, wrong or {})
    for at, content in enumerate(text.split("\n"), 1):
        words = content.partition("#")[0].split()
        if words and not parser.stopped:
            parser.take(at, words)
    if not parser.at:
        if parser.mistakes:
            raise parser.failure()
        what = "only comments" if "#" in text else "only blanks" if text else "no byte"
        raise files.Failure(
            f"{name}: the text is empty: it has {what}; a model starts with 'coordinates'"
        )
    source = parser.finished()
    read = exact.read_model(source.data)
    assert read == source.model, f"{name}: packed, but read as {read}"
    return source
