"""The report of one model: what the program says of it, sharpened, with the matrix as written.

In order: what a model comes to; guards and directions by urgency; making a report. Figures are
fractions in the units of the text (`answers`).
"""

from __future__ import annotations

import hashlib
from dataclasses import dataclass, replace
from fractions import Fraction
from functools import cached_property
from typing import Callable, Sequence

import exact
import files
import inputs
import pack
from answers import Direction, Figures, Guard, Written, directions_of
from inputs import NOT_RUN, REFUSED, Failed, Input
from layout import HEAD, MATRIX_UNIT, Model, Vector
from listings import CLEAR, Growth, Listing, Refusal, Sweep
from textform import Source

from . import program, sharpen

# The statuses of `report`, and which of several is told: the last of these.
ALL_CLEAR, NOT_CLEAR = 0, 3
WORST_LAST = (ALL_CLEAR, NOT_CLEAR, REFUSED, NOT_RUN)


@dataclass(frozen=True)
class Report:
    """A model that was answered; `plain` where no direction was multiplied."""

    name: str
    data: bytes
    source: Source
    directions: tuple[Direction, ...]
    plain: bool = False

    @cached_property
    def figures(self) -> tuple[Figures, ...]:
        return tuple(map(Figures, self.directions))

    @cached_property
    def guards(self) -> list[tuple[Figures, Guard]]:
        """All guards, the most urgent first."""
        found = [(one, guard) for one in self.figures for guard in one.direction.guards]
        return sorted(found, key=lambda pair: (*pair[0].urgency(pair[1]), pair[1].number))

    @cached_property
    def ordered(self) -> list[Figures]:
        """The directions, the one with the most urgent guard first; without guards, at the end."""
        order = list(dict.fromkeys(one.direction.number for one, _ in self.guards))
        order += [one.number for one in self.directions if one.number not in order]
        return [self.figures[number] for number in order]

    @property
    def rounded(self) -> bool:
        """Whether the matrix that was swept is another than the one as written."""
        return bool(self.source.rounded)

    @property
    def passed_as_written(self) -> list[Figures]:
        """The directions with a bound that the matrix as written passes."""
        return [one for one in self.ordered if one.above]

    @property
    def packed(self) -> bool:
        """Whether the model was given as a packed file, which has no names and units."""
        return self.data[:1] == bytes([HEAD])

    @property
    def status(self) -> int:
        words = {one.word(guard) for one, guard in self.guards}
        return ALL_CLEAR if words <= {CLEAR} else NOT_CLEAR

    @property
    def sha256(self) -> str:
        return hashlib.sha256(self.data).hexdigest()

    @property
    def packed_sha256(self) -> str:
        """That of the packed file, which is the file as given or made from its text."""
        return self.sha256 if self.packed else hashlib.sha256(self.source.data).hexdigest()

    @property
    def text(self) -> str:
        """The model as a text: as it was given, or unpacked."""
        if self.packed:
            return pack.write_text(self.source)
        return files.decoded(self.data, self.name)[0]


Result = Report | Failed


def worst(statuses: Sequence[int]) -> int:
    return max(statuses, key=WORST_LAST.index, default=ALL_CLEAR)


def written_values(source: Source) -> list[Written]:
    """The exact largest values of the matrix as it was written; none where it wasn't rounded."""
    if not source.rounded:
        return []
    scaled = [list(map(Fraction, entries)) for entries in source.model.matrix]
    for entry in source.rounded:
        scaled[entry.row][entry.column] = entry.scaled
    matrix = [[entry / MATRIX_UNIT for entry in entries] for entries in scaled]
    unit, values = exact.unrounded_values(source.model, matrix)
    return [Written(unit, tuple(each)) for each in values]


Reply = Callable[[bytes, str], Listing | Refusal]  # what a program says of a file, with its name


def report_of(given: Input, plain: bool = False, reply: Reply = program.reply) -> Result:
    """The report of a model, or why it has none."""
    told = reply(given.packed, given.name)
    if isinstance(told, Refusal):
        return inputs.refused("report", given, told)
    source = given.source or pack.read_source(given.data, given.name)

    def listing(model: Model) -> Listing:
        return program.accepted(reply(replace(source, model=model).data, given.name))

    def swept(directions: Sequence[Vector]) -> Sequence[Sweep | Growth]:
        tried = replace(source.model, directions=tuple(directions), guards=())
        return listing(tried).directions

    # A packed file was read a second time: what is multiplied has to be what the program has read.
    if listing(source.model) != told:
        raise files.AccessFailure("it is another model to the program than to the tools")
    factors = [1] * len(source.directions)
    if not plain:
        factors = sharpen.largest_factors(source.model.directions, swept)
        told = listing(sharpen.multiplied(source.model, factors))
    directions = directions_of(told, source, factors, written_values(source))
    return Report(given.name, given.data, source, directions, plain)
