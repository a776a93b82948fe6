"""Listings: what the program `envelope` prints, as values, as text and read back.

The layout is that of the specification, Listing 2 to 7.
"""

from __future__ import annotations

import re
from dataclasses import dataclass

from files import Failure

HIT, UNKNOWN, CLEAR, GROWTH = "HIT", "UNKNOWN", "CLEAR", "GROWTH"


@dataclass(frozen=True)
class Refusal:
    """A refused file: the number and the offset."""

    number: int
    offset: int


@dataclass(frozen=True)
class Growth:
    """A direction refused for growth, and the step that is named."""

    step: int


@dataclass(frozen=True)
class Sweep:
    """A swept direction: its spare figure, its bounds and its slacks, of the steps 0 to K."""

    spare: int
    bounds: tuple[int, ...]
    slacks: tuple[int, ...]


@dataclass(frozen=True)
class Verdict:
    """What is said of a guard; CLEAR names no step."""

    word: str
    step: int | None = None

    def __str__(self) -> str:
        return self.word if self.step is None else f"{self.word} {self.step}"


@dataclass(frozen=True)
class Listing:
    n: int
    steps: int
    directions: tuple[Sweep | Growth, ...]
    guards: tuple[Verdict, ...]


def write(listing: Listing | Refusal) -> str:
    """The text of a listing or a refusal."""
    if isinstance(listing, Refusal):
        return f"refused {listing.number} at {listing.offset}\n"
    parts = [f"model {listing.n} {listing.steps}\n"]
    for number, swept in enumerate(listing.directions):
        if isinstance(swept, Growth):
            parts.append(f"dir {number} growth {swept.step}\n")
            continue
        parts.append(f"dir {number} spare {swept.spare}\n")
        for step, (bound, slack) in enumerate(zip(swept.bounds, swept.slacks)):
            parts.append(f"{step} {bound} {slack}\n")
    for number, said in enumerate(listing.guards):
        parts.append(f"guard {number} {said}\n")
    return "".join(parts)


class _Reader:
    """The text's rows one by one, each matched whole."""

    def __init__(self, text: str, name: str) -> None:
        self.rows = text.splitlines()
        self.name = name
        self.at = 0

    def match(self, pattern: str) -> tuple[str, ...] | None:
        """The groups of the next row where it has this form, which is then used up."""
        found = re.fullmatch(pattern, self.rows[self.at]) if self.at < len(self.rows) else None
        if found is None:
            return None
        self.at += 1
        return found.groups()

    def end(self, what: str) -> None:
        if self.at < len(self.rows):
            self.demand("(?!)", what)

    def demand(self, pattern: str, what: str) -> tuple[str, ...]:
        groups = self.match(pattern)
        if groups is None:
            seen = repr(self.rows[self.at][:60]) if self.at < len(self.rows) else "the end"
            raise Failure(f"{self.name}:{self.at + 1}: expected {what}, found {seen}")
        return groups


def parse(text: str, name: str = "listing") -> Listing | Refusal:
    """The listing that a text holds; one that is no listing is a failure that names the place."""
    reader = _Reader(text, name)
    if refused := reader.match(r"refused (\d+) at (\d+)"):
        reader.end("the end")
        return Refusal(int(refused[0]), int(refused[1]))
    n, steps = map(int, reader.demand(r"model ([1-6]) (\d+)", "'model N K' or 'refused N at P'"))
    directions: list[Sweep | Growth] = []
    while True:
        number = len(directions)
        if grown := reader.match(rf"dir {number} growth (\d+)"):
            directions.append(Growth(int(grown[0])))
        elif swept := reader.match(rf"dir {number} spare (\d+)"):
            values = [
                reader.demand(rf"{step} (-?\d+) (\d+)", f"'{step} BOUND SLACK'")
                for step in range(steps + 1)
            ]
            bounds, slacks = (tuple(map(int, column)) for column in zip(*values))
            directions.append(Sweep(int(swept[0]), bounds, slacks))
        else:
            break
    if not directions:
        reader.demand(r"dir 0 spare (\d+)", "'dir 0 spare S' or 'dir 0 growth J'")
    guards: list[Verdict] = []
    while said := reader.match(rf"guard {len(guards)} (HIT|UNKNOWN|CLEAR|GROWTH)(?: (\d+))?"):
        guards.append(Verdict(said[0], None if said[1] is None else int(said[1])))
    reader.end(f"'guard {len(guards)} ..' or the end")
    return Listing(n, steps, tuple(directions), tuple(guards))
