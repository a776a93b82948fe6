"""Exact fractions as decimals: whole, or rounded to one side.

A figure that is told has to follow from the one that is proved. So a bound is rounded up, what a
run comes to is rounded down, and a slack is what lies between the two as they are told.
"""

from __future__ import annotations

import math
from fractions import Fraction
from typing import Iterable

MOST_PLACES = 100  # decimals of a number that is told exactly


def exact_places(value: Fraction) -> int | None:
    """How many decimals tell a value exactly; None where no number of them does."""
    rest, twos, fives = value.denominator, 0, 0
    while rest % 2 == 0:
        rest, twos = rest // 2, twos + 1
    while rest % 5 == 0:
        rest, fives = rest // 5, fives + 1
    return max(twos, fives) if rest == 1 else None


def places_to(least: Fraction) -> int:
    """The fewest decimals whose last one is at most a tenth of `least`, which is above 0."""
    assert least > 0, least
    places = 0
    while Fraction(1, 10**places) > least / 10:
        places += 1
    return places


def places_for(values: Iterable[Fraction], least: Fraction) -> int:
    """Decimals that tell all values exactly, or a tenth of `least`; the fewer of the two."""
    exact = [exact_places(value) for value in values]
    enough = places_to(least)
    return enough if None in exact else min(enough, max(exact))


def rounded_up(value: Fraction, places: int) -> Fraction:
    return Fraction(math.ceil(value * 10**places), 10**places)


def rounded_down(value: Fraction, places: int) -> Fraction:
    return Fraction(math.floor(value * 10**places), 10**places)


def told(value: Fraction, places: int, grouped: bool = True) -> str:
    """A value that this many decimals tell exactly."""
    scaled = value * 10**places
    assert scaled.denominator == 1, (value, places)
    whole, rest = divmod(abs(scaled.numerator), 10**places)
    sign = "-" if value < 0 else ""
    digits = f"{whole:,}" if grouped else str(whole)
    return f"{sign}{digits}.{rest:0{places}}" if places else f"{sign}{digits}"


def about(value: Fraction, up: bool) -> str:
    """Three digits of a large value and its power of ten, rounded up or down: `3.81e45`."""
    power = len(str(abs(value.numerator) // value.denominator)) - 1
    digits = (math.ceil if up else math.floor)(value / Fraction(10) ** (power - 2))
    if abs(digits) == 1000:
        digits, power = digits // 10, power + 1
    return f"{digits / 100:.2f}e{power}"


def exactly(value: Fraction, grouped: bool = True) -> str:
    """The value itself: a decimal without trailing zeros, or a fraction where it is none."""
    places = exact_places(value)
    if places is not None and places <= MOST_PLACES:
        return told(value, places, grouped)
    if grouped:
        return f"{value.numerator:,}/{value.denominator:,}"
    return f"{value.numerator}/{value.denominator}"
