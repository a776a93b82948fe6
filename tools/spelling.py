"""Spellings: numbers as they are written in texts, other ways to write them, and words meant."""

from __future__ import annotations

import difflib
import math
import re
from fractions import Fraction
from typing import Sequence

from layout import float_of, pattern

WHOLE = re.compile(r"[+-]?[0-9]{1,40}")
UNMARKED = r"[+-]?([0-9]{1,40}(\.[0-9]{0,40})?|\.[0-9]{1,40})"
DECIMAL = re.compile("~?" + UNMARKED)
# A number of binary64 as other tools write it: a decimal of any length, or hexadecimal (C's %a).
FLOAT = re.compile(
    r"[+-]?(([0-9]+(\.[0-9]*)?|\.[0-9]+)([eE][+-]?[0-9]+)?"
    r"|0[xX]([0-9a-fA-F]+(\.[0-9a-fA-F]*)?|\.[0-9a-fA-F]+)([pP][+-]?[0-9]+)?)"
)
# What messages call a number of each form.
CALLED = {WHOLE: "whole number", DECIMAL: "decimal number", FLOAT: "decimal or hexadecimal number"}
NOT_FINITE = re.compile(r"[+-]?(inf|infinity|nan)(\(.*\))?", re.IGNORECASE)
ENDLESS = re.compile(r"~?[+-]?(?=.*[0-9])[0-9]*\.?[0-9]*")  # a decimal of any length
WITH_EXPONENT = re.compile(UNMARKED + "([eE][+-]?[0-9]{1,2})?")
THOUSANDS = re.compile(r"[+-]?[1-9][0-9]{0,2}([,.'_][0-9]{3})+")

# What other words may stand for; the first that is allowed at its place is meant.
MEANT = {
    "lower": "min minimum low lo from point corner", "upper": "max maximum high hi to point corner",
    "centre": "center centers centres middle mid point", "generator": "gen axis point",
    "vertex": "vertices vert point corner", "coordinates": "coords states state variables names",
    "steps": "horizon k", "row": "matrix line a", "fitted": "fit float double coefficients",
    "drift": "bias offset constant ambient", "initial": "init start x0", "input": "in u init",
    "direction": "dir output", "guard": "level limit threshold", "time": "dt",
    "box": "interval range", "vertices": "vertex hull points polytope list", "zonotope": "zono",
}


def decimal_text(value: Fraction) -> str:
    """A decimal fraction without needless zeros."""
    places = next(places for places in range(200) if (value * 10**places).denominator == 1)
    digits = str(abs(value * 10**places)).rjust(places + 1, "0")
    whole, rest = digits[: len(digits) - places], digits[len(digits) - places :]
    return ("-" if value < 0 else "") + whole + ("." + rest if rest else "")


def pattern_of(word: str) -> int | None:
    """The 64 bits of a FLOAT, of the nearest number of binary64; None of one that is too large."""
    try:
        value = float.fromhex(word) if "x" in word.lower() else float(word)
    except OverflowError:
        return None
    return pattern(value) if math.isfinite(value) else None


def float_text(bits: int) -> str:
    """The shortest decimal, or one with an exponent, that gives these 64 bits again."""
    return repr(float_of(bits))


def cut(word: str) -> str:
    """A word as messages tell it; a long one is cut."""
    return word if len(word) <= 50 else f"{word[:50]}.."


def quoted(word: str) -> str:
    """The same in quotes."""
    return repr(word) if len(word) <= 50 else f"{word[:50]!r}.."


def two_readings(word: str) -> list[str]:
    """What a whole number such as 1.000 is, with a decimal point and with a thousands mark."""
    found = re.fullmatch(r"([+-]?[1-9][0-9]{0,2})\.000", word)
    return [found[1], found[1] + "000"] if found else []


def plain(word: str, form: re.Pattern[str]) -> str | None:
    """The plain spelling of a number such as 0,5 1e3 1_000 1,000 12.0 or one with a long minus."""
    word = word.lstrip("~").rstrip(",;").translate({0x2212: "-", 0x2013: "-"})
    if form is WHOLE and THOUSANDS.fullmatch(word):
        if "." in word:  # 1.500 may be 1.5 or 1500
            return None
        word = re.sub("[,'_]", "", word)
    word = word.replace("_", "").replace(",", ".")
    if form is FLOAT:
        return word if FLOAT.fullmatch(word) else None
    return decimal_text(Fraction(word)) if WITH_EXPONENT.fullmatch(word) else None


def suggestion(word: str, allowed: Sequence[str]) -> str | None:
    """Which of the allowed words a word may stand for."""
    word = word.lower()
    for known in allowed:
        if word == known or word in MEANT.get(known, "").split():
            return known
    return next(iter(difflib.get_close_matches(word, allowed, 1)), None)
