"""What a picture is drawn with: widths of texts, SVG elements, scales.

A picture names no font but `sans-serif`, so a text's width isn't known when it is drawn. The widths
here are upper bounds: of each character the wider of Helvetica and DejaVu Sans.
"""

from __future__ import annotations

import math
from fractions import Fraction
from itertools import accumulate
from typing import Iterable, Sequence
from xml.sax.saxutils import escape, quoteattr

# Widths for a font size of 1; a bold character is at most BOLD times as wide.
WIDTHS = {
    character: width
    for width, characters in (
        (0.34, " '|/\\.,ijlI"),
        (0.37, "-:;"),
        (0.41, "()[]!f"),
        (0.44, "rt"),
        (0.50, "\"*`°J"),
        (0.56, "_?csz"),
        (0.60, "kvxyL"),
        (0.64, "0123456789$abdeghnopqu{}FT"),
        (0.69, "ABEKPSVXYZ"),
        (0.79, "&CDGHNOQRU"),
        (0.84, "+<=>^~#w≤≥"),
        (1.02, "%@mMW…"),
    )
    for character in characters
}
OTHER_WIDTH = 1.1
BOLD = 1.13
BREAKS = " _-./"  # a row of a long text may end behind one of these


def widths(content: str, size: float = 12, bold: bool = False) -> list[float]:
    """Of each character an upper bound of its width."""
    factor = size * (BOLD if bold else 1)
    return [factor * WIDTHS.get(character, OTHER_WIDTH) for character in content]


def width(content: str, size: float = 12, bold: bool = False) -> float:
    """An upper bound of a text's width."""
    return sum(widths(content, size, bold))


def fitting(content: str, room: float, size: float = 12, bold: bool = False) -> int:
    """How many characters of a text have room."""
    return sum(1 for end in accumulate(widths(content, size, bold)) if end <= room)


def cut(content: str, room: float, size: float = 12, bold: bool = False) -> str:
    """The text where it has room, and otherwise its start with an ellipsis."""
    if width(content, size, bold) <= room:
        return content
    kept = fitting(content, room - width("…", size, bold), size, bold)
    return content[:kept].rstrip() + "…"


def wrapped(
    content: str, room: float, most: int, size: float = 12, bold: bool = False
) -> list[str]:
    """The text in at most that many rows, each broken in its second half where that can be."""
    rows: list[str] = []
    while len(rows) < most - 1 and width(content, size, bold) > room:
        end = fitting(content, room, size, bold)
        if content[end] != " ":
            breaks = (i + 1 for i in range(end // 2, end) if content[i] in BREAKS)
            end = max(breaks, default=end)
        rows.append(content[:end].rstrip())
        content = content[end:].lstrip()
    return [*rows, cut(content, room, size, bold)]


# Elements


def element(tag: str, content: str = "", **attributes: object) -> str:
    """One element; an underscore in an attribute's name stands for a hyphen."""
    words = [tag]
    for name, value in attributes.items():
        shown = f"{value:.1f}".removesuffix(".0") if isinstance(value, float) else str(value)
        words.append(f"{name.replace('_', '-')}={quoteattr(shown)}")
    opened = " ".join(words)
    return f"<{opened}>{content}</{tag}>" if content else f"<{opened}/>"


def text(
    x: float, y: float, content: str, size: int = 12, bold: str = "", behind: str = "",
    whole: str = "", **attributes: object,
) -> str:
    """A text, with a part in bold and one behind that, and with the whole where it is cut."""
    inner = element("title", escape(whole)) if whole not in ("", content + bold + behind) else ""
    inner += escape(content)
    inner += element("tspan", escape(bold), font_weight="bold") if bold else ""
    inner += escape(behind)
    return element("text", inner, x=float(x), y=float(y), font_size=size, **attributes)


def fitted(x: float, y: float, content: str, room: float, **attributes: object) -> str:
    """A text that is cut where it has no room."""
    return text(x, y, cut(content, room), whole=content, **attributes)


def segment(x1: float, y1: float, x2: float, y2: float, **attributes: object) -> str:
    ends = {"x1": x1, "y1": y1, "x2": x2, "y2": y2}
    return element("line", **{name: float(value) for name, value in ends.items()}, **attributes)


def path(points: Iterable[tuple[float, float]], closed: bool = False, **attributes: object) -> str:
    tag = "polygon" if closed else "polyline"
    joined = " ".join(f"{x:.1f},{y:.1f}" for x, y in points)
    return element(tag, points=joined, **attributes)


# Scales


def nice_step(span: Fraction, most: int, least: Fraction | int = 0) -> Fraction:
    """The least of 1, 2, 5 times any power of ten that divides the span into at most so many parts.

    It is not below `least`.
    """
    wanted = max(Fraction(span) / most, least)
    unit = Fraction(1)
    while unit > wanted:
        unit /= 10
    while 10 * unit <= wanted:
        unit *= 10
    return next(factor * unit for factor in (1, 2, 5, 10) if factor * unit >= wanted)


def ticks(
    low: Fraction | int, high: Fraction | int, most: int, least: Fraction | int = 0
) -> list[Fraction]:
    """Round numbers from low to high, exactly; `least` is the least distance between them."""
    step = nice_step(high - low, most, least)
    return [step * i for i in range(math.ceil(low / step), math.floor(high / step) + 1)]


class Scale:
    """From values, which are exact, to places on the page."""

    def __init__(
        self, low: Fraction | int, high: Fraction | int, start: float, end: float
    ) -> None:
        self.low, self.high, self.start, self.end = Fraction(low), Fraction(high), start, end

    def __call__(self, value: Fraction | int) -> float:
        share = (value - self.low) / (self.high - self.low)
        return self.start + float(share) * (self.end - self.start)

    def shows(self, value: Fraction | int) -> bool:
        return self.low <= value <= self.high


def spread(places: Sequence[float], low: float, high: float, space: float) -> list[float]:
    """The places, in order, moved apart so that there is this space between them."""
    moved: list[float] = []
    for place in places:
        least = moved[-1] + space if moved else low
        moved.append(max(place, least))
    most = high
    for i in reversed(range(len(moved))):
        moved[i] = min(moved[i], most)
        most = moved[i] - space
    return moved
