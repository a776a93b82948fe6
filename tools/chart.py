#!/usr/bin/env python3
"""Draw a listing as an SVG picture.

    chart.py LISTING [-o OUT.svg] [--model MODEL]

Each direction has a panel: its bound and its bound - slack over the steps, and the slack by itself
below. Where two directions are the highest and the lowest of the same they share a panel, which
shows the tube between them. The largest bound is marked and told, and of each guard how far its
level is from the largest value, as far as that is certain; all of this is rounded outward, with the
decimals of `answers.Figures`. Where the matrix as it was written passes a bound, its values are
drawn too.

A listing has numbers only, so the names, the guard levels, the units and the time of a step come
from the model where one is given (its text, or packed without units and time). Line styles differ,
so that a copy in black and white can be read too. The picture has a fixed size in pixels, which
grows with the numbers beside the plots, and needs no style sheet or script.

Everything is drawn from exact fractions (`answers`); only places on the page are floats.
"""

from __future__ import annotations

import argparse
import math
import os
from dataclasses import dataclass
from fractions import Fraction
from functools import cached_property
from typing import Iterable, Sequence

import answers
import exact
import files
import listings
import pack
import quantities
from answers import REACHED_AS_WRITTEN, Direction, Figures, Guard, reached_sign
from listings import CLEAR, GROWTH, HIT, UNKNOWN, Growth, Listing, Refusal, Verdict
from svg import Scale, cut, element, fitted, path, segment, spread, text, ticks, width, wrapped

Group = tuple[Direction, ...]  # what a panel shows: the upper and the lower of a tube, or one alone
Time = tuple[Fraction, str]  # how long a step takes, and in which unit

# The least margins left and right of the plots, and what they have beside numbers and labels.
LEFT, RIGHT_MARGIN = 92, 308
TURNED_LABEL, TICK_GAP, LEADER = 28, 8, 14
PLOT_WIDTH, PLOT_HEIGHT, TUBE_HEIGHT, STRIP_HEIGHT, STRIP_GAP = 600, 220, 300, 44, 12
BELOW_STRIP = 58
GROWTH_HEIGHT = 60
LABEL_SPACE = 16
NOTE_ROW = 17
TIME_ROW, TIME_ROOM = 15, 280
NAME_ROOM = 200  # for a guard's name
HEADING_ROWS = 3
MARGIN = 16
SAMPLE = 34  # the length of a stroke in the legend
LEGEND_ROW = 22
DIAMOND, ARROW_HEAD = 5.0, 6.0
LEAST_ARROW = 2.0  # a shorter one is not drawn
TICK_SPACE = 36  # between two numbers of the value axis, about

INK, FAINT, BAND, TUBE, LOWER_INK = "#000000", "#d0d0d0", "#c9d7ea", "#f0f4fa", "#1a56b0"
# Colour and dashes of a guard's level, by its verdict.
GUARD_STYLE = {
    HIT: ("#b00020", "10 3 2 3"),
    UNKNOWN: ("#8a5a00", "6 4"),
    CLEAR: ("#17692b", "2 3"),
    GROWTH: ("#555555", "2 3"),
    REACHED_AS_WRITTEN: ("#b00020", "1 4 7 4"),
}
REACHED = "REACHED as written"  # the verdict as it is told where only the matrix as written does so


# Strokes and marks


def bound_stroke(lower: bool) -> dict[str, object]:
    """The stroke of the bound, or of bound - slack."""
    if lower:
        return {"fill": "none", "stroke": LOWER_INK, "stroke_width": 1.5, "stroke_dasharray": "5 3"}
    return {"fill": "none", "stroke": INK, "stroke_width": 2.2}


def slack_stroke(turned: bool) -> dict[str, object]:
    """The stroke of a slack by itself: as the bound's, or of the lower one of a tube, dashed."""
    return bound_stroke(turned) | {"stroke_width": 1.2}


def guard_stroke(word: str) -> dict[str, object]:
    colour, dashes = GUARD_STYLE[word]
    return {"stroke": colour, "stroke_width": 1.5, "stroke_dasharray": dashes}


def written_stroke() -> dict[str, object]:
    """The stroke of values as written."""
    return {"fill": "none", "stroke": "#b00020", "stroke_width": 1.2, "stroke_dasharray": "1 2"}


def guard_mark(word: str, x: float, y: float) -> str:
    """A full circle for what is reached, an open one for UNKNOWN, nothing for CLEAR."""
    if word not in (HIT, UNKNOWN, REACHED_AS_WRITTEN):
        return ""
    colour = GUARD_STYLE[word][0]
    fill = "#ffffff" if word == UNKNOWN else colour
    stroke = {"stroke": colour, "stroke_width": 2}
    return element("circle", cx=float(x), cy=float(y), r=5, fill=fill, **stroke)


def peak_mark(x: float, y: float) -> str:
    """A diamond."""
    corners = [(x, y - DIAMOND), (x + DIAMOND, y), (x, y + DIAMOND), (x - DIAMOND, y)]
    return path(corners, closed=True, fill=INK, stroke="#ffffff")


def arrow(x: float, start: float, end: float) -> Iterable[str]:
    """A thin vertical arrow with a head at either end."""
    yield segment(x, start, x, end, stroke=INK, stroke_width=1)
    head = math.copysign(min(ARROW_HEAD, abs(end - start) / 3), end - start)
    for tip, back in ((start, start + head), (end, end - head)):
        corners = [(x - head / 2, back), (x, tip), (x + head / 2, back)]
        yield path(corners, closed=True, fill=INK)


# What is told


@dataclass(frozen=True)
class Curve:
    """A direction as it is drawn: as it is, or turned round as the lower one of a tube."""

    direction: Direction
    turned: bool = False

    def placed(self, value: Fraction) -> Fraction:
        """A value of the direction as one of the panel's axis, or the other way."""
        return -value if self.turned else value

    @cached_property
    def figures(self) -> Figures:
        return Figures(self.direction)

    @cached_property
    def bounds(self) -> list[Fraction]:
        return [self.placed(value) for value in self.direction.bounds]

    @cached_property
    def lows(self) -> list[Fraction]:
        """The bounds without their slacks."""
        return [self.placed(value) for value in self.direction.lows]

    @cached_property
    def slacks(self) -> list[Fraction]:
        return [abs(bound - low) for bound, low in zip(self.bounds, self.lows)]

    def level(self, guard: Guard) -> Fraction:
        return self.placed(self.direction.level(guard))

    @cached_property
    def written(self) -> list[Fraction]:
        """The values of the matrix as written, where they pass a bound."""
        steps = range(len(self.bounds)) if self.figures.above else ()
        return [self.placed(self.figures.written(step)) for step in steps]

    def amount(self, value: Fraction) -> str:
        """A figure with its unit, where that has a name."""
        number = quantities.told(value, self.figures.places)
        return number if self.direction.unit is None else f"{number} {self.direction.unit_name}"

    @property
    def peak_told(self) -> str:
        """The largest bound, of a turned one the lowest value, rounded outward."""
        return self.amount(self.placed(self.figures.bound(self.direction.peak)))

    @property
    def slack_told(self) -> str:
        return self.amount(self.figures.largest_slack)

    def margin_told(self, guard: Guard) -> str:
        """How far the level certainly is from the largest value; nothing where it isn't certain.

        Of a CLEAR guard how far above it, of one that is HIT how far below it.
        """
        least, most = self.figures.margin(guard)
        margin = {CLEAR: least, HIT: -most}.get(self.figures.word(guard))
        return "" if margin is None else f", by {self.amount(margin)}"


@dataclass(frozen=True)
class Label:
    """What is told of a guard: its name and level, its verdict, and its margin."""

    name: str
    level: str
    said: str
    margin: str

    @property
    def shown(self) -> str:
        """What stands before the verdict."""
        return f"{cut(self.name, NAME_ROOM)}: {self.level} "

    @property
    def whole(self) -> str:
        return f"{self.name}: {self.level} {self.said}{self.margin}"

    @property
    def width(self) -> float:
        return width(self.shown) + width(self.said, bold=True) + width(self.margin)


@dataclass(frozen=True)
class Panel:
    """What is told of one direction, or of the two of a tube, the upper one first."""

    heading: str
    curves: tuple[Curve, ...]

    @property
    def growth(self) -> Growth | None:
        swept = self.curves[0].direction.swept
        return swept if isinstance(swept, Growth) else None

    @property
    def tube(self) -> bool:
        return len(self.curves) > 1

    @property
    def unit_name(self) -> str:
        return self.curves[0].direction.unit_name

    @cached_property
    def guards(self) -> list[tuple[Curve, Guard]]:
        """The guards in the order of their levels, from the top."""
        pairs = [(curve, guard) for curve in self.curves for guard in curve.direction.guards]
        return sorted(pairs, key=lambda pair: -pair[0].level(pair[1]))

    @cached_property
    def span(self) -> tuple[Fraction, Fraction]:
        """What the value axis shows: all bounds, and the levels that are not far off.

        It has the room of one count at the least.
        """
        values = [value for curve in self.curves
                  for value in (*curve.bounds, *curve.lows, *curve.written)]
        low, high = min(values), max(values)
        count = self.curves[0].direction.figure(1)
        near = max(high - low, count)
        levels = [curve.level(guard) for curve, guard in self.guards]
        shown = [level for level in levels if low - near <= level <= high + near]
        low, high = min([low, *shown]), max([high, *shown])
        pad = max((high - low) * Fraction(6, 100), (count - (high - low)) / 2)
        return low - pad, high + pad

    @property
    def height(self) -> int:
        """That of its plot."""
        return TUBE_HEIGHT if self.tube else PLOT_HEIGHT

    @cached_property
    def values(self) -> list[Fraction]:
        """The round numbers of the value axis; whole ones where all bounds are whole."""
        whole = all(curve.direction.counts * curve.direction.factor == 1 for curve in self.curves)
        return ticks(*self.span, self.height // TICK_SPACE, 1 if whole else 0)

    @cached_property
    def slacks(self) -> dict[Fraction, str]:
        """The numbers of the strip: zero, and the largest slack as it is told."""
        curve = max(self.curves, key=lambda curve: max(curve.slacks))
        largest = quantities.told(curve.figures.largest_slack, curve.figures.places)
        return {Fraction(0): "0"} | ({max(curve.slacks): largest} if any(curve.slacks) else {})

    def label(self, curve: Curve, guard: Guard) -> Label:
        """`resets: < 21,000 mV CLEAR, by 489 mV`, with `(off scale)` behind a level that is."""
        level, margin = curve.level(guard), ""
        unit = "" if curve.direction.unit is None else f" {curve.direction.unit_name}"
        told = f"{reached_sign(curve.turned)} {quantities.exactly(level)}{unit}"
        if self.growth is None:
            margin = curve.margin_told(guard)
            told += "" if self.span[0] <= level <= self.span[1] else " (off scale)"
        said = REACHED if curve.figures.word(guard) == REACHED_AS_WRITTEN else str(guard.said)
        return Label(guard.label, told, said, margin)

    @property
    def note(self) -> str:
        """What the heading has on the right: the factor, or the spare figure of a plain listing."""
        notes = []
        for direction in (curve.direction for curve in self.curves):
            if direction.factor > 1:
                notes.append(f"factor {direction.factor:,}")
            elif not isinstance(direction.swept, Growth):
                notes.append(f"spare {direction.swept.spare}")
        return ", ".join(dict.fromkeys(notes))


def numbers(values: Sequence[Fraction]) -> list[str]:
    """Decimals, all with as many places as they need."""
    places = max(quantities.exact_places(value) for value in values)
    return [quantities.told(value, places) for value in values]


# Panels and pages


def makes_tube(one: Direction, other: Direction) -> bool:
    """Whether two directions are the highest and the lowest of the same, and swept."""
    pair = one, other
    known = all(any(each.entries) and not isinstance(each.swept, Growth) for each in pair)
    return known and answers.opposite(*pair)


def panels(directions: Sequence[Direction]) -> list[Group]:
    """The directions as panels show them: the upper and the lower one of a tube, or one alone.

    Each pairs with the first one that it can, and the tube stands where the first of the two does.
    """
    found: list[Group] = []
    left = list(directions)
    while left:
        one = left.pop(0)
        pair = [one, *[other for other in left if makes_tube(one, other)][:1]]
        left = [other for other in left if other is not pair[-1]]
        # The first entry that isn't zero is positive in the upper one and negative in the other.
        found.append(tuple(sorted(pair, key=lambda each: each.entries, reverse=True)))
    return found


def panel_of(group: Group, coordinates: Sequence[str]) -> Panel:
    """A panel with its heading: `hottest = element`, of a tube `highest, lowest: rail`."""
    names = ", ".join(direction.name for direction in group)
    told = answers.expression(group[0].coefficients or (), coordinates)
    if len(group) > 1 and not told:
        return Panel(names, tuple(map(Curve, group, (False, True))))
    if len(group) > 1:
        return Panel(f"{names}: {told}", tuple(map(Curve, group, (False, True))))
    return Panel(names if told in ("", names) else f"{names} = {told}", (Curve(group[0]),))


@dataclass(frozen=True)
class Page:
    """What all panels share: the time of a step, and the places of plots and guard labels."""

    time: Time | None
    left: int
    room: int  # for a guard's label

    @property
    def right(self) -> int:
        return self.left + PLOT_WIDTH

    @property
    def labels(self) -> int:
        return self.right + LEADER + LABEL_SPACE

    @property
    def width(self) -> int:
        return self.labels + self.room + MARGIN

    def time_at(self, step: int) -> str:
        return "" if self.time is None else quantities.exactly(step * self.time[0])


def page_of(shown: Sequence[Panel], time: Time | None = None) -> Page:
    """Margins that hold the widest number on the left and the widest guard label on the right."""
    swept = [panel for panel in shown if panel.growth is None]
    told = [number for panel in swept for number in numbers(panel.values)]
    told += [number for panel in swept for number in panel.slacks.values()]
    labels = [panel.label(*pair).width for panel in shown for pair in panel.guards]
    left = max(LEFT, TURNED_LABEL + math.ceil(max(map(width, told), default=0)) + TICK_GAP)
    least = RIGHT_MARGIN - LEADER - LABEL_SPACE - MARGIN
    return Page(time, left, max(least, math.ceil(max(labels, default=0))))


# Parts of a panel


def heading(page: Page, y: float, content: str, size: int, note: str) -> tuple[list[str], float]:
    """A heading in bold with a note on the right, and how far its further rows reach down."""
    room = PLOT_WIDTH - (width(note) + LABEL_SPACE if note else 0)
    rows = wrapped(content, room, HEADING_ROWS, size, bold=True)
    space = 1.25 * size
    parts = [
        text(page.left, y + space * index, row, size, whole=content, font_weight="bold")
        for index, row in enumerate(rows)
    ]
    if note:
        parts.append(text(page.right, y, note, text_anchor="end"))
    return parts, space * (len(rows) - 1)


def peak_row(page: Page, y: float, panel: Panel, curve: Curve) -> Iterable[str]:
    """`peak 24,650 mV at step 56 (70 ms)` behind the mark of a peak.

    In a tube, which has two lines of slacks, the largest slack and its stroke stand on the right.
    """
    start, end = page.left + 2 * DIAMOND + 6, float(page.right)
    what, value = "lowest " if curve.turned else "peak ", curve.peak_told
    told = start + width(what) + width(value, bold=True)
    if panel.tube:
        end -= SAMPLE + 6
        yield segment(end + 6, y - 4, page.right, y - 4, **slack_stroke(curve.turned))
        slack = f"slack up to {curve.slack_told}"
        shown = cut(slack, end - told - LABEL_SPACE)
        yield text(end, y, shown, whole=slack, text_anchor="end")
        end -= width(shown) + LABEL_SPACE
    step = curve.direction.peak
    time = "" if page.time is None else f" ({page.time_at(step)} {page.time[1]})"
    behind = f" at step {step}{time}"
    room = end - told
    yield peak_mark(page.left + DIAMOND, y - 4)
    yield text(start, y, what, bold=value, behind=cut(behind, room), whole=what + value + behind)


def guard_label(page: Page, label: Label, word: str, y: float) -> str:
    """A guard's level, verdict and margin."""
    more = {"bold": label.said, "behind": label.margin, "whole": label.whole}
    return text(page.labels, y, label.shown, **more, fill=GUARD_STYLE[word][0])


def guard_parts(page: Page, panel: Panel, x: Scale, y: Scale, bottom: float) -> Iterable[str]:
    """Levels across the plot, marks at the steps named, and labels to the right."""
    levels = [curve.level(guard) for curve, guard in panel.guards]
    places = [min(max(y(level), y.end), y.start) for level in levels]
    labels = spread(places, y.end + 4, bottom, LABEL_SPACE)
    end, marks = page.right + LEADER, []
    for (curve, guard), level, place, label in zip(panel.guards, levels, places, labels):
        word, step = curve.figures.word(guard), guard.said.step
        if word == REACHED_AS_WRITTEN:
            step = curve.figures.reached_as_written(guard)
        colour = GUARD_STYLE[word][0]
        if y.shows(level):
            yield segment(page.left, place, page.right, place, **guard_stroke(word))
            leader = [(page.right, place), (end, label), (end + 12, label)]
            yield path(leader, fill="none", stroke=colour, stroke_width=0.8)
            marks += [] if step is None else [guard_mark(word, x(step), place)]
        else:
            rise = 5 if level > y.high else -5
            corners = [(end + 2, label + rise), (end + 10, label + rise), (end + 6, label - rise)]
            yield path(corners, closed=True, fill=colour)
        yield guard_label(page, panel.label(curve, guard), word, label + 4)
    yield from marks


def peak_parts(curve: Curve, x: Scale, y: Scale) -> Iterable[str]:
    """The mark of a curve's peak, and an arrow from it to the nearest level.

    The arrow is as long as the margin that is told: an UNKNOWN level has none, and one that is HIT
    only where the slack can't be seen. Nor has a level that is off the scale or at the mark. Where
    a CLEAR level is at the mark, there is no arrow: one to the next level would show more than the
    smallest margin.
    """
    direction, step = curve.direction, curve.direction.peak
    place = y(curve.bounds[step])
    seen = abs(y(curve.placed(direction.largest_low)) - place) > LEAST_ARROW
    words = (CLEAR,) if seen else (CLEAR, HIT)
    levels = [(curve.level(guard), curve.figures.word(guard)) for guard in direction.guards]
    shown = [(y(level), word) for level, word in levels if word in words and y.shows(level)]
    near = {word for each, word in shown if abs(each - place) < DIAMOND + LEAST_ARROW}
    far = [each for each, _ in shown if abs(each - place) >= DIAMOND + LEAST_ARROW]
    if far and CLEAR not in near:
        nearest = min(far, key=lambda each: abs(each - place))
        yield from arrow(x(step), place + math.copysign(DIAMOND, nearest - place), nearest)
    yield peak_mark(x(step), place)


def step_ticks(page: Page, steps: int) -> list[int]:
    """Round steps, as many as have room for their times beside each other; at the least two."""
    for most in (12, 6, 4, 3):
        values = [int(value) for value in ticks(0, steps, most, 1)]
        widest = max(width(cut(page.time_at(value), TIME_ROOM)) for value in values)
        if widest + TICK_GAP <= PLOT_WIDTH * values[1] / steps:
            return values
    return [0, steps]


def step_axis(page: Page, x: Scale, y: Scale, bottom: float) -> Iterable[str]:
    """The steps and their times below the strip, with a grid over the plot."""
    middle = {"text_anchor": "middle"}
    for value in step_ticks(page, int(x.high)):
        yield segment(x(value), y.end, x(value), y.start, stroke=FAINT, stroke_width=1)
        yield segment(x(value), bottom, x(value), bottom + 5, stroke=INK)
        yield text(x(value), bottom + 18, str(value), **middle)
        if page.time is not None:
            yield fitted(x(value), bottom + 18 + TIME_ROW, page.time_at(value), TIME_ROOM, **middle)
    label, below = "step", bottom + 36
    if page.time is not None:
        label, below = f"step, and time in {page.time[1]}", below + TIME_ROW
    yield fitted((page.left + page.right) / 2, below, label, PLOT_WIDTH, **middle)


def value_axis(
    page: Page, scale: Scale, told: Iterable[tuple[Fraction, str]], label: str
) -> Iterable[str]:
    """The frame of the plot or of the strip, with numbers and a turned label to the left."""
    height = scale.start - scale.end
    for value, number in told:
        yield text(page.left - TICK_GAP, scale(value) + 4, number, text_anchor="end")
    yield element("rect", x=page.left, y=float(scale.end), width=PLOT_WIDTH, height=float(height),
                  fill="none", stroke=INK)
    turned = f"translate(20 {scale.end + height / 2:.1f}) rotate(-90)"
    yield fitted(0, 0, label, height, text_anchor="middle", transform=turned)


def points(x: Scale, y: Scale, values: Sequence[Fraction]) -> list[tuple[float, float]]:
    """The places of the values of all steps."""
    return [(x(step), y(value)) for step, value in enumerate(values)]


def curve_parts(curve: Curve, x: Scale, y: Scale) -> Iterable[str]:
    """The bounds, and the bounds without their slacks."""
    bounds, lows = points(x, y, curve.bounds), points(x, y, curve.lows)
    yield path(bounds + lows[::-1], closed=True, fill=BAND)
    yield path(bounds, **bound_stroke(lower=False))
    yield path(lows, **bound_stroke(lower=True))
    if curve.written:
        yield path(points(x, y, curve.written), **written_stroke())
    if len(bounds) <= 41:
        for place_x, place_y in bounds:
            yield element("circle", cx=place_x, cy=place_y, r=2.5, fill=INK)


def strip_parts(panel: Panel, x: Scale, strip: Scale) -> Iterable[str]:
    """The slacks by themselves."""
    for curve in panel.curves:
        slacks = points(x, strip, curve.slacks)
        if not curve.turned:
            ends = (x.start, strip.start), (x.end, strip.start)
            yield path([ends[0], *slacks, ends[1]], closed=True, fill=BAND)
        yield path(slacks, **slack_stroke(curve.turned))


# Panels


def sweep_panel(page: Page, top: float, panel: Panel) -> tuple[list[str], float]:
    """The panel of a swept direction or of a tube, below its heading, and where it ends."""
    strip_top = top + panel.height + STRIP_GAP
    bottom = strip_top + STRIP_HEIGHT
    x = Scale(0, len(panel.curves[0].bounds) - 1, page.left, page.right)
    y = Scale(*panel.span, strip_top - STRIP_GAP, top)
    strip = Scale(0, Fraction(115, 100) * (max(panel.slacks) or 1), bottom, strip_top)
    parts: list[str] = []
    if panel.tube:
        upper, lower = (points(x, y, curve.bounds) for curve in panel.curves)
        parts.append(path(upper + lower[::-1], closed=True, fill=TUBE))
    for value in panel.values:
        across = page.left, y(value), page.right, y(value)
        parts.append(segment(*across, stroke=FAINT, stroke_width=1))
    parts += step_axis(page, x, y, bottom)
    parts += value_axis(page, y, zip(panel.values, numbers(panel.values)), panel.unit_name)
    parts += value_axis(page, strip, panel.slacks.items(), "slack")
    for curve in panel.curves:
        parts += curve_parts(curve, x, y)
    parts += strip_parts(panel, x, strip)
    parts += guard_parts(page, panel, x, y, bottom - 4)
    for curve in panel.curves:
        parts += peak_parts(curve, x, y)
    return parts, bottom + BELOW_STRIP + (0 if page.time is None else TIME_ROW)


def growth_panel(page: Page, top: float, panel: Panel, step: int) -> tuple[list[str], float]:
    """The panel of a direction refused for growth, below its heading, and where it ends."""
    middle = (page.left + page.right) / 2
    reason = "its working direction passes the limit there: no bounds are given"
    parts = [
        element("rect", x=page.left, y=float(top), width=PLOT_WIDTH, height=GROWTH_HEIGHT,
                fill="#f2f2f2", stroke=INK),
        text(middle, top + 26, f"refused for growth at step {step}", 14, text_anchor="middle",
             font_weight="bold"),
        text(middle, top + 46, reason, text_anchor="middle"),
    ]
    for index, pair in enumerate(panel.guards):
        label = panel.label(*pair)
        parts.append(guard_label(page, label, GROWTH, top + 14 + LABEL_SPACE * index))
    return parts, top + max(GROWTH_HEIGHT + 20, 24 + LABEL_SPACE * len(panel.guards))


def panel_parts(page: Page, top: float, panel: Panel) -> tuple[list[str], float]:
    """A panel with its heading, and where the next one starts."""
    parts, more = heading(page, top + 20, panel.heading, 15, panel.note)
    top += more
    if panel.growth is not None:
        below, end = growth_panel(page, top + 30, panel, panel.growth.step)
        return parts + below, end
    for curve in panel.curves:
        top += NOTE_ROW
        parts += peak_row(page, top + 22, panel, curve)
    below, end = sweep_panel(page, top + 32, panel)
    return parts + below, end


def legend(
    page: Page, y: float, with_levels: bool, directions: Sequence[Direction] = ()
) -> tuple[list[str], float]:
    """What the strokes and marks mean, and where the last row is.

    Strokes of the matrix as written are told only where these directions have one.
    """
    figures = [Figures(one) for one in directions]
    words = {one.word(guard) for one in figures for guard in one.direction.guards}
    parts: list[str] = []
    x = float(page.left)

    def item(name: str, room: float, *drawn: str) -> None:
        nonlocal x
        parts.extend([*drawn, text(x + room + 6, y + 4, name)])
        x += room + 6 + width(name) + 24

    for lower, name in ((False, "bound"), (True, "bound - slack")):
        item(name, SAMPLE, segment(x, y, x + SAMPLE, y, **bound_stroke(lower)))
    if any(one.above for one in figures):
        item("as written", SAMPLE, segment(x, y, x + SAMPLE, y, **written_stroke()))
    item("peak: the largest bound", 2 * DIAMOND, peak_mark(x + DIAMOND, y))
    if with_levels:
        item("margin: how far a level is from the peak", 8, *arrow(x + 4, y - 9, y + 9))
        x, y = float(page.left), y + LEGEND_ROW
        told = {HIT: HIT, UNKNOWN: UNKNOWN, CLEAR: CLEAR}
        for word, name in (told | {word: REACHED for word in words & {REACHED_AS_WRITTEN}}).items():
            line = segment(x, y, x + SAMPLE, y, **guard_stroke(word))
            item(f"guard level, {name}", SAMPLE, line, guard_mark(word, x + SAMPLE / 2, y))
    return parts, y


def guard_rows(page: Page, top: float, guards: Sequence[Verdict]) -> Iterable[str]:
    """The verdicts by themselves: without the model neither levels nor directions are known."""
    told = [f"guard {i} {said}" for i, said in enumerate(guards)]
    for row in range(0, len(told), 4):
        yield text(page.left, top + 8 + LABEL_SPACE * row / 4, "; ".join(told[row : row + 4]))


# Pictures


def picture(page: Page, parts: Iterable[str], bottom: float) -> str:
    """Parts as an SVG picture with a white background."""
    height = round(bottom)
    background = element("rect", width=page.width, height=height, fill="#ffffff")
    return element(
        "svg",
        "\n" + "\n".join(part for part in [background, *parts] if part) + "\n",
        xmlns="http://www.w3.org/2000/svg",
        width=page.width,
        height=height,
        viewBox=f"0 0 {page.width} {height}",
        font_family="sans-serif",
    ) + "\n"


def draw(
    directions: Sequence[Direction],
    coordinates: Sequence[str],
    steps: int,
    title: str,
    time: Time | None = None,
    with_levels: bool = True,
    verdicts: Sequence[Verdict] = (),
) -> str:
    """The picture of directions with their guards: a title, a legend and the panels.

    Without levels the legend has none; verdicts of guards that are not known stand at the end.
    """
    shown = [panel_of(group, coordinates) for group in panels(directions)]
    page = page_of(shown, time)
    n = len(coordinates)
    size = f"{n} coordinate{'s' if n > 1 else ''}, steps 0 to {steps}"
    parts, more = heading(page, 30, title, 18, size)
    below, top = legend(page, 58 + more, with_levels, directions)
    parts += below
    top += 26
    for panel in shown:
        below, top = panel_parts(page, top, panel)
        parts += below
    rows = list(guard_rows(page, top, verdicts))
    return picture(page, parts + rows, top + LABEL_SPACE * len(rows) + MARGIN)


def draw_panels(
    groups: Sequence[Group], coordinates: Sequence[str], time: Time | None = None
) -> list[str]:
    """The pictures of panels, of each one by itself, all with the same margins."""
    shown = [panel_of(group, coordinates) for group in groups]
    page = page_of(shown, time)
    return [picture(page, *panel_parts(page, 0, panel)) for panel in shown]


def draw_legend(with_levels: bool = True, directions: Sequence[Direction] = ()) -> str:
    """The picture of the legend alone, for these directions."""
    page = page_of([])
    parts, bottom = legend(page, 16, with_levels, directions)
    return picture(page, parts, bottom + 16)


# Listings


def check_same(listing: Listing, source: pack.Source) -> None:
    """A failure where the listing is not of this model, as far as can be told without a sweep."""
    model = source.model
    shape = (model.n, model.steps, len(model.directions), len(model.guards))
    if shape != (listing.n, listing.steps, len(listing.directions), len(listing.guards)):
        raise files.Failure("the listing is not of this model: other coordinates, steps or counts")
    for number, ((direction, level), said) in enumerate(zip(model.guards, listing.guards)):
        swept = listing.directions[direction]
        expected = exact.verdict(swept, level)
        if said != expected:
            wrong = "is not of this model"
            # Before version 0.8.0: what is said now of the level one count lower (Verdicts 5).
            if said == exact.verdict(swept, level - 1):
                wrong = ("is from before version 0.8.0, or of levels one count lower,"
                         " and must be made again")
            raise files.Failure(
                f"the listing {wrong}: it says {said} of guard {number}, whose level {level}"
                f" makes it {expected}"
            )


def draw_listing(listing: Listing, title: str, source: pack.Source | None = None) -> str:
    """The picture of a listing; without the model it has neither names nor levels."""
    if source is not None:
        check_same(listing, source)
        shown = answers.directions_of(listing, source)
        return draw(shown, source.coordinates, listing.steps, title, source.time)
    nameless = [
        Direction(number, f"direction {number}", (), swept)
        for number, swept in enumerate(listing.directions)
    ]
    names = [""] * listing.n
    return draw(nameless, names, listing.steps, title, with_levels=False, verdicts=listing.guards)


def chart(path: str, model_path: str | None = None) -> str:
    """The picture of the listing at a path; a refused listing is a failure."""
    name = files.shown(path)
    listing = listings.parse(files.text_of(files.read_bytes(path), name), name)
    if isinstance(listing, Refusal):
        reason = exact.REASONS.get(listing.number, "a number that no file is refused by")
        raise files.Failure(
            f"{name}: nothing to draw: refused {listing.number} at {listing.offset}: {reason}"
        )
    source = None if model_path is None else pack.load(model_path)
    return draw_listing(listing, os.path.splitext(os.path.basename(name))[0], source)


def main() -> None:
    parser = argparse.ArgumentParser(description="Draw a listing as an SVG picture.")
    parser.add_argument("listing", help="- is standard input")
    parser.add_argument("-o", dest="to", metavar="OUT.svg", help="standard output without it")
    parser.add_argument("--model", help="the model, as a text or packed: names, levels, units")
    options = parser.parse_args()
    files.write_bytes(options.to, chart(options.listing, options.model).encode("utf-8"))


if __name__ == "__main__":
    files.run(main)
