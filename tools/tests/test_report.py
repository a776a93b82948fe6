"""The parts of a report, with the exact program in the place of the proved one.

What `./report` prints is tested from outside in `tests/report.py`, and the page in a browser in
`tests/page.py`.
"""

import collections
import csv
import io
import itertools
import json
import os
import random
import re
import unittest
from dataclasses import replace
from decimal import Decimal
from fractions import Fraction
from html.parser import HTMLParser

import helpers  # noqa: F401  the way to the tools

import exact
import examples
import files
import listings
import models
import pack
import quantities
from answers import REACHED_MEANS, Direction, Figures, Guard
from answers import Written as Values
from inputs import NOT_RUN, REFUSED, Failed, Input
from layout import MAX_DIRECTION_ENTRY, MAX_DIRECTIONS, MAX_LEVEL, MIN_LEVEL, encode
from listings import Growth, Refusal, Sweep, Verdict
from reporting import batch, changes, data, page, reports, sharpen, tables, terminal, words
from reporting.reports import ALL_CLEAR, NOT_CLEAR

MODEL = """\
coordinates value
steps {steps}
row {entry}
initial box
  lower {lower}
  upper {upper}
input box
  lower 0
  upper {more}
"""


def text(*rows, entry="0.5", lower=0, upper=0, more=1, steps=3):
    """A text of one coordinate with these rows behind it."""
    start = MODEL.format(entry=entry, lower=lower, upper=upper, more=more, steps=steps)
    return start + "\n".join(rows) + "\n"


def exactly(data, name):
    """The exact program's reply."""
    return listings.parse(exact.listing(data), name)


def report(content, plain=False, name="some.model"):
    """The report of a text."""
    given = Input(name, content.encode(), pack.parse(content, name))
    return reports.report_of(given, plain, exactly)


def example(name, plain=False):
    return report((examples.FOLDER / f"{name}.model").read_text(encoding="utf-8"), plain)


class Factors(unittest.TestCase):
    """The largest factor that the entries and the program allow."""

    def found(self, directions, allowed):
        """The factors where `allowed` says which multiples are swept, and what was tried."""
        tried = []

        def swept(multiples):
            self.assertTrue(1 <= len(multiples) <= MAX_DIRECTIONS)
            tried.append(multiples)
            for entries in multiples:
                self.assertLessEqual(max(map(abs, entries)), MAX_DIRECTION_ENTRY)
            return [Sweep(0, (), ()) if allowed(entries) else Growth(1) for entries in multiples]

        return sharpen.largest_factors(directions, swept), tried

    def test_the_limit_of_the_entries(self):
        directions = [(1, 0), (-7, 3), (1000, -1), (500, 501), (0, -333)]
        factors, tried = self.found(directions, lambda _: True)
        self.assertEqual(factors, [1000, 142, 1, 1, 3])
        self.assertEqual(len(tried), 1)

    def test_growth(self):
        factors, _ = self.found([(1,), (2,), (-1,)], lambda entries: abs(entries[0]) <= 37)
        self.assertEqual(factors, [37, 18, 37])

    def test_a_refused_factor_says_nothing_of_smaller_ones(self):
        factors, _ = self.found([(1,)], lambda entries: entries[0] in (512, 300, 1))
        self.assertEqual(factors, [512])
        factors, _ = self.found([(1,)], lambda entries: entries[0] == 640)
        self.assertEqual(factors, [640])

    def test_where_all_are_refused_it_is_1(self):
        factors, tried = self.found([(1,), (400,)], lambda _: False)
        self.assertEqual(factors, [1, 1])
        expected = [(factor,) for factor in range(1, 1001)] + [(400,), (800,)]
        self.assertEqual(sorted(sum(tried, [])), sorted(expected))

    def test_sixteen_directions(self):
        directions = [(1 + i,) for i in range(16)]
        factors, _ = self.found(directions, lambda entries: entries[0] < 100)
        self.assertEqual(factors, [99 // (1 + i) for i in range(16)])

    def test_levels_are_multiplied_and_held_to_64_bits(self):
        source = pack.parse(text("direction d 1", *(f"guard d {level}" for level in (
            7, -8, MAX_LEVEL, MIN_LEVEL, MAX_LEVEL // 1000, -(MIN_LEVEL // -1000)))))
        model = sharpen.multiplied(source.model, [1000])
        self.assertEqual(model.directions, ((1000,),))
        levels = [level for _, level in model.guards]
        self.assertEqual(levels[:4], [7000, -8000, MAX_LEVEL, MIN_LEVEL])
        self.assertEqual(levels[4], MAX_LEVEL // 1000 * 1000)
        self.assertNotIsInstance(exact.read_model(encode(model)), Refusal)

    def test_a_level_at_the_end_has_its_own_verdict(self):
        for plain in (False, True):
            levels = f"guard d {MAX_LEVEL}", f"guard d {MIN_LEVEL}"
            told = report(text("direction d 1", *levels), plain)
            said = {guard.level: guard.said for _, guard in told.guards}
            self.assertEqual(said, {MAX_LEVEL: Verdict("CLEAR"), MIN_LEVEL: Verdict("HIT", 0)})

    def test_examples(self):
        """On the rail the slack falls below a millivolt, and a guard that was open is clear."""
        for plain, slack, word in ((True, 22, "UNKNOWN"), (False, Fraction("0.026"), "CLEAR")):
            rail = example("rail", plain)
            lowest = rail.figures[0]
            self.assertEqual(lowest.slack(lowest.direction.peak), slack)
            said = {guard.name: guard.said.word for _, guard in rail.guards}
            self.assertEqual(said["edge"], word)
        self.assertEqual([one.factor for one in example("rail").directions], [930, 930, 1000])
        self.assertEqual([one.factor for one in example("rail", True).directions], [1, 1, 1])

    def test_never_less_than_without_a_factor(self):
        rng = random.Random(71)
        for _ in range(60):
            model = replace(models.random_model(rng), guards=())
            if exact.check_cost(model) > 100_000:
                continue
            given = Input("file", encode(model))
            sharp, plain = (reports.report_of(given, each, exactly) for each in (False, True))
            for one, other in zip(sharp.directions, plain.directions):
                if isinstance(other.swept, Sweep):
                    self.assertLessEqual(one.largest_bound, other.largest_bound)
                    self.assertGreaterEqual(one.largest_low, other.largest_low)


class Reports(unittest.TestCase):
    def test_the_sample(self):
        """0, 1, 3/2, 7/4 are its exact values."""
        told = example("verdicts")
        (one,) = told.figures
        self.assertEqual(one.direction.bounds, (0, 1, Fraction(3, 2), Fraction(7, 4)))
        self.assertEqual((one.places, one.bound(3), one.slack(3)), (2, Fraction(7, 4), 0))
        said = [(str(guard.said), words.margin(one, guard)) for _, guard in told.guards]
        self.assertEqual(said, [("HIT 2", "passed by 0.75 counts"), ("CLEAR", "clear by 0.25 counts"),
                                ("CLEAR", "clear by 1.25 counts")])
        self.assertEqual(told.status, NOT_CLEAR)

    def test_without_a_factor_it_is_the_listing(self):
        """Bounds 0, 1, 2, 2, and 0, 1, 1, 1 without their slacks: at 1 and at 2 none is above."""
        told = example("verdicts", plain=True)
        (one,) = told.figures
        said = [(str(guard.said), words.margin(one, guard)) for _, guard in told.guards]
        between = "between 0 short and 1 count past"
        self.assertEqual(said, [("UNKNOWN 2", between), ("CLEAR", "clear by 0 counts"),
                                ("CLEAR", "clear by 1 count")])

    def test_statuses(self):
        for rows, status in (
            (["guard d 9"], ALL_CLEAR), ([], ALL_CLEAR), (["guard d 9", "guard d 1"], NOT_CLEAR),
        ):
            self.assertEqual(report(text("direction d 1", *rows)).status, status)
        grown = report(text("direction d 1", "guard d 900", entry="2", steps=40))
        self.assertEqual((grown.status, grown.guards[0][1].said.word), (NOT_CLEAR, "GROWTH"))
        for level, status, word in ((1, NOT_CLEAR, "UNKNOWN"), (2, ALL_CLEAR, "CLEAR")):
            told = report(text("direction d 1", f"guard d {level}"), plain=True)
            self.assertEqual((told.status, told.guards[0][1].said.word), (status, word))

    def test_the_worst_status(self):
        for statuses, worst in (
            ([], 0), ([0, 0], 0), ([0, 3], 3), ([3, 1], 1), ([1, 3, 2, 0], 2), ([1, 0], 1),
        ):
            self.assertEqual(reports.worst(statuses), worst)

    def test_most_urgent_first(self):
        rows = ["direction small 1", "direction large 1000", "direction free 1"]
        rows += ["guard small 9 far", "guard large 1755 near", "guard large 1000 hit-late",
                 "guard small 0 hit-early"]
        told = report(text(*rows))
        order = [guard.name for _, guard in told.guards]
        self.assertEqual(order, ["hit-early", "hit-late", "near", "far"])
        self.assertEqual([one.direction.name for one in told.ordered], ["small", "large", "free"])

    def test_places_don_t_hide_a_margin(self):
        """A margin of one hundredth of a count is told, whatever the slack is."""
        told = report(text("direction d 100", "guard d 176", more=1))
        (one,) = told.figures
        self.assertEqual(words.margin(one, told.guards[0][1]), "clear by 1 count")
        told = report(text("direction d 1", "guard d 1001", entry="~0.999", lower=0, upper=1000,
                           more=0, steps=9))
        self.assertNotRegex(words.margin(told.figures[0], told.guards[0][1]), r"by [0.]* ")

    def test_what_is_told_follows_from_what_is_proved(self):
        rng = random.Random(72)
        for _ in range(60):
            model = models.random_model(rng)
            if exact.check_cost(model) > 60_000:
                continue
            told = reports.report_of(Input("file", encode(model)), False, exactly)
            for one in told.figures:
                direction = one.direction
                for step in range(len(direction.bounds)):
                    self.assertLessEqual(direction.bounds[step], one.bound(step))
                    low = one.bound(step) - one.slack(step)
                    self.assertLessEqual(low, direction.lows[step])
                    last = Fraction(1, 10**one.places)
                    self.assertLess(one.bound(step) - direction.bounds[step], last)
                    self.assertLess(direction.lows[step] - low, last)
                for guard in direction.guards if direction.bounds else ():
                    least, most = one.margin(guard)
                    self.assertLessEqual(least, direction.margin(guard)[0])
                    self.assertGreaterEqual(most, direction.margin(guard)[1])

    def test_a_file_that_the_program_reads_otherwise_is_not_multiplied(self):
        """A program that takes each packed file for another model."""
        packed, other = (pack.parse(text(f"direction d {x}")).data for x in (1, 2))
        with self.assertRaises(files.AccessFailure):
            reports.report_of(
                Input("file", packed), reply=lambda data, name: exactly(
                    other if data is packed else data, name)
            )

    def test_the_digest_of_a_packed_file_is_its_own(self):
        """Also where a fitted row has a negative zero beyond n, which a text can't hold."""
        content = text("direction d 1").replace("row 0.5", "fitted 0.5")
        packed = bytearray(pack.parse(content).data)
        at = 4 + 2 + 8 + 7  # the sign of the second entry of the first row
        self.assertEqual((packed[4], packed[at]), (0x03, 0))
        packed[at] = 0x80
        told = reports.report_of(Input("file", bytes(packed)), reply=exactly)
        self.assertEqual(told.packed_sha256, told.sha256)
        self.assertNotEqual(told.source.data, bytes(packed))

    def test_a_refused_file(self):
        for data_, said, message in (
            (b"", "refused 1 at 0", "report: file is empty"),
            (b"\x01\x01", "refused 1 at 0", "file: refused 1 at 0: "),
        ):
            told = reports.report_of(Input("file", data_), reply=exactly)
            self.assertEqual((told.status, told.said), (REFUSED, said))
            self.assertTrue(told.message.startswith(message), told.message)


class Border(unittest.TestCase):
    """A level is reached only above it: at it a guard is clear by 0."""

    def rows(self, content, plain):
        """What is told of each guard of a text behind its name, and the status."""
        told = report(content, plain)
        return {row[0]: row[1:] for row in tables.guards(told).rows}, told.status

    def test_a_bound_equal_to_the_level(self):
        """From 0 to 8 at the start, and then halved."""
        guards = "guard d 7 below", "guard d 8 at", "guard d 9 above"
        for plain in (False, True):
            found, status = self.rows(text("direction d 1", *guards, upper=8, more=0), plain)
            self.assertEqual(found, {
                "below": ["value > 7 counts", "HIT at step 0", "passed by 1 count"],
                "at": ["value > 8 counts", "CLEAR", "clear by 0 counts"],
                "above": ["value > 9 counts", "CLEAR", "clear by 1 count"],
            })
            self.assertEqual(status, NOT_CLEAR)
            _, status = self.rows(text("direction d 1", *guards[1:], upper=8, more=0), plain)
            self.assertEqual(status, ALL_CLEAR)

    def test_a_lowest_value(self):
        """It is reached below its level. From 7 to 8 at the start; then the lowest is -2."""
        guards = "guard d 1 above", "guard d 2 at", "guard d 3 below"
        for plain in (False, True):
            content = text("direction d -1", *guards, "unit d mV", entry="-0.25", lower=7, upper=8,
                           more=0, steps=1)
            found, _ = self.rows(content, plain)
            self.assertEqual(found, {
                "above": ["value < -1 mV", "HIT at step 1", "passed by 1 mV"],
                "at": ["value < -2 mV", "CLEAR", "clear by 0 mV"],
                "below": ["value < -3 mV", "CLEAR", "clear by 1 mV"],
            })

    def test_a_bound_minus_its_slack_equal_to_the_level(self):
        """The bound is 2 and the slack 1 at the last step, where the exact value is 7/4."""
        found, status = self.rows(text("direction d 1", "guard d 1 low", "guard d 2 high"), True)
        between = "between 0 short and 1 count past"
        self.assertEqual(found["low"][1:], ["UNKNOWN at step 2", between])
        self.assertEqual(found["high"][1:], ["CLEAR", "clear by 0 counts"])
        self.assertEqual(status, NOT_CLEAR)

    def test_what_is_passed_is_told_above_0(self):
        """However little it is, beside any slack; and of a clear guard 0 only at its level."""
        rng = random.Random(73)
        seen = collections.Counter()
        for _ in range(2_000):
            factor, counts = rng.choice((1, 7, 930, 1000)), rng.choice((1, 3, 7, 16, 1000))
            slack, level = rng.choice((0, 1, 2, 50, 10**6)), rng.randrange(-(10**6), 10**6)
            bound = factor * level + rng.choice((0, slack)) + rng.choice((-1, 0, 1))
            swept = Sweep(0, (bound - 5_000, bound), (slack, slack))
            guard = Guard(0, None, level, exact.verdict(swept, factor * level))
            one = Figures(Direction(0, "d", (1,), swept, factor, ("V", counts), (guard,)))
            told = words.margin(one, guard)
            figures = [Fraction(each.replace(",", "")) for each in re.findall(r"[-\d,.]*\d", told)]
            word = guard.said.word
            if word == "CLEAR":
                self.assertEqual(figures[0] == 0, bound == factor * level, told)
            else:
                self.assertGreater(figures[-1], 0, told)
            self.assertGreaterEqual(min(figures), 0, told)
            seen[word, min(figures) == 0] += 1
        sorts = {("HIT", False), *itertools.product(("UNKNOWN", "CLEAR"), (False, True))}
        self.assertEqual(set(seen), sorts)
        self.assertGreater(min(seen.values()), 50, seen)

    def test_what_is_passed_as_written_is_told_above_0(self):
        """Also a part in 10^40 of a count, which no decimal of the direction tells."""
        for more, step, told in (
            (1, 1, "passed by 0.1 counts from step 1"), (0, None, "clear by 0.0 counts"),
            (-1, None, "clear by 0.0 counts"), (10**40, 1, "passed by 1.0 counts from step 1"),
        ):
            written = Values(10**40, (0, 8 * 10**40 + more))
            swept = Sweep(0, (0, 85), (0, 0))
            guard = Guard(0, None, 8, exact.verdict(swept, 80))
            one = Figures(Direction(0, "d", (1,), swept, 10, guards=(guard,), written=written))
            self.assertEqual((one.places, one.reached_as_written(guard)), (1, step))
            self.assertEqual(words.as_written(one, guard), told)
            self.assertEqual(one.written_margin(guard) < 0, step is not None)


class Written(unittest.TestCase):
    """The matrix as it was written."""

    SLOW = {"entry": "~0.9999", "steps": 256, "upper": 1_048_576, "more": 0}

    def test_none_where_nothing_was_rounded(self):
        told = report(text("direction d 1"))
        self.assertEqual((told.rounded, told.figures[0].above), (False, {}))
        self.assertIsNone(words.warning(told))

    def test_the_slow_one_passes_its_bounds(self):
        """0.9999 is stored as 65529/65536, which is less by 0.0000068."""
        told = report(text("direction d 1", **self.SLOW))
        (one,) = told.figures
        value = 1_048_576 * Fraction(9_999, 10_000) ** 256
        stored = 1_048_576 * Fraction(65_529, 65_536) ** 256
        self.assertEqual(one.above.keys(), set(range(1, 257)))
        self.assertTrue(value - stored - one.slack(256) <= one.above[256] <= value - stored)
        self.assertGreater(one.above[256], 1_700)

    def test_a_guard_that_only_the_matrix_as_written_reaches(self):
        more = {**self.SLOW, "upper": 0, "more": 100}
        bound = max(report(text("direction d 1", **more)).directions[0].bounds)
        level = int(bound) + 5
        told = report(text("direction d 1", f"guard d {level} near", **more))
        (one,) = told.figures
        (_, guard), = told.guards
        self.assertEqual((guard.said.word, one.word(guard)), ("CLEAR", "REACHED AS WRITTEN"))
        self.assertEqual(told.status, NOT_CLEAR)
        step = one.reached_as_written(guard)
        values = [100 * (1 - Fraction(9_999, 10_000) ** k) * 10_000 for k in range(257)]
        reached = (k for k, value in enumerate(values) if exact.reaches(value, level))
        self.assertEqual(step, next(reached))
        cells = tables.guards(told).rows[0]
        self.assertIn("CLEAR as stored, REACHED as written", cells)
        self.assertRegex(cells[-1], f"^passed by .* from step {step}$")
        self.assertIn("1 REACHED AS WRITTEN", terminal.whole(told))

    def test_a_true_maximum_far_above_the_bound(self):
        """Also without a factor: of the kind that a listing says nothing of."""
        told = report(text("direction d 1", **{**self.SLOW, "upper": 0, "more": 3_700}), plain=True)
        (one,) = told.figures
        self.assertGreater(one.above[256], 700)

    def test_fitted_entries_count_as_their_binary64_numbers(self):
        content = text("direction d 1", upper=1000, more=0).replace("row 0.5", "fitted 0.1")
        told = report(content)
        value = Fraction(*(0.1).as_integer_ratio())
        one = told.figures[0]
        self.assertEqual(one.written(1), quantities.rounded_up(1000 * value, one.places))
        packed = reports.report_of(Input("file", told.source.data), reply=exactly)
        self.assertEqual(packed.figures[0].direction.written, one.direction.written)

    def test_a_direction_refused_for_growth_has_values_all_the_same(self):
        told = report(text("direction d 1", "guard d 900", entry="~1.9", steps=40, upper=1))
        self.assertIsInstance(told.directions[0].swept, Growth)
        self.assertEqual(words.above(told.figures[0], told), "no bound")
        self.assertRegex(tables.guards(told).rows[0][-1], "^passed by .* from step 10$")

    def test_huge_values_are_told_by_their_first_digits(self):
        told = report(text("direction d 1", "guard d 900", entry="~1.9", steps=256, upper=1))
        value = told.directions[0].written
        exactly_ = Fraction(value.numerators[256], value.unit**256)
        shown = tables.written(told).rows[0][1]
        self.assertRegex(shown, r"^\d\.\d\de71 counts$")
        self.assertTrue(exactly_ <= Fraction(shown.split()[0]) < exactly_ * Fraction(101, 100))
        self.assertLess(max(map(len, terminal.whole(told).splitlines())), 150)

    def test_margins_as_written(self):
        """Of 100 * 0.1 at step 1 the stored matrix has 10.0006."""
        content = text("direction d 1", "guard d 99 a", "guard d 100 b", "guard d 101 c", upper=100,
                       more=0, steps=1).replace("row 0.5", "row ~0.1")
        cells = {row[0]: row[-1] for row in tables.guards(report(content)).rows}
        self.assertEqual(cells, {"a": "passed by 1.000 counts from step 0",
                                 "b": "clear by 0.000 counts", "c": "clear by 1.000 counts"})
        told = json.loads(data.as_json([report(content)], 3))["models"][0]["guards"]
        self.assertEqual([guard["margin_as_written"] for guard in told], [-1, 0, 1])

    def test_the_warning_tells_which_bound_is_passed(self):
        told = words.warning(report(text("direction d 1", **self.SLOW)))
        self.assertTrue(told.startswith("as written, d passes the bound of some step;"), told)
        more = {**self.SLOW, "upper": 0, "more": 3_700}
        told = words.warning(report(text("direction d 1", **more)))
        self.assertRegex(told, r"^as written, d passes its largest bound by 808\.\d+ counts;")


class Texts(unittest.TestCase):
    """What is told on a terminal."""

    def test_units_and_times(self):
        rows = ["time 1.25 ms", "direction up 1", "direction down -1", "unit up °C 16",
                "unit down °C 16", "guard up 8 warm", "guard down 1 cold"]
        told = terminal.whole(report(text(*rows, more=16)))
        for part in ("steps 0 to 3 (3.75 ms): 1 HIT, 1 CLEAR", "value > 0.5 °C",
                     "HIT at step 1 (1.25 ms)", "value < -0.0625 °C", "value ≤ 1.75 °C",
                     "value ≥ 0.0000 °C", "3 (3.75 ms)"):
            self.assertIn(part, told)

    def test_a_direction_with_a_unit_of_its_own(self):
        """The coordinates are told only where the text says how they make up the unit."""
        for rows, claim, condition in (
            (["unit value V", "direction d 100", "unit d V 100"], "value ≤ 24 V", "value > 25 V"),
            (["unit value V 2", "direction d -100", "unit d V 100"], "2 value ≥ 0 V", ""),
            (["direction d 100", "unit d V 100"], "d ≤ 24 V", "d > 25 V"),
            (["direction d 1", "unit d V 100"], "value ≤ 0.24 V", "value > 25 V"),
            (["direction d -100", "unit d V 100"], "d ≤ 0 V", "d > 25 V"),
            (["unit value V", "direction d 100"], "100 value ≤ 2,400 V", "100 value > 2,500 V"),
            (["unit value A", "direction d 100", "unit d V 100"], "d ≤ 24 V", "d > 25 V"),
        ):
            level = 2500
            told = report(text(*rows, f"guard d {level}", upper=24, more=0))
            with self.subTest(rows):
                found = tables.directions(told).rows[0][-1], tables.guards(told).rows[0][1]
                self.assertEqual(re.sub(r"\.0+ ", " ", found[0]), claim)
                self.assertTrue(not condition or found[1] == condition, found)

    def test_counts_are_one_or_more(self):
        told = terminal.whole(report(text("direction d 1", "guard d 1", "guard d 2", more=4)))
        self.assertIn("value > 1 count ", told)
        self.assertIn("value > 2 counts ", told)

    def test_a_direction_refused_for_growth(self):
        told = terminal.whole(report(text("direction d 1", "guard d 5", entry="2", steps=40)))
        self.assertRegex(told, r"GROWTH at step 11 +no bound")
        self.assertRegex(told, r"d +none +refused for growth at step 11")

    def test_what_it_rests_on_is_told(self):
        told = terminal.whole(report(text("direction d 1")))
        self.assertTrue(told.endswith("\n".join(words.RESTS_ON) + "\n"))

    def test_colours_change_nothing_else(self):
        rail = example("rail")
        coloured = terminal.whole(rail, colours=True)
        self.assertIn("\x1b[1;31mHIT\x1b[0m at step", coloured)
        self.assertEqual(re.sub(r"\x1b\[[0-9;]*m", "", coloured), terminal.whole(rail))

    def test_a_row_for_each_model(self):
        told = [report(text("direction d 1", f"guard d {level}"), name=f"{level}.model")
                for level in (9, 1, 2)]
        told += [report(text("direction d 1"), name="none.model"),
                 Failed("bad.bin", "refused 3 at 4", "", REFUSED),
                 Failed("gone", "is not there", "", NOT_RUN)]
        rows = tables.models(told).rows
        self.assertEqual([row[0] for row in rows],
                         ["gone", "bad.bin", "1.model", "2.model", "9.model", "none.model"])
        self.assertEqual(rows[1][1], "refused 3 at 4")
        self.assertEqual(rows[-1][1], "no guard")


class Data(unittest.TestCase):
    """JSON and CSV."""

    def setUp(self):
        self.told = [example(name) for name in ("rail", "runaway", "verdicts")]
        self.told.append(Failed("a \"b\"\n.bin", "refused 3 at 4", "why", REFUSED, b"\x01"))
        self.json = json.loads(data.as_json(self.told, 1), parse_float=Decimal)

    def test_figures_are_the_decimals_that_are_told(self):
        for report_, found in zip(self.told, self.json["models"]):
            if found["result"] != "answered":
                continue
            for one, direction in zip(report_.ordered, found["directions"]):
                bounds = [one.bound(step) for step in range(len(one.direction.bounds))]
                self.assertEqual([*map(Fraction, direction["bounds"])], bounds)
                slacks = [one.slack(step) for step in range(len(one.direction.bounds))]
                self.assertEqual([*map(Fraction, direction["slacks"])], slacks)
            for (one, guard), told in zip(report_.guards, found["guards"]):
                self.assertEqual(Fraction(told["level"]), one.direction.level(guard))
                self.assertEqual(told["level_counts"], guard.level)

    def test_growth_and_refusals(self):
        runaway = self.json["models"][1]
        grown = next(one for one in runaway["directions"] if one["name"] == "driver")
        self.assertEqual((grown["growth_step"], grown["peak"], grown["proved"]), (32, None, None))
        refused = self.json["models"][3]
        self.assertEqual((refused["name"], refused["result"]), ("a \"b\"\n.bin", "refused"))
        self.assertEqual(refused["status"], REFUSED)

    def test_numbers_of_many_digits_are_written_out(self):
        told = report(text("direction d 1", f"guard d {MAX_LEVEL}", "unit d m 1000000000"))
        found = json.loads(data.as_json([told], 0), parse_float=Decimal)["models"][0]
        guard = found["guards"][0]
        self.assertEqual(guard["level_counts"], MAX_LEVEL)
        self.assertEqual(guard["level"], Decimal(MAX_LEVEL).scaleb(-9))

    def test_a_level_that_is_no_decimal_is_a_text(self):
        told = report(text("direction d 1", "guard d 10", "unit d m 3"))
        found = json.loads(data.as_json([told], 0))["models"][0]["guards"][0]
        self.assertEqual((found["level"], found["level_counts"]), ("10/3", 10))

    def test_csv_has_the_same_figures(self):
        rows = list(csv.DictReader(io.StringIO(data.as_csv(self.told))))
        self.assertEqual(tuple(rows[0]), data.COLUMNS)
        found = [(m["name"], g) for m in self.json["models"] for g in m.get("guards", ())]
        guards = [row for row in rows if row["guard"]]
        self.assertEqual(len(guards), len(found))
        for row, (name, guard) in zip(guards, found):
            self.assertEqual((row["model"], row["verdict"]), (name, guard["verdict"]))
            self.assertEqual(row["margin_least"], "" if guard["margin_least"] is None
                             else str(guard["margin_least"]))
        self.assertEqual(rows[-1]["result"], "refused")

    def test_directions_without_a_guard_have_a_row(self):
        told = report(text("direction d 1", "direction e 2", "guard d 9"))
        rows = list(csv.DictReader(io.StringIO(data.as_csv([told]))))
        self.assertEqual([(row["direction"], row["guard"]) for row in rows],
                         [("d", "guard 0"), ("e", "")])

    def test_the_document_tells_every_name(self):
        told = (examples.FOLDER.parent / "docs" / "REPORT.md").read_text(encoding="utf-8")
        names = {name for row in re.findall(r"`(\w+)`", told) for name in [row]}
        old = report(text("direction d 1", "guard d 2", more=1))
        found = changes.changes(old, self.told[0])
        whole = json.loads(data.as_json([*self.told, old], 1, found))

        def keys(value):
            if isinstance(value, dict):
                yield from value
            for part in value.values() if isinstance(value, dict) else value:
                if isinstance(part, (dict, list)):
                    yield from keys(part)

        self.assertEqual(set(keys(whole)) - names, set())
        self.assertIn(f"| `pepperscarp-report`, {data.FORMAT_VERSION}, and ", told)
        self.assertEqual({*data.COLUMNS, *data.CHANGE_COLUMNS} - names, set())

    def test_lists_of_numbers_stand_in_one_row(self):
        encoded = data.encoded({"a": [1, 2], "b": [], "c": {}, "d": [{"e": None}], "f": "ä\"",
                                "g": data.Numeral("0.10"), "h": True})
        self.assertEqual(json.loads(encoded), {"a": [1, 2], "b": [], "c": {}, "d": [{"e": None}],
                                               "f": "ä\"", "g": 0.1, "h": True})
        self.assertIn('"a": [1, 2],', encoded)
        self.assertIn('"g": 0.10,', encoded)


class Against(unittest.TestCase):
    """What differs between two reports."""

    def compared(self, old, new):
        return changes.changes(report(old, name="old"), report(new, name="new"))

    def test_bounds_verdicts_and_margins(self):
        rows = "direction d 1", "unit d V", "guard d 2 low", "guard d 5 high"
        found = self.compared(text(*rows), text(*rows, more=2))
        (direction,) = found.directions
        bounds = direction.bound.old, direction.bound.new
        self.assertEqual(bounds, (Fraction("1.75"), Fraction("3.5")))
        self.assertEqual(direction.bound.difference, Fraction("1.75"))
        told = {change.either[1].name: change for change in found.guards}
        self.assertEqual([str(pair[1].said) for pair in (told["low"].old, told["low"].new)],
                         ["CLEAR", "HIT 2"])
        self.assertEqual(told["high"].margin.difference, Fraction("-1.75"))
        cells = {row[0]: row for row in tables.changed_guards(found).rows}
        self.assertEqual(cells["high"], ["high", "5 V", "CLEAR", "CLEAR", "3.25", "1.50", "-1.75"])
        self.assertEqual(tables.changed_directions(found).rows,
                         [["d", "1.75", "3.50", "+1.75", "V", "3", "3"]])

    def test_what_is_in_one_only(self):
        found = self.compared(text("direction d 1", "direction e 3", "guard e 9 gone"),
                              text("direction d 1", "direction f 2", "guard f 7 new"))
        pairs = [(c.old and c.old.direction.name, c.new and c.new.direction.name)
                 for c in found.directions]
        self.assertEqual(sorted(pairs, key=str), [("d", "d"), ("e", None), (None, "f")])
        rows = {row[0]: row[2:4] for row in tables.changed_guards(found).rows}
        self.assertEqual(rows, {"new": ["not there", "CLEAR"], "gone": ["CLEAR", "not there"]})

    def test_guards_go_together_by_name_then_by_level_then_in_order(self):
        old = text("direction d 1", "guard d 9 a", "guard d 4", "guard d 5", "guard d 6")
        new = text("direction d 1", "guard d 8 a", "guard d 5", "guard d 7", "guard d 4")
        pairs = sorted((c.old[1].level, c.new[1].level) for c in self.compared(old, new).guards)
        self.assertEqual(pairs, [(4, 4), (5, 5), (6, 7), (9, 8)])

    def test_other_units_are_not_subtracted(self):
        found = self.compared(text("direction d 1", "unit d mV"), text("direction d 1", "unit d V"))
        self.assertEqual(tables.changed_directions(found).rows[0][3:5], ["not comparable", "mV → V"])

    def test_another_direction_of_the_same_name_is_not_subtracted(self):
        for old, new in (("1", "-1"), ("1", "2")):
            found = self.compared(text(f"direction d {old}", "guard d 9 a"),
                                  text(f"direction d {new}", "guard d 9 a"))
            self.assertEqual(tables.changed_directions(found).rows[0][3], "not comparable")
            self.assertEqual(tables.changed_guards(found).rows[0][-1], "not comparable")
        units = "unit value V", "direction d {0}", "unit d V {0}"
        one, other = (text(*(row.format(x) for row in units)) for x in (1, 100))
        self.assertEqual(tables.changed_directions(self.compared(one, other)).rows[0][3], "same")

    def test_a_changed_level_is_told(self):
        found = self.compared(text("direction d 1", "guard d 1 a"),
                              text("direction d 1", "guard d 3 a"))
        row = tables.changed_guards(found).rows[0]
        self.assertEqual(row[:4], ["a", "1 count → 3 counts", "HIT at step 2", "CLEAR"])
        self.assertEqual(row[-1], "+2.00")
        cells = json.loads(data.as_json([found.new, found.old], 0, found))["changes"]["guards"][0]
        self.assertEqual((cells["old_level"], cells["new_level"]), (1, 3))

    def test_same_is_said_of_what_is_equal_and_not_of_what_is_told_alike(self):
        """10,000.001 and 10,000.05 with a slack of 2 are both told as 10,000.1."""
        one, other = (
            Figures(Direction(0, "d", (1,), Sweep(0, (bound,), (2_000,)), factor=1_000))
            for bound in (10_000_001, 10_000_050)
        )
        for new, expected in ((one, "same"), (other, "0.0")):
            change = changes.DirectionChange(one, new, comparable=True).bound
            self.assertEqual(tables.told_change(change), ["10,000.1", "10,000.1", expected])

    def test_a_packed_file_takes_the_names_of_the_text(self):
        content = (examples.FOLDER / "rail.model").read_text(encoding="utf-8")
        packed = reports.report_of(Input("rail.bin", pack.parse(content).data), reply=exactly)
        for pair in ((packed, report(content)), (report(content), packed)):
            found = changes.changes(*pair)
            self.assertEqual({row[-1] for row in tables.changed_guards(found).rows}, {"same"})
            self.assertIn("fades", [row[0] for row in tables.changed_guards(found).rows])
        other = reports.report_of(Input("x", pack.parse(text("direction d 2")).data), reply=exactly)
        found = changes.changes(other, report(text("direction d 1")))
        self.assertEqual([c.either.direction.name for c in found.directions], ["d", "d0"])

    def test_a_packed_file_is_told_as_the_text_is(self):
        """Also where a unit of the direction and its entries make up for each other."""
        content = text("unit value V", "direction d 100", "unit d V 100", "guard d 2500", upper=24)
        packed = reports.report_of(Input("x.bin", pack.parse(content).data), reply=exactly)
        found = changes.changes(packed, report(content))
        for one in (found.old, found.new):
            self.assertEqual(tables.directions(one).rows, tables.directions(found.new).rows)
            self.assertEqual(tables.guards(one).rows, tables.guards(found.new).rows)
        self.assertIn("value > 25 V", tables.guards(found.old).rows[0])

    def test_growth_on_one_side(self):
        found = self.compared(text("direction d 1", "guard d 9"),
                              text("direction d 1", "guard d 9", entry="2", steps=40))
        self.assertEqual(tables.changed_directions(found).rows,
                         [["d", "1.75", "", "", "counts", "3", "refused for growth at step 11"]])
        json.loads(data.as_json([found.new, found.old], 3, found))
        self.assertIn("GROWTH", data.changes_as_csv(found))


class Nested(HTMLParser):
    """The tags of a page, each closed in its turn, and what they refer to."""

    EMPTY = {"meta", "br"}

    def __init__(self, content):
        super().__init__(convert_charrefs=True)
        self.open, self.seen, self.refers, self.texts = [], [], [], []
        self.feed(content)
        self.close()
        assert not self.open, self.open

    def handle_starttag(self, tag, attributes):
        self.seen.append(tag)
        self.refers += [value for name, value in attributes if name in ("href", "src")]
        if tag not in self.EMPTY:
            self.open.append(tag)

    def handle_startendtag(self, tag, attributes):
        self.seen.append(tag)

    def handle_endtag(self, tag):
        assert self.open.pop() == tag, tag

    def handle_data(self, content):
        self.texts.append(content)


class Page(unittest.TestCase):
    """The page as HTML."""

    def test_it_is_nested_and_needs_no_other_file(self):
        told = [example(name) for name in ("rail", "runaway", "verdicts")]
        found = Nested(page.page(told))
        self.assertEqual(found.refers, ["#model-0", "#model-2", "#model-1"])
        self.assertEqual(re.findall('<section class="model" id="(.*)">', page.page(told)),
                         ["model-0", "model-1", "model-2"])
        self.assertFalse({"script", "link", "img", "iframe", "object"} & set(found.seen))
        self.assertNotIn("url(", page.page(told))
        self.assertNotIn("@import", page.page(told))

    def test_what_it_has(self):
        rail = example("rail")
        content = page.page([rail])
        found = Nested(content)
        shown = " ".join(" ".join(found.texts).split())
        for part in ("Pepperscarp report: some.model", rail.sha256, rail.packed_sha256,
                     "What is proved", "What is tested", "What is assumed", "-21,515.063 mV",
                     "generator 240 0 240", "passed by 1,284.916 mV", "Warning:",
                     "rail < 22,800 mV", "rail > 24,600 mV", "fades: < 22,800 mV",
                     REACHED_MEANS):
            self.assertIn(part, shown)
        self.assertIn("svg", found.seen)
        self.assertIn("@media print", content)

    def test_names_and_texts_are_escaped(self):
        content = text("direction d 1", "guard d 1", "# <script>alert(1)</script> & so on")
        told = report(content, name="<b>&\"'.model")
        found = Nested(page.page([told, Failed("<i>", "<u>", "<s>", REFUSED)]))
        self.assertFalse({"b", "i", "u", "s", "script"} & set(found.seen) - {"b"})
        self.assertIn("<script>alert(1)</script>", " ".join(found.texts))
        self.assertIn("<b>&\"'.model", found.texts)

    def test_the_signs_of_levels_are_escaped(self):
        """In the table, in the chart, and in the row of a model among several."""
        content = text("direction down -1", "direction up 1", "guard down 2 low", "guard up 3 high")
        told = page.page([report(content, plain=True), report(content)])
        for part in ("<td>value &lt; -2 counts</td>", "<td>value &gt; 3 counts</td>",
                     ">low: &lt; -2 <tspan", ">high: &gt; 3 <tspan", ">high: value &gt; 3 counts<"):
            self.assertIn(part, told)
        self.assertIsNone(re.search("(?:value|low:|high:) [<>]", told))

    def test_a_packed_file_is_shown_as_a_text(self):
        packed = pack.parse(text("direction d 1")).data
        told = reports.report_of(Input("x.bin", packed), reply=exactly)
        self.assertIn("scaled 32768", page.page([told]))
        self.assertNotIn("SHA-256 of the packed", page.page([told]))

    def test_two_side_by_side(self):
        old, new = (report(text("direction d 1", "guard d 2", more=more), name=f"{more}.model")
                    for more in (1, 2))
        found = changes.changes(old, new)
        content = page.page([new, old], found)
        Nested(content)
        self.assertIn("2.model against 1.model", content)


class Batch(unittest.TestCase):
    """Many models at once."""

    def test_a_process_that_is_ended_is_told(self):
        self.addCleanup(setattr, batch, "report_of", batch.report_of)
        batch.report_of = lambda *_: os._exit(1)
        told = batch.results_of([Input("a", b"\x01"), Input("b", b"\x01")], False, 2)
        self.assertEqual([one.status for one in told], [NOT_RUN] * 2)
        self.assertEqual(told[1].message, "report: b: its process was ended")

    def test_a_process_that_ends_before_all_are_handed_out_is_told(self):
        handed_out = batch.ProcessPoolExecutor.submit

        def submit(pool, what, given, plain):
            if given.name == "b":
                raise batch.BrokenProcessPool
            return handed_out(pool, what, given, plain)

        self.addCleanup(setattr, batch.ProcessPoolExecutor, "submit", handed_out)
        self.addCleanup(setattr, batch, "report_of", batch.report_of)
        batch.ProcessPoolExecutor.submit = submit
        batch.report_of = lambda given, _: Failed(given.name, "", "ready", NOT_RUN)
        given = [Input(name, b"\x01") for name in "abc"]
        told = [one.message for one in batch.results_of(given, False, 2)]
        self.assertEqual(told, ["ready"] + [
            f"report: {name}: its process was ended" for name in "bc"])

    def test_a_fault_is_told_and_stops_no_other(self):
        given = Input("a", b"\x01")
        self.addCleanup(setattr, batch, "report_of", batch.report_of)
        for error, message in ((files.AccessFailure("no room"), "report: a: no room"),
                               (KeyError("x"), "report: a: a fault of the tool")):
            def fail(*_, error=error):
                raise error

            batch.report_of = fail
            (told,) = batch.results_of([given], False, 1)
            self.assertEqual(told.status, NOT_RUN)
            self.assertTrue(told.message.startswith(message), told.message)


if __name__ == "__main__":
    unittest.main()
