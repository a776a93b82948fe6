"""Which guards change since version 0.8.0, with the exact program in the place of the proved one.

What `./pepperscarp changed` prints is tested from outside in `tests/changed.py`.
"""

import csv
import io
import random
import signal
import unittest
from dataclasses import replace
from fractions import Fraction

from helpers import single

import changed
import examples
import inputs
import pack
from answers import Written
from inputs import NOT_RUN, REFUSED, Failed, Input
from layout import MAX_LEVEL, MIN_LEVEL, encode
from listings import CLEAR, HIT, UNKNOWN, Verdict

signal.signal(signal.SIGINT, signal.default_int_handler)  # as it was before `changed` was loaded
SAMPLE = single(32_768, (0, 0), (0, 1), 1, 3, (1, 2, 3))  # Listing 8


def checked(model, name="some.bin"):
    return changed.checked(Input(name, encode(model)), examples.reply)


class Before(unittest.TestCase):
    """What stands for the old rule."""

    def test_a_level_is_one_count_lower_where_64_bits_hold_that(self):
        for level, lower in ((0, -1), (1, 0), (MAX_LEVEL, MAX_LEVEL - 1),
                             (MIN_LEVEL + 1, MIN_LEVEL), (MIN_LEVEL, MIN_LEVEL)):
            self.assertEqual(changed.lower(level), lower)
        model = replace(SAMPLE, directions=((1,), (2,)), guards=((1, 5), (0, MIN_LEVEL), (1, 5)))
        lowered = replace(model, guards=((1, 4), (0, MIN_LEVEL), (1, 4)))
        self.assertEqual(changed.with_lower_levels(model), lowered)

    def test_larger_values_reach_what_the_values_were_at(self):
        rng = random.Random(9)
        for _ in range(300):
            unit = rng.choice((1, 2, 10, 65_536))
            values = [Fraction(rng.randint(-40, 40), rng.choice((1, unit)) ** k) for k in range(4)]
            written = Written(unit, tuple(int(value * unit**k) for k, value in enumerate(values)))
            for level in range(-4, 5):
                step = next((k for k, value in enumerate(values) if value >= level), None)
                self.assertEqual(changed.with_larger_values(written).reached(level), step)


class Changes(unittest.TestCase):
    def test_the_sample(self):
        found = checked(SAMPLE)
        self.assertEqual((found.name, found.guards, found.status), ("some.bin", 3, 3))
        hit, unknown, clear = Verdict(HIT, 1), Verdict(UNKNOWN, 2), Verdict(CLEAR)
        told = [(one.guard.number, one.old, one.new, one.to_keep) for one in found.changes]
        self.assertEqual(told, [
            (0, changed.Said(hit, hit), changed.Said(unknown, Verdict(HIT, 2)), 0),
            (1, changed.Said(unknown, clear), changed.Said(clear, clear), 1),
        ])

    def test_the_level_to_keep_of_a_lowest_value_is_lower_in_the_file(self):
        model = single(65_536, (22_800, 24_000), (0, 0), -1, 3, (-22_801, -22_800, -22_799))
        (found,) = checked(model).changes
        self.assertEqual((found.guard.level, found.to_keep), (-22_800, -22_801))
        hit, clear = Verdict(HIT, 0), Verdict(CLEAR)
        self.assertEqual((found.old.listing, found.new.listing), (hit, clear))
        self.assertEqual(examples.reply(encode(model), "").guards, (hit, clear, clear))

    def test_guards_stand_in_the_order_of_the_file(self):
        model = replace(SAMPLE, directions=((1,), (2,)), guards=((1, 2), (0, 1), (1, 3), (0, 2)))
        self.assertEqual([one.guard.number for one in checked(model).changes], [0, 1, 2, 3])

    def test_a_model_with_the_levels_to_keep_says_what_was_said(self):
        for one in checked(SAMPLE).changes:
            model = replace(SAMPLE, guards=((0, one.to_keep),))
            self.assertEqual(examples.reply(encode(model), "").guards, (one.old.listing,))

    def test_a_refused_model_is_told(self):
        for data, said in ((encode(SAMPLE)[:-1], "refused 1 at "), (b"", "some.bin is empty")):
            found = changed.checked(Input("some.bin", data), examples.reply)
            self.assertIsInstance(found, Failed)
            self.assertEqual(found.status, REFUSED)
            self.assertIn(said, found.message)

    def test_no_other_bounds_are_taken(self):
        def reply(data, name):
            told = examples.reply(data, name)
            return replace(told, directions=()) if told.guards == first.guards else told

        first = examples.reply(encode(changed.with_lower_levels(SAMPLE)), "")
        with self.assertRaisesRegex(changed.files.AccessFailure, "other bounds for other levels"):
            changed.checked(Input("some.bin", encode(SAMPLE)), reply)


class Told(unittest.TestCase):
    STILL = single(65_536, (0, 0), (0, 0), 1, 3, (1, 2))

    def rows(self, *results):
        return changed.as_text(results).splitlines()

    def test_the_last_row_counts_guards_and_models(self):
        other, still = checked(SAMPLE), checked(self.STILL)
        failed = inputs.not_run("some", "a.bin", "said"), inputs.unread("some", "b", "said")
        start = "guards whose verdict changed: "
        for results, told in (
            ((still,), "none of 2, in 1 model"),
            ((still, still, failed[0]), "none of 4, in 2 models; not checked: 1"),
            ((other,), "2 of 3, in 1 of 1 model"),
            ((still, other), "2 of 5, in 1 of 2 models"),
            ((still, other, still, other), "4 of 10, in 2 of 4 models"),
            ((*failed, other), "2 of 3, in 1 of 1 model; not checked: 2"),
        ):
            self.assertEqual(self.rows(*results)[-1], start + told)
        self.assertEqual({one.status for one in failed}, {NOT_RUN})
        self.assertEqual(len(self.rows(still, still)), 1)

    def test_a_unit_has_a_column_where_a_guard_has_one(self):
        text = pack.unpack(encode(SAMPLE))
        for more, told in (
            ("", ["1  HIT 1", "2  UNKNOWN 2"]),
            ("unit d0 mV\n", ["1         1 mV  HIT 1", "2         2 mV  UNKNOWN 2"]),
            ("unit d0 °C 3\n", ["1       1/3 °C  HIT 1", "2       2/3 °C  UNKNOWN 2"]),
        ):
            given = Input("a.model", b"", pack.parse(text + more))
            rows = self.rows(changed.checked(given, examples.reply))
            self.assertEqual("in its unit" in rows[1], bool(more))
            for row, part in zip(rows[2:4], told):
                self.assertIn(f"d0             {part}  ", row)

    def test_csv_has_the_level_in_the_unit_and_in_counts(self):
        text = pack.unpack(encode(SAMPLE))
        for more, unit, levels in (("", "counts", "12"), ("unit d0 mV\n", "mV", "12"),
                                   ("unit d0 °C 16\n", "°C", ("0.0625", "0.125")),
                                   ("unit d0 °C 3\n", "°C", ("1/3", "2/3"))):
            found = changed.checked(Input("a.model", b"", pack.parse(text + more)), examples.reply)
            rows = list(csv.DictReader(io.StringIO(changed.as_csv([found]))))
            names = "unit", "level", "level_counts", "level_counts_to_keep"
            told = [tuple(row[name] for name in names) for row in rows]
            self.assertEqual(told, [(unit, levels[0], "1", "0"), (unit, levels[1], "2", "1")])


if __name__ == "__main__":
    unittest.main()
