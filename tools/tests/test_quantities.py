"""Fractions as decimals, rounded to one side; figures of a direction and of a matrix as written."""

import random
import unittest
from fractions import Fraction

import helpers  # noqa: F401  the way to the tools

import answers
import exact
import pack
import quantities
from answers import Direction, Guard, Written
from listings import Growth, Sweep, Verdict


class Decimals(unittest.TestCase):
    def test_exact_places(self):
        for value, places in (("0", 0), ("-7", 0), ("0.5", 1), ("1/16", 4), ("-3/40", 3),
                              ("1/3", None), ("1/930", None), ("100", 0)):
            self.assertEqual(quantities.exact_places(Fraction(value)), places, value)

    def test_places_are_enough_and_no_more(self):
        for values, least, places in (
            (["1/3"], "1", 1), (["1/3"], "0.3", 2), (["1/3"], "1/930", 4), (["7"], "1/1000", 0),
            (["1/8"], "1/8", 2), (["1/8"], "1/1000", 3), (["1/3"], "20", 0),
        ):
            found = quantities.places_for(map(Fraction, values), Fraction(least))
            self.assertEqual(found, places, (values, least))

    def test_places_to_a_tenth(self):
        for least, places in (("1", 1), ("10", 0), ("0.1", 2), ("1/16", 3), ("0.11", 2)):
            self.assertEqual(quantities.places_to(Fraction(least)), places)

    def test_up_and_down(self):
        for value, places, down, up in (
            ("1/3", 2, "0.33", "0.34"), ("-1/3", 2, "-0.34", "-0.33"), ("-1/3", 0, "-1", "0"),
            ("12345.678", 1, "12,345.6", "12,345.7"), ("5", 0, "5", "5"), ("5", 2, "5.00", "5.00"),
            ("-0.001", 1, "-0.1", "0.0"), ("0.05", 1, "0.0", "0.1"), ("1/7", 3, "0.142", "0.143"),
        ):
            sides = [f(Fraction(value), places)
                     for f in (quantities.rounded_down, quantities.rounded_up)]
            self.assertEqual([quantities.told(side, places) for side in sides], [down, up])
        self.assertEqual(quantities.told(Fraction("12345.7"), 1, grouped=False), "12345.7")

    def test_rounding_goes_outward_by_less_than_the_last_decimal(self):
        rng = random.Random(1)
        for _ in range(500):
            value = Fraction(rng.randint(-10**9, 10**9), rng.randint(1, 10**6))
            places = rng.randrange(8)
            up, down = (f(value, places) for f in (quantities.rounded_up, quantities.rounded_down))
            self.assertTrue(down <= value <= up)
            self.assertLess(max(up - value, value - down), Fraction(1, 10**places))
            for side in (up, down):
                self.assertEqual(Fraction(quantities.told(side, places).replace(",", "")), side)

    def test_a_value_with_more_decimals_is_not_told(self):
        with self.assertRaises(AssertionError):
            quantities.told(Fraction(1, 3), 5)

    def test_large_values_are_rounded_to_one_side(self):
        for value, up, down in (
            (10**20, "1.00e20", "1.00e20"), (10**20 + 1, "1.01e20", "1.00e20"),
            (-(10**20) - 1, "-1.00e20", "-1.01e20"), (999 * 10**18 + 1, "1.00e21", "9.99e20"),
            (-999_999 * 10**18, "-9.99e23", "-1.00e24"),
        ):
            self.assertEqual(quantities.about(Fraction(value), up=True), up)
            self.assertEqual(quantities.about(Fraction(value), up=False), down)

    def test_exactly(self):
        for value, expected in (
            (Fraction(0), "0"), (Fraction(200), "200"), (Fraction(-1, 16), "-0.0625"),
            (Fraction("1562.50"), "1,562.5"), (Fraction(1000, 3), "1,000/3"),
            (Fraction(1, 10**40), "0." + "0" * 39 + "1"), (Fraction(-2, 3), "-2/3"),
        ):
            self.assertEqual(quantities.exactly(value), expected)
        self.assertEqual(quantities.exactly(Fraction(-4000, 3), grouped=False), "-4000/3")


def direction(bounds, slacks, factor=1, unit=None, levels=(), entries=(1,)):
    guards = tuple(Guard(i, None, level, Verdict("CLEAR")) for i, level in enumerate(levels))
    swept = Sweep(0, tuple(bounds), tuple(slacks))
    return Direction(0, "d", entries, swept, factor, unit, guards)


class Directions(unittest.TestCase):
    def test_figures_are_divided_by_factor_and_counts(self):
        one = direction((3000, 4016, 4016), (0, 16, 32), 8, ("°C", 4), (130,))
        self.assertEqual(one.bounds, (Fraction(375, 4), Fraction(251, 2), Fraction(251, 2)))
        self.assertEqual(one.lows, (Fraction(375, 4), 125, Fraction(249, 2)))
        self.assertEqual((one.peak, one.largest_bound, one.largest_low), (1, Fraction(251, 2), 125))
        self.assertEqual(one.level(one.guards[0]), Fraction(65, 2))
        self.assertEqual(one.margin(one.guards[0]), (-93, Fraction(-185, 2)))

    def test_the_largest_low_may_be_at_another_step(self):
        one = direction((9, 10), (0, 5), levels=(12,))
        self.assertEqual((one.peak, one.margin(one.guards[0])), (1, (2, 3)))

    def test_without_a_unit_there_are_counts(self):
        one = direction((5,), (0,))
        self.assertEqual((one.unit_name, one.counts, one.bounds), ("counts", 1, (5,)))

    def test_growth_has_no_figures(self):
        one = Direction(0, "d", (1,), Growth(3))
        self.assertEqual((one.bounds, one.lows), ((), ()))

    def test_names_levels_and_units_come_from_the_text(self):
        text = (
            "coordinates a b\nunit a mV 4\nunit b mV 4\nsteps 1\nrow 1 0\nrow 0 1\n"
            "initial box\nlower 0 0\nupper 1 1\ndirection x 1 -1\ndirection y 0 2\nunit y A\n"
            "guard y 7 hot\nguard x -9\nguard y 8\n"
        )
        source = pack.parse(text)
        found = answers.directions_of(answers.Listing(2, 1, (Growth(1), Growth(1)), tuple(
            Verdict("GROWTH", 1) for _ in range(3))), source, [1, 5])
        self.assertEqual([(one.name, one.unit, one.factor) for one in found],
                         [("x", ("mV", 4), 1), ("y", ("A", 1), 5)])
        guards = [[(guard.number, guard.label, guard.level) for guard in one.guards]
                  for one in found]
        self.assertEqual(guards, [[(1, "guard 1", -9)], [(0, "hot", 7), (2, "guard 2", 8)]])

    def test_expression(self):
        names = ("a", "b", "c")
        self.assertEqual(answers.expression((1, -2, 0), names), "a - 2 b")
        self.assertEqual(answers.expression((-1, 0, 3), names), "-a + 3 c")


class Opposites(unittest.TestCase):
    def opposite(self, one, other, units=(None, None)):
        pair = [direction((0,), (0,), entries=entries, unit=unit)
                for entries, unit in zip((one, other), units)]
        found = answers.opposite(*pair)
        self.assertEqual(answers.opposite(*pair[::-1]), found)
        return found

    def test_highest_and_lowest(self):
        self.assertTrue(self.opposite((1, 0), (-1, 0)))
        self.assertTrue(self.opposite((2, -4), (-2, 4)))
        self.assertFalse(self.opposite((1, 0), (1, 0)))
        self.assertFalse(self.opposite((1, 0), (0, -1)))
        self.assertFalse(self.opposite((1, 1), (-1, 1)))

    def test_of_other_lengths_the_counts_make_up_for_it(self):
        self.assertFalse(self.opposite((10, 0), (-1, 0)))
        units = ("mV", 10), ("mV", 1)
        self.assertTrue(self.opposite((10, 0), (-1, 0), units))
        self.assertFalse(self.opposite((1, 0), (-1, 0), units))

    def test_in_one_unit(self):
        self.assertTrue(self.opposite((1,), (-1,), (("mV", 1),) * 2))
        self.assertFalse(self.opposite((1,), (-1,), (("mV", 1), ("V", 1))))
        self.assertFalse(self.opposite((1,), (-1,), (("mV", 1), None)))


class AsWritten(unittest.TestCase):
    def test_against_fractions(self):
        rng = random.Random(4)
        for _ in range(200):
            unit = rng.choice((1, 2, 3, 10, 65_536))
            numerators = [rng.randint(-5, 5) * rng.choice((1, unit**k)) for k in range(6)]
            values = [Fraction(x, unit**k) for k, x in enumerate(numerators)]
            written = Written(unit, tuple(numerators))
            self.assertEqual(written.peak, values.index(max(values)))
            for step, value in enumerate(values):
                other = rng.choice((value, Fraction(rng.randint(-9, 9), rng.randint(1, 9))))
                counts, places = rng.randint(1, 20), rng.randrange(4)
                self.assertEqual(written.passes(step, other), value > other)
                expected = quantities.rounded_up(value / counts - other, places)
                self.assertEqual(written.up(step, counts, places, other), expected)
            bounds = {step: Fraction(rng.randint(-9, 9), 3) for step in rng.sample(range(6), 3)}
            above = {step: values[step] / 4 - bound for step, bound in bounds.items()}
            most = next(step for step in bounds if above[step] == max(above.values()))
            self.assertEqual(written.farthest(bounds, 4), most)
            self.assertIsNone(written.farthest({}, 4))
            for level in range(-6, 7):
                reached = (step for step, value in enumerate(values) if exact.reaches(value, level))
                self.assertEqual(written.reached(level), next(reached, None))


if __name__ == "__main__":
    unittest.main()
