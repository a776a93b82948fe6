"""The exact program against the specification's figures, and against runs counted one by one."""

import collections
import itertools
import math
import random
import struct
import tempfile
import unittest
from dataclasses import replace
from fractions import Fraction
from operator import mul
from pathlib import Path

from helpers import BEYOND_BY_HALF, HALVED_ONCE, box, run_tool, single

import exact
import listings
import models
import readerfiles
from layout import (
    BODY_LENGTHS, BOX, END, FITTED, GROWTH_LIMIT, INITIAL, LONGEST_FILE, LONGEST_WRITTEN,
    MIN_POINTS, ROW, VERTEX, VERTICES, ZONOTOPE, Model, Set, direction, drift, encode, fitted,
    fitted_rows_of, guard, head, offsets, pattern, point, row, states_input,
)
from listings import Growth, Listing, Refusal, Sweep, Verdict

# The sample of Listing 8, byte by byte: n 1, steps 3; row 0; four corners; a direction; 3 guards.
REST = "00" * 20  # entries 1 to 5
SAMPLE = bytes.fromhex(
    "01 01 0300"
    f"02 00 00800000 {REST}"
    f"10 00000000 {REST} 11 00000000 {REST}"
    f"20 00000000 {REST} 21 01000000 {REST}"
    f"30 01000000 {REST}"
    "40 00 0100000000000000 40 00 0200000000000000 40 00 0300000000000000"
    "FF"
)
SAMPLE_LISTING = """\
model 1 3
dir 0 spare 10
0 0 0
1 1 0
2 2 1
3 2 1
guard 0 UNKNOWN 2
guard 1 CLEAR
guard 2 CLEAR
"""


def swept(model):
    return exact.sweep(model, model.directions[0])


def figures(form, points, r):
    """Support at r and reach of a set."""
    set_ = Set(form, points)
    return exact.support(set_, r), exact.reach(set_, len(r))


def last(model):
    """r(K) and e(K)."""
    *_, found = itertools.islice(exact.working(model, model.directions[0]), model.steps + 1)
    return found


class Figures(unittest.TestCase):
    """Figures 1 to 14, 21 to 28 and 30 to 32, the sample, and further figures worked by hand."""

    def test_case_1(self):
        told = swept(single(65_536, (2, 5), (-1, 1), 3, 2))
        self.assertEqual((told.bounds, told.slacks), ((15, 18, 21), (0, 0, 0)))

    def test_cases_2_and_3(self):
        model = single(65_536, (2, 5), (-1, 1), 3, 2, guards=(21, 22))
        self.assertEqual(exact.listing_of(model).guards, (Verdict("CLEAR"), Verdict("CLEAR")))

    def test_case_4(self):
        told = swept(single(32_768, (0, 100), (0, 0), 1, 3))
        self.assertEqual((told.bounds, told.slacks), ((100, 50, 25, 13), (0, 0, 0, 1)))

    def test_case_5(self):
        model = single(1, (0, 100), (0, 0), 1, 2)
        steps = list(itertools.islice(exact.working(model, (1,)), 3))
        self.assertEqual([r for r, _ in steps], [[1_048_576], [16], [0]])
        self.assertEqual(steps[2][1], [1])
        self.assertEqual((swept(model).bounds, swept(model).slacks), ((100, 1, 1), (0, 1, 2)))

    def test_case_6(self):
        """N is -16, nearer to 0 than to -65,536. T is 100, and half of it is counted."""
        model = single(1, (0, 100), (0, 0), -1, 2)
        self.assertEqual(last(model), ([0], [1]))
        self.assertEqual((swept(model).bounds, swept(model).slacks), ((0, 0, 1), (0, 0, 2)))

    def test_cases_7_and_8(self):
        self.assertEqual(swept(single(131_072, (0, 0), (0, 0), 1, 10)).spare, 0)
        self.assertEqual(swept(single(131_072, (0, 0), (0, 0), 1, 11)), Growth(11))

    def test_case_9(self):
        set_ = Set(ZONOTOPE, ((1, -2), (3, 1), (-1, 2)))
        self.assertEqual((exact.support(set_, (1, 1)), exact.reach(set_, 2)), (4, (5, 5)))

    def test_case_10(self):
        self.assertEqual(exact.support(Set(VERTICES, ((0, 0), (4, 0), (0, 3))), (1, 2)), 6)

    def test_case_11(self):
        self.assertEqual(exact.support(box((-2, 1), (3, 4)), (-1, 1)), 6)

    def test_case_12(self):
        zero = box((0, 0), (0, 0))
        rows = ((0, 65_536), (0, 0))
        model = Model(2, 1, rows, box((0, 1), (7, 9)), zero, ((1, 0),), ())
        self.assertEqual(swept(model).bounds[1], 9)

    def test_case_13(self):
        sets = box((0, 0)), box((0, 0))
        for entry, number in ((1_000, None), (1_001, 7), (-1_001, 7)):
            model = Model(1, 1, ((0,),), *sets, ((entry,),), ())
            self.assertEqual(getattr(exact.read_model(encode(model)), "number", None), number)
        for reach, number in ((1_048_576, None), (1_048_577, 6), (-1_048_577, 6)):
            initial = Set(VERTICES, ((reach,),))
            model = Model(1, 1, ((0,),), initial, sets[1], ((1,),), ())
            self.assertEqual(getattr(exact.read_model(encode(model)), "number", None), number)

    def test_case_14(self):
        self.assertEqual(exact.listing(b""), "refused 1 at 0\n")

    def test_case_21(self):
        """The products are 3, 2 and -3."""
        points, r = ((1, -2), (3, 1), (-1, 2)), (1, -1)
        self.assertEqual(figures(ZONOTOPE, points[:2], r), (5, (4, 3)))
        self.assertEqual(figures(ZONOTOPE, points, r), (8, (5, 5)))

    def test_case_22(self):
        """The products are 0, 8 and 3."""
        points, r = ((0, 0), (4, 0), (0, 3)), (2, 1)
        self.assertEqual(figures(VERTICES, points[:2], r), (8, (4, 0)))
        self.assertEqual(figures(VERTICES, points, r), (8, (4, 3)))

    def test_case_23(self):
        """1.5 over 65,536 is 1.5 x 2^-16, whose exponent is 1,007, and 2.5 is 1.25 x 2^-15."""
        refused = Refusal(15, 4)
        for bits, expected in (
            # 1.5, 2.5, -1.5 and -2.5 over 65,536; the next above and below 2.5 / 65,536
            (0x3EF8_0000_0000_0000, 2), (0x3F04_0000_0000_0000, 2),
            (0xBEF8_0000_0000_0000, -2), (0xBF04_0000_0000_0000, -2),
            (0x3F04_0000_0000_0001, 3), (0x3F03_FFFF_FFFF_FFFF, 2),
            # 2, -2 and the next above 2
            (0x4000_0000_0000_0000, 131_072), (0xC000_0000_0000_0000, -131_072),
            (0x4000_0000_0000_0001, refused),
            # both zeros, the smallest above 0 and 0.5 / 65,536
            (0x0000_0000_0000_0000, 0), (0x8000_0000_0000_0000, 0),
            (0x0000_0000_0000_0001, 0), (0x3EE0_0000_0000_0000, 0),
            # both infinities and two NaNs
            (0x7FF0_0000_0000_0000, refused), (0xFFF0_0000_0000_0000, refused),
            (0x7FF8_0000_0000_0000, refused), (0xFFF0_0000_0000_0001, refused),
        ):
            data = head(1, 1) + fitted(0, [bits]) + point(0x14, [1]) + direction([1]) + b"\xff"
            read = exact.read_model(data)
            found = read if isinstance(read, Refusal) else read.matrix[0][0]
            self.assertEqual(found, expected, hex(bits))

    def test_cases_24_and_25(self):
        for d in (1, -1):
            told = swept(single(65_536, (0, 0), (0, 0), d, 2, drift=3 * d))
            self.assertEqual((told.bounds, told.slacks), ((0, 3, 6), (0, 0, 0)))

    def test_case_26(self):
        for entry, high, expected in ((1_048_576, 0, None), (1_048_576, 1, Refusal(17, 130)),
                                      (1_048_577, 0, Refusal(17, 30))):
            for sign in (1, -1):
                model = single(0, (0, 0), (0, high), 1, 1, drift=sign * entry)
                self.assertEqual(exact.read_model(encode(model)), expected or model)

    def test_case_27(self):
        """r is 1,048,576, 16, 0, 0, .. and e is 0, 0, 1, 1, ..

        Supports of what enters are 524,288 counts, 8 and then 0. It reaches 1,048,576, so that half
        of T is 0.5, 1 and 1.5 counts from step 3 on; the moved input set reaches half as far.
        """
        model = single(1, (0, 0), (-524_288, 0), 1, 5, drift=524_288)
        told = swept(model)
        self.assertEqual(told.bounds, (0, 524_288, 524_296, 524_297, 524_297, 524_298))
        self.assertEqual(told.slacks, (0, 0, 0, 2, 2, 4))
        moved = swept(single(1, (0, 0), (0, 524_288), 1, 5))
        self.assertEqual(moved.bounds, (*told.bounds[:5], 524_297))
        self.assertEqual(moved.slacks, (*told.slacks[:5], 3))

    def test_case_28(self):
        """The last column of a fitted row of 0.5, its number, and the second column of a drift."""
        asked = point(INITIAL + VERTEX, ()) + direction((1,)) + bytes([END])

        def said(number: int, last: int, second: int) -> Model | Refusal:
            row_ = fitted(number, (pattern(0.5), 0, 0, 0, 0, last))
            return exact.read_model(head(1, 1) + row_ + drift((0, second)) + asked)

        zeros, minus = said(0, 0, 0), 1 << 63
        self.assertEqual(zeros.matrix, ((32_768,),))
        self.assertEqual(said(0, minus, 0), zeros)
        self.assertEqual([said(0, 1, 0), said(1, 1, 0)], [Refusal(16, 4)] * 2)
        self.assertEqual(said(1, 0, 0), Refusal(5, 4))
        self.assertEqual(said(0, minus, 1), Refusal(16, 54))

    def test_case_30(self):
        """Bounds 15, 18, 21 without slack: the first above 20 is that of step 2."""
        model = single(65_536, (2, 5), (-1, 1), 3, 2, guards=(20,))
        self.assertEqual(exact.listing_of(model).guards, (Verdict("HIT", 2),))

    def test_case_31(self):
        """Bound - slack is 0, 1, 1, 1, never above 1; the bounds 0, 1, 2, 2 never above 2."""
        model = single(32_768, (0, 0), (0, 1), 1, 3, guards=(0, 1, 2))
        told = exact.listing_of(model)
        self.assertEqual(told.directions[0], Sweep(10, (0, 1, 2, 2), (0, 0, 1, 1)))
        self.assertEqual(
            told.guards, (Verdict("HIT", 1), Verdict("UNKNOWN", 2), Verdict("CLEAR")))

    def test_case_32(self):
        """All signed numbers of 64 bits but one are above the lowest, and none above the highest."""
        model = single(65_536, (2, 5), (-1, 1), 3, 2, guards=(-2**63, 2**63 - 1))
        self.assertEqual(exact.listing_of(model).guards, (Verdict("HIT", 0), Verdict("CLEAR")))

    def test_sample(self):
        self.assertEqual(len(SAMPLE), 186)
        self.assertEqual(exact.listing(SAMPLE), SAMPLE_LISTING)

    def test_e_is_rounded_up(self):
        told = swept(single(3, (0, 1), (0, 0), 1, 3))
        self.assertEqual((told.bounds, told.slacks), ((1, 1, 1, 1), (0, 1, 2, 2)))

    def test_growth_listing(self):
        """Direction 2,000 / 2 doubles past 2^30 at once: 1,000 is the most, and 2,000 > 1,024."""
        model = single(131_072, (0, 0), (0, 0), 1_000, 3, guards=(5,))
        text = "model 1 3\ndir 0 growth 1\nguard 0 GROWTH 1\n"
        self.assertEqual(exact.listing(encode(model)), text)

    def test_default_steps(self):
        """A head that says 0 says 120; any other says its own steps."""
        model = single(0, (0, 0), (0, 0), 1, 3)
        for stated, steps in ((0, 120), (1, 1), (60, 60), (119, 119), (120, 120), (256, 256)):
            text = exact.listing(encode(model, stated_steps=stated))
            self.assertTrue(text.startswith(f"model 1 {steps}\n"), stated)
            self.assertTrue(text.endswith(f"\n{steps} 0 0\n"), stated)


class OnePointMore(unittest.TestCase):
    """Sets 16 to 19: figures of a set by those of the set before and of the new point alone."""

    def check(self, form, joined):
        """Check sets of each n that get one point after the other; of a centre alone the reach.

        A figure is `joined` of the one before and the new point's; of one point it is its own. With
        each n a product of each sign comes below, at and above the support so far.
        """
        rng = random.Random(4)
        seen = collections.Counter()
        for n in [*range(1, 7)] * 300:
            [r] = models.vectors(rng, n, GROWTH_LIMIT, 1)
            points = models.growing(rng, form, n)
            for count, new in enumerate(points, start=1):
                product, magnitudes = sum(map(mul, r, new)), tuple(map(abs, new))
                if count == 1:
                    support, reach = product, magnitudes
                else:
                    seen[n, product > 0, product < 0, product > support, product < support] += 1
                    support = joined(support, product)
                    reach = tuple(map(joined, reach, magnitudes))
                set_ = Set(form, points[:count])
                self.assertEqual(exact.reach(set_, n), reach)
                if count >= MIN_POINTS[form]:
                    self.assertEqual(exact.support(set_, r), support)
        self.assertEqual(len(seen), 6 * 3 * 3)
        self.assertGreater(min(seen.values()), 3, seen)

    def test_one_vertex_more(self):
        self.check(VERTICES, max)

    def test_one_generator_more(self):
        self.check(ZONOTOPE, lambda so_far, new: so_far + abs(new))


class Rounding(unittest.TestCase):
    """Units rounded to the nearest and errors in half units: figures worked by hand.

    The r and e of seven steps and more were found by a search with another program.
    """

    def told(self, model, bounds, slacks):
        self.assertEqual((swept(model).bounds, swept(model).slacks), (bounds, slacks))

    def test_nearest(self):
        """By the entry 32, r(1) is 512 d and N is 16,384 d, so that r(2) is d / 4, rounded."""
        for entry, r in ((1, 0), (2, 1), (3, 1), (4, 1), (5, 1), (6, 2), (7, 2), (998, 250),
                         (-1, 0), (-2, 0), (-3, -1), (-4, -1), (-5, -1), (-6, -1), (-7, -2),
                         (-998, -249)):
            model = single(32, (0, 0), (0, 0), entry, 2)
            self.assertEqual(last(model), ([r], [1 if entry % 4 else 0]), entry)

    def test_halves_go_up(self):
        """Half of e(2) x 1,048,576 is half a count, and r(2) is 1 count or none."""
        limit = 1_048_576
        self.told(single(32, (0, limit), (0, 0), 2, 2), (2_097_152, 1_024, 2), (0, 0, 2))
        self.told(single(32, (-limit, 0), (0, 0), -2, 2), (2_097_152, 1_024, 1), (0, 0, 2))

    def test_half_of_t_is_rounded_up(self):
        """In the first r(2) is 0 and T is 1. In the others r(2) is -1, and T is 3 and 2."""
        self.told(single(1, (0, 1), (0, 0), 1, 2), (1, 1, 1), (0, 1, 2))
        self.told(single(32, (1, 3), (0, 0), -3, 2), (-3, 0, 1), (0, 1, 2))
        self.told(single(32, (1, 2), (0, 0), -3, 2), (-3, 0, 0), (0, 1, 1))

    def test_t_is_halved_once(self):
        """T is 2, of two terms that are 1, and the supports are -1: the last raw bound is 0."""
        coordinates, sets, steps = HALVED_ONCE
        self.told(coordinates, (-3, 0, 0), (0, 1, 1))
        self.told(sets, (0, -3, 0, 0), (0, 0, 1, 1))
        self.told(steps, (-1, 0, 0, 0, 0), (0, 1, 1, 2, 1))

    def test_slack_is_two_halves(self):
        """T is 600,000 at step 2 of both, and 1,200,000 at step 3 of the second."""
        self.told(single(3, (0, 600_000), (0, 0), 1, 2), (600_000, 28, 1), (0, 1, 2))
        self.told(single(100, (0, 600_000), (0, 0), 1, 3), (600_000, 916, 2, 1), (0, 1, 2, 3))

    def test_growth_counts_half_of_e(self):
        """r(15) is 191 below the limit, and half of e(15) is 442."""
        model = single(99_334, (0, 0), (0, 0), 2, 15)
        self.assertEqual(last(model), ([1_073_741_633], [884]))
        self.assertEqual(swept(model), Growth(15))
        self.assertEqual(swept(single(99_334, (0, 0), (0, 0), 2, 14)).spare, 0)

    def test_growth_does_not_count_the_whole_of_e(self):
        """r(10) is 97 below the limit, and half of e(10) is 54."""
        model = single(99_334, (0, 0), (0, 0), 16, 10)
        self.assertEqual(last(model), ([1_073_741_727], [108]))
        self.assertEqual(swept(model).spare, 0)

    def test_growth_counts_half_of_e_rounded_up(self):
        """N[0] is 2^46 + 16 at step 2, and with the entry -131,072 it is 2^46."""
        self.assertEqual([part[0] for part in last(BEYOND_BY_HALF)], [2**30, 1])
        self.assertEqual(swept(BEYOND_BY_HALF), Growth(2))
        exactly = replace(BEYOND_BY_HALF, matrix=((131_072, 0), (1, -131_072)))
        self.assertEqual([part[0] for part in last(exactly)], [2**30, 0])
        self.assertEqual(swept(exactly).spare, 0)

    def test_spare_counts_half_of_e_rounded_up(self):
        """Half of e passes a power of two, or meets it, or does not come to it; or it is 40.5."""
        for entry, d, steps, r, e, spare in (
            (81_325, 87, 5, 2**28 - 3, 8, 1),
            (99_334, 2, 5, 2**24 - 1, 11, 5),
            (99_334, 2, 10, 2**27 - 18, 108, 2),
            (99_334, 16, 5, 2**27 - 6, 11, 3),
            (118_715, 1, 7, 2**26 - 44, 50, 4),
            (66_993, 58, 36, 2**27 - 40, 81, 2),
        ):
            model = single(entry, (0, 0), (0, 0), d, steps)
            self.assertEqual((last(model), swept(model).spare), (([r], [e]), spare))


class Reader(unittest.TestCase):
    """Numbers and offsets worked out from "The file" and "Refusals by place"."""

    rows = head(1, 3) + row(0, [5])  # 30 bytes
    sets = rows + point(0x14, [1]) + point(0x24, [1])  # 80 bytes
    asked = sets + direction([1])  # 105 bytes

    def refused(self, data, number, offset):
        self.assertEqual(exact.read_model(data), Refusal(number, offset), data.hex())

    def test_lengths(self):
        self.assertEqual([len(part) for part in (self.rows, self.sets, self.asked)], [30, 80, 105])
        self.assertEqual(sum(BODY_LENGTHS.values()), 3 + 25 + 49 + 24 + 10 * 24 + 24 + 9)

    def test_kind_before_body(self):
        self.refused(b"\x01", 1, 0)
        self.refused(b"\x00", 2, 0)
        self.refused(b"\x02", 3, 0)
        self.refused(self.rows + b"\x02", 3, 30)  # row n + 1, though its body is cut
        self.refused(self.rows + b"\x14", 1, 30)
        self.refused(self.asked + direction([1]) * 15 + b"\x30", 9, 105 + 15 * 25)

    def test_order_before_count(self):
        many = self.asked + direction([1]) * 15 + guard(0, 1)
        self.refused(many + direction([1]), 3, len(many))
        corners = self.rows + point(0x10, [1]) + point(0x11, [1])
        self.refused(corners + point(0x11, [1]), 3, 80)
        self.refused(head(1, 3) + head(1, 3), 3, 4)

    def test_parts_below_their_least_count(self):
        self.refused(head(2, 3) + row(0, [5]) + point(0x14, [1]), 3, 30)
        self.refused(self.rows + point(0x12, [1]) + point(0x24, [1]), 3, 55)
        self.refused(self.rows + point(0x10, [1]) + point(0x24, [1]), 3, 55)
        self.refused(self.sets + b"\xff", 3, 80)
        self.refused(self.rows + direction([1]), 3, 30)

    def test_counts(self):
        for first, other, most in ((0x12, 0x13, 8), (0x14, 0x14, 15)):
            full = self.rows + point(first, [1]) + point(other, [1]) * most
            self.refused(full, 1, len(full))
            self.refused(full + point(other, [1]), 9, len(full))
        guards = self.asked + guard(0, 1) * 16
        self.assertIsInstance(exact.read_model(guards + b"\xff"), Model)
        self.refused(guards + guard(0, 1) + b"\xff", 9, 105 + 160)

    def test_values(self):
        self.refused(head(0, 3), 4, 0)
        self.refused(head(7, 3), 4, 0)
        self.refused(head(1, 257), 4, 0)
        self.refused(head(1, 3) + row(1, [0]), 5, 4)
        self.refused(head(1, 3) + row(0, [131_073]), 5, 4)
        self.refused(head(1, 3) + row(0, [-(2**31)]), 5, 4)
        self.refused(self.rows + point(0x10, [3]) + point(0x11, [2]), 6, 55)
        self.refused(self.rows + point(0x12, [-9]) + point(0x13, [1_048_568]), 6, 55)
        self.refused(self.sets + direction([0]), 7, 80)
        self.refused(self.asked + guard(1, 0), 8, 105)

    def test_reach_of_a_zonotope_is_summed(self):
        start = self.rows + point(0x12, [-1_048_570]) + point(0x13, [-6])
        self.refused(start, 1, 80)
        self.refused(start + point(0x13, [1]), 6, 80)

    def test_bytes_after_the_end(self):
        self.refused(self.asked + b"\xff\xff", 10, 106)
        self.refused(self.asked + b"\xff" + bytes(5_000), 10, 106)

    def test_longest_file(self):
        points = Set(VERTICES, ((1,) * 6,) * 16)
        model = Model(6, 256, ((0,) * 6,) * 6, points, points, ((1,) * 6,) * 16, ((15, 0),) * 16)
        for stated, count in itertools.product((False, True), range(7)):
            rows = {number: [0] * 6 for number in range(count)}
            data = encode(model, fitted_rows=rows, drift_stated=stated)
            self.assertEqual(len(data), 1_521 + 24 * count + 25 * stated)
            self.assertEqual(exact.read_model(data), model)
        self.assertEqual((len(data), LONGEST_FILE), (1_690, 1_690))
        self.refused(data + b"\0", 10, 1_690)


def patterns():
    """Patterns of 64 bits: around every power of two, around ties, and at random."""
    rng = random.Random(5)
    ties = [pattern((k + 0.5) / 65_536) for k in (*range(40), *rng.sample(range(2**17), 400))]
    powers = [exponent << 52 for exponent in range(0x800)]
    for bits in (*powers, *ties, *(rng.getrandbits(63) for _ in range(2_000))):
        for near in (bits - 1, bits, bits + 1):
            if 0 <= near < 2**63:
                yield from (near, near | 2**63)


class Fitted(unittest.TestCase):
    """Fitted rows (File 11 to 14, Refusals 15), also against the floats of Python."""

    ONE = 0x3FF0_0000_0000_0000
    NO_ENTRIES = {
        "next above 2": 0x4000_0000_0000_0001,
        "next below -2": 0xC000_0000_0000_0001,
        "3": 0x4008_0000_0000_0000,
        "largest": 0x7FEF_FFFF_FFFF_FFFF,
        "infinity": 0x7FF0_0000_0000_0000,
        "minus infinity": 0xFFF0_0000_0000_0000,
        "signalling NaN": 0x7FF0_0000_0000_0001,
        "quiet NaN": 0x7FF8_0000_0000_0000,
        "quiet NaN with sign": 0xFFF8_0000_0000_0000,
        "all ones": 0xFFFF_FFFF_FFFF_FFFF,
    }

    def read(self, n, *rows):
        """The matrix of a file with these rows, or its refusal."""
        end = point(0x14, [1] * n) + direction([1] * n) + b"\xff"
        read = exact.read_model(head(n, 1) + b"".join(rows) + end)
        return read if isinstance(read, Refusal) else read.matrix

    def test_values_are_those_of_floats(self):
        for bits in patterns():
            value = struct.unpack("<d", bits.to_bytes(8, "little"))[0]
            expected = Fraction(value) if math.isfinite(value) else None
            self.assertEqual(exact.binary64(bits), expected, hex(bits))

    def test_values_by_hand(self):
        for bits, value in (
            (0x3FF8_0000_0000_0000, Fraction(3, 2)),
            (0xBFD0_0000_0000_0000, Fraction(-1, 4)),
            (0x0010_0000_0000_0000, Fraction(1, 2**1022)),
            (0x000F_FFFF_FFFF_FFFF, Fraction(2**52 - 1, 2**1074)),
            (0x8000_0000_0000_0001, Fraction(-1, 2**1074)),
            (0x8000_0000_0000_0000, 0),
            (0x7FEF_FFFF_FFFF_FFFF, (2**53 - 1) * 2**971),
        ):
            self.assertEqual(exact.binary64(bits), value, hex(bits))

    def test_the_nearest_and_of_two_the_even_one(self):
        for value, entry in (("5/2", 2), ("7/2", 4), ("-5/2", -2), ("-7/2", -4), ("1/2", 0),
                             ("-1/2", 0), ("49/100", 0), ("51/100", 1), ("-51/100", -1),
                             ("-149/100", -1), ("3", 3), ("-3", -3)):
            self.assertEqual(exact.nearest(Fraction(value)), entry, value)
        for bits in patterns():
            value = exact.binary64(bits)
            if value is not None and abs(value) <= 2:
                entry = exact.fitted_entry(value)
                self.assertEqual(entry, round(65_536 * value), hex(bits))
                self.assertLessEqual(2 * abs(entry - 65_536 * value), 1)
                self.assertLessEqual(abs(entry), 131_072)

    def test_a_scaled_entry_stays(self):
        """File 14, of every entry that a scaled row can hold."""
        for entry in range(-131_072, 131_073):
            if exact.fitted_entry(exact.binary64(pattern(entry / 65_536))) != entry:
                self.fail(entry)

    def test_rows_are_mixed_in_any_way(self):
        """Row i is (i + 1, -i) in 65,536ths, either way; the fitted ones are a little off."""
        for kinds in itertools.product((0x02, 0x03), repeat=3):
            rows = [
                row(i, [i + 1, -i, 7]) if kind == 0x02
                else fitted(i, [pattern((x + 0.4) / 65_536) for x in (i + 1, -i, 7)])
                for i, kind in enumerate(kinds)
            ]
            self.assertEqual(self.read(3, *rows), tuple((i + 1, -i, 7) for i in range(3)))

    def test_each_entry_is_tested(self):
        for n in range(1, 7):
            for i, number in itertools.product(range(n), {0, n - 1}):
                for what, bits in self.NO_ENTRIES.items():
                    rows = [fitted(j, [self.ONE] * n) for j in range(n)]
                    rows[number] = fitted(number, [bits if j == i else 0 for j in range(n)])
                    self.assertEqual(self.read(n, *rows), Refusal(15, 4 + 50 * number), what)

    def test_body_then_number_then_entries(self):
        wrong = fitted(1, [self.NO_ENTRIES["quiet NaN"]])
        self.assertEqual(exact.read_model(head(1, 1) + b"\x03"), Refusal(1, 4))
        self.assertEqual(exact.read_model(head(1, 1) + wrong[:-1]), Refusal(1, 4))
        self.assertEqual(exact.read_model(head(1, 1) + wrong), Refusal(5, 4))
        self.assertEqual(exact.read_model(head(1, 1) + b"\x03\0" + wrong[2:]), Refusal(15, 4))
        for number in (0, 2, 255):
            self.assertEqual(self.read(2, row(0, []), fitted(number, [])), Refusal(5, 30))
            self.assertEqual(self.read(2, fitted(0, []), row(number, [])), Refusal(5, 54))

    def test_order(self):
        """It may stand where a scaled row may, and nowhere else."""
        self.assertEqual(exact.read_model(b"\x03"), Refusal(3, 0))
        self.assertEqual(self.read(1, row(0, []), fitted(1, [])), Refusal(3, 30))
        self.assertEqual(self.read(1, fitted(0, []), row(1, [])), Refusal(3, 54))
        self.assertEqual(self.read(2, fitted(0, [])), Refusal(3, 54))
        rest = [point(0x14, [1]), point(0x24, [1]), direction([1]), guard(0, 1)]
        for count in range(1, 5):
            start = head(1, 1) + row(0, []) + b"".join(rest[:count])
            self.assertEqual(exact.read_model(start + fitted(1, [])), Refusal(3, len(start)))

    def test_the_envelope_is_that_of_the_rounded_matrix(self):
        """0.3 becomes 19,661 (19,660.8): the listing is that of the scaled row."""
        model = single(19_661, (0, 1_000_000), (-3, 5), 7, 9, guards=(1_000,))
        data = encode(model, fitted_rows={0: [pattern(0.3)]})
        self.assertEqual(exact.listing(data), exact.listing(encode(model)))
        exact.check_accuracy(exact.read_model(data), exact.listing_of(model))

    def test_the_fitted_rows_of_a_file(self):
        model = Model(2, 1, ((1, 2), (3, 4)), Set(VERTICES, ((1, 1),)), box((0, 0), (0, 0)),
                      ((1, 1),), ())
        for rows in ({}, {0: (5, 6)}, {1: (2**64 - 1, 7)}, {0: (0, 0), 1: (1, 2)}):
            self.assertEqual(fitted_rows_of(encode(model, fitted_rows=rows), 2), rows)


LIMIT = 1_048_576


def moved(set_, by):
    """A set moved by a vector (Sets 20)."""
    count = 1 if set_.form == ZONOTOPE else len(set_.points)
    points = [tuple(map(sum, zip(point, by))) for point in set_.points[:count]]
    return Set(set_.form, (*points, *set_.points[count:]))


class Drift(unittest.TestCase):
    """The drift record (File 5 to 7, File 15, Refusals 17) and what enters (Recurrence 15, 16)."""

    rows = head(1, 3) + row(0, [5])  # 30 bytes
    # By the kind of an input point: those before it, and with what it and they reach 100.
    points = {0x20: ((), 100, -100), 0x21: ((-60,), 100), 0x22: ((), 100, -100),
              0x23: ((-50, 9), 41, -41), 0x24: ((-70, 30), 100, -100)}

    def refused(self, data, number, offset):
        self.assertEqual(exact.read_model(data), Refusal(number, offset), data.hex())

    def file(self, n, entries, *inputs, last=ROW):
        """A file with this drift and these records of the input set; the last row is of `last`."""
        rows = [row(i, []) for i in range(n)]
        if last == FITTED:
            rows[-1] = fitted(n - 1, [])
        return b"".join([head(n, 1), *rows, drift(entries), point(0x14, []), *inputs,
                         direction([1]), b"\xff"])

    def test_each_entry_is_tested(self):
        for n, last in itertools.product(range(1, 7), (ROW, FITTED)):
            at = 4 + 26 * n + (24 if last == FITTED else 0)
            for i, sign in itertools.product(range(n), (1, -1)):
                for size in (0, 1, LIMIT, LIMIT + 1, 2**31 - (sign > 0)):
                    entries = [sign * size if j == i else 0 for j in range(n)]
                    read = exact.read_model(self.file(n, entries, last=last))
                    if size <= LIMIT:
                        self.assertEqual(read.drift, tuple(entries))
                    else:
                        self.assertEqual(read, Refusal(17, at))

    def test_place(self):
        """Straight after the last row, and nowhere else."""
        parts = [head(2, 1), row(0, []), fitted(1, []), point(0x10, []), point(0x11, []),
                 point(0x20, []), point(0x21, []), direction([1]), guard(0, 1), b"\xff"]
        for at in range(len(parts) + 1):
            start = b"".join(parts[:at])
            read = exact.read_model(start + drift([7, -7]) + b"".join(parts[at:]))
            if at == 3:
                self.assertEqual(read.drift, (7, -7))
            else:
                self.assertEqual(read, Refusal(3 if at < len(parts) else 10, len(start)))
        self.refused(self.rows + drift([1]) * 2, 3, 55)
        self.refused(self.rows + drift([1]) + row(1, []), 3, 55)
        self.refused(self.rows + drift([1]) + direction([1]), 3, 55)
        for first, second in ((0x12, 0x13), (0x14, 0x14)):
            self.refused(self.rows + point(first, []) + drift([1]), 3, 55)
            self.refused(self.rows + point(first, []) + point(second, []) + drift([1]), 3, 80)

    def test_place_then_body_then_values(self):
        self.refused(b"\x05", 3, 0)
        self.refused(self.rows + b"\x05", 1, 30)
        self.refused(self.rows + drift([LIMIT + 1])[:-1], 1, 30)
        self.refused(self.rows + drift([LIMIT + 1]), 17, 30)
        self.refused(self.rows + drift([LIMIT]), 1, 55)
        self.refused(self.rows + drift([1]) + drift([LIMIT + 1])[:-1], 3, 55)

    def test_reach_with_the_drift(self):
        """The sum is tested at the point with which it passes its limit, in each coordinate."""
        start = head(2, 1) + row(0, []) + row(1, [])
        firsts = {0x21: 0x20, 0x23: 0x22}
        for kind, (before, *lasts) in self.points.items():
            kinds = [firsts.get(kind, kind)] * bool(before) + [kind] * max(len(before), 1)
            for i, sign, last in itertools.product(range(2), (1, -1), lasts):
                for more in (0, 1):
                    values = (*before, last + (more if last > 0 else -more))
                    data = start + drift([0] * i + [sign * (LIMIT - 100)]) + point(0x14, [])
                    data += b"".join(point(which, [0] * i + [value])
                                     for which, value in zip(kinds, values))
                    self.refused(data, *((17, len(data) - 25) if more else (1, len(data))))

    def test_the_initial_set_has_no_part_in_it(self):
        data = self.rows + drift([LIMIT]) + point(0x14, [LIMIT]) + direction([1]) + b"\xff"
        self.assertEqual(exact.read_model(data).drift, (LIMIT,))
        self.refused(self.rows + drift([LIMIT]) + point(0x14, [LIMIT + 1]), 6, 55)

    def test_6_comes_before_17(self):
        start = self.rows + drift([LIMIT]) + point(0x14, [0])  # 80 bytes
        for kind in (0x20, 0x22, 0x24):
            self.refused(start + point(kind, [LIMIT + 1]), 6, 80)
            self.refused(start + point(kind, [LIMIT]), 17, 80)
        self.refused(start + point(0x22, [0]) + point(0x23, [LIMIT + 1]), 6, 105)
        self.refused(start + point(0x22, [0]) + point(0x23, [1]), 17, 105)
        lower = start + point(0x20, [0])
        self.refused(lower + point(0x21, [-1]), 6, 105)  # below the lower corner
        self.refused(lower + point(0x21, [-LIMIT - 1]), 6, 105)
        self.refused(lower + point(0x21, [1]), 17, 105)
        # Crossed in one coordinate, and the sum beyond its limit in the other.
        crossed = self.file(2, [0, LIMIT], point(0x20, [3, 0]), point(0x21, [2, 1]))
        self.refused(crossed, 6, 4 + 2 * 26 + 3 * 25)

    def test_the_reach_is_a_sum_of_magnitudes(self):
        """Also where the drift takes the set toward zero."""
        self.assertEqual(exact.entering_reach(box((-9, -7), (-1, 2)), (9, -2)), (18, 4))
        read = exact.read_model(self.file(1, [LIMIT], point(0x20, [-1]), point(0x21, [0])))
        self.assertEqual(read, Refusal(17, 80))

    def test_support_of_what_enters(self):
        set_ = Set(ZONOTOPE, ((1, -2), (3, 1), (-1, 2)))
        self.assertEqual(exact.entering_support(set_, (10, -100), (1, 1)), 4 - 90)
        self.assertEqual(exact.entering_support(box((-2, 1), (3, 4)), (5, 7), (-1, 1)), 6 + 2)

    def test_a_drift_by_itself(self):
        """Halved at each step, 3 adds up to 3, 4.5, 5.25 and 5.625, beside 8, 4, 2, 1, 0.5."""
        model = single(32_768, (0, 8), (0, 0), 1, 4, drift=3)
        self.assertEqual(exact.exact_values(model), [
            [8, 7, Fraction(13, 2), Fraction(25, 4), Fraction(49, 8)]
        ])
        self.assertEqual((swept(model).bounds, swept(model).slacks),
                         ((8, 7, 7, 7, 7), (0, 0, 1, 1, 1)))

    def test_it_goes_on_by_the_matrix(self):
        """Coordinate 1 passes its drift on to coordinate 0, one step later."""
        zero = box((0, 0), (0, 0))
        model = Model(2, 3, ((0, 65_536), (0, 0)), zero, zero, ((1, 0),), (), (1, 10))
        self.assertEqual(swept(model).bounds, (0, 1, 11, 11))
        self.assertEqual(exact.exact_values(model), [[0, 1, 11, 11]])

    def accepted(self, count):
        """Random models of `count` files, each with a drift that they can have."""
        rng = random.Random(6)
        for data in models.stream(16, count):
            model = exact.read_model(data)
            if isinstance(model, Refusal):
                continue
            model = replace(model, drift=())
            room = [LIMIT - x for x in exact.reach(model.input, model.n)]
            scale = rng.choice((1, 50, LIMIT))
            by = tuple(rng.randint(-min(x, scale), min(x, scale)) for x in room)
            yield model, replace(model, drift=by)

    def test_the_moved_input_set(self):
        """Runs 10: the same exact largest values; its bounds are never larger."""
        seen = collections.Counter()
        for without, model in self.accepted(500):
            other = replace(without, input=moved(model.input, model.drift))
            if exact.check_cost(model) < 100_000:
                self.assertEqual(exact.exact_values(model), exact.exact_values(other))
                exact.check_accuracy(model, exact.listing_of(model))
                seen["values", model.input.form] += 1
            for entries in model.directions:
                told, of_other = exact.sweep(model, entries), exact.sweep(other, entries)
                if isinstance(told, Growth):
                    self.assertEqual(told, of_other)
                    continue
                self.assertEqual(told.spare, of_other.spare)
                pairs = list(zip(told.bounds, of_other.bounds))
                self.assertTrue(all(bound >= other for bound, other in pairs))
                seen["larger"] += any(bound > other for bound, other in pairs)
        self.assertEqual(len(seen), 4)
        self.assertGreater(min(seen.values()), 20, seen)

    def test_zero_record(self):
        """File 15: the same model, or the same number, 25 bytes later from that place on."""
        seen = collections.Counter()
        for data in (*(data for _, data in readerfiles.all_files()), *models.stream(17, 900)):
            found = readerfiles.with_zero_drift(data)
            if found is None:
                continue
            at, with_drift = found
            expected = read = exact.read_model(data)
            reply = "model"
            if isinstance(read, Refusal):
                reply = "before" if read.offset < at else read.number
                expected = Refusal(read.number, read.offset + 25 * (read.offset >= at))
            else:
                self.assertEqual(read.drift, (0,) * read.n)
            self.assertEqual(exact.read_model(with_drift), expected, data.hex())
            seen[reply] += 1
        self.assertEqual(set(seen), {"model", "before", 1, 2, 3, *range(6, 11), 16})

    def test_zero_drift_adds_nothing(self):
        """Recurrence 17: supports and reaches are those of the input set alone."""
        for without, _ in self.accepted(100):
            none = (0,) * without.n
            self.assertEqual(exact.entering_reach(without.input, none),
                             exact.reach(without.input, without.n))
            for r in without.directions:
                self.assertEqual(exact.entering_support(without.input, none, r),
                                 exact.support(without.input, r))
            self.assertEqual(exact.listing(encode(without)),
                             exact.listing(encode(without, drift_stated=True)))


SIX_ENTRIES = (0x02, 0x03, 0x05, *range(0x10, 0x15), *range(0x20, 0x25), 0x30)


def numbers_of(record):
    """The six entries of a record of SIX_ENTRIES; of a fitted row the 64 bits of each."""
    if record[0] == FITTED:
        return struct.unpack("<6Q", record[2:])
    return struct.unpack("<6i", record[2 if record[0] == ROW else 1 :])


def whole_records(data):
    """The records of SIX_ENTRIES in a file whose bodies are whole, with their offsets."""
    for at in offsets(data):
        end = at + 1 + BODY_LENGTHS[data[at]]
        if data[at] in SIX_ENTRIES and end <= len(data):
            yield at, data[at:end]


def beyond(record, n):
    """The entries of a record beyond n that are not zero; of a fitted row either zero is one."""
    zeros = (0, 2**63) if record[0] == FITTED else (0,)
    return [entry for entry in numbers_of(record)[n:] if entry not in zeros]


def without_rubbish(data, n):
    """A file with zero in all entries beyond n."""
    kept = bytearray(data)
    for at, record in whole_records(data):
        first, size = (2 if record[0] in (ROW, FITTED) else 1), (8 if record[0] == FITTED else 4)
        kept[at + first + size * n : at + len(record)] = bytes(size * (6 - n))
    return bytes(kept)


class BeyondN(unittest.TestCase):
    """Entries beyond n (File 7, Refusals 16), of each kind that has entries."""

    numbers = (1, -1, 256, 1 << 24, 7, 2**31 - 1, -(2**31))
    patterns = {
        "smallest": 1, "minus the smallest": 2**63 | 1, "smallest normal one": 2**52,
        "second byte": 1 << 8, "fifth byte": 1 << 32, "last but one bit": 1 << 62,
        "1": 0x3FF0_0000_0000_0000, "-1": 0xBFF0_0000_0000_0000, "3": 0x4008_0000_0000_0000,
        "infinity": 0x7FF0_0000_0000_0000, "minus infinity": 0xFFF0_0000_0000_0000,
        "signalling NaN": 0x7FF0_0000_0000_0001, "quiet NaN": 0xFFF8_0000_0000_0000,
    }

    def refused(self, data, number, offset):
        self.assertEqual(exact.read_model(data), Refusal(number, offset), data.hex())

    def start(self, n, kind):
        """The start of a file behind which a record of this kind may stand."""
        made = {0x02: row, 0x03: fitted}.get(kind, row)
        rows = head(n, 3) + b"".join(made(i, [1] * n) for i in range(n))
        if kind in (0x02, 0x03):
            return rows[: -1 - BODY_LENGTHS[kind]]  # the last row comes next
        firsts = {0x11: 0x10, 0x13: 0x12, 0x21: 0x20, 0x23: 0x22}
        before = rows if kind < 0x20 else rows + point(0x14, [2] * n)
        return before + (point(firsts[kind], [0] * n) if kind in firsts else b"")

    def record(self, kind, n, entries, number=None):
        """A record of these six entries; of a row the number is n - 1, or this one."""
        made = {0x02: row, 0x03: fitted}.get(kind)
        if made:
            return made(n - 1 if number is None else number, entries)
        return point(kind, entries)

    def each(self):
        """Each n that leaves room beyond it, with each kind."""
        return itertools.product(range(1, 6), SIX_ENTRIES)

    def rubbish(self, kind):
        return self.patterns.values() if kind == FITTED else self.numbers

    def test_each_column_of_each_kind(self):
        for n, kind in self.each():
            start = self.start(n, kind)
            right = self.record(kind, n, [1] * n)
            self.refused(start + right, 1, len(start + right))
            for column, entry in itertools.product(range(n, 6), self.rubbish(kind)):
                entries = [1] * n + [entry if i == column else 0 for i in range(n, 6)]
                self.refused(start + self.record(kind, n, entries), 16, len(start))
            entries = [1] * n + [entry] * (6 - n)
            self.refused(start + self.record(kind, n, entries), 16, len(start))

    def test_all_six_count_with_n_6(self):
        for kind in SIX_ENTRIES:
            start, record = self.start(6, kind), self.record(kind, 6, [1] * 6)
            self.refused(start + record, 1, len(start + record))
        for column in range(6):
            alone = self.record(0x30, 6, [1 if i == column else 0 for i in range(6)])
            data = self.start(6, 0x30) + alone + b"\xff"
            self.assertEqual(exact.read_model(data).directions[0][column], 1)

    def test_either_zero_passes_in_a_fitted_row(self):
        for n in range(1, 6):
            models_ = {
                exact.read_model(
                    self.start(n, FITTED) + fitted(n - 1, [2**62] * n + list(zeros))
                    + point(0x14, [1]) + direction([1]) + b"\xff"
                )
                for zeros in itertools.product((0, 2**63), repeat=6 - n)
            }
            [model] = models_
            self.assertEqual(model.matrix[-1], (131_072,) * n)

    def test_one_bit_is_no_zero(self):
        """Of a fitted entry the sign alone may be set; of a number of 4 bytes no bit."""
        for column, bit in itertools.product(range(1, 6), range(64)):
            data = head(1, 3) + fitted(0, [0] * column + [1 << bit])
            self.refused(data, *((1, 54) if bit == 63 else (16, 4)))
        for column, bit in itertools.product(range(1, 6), range(32)):
            data = head(1, 3) + row(0, []) + b"\x14" + bytes(4 * column)
            self.refused(data + (1 << bit).to_bytes(4, "little") + bytes(20 - 4 * column), 16, 30)

    def test_it_comes_before_the_row_number(self):
        for n, kind in itertools.product(range(1, 6), (ROW, FITTED)):
            start = self.start(n, kind)
            for number in {0, 1, n, 255} - {n - 1}:
                self.refused(start + self.record(kind, n, [1] * n, number), 5, len(start))
                for column in range(n, 6):
                    entries = [0] * column + [1]
                    self.refused(start + self.record(kind, n, entries, number), 16, len(start))

    def test_it_comes_before_the_other_values(self):
        """Of each kind something else is wrong too: 16 with rubbish, and its own number without."""
        nan, large = 0x7FF8_0000_0000_0000, LIMIT + 1
        wrong = {0x02: [131_073], 0x03: [nan], 0x05: [large], 0x30: [1_001]}
        own = {0x02: 5, 0x03: 15, 0x05: 17, 0x30: 7}
        for n, kind in self.each():
            entries = wrong.get(kind, [large])
            start = self.start(n, kind)
            self.refused(start + self.record(kind, n, entries), own.get(kind, 6), len(start))
            for column in range(n, 6):
                full = entries + [0] * (column - len(entries)) + [1]
                self.refused(start + self.record(kind, n, full), 16, len(start))
        for n, column in ((n, column) for n in range(1, 6) for column in range(n, 6)):
            rubbish = [0] * (column - n) + [-1]
            # Directions of zeros, crossed corners, and the sum of reach and drift.
            self.refused(self.start(n, 0x30) + direction([0] * n + rubbish), 16,
                         len(self.start(n, 0x30)))
            for kind in (0x11, 0x21):
                start = self.start(n, kind)
                self.refused(start + point(kind, [-1]), 6, len(start))
                self.refused(start + point(kind, [-1] * n + rubbish), 16, len(start))
            start = self.start(n, 0x05) + drift([LIMIT]) + point(0x14, [])
            for kind in (0x20, 0x22, 0x24):
                self.refused(start + point(kind, [1]), 17, len(start))
                self.refused(start + point(kind, [1] * n + rubbish), 16, len(start))

    def test_the_whole_body_comes_first(self):
        for n, kind in self.each():
            start, record = self.start(n, kind), self.record(kind, n, [1] * 6)
            for length in range(1, len(record)):
                self.refused(start + record[:length], 1, len(start))

    def test_place_and_count_come_first(self):
        for n, kind in self.each():
            record = self.record(kind, n, [1] * 6)
            self.refused(record, 3, 0)
            rest = {0x02: self.start(n, 0x05), 0x03: self.start(n, 0x05)}
            behind = rest.get(kind, self.start(n, 0x30) + direction([1]) + guard(0, 1))
            self.refused(behind + record, 3, len(behind))
        for n in range(1, 6):
            for kind, count in ((0x13, 8), (0x14, 16), (0x23, 8), (0x24, 16), (0x30, 16)):
                start = self.start(n, kind) + point(kind, [1] * n) * count
                self.refused(start + point(kind, [1] * 6), 9, len(start))
                self.refused(start[:-25] + point(kind, [1] * 6), 16, len(start) - 25)

    def test_heads_and_guards_have_no_such_entries(self):
        start = self.start(1, 0x30) + direction([1])
        for level in (1 << bit for bit in range(63)):
            self.assertEqual(exact.read_model(start + guard(0, level) + b"\xff").guards,
                             ((0, level),))

    def test_the_sample_with_rubbish_in_one_place(self):
        """Each of the 20 bytes beyond n of six records gives 16, and no other byte of a body."""
        others = set(range(len(SAMPLE))) - set(offsets(SAMPLE))
        for at, record in whole_records(SAMPLE):
            for offset in range(at + len(record) - 20, at + len(record)):
                self.refused(SAMPLE[:offset] + b"\x01" + SAMPLE[offset + 1 :], 16, at)
                others.remove(offset)
        self.assertEqual(len(others), 3 + 1 + 6 * 4 + 3 * 9)
        for offset, byte in itertools.product(others, range(256)):
            read = exact.read_model(SAMPLE[:offset] + bytes([byte]) + SAMPLE[offset + 1 :])
            self.assertNotEqual(getattr(read, "number", None), 16, (offset, byte))

    def files(self):
        return (*(data for _, data in readerfiles.all_files()), *models.stream(19, 1_500))

    def test_accepted_files_have_zeros_alone(self):
        """File 7: of every record, each entry beyond n."""
        seen = collections.Counter()
        for data in self.files():
            read = exact.read_model(data)
            if isinstance(read, Refusal):
                continue
            for _, record in whole_records(data):
                self.assertEqual(beyond(record, read.n), [], data.hex())
                seen[record[0]] += read.n < 6
        self.assertEqual(set(seen), set(SIX_ENTRIES))
        self.assertGreater(min(seen.values()), 20, seen)

    def test_a_file_is_read_as_without_rubbish_up_to_the_first_of_it(self):
        """With zeros in place of all rubbish the reply is the same if it comes before the first.

        At the first record with rubbish 1, 2, 3, 9 and 10 stay, and every other number gives way.
        """
        seen = collections.Counter()
        for data in self.files():
            n = data[1] if data[:1] == b"\x01" and len(data) > 3 and 1 <= data[1] <= 6 else 6
            first = next((at for at, record in whole_records(data) if beyond(record, n)), None)
            read, cleaned = exact.read_model(data), exact.read_model(without_rubbish(data, n))
            if first is None:
                self.assertEqual(read, cleaned)
                continue
            number, offset = "model", len(data)
            if isinstance(cleaned, Refusal):
                number, offset = cleaned.number, cleaned.offset
            stays = offset < first or offset == first and number in (1, 2, 3, 9, 10)
            self.assertEqual(read, cleaned if stays else Refusal(16, first), data.hex())
            if offset == first:
                seen["stays" if stays else "gives way", number] += 1
            else:
                seen["before" if offset < first else "behind"] += 1
        expected = {"before", "behind", ("stays", 3), ("stays", 9)}
        expected |= {("gives way", number) for number in (5, 6, 7, 15, 17)}
        self.assertLessEqual(expected, set(seen), seen)


class NoInput(unittest.TestCase):
    """A direction straight after a complete initial set (File 6, File 10), and its neighbours."""

    rows = head(1, 3) + row(0, [5])  # 30 bytes
    # Each form at its least and at its largest count.
    initial = {
        "box": rows + point(0x10, [1]) + point(0x11, [2]),
        "one generator": rows + point(0x12, [1]) + point(0x13, [2]),
        "eight generators": rows + point(0x12, [1]) + point(0x13, [2]) * 8,
        "one vertex": rows + point(0x14, [1]),
        "sixteen vertices": rows + point(0x14, [1]) * 16,
    }

    def refused(self, data, number, offset):
        self.assertEqual(exact.read_model(data), Refusal(number, offset), data.hex())

    def test_case_4_without_its_input(self):
        data = bytes.fromhex(
            f"01 01 0300 02 00 00800000 {REST} 10 00000000 {REST} 11 64000000 {REST}"
            f"30 01000000 {REST} 40 00 0D00000000000000 FF"
        )
        text = "model 1 3\ndir 0 spare 10\n0 100 0\n1 50 0\n2 25 0\n3 13 1\nguard 0 HIT 0\n"
        self.assertEqual(exact.listing(data), text)

    def test_the_input_is_the_box_from_zero_to_zero(self):
        for what, start in self.initial.items():
            with self.subTest(what):
                read = exact.read_model(start + direction([1]) + b"\xff")
                self.assertEqual(read.input, Set(BOX, ((0,), (0,))))
                self.assertEqual(len(read.initial.points), (len(start) - 30) // 25)
        for n in range(1, 7):
            data = head(n, 3) + b"".join(row(i, []) for i in range(n)) + point(0x14, [7] * n)
            read = exact.read_model(data + direction([1]) + guard(0, 1) + b"\xff")
            self.assertEqual(read.input, box(*[(0, 0)] * n))
            self.assertEqual((read.n, read.guards), (n, ((0, 1),)))

    def test_behind_the_initial_set(self):
        for what, start in self.initial.items():
            at = len(start)
            for record, number, offset in (
                (b"", 1, at),
                (direction([1]), 1, at + 25),
                (direction([1])[:-1], 1, at),
                (b"\x30", 1, at),
                (direction([0]), 7, at),
                (direction([0, 1]), 16, at),
                (direction([1_001]), 7, at),
                (guard(0, 1), 3, at),
                (b"\x40", 3, at),
                (b"\xff", 3, at),
                (b"\x31", 2, at),
                (row(1, [5]), 3, at),
                (point(0x21, [1]), 3, at),
                (point(0x23, [1]), 3, at),
                (point(0x20, [1]), 1, at + 25),
                (point(0x22, [1]), 1, at + 25),
                (point(0x24, [1]), 1, at + 25),
            ):
                with self.subTest(what):
                    self.refused(start + record, number, offset)

    def test_an_incomplete_set_is_refused(self):
        vertex = self.rows + point(0x14, [1])  # 55 bytes
        for start, number, offset in (
            (b"", 3, 0),
            (head(1, 3), 3, 4),
            (head(2, 3) + row(0, [5]), 3, 30),
            (self.rows, 3, 30),
            (self.rows + point(0x10, [1]), 3, 55),
            (self.rows + point(0x12, [1]), 3, 55),
            (vertex + point(0x20, [0]), 3, 80),
            (vertex + point(0x22, [0]), 3, 80),
        ):
            self.refused(start + direction([1]), number, offset)

    def test_no_set_behind_a_direction(self):
        for start in self.initial.values():
            asked = start + direction([1])
            for kind in (*range(0x20, 0x25), *range(0x10, 0x15)):
                self.refused(asked + point(kind, [0]), 3, len(asked))
                self.refused(asked + guard(0, 1) + point(kind, [0]), 3, len(asked) + 10)
            self.refused(asked + guard(1, 1), 8, len(asked))
            self.refused(asked + direction([1]) * 16, 9, len(asked) + 15 * 25)
            self.refused(asked + b"\xff\0", 10, len(asked) + 1)

    def damaged(self):
        """Files without an input set, and each damaged in many ways or with 16 directions more."""
        rnd = random.Random(2)
        for data in models.stream(15, 900):
            if states_input(data):
                continue
            yield data
            if found := readerfiles.with_zero_corners(data):
                at, _ = found
                yield data[: at + 25] + data[at : at + 25] * 16 + data[at + 25 :]
            for _ in range(30):
                at = rnd.randrange(len(data))
                byte = bytes([rnd.choice((rnd.randrange(256), *BODY_LENGTHS))])
                rest = rnd.choice((b"", byte, byte + data[at:], byte + data[at + 1 :]))
                yield data[:at] + rest
            yield data + rnd.randbytes(3)

    def test_it_is_read_as_with_two_corners_of_zeros(self):
        """The same model, or the same number 50 bytes later, unless it comes before the corners."""
        replies = {"before": 0}
        for data in (*(data for _, data in readerfiles.all_files()), *self.damaged()):
            found = readerfiles.with_zero_corners(data)
            if found is None:
                continue
            at, with_corners = found
            self.assertEqual(with_corners[at : at + 50], b"\x20" + bytes(24) + b"\x21" + bytes(24))
            expected = read = exact.read_model(data)
            reply = "model"
            if isinstance(read, Refusal):
                reply = "before" if read.offset < at else read.number
            if reply in (*range(1, 11), 16):
                expected = Refusal(read.number, read.offset + 50)
            self.assertEqual(exact.read_model(with_corners), expected, data.hex())
            replies[reply] = replies.get(reply, 0) + 1
        self.assertEqual(set(replies), {"before", "model", 1, 2, 3, *range(7, 11), 16})
        self.assertGreater(min(replies.values()), 5, replies)

    def test_no_input_is_checked_with_the_zero_input_alone(self):
        """Runs 8: exact largest values are those of the initial corners, moved without an input."""
        checked = 0
        for data in models.stream(13, 400):
            model = exact.read_model(data)
            if isinstance(model, Refusal) or states_input(data) or model.steps > 16:
                continue
            self.assertEqual(exact.corners(model.input), [(0,) * model.n])
            exact.check_accuracy(model, exact.listing_of(model))
            states = [list(map(Fraction, state)) for state in exact.corners(model.initial)]
            for k, values in enumerate(zip(*exact.exact_values(model))):
                for entries, value in zip(model.directions, values):
                    self.assertEqual(value, max(exact.dot(entries, state) for state in states), k)
                states = [
                    [exact.dot(entries, state) / 65_536 + x
                     for entries, x in zip(model.matrix, model.drift)]
                    for state in states
                ]
            checked += 1
        self.assertGreater(checked, 10)


class Writer(unittest.TestCase):
    """2026-08: the one file of a model, byte by byte, and read again."""

    START = f"01 01 0300 02 00 00800000 {REST}"
    ASKED = f"30 01000000 {REST} FF"

    def written(self, middle, **changes):
        """Check the bytes of the halved value, asked for the direction 1, with these parts."""
        model = replace(single(32_768, (0, 0), (0, 0), 1, 3), **changes)
        expected = bytes.fromhex(f"{self.START} {middle} {self.ASKED}")
        self.assertEqual(exact.canonical(model), expected)
        self.assertEqual(exact.read_model(expected), model)

    def test_case_29(self):
        self.assertEqual(exact.canonical(exact.read_model(SAMPLE)), SAMPLE)
        falling = single(-1, (0, 0), (0, 0), 1, 120, guards=(-2,))
        vertex = replace(falling, input=Set(VERTICES, ((0,),)))
        start = f"01 01 7800 02 00 FFFFFFFF {REST} 10 00000000 {REST} 11 00000000 {REST}"
        end = f"30 01000000 {REST} 40 00 FEFFFFFFFFFFFFFF FF"
        for model, middle, length in ((falling, "", 116), (vertex, f"24 00000000 {REST}", 141)):
            self.assertEqual(exact.canonical(model), bytes.fromhex(f"{start} {middle} {end}"))
            self.assertEqual(len(exact.canonical(model)), length)

    def test_a_zero_box_is_left_out_as_input_alone(self):
        corners = f"10 00000000 {REST} 11 00000000 {REST}"
        self.written(corners)
        self.written(f"{corners} 20 00000000 {REST} 21 01000000 {REST}", input=box((0, 1)))
        self.written(f"{corners} 20 FFFFFFFF {REST} 21 00000000 {REST}", input=box((-1, 0)))

    def test_other_sets_of_zeros_are_written(self):
        corners = f"10 00000000 {REST} 11 00000000 {REST}"
        zero = ((0,),)
        for form, part in ((VERTICES, f"24 00000000 {REST}"),
                           (ZONOTOPE, f"22 00000000 {REST} 23 00000000 {REST}")):
            set_ = Set(form, zero * MIN_POINTS[form])
            self.written(f"{corners} {part}", input=set_)
            initial = part.replace("22 ", "12 ").replace("23 ", "13 ").replace("24 ", "14 ")
            self.written(initial, initial=set_)
        self.written(f"{corners} 24 00000000 {REST} 24 00000000 {REST}",
                     input=Set(VERTICES, zero * 2))

    def test_a_drift_only_where_it_is_not_zero(self):
        corners = f"10 00000000 {REST} 11 00000000 {REST}"
        self.written(f"05 FEFFFFFF {REST} {corners}", drift=(-2,))
        self.written(corners, drift=(0,))

    def test_points_and_lists_in_stored_order(self):
        model = Model(2, 256, ((1, -2), (3, 4)), Set(VERTICES, ((5, 6), (-7, 8), (5, 6))),
                      Set(ZONOTOPE, ((9, 0), (0, 1), (0, 0))), ((1_000, -1), (0, 2), (1_000, -1)),
                      ((2, -(2**63)), (0, 2**63 - 1), (2, -(2**63))), (0, -1))
        rest = "00" * 16
        self.assertEqual(exact.canonical(model), bytes.fromhex(
            "01 02 0001"
            f"02 00 01000000 FEFFFFFF {rest} 02 01 03000000 04000000 {rest}"
            f"05 00000000 FFFFFFFF {rest}"
            f"14 05000000 06000000 {rest} 14 F9FFFFFF 08000000 {rest} 14 05000000 06000000 {rest}"
            f"22 09000000 00000000 {rest} 23 00000000 01000000 {rest} 23 00000000 00000000 {rest}"
            f"30 E8030000 FFFFFFFF {rest} 30 00000000 02000000 {rest} 30 E8030000 FFFFFFFF {rest}"
            "40 02 0000000000000080 40 00 FFFFFFFFFFFFFF7F 40 02 0000000000000080 FF"
        ))

    def test_every_way_to_save_a_model_gives_one_file(self):
        zero = box((0, 0), (0, 0))
        start = Model(2, 120, ((-1, 0), (0, 131_072)), zero, zero, ((1, 0),), ((0, 4),))
        some = Model(2, 3, ((0, 0), (7, 0)), zero, Set(VERTICES, ((0, 0),)), ((1, 0),), (), (0, 5))
        for model, ways in ((start, 2 * 2 * 4 * 2), (some, 4 * 2)):
            data = list(models.saved_ways(model))
            self.assertEqual(len(data), ways)
            self.assertEqual({exact.canonical(exact.read_model(way)) for way in data},
                             {exact.canonical(model)})

    def test_reading_gives_the_model_back(self):
        rng = random.Random(8)
        seen = collections.Counter()
        by_bytes = {}
        for _ in range(1_500):
            model = models.random_model(rng)
            data = exact.canonical(model)
            self.assertEqual(exact.read_model(data), model)
            self.assertEqual(exact.canonical(exact.read_model(data)), data)
            self.assertEqual(by_bytes.setdefault(data, model), model)
            seen[any(model.drift), states_input(data)] += 1
        self.assertEqual(len(seen), 4)
        self.assertGreater(min(seen.values()), 50, seen)

    def test_an_accepted_file_is_no_shorter(self):
        for data in itertools.islice(models.stream(8, 2_000), 2_000):
            model = exact.read_model(data)
            if not isinstance(model, Refusal):
                self.assertLessEqual(len(exact.canonical(model)), len(data))
                self.assertEqual(exact.read_model(exact.canonical(model)), model)

    def test_the_longest(self):
        points = Set(VERTICES, ((1,) * 6,) * 16)
        model = Model(6, 256, ((0,) * 6,) * 6, points, points, ((1,) * 6,) * 16, ((15, 0),) * 16,
                      (1,) * 6)
        self.assertEqual((len(exact.canonical(model)), LONGEST_WRITTEN), (1_546, 1_546))
        # Head, rows, drift, points, directions, guards and end at their most.
        self.assertEqual(4 + 6 * 26 + 25 + 2 * 16 * 25 + 16 * 25 + 16 * 10 + 1, LONGEST_WRITTEN)


def values_by_runs(model):
    """The exact largest values over all corner runs, each counted whole by the run's definition."""
    largest = [[None] * (model.steps + 1) for _ in model.directions]

    def visit(step, state):
        for number, entries in enumerate(model.directions):
            value = sum(d * x for d, x in zip(entries, state))
            seen = largest[number][step]
            largest[number][step] = value if seen is None else max(seen, value)
        if step < model.steps:
            moved = [
                sum(Fraction(entry, 65_536) * x for entry, x in zip(entries, state))
                for entries in model.matrix
            ]
            for chosen in inputs:
                visit(step + 1, [x + u + v for x, u, v in zip(moved, chosen, model.drift)])

    inputs = exact.corners(model.input)
    for state in exact.corners(model.initial):
        visit(0, [Fraction(x) for x in state])
    return largest


class Calm(unittest.TestCase):
    """2026-10: which models are calm, and what their slacks stay at or below."""

    ROWS_ALONE = ((0, 65_536), (0, 65_536))  # column 1 sums to 131,072

    def square(self, matrix):
        """A model of two coordinates with this matrix."""
        return Model(2, 4, matrix, box((0, 0), (0, 0)), box((0, 0), (0, 0)), ((1, 0),), ())

    def test_case_33(self):
        for entry, calm in ((65_536, True), (-65_536, True), (65_537, False), (-65_537, False)):
            self.assertEqual(exact.calm(single(entry, (0, 0), (0, 0), 1, 1)), calm, entry)
        rows, columns = self.square(self.ROWS_ALONE), self.square(tuple(zip(*self.ROWS_ALONE)))
        self.assertEqual((exact.column_sums(rows), exact.calm(rows)), ((0, 131_072), False))
        self.assertEqual(exact.column_sums(columns), (65_536, 65_536))
        self.assertTrue(exact.calm(columns))

    def test_magnitudes_are_summed(self):
        for matrix in (((40_000, 0), (-40_000, 0)), ((0, -65_537), (0, 1))):
            self.assertFalse(exact.calm(self.square(matrix)))

    def test_case_34(self):
        """The limit is attained at steps 2 and 4, by the initial set alone."""
        model = single(65_535, (0, 500_000), (0, 0), 1, 4)
        self.assertEqual(last(model)[1], [3])
        self.assertEqual(swept(model).slacks, (0, 1, 2, 2, 3))
        self.assertEqual([exact.slack_limit(model, k) for k in range(5)], [2, 2, 2, 3, 3])
        within = [exact.steps_within(model, slack) for slack in range(5)]
        self.assertEqual(within, [None, None, 2, 4, 4])

    def test_case_35(self):
        """The limit is attained at steps 3 and 5, by what enters, the drift among it."""
        model = single(65_535, (0, 0), (0, 100_000), 1, 5, drift=80_000)
        self.assertEqual(swept(model).slacks, (0, 0, 1, 2, 2, 3))
        self.assertEqual([exact.slack_limit(model, k) for k in range(6)], [2, 2, 2, 2, 3, 3])
        self.assertEqual([exact.steps_within(model, slack) for slack in (1, 2, 3)], [None, 3, 5])

    def test_case_36(self):
        """The limit is attained at the last of 256 steps."""
        model = single(65_535, (0, 1_044_470), (0, 0), 1, 256)
        self.assertEqual((swept(model).slacks[256], exact.slack_limit(model, 256)), (256, 256))

    def test_both_sums_of_reaches(self):
        # X is 700,000 + 500,000, and Y is 100,000 + 80,000 + 60,000 + 30,000, two of them of a drift.
        model = Model(2, 9, ((0, 0), (0, 0)), box((-700_000, 0), (0, 500_000)),
                      box((-100_000, 1), (4, 80_000)), ((1, 0),), (), (-60_000, 30_000))
        # At step 9: 9 * 1,200,000 + 36 * 270,000 + 1 = 20,520,001, which is 19.6 times 1,048,576.
        self.assertEqual(exact.slack_limit(model, 9), 21)
        # At step 2: 2 * 1,200,000 + 270,000 + 1 = 2,670,001, which is 2.5 times it.
        self.assertEqual(exact.slack_limit(model, 2), 4)

    def test_a_multiple_of_the_unit(self):
        """The 1 stands inside the quotient."""
        model = single(0, (0, 1_048_576), (0, 0), 1, 2)
        self.assertEqual([exact.slack_limit(model, k) for k in range(3)], [2, 3, 4])

    def test_no_slack_of_random_calm_models_passes_its_limit(self):
        rng = random.Random(10)
        attained = 0
        for _ in range(300):
            model = models.calm_model(rng)
            found = exact.listing_of(model)
            exact.check_limit(model, found)
            limits = [exact.slack_limit(model, step) for step in range(model.steps + 1)]
            self.assertEqual(limits, sorted(limits))
            attained += any(slack == limit > 9 for swept in found.directions
                            for slack, limit in zip(swept.slacks, limits))
        self.assertGreater(attained, 10)

    def test_one_unit_more_in_a_column_passes_the_limit(self):
        """The errors then grow by 2 at a step: 0, 0, 1, 3, 5, 7."""
        model = single(65_537, (0, 1_000_000), (0, 0), 1, 5)
        self.assertEqual(last(model)[1], [7])
        self.assertFalse(exact.calm(model))
        self.assertEqual(swept(model).slacks, (0, 1, 2, 4, 6, 8))
        self.assertEqual([exact.slack_limit(model, k) for k in range(6)], [2, 2, 3, 4, 5, 6])
        with self.assertRaisesRegex(AssertionError, "direction 0 step 4: slack 6 passes limit 5"):
            exact.check_limit(model, exact.listing_of(model))

    def test_the_check_of_the_limit(self):
        """The limits are 2, 2, 2, 3, 3."""
        model = single(65_535, (0, 500_000), (0, 0), 1, 4)

        def check(*slacks):
            exact.check_limit(model, Listing(1, 4, (Sweep(10, (0,) * 5, slacks),), ()))

        check(2, 2, 2, 3, 3)
        for wrong, message in (
            ((3, 0, 0, 0, 0), "step 0: slack 3 passes limit 2"),
            ((0, 0, 3, 0, 0), "step 2: slack 3 passes limit 2"),
            ((0, 0, 0, 0, 4), "step 4: slack 4 passes limit 3"),
            ((0, 0, 0, 0), "direction 0: steps 0 to K"),
        ):
            with self.assertRaisesRegex(AssertionError, message):
                check(*wrong)
        grown = Listing(1, 4, (Sweep(10, (0,) * 5, (0,) * 5), Growth(3)), ())
        with self.assertRaisesRegex(AssertionError, "direction 1: growth at step 3"):
            exact.check_limit(model, grown)


class ExactValues(unittest.TestCase):
    def test_corners(self):
        self.assertEqual(exact.corners(box((0, 1), (7, 9))), [(0, 7), (0, 9), (1, 7), (1, 9)])
        zonotope = Set(ZONOTOPE, ((1, -2), (3, 1), (-1, 2)))
        self.assertEqual(exact.corners(zonotope), [(-3, -1), (-1, -5), (3, 1), (5, -3)])
        self.assertEqual(exact.corners(Set(VERTICES, ((4, 0), (4, 0)))), [(4, 0)])

    def test_case_4(self):
        model = single(32_768, (0, 100), (0, 0), 1, 3)
        self.assertEqual(exact.exact_values(model), [[100, 50, 25, Fraction(25, 2)]])

    def test_sample(self):
        values = exact.exact_values(exact.read_model(SAMPLE))
        self.assertEqual(values, [[0, 1, Fraction(3, 2), Fraction(7, 4)]])

    def test_against_all_corner_runs(self):
        checked = drifting = 0
        for data in models.stream(7, 400):
            model = exact.read_model(data)
            if isinstance(model, Refusal) or model.steps > 4:
                continue
            states, inputs = exact.corners(model.initial), exact.corners(model.input)
            if len(states) * len(inputs) ** model.steps <= 300:
                self.assertEqual(exact.exact_values(model), values_by_runs(model))
                checked += 1
                drifting += any(model.drift)
        self.assertGreater(checked, 20)
        self.assertGreater(drifting, 10)

    def test_accuracy_of_random_models(self):
        checked = without_input = drifting = 0
        for data in models.stream(8, 250):
            model = exact.read_model(data)
            if not isinstance(model, Refusal) and exact.check_cost(model) < 100_000:
                exact.check_accuracy(model, exact.listing_of(model))
                checked += 1
                without_input += not states_input(data)
                drifting += any(model.drift)
        self.assertGreater(checked, 100)
        self.assertGreater(without_input, 10)
        self.assertGreater(drifting, 40)


class UnroundedValues(unittest.TestCase):
    """The exact largest values of a matrix of any fractions."""

    def values(self, model, matrix):
        unit, values = exact.unrounded_values(model, matrix)
        return [[Fraction(x, unit**k) for k, x in enumerate(each)] for each in values]

    def test_a_stored_matrix_has_the_exact_values(self):
        rng = random.Random(2020)
        tried = 0
        for _ in range(200):
            model = models.random_model(rng)
            if exact.check_cost(model) <= 100_000:
                tried += 1
                matrix = [[Fraction(x, 65_536) for x in entries] for entries in model.matrix]
                self.assertEqual(self.values(model, matrix), exact.exact_values(model))
        self.assertGreater(tried, 100)

    def test_a_matrix_of_thirds(self):
        """x/3 + u with x in [0, 9], u in [-1, 2] and a drift of 1, by hand."""
        model = single(0, (0, 9), (-1, 2), 1, 3, drift=1)
        up, down = self.values(replace(model, directions=((1,), (-1,))), [[Fraction(1, 3)]])
        self.assertEqual(up, [9, 6, 5, Fraction(14, 3)])
        self.assertEqual(down, [0, 0, 0, 0])

    def test_against_corners_that_go_forward(self):
        rng = random.Random(2021)
        for _ in range(40):
            model = models.random_model(rng)
            model = replace(model, steps=min(model.steps, 6))
            if exact.check_cost(model) > 20_000:
                continue
            matrix = [[Fraction(rng.randint(-20, 20), rng.choice((3, 7, 10, 1000)))
                       for _ in range(model.n)] for _ in range(model.n)]
            states = exact.corners(model.initial)
            inputs = [tuple(map(sum, zip(corner, model.drift)))
                      for corner in exact.corners(model.input)]
            driven = [0] * len(model.directions)
            expected = [[] for _ in model.directions]
            for _ in range(model.steps + 1):
                for number, entries in enumerate(model.directions):
                    most = max(sum(map(mul, entries, state)) for state in states)
                    expected[number].append(most + driven[number])
                    driven[number] += max(sum(map(mul, entries, point)) for point in inputs)
                states, inputs = (
                    [tuple(sum(map(mul, row, point)) for row in matrix) for point in points]
                    for points in (states, inputs)
                )
            self.assertEqual(self.values(model, matrix), expected)


class Accuracy(unittest.TestCase):
    """The check of the accuracy rule fails where it must; true values are 0, 1, 3/2, 7/4."""

    model = exact.read_model(SAMPLE)

    def check(self, bounds, slacks, *guards):
        told = Listing(1, 3, (Sweep(10, bounds, slacks),), guards)
        exact.check_accuracy(self.model, told)

    def fails(self, *arguments):
        with self.assertRaises(AssertionError):
            self.check(*arguments)

    right = (Verdict("UNKNOWN", 2), Verdict("CLEAR"), Verdict("CLEAR"))

    def test_right(self):
        self.check((0, 1, 2, 2), (0, 0, 1, 1), *self.right)

    def test_bounds_and_slacks(self):
        self.fails((0, 0, 2, 2), (0, 0, 1, 1), *self.right)
        self.fails((0, 1, 2, 2), (0, 0, 0, 1), *self.right)
        self.fails((0, 1, 2, 1), (0, 0, 1, 1), *self.right)
        self.fails((0, 1, 2, 4), (0, 0, 1, 2), *self.right)
        self.fails((0, 1, 2), (0, 0, 1), *self.right)

    def test_verdicts(self):
        good = (0, 1, 2, 2), (0, 0, 1, 1)
        self.fails(*good, Verdict("HIT", 1), *self.right[1:])  # at the level, not above it
        self.fails(*good, Verdict("CLEAR"), *self.right[1:])
        self.fails(*good, Verdict("UNKNOWN", 0), *self.right[1:])
        self.fails(*good, self.right[0], Verdict("UNKNOWN", 0), self.right[2])
        self.fails(*good, self.right[0], Verdict("HIT", 3), self.right[2])
        self.fails(*good, *self.right[:2], Verdict("UNKNOWN", 3))
        self.fails(*good, *self.right[:2])


class Listings(unittest.TestCase):
    def test_round_trip(self):
        for data in models.stream(9, 60):
            text = exact.listing(data)
            self.assertEqual(listings.write(listings.parse(text)), text)

    def test_wrong_texts(self):
        for text, place in (
            ("hello\n", ":1:"),
            ("model 1 1\n", ":2:"),
            ("model 1 1\ndir 0 spare 3\n0 0 0\n", ":4:"),
            ("model 1 1\ndir 0 spare 3\n0 0 0\n1 x 0\n", ":4:"),
            ("model 1 1\ndir 0 growth 1\nguard 1 CLEAR\n", ":3:"),
            ("refused 1 at 0\nmore\n", ":2:"),
        ):
            with self.assertRaises(listings.Failure) as caught:
                listings.parse(text, "t")
            self.assertIn(f"t{place}", str(caught.exception))


class Command(unittest.TestCase):
    def test_listing_and_check(self):
        self.assertEqual(run_tool("exact.py", "-", stdin=SAMPLE), (SAMPLE_LISTING.encode(), "", 0))
        out, said, status = run_tool("exact.py", "--check", "-", stdin=SAMPLE)
        self.assertEqual((out, status), (SAMPLE_LISTING.encode(), 0))
        self.assertIn("accuracy rule holds", said)

    def test_the_limit_is_checked_of_a_calm_model(self):
        accuracy, limit = "the accuracy rule holds\n", "the slack limit of a calm model holds\n"
        for entry, expected in ((65_536, accuracy + limit), (-65_537, accuracy)):
            data = encode(single(entry, (0, 9), (0, 1), 1, 3))
            self.assertEqual(run_tool("exact.py", "--check", stdin=data)[1:], (expected, 0))

    def test_a_text_is_packed_first(self):
        text = Path(__file__).resolve().parents[2] / "examples" / "verdicts.model"
        self.assertEqual(run_tool("exact.py", text), (SAMPLE_LISTING.encode(), "", 0))
        out, said, status = run_tool("exact.py", "--check", stdin=text.read_bytes())
        self.assertEqual((out, status), (SAMPLE_LISTING.encode(), 0))
        self.assertIn("accuracy rule holds", said)
        wrong = text.read_bytes().replace(b"steps 3", b"steps 0").replace(b"row 0.5", b"row 2.5")
        out, said, status = run_tool("exact.py", "-", stdin=wrong)
        self.assertEqual((out, status), (b"", 1))
        self.assertEqual(said, run_tool("pack.py", "pack", "-", stdin=wrong)[1])
        self.assertEqual(said.count("\n"), 2)

    def test_canonical(self):
        saved = SAMPLE.replace(b"\x10", b"\x05" + bytes(24) + b"\x10", 1)
        self.assertEqual(run_tool("exact.py", "--canonical", "-", stdin=saved), (SAMPLE, "", 0))
        out, said, status = run_tool("exact.py", "--canonical", "-", stdin=SAMPLE[:-1])
        self.assertEqual((out, status), (b"", 1))
        self.assertIn("refused 1 at 185", said)
        out, said, status = run_tool("exact.py", "--canonical", "--check", "-", stdin=SAMPLE)
        self.assertEqual((out, status), (b"", 2))

    def test_a_refused_file_is_told_in_words(self):
        out, said, status = run_tool("exact.py", "-", stdin=SAMPLE[:-1])
        self.assertEqual((out, status), (b"refused 1 at 185\n", 1))
        self.assertEqual(said, "standard input: refused 1 at 185: the file ends where a guard (40)"
                               " or the end (FF) should come: add it, or get the whole file\n")
        out, said, status = run_tool("exact.py", "-", stdin=b"\0" + SAMPLE[1:])
        self.assertEqual((out, status), (b"refused 2 at 0\n", 1))
        self.assertIn("a packed model starts with byte 01", said)

    def test_bad_input(self):
        with tempfile.TemporaryDirectory() as folder:
            empty = Path(folder, "empty")
            empty.write_bytes(b"")
            for path, message, expected in (
                (Path(folder, "none"), "no such file", 3),
                (folder, "is a directory", 3),
                (empty, "the file is empty", 1),
                (__file__, ":1: unknown word", 1),
            ):
                out, said, status = run_tool("exact.py", path)
                self.assertEqual(status, expected)
                self.assertIn(message, said)
                self.assertIn(str(path), said)


if __name__ == "__main__":
    unittest.main()
