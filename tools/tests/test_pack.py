"""Texts and packed files: the same bytes again, limits in words, and messages with their place."""

import math
import random
import re
import unittest
from dataclasses import replace
from fractions import Fraction
from pathlib import Path

import helpers
from helpers import TOOLS, box, run_tool

import exact
import files
import models
import pack
import spelling
from layout import (
    BODY_LENGTHS, ENTRY_KINDS, FITTED, VERTICES, ZONOTOPE, Model, Set, encode, entry_places,
    fitted_rows_of, float_of, guard, offsets, pattern, states_drift, states_input,
)
from listings import Refusal

GOOD = """\
# two coordinates
coordinates hot cold
steps 7
row hot 0.5 -0.25   # decimals
scaled 1 -131072
initial zonotope
  centre 1 2
  generator 3 -4
input vertices
  vertex 0 0
  vertex 5 -6
direction warm 1 0
direction gap 1 -1
guard gap -12
guard warm 9223372036854775807
"""
INPUT = "input vertices\n  vertex 0 0\n  vertex 5 -6\n"
ZERO = "input box\n  lower 0 0\n  upper 0 0\n"
NO_INPUT = GOOD.replace(INPUT, "")
NO_INPUT_NOTE = "no input set: the input is zero in every coordinate"
# Units of the coordinates and names of the guards, which change no byte.
UNITS = "unit hot °C 16\nunit cold °C 16\n"
NAMED = (GOOD.replace("steps 7\n", f"steps 7\n{UNITS}").replace("gap -12", "gap -12 cools")
         .replace("775807", "775807 melts"))
DEGREES = ("°C", 16)
# Row 0 in decimals, row 1 in whole numbers.
FIRST, SECOND = "row hot 0.5 -0.25   # decimals", "scaled 1 -131072"


class Pack(unittest.TestCase):
    def test_by_hand(self):
        model = Model(
            n=2,
            steps=7,
            matrix=((32_768, -16_384), (1, -131_072)),
            initial=Set(ZONOTOPE, ((1, 2), (3, -4))),
            input=Set(VERTICES, ((0, 0), (5, -6))),
            directions=((1, 0), (1, -1)),
            guards=((1, -12), (0, 2**63 - 1)),
        )
        source = pack.parse(GOOD)
        self.assertEqual(source.model, model)
        self.assertEqual(source.data, encode(model))
        self.assertEqual(source.coordinates, ("hot", "cold"))
        self.assertEqual(source.directions, ("warm", "gap"))
        self.assertEqual((source.units, source.time), ((None, None), None))
        self.assertEqual((source.coordinate_units, source.guards), ((None, None), (None, None)))

    def test_units_and_time(self):
        text = GOOD.replace("guard gap", "unit warm °C 16\nunit gap mV\ntime 1.25 ms\nguard gap")
        source = pack.parse(text)
        self.assertEqual(source.units, (("°C", 16), ("mV", 1)))
        self.assertEqual(source.time, (Fraction(5, 4), "ms"))
        self.assertEqual(source.data, pack.parse(GOOD).data)
        written = pack.write_text(source)
        for row in ("unit warm °C 16", "unit gap mV", "time 1.25 ms", "coordinates hot cold",
                    "scaled cold 1 -131072"):
            self.assertIn(f"\n{row}\n", "\n" + written)
        again = pack.parse(written)
        self.assertEqual(again.data, source.data)
        self.assertEqual((again.units, again.time, again.coordinates, again.directions),
                         (source.units, source.time, source.coordinates, source.directions))
        for number, written in (("1000000000", "1000000000"), ("0.0010", "0.001"), (".5", "0.5")):
            source = pack.parse(text.replace("time 1.25", f"time {number}"))
            self.assertIn(f"\ntime {written} ms\n", pack.write_text(source))

    def test_numbered_coordinates(self):
        text = "coordinates 1\nsteps 60\nrow 1\ninitial box\nlower 0\nupper 1\n"
        source = pack.parse(text + "input vertices\nvertex 2\ndirection d 1\n")
        self.assertEqual(source.model.initial, box((0, 1)))
        self.assertEqual(source.model.matrix, ((65_536,),))

    def test_steps_left_out(self):
        source = pack.parse(GOOD.replace("steps 7\n", ""))
        self.assertEqual(source.data[:4], bytes([1, 2, 0, 0]))
        self.assertEqual(source.model.steps, 120)
        text = pack.unpack(source.data)
        self.assertNotIn("\nsteps", text)
        self.assertIn("\n# steps: the default, 120\n", text)

    def test_input_left_out(self):
        source, stated = pack.parse(NO_INPUT), pack.parse(GOOD.replace(INPUT, ZERO))
        self.assertEqual((source.input_stated, stated.input_stated), (False, True))
        self.assertEqual(source.model.input, box((0, 0), (0, 0)))
        self.assertEqual(source.model, stated.model)
        at = 4 + 2 * 26 + 2 * 25  # behind head, rows, centre and generator
        self.assertEqual(source.data[at], 0x30)
        corners = b"\x20" + bytes(24) + b"\x21" + bytes(24)
        self.assertEqual(stated.data, source.data[:at] + corners + source.data[at:])

    def test_input_left_out_is_unpacked_so(self):
        """A file tells by its own records, and not by its model, whether its text has an input."""
        note = "\n# input: none, zero in every coordinate\n"
        without, stated = pack.parse(NO_INPUT).data, pack.parse(GOOD.replace(INPUT, ZERO)).data
        self.assertIn(note, pack.unpack(without))
        self.assertNotIn("\ninput", pack.unpack(without))
        self.assertNotIn(note, pack.unpack(stated))
        self.assertIn("\n" + ZERO, pack.unpack(stated))
        for data in (without, stated):
            self.assertEqual(pack.parse(pack.unpack(data)).data, data)
        # Bytes 20 to 24 within records are no records.
        numbers = NO_INPUT.replace("warm 1 0", "warm 32 36").replace("generator 3", "generator 34")
        data = pack.parse(numbers).data[:-1] + guard(1, 0x2021222324232221) + b"\xff"
        self.assertFalse(pack.read_source(data).input_stated)
        self.assertEqual(pack.parse(pack.unpack(data)).data, data)

    def test_input_stands_anywhere(self):
        for text in (NO_INPUT + INPUT, NO_INPUT.replace("initial", INPUT + "initial"),
                     NO_INPUT.replace("direction gap", INPUT + "direction gap")):
            self.assertEqual(pack.parse(text), pack.parse(GOOD))

    def test_notes(self):
        rounded = "1 entry was rounded (~); the largest relative change is 0.00013 %, of ~0.97 in"
        for text, told in (
            (GOOD, []),
            (GOOD.replace(INPUT, ZERO), []),
            (NO_INPUT, [NO_INPUT_NOTE]),
            (NO_INPUT.replace("0.5", "~0.97"), [f"{rounded} row 'hot'", NO_INPUT_NOTE]),
        ):
            self.assertEqual(pack.notes(pack.parse(text)), told)

    def test_decimals(self):
        for word, scaled in (
            ("2", 131_072), ("-2", -131_072), (".5", 32_768), ("+1.", 65_536),
            ("0.0000152587890625", 1),
            ("~0.97", 63_570),  # 63,569.92
            ("~-0.97", -63_570), ("~0.00000762939453125", 0), ("~0.00002288818359375", 2),
            ("~0.5", 32_768),
        ):
            source = pack.parse(GOOD.replace("0.5", word))
            self.assertEqual(source.model.matrix[0][0], scaled, word)

    def test_rows_that_end_as_on_windows(self):
        source = pack.parse(GOOD.replace("\n", "\r\n"))
        self.assertEqual(source, pack.parse(GOOD))
        self.assertEqual(pack.read_text(b"\xef\xbb\xbf" + GOOD.encode(), "bom"), source)

    def test_rounded_entries(self):
        most = "rounded (~); the largest relative change is"
        for row, told in (
            ("0.5 -0.25", None),
            ("~0.5 ~0", None),
            ("~0.97 ~-0.25", f"1 entry was {most} 0.00013 %, of ~0.97 in row 'hot'"),  # 63,569.92
            ("~0.97 ~-0.0001", f"2 entries were {most} 6.8 %, of ~-0.0001 in row 'hot'"),  # 6.5536
            ("~0.97 ~-0.000001", f"2 entries were {most} 100 %: ~-0.000001 in row 'hot' becomes 0"),
        ):
            self.assertEqual(pack.rounding(pack.parse(GOOD.replace("0.5 -0.25", row))), told)

    def test_round_trip(self):
        count = without_input = with_drift = 0
        for data in models.stream(11, 150):
            if isinstance(exact.read_model(data), Refusal):
                continue
            source = pack.read_source(data)
            self.assertEqual(source.input_stated, states_input(source.data))
            self.assertEqual(source.drift_stated, states_drift(data))
            self.assertEqual(len(source.data), len(data))
            self.assertEqual(pack.parse(pack.write_text(source)).data, source.data)
            count += 1
            without_input += not source.input_stated
            with_drift += source.drift_stated
        self.assertGreater(count, 60)
        self.assertGreater(without_input, 5)
        self.assertGreater(with_drift, 20)
        data = pack.parse(GOOD).data
        self.assertEqual(pack.parse(pack.unpack(data)).data, data)


class Names(unittest.TestCase):
    """Units of coordinates, which directions take, and names of guards."""

    def below(self, row, rows, text=GOOD):
        """The source of a text with more rows right below the one that starts so."""
        lines = text.splitlines()
        at = next(at for at, line in enumerate(lines) if line.startswith(row))
        return pack.parse("\n".join(lines[: at + 1] + rows.splitlines() + lines[at + 1 :]))

    def same(self, source, again):
        """All that two texts say is the same, but for how their rows are written."""
        for what in ("model", "data", "coordinates", "directions", "units", "coordinate_units",
                     "direction_units", "guards", "time"):
            self.assertEqual(getattr(source, what), getattr(again, what), what)

    def test_by_hand(self):
        source = pack.parse(NAMED)
        self.assertEqual(source.coordinate_units, (DEGREES, DEGREES))
        self.assertEqual(source.units, (None, None))
        self.assertEqual(source.direction_units, (DEGREES, DEGREES))
        self.assertEqual(source.guards, ("cools", "melts"))
        self.assertEqual((source.model, source.data),
                         (pack.parse(GOOD).model, pack.parse(GOOD).data))

    def test_a_packed_file_has_none(self):
        read = pack.read_source(pack.parse(NAMED).data)
        self.assertEqual(read.coordinate_units, (None, None))
        self.assertEqual((read.units, read.direction_units), ((None, None), (None, None)))
        self.assertEqual(read.guards, (None, None))

    def test_directions_take_the_unit_that_their_coordinates_share(self):
        """`warm` is of `hot` alone, `gap` of both."""
        for hot, cold, *due in (
            ("°C 16", "°C 16", DEGREES, DEGREES),
            ("°C", "°C 1", ("°C", 1), ("°C", 1)),
            ("°C 16", "K 16", DEGREES, None),
            ("°C 16", "°C", DEGREES, None),
            ("°C 16", None, DEGREES, None),
            (None, "°C 16", None, None),
        ):
            rows = [f"unit {name} {unit}" for name, unit in (("hot", hot), ("cold", cold)) if unit]
            with self.subTest(rows):
                source = self.below("coordinates", "\n".join(rows))
                self.assertEqual((source.units, source.direction_units), ((None, None), (*due,)))
                # A direction's own unit holds instead.
                source = self.below("direction gap", "unit gap mV 4", pack.write_text(source))
                self.assertEqual(source.units, (None, ("mV", 4)))
                self.assertEqual(source.direction_units, (due[0], ("mV", 4)))

    def test_a_coordinates_unit_stands_anywhere(self):
        source = self.below("coordinates", UNITS)
        for row in ("steps", "row", "scaled", "  generator", "  vertex 5", "direction warm",
                    "direction gap", "guard gap", "guard warm"):
            self.assertEqual(self.below(row, UNITS), source)
        hot, cold = UNITS.splitlines()
        self.assertEqual(self.below("guard gap", hot, f"{GOOD}{cold}\n"), source)

    def test_a_direction_above_has_precedence(self):
        text = GOOD.replace("warm", "hot")
        below = self.below("guard gap", "unit hot °C 16", text)
        self.assertEqual((below.units, below.coordinate_units), ((DEGREES, None), (None, None)))
        self.assertEqual(below.direction_units, (DEGREES, None))
        # Also beside a unit of the other coordinate.
        below = self.below("direction gap", UNITS, text)
        self.assertEqual((below.units, below.coordinate_units), ((DEGREES, None), (None, DEGREES)))
        self.assertEqual(below.direction_units, (DEGREES, None))

    def test_above_a_direction_of_the_same_name(self):
        text = GOOD.replace("warm", "hot")
        above = self.below("  vertex 5", "unit hot °C 16", text)
        self.assertEqual((above.units, above.coordinate_units), ((None, None), (DEGREES, None)))
        self.assertEqual(above.direction_units, (DEGREES, None))
        both = self.below("direction hot", "unit hot mK", text.replace("steps 7\n", UNITS))
        self.assertEqual((both.units, both.coordinate_units),
                         ((("mK", 1), None), (DEGREES, DEGREES)))
        self.assertEqual(both.direction_units, (("mK", 1), DEGREES))
        self.same(both, pack.parse(pack.write_text(both)))

    def test_numbered_coordinates(self):
        text = GOOD.replace("hot cold", "2").replace("row hot", "row")
        source = self.below("coordinates", "unit x1 mV 10\nunit x0 mV", text)
        self.assertEqual(source.coordinate_units, (("mV", 1), ("mV", 10)))
        written = pack.write_text(source)
        self.assertTrue(written.startswith("coordinates 2\nsteps 7\nunit x0 mV\nunit x1 mV 10\n\n"))
        self.same(source, pack.parse(written))

    def test_guards_with_and_without_names(self):
        for first, second in (("cools", None), (None, "melts"), ("cools", "melts"),
                              ("gap", "hot"), ("x_1.a-b", "größe"), (None, None)):
            text = GOOD.replace("gap -12", f"gap -12 {first or ''}")
            source = pack.parse(text.replace("775807", f"775807 {second or ''}"))
            self.assertEqual(source.guards, (first, second))
            self.same(source, pack.parse(pack.write_text(source)))
        self.assertEqual(pack.parse(GOOD.split("guard")[0]).guards, ())

    def test_written(self):
        written = pack.write_text(self.below("steps", "time 1.25 ms", NAMED))
        self.assertIn("\nsteps 7\ntime 1.25 ms\nunit hot °C 16\nunit cold °C 16\n\nscaled hot ",
                      written)
        self.assertTrue(written.endswith("\ndirection warm 1 0\ndirection gap 1 -1\n"
                                         "guard gap -12 cools\n"
                                         "guard warm 9223372036854775807 melts\n"), written)
        self.assertEqual(written.count("unit"), 2)

    def test_written_and_parsed_again(self):
        """Random names, of which a coordinate and a direction may have the same, and units."""
        rnd = random.Random(15)
        words = [f"x{i}" for i in range(9)] + [f"d{i}" for i in range(9)]
        units = [None, None, ("mV", 1), ("mV", 10), DEGREES]
        seen = shared = 0
        for data in models.stream(15, 150):
            if isinstance(exact.read_model(data), Refusal):
                continue
            read = pack.read_source(data)
            n, directions, guards = len(read.coordinates), len(read.directions), len(read.guards)
            source = replace(
                read,
                coordinates=rnd.choice((read.coordinates, tuple(rnd.sample(words, n)))),
                directions=tuple(rnd.sample(words, directions)),
                units=tuple(rnd.choice(units) for _ in range(directions)),
                coordinate_units=tuple(rnd.choice(units) for _ in range(n)),
                guards=tuple(rnd.choice((name, None)) for name in rnd.sample(words, guards)),
                time=rnd.choice((None, (Fraction(5, 4), "ms"))),
            )
            self.same(source, pack.parse(pack.write_text(source)))
            self.same(source, pack.renamed(pack.read_source(source.data), source, "file", "text"))
            seen += 1
            shared += not {*source.coordinates}.isdisjoint(source.directions)
        self.assertGreater(seen, 60)
        self.assertGreater(shared, 20)


class Drift(unittest.TestCase):
    """The drift: its record, anywhere in a text, and the same text again."""

    def text(self, entries, before="initial", text=GOOD):
        """A text with this drift in front of its statement that starts so."""
        return text.replace(before, f"drift {entries}\n{before}", 1)

    def test_by_hand(self):
        source = pack.parse(self.text("3 -1048570"))
        self.assertEqual(source.model, replace(pack.parse(GOOD).model, drift=(3, -1_048_570)))
        at = 4 + 2 * 26  # behind head and rows
        record = bytes.fromhex("05 03000000 0600f0ff") + bytes(16)
        good = pack.parse(GOOD).data
        self.assertEqual(source.data, good[:at] + record + good[at:])

    def test_anywhere(self):
        for before in ("steps", "row", "input", "direction", "guard warm"):
            self.assertEqual(pack.parse(self.text("3 -4", before)), pack.parse(self.text("3 -4")))
        self.assertEqual(pack.parse(GOOD + "drift 3 -4\n"), pack.parse(self.text("3 -4")))

    def test_zero_and_left_out(self):
        """A file tells by its own records whether its text has a drift."""
        without, zero = pack.parse(GOOD), pack.parse(self.text("0 0"))
        self.assertEqual(zero.model, without.model)
        self.assertEqual(len(zero.data), len(without.data) + 25)
        self.assertNotIn("drift", pack.unpack(without.data))
        self.assertIn("\n\ndrift 0 0\n\ninitial", pack.unpack(zero.data))
        self.assertIn("\nscaled 1 -131072\n\ndrift 3 -4\n\ninitial zonotope\n",
                      pack.unpack(pack.parse(self.text("3 -4")).data))
        # Bytes 05 within records are no records.
        data = pack.parse(GOOD.replace("vertex 5", "vertex 1285")).data
        self.assertFalse(pack.read_source(data).drift_stated)

    def test_limits(self):
        for entries in ("1048571 0", "-1048571 1048570", "0 -1048570"):  # the input reaches 5, 6
            for before in ("steps", "initial", "direction"):
                self.assertTrue(pack.parse(self.text(entries, before)).drift_stated)
        self.assertTrue(pack.parse(self.text("1048576 -1048576", text=NO_INPUT)).drift_stated)

    def test_mistakes(self):
        makes = "the reach of the input set in 'cold', 6, and the drift of"
        for text, told in (
            (self.text("1 2").replace("guard gap", "drift 1 2\nguard gap"), "15: a second 'drift'"),
            (self.text("1048577 0"),
             "6: drift 1,048,577 in column 'hot' is beyond -1,048,576 to 1,048,576"),
            (self.text("1 -2147483648"), "6: drift -2,147,483,648 in column 'cold' is beyond"),
            (self.text("1"), "6: expected 2 numbers, one for each coordinate, found 1"),
            (self.text("1 2.5"), "6: '2.5' is no whole number"),
            (self.text("hot 1"), "6: 'hot' is no whole number"),
            (self.text("0 1048571"),
             f"12: {makes} 1,048,571 make 1,048,577, beyond 1,048,576"),
            (self.text("0 -1048571", "direction"),
             f"12: {makes} -1,048,571 make 1,048,577, beyond 1,048,576"),
            # 6 comes first, of one point.
            (self.text("0 1048576").replace("vertex 5 -6", "vertex 5 -1048577"),
             "12: the reach of the input set in 'cold' is 1,048,577, beyond 1,048,576"),
        ):
            with self.subTest(told):
                said = mistakes(text)
                self.assertEqual(len(said), 1, said)
                self.assertTrue(said[0].startswith(told), said)

    def test_sums_of_a_zonotope(self):
        """The centre and the generators so far, told where the sum passes its limit."""
        zonotope = "input zonotope\n  centre 0 -5\n  generator 0 2\n  generator 0 -4\n"
        text = GOOD.replace(INPUT, zonotope)
        self.assertEqual(pack.parse(self.text("0 1048565", text=text)).model.drift, (0, 1_048_565))
        for entry, told in ((1_048_566, ["13: "]), (1_048_570, ["12: ", "13: "])):
            said = mistakes(self.text(f"0 {entry}", text=text))
            self.assertEqual([each[:4] for each in said], told)


class Fitted(unittest.TestCase):
    """Rows of numbers of binary64: the bits in the file, and the same text and bits again."""

    def row_of(self, words, name=""):
        """Source of the text with these entries in a fitted first row."""
        return pack.parse(GOOD.replace(FIRST, f"fitted {name} {words}"))

    def test_by_hand(self):
        for words in ("0.3 -0.25", "3e-1 -25E-2", "+.3 -0x1p-2", "0x1.3333333333333p-2 -0X.4P0"):
            source = self.row_of(words, "hot")
            self.assertEqual(source.model.matrix, ((19_661, -16_384), (1, -131_072)))
            self.assertEqual(source.fitted, {0: (0x3FD3_3333_3333_3333, 0xBFD0_0000_0000_0000)})
            at = 4  # behind the head
            self.assertEqual(source.data[at : at + 18].hex(),
                             "03 00 333333333333d33f 000000000000d0bf".replace(" ", ""))
            self.assertEqual(source.data[at + 18 : at + 50], bytes(32))
            self.assertEqual(source.data[at + 50], 0x02)
            self.assertEqual(len(source.data), len(pack.parse(GOOD).data) + 24)

    def test_either_row_or_both_with_and_without_names(self):
        """0.5 -0.25 and 1 -131072 over 65,536, in each way."""
        second = "0.0000152587890625 -2"
        texts = [GOOD]
        for name in ("", "hot"):
            texts.append(GOOD.replace(FIRST, f"fitted {name} 0.5 -0.25"))
            texts.append(texts[-1].replace(SECOND, f"fitted {second}"))
        texts.append(GOOD.replace(SECOND, f"fitted cold {second}"))
        sources = [pack.parse(text) for text in texts]
        self.assertEqual({source.model for source in sources}, {sources[0].model})
        self.assertEqual([sorted(source.fitted) for source in sources],
                         [[], [0], [0, 1], [0], [0, 1], [1]])
        for source in sources:
            self.assertEqual(exact.listing(source.data), exact.listing(sources[0].data))
            self.assertEqual(source.rounded, ())

    def test_the_nearest_number_of_binary64_is_taken(self):
        for word, bits in (
            ("0.1", 0x3FB9_9999_9999_999A),
            # Half of a bit above 1, to even; a little more; and one bit and a half.
            ("1.00000000000000011102230246251565404236316680908203125", 0x3FF0_0000_0000_0000),
            ("1.00000000000000011102230246251565404236316680908203126", 0x3FF0_0000_0000_0001),
            ("0x1.00000000000018p0", 0x3FF0_0000_0000_0002),
            ("2.0000000000000002", 0x4000_0000_0000_0000),  # less than half of a bit above 2
            ("5e-324", 1), ("2e-324", 0), ("-1e-999", 1 << 63), ("-0", 1 << 63), ("0", 0),
            ("-0x0p+0", 1 << 63), ("0x1p-1074", 1), ("0x1p-99999", 0),
            ("2", 0x4000_0000_0000_0000), ("-2.000", 0xC000_0000_0000_0000),
            ("0." + "9" * 5_000, 0x3FF0_0000_0000_0000),
        ):
            self.assertEqual(self.row_of(f"{word} 0").fitted[0], (bits, 0), word[:40])

    def test_spelled_and_read_again(self):
        rng = random.Random(9)
        some = [rng.choice((0, 1 << 63)) | rng.randrange(pattern(2.0) + 1) for _ in range(3_000)]
        for bits in (0, 1 << 63, 1, 1 << 52, pattern(2.0), pattern(-2.0), *some):
            decimal, value = spelling.float_text(bits), float_of(bits)
            self.assertLess(len(decimal), 26)
            hexadecimal = value.hex()
            for word in (decimal, f"{value:.17g}", f"{value:+.20e}", hexadecimal,
                         hexadecimal.upper()):
                self.assertTrue(spelling.FLOAT.fullmatch(word), word)
                self.assertEqual(spelling.pattern_of(word), bits, word)

    def test_unpacked_again(self):
        words = "-0.0 1.9999999999999998"
        source = self.row_of(words)
        text = pack.unpack(source.data)
        self.assertIn(f"\nfitted {words}\nscaled 1 -131072\n", text)
        self.assertEqual(pack.parse(text).data, source.data)
        named = pack.write_text(self.row_of("0x1p-1074 1e-5"))
        self.assertIn("\nfitted hot 5e-324 1e-05\nscaled cold 1 -131072\n", named)

    def test_random_files(self):
        seen = 0
        for data in models.stream(12, 200):
            model = exact.read_model(data)
            rows = {} if isinstance(model, Refusal) else fitted_rows_of(data, model.n)
            if rows:
                source = pack.parse(pack.unpack(data))
                self.assertEqual((source.fitted, source.model), (rows, model))
                kinds = [[file[at] for at in offsets(file)] for file in (data, source.data)]
                self.assertEqual(*kinds)
                seen += 1
        self.assertGreater(seen, 40)

    def test_what_rounding_changes(self):
        most = "the largest relative change is"
        for words, told in (
            ("0.5 -0.25", None),
            ("-0.0 0x1p-16", None),
            ("0.97 -0.25", f"1 entry was rounded (fitted); {most} 0.00013 %, of 0.97 in row 'hot'"),
            ("0x1.f0a3d70a3d70ap-1 -0.25",
             f"1 entry was rounded (fitted); {most} 0.00013 %, of 0x1.f0a3d70a3d70ap-1 in row"
             " 'hot'"),
            ("0.97 -1e-4",
             f"2 entries were rounded (fitted); {most} 6.8 %, of -1e-4 in row 'hot'"),
            ("0.97 5e-324",
             f"2 entries were rounded (fitted); {most} 100 %: 5e-324 in row 'hot' becomes 0"),
        ):
            self.assertEqual(pack.rounding(self.row_of(words)), told)
        both = GOOD.replace(FIRST, "fitted 0.97 0").replace(SECOND, "row ~0.0001 0")
        self.assertEqual(
            pack.rounding(pack.parse(both)),
            f"2 entries were rounded (~ and fitted); {most} 6.8 %, of ~0.0001 in row 'cold'",
        )
        long = pack.rounding(self.row_of("0." + "3" * 90 + " 0"))
        self.assertTrue(long.endswith(f", of 0.{'3' * 48}.. in row 'hot'"), long)

    def test_the_change_is_that_of_the_number_in_the_file(self):
        (entry,) = self.row_of("0.3 0").rounded
        scaled = 65_536 * Fraction(0.3)
        self.assertEqual(entry.change, (19_661 - scaled) / scaled)
        self.assertTrue(math.isclose(entry.change, 0.2 / 19_660.8))


class RoundedEntries(unittest.TestCase):
    """What `rounded` prints: the entries that rounding changes, and how far they are."""

    def told(self, first=FIRST, second=SECOND):
        """The lines of the text with these rows, with one blank between words; and the last."""
        text = GOOD.replace(FIRST, first).replace(SECOND, second)
        *lines, last = pack.rounded_entries(pack.parse(text)).splitlines()
        return [" ".join(line.split()) for line in lines], last

    def test_by_hand(self):
        for row, *lines in (
            ("fitted 0.97 -0.25", "hot hot 0.97 63570 -0.0800 0.00013 %"),  # 63,569.92
            ("fitted -0.97 0.3",
             "hot hot -0.97 -63570 +0.0800 0.00013 %", "hot cold 0.3 19661 -0.2000 0.0010 %"),
            ("row ~0.97 ~-0.25", "hot hot ~0.97 63570 -0.0800 0.00013 %"),
            ("row 0.5 ~-0.0001", "hot cold ~-0.0001 -7 +0.4464 6.8 %"),  # -6.5536
            # Equally near to two, to the even one: 0.5 and 1.5, -1.5 and -2.5.
            ("fitted 0x1p-17 0x3p-17",
             "hot hot 0x1p-17 0 +0.5000 100 %", "hot cold 0x3p-17 2 -0.5000 33 %"),
            ("fitted -0x3p-17 -0x5p-17",
             "hot hot -0x3p-17 -2 +0.5000 33 %", "hot cold -0x5p-17 -2 -0.5000 20 %"),
            ("row ~0.00000762939453125 ~-0.00002288818359375",
             "hot hot ~0.00000762939453125 0 +0.5000 100 %",
             "hot cold ~-0.00002288818359375 -2 +0.5000 33 %"),
            # A little more, and a little less.
            ("fitted 0x1.0000000000001p-17 0x1.7ffffffffffffp-16",
             "hot hot 0x1.0000000000001p-17 1 -0.5000 100 %",
             "hot cold 0x1.7ffffffffffffp-16 1 +0.5000 33 %"),
            # They become 0.
            ("fitted 1e-6 -1e-6",
             "hot hot 1e-6 0 +0.0655 100 %", "hot cold -1e-6 0 -0.0655 100 %"),
            ("fitted 5e-324 -1e-300",
             "hot hot 5e-324 0 +3.2e-319 100 %", "hot cold -1e-300 0 -6.6e-296 100 %"),
        ):
            with self.subTest(row):
                told, last = self.told(row)
                self.assertEqual(told, lines)
                self.assertIn(f"entries changed by rounding: {len(lines)} of 4; ", last)

    def test_what_is_stored_exactly_is_left_out(self):
        for row in ("row 0.5 -0.25", "row ~0.5 ~-0", "fitted 0.5 -0x1p-16", "fitted -0.0 0",
                    "fitted 2 -2", "fitted 0.50000000000000000000001 -1e-999", "scaled 1 2"):
            self.assertEqual(self.told(row), ([], "entries changed by rounding: none of 4"))
        self.assertEqual(self.told("row ~0.50000000000000000000001 0"),
                         (["hot hot ~0.50000000000000000000001 32768 +6.6e-19"
                           " 0.0000000000000000000020 %"],
                          "entries changed by rounding: 1 of 4; the largest distance is 6.6e-19 of"
                          " 1/65,536"))

    def test_small_distances(self):
        """Four decimals from 0.0001 up; below that two digits, and never those of zero."""
        for distance, told in (
            ("0.5", "0.5000"), ("0.49995", "0.5000"), ("0.49985", "0.4998"), ("0.00015", "0.0002"),
            ("0.0001", "0.0001"), ("0.00009999", "1.0e-04"), ("0.00005", "5.0e-05"),
            ("0.00001234", "1.2e-05"), ("1e-300", "1.0e-300"),
        ):
            for sign in (1, -1):
                self.assertEqual(pack.distance_text(sign * Fraction(distance)), told)

    def test_the_lines_stand_in_columns(self):
        text = GOOD.replace(FIRST, "row ~0.97 -0.25").replace(SECOND, "fitted -1.5e-5 0.0001")
        self.assertEqual(
            pack.rounded_entries(pack.parse(text)),
            "hot   hot   ~0.97    63570  -0.0800  0.00013 %\n"
            "cold  hot   -1.5e-5     -1  +0.0170      1.7 %\n"
            "cold  cold  0.0001       7  -0.4464      6.8 %\n"
            "entries changed by rounding: 3 of 4; the largest distance is 0.4464 of 1/65,536\n",
        )
        (line,), _ = self.told(f"fitted 0.{'3' * 90} 0")
        self.assertEqual(line, f"hot hot 0.{'3' * 48}.. 21845 +0.3333 0.0015 %")

    def test_of_a_file_the_fitted_rows(self):
        text = GOOD.replace(FIRST, "row ~0.97 0").replace(SECOND, "fitted 9.70e-1 -0x1.8p-16")
        source = pack.parse(text)
        read = pack.read_source(source.data)
        self.assertEqual(
            pack.rounded_entries(read),
            "x1  x0  0.97                 63570  -0.0800  0.00013 %\n"
            "x1  x1  -2.288818359375e-05     -2  +0.5000       33 %\n"
            "entries changed by rounding: 2 of 4; the largest distance is 0.5000 of 1/65,536\n",
        )
        named = pack.rounded_entries(pack.renamed(read, source, "file", "text"))
        self.assertTrue(named.startswith("cold  hot   0.97 "), named)
        for text in (GOOD, GOOD.replace("0.5", "~0.97")):
            printed = pack.rounded_entries(pack.read_source(pack.parse(text).data))
            self.assertEqual(printed, "entries changed by rounding: none of 4\n")

    def test_one_coordinate(self):
        text = "coordinates a\nrow ~0.3\ninitial vertices\nvertex 1\ndirection d 1\n"
        self.assertEqual(
            pack.rounded_entries(pack.parse(text)),
            "a  a  ~0.3  19661  -0.2000  0.0010 %\n"
            "entries changed by rounding: 1 of 1; the largest distance is 0.2000 of 1/65,536\n",
        )
        self.assertEqual(pack.rounded_entries(pack.parse(text.replace("~0.3", "0.5"))),
                         "entries changed by rounding: none of 1\n")

    def check(self, source, values):
        """The entries at these places, of these exact values, are told as they should; how many."""
        *lines, last = pack.rounded_entries(source).splitlines()
        names, due, distances = source.coordinates, [], []
        for row, column in sorted(values):
            scaled = 65_536 * values[row, column]
            if scaled.denominator > 1:
                due.append([names[row], names[column], str(round(scaled))])
                distances.append(scaled - round(scaled))
        words = [line.split() for line in lines]
        self.assertEqual([[row, column, stored] for row, column, _, stored, *_ in words], due)
        for (_, _, _, stored, printed, change, _), distance in zip(words, distances):
            told, relative = Fraction(printed), abs(distance / (int(stored) + distance))
            self.assertTrue(0 < abs(told) <= Fraction(1, 2), printed)
            self.assertEqual(printed[0], "-" if distance < 0 else "+")
            off = abs(distance) / 20 if "e" in printed else Fraction(1, 20_000)
            self.assertLessEqual(abs(told - distance), off)
            self.assertLessEqual(abs(Fraction(change) / 100 - relative), relative / 20)
        count = f"{len(due) or 'none'} of {len(names) ** 2}"
        self.assertTrue(last.startswith(f"entries changed by rounding: {count}"), last)
        if due:
            most = pack.distance_text(max(map(abs, distances)))
            self.assertTrue(last.endswith(f"; the largest distance is {most} of 1/65,536"), last)
        return len(due)

    def test_random_files(self):
        """The exact values are Python's own of the same 64 bits."""
        seen = 0
        for data in models.stream(13, 200):
            model = exact.read_model(data)
            if not isinstance(model, Refusal):
                rows = fitted_rows_of(data, model.n)
                seen += self.check(pack.read_source(data), {
                    (row, column): Fraction(float_of(bits))
                    for row, entries in rows.items() for column, bits in enumerate(entries)
                })
        self.assertGreater(seen, 200)

    def test_random_texts(self):
        """A row of decimals with ~, and a fitted one of decimals and hexadecimal floats."""
        rnd = random.Random(14)

        def value():
            """A decimal at a multiple of 1/131,072, near to one or to zero, or anywhere."""
            at = Fraction(rnd.choice((0, rnd.randrange(-262_000, 262_000))), 131_072)
            off = rnd.choice((0, 10 ** rnd.randrange(1, 36))) * rnd.randrange(-9, 10)
            return at + Fraction(off, 10**40)

        seen = 0
        for _ in range(500):
            decimals = [spelling.decimal_text(value()) for _ in range(2)]
            floats = [float(value()) for _ in range(2)]
            words = [rnd.choice((repr, float.hex))(number) for number in floats]
            source = pack.parse(
                GOOD.replace(FIRST, f"row ~{decimals[0]} ~{decimals[1]}")
                .replace(SECOND, f"fitted {words[0]} {words[1]}")
            )
            values = {(0, i): Fraction(word) for i, word in enumerate(decimals)}
            values |= {(1, i): Fraction(number) for i, number in enumerate(floats)}
            seen += self.check(source, values)
        self.assertGreater(seen, 1_000)


def mistakes(text):
    """What is told of a text, by row and in words; with a count of more at the end."""
    with unittest.TestCase().assertRaises(files.Failure) as caught:
        pack.read_text(text if isinstance(text, bytes) else text.encode(), "rail.model")
    return [re.sub(r"^rail\.model:(?=\d)", "", said) for said in str(caught.exception).split("\n")]


class Messages(unittest.TestCase):
    def changed(self, old, new):
        self.assertEqual(GOOD.count(old), 1, old)
        return mistakes(GOOD.replace(old, new))

    def refused(self, old, new, place, message):
        """One mistake, with nothing told that follows from it."""
        said, *more = self.changed(old, new)
        self.assertTrue(said.startswith(f"{place}: "), said)
        self.assertIn(message, said)
        self.assertEqual(more, [])

    def test_messages(self):
        for old, new, place, message in (
            ("coordinates hot cold", "coordinates a b c d e f g", 2, "1 to 6"),
            ("coordinates hot cold", "coordinates 0", 2, "1 to 6"),
            ("coordinates hot cold", "coordinates hot hot", 2, "same name"),
            ("coordinates hot cold", "coordinates hot, cold", 2, "'hot,' is no name"),
            ("coordinates hot cold", "coordinates 9,0", 2, "coordinates 9 is beyond 1 to 6"),
            ("coordinates hot cold", "cordinates hot cold", 2, "did you mean 'coordinates'?"),
            ("coordinates hot cold\n", "", 2, "'coordinates' is due"),
            ("steps 7", "steps 257", 3, "1 to 256"),
            ("steps 7", "steps 0", 3, "without 'steps' the default"),
            ("steps 7", "steps seven", 3, "no whole number"),
            ("steps 7", "steps 7\nsteps 8", 4, "a second 'steps'"),
            ("steps 7", "stops 7", 3, "unknown word 'stops'"),
            ("row hot", "row cold", 4, "where row 'hot' is due"),
            ("0.5 -0.25", "0.5", 4, "expected 2 numbers"),
            ("0.5", "0.97", 4, "write ~0.97 for the nearest, which is 63570/65536"),
            ("0.5", "half", 4, "no decimal number"),
            ("0.5", "2.5", 4, "entry 2.5 in column 'hot' is beyond -2 to 2"),
            ("0.5", "2.3", 4, "entry 2.3 in column 'hot' is beyond -2 to 2"),
            ("0.5", "~2.00001", 4, "entry ~2.00001 in column 'hot' is beyond -2 to 2"),
            ("-131072", "-131073", 5,
             "entry -131,073 in column 'cold' is beyond -131,072 to 131,072"),
            ("scaled 1 -131072\n", "", 5, "no row for 'cold'"),
            ("row hot 0.5 -0.25   # decimals\nscaled 1 -131072\n", "", 4,
             "no row for 'hot', 'cold'"),
            ("row hot 0.5 -0.25   # decimals\nscaled 1 -131072\n", "row cold 0 0\n", 4,
             "no row for 'hot'"),
            ("scaled 1 -131072", "scaled 1 1\nscaled 2 2", 6, "one row too many"),
            ("initial zonotope", "initial ball", 6, "box, zonotope, vertices"),
            ("  generator 3 -4\n", "", 6, "1 to 8 generators"),
            ("  generator 3 -4", "  vertex 3 -4", 8, "'vertex' here: a zonotope"),
            ("  generator 3 -4", "  generator 3 1048575", 8, "1,048,577, beyond 1,048,576"),
            ("  generator 3 -4", "generator 1 1\n" * 9, 16, "1 to 8 generators"),
            ("  vertex 5 -6", "vertex 1 1\n" * 16, 26, "1 to 16 vertices"),
            ("initial zonotope\n  centre 1 2\n  generator 3 -4",
             "initial box\nlower 1 2\nupper 1 1", 8, "upper 1 is below lower 2 in 'cold'"),
            ("initial zonotope\n  centre 1 2\n  generator 3 -4",
             "initial box\nlower 1 2", 6, "one lower and one upper corner"),
            ("input vertices", "initial vertices", 9, "a second initial set"),
            ("initial zonotope\n  centre 1 2\n  generator 3 -4\n", "", 12, "no initial set"),
            ("input vertices", "input box", 10, "'vertex' here: a box"),
            ("  vertex 0 0\n  vertex 5 -6\n", "", 9, "the input set is not complete"),
            ("guard gap -12\n", "vertex 1 -1\nvertex 1 1\n", 14,
             "stands below no 'initial' or 'input'"),
            ("input vertices\n", "direction x 1 1\n", 10, "stands below no 'initial' or 'input'"),
            ("direction warm 1 0", "direction warm 1001 0", 12, "-1,000 to 1,000"),
            ("direction warm 1 0", "direction warm 0 0", 12, "are zero"),
            ("direction gap 1 -1", "direction warm 1 -1", 13, "a second direction"),
            ("direction gap 1 -1", "direction 1 -1", 13, "needs a name"),
            ("guard gap -12", "guard gas -12", 14, "no direction named 'gas'"),
            ("guard gap -12", "guard gap", 14, "expected 'guard'"),
            ("guard gap -12", "guard gap many", 14, "no whole number"),
            ("guard gap -12", "guard gpa -12", 14, "did you mean 'gap'? above it are warm, gap"),
            ("guard gap -12", "unit gap", 14,
             "expected 'unit', the name of a direction or of a coordinate, a unit and, where it is"
             " not 1, how many counts make one, as in 'unit hottest °C 16'"),
            ("guard gap -12", "unit gap 16", 14, "'16' is no unit"),
            ("guard gap -12", "unit gap " + "m" * 13, 14, "1 to 12 characters"),
            ("guard gap -12", "unit gap mV 0", 14, "counts 0 is beyond 1 to 1,000,000,000"),
            ("guard gap -12", "unit gap mV 1000000001", 14, "beyond 1 to 1,000,000,000"),
            ("guard gap -12", "unit gap mV\nunit gap mV", 15, "a second unit of direction 'gap'"),
            ("guard gap -12", "unit hot mV\nunit hot K", 15, "a second unit of coordinate 'hot'"),
            ("steps 7", "unit cold mV\nunit cold mV", 4, "a second unit of coordinate 'cold'"),
            ("steps 7", "unit hot 16", 3, "'16' is no unit"),
            ("steps 7", "unit hot mV 0", 3, "counts 0 is beyond 1 to 1,000,000,000"),
            ("guard gap -12", "time 1.25", 14, "'time 1.25 ms'"),
            ("guard gap -12", "time 0 ms", 14, "not above 0"),
            ("guard gap -12", "time -1 ms", 14, "not above 0"),
            ("guard gap -12", "time ~1 ms", 14, "~ marks entries of a 'row' only"),
            ("guard gap -12", "time 1 ms\ntime 1 ms", 15, "a second 'time'"),
            ("9223372036854775807", "9223372036854775808", 15, "level"),
            ("guard gap -12", "guard gap 1\n" * 16, 31, "0 to 16"),
        ):
            with self.subTest(new[:40]):
                self.refused(old, new, place, message)

    def test_names_of_units(self):
        """What is no direction above a unit and no coordinate, with a suggestion of either."""
        def told(name, hint, above):
            return (f"no direction named {name!r} above this unit, and no coordinate;{hint}"
                    f" {above}; coordinates are hot, cold")

        none, one, both = "no direction is above it", "above it are warm", "above it are warm, gap"
        for old, new, place, message in (
            ("guard gap -12", "unit gas mV", 14, told("gas", " did you mean 'gap'?", both)),
            ("guard gap -12", "unit code mV", 14, told("code", " did you mean 'cold'?", both)),
            ("guard gap -12", "unit Hot mV", 14, told("Hot", " did you mean 'hot'?", both)),
            ("guard gap -12", "unit air mV", 14, told("air", "", both)),
            ("direction gap", "unit gap mV\ndirection gap", 13, told("gap", "", one)),
            ("steps 7", "unit gap mV", 3, told("gap", "", none)),
            ("steps 7", "unit hat mV", 3, told("hat", " did you mean 'hot'?", none)),
            ("steps 7", "guard hot 1", 3,
             "no direction named 'hot' above this guard; no direction is above it"),
            ("guard gap -12", "guard cold -12", 14,
             "no direction named 'cold' above this guard; above it are warm, gap"),
        ):
            with self.subTest(new):
                self.assertEqual(self.changed(old, new), [f"{place}: {message}"])
        # Each is told once for each row, and nothing of a second unit of what is not there.
        told_twice = [f"{place}: {told('air', '', both)}" for place in (14, 15)]
        self.assertEqual(self.changed("guard gap -12", "unit air mV\nunit air mV"), told_twice)

    def test_names_of_guards(self):
        form = "is no name: a letter, then letters, digits, '_', '.' or '-'"
        expected = ("expected 'guard', a direction's name, a level and, where it has one, the"
                    " guard's name, as in 'guard hottest 4480 limit'")
        second = "a second guard named 'low'"
        for new, told in (
            ("guard gap -12 low\nguard warm 1 low", f"15: {second}"),
            ("guard gap -12 low\nguard gap 1\nguard gap -12 low", f"16: {second}"),
            ("guard gap -12 9lives", f"14: '9lives' {form}"),
            ("guard gap -12 'low'", f"14: \"'low'\" {form}"),
            ("guard gap -12 -", f"14: '-' {form}"),
            ("guard gap 12 000", f"14: '000' {form}; a level is one number"),
            ("guard gap 12 ,5", f"14: ',5' {form}; a level is one number"),
            ("guard gap", f"14: {expected}"),
            ("guard", f"14: {expected}"),
            ("guard gap -12 low level", f"14: {expected}"),
            ("guard gap -12 is too low", f"14: {expected}"),
            # In another order.
            ("guard gap low -12", f"14: {expected}"),
            ("guard low gap -12", f"14: {expected}"),
            ("guard gap low", "14: 'low' is no whole number"),
            ("guard gap 1_0 low", "14: '1_0' is no whole number; write 10"),
        ):
            with self.subTest(new):
                self.assertEqual(self.changed("guard gap -12", new), [told])

    def test_fitted_rows(self):
        binary = "no decimal or hexadecimal number"
        for words, place, message in (
            ("hot half 0", 4, f"'half' is {binary}"),
            ("hot 0.5e 0", 4, f"'0.5e' is {binary}"),
            ("hot 0x 0", 4, f"'0x' is {binary}"),
            ("hot 0x1.8q3 0", 4, f"'0x1.8q3' is {binary}"),
            ("hot 1.8p-3 0", 4, f"'1.8p-3' is {binary}"),
            ("hot 0,5 0", 4, f"'0,5' is {binary}; write 0.5"),
            ("hot \u22120x1p-3 0", 4, f"'\u22120x1p-3' is {binary}; write -0x1p-3"),
            ("hot 2,5 0", 4, f"'2,5' is {binary}; entry 2.5 in column 'hot' is beyond -2 to 2"),
            ("hot ~0.97 0", 4, f"'~0.97' is {binary}; ~ marks entries of a 'row' only"),
            ("hot ~0x1p-3 0", 4, f"'~0x1p-3' is {binary}; ~ marks entries of a 'row' only"),
            ("hot ~ 0.97 0", 4, "found 3; ~ marks entries of a 'row' only"),
            ("hot inf 0", 4, "'inf' is no finite number; an entry is -2 to 2"),
            ("hot 0 -Infinity", 4, "'-Infinity' is no finite number; an entry is -2 to 2"),
            ("hot nan 0", 4, "'nan' is no finite number; an entry is -2 to 2"),
            ("hot 0 -NaN(0x1)", 4, "'-NaN(0x1)' is no finite number; an entry is -2 to 2"),
            ("hot 2.0000000000000004 0", 4,
             "entry 2.0000000000000004 in column 'hot' is beyond -2 to 2"),
            ("hot 0 -0x1.0000000000001p1", 4,
             "entry -0x1.0000000000001p1 in column 'cold' is beyond -2 to 2"),
            ("hot 1e400 0", 4, "entry 1e400 in column 'hot' is beyond -2 to 2"),
            ("hot 0 -0x1p99999", 4, "entry -0x1p99999 in column 'cold' is beyond -2 to 2"),
            (f"hot {'9' * 400} 0", 4, f"entry {'9' * 50}.. in column 'hot' is beyond -2 to 2"),
            ("hot 0.5", 4, "expected 2 numbers, one for each coordinate, found 1"),
            ("hot 0.5 0 0x1p-3", 4, "expected 2 numbers, one for each coordinate, found 3"),
            ("cold 0.5 0", 4, "row 'cold' comes where row 'hot' is due"),
            ("0.5 0\nfitted hot 0.5 0", 5, "a second row 'hot', where row 'cold' is due"),
            ("0.5 0\nfitted 0.5 0", 6, "one row too many"),
        ):
            with self.subTest(words[:40]):
                old = f"{FIRST}\n{SECOND}" if "\nfitted hot" in words else FIRST
                self.refused(old, f"fitted {words}", place, message)

    def test_fitted_is_meant(self):
        for row in ("0x1p-3 0.5", "hot 0x1p-3 0.5", "hot 0.5 1e-3", "1e-3 -0x1p-9"):
            self.refused(FIRST, row, 4, f"did you mean 'fitted {row.split()[0]} ..'?")

    def test_a_fitted_row_is_hinted_at(self):
        """Of a number in a `row` that a fitted one takes; with that word the text is right."""
        no, hint = "is no decimal number", "a 'fitted' row takes it as it is"
        for word, told in (
            ("0x1p-1", f"'0x1p-1' {no}"),
            ("-0X1.8P-3", f"'-0X1.8P-3' {no}"),
            ("0x2", f"'0x2' {no}"),
            ("0x1p-99999", f"'0x1p-99999' {no}"),
            ("5e-1", f"'5e-1' {no}; write 0.5"),
            ("-1E-3", f"'-1E-3' {no}; write ~-0.001"),
            ("2.0000000000000001e0", f"'2.0000000000000001e0' {no}; write ~2.0000000000000001"),
            ("1e-41", f"'1e-41' {no}"),
            ("5e-324", f"'5e-324' {no}"),
            (f"0.{'3' * 41}", f"'0.{'3' * 41}' has more than 40 digits before or behind the point"),
        ):
            with self.subTest(word):
                self.assertEqual(self.changed("0.5", word), [f"4: {told}; {hint}"])
                pack.parse(GOOD.replace("row hot 0.5", f"fitted hot {word}"))
        both = [f"4: '0x1p-1' {no}; {hint}", f"4: '1e-60' {no}; {hint}"]
        self.assertEqual(self.changed("hot 0.5 -0.25", "0x1p-1 1e-60"), both)

    def test_a_hexadecimal_float_means_a_fitted_row(self):
        """No entry beside it is told to be marked, which would be wrong there; all advice fits."""
        no, hint = "is no decimal number", "4: '0x1p-1' is no decimal number; a 'fitted' row takes"
        for words, *told, right in (
            ("0x1p-1 0.97", hint, "0x1p-1 0.97"),
            ("0.97 0x1p-1", hint, "0.97 0x1p-1"),
            ("0x1p-1 0,97", hint, f"4: '0,97' {no}; write 0.97", "0x1p-1 0.97"),
            ("0x1p-1 1e-3", hint, f"4: '1e-3' {no}; write 0.001; a 'fitted' row", "0x1p-1 0.001"),
            ("0x1p-1 2.5", hint, "4: entry 2.5 in column 'cold' is beyond -2 to 2", "0x1p-1 2"),
            ("0x1p-1 1e3", hint, f"4: '1e3' {no}; entry 1000 in column 'cold' is", "0x1p-1 1"),
        ):
            with self.subTest(words):
                found = self.changed("0.5 -0.25", words)
                self.assertEqual(len(found), len(told), found)
                for said, start in zip(found, told):
                    self.assertTrue(said.startswith(start), said)
                pack.parse(GOOD.replace("row hot 0.5 -0.25", f"fitted hot {right}"))
        # Without one, a `row` may be meant as well.
        self.assertEqual(
            self.changed("0.5 -0.25", "1e-3 0.97"),
            [f"4: '1e-3' {no}; write ~0.001; a 'fitted' row takes it as it is",
             "4: 0.97 is no multiple of 1/65,536; write ~0.97 for the nearest, which is"
             " 63570/65536"],
        )

    def test_a_fitted_row_is_not_hinted_at(self):
        """Where it would not take the number either, or an entry beside it is marked by `~`."""
        no, beyond = "is no decimal number", "in column 'hot' is beyond -2 to 2"
        for words, told in (
            ("0x1p2 0", f"'0x1p2' {no}; entry 0x1p2 {beyond}"),
            ("-0x1.0000000000001p1 0",
             f"'-0x1.0000000000001p1' {no}; entry -0x1.0000000000001p1 {beyond}"),
            ("1e3 0", f"'1e3' {no}; entry 1000 {beyond}"),
            ("1e50 0", f"'1e50' {no}; entry 1e50 {beyond}"),
            ("1e400 0", f"'1e400' {no}; entry 1e400 {beyond}"),
            ("0x1p-1 ~0.25", f"'0x1p-1' {no}"),
            ("1e-3 ~0.25", f"'1e-3' {no}; write ~0.001"),
            ("~0x1p-1 0", f"'~0x1p-1' {no}"),
            ("0x 0", f"'0x' {no}"),
            ("1.8p-3 0", f"'1.8p-3' {no}"),
            ("inf 0", f"'inf' {no}"),
        ):
            with self.subTest(words):
                self.assertEqual(self.changed("0.5 -0.25", words), [f"4: {told}"])
        for old, new in (("scaled 1", "scaled 0x1"), ("scaled 1", "scaled 1e-3"),
                         ("centre 1", "centre 0x1"), ("guard gap -12", "time 0x1p-1 ms"),
                         ("guard gap -12", "time 1e-3 ms")):
            (said,) = self.changed(old, new)
            self.assertNotIn("fitted", said)

    def test_no_input_set(self):
        """Its absence is no mistake, and none is told beside what may have been meant for it."""
        for old, new, place, message in (
            ("input vertices", "blob vertices", 9, "unknown word 'blob'"),
            ("input vertices\n", "", 9, "'vertex' here: a zonotope has one centre"),
            (INPUT, "vertex 0 0\n", 9, "'vertex' here: a zonotope has one centre"),
            (INPUT, "initial box\nlower 0 0\nupper 1 1\n", 9, "a second initial set"),
            (INPUT, "steps 8\n", 9, "a second 'steps'"),
            (INPUT + "direction warm 1 0", "warm 1 0", 9, "did you mean 'direction warm ..'?"),
        ):
            with self.subTest(new):
                self.refused(old, new, place, message)
        neither = NO_INPUT.replace("initial zonotope\n  centre 1 2\n  generator 3 -4\n", "")
        self.assertEqual(mistakes(neither), ["9: no initial set"])
        # `in` and `u` may stand for `input`, but not before numbers.
        for name in ("in", "u"):
            text = NO_INPUT.replace("direction gap", name).replace("guard gap", f"guard {name}")
            (said,) = mistakes(text)
            self.assertIn(f"did you mean 'direction {name} ..'?", said)
            (said,) = mistakes(GOOD.replace("input", name))
            self.assertIn("did you mean 'input'?", said)

    def test_too_many_directions(self):
        extra = "".join(f"direction e{i} 1 1\n" for i in range(16))
        self.refused("guard gap -12\n", extra, 28, "1 to 16")

    def test_words_that_are_meant(self):
        for old, new, place, guess, allowed in (
            ("centre", "center", 7, "centre", "centre"),
            ("generator", "generators", 8, "generator", "generator"),
            ("centre", "mid", 7, "centre", "centre"),
            ("vertex 5", "point 5", 11, "vertex", "vertex, time, drift, direction, unit"),
            ("row hot", "matrix hot", 4, "row",
             "time, row, scaled, fitted, drift, initial, input, direction, unit"),
            ("row hot", "Row hot", 4, "row",
             "time, row, scaled, fitted, drift, initial, input, direction, unit"),
            ("row hot", "fit hot", 4, "fitted",
             "time, row, scaled, fitted, drift, initial, input, direction, unit"),
            ("steps 7", "stops 7", 3, "steps",
             "steps, time, row, scaled, fitted, drift, initial, input, direction, unit"),
            ("steps 7", "units hot mV", 3, "unit",
             "steps, time, row, scaled, fitted, drift, initial, input, direction, unit"),
            ("initial", "offset 1 2\ninitial", 6, "drift",
             "time, drift, initial, input, direction, unit"),
            ("initial", "init", 6, "initial", "time, drift, initial, input, direction, unit"),
            ("input", "inputs", 9, "input", "generator, time, drift, input, direction, unit"),
            ("input", "init", 9, "input", "generator, time, drift, input, direction, unit"),
            ("direction gap", "dir gap", 13, "direction", "time, drift, direction, unit, guard"),
            ("guard gap", "limit gap", 14, "guard", "time, drift, direction, unit, guard"),
        ):
            with self.subTest(new):
                word = new.split()[0]
                told = f"unknown word {word!r}; did you mean {guess!r}? allowed here: {allowed}"
                self.refused(old, new, place, told)
                self.assertTrue(self.changed(old, new)[0].endswith(told))
        corners = "initial zonotope\n  centre 1 2\n  generator 3 -4"
        self.assertEqual(
            self.changed(corners, "initial box\nmin 1 2\nhigh 3 4"),
            ["7: unknown word 'min'; did you mean 'lower'? allowed here: lower",
             "8: unknown word 'high'; did you mean 'upper'? allowed here: upper"],
        )
        self.refused("input vertices", "input vertex", 9,
                     "did you mean 'vertices'? input takes one of box, zonotope, vertices")
        for form in ("none", "zero", "0"):
            self.refused(INPUT, f"input {form}\n", 9,
                         f"unknown form {form!r}; input takes one of box, zonotope, vertices, and"
                         " is left out where there is no input")
        self.refused("steps 7", "blob 7", 3, "unknown word 'blob'; allowed here: steps, time, row")
        self.refused("row hot 0.5", "0.5", 4, "did you mean 'row 0.5 ..'?")

    def test_units_that_are_still_allowed(self):
        """Of a direction above, or of a coordinate whose name none of these has."""
        named = GOOD.replace("warm", "hot")
        for text, rows, still in (
            (GOOD, UNITS, True),
            (GOOD, UNITS + "unit warm K\n", True),
            (GOOD, UNITS + "unit warm K\nunit gap K\n", False),
            (GOOD, "unit hot K\nunit warm K\nunit gap K\n", True),
            (named, "unit hot K\nunit gap K\n", True),
            (named, "unit hot K\nunit gap K\nunit cold K\n", False),
        ):
            with self.subTest(rows):
                (told,) = mistakes(text.replace("guard gap", f"{rows}blob 1\nguard gap"))
                self.assertEqual(told.endswith("direction, unit, guard"), still, told)
        told = mistakes(NAMED.replace("row hot", "blob 1\nrow hot"))
        self.assertTrue(told[0].endswith("initial, input, direction"), told)
        # A name stands behind it: of numbers another word is meant.
        self.refused("direction gap 1 -1", "unit1 1 -1\ndirection gap 1 -1", 13,
                     "unknown word 'unit1'; did you mean 'direction unit1 ..'?")

    def test_numbers_in_other_spellings(self):
        """The advice is right at its place, or there is none but the limits."""
        for old, new, message in (
            ("0.5", "0,5", "'0,5' is no decimal number; write 0.5"),
            ("0.5", "1,000", "write 1"),
            ("0.5", "5e-1", "write 0.5"),
            ("0.5", "1e-3", "write ~0.001"),
            ("0.5", "~0,97", "write ~0.97"),
            ("0.5", "\u22121", "write -1"),
            ("0.5", "1e3", "no decimal number; entry 1000 in column 'hot' is beyond -2 to 2"),
            ("0.5", "2,5", "no decimal number; entry 2.5 in column 'hot' is beyond -2 to 2"),
            ("scaled 1", "scaled 1e3", "write 1000"),
            ("scaled 1", "scaled 1e6", "entry 1,000,000 in column 'hot' is beyond -131,072 to"),
            ("centre 1", "centre 1_000", "write 1000"),
            ("generator 3", "generator 1048576.0",
             "the reach of the initial set in 'hot' is 1,048,577, beyond 1,048,576"),
            ("steps 7", "steps 7.0", "write 7"),
            ("steps 7", "steps 1,000", "steps 1,000 is beyond 1 to 256"),
            ("warm 1 0", "warm 1,000 0", "write 1000"),
            ("guard gap -12", "guard gap 1e3", "write 1000"),
            ("guard gap -12", "guard gap 1_000", "write 1000"),
            ("guard gap -12", "guard gap 1,000,000", "write 1000000"),
            ("guard gap -12", "guard gap 12.0", "write 12"),
            ("guard gap -12", "guard gap \u221212", "write -12"),
            ("guard gap -12", "guard gap 1e30", "is beyond -9,223,372,036,854,775,808 to"),
            ("guard gap -12", "time 1,25 ms", "write 1.25"),
        ):
            with self.subTest(new):
                self.refused(old, new, GOOD[: GOOD.index(old)].count("\n") + 1, message)
                said = self.changed(old, new)[0]
                if " write " in said:
                    word, written = re.search(r"'(.*)' is no .* write ([^;]*)", said).groups()
                    pack.parse(GOOD.replace(old, new.replace(word, written)))
        for new in ("0,5", "1.500", "half", "1e400", "--1"):
            self.assertNotIn("write", self.changed("guard gap -12", f"guard gap {new}")[0])
        # With a decimal point or a thousands mark; not where one of the two would be refused.
        self.refused("guard gap -12", "guard gap 21.000", 14, "write 21 or 21000")
        self.assertNotIn("write", self.changed("steps 7", "steps 1.000")[0])

    def test_numbers_with_too_many_digits(self):
        digits = "0.96999999999999997335464740899624302983283996582"
        told = f"'~{digits[:49]}'.. has more than 40 digits before or behind the point"
        self.assertEqual(self.changed("row hot 0.5", f"row hot ~{digits}5"), [f"4: {told}"])
        self.assertIn("'1e100' is no", self.changed("guard gap -12", "guard gap 1e100")[0])

    def test_all_mistakes_in_the_order_of_the_rows(self):
        text = """\
            coordinates rail current setpoint
            steps 0
            row rail 0,5 1 2.5
            row current 1
            initial zonotope
              center 1 2 3
              generator 1 2
            input ball
              lower 0 0 x
            direction warm 1 0 0 0
            direction gap 1001 0 0
            guard warm 1
            guard gap 1.5
            guard gas 1
            """
        told = mistakes(text)
        places = [int(row.split(":")[0]) for row in told]
        self.assertEqual(places, [2, 3, 3, 4, 5, 6, 7, 8, 9, 10, 11, 13, 14])
        for row, words in zip(told, ("steps 0", "write 0.5", "-2 to 2", "found 1", "'setpoint'",
                                     "'centre'", "found 2", "'ball'", "'x'", "found 4", "1,001",
                                     "'1.5'", "'gas'")):
            self.assertIn(words, row)

    def test_twenty_mistakes_and_a_count_of_more(self):
        told = self.changed("guard gap -12\n", "guard gap x\n" * 16 + "guard gas 1\n" * 7)
        self.assertEqual(len(told), 21)
        self.assertEqual(told[-1], "rail.model: and 4 more")  # 16 + 7, and one guard too many

    def test_one_slip_is_one_mistake(self):
        """A row twice, a word left out, a name too few: told once, and where it is."""
        row = "row hot 0.5 -0.25   # decimals\n"
        for old, new, told in (
            (row, row + row, "5: a second row 'hot'"),
            ("scaled 1 -131072", "row hot 1 1", "5: a second row 'hot', where row 'cold' is due"),
            ("row hot 0.5", "hot 0.5", "4: unknown word 'hot'; did you mean 'row hot ..'?"),
            ("direction gap 1", "gap 1",
             "13: unknown word 'gap'; did you mean 'direction gap ..'?"),
            ("input vertices", "vertices",
             "9: unknown word 'vertices'; did you mean 'input vertices'?"),
            ("steps 7", "7", "3: unknown word '7'; did you mean 'steps 7'?"),
            ("hot cold", "hot", "2: 1 coordinate, but the rows below have 2 numbers each"),
            ("hot cold", "hot cold air",
             "2: 3 coordinates, but the rows below have 2 numbers each"),
            ("hot cold", "= hot cold", "2: '=' is no name: "),
            ("hot cold", "hot,cold", "2: 'hot,cold' is no name: "),
            ("initial", "initial zonotope\ninitial", "7: a second initial set"),
            ("hot cold\nsteps 7\nrow hot 0.5", "2\nsteps 7\nx0 0.5",
             "4: unknown word 'x0'; did you mean 'row x0 ..'?"),
            ("row hot 0.5 -0.25", "row hot ~ 0.5 -0.25",
             "4: expected 2 numbers, one for each coordinate, found 3; ~ stands right before"),
        ):
            with self.subTest(new):
                found = self.changed(old, new)
                self.assertEqual(len(found), 1, found)
                self.assertTrue(found[0].startswith(told), found)

    def test_no_row_is_told_where_the_matrix_ends(self):
        """Units may stand above it, as steps and the time may."""
        for rows, told in (
            (f"{FIRST}\n{SECOND}\n", "6: no row for 'hot', 'cold'"),
            (f"{SECOND}\n", "7: no row for 'cold'"),
        ):
            self.assertEqual(mistakes(NAMED.replace(rows, "")), [told])

    def test_no_unit_is_told_that_may_be_meant_for_a_wrong_name(self):
        alike, second = "2: two coordinates have the same", "13: a second direction named 'warm'"
        for old, new, units, told in (
            ("hot cold", "hot 9cold", UNITS, "2: '9cold' is no name"),
            ("hot cold", "hot hot", UNITS, alike),
            ("hot cold", "hot hot", "unit hot K\nunit hot K\n", alike),
            ("direction warm", "direction 9", "unit warm K\n", "12: a direction needs a name"),
            ("direction gap", "direction warm", "unit gap K\n", second),
            # Its name may be `cold`.
            ("direction gap", "direction warm", "unit cold K\nunit cold K\n", second),
        ):
            with self.subTest(new + units):
                text = GOOD.split("guard")[0] + units
                self.assertEqual(text.count(old), 1)
                (found,) = mistakes(text.replace(old, new))
                self.assertTrue(found.startswith(told), found)

    def test_nothing_is_told_that_only_follows(self):
        """Of a text with one word changed there is one mistake, or a few in the same row."""
        rnd = random.Random(3)
        for _ in range(800):
            rows = rnd.choice((GOOD, NO_INPUT, NAMED)).splitlines()
            at = rnd.randrange(2, len(rows))
            words = rows[at].partition("#")[0].split()
            words[rnd.randrange(1, len(words))] = rnd.choice(("1e99", "?", "0,5", "2.7182", "-"))
            text = "\n".join(rows[:at] + [" ".join(words)] + rows[at + 1:])
            try:
                pack.parse(text)
            except files.Failure:
                places = {row.split(":")[0] for row in mistakes(text)}
                self.assertEqual(places, {str(at + 1)}, text)

    def test_bytes_that_are_no_text(self):
        good = GOOD.encode()
        packed = pack.parse(GOOD).data
        no_utf_8 = "is no UTF-8: save the text as UTF-8"
        wide = "the text is saved as UTF-16 or UTF-32: save it as UTF-8"
        other_end = "a line end that is no line feed: save the text with Unix or Windows line ends"
        start = "a model starts with 'coordinates'"
        for data, *told in (
            (good.replace(b"two", b"caf\xe9"), f"1: byte E9 {no_utf_8}"),
            (good.replace(b"warm 1 0", b"w\xe4rm 1 0"), f"12: byte E4 {no_utf_8}"),
            (good.replace(b"decimals", b"\xb5A").replace(b"steps 7", b"steps 0"),
             "3: steps 0 is beyond 1 to 256; without 'steps' the default holds",
             f"4: byte B5 {no_utf_8}"),
            (good.replace(b"steps 7", b"steps 7\0"),
             "3: byte 00 is a zero byte, which no text has; if this is a text at all, save it as"
             " UTF-8"),
            (bytes(range(0x1F, 3, -1)) * 20,
             "1: byte 1F is a control byte (Ctrl-_), which no text has; if this is a text at all,"
             " save it as UTF-8"),
            # What hides a statement behind a comment, and looks like the end of a row in an editor.
            (good.replace(b"decimals\n", b"decimals\r"), f"4: {other_end}"),
            (good.replace(b"decimals\n", b"decimals\xe2\x80\xa8"), f"4: {other_end}"),
            (good.replace(b"decimals\n", b"decimals\xc2\x85"), f"4: {other_end}"),
            (good.replace(b"decimals\n", b"decimals\x0c\n"),
             "4: byte 0C is a control byte (Ctrl-L), which no text has: take it out"),
            (good.replace(b"\n", b"\r"), f"1: {other_end}"),
            (good + b"\x1a",
             "16: byte 1A is a control byte (Ctrl-Z), which no text has: take it out"),
            (GOOD.encode("utf-16"), f"rail.model: {wide}"),
            (GOOD.encode("utf-32"), f"rail.model: {wide}"),
            (b"", "rail.model: the file is empty; a model's text starts with 'coordinates'"),
            (b" \r\n\t\n", f"rail.model: the text is empty: it has only blanks; {start}"),
            (b"# steps 7\n", f"rail.model: the text is empty: it has only comments; {start}"),
            (packed, "rail.model: not a text, but a packed model"),
            (b"\0" + packed[1:], "rail.model: not a text, but maybe a packed model whose first"
                                 " byte is 00 and not 01"),
        ):
            with self.subTest(data[:20]):
                self.assertEqual(mistakes(data), told)

    def test_nothing_refused_by_the_reader_only(self):
        """What packs is read: `parse` asserts it for each text, here at all limits at once."""
        points = "".join(f"vertex {sign}1048576 0\n" for sign in ("", "-")) * 8
        text = "coordinates 2\nsteps 256\nrow 2 -2\nscaled 131072 -131072\n"
        text += f"initial vertices\n{points}input vertices\n{points}"
        text += "".join(f"direction d{i} 1000 -1000\n" for i in range(16))
        text += "guard d15 -9223372036854775808\n" * 16
        self.assertEqual(len(pack.parse(text).data), 4 + 2 * 26 + 3 * 400 + 160 + 1)


class Command(helpers.FolderTest):
    def setUp(self):
        super().setUp()
        self.text = self.write("good.model", GOOD)

    def test_pack_and_unpack(self):
        packed, again = self.folder / "good.bin", self.folder / "again.model"
        self.assertEqual(run_tool("pack.py", "pack", self.text, "-o", packed), (b"", "", 0))
        self.assertEqual(packed.read_bytes(), pack.parse(GOOD).data)
        self.assertEqual(run_tool("pack.py", "unpack", packed, "-o", again), (b"", "", 0))
        self.assertEqual(run_tool("pack.py", "pack", again)[0], packed.read_bytes())

    def test_an_entry_beyond_n_is_told_with_its_record_and_column(self):
        data = pack.parse(GOOD).data
        starts = [at for at in offsets(data) if entry_places(data[at])]
        names = ("row 0 (the first)", "row 1 (the second)", "the centre of the initial set",
                 "generator 0 (the first) of the initial set",
                 "vertex 0 (the first) of the input set", "vertex 1 (the second) of the input set",
                 "direction 0 (the first)", "direction 1 (the second)")
        self.assertEqual(len(starts), len(names))
        for number, (at, record) in enumerate(zip(starts, names), start=1):
            for column, which in ((2, "third"), (5, "sixth")):
                changed = bytearray(data)
                changed[at + entry_places(data[at])[column]] = 7
                out, said, status = run_tool("pack.py", "unpack", "-", stdin=bytes(changed))
                self.assertEqual((out, status), (b"", 1))
                self.assertEqual(said, (
                    f"standard input: refused 16 at {at}: {record}, record {number} of the file"
                    f" from 0: entry 7 in column {column} (the {which}); n is 2, so that columns 2"
                    " to 5 must be zero: put zeros there, or save the model with all of its"
                    " coordinates\n"
                ))

    def test_a_text_packs_zeros_beyond_its_coordinates(self):
        """All bytes there are zero, those of a sign too; also of what is unpacked."""
        texts = [GOOD, NO_INPUT, GOOD.replace(FIRST, "fitted hot 0x1p-3 -2e-1")]
        texts += [path.read_text() for path in sorted(Path(TOOLS, "../examples").glob("*.model"))]
        for data in models.stream(21, 150):
            if not isinstance(exact.read_model(data), Refusal):
                texts.append(pack.unpack(data))
        seen = set()
        for text in texts:
            data = pack.parse(text).data
            for at in offsets(data):
                if places := entry_places(data[at])[data[1] :]:
                    end = at + 1 + BODY_LENGTHS[data[at]]
                    self.assertEqual(data[at + places[0] : end], bytes(end - at - places[0]), text)
                    seen.add(data[at])
        self.assertEqual(seen, set(ENTRY_KINDS))

    def test_negative_zeros_beyond_n_become_zeros_with_a_note(self):
        plain = pack.parse(GOOD.replace(FIRST, "fitted 0.5 0.3")).data
        data = bytearray(plain)
        data[4 + 2 + 5 * 8 + 7] = 0x80
        out, said, status = run_tool("pack.py", "unpack", "-", stdin=bytes(data))
        self.assertEqual((said, status),
                         ("standard input: note: negative zeros beyond n become zeros\n", 0))
        self.assertEqual(pack.parse(out.decode()).data, plain)
        self.assertEqual(exact.listing(bytes(data)), exact.listing(plain))

    def test_rounding_is_told_unless_quiet(self):
        for entry, how in (("row hot ~0.97", "~"), ("fitted hot 0.97", "fitted")):
            text = GOOD.replace("row hot 0.5", entry).encode()
            told = f"1 entry was rounded ({how}); the largest relative change is 0.00013 %,"
            told += f" of {entry.split()[-1]} in row 'hot'"
            for options, name in (((), "standard input"), (("--name", "rail"), "rail")):
                out, said, status = run_tool("pack.py", "pack", *options, "-", stdin=text)
                self.assertEqual((said, status), (f"{name}: {told}\n", 0))
                self.assertEqual(out, pack.parse(text.decode()).data)
            self.assertEqual(run_tool("pack.py", "pack", "--quiet", "-", stdin=text)[1], "")

    def test_fitted_rows_are_packed_and_unpacked(self):
        packed, again = self.folder / "fitted.bin", self.folder / "again.model"
        text = self.write("fitted.model", GOOD.replace(FIRST, "fitted hot 0x1p-3 -2e-1"))
        run_tool("pack.py", "pack", text, "-o", packed)
        self.assertEqual(packed.read_bytes()[4], FITTED)
        made = run_tool("pack.py", "unpack", packed, "--names", text, "-o", again)
        self.assertEqual(made, (b"", "", 0))
        self.assertIn("\nfitted hot 0.125 -0.2\n", again.read_text())
        self.assertEqual(run_tool("pack.py", "pack", again)[0], packed.read_bytes())
        # An entry beyond n, here a NaN, is told.
        data = bytearray(packed.read_bytes())
        data[4 + 2 + 2 * 8 : 4 + 2 + 3 * 8] = b"\xff" * 8
        out, said, status = run_tool("pack.py", "unpack", "-", stdin=bytes(data))
        self.assertEqual((out, status), (b"", 1))
        self.assertIn("refused 16 at 4: fitted row 0 (the first), record 1 of the file from 0:"
                      " entry nan in column 2 (the third); n is 2,", said)
        # With a wrong first byte it is still told from a text.
        data[0] = 0
        said = run_tool("pack.py", "pack", "-", stdin=bytes(data))[1]
        self.assertIn("maybe a packed model whose first byte is 00", said)

    def test_no_input_set_is_told_unless_quiet(self):
        text = NO_INPUT.encode()
        for options, name in (((), "standard input"), (("--name", "rail"), "rail")):
            out, said, status = run_tool("pack.py", "pack", *options, "-", stdin=text)
            self.assertEqual((said, status), (f"{name}: {NO_INPUT_NOTE}\n", 0))
            self.assertEqual(out, pack.parse(NO_INPUT).data)
        self.assertEqual(run_tool("pack.py", "pack", "--quiet", "-", stdin=text), (out, "", 0))
        both = run_tool("pack.py", "pack", "-", stdin=text.replace(b"0.5", b"~0.97"))[1]
        self.assertRegex(both, rf"^standard input: 1 entry .*\nstandard input: {NO_INPUT_NOTE}\n$")
        # Without its first row the input set joins the initial one, and the note is the only sign.
        zonotope = "zonotope\n  centre 1 2\n  generator 3 -4\ninput vertices\n"
        joined = GOOD.replace(zonotope, "vertices\n")
        out, said, status = run_tool("pack.py", "pack", "-", stdin=joined.encode())
        self.assertEqual((said, status), (f"standard input: {NO_INPUT_NOTE}\n", 0))
        self.assertEqual(exact.read_model(out).initial, Set(VERTICES, ((0, 0), (5, -6))))
        # A wrong text has its mistakes alone.
        wrong = run_tool("pack.py", "pack", "-", stdin=text.replace(b"steps 7", b"steps 0"))[1]
        self.assertEqual(wrong.count("\n"), 1)

    def test_no_input_set_is_unpacked_and_listed(self):
        data = pack.parse(NO_INPUT).data
        out, said, status = run_tool("pack.py", "unpack", "-", stdin=data)
        self.assertEqual((out.decode(), said, status), (pack.unpack(data), "", 0))
        listing = exact.listing(data).encode()
        for given in (data, out, NO_INPUT.encode()):
            self.assertEqual(run_tool("exact.py", "-", stdin=given), (listing, "", 0))

    def test_rounded(self):
        rows = "row hot ~0.97 0", "fitted cold 1e-4 0.5"
        text = GOOD.replace(FIRST, rows[0]).replace(SECOND, rows[1]).replace("hot", "heiß")
        path, packed = self.write("rounded.model", text), self.folder / "rounded.bin"
        packed.write_bytes(pack.parse(text).data)
        for model, name, cells in (
            (path, "text", "heiß  heiß  ~0.97  63570  -0.0800  0.00013 %\n"
                           "cold  heiß  1e-4       7  -0.4464      6.8 %\n"),
            (packed, "file", "x1  x0  0.0001  7  -0.4464  6.8 %\n"),
        ):
            count = cells.count("\n")
            told = f"{cells}entries changed by rounding: {count} of 4; the largest distance is"
            told += " 0.4464 of 1/65,536\n"
            with self.subTest(name):
                self.assertEqual(run_tool("pack.py", "rounded", model), (told.encode(), "", 0))
                given = run_tool("pack.py", "rounded", "-", stdin=model.read_bytes())
                self.assertEqual(given, (told.encode(), "", 0))
        out = b"entries changed by rounding: none of 4\n"
        self.assertEqual(run_tool("pack.py", "rounded", self.text), (out, "", 0))
        # Negative zeros beyond n are no entries of the matrix.
        data = bytearray(packed.read_bytes())
        data[4 + 26 + 2 + 2 * 8 + 7] = 0x80
        self.assertEqual(run_tool("pack.py", "rounded", "-", stdin=bytes(data)),
                         run_tool("pack.py", "rounded", packed))

    def test_rounded_says_what_the_others_say(self):
        """Of wrong texts what `pack` says, and of refused files what `unpack` says."""
        wrong = GOOD.replace("steps 7", "steps 0").replace("0.5", "0.97").encode()
        beyond = bytearray(pack.parse(GOOD.replace(FIRST, "fitted 0.5 0.3")).data)
        beyond[4 + 2 + 7] = 0x7F
        rubbish = bytes(beyond[: 4 + 2 + 47]) + b"\x01" + bytes(beyond[4 + 2 + 48 :])
        good = pack.parse(GOOD).data
        for data, other, message in (
            (wrong, "pack", "standard input:3: steps 0"),
            (b"", "pack", "standard input: the file is empty"),
            (b"\0" + good[1:], "pack", "maybe a packed model whose first byte is 00"),
            (GOOD.encode("utf-16"), "pack", "saved as UTF-16"),
            (good[:-1], "unpack", "standard input: refused 1 at 226: "),
            (good + b"\0", "unpack", "standard input: refused 10 at "),
            (bytes(beyond), "unpack", "standard input: refused 15 at 4: "),
            (rubbish, "unpack", "standard input: refused 16 at 4: "),
        ):
            with self.subTest(message):
                out, said, status = run_tool("pack.py", "rounded", "-", stdin=data)
                self.assertEqual((out, status), (b"", 1))
                self.assertIn(message, said)
                self.assertEqual(said, run_tool("pack.py", other, "-", stdin=data)[1])

    def test_the_name_in_messages(self):
        wrong = GOOD.replace("steps 7", "steps 0").encode()
        for options, name in (((), "standard input"), (("--name", "rail"), "rail")):
            out, said, status = run_tool("pack.py", "pack", *options, "-", stdin=wrong)
            self.assertEqual((out, status), (b"", 1))
            self.assertTrue(said.startswith(f"{name}:3: steps 0"), said)

    def test_unpacked_with_names(self):
        text = NAMED.replace("guard gap", "unit gap mV 10\ntime 1.25 ms\nguard gap")
        data = pack.parse(GOOD).data
        names = self.write("names.model", text)
        out, said, status = run_tool("pack.py", "unpack", "-", "--names", names, stdin=data)
        self.assertEqual((said, status), ("", 0))
        self.assertEqual(pack.parse(out.decode()), pack.parse(text))
        self.assertIn(b"\nscaled hot 32768 -16384\n", out)
        self.assertEqual(run_tool("pack.py", "pack", "-", stdin=out)[0], data)
        # Only names are taken from the text.
        names = self.write("other.model", text.replace("0.5", "0.25").replace("steps 7", ""))
        again = run_tool("pack.py", "unpack", "-", "--names", names, stdin=data)
        self.assertEqual(again, (out, "", 0))
        self.assertNotIn(b"hot", run_tool("pack.py", "unpack", "-", stdin=data)[0])
        # Neither of the two needs an input set, and none is taken from the text.
        names = self.write("still.model", text.replace(INPUT, ""))
        again = run_tool("pack.py", "unpack", "-", "--names", names, stdin=data)
        self.assertEqual(again, (out, "", 0))
        names, still = self.write("names.model", text), pack.parse(NO_INPUT).data
        out, said, status = run_tool("pack.py", "unpack", "-", "--names", names, stdin=still)
        self.assertEqual((said, status), ("", 0))
        self.assertEqual(pack.parse(out.decode()), pack.parse(text.replace(INPUT, "")))

    def test_names_that_do_not_fit(self):
        data = pack.parse(GOOD).data
        fewer = self.write("fewer.model", "coordinates hot\nsteps 60\nrow 1\ninitial vertices\n"
                                          "vertex 1\ninput vertices\nvertex 1\ndirection d 1\n")
        more = self.write("more.model", GOOD + "direction more 1 1\n")
        guards = self.write("guards.model", NAMED + "guard gap 7\n")
        guard = self.write("guard.model", NAMED.replace("guard gap -12 cools\n", ""))
        wrong = self.write("wrong.model", GOOD.replace("steps 7", "steps 0"))
        for path, message, expected in (
            (fewer, "no names for standard input: 1 coordinates where the file has 2", 1),
            (more, "no names for standard input: 3 directions where the file has 2", 1),
            (guards, "no names for standard input: 3 guards where the file has 2", 1),
            (guard, "no names for standard input: 1 guards where the file has 2", 1),
            (wrong, "wrong.model:3: steps 0", 1),
            (self.folder / "none", "none: no such file", 3),
        ):
            out, said, status = run_tool("pack.py", "unpack", "-", "--names", path, stdin=data)
            self.assertEqual((out, status), (b"", expected))
            self.assertIn(message, said)

    def test_names_of_a_text_with_other_guards(self):
        """They fit where the text names none of its guards."""
        data = pack.parse(NAMED).data
        for text in (GOOD + "guard gap 7\n", GOOD.split("guard")[0], GOOD):
            text = text.replace("steps 7\n", UNITS)
            path = self.write("names.model", text)
            out, said, status = run_tool("pack.py", "unpack", "-", "--names", path, stdin=data)
            self.assertEqual((said, status), ("", 0))
            source = pack.parse(out.decode())
            self.assertEqual(source.guards, (None, None))
            self.assertEqual(source.coordinate_units, (DEGREES, DEGREES))
            self.assertEqual(source.data, data)

    def test_help_shows_the_form(self):
        for words in (("--help",), ("pack", "--help"), ("rounded", "--help")):
            out, _, status = run_tool("pack.py", *words)
            self.assertEqual(status, 0)
            self.assertIn(b"\n    direction NAME ENTRY ..       1 to 16, whole numbers\n", out)
            self.assertIn(b"\n    unit NAME UNIT [COUNTS]       what a direction above it or", out)
            self.assertIn(b"\n    guard DIRECTION LEVEL [NAME]  0 to 16, each on a direction", out)
            self.assertIn(b"\n    fitted [NAME] ENTRY ..        the same, in numbers of", out)
            self.assertIn(b" set, in the same way; left out, the input is zero\n", out)
            self.assertIn(b" the file leaves them to the default, 120\n", out)
            self.assertIn(b"\n    pack.py rounded MODEL\n", out)
            self.assertIn(b"\n`rounded` prints how far the matrix of ", out)

    def test_bad_input(self):
        empty = self.folder / "empty"
        empty.write_bytes(b"")
        cut = self.folder / "cut"
        cut.write_bytes(pack.parse(GOOD).data[:-1])
        for arguments, message, expected in (
            (("pack", self.folder / "none"), "none: no such file", 3),
            (("pack", self.folder), "is a directory", 3),
            (("pack", empty), "the file is empty", 1),
            (("pack", cut), "cut: not a text, but a packed model", 1),
            (("pack", helpers.__file__), ":1: unknown word", 1),
            (("pack", self.text, "-o", self.folder), "cannot be written", 3),
            (("pack", self.text, "-o", "/dev/full"), "cannot be written", 3),
            (("unpack", self.folder / "none"), "none: no such file", 3),
            (("unpack", self.folder), "is a directory", 3),
            (("unpack", empty), "the file is empty", 1),
            (("unpack", cut), "refused 1 at 226: the file ends where a guard (40) or", 1),
            (("unpack", self.text), "a packed model starts with byte 01", 1),
            (("rounded", self.folder / "none"), "none: no such file", 3),
            (("rounded", self.folder), "is a directory", 3),
            (("rounded", empty), "empty: the file is empty", 1),
            (("rounded", cut), "cut: refused 1 at 226: the file ends where a guard (40) or", 1),
            (("rounded", helpers.__file__), ":1: unknown word", 1),
        ):
            with self.subTest(arguments):
                out, said, status = run_tool("pack.py", *arguments)
                self.assertEqual((out, status), (b"", expected))
                self.assertIn(message, said)
                self.assertEqual(said.count("\n"), 1)
        for arguments in (("pack",), ("rounded",), ("rounded", self.text, "-o", empty)):
            self.assertEqual(run_tool("pack.py", *arguments)[2], 2)


if __name__ == "__main__":
    unittest.main()
