"""The examples are what their texts give, and show what they are there for."""

import shutil
import tempfile
import unittest
from dataclasses import replace
from fractions import Fraction
from pathlib import Path

from helpers import run_tool

import exact
import examples
import files
import listings
import pack
from layout import BOX, VERTICES, ZONOTOPE, Set, encode
from reporting import reports, terminal


def source_of(name):
    return pack.load(str(examples.FOLDER / f"{name}.model"))


def listing_of(name):
    data = files.read_bytes(str(examples.FOLDER / f"{name}.listing"))
    return listings.parse(data.decode("ascii"))


def report_of(name):
    """The report of an example, by the exact program's replies."""
    data = (examples.FOLDER / f"{name}.model").read_bytes()
    return reports.report_of(reports.Input(name, data, source_of(name)), reply=examples.reply)


class Examples(unittest.TestCase):
    names = sorted(path.stem for path in examples.FOLDER.glob("*.model"))

    def test_up_to_date(self):
        self.assertEqual(examples.stale(), [])
        self.assertGreaterEqual(len(self.names), 10)

    def test_stale_is_seen(self):
        with tempfile.TemporaryDirectory() as name:
            folder = Path(name)
            for suffix in (".model", ".bin", ".svg"):
                shutil.copy(examples.FOLDER / f"verdicts{suffix}", folder)
            shutil.copy(examples.FOLDER / "rail.listing", folder)
            (folder / "verdicts.bin").write_bytes(b"\x01")
            stale = ["rail.listing", "verdicts.bin", "verdicts.listing"]
            self.assertEqual(examples.stale(folder), stale)

    def test_the_readme_shows_rows_of_a_report(self):
        readme = (examples.FOLDER.parent / "README.md").read_text(encoding="utf-8")
        shown = readme.partition("\n## The report\n")[2].partition("\nFor each")[0]
        rows = [row.removeprefix("    ") for row in shown.splitlines() if row.strip(" .")]
        report = (examples.FOLDER / "rail.report").read_text(encoding="utf-8").splitlines()
        self.assertGreater(len(rows), 6)
        self.assertEqual([row for row in rows if row not in report], [])

    def test_a_text_speaks_of_the_listing_and_of_the_report(self):
        """Three texts say that a guard is UNKNOWN, and what it is in the report."""
        for name, word in (("rail", "CLEAR"), ("head", "HIT"), ("fitted", "HIT")):
            text = (examples.FOLDER / f"{name}.model").read_text()
            self.assertRegex(text, rf" edge .*UNKNOWN.*, {word} in the sharper report\n")
            said = {guard.name: guard.said.word for _, guard in report_of(name).guards}
            self.assertEqual(said["edge"], word)

    def test_cooling_has_a_level_equal_to_its_largest_bound(self):
        """It is clear by 0, listed and reported; `examples/README.md` shows the row."""
        swept, source = listing_of("cooling").directions[0], source_of("cooling")
        self.assertEqual((source.guards[0], source.model.guards[0]), ("reheats", (0, 3_200)))
        self.assertEqual((max(swept.bounds), swept.slacks[0]), (3_200, 0))
        self.assertEqual(listing_of("cooling").guards[0], listings.Verdict("CLEAR"))
        told = report_of("cooling")
        margins = {guard.name: one.direction.margin(guard) for one, guard in told.guards}
        self.assertEqual(margins["reheats"], (0, 0))
        readme = (examples.FOLDER / "README.md").read_text()
        (shown,) = (row.strip() for row in readme.splitlines() if row.startswith("    reheats "))
        self.assertIn(shown, terminal.whole(told).splitlines())
        self.assertIn(
            "If the limit itself is not allowed, write the level one count lower: `guard element"
            " 3199` in place of 3200. The level of a lowest value stands in the file with its sign"
            " turned: write `guard lowest -22801` in place of -22800", " ".join(readme.split()))
        self.assertIn((0, -22_800), source_of("rail").model.guards)
        lower = replace(source.model, guards=((0, 3_199),))
        self.assertEqual(exact.listing_of(lower).guards, (listings.Verdict("HIT", 0),))

    def test_accuracy(self):
        for name in self.names:
            exact.check_accuracy(source_of(name).model, listing_of(name))

    def test_unpacked_again(self):
        for name in self.names:
            data = source_of(name).data
            self.assertEqual(pack.parse(pack.unpack(data)).data, data)

    def test_what_each_shows(self):
        said = {name: {verdict.word for verdict in listing_of(name).guards} for name in self.names}
        for name in ("head", "rail", "roller", "fitted"):
            self.assertLessEqual({"HIT", "UNKNOWN", "CLEAR"}, said[name])
        self.assertEqual(said["verdicts"], {"UNKNOWN", "CLEAR"})
        self.assertEqual(listing_of("runaway").directions[0], listings.Growth(32))
        self.assertIn("GROWTH", said["runaway"])
        unnamed = [name for name in self.names if source_of(name).stated_steps == 0]
        self.assertEqual(unnamed, ["receipt"])
        still = [name for name in self.names if not source_of(name).input_stated]
        self.assertEqual(still, ["cooling"])
        fitted = {name: sorted(source_of(name).fitted) for name in self.names}
        self.assertEqual(fitted, {**dict.fromkeys(self.names, []), "fitted": [0, 1]})
        drifting = [name for name in self.names if source_of(name).drift_stated]
        self.assertEqual(drifting, ["summer"])
        self.assertEqual((listing_of("receipt").steps, listing_of("cooling").steps), (120, 60))
        self.assertEqual(source_of("budget").model.input.form, VERTICES)
        self.assertEqual(source_of("head").model.initial.form, ZONOTOPE)

    def test_guards_have_names(self):
        """All but those of the sample, which the README shows whole."""
        for name in self.names:
            guards = source_of(name).guards
            if name == "verdicts":
                self.assertEqual(guards, (None,) * 3)
            else:
                self.assertNotIn(None, guards, name)
                self.assertLessEqual(max(map(len, guards)), 12)

    def test_units_of_coordinates(self):
        """`rail` and `head` state them there, and their directions take them."""
        stated = [name for name in self.names if any(source_of(name).coordinate_units)]
        self.assertEqual(stated, ["head", "rail"])
        for name, units in (
            ("head", (("°C", 16),) * 3), ("rail", (("mV", 1), ("mV", 1), ("mA", 1))),
        ):
            source = source_of(name)
            self.assertEqual((source.units, source.direction_units), ((None,) * 3, units))

    def test_the_sample_is_the_specifications(self):
        self.assertEqual(len(source_of("verdicts").data), 186)
        expected = "model 1 3/dir 0 spare 10/0 0 0/1 1 0/2 2 1/3 2 1/"
        expected += "guard 0 UNKNOWN 2/guard 1 CLEAR/guard 2 CLEAR/"
        self.assertEqual(listings.write(listing_of("verdicts")), expected.replace("/", "\n"))

    def test_rail_is_unknown_and_clear_by_the_slack(self):
        """Its text says so of two guards; `examples/README.md` tells the last bound."""
        listing = listing_of("rail")
        lowest = listing.directions[0]
        self.assertEqual((max(lowest.bounds), lowest.bounds[-1]), (-21_504, -21_504))
        for number, level, word in ((1, -21_510, "UNKNOWN"), (2, -21_500, "CLEAR")):
            self.assertEqual(source_of("rail").model.guards[number], (0, level))
            self.assertEqual(listing.guards[number].word, word)
            self.assertLess(abs(level - lowest.bounds[-1]), lowest.slacks[-1])

    def test_roller_is_unknown_by_rounding_alone(self):
        """Its text says so of the guard at 2200, and that it is the last step alone."""
        text = (examples.FOLDER / "roller.model").read_text()
        for steps, word in ((95, "CLEAR"), (96, "UNKNOWN")):
            model = pack.parse(text.replace("steps 96", f"steps {steps}")).model
            self.assertEqual(exact.listing_of(model).guards[1].word, word)
            self.assertLess(max(exact.exact_values(model)[0]), 2_200)

    def test_runaway_with_fewer_steps(self):
        """Its text says that 31 steps are swept whole."""
        text = (examples.FOLDER / "runaway.model").read_text()
        model = pack.parse(text.replace("steps 60", "steps 31")).model
        self.assertIsInstance(exact.listing_of(model).directions[0], listings.Sweep)

    def test_receipt_of_one_copy(self):
        """Its text says that with `steps 60` every guard is CLEAR; the first is HIT behind 60."""
        text = (examples.FOLDER / "receipt.model").read_text()
        named = text.replace("\ntime 30 ms", "\nsteps 60\ntime 30 ms")
        said = exact.listing_of(pack.parse(named).model).guards
        self.assertEqual([verdict.word for verdict in said], ["CLEAR"] * 3)
        first = listing_of("receipt").guards[0]
        self.assertEqual((first.word, 60 < first.step <= 120), ("HIT", True))

    def test_summer_without_its_drift(self):
        """Its text and `examples/README.md` say which guards the drift turns, and from what."""
        text = (examples.FOLDER / "summer.model").read_text()
        told = [str(verdict) for verdict in listing_of("summer").guards]
        self.assertEqual(told, ["HIT 183", "HIT 190", "CLEAR", "CLEAR", "CLEAR"])
        readme = (examples.FOLDER / "README.md").read_text()
        self.assertIn("\nthey are HIT at steps 183 and 190,", readme)
        for drift in ("", "\ndrift 1315 655"):
            self.assertEqual(text.count("\ndrift 2367 1179"), 1)
            other = pack.parse(text.replace("\ndrift 2367 1179", drift)).model
            said = [verdict.word for verdict in exact.listing_of(other).guards]
            self.assertEqual(said, ["CLEAR"] * 4 + ["HIT"])

    def test_summer_has_a_drift_that_is_whole(self):
        """What the rows lack to 1, of air of 36 and 20 degrees; its texts tell other counts too."""
        model = source_of("summer").model
        shares = [Fraction(65_536 - sum(row), 65_536) for row in model.matrix]
        self.assertEqual([65_536 * share for share in shares], [263, 131])
        self.assertEqual(model.drift, tuple(36 * 16_384 * share for share in shares))
        self.assertEqual([20 * 16_384 * share for share in shares], [1_315, 655])
        for counts, expected in ((256, [36.98, 18.42]), (16, [2.31, 1.15])):
            found = [round(float(36 * counts * share), 2) for share in shares]
            self.assertEqual(found, expected)
        # The sink starts as warm as the air, and is never colder.
        self.assertEqual(set(exact.exact_values(model)[3]), {-36 * 16_384})

    def test_summer_in_coarser_counts(self):
        """`examples/README.md` says which way to round a drift, so that no bound is too low."""
        model = source_of("summer").model
        values = exact.exact_values(model)
        initial = Set(BOX, ((36 * 256,) * 2, (40 * 256,) * 2))

        def too_low(drift, upper):
            """The directions with a bound that is below the exact largest value at some step."""
            input_ = Set(BOX, ((0, 0), upper))
            coarse = replace(model, initial=initial, input=input_, drift=drift)
            swept = exact.listing_of(coarse).directions
            return [
                number for number, (one, exactly) in enumerate(zip(swept, values))
                if any(64 * bound < value for bound, value in zip(one.bounds, exactly))
            ]

        self.assertEqual(too_low((36, 18), (769, 1)), [])
        self.assertEqual(too_low((36, 18), (768, 0)), [0, 1, 2])
        self.assertEqual(too_low((37, 19), (768, 0)), [2, 3])

    def test_cooling_with_corners_of_zeros(self):
        """Its text has no input set; one from zero to zero gives the same listing and chart."""
        text = (examples.FOLDER / "cooling.model").read_text()
        self.assertNotIn("\ninput", text)
        stated = text.replace("direction element", "input box\nlower 0 0 0\nupper 0 0 0\n"
                                                   "direction element")
        with tempfile.TemporaryDirectory() as name:
            path = Path(name, "cooling.model")
            path.write_text(stated)
            made = {path.name: data for path, data in examples.made_from(path).items()}
        here = {path.name: path.read_bytes() for path in examples.FOLDER.glob("cooling.*")}
        for name in ("cooling.listing", "cooling.svg"):
            self.assertEqual(made[name], here[name])
        self.assertEqual(len(made["cooling.bin"]), len(here["cooling.bin"]) + 50)
        self.assertEqual(exact.read_model(made["cooling.bin"]), source_of("cooling").model)

    def test_fitted_is_rounded_as_its_texts_say(self):
        """Its text tells the largest change, also for milliwatts; `examples/README.md` tells it."""
        text = (examples.FOLDER / "fitted.model").read_text()
        note = pack.rounding(pack.parse(text))
        self.assertIn("the largest relative change is 0.49 %,", note)
        self.assertIn("tells how much that changes, 0.49 % at most", text)
        self.assertIn("would be 1.1347562846483198e-05 and change by 34 %", text)
        readme = (examples.FOLDER / "README.md").read_text()
        self.assertIn("the largest relative change, here\n0.49 %.", readme)
        for old, new in (
            (" 0.2464", " 0.002464"), (" 0.0011347562846483198", " 1.1347562846483198e-05"),
            (" 54\n", " 5400\n"), (" 60\n", " 6000\n"),
        ):
            self.assertEqual(text.count(old), 1)
            text = text.replace(old, new)
        self.assertIn("largest relative change is 34 %, of 1.1347562846483198e-05",
                      pack.rounding(pack.parse(text)))

    def test_fitted_entries_and_stored_ones(self):
        """`examples/README.md` shows what is printed of them, whole and in one block."""
        command = "pack.py rounded examples/fitted.model"
        out, said, status = run_tool(*command.split(), cwd=examples.FOLDER.parent)
        self.assertEqual((said, status), ("", 0))
        block = "".join(f"    {line}\n" for line in out.decode().splitlines())
        readme = (examples.FOLDER / "README.md").read_text()
        _, after = readme.split(f"\n\n    python3 tools/{command}\n\n")
        self.assertEqual(after.split("\n\n")[1] + "\n", block)
        # All entries of the two fitted rows are there, none of the third.
        source = source_of("fitted")
        self.assertEqual([(entry.row, entry.column) for entry in source.rounded],
                         [(row, column) for row in (0, 1) for column in range(3)])
        for entry in source.rounded:
            self.assertEqual(entry.stored, source.model.matrix[entry.row][entry.column])
        # The packed file has the same numbers, by other names and in other spellings.
        packed = pack.load(str(examples.FOLDER / "fitted.bin"))
        self.assertEqual([(entry.scaled, entry.stored) for entry in packed.rounded],
                         [(entry.scaled, entry.stored) for entry in source.rounded])

    def test_fitted_as_scaled_rows(self):
        """The listing is that of the rounded matrix."""
        source = source_of("fitted")
        self.assertEqual(exact.listing_of(source.model), listing_of("fitted"))
        scaled = encode(source.model)
        self.assertEqual(len(scaled), len(source.data) - 2 * 24)
        self.assertEqual(exact.listing(scaled), exact.listing(source.data))

    def test_budget_as_a_box(self):
        """Its text says that the guard on `both` is HIT with the box around the vertices."""
        text = (examples.FOLDER / "budget.model").read_text()
        start, end = text.index("input vertices"), text.index("direction sag")
        boxed = text[:start] + "input box\nlower -500 0\nupper 0 20\n" + text[end:]
        self.assertEqual(listing_of("budget").guards[3].word, "CLEAR")
        self.assertEqual(exact.listing_of(pack.parse(boxed).model).guards[3].word, "HIT")


if __name__ == "__main__":
    unittest.main()
