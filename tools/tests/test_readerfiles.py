"""The reader's test files: always the same, with replies worked out by hand where they can be."""

import itertools
import re
import tempfile
import unittest
from pathlib import Path

from helpers import run_tool

import exact
import readerfiles
from layout import (
    BODY_LENGTHS, ENTRY_KINDS, LONGEST_FILE, beyond, entry_places, offsets, point, states_input,
)
from listings import Refusal


def without_rubbish(data, n):
    """A file with zero bytes in all entries beyond n."""
    kept = bytearray(data)
    for at in offsets(data):
        if places := entry_places(data[at])[n:]:
            end = at + 1 + BODY_LENGTHS[data[at]]
            kept[at + places[0] : end] = bytes(end - at - places[0])
    return bytes(kept)


class ReaderFiles(unittest.TestCase):
    files = readerfiles.all_files()
    replies = {what: readerfiles.reply(data) for what, data in files}

    def test_replies_by_hand(self):
        for what, reply in (
            ("the sample of the specification", "model 1 3"),
            ("longest with vertices", "model 6 256"),
            ("the head says 0 steps", "model 1 120"),
            ("steps of 1 in the head", "model 1 1"),
            ("steps of 60 in the head", "model 1 60"),
            ("steps of 120 in the head", "model 1 120"),
            ("any numbers beyond n", "refused 16 at 4"),
            ("at the start: no byte", "refused 1 at 0"),
            ("at the start: kind 01 alone", "refused 1 at 0"),
            ("at the start: kind 00 alone", "refused 2 at 0"),
            ("at the start: kind 02 alone", "refused 3 at 0"),
            ("after 01: no byte", "refused 1 at 4"),
            ("after 01: kind 10 alone", "refused 3 at 4"),
            ("02 without its last byte", "refused 1 at 4"),
            ("after 02: kind 02 alone", "refused 3 at 30"),
            ("after 12: kind 20 alone", "refused 3 at 55"),
            ("after 13: kind 13 alone", "refused 1 at 80"),
            ("after 30: kind FF alone", "model 1 3"),
            ("after 40: kind 30 alone", "refused 3 at 140"),
            ("one 13 too many", "refused 9 at 255"),  # 30 + 25 + 8 * 25
            ("one 14 too many, its kind alone", "refused 9 at 430"),  # 30 + 16 * 25
            ("a 17th direction after a guard", "refused 3 at 515"),  # 105 + 16 * 25 + 10
            ("head 7 3", "refused 4 at 0"),
            ("second row is number 0", "refused 5 at 30"),
            ("crossed corners at 21", "refused 6 at 80"),
            ("direction [0], n 1", "refused 7 at 105"),
            ("direction [0, 1], n 1", "refused 16 at 105"),
            ("guard on direction 1 of 1", "refused 8 at 130"),
            ("the sample, then many bytes", "refused 10 at 186"),
            ("the longest file with scaled rows, then a byte", "refused 10 at 1521"),
            ("a wrong row without its last byte", "refused 1 at 4"),
            ("its first 115 bytes", "refused 1 at 115"),
            ("all bits changed of byte 115", "refused 2 at 115"),
            ("all bits changed of byte 9", "refused 5 at 4"),  # the last of the entry that counts
            ("all bits changed of byte 10", "refused 16 at 4"),
            ("all bits changed of byte 104", "refused 16 at 80"),
            ("after 11: kind 30 alone", "refused 1 at 80"),
            ("after 13: kind 30 alone", "refused 1 at 80"),
            ("after 14: kind 30 alone", "refused 1 at 55"),
            ("after 10: kind 30 alone", "refused 3 at 55"),
            ("after 12: kind 30 alone", "refused 3 at 55"),
            ("after 14: kind FF alone", "refused 3 at 55"),
            # 4 + 2 * 26 is 56; then 25 for each point.
            ("initial box of count 2, then a direction", "refused 1 at 131"),
            ("initial box of count 2, then a direction without its last byte", "refused 1 at 106"),
            ("initial box of count 2, then a guard", "refused 3 at 106"),
            ("initial box of count 2, then one 11 more", "refused 3 at 106"),
            ("initial zonotope of count 2, then the end", "refused 3 at 106"),
            ("initial zonotope of count 2, then one 13 more", "refused 1 at 131"),
            ("initial zonotope of count 9, then a direction", "refused 1 at 306"),
            ("initial zonotope of count 9, then one 13 more", "refused 9 at 281"),
            ("initial vertices of count 1, then no byte", "refused 1 at 81"),
            ("initial vertices of count 1, then kind 2F alone", "refused 2 at 81"),
            ("initial vertices of count 16, then a direction beyond its limit", "refused 7 at 456"),
            ("initial vertices of count 16, then record 22", "refused 1 at 481"),
            ("a direction after row 0 of 2", "refused 3 at 30"),
            ("a direction after 12 alone", "refused 3 at 81"),
            ("a direction after 20 alone", "refused 3 at 106"),
            ("no input set: 20 after a direction", "refused 3 at 106"),
            ("no input set: 14 after a direction", "refused 3 at 106"),
            ("no input set: shortest with vertices", "model 1 1"),
            ("no input set: longest with vertices", "model 6 256"),
            ("input set from zero to zero: longest with vertices", "model 6 256"),
            ("no input set: the head says 0 steps", "model 1 120"),
            ("no input set: any numbers beyond n", "refused 16 at 4"),
            ("no input set: a 17th direction", "refused 9 at 481"),  # 81 + 16 * 25
            ("no input set: guard on direction 1 of 1", "refused 8 at 106"),
            # 1,521 - 400
            ("no input set: the longest file with scaled rows, then a byte", "refused 10 at 1121"),
            ("at the start: kind 03 alone", "refused 3 at 0"),
            ("after 01: kind 03 alone", "refused 1 at 4"),
            ("after 01: kind 04 alone", "refused 2 at 4"),
            ("after 02: kind 03 alone", "refused 3 at 30"),
            ("after 40: kind 03 alone", "refused 3 at 140"),
            ("03 without its last byte", "refused 1 at 4"),
            ("after 03: kind 03 alone", "refused 3 at 54"),
            ("after 03: kind 14 alone", "refused 1 at 54"),
            ("after 03 of 2 rows: kind 02", "refused 1 at 54"),
            ("after 03 of 2 rows: kind 10", "refused 3 at 54"),
            ("rows 03 02 03", "model 3 1"),
            ("fitted rows, any bits beyond n 1", "refused 16 at 4"),
            ("fitted entry: the next above 2", "refused 15 at 4"),
            ("fitted entry: minus the first signalling NaN", "refused 15 at 4"),
            ("wrong fitted entry 5 of 6", "refused 15 at 254"),  # 4 + 5 * 50
            ("fitted entries: minus 2, the next below it, 1", "model 6 1"),
            ("first fitted row is number 1", "refused 5 at 4"),
            ("first fitted row is number 1, wrong entry", "refused 5 at 4"),
            ("second row is number 2, 02 then 03", "refused 5 at 30"),
            ("second row is number 0, wrong entry", "refused 5 at 54"),
            ("a wrong fitted row without its last byte", "refused 1 at 4"),
            ("a scaled row with kind 03", "refused 16 at 4"),  # the kind 10 is in its entry 3
            ("a fitted row with kind 02", "refused 16 at 4"),  # with the high half of 0.5 in 1
            ("a fitted row, all bits changed of byte 5", "refused 5 at 4"),
            ("a fitted row, all bits changed of byte 13", "refused 15 at 4"),  # sign, exponent
            ("longest with vertices and fitted rows", "model 6 256"),
            ("the longest file with fitted rows, then a byte", "refused 10 at 1665"),
            ("at the start: kind 05 alone", "refused 3 at 0"),
            ("after 01: kind 05 alone", "refused 3 at 4"),
            ("after 02: kind 05 alone", "refused 1 at 30"),
            ("after 03: kind 05 alone", "refused 1 at 54"),
            ("after 14: kind 05 alone", "refused 3 at 55"),
            ("after 40: kind 05 alone", "refused 3 at 140"),
            ("after 05: kind 05 alone", "refused 3 at 55"),
            ("after 05: kind 12 alone", "refused 1 at 55"),
            ("after 05: kind 30 alone", "refused 3 at 55"),
            ("after 03: 05 without its last byte", "refused 1 at 54"),
            ("a drift after 02 of 2 rows", "refused 3 at 30"),
            ("a drift in its place", "model 2 1"),
            ("a second drift at 81", "refused 3 at 81"),  # 4 + 2 * 26 + 25
            ("a second drift at 217", "refused 10 at 217"),
            ("the only drift behind 10", "refused 3 at 81"),
            ("drift entry 0 of 1 is -1048576", "model 1 1"),
            ("drift entry 0 of 1 is -1048577", "refused 17 at 54"),
            ("drift entry 5 of 6 is 1048577", "refused 17 at 160"),  # 4 + 6 * 26
            ("no input set: drift at its limits, n 6", "model 6 1"),
            ("drift of -2147483648", "refused 17 at 30"),
            ("drift, any numbers beyond n 1", "refused 16 at 30"),
            ("a wrong drift without its last byte", "refused 1 at 30"),
            ("a wrong drift a second time", "refused 3 at 55"),
            # 4 + 6 * 26 + 25 + 25 is 210; accepted so far, where the end may not stand.
            ("sum at its limit at 21, 100 in 2 with a drift of -1", "refused 3 at 260"),
            ("sum beyond its limit by one at 21, 100 in 2 with a drift of -1", "refused 17 at 235"),
            ("sum beyond its limit by one at 23, 41 in 0 with a drift of -1", "refused 17 at 260"),
            ("sum beyond its limit in the last coordinate of 2, -1 and 1", "refused 17 at 106"),
            ("6 before 17: crossed corners in the other coordinate", "refused 6 at 131"),
            ("6 before 17: reach beyond its limit at 24", "refused 6 at 106"),
            ("17 at the upper corner", "refused 17 at 131"),
            ("17 at a corner without its last byte", "refused 1 at 106"),
            ("17 at a ninth generator", "refused 9 at 331"),
            ("the initial set beside the drift", "model 2 3"),
            ("6 at the initial set", "refused 6 at 81"),
            ("longest with vertices, fitted rows and a drift", "model 6 256"),
            ("the longest file, then a byte", "refused 10 at 1690"),
            ("02, n 1: column 1 is not zero", "refused 16 at 4"),
            ("02, n 5: column 5 is not zero", "refused 16 at 108"),  # 4 + 4 * 26
            ("03, n 3: column 4 is not zero", "refused 16 at 56"),  # behind scaled rows
            ("05, n 2: column 5 is not zero", "refused 16 at 56"),
            ("10, n 4: column 4 is not zero", "refused 16 at 108"),
            ("11, n 1: column 2 is not zero", "refused 16 at 55"),
            ("13, n 5: column 5 is not zero", "refused 16 at 159"),  # 4 + 5 * 26 + 25
            ("20, n 2: column 3 is not zero", "refused 16 at 81"),
            ("24, n 1: column 5 is not zero", "refused 16 at 55"),
            ("30, n 3: column 3 is not zero", "refused 16 at 107"),
            ("23, n 4: no column beyond is zero", "refused 16 at 158"),
            ("02 with number 255, n 1: column 1 is not zero", "refused 16 at 4"),
            ("03 with number 4, n 4: column 5 is not zero", "refused 16 at 82"),
            ("02 with a wrong entry, n 3", "refused 5 at 56"),
            ("02 with a wrong entry, n 3: column 5 is not zero", "refused 16 at 56"),
            ("03 with a wrong entry, n 1", "refused 15 at 4"),
            ("03 with a wrong entry, n 1: column 5 is not zero", "refused 16 at 4"),
            ("05 with a wrong entry, n 5", "refused 17 at 134"),
            ("05 with a wrong entry, n 5: column 5 is not zero", "refused 16 at 134"),
            ("24 with a wrong entry, n 5", "refused 6 at 159"),
            ("24 with a wrong entry, n 5: column 5 is not zero", "refused 16 at 159"),
            ("30 with a wrong entry, n 2: column 5 is not zero", "refused 16 at 81"),
            ("30 with zeros up to n, n 2: column 3 is not zero", "refused 16 at 81"),
            ("crossed corners at 21, n 2: column 2 is not zero", "refused 16 at 106"),
            ("sum beyond its limit at 24, n 2: column 4 is not zero", "refused 16 at 106"),
            ("03 with rubbish, without its last byte, n 4", "refused 1 at 82"),
            ("30 with rubbish, without its last byte, n 4", "refused 1 at 133"),
            ("02 with rubbish behind a guard, n 1", "refused 3 at 90"),  # 4 + 26 + 25 + 25 + 10
            ("02 with rubbish before the head, n 1", "refused 3 at 0"),
            ("one 13 too many, with rubbish", "refused 9 at 333"),  # 4 + 4 * 26 + 9 * 25
            ("the last 13 with rubbish", "refused 16 at 308"),
            ("one 30 too many, with rubbish", "refused 9 at 533"),
            ("fitted rows, zeros beyond n 1", "model 1 1"),
            ("fitted rows, negative zeros beyond n 5", "model 5 1"),
            ("fitted row, zeros of either sign beyond n 1", "model 1 3"),
            ("fitted row, the smallest in column 5 beyond n 1", "refused 16 at 4"),
            ("fitted row, minus the first quiet NaN in column 1 beyond n 1", "refused 16 at 4"),
            ("the sample with a bit in the last column of 30", "refused 16 at 130"),
            ("zeros in place of: any numbers beyond n", "model 1 3"),
            ("zeros in place of: drift, any numbers beyond n 5", "model 5 1"),
            ("three coordinates saved from four", "refused 16 at 4"),
            ("three coordinates saved from four, and zeros beyond", "model 3 1"),
            ("rubbish in both rows", "refused 16 at 4"),
            ("rubbish in the second row", "refused 16 at 30"),
            ("rubbish in the second row, and a wrong entry in the first", "refused 5 at 4"),
        ):
            self.assertEqual(self.replies.get(what), reply, what)

    def test_every_number(self):
        refused = [reply for reply in self.replies.values() if reply.startswith("refused")]
        numbers = {int(reply.split()[1]) for reply in refused}
        self.assertEqual(numbers, {*range(1, 11), *range(15, 18)})
        self.assertLess(len(self.files), 1_500)

    def test_a_head_that_says_0_is_read_as_one_that_says_120(self):
        """File 4, of every file with a whole head, whatever it holds and wherever it is refused."""
        replies = set()
        for what, data in self.files:
            if data[:1] == b"\x01" and len(data) >= 4:
                none, said = (
                    readerfiles.reply(data[:2] + steps + data[4:]) for steps in (b"\0\0", b"\x78\0")
                )
                self.assertEqual(none, said, what)
                replies.add(int(none.split()[1]) if none.startswith("refused") else none)
        numbers = {*range(1, 11), *range(15, 18)}
        self.assertLessEqual({"model 1 120", "model 6 120", *numbers}, replies)

    def test_places(self):
        """The start and behind each of 16 kinds; 42 pairs of a place and a kind are allowed."""
        alone = [reply for what, reply in self.replies.items() if what.endswith(" alone")
                 and what.startswith(("at the start", "after"))]
        self.assertEqual(len(readerfiles.places()), 15)
        self.assertEqual(len(alone), 17 * 18)
        wrong = [reply for reply in alone if reply.startswith(("refused 2", "refused 3"))]
        self.assertEqual(len(alone) - len(wrong), 42)

    def test_mixtures(self):
        """Rows of both kinds in each mixture are read as the scaled ones."""
        files = dict(self.files)
        mixed = [what for what in files if what.startswith("rows 0")]
        self.assertEqual(len(mixed), 8)
        for what in mixed:
            data = files[what]
            self.assertEqual(exact.read_model(data), exact.read_model(files["rows 02 02 02"]), what)
            kinds = [f"{data[at]:02X}" for at in offsets(data)][1:4]
            self.assertEqual(what, f"rows {' '.join(kinds)}")

    def test_longest(self):
        accepted = [file for file in self.files if self.replies[file[0]].startswith("model")]
        longest = [what for what, data in accepted if len(data) >= LONGEST_FILE]
        self.assertEqual(longest, ["longest with vertices, fitted rows and a drift"])
        self.assertEqual(len(dict(accepted)[longest[0]]), LONGEST_FILE)

    def test_drift(self):
        """A drift of zeros is none; zeros beyond n are let in; and so is each sum at its limit."""
        files = dict(self.files)
        zero = [what for what in files if what.startswith("drift of zeros: ")]
        self.assertEqual(len(zero), 3)
        for what in zero:
            without = files[what.replace("drift of zeros", "no drift")]
            self.assertEqual(readerfiles.with_zero_drift(without)[1], files[what])
            self.assertEqual(exact.read_model(files[what]), exact.read_model(without))
        for n in range(1, 6):
            what = f"drift, any numbers beyond n {n}"
            self.assertEqual(exact.read_model(files[what]), Refusal(16, 4 + 26 * n))
            read = exact.read_model(files[f"zeros in place of: {what}"])
            self.assertEqual(read.drift, (7,) * n)
        for what in ("eight generators", "corners"):
            read = exact.read_model(files[f"sums at their limit with {what}"])
            self.assertEqual(exact.entering_reach(read.input, read.drift), (1_048_576,) * 2)

    def test_each_column_beyond_n_of_each_kind(self):
        """A file for each, and with zeros there another reply; nothing else is wrong in it."""
        files = dict(self.files)
        places = [(kind, n, column) for kind in ENTRY_KINDS for n in range(1, 6)
                  for column in range(n, 6)]
        self.assertEqual(len(places), 14 * 15)
        for kind, n, column in places:
            what = f"{kind:02X}, n {n}: column {column} is not zero"
            data, at = files[what], len(files[what]) - 1 - BODY_LENGTHS[kind]
            self.assertEqual(self.replies[what], f"refused 16 at {at}")
            self.assertEqual((data[at], list(beyond(data[at:], n))), (kind, [column]))
            cleaned = without_rubbish(data, n)
            self.assertEqual(readerfiles.reply(cleaned), f"refused 1 at {len(data)}")

    def test_each_column_beyond_n_of_a_row_out_of_turn(self):
        """A file for each kind, n and column, and with zeros there it is 5."""
        seen = set()
        for what, data in self.files:
            told = re.fullmatch(r"(0[23]) with number (\d+), n (\d): column (\d) is not zero", what)
            if told is None:
                continue
            number, n, column = map(int, told.groups()[1:])
            at = 4 + 26 * (n - 1)
            self.assertNotEqual(number, n - 1)
            self.assertEqual((data[at], data[at + 1]), (int(told[1]), number))
            self.assertEqual(list(beyond(data[at:], n)), [column])
            self.assertEqual(self.replies[what], f"refused 16 at {at}")
            self.assertEqual(readerfiles.reply(without_rubbish(data, n)), f"refused 5 at {at}")
            seen.add((told[1], n, column))
        places = itertools.product(("02", "03"), range(1, 6), range(1, 6))
        self.assertEqual(seen, {place for place in places if place[1] <= place[2]})

    def test_zeros_beyond_n(self):
        """Either zero in fitted rows gives the same listing; so do zeros in place of rubbish."""
        files = dict(self.files)
        for n in range(1, 6):
            plain, negative, rubbish = (
                files[f"fitted rows, {what} beyond n {n}"]
                for what in ("zeros", "negative zeros", "any bits")
            )
            self.assertEqual(exact.listing(plain), exact.listing(negative))
            self.assertNotEqual(plain, negative)
            self.assertEqual(self.replies[f"fitted rows, zeros beyond n {n}"], f"model {n} 1")
            self.assertEqual(without_rubbish(rubbish, n), plain)
            self.assertEqual(without_rubbish(negative, n), plain)
        sample, mixed = (files[what] for what in (
            "the sample of the specification", "fitted row, zeros of either sign beyond n 1"
        ))
        self.assertEqual(exact.listing(mixed), exact.listing(sample))
        places = [what for what in files if what.startswith("zeros in place of: ")]
        self.assertEqual(len(places), 8)
        for what in places:
            data = files[what.removeprefix("zeros in place of: ")]
            self.assertEqual(without_rubbish(data, data[1]), files[what])
        saved = files["three coordinates saved from four"]
        self.assertEqual(without_rubbish(saved, 3), files["three coordinates saved from four, and"
                                                          " zeros beyond"])

    def test_with_zero_drift(self):
        rows, rest = readerfiles.ROWS, point(0x14, [1, 2])
        zeros = b"\x05" + bytes(24)
        for behind in (b"", rest, rest[:3], b"\x31", rest + zeros):
            found = readerfiles.with_zero_drift(rows + behind)
            self.assertEqual(found, (len(rows), rows + zeros + behind))
        for data in (b"", b"\x01", rows[:-1], rows[:30], rows + zeros, rows + zeros[:1],
                     b"\x01\x03" + rows[2:] + rest, rest + rows, b"\x01\0" + rows[2:]):
            self.assertIsNone(readerfiles.with_zero_drift(data))

    def test_no_input_set(self):
        """Whole models without one are read as the same files with two corners of zeros."""
        files, zero = dict(self.files), "input set from zero to zero: "
        stated = [what for what in files if what.startswith(zero)]
        self.assertEqual(len(stated), 11)
        for what in stated:
            without = files[what.replace(zero, "no input set: ")]
            self.assertFalse(states_input(without), what)
            self.assertEqual(len(files[what]), len(without) + 50, what)
            self.assertEqual(exact.read_model(files[what]), exact.read_model(without), what)

    def test_with_zero_corners(self):
        corners = b"\x20" + bytes(24) + b"\x21" + bytes(24)
        rows, asked = readerfiles.ROWS, readerfiles.ASKED
        start = rows + point(0x14, [1, 2])
        for behind in (asked, asked[:1], asked[:-1], asked + b"\xff", asked + asked):
            found = readerfiles.with_zero_corners(start + behind)
            self.assertEqual(found, (len(start), start + corners + behind))
        other = start + point(0x24, [0, 0]) + asked
        for data in (b"", start, start + b"\xff" + asked, start + b"\x31" + asked, other,
                     rows + asked, rows + point(0x10, [1, 2]) + asked):
            self.assertIsNone(readerfiles.with_zero_corners(data))

    def test_written(self):
        with tempfile.TemporaryDirectory() as folder:
            out, said, status = run_tool("readerfiles.py", folder)
            self.assertEqual((said, status), ("", 0))
            written = {path.name: path.read_bytes() for path in Path(folder).iterdir()}
        self.assertEqual(written, readerfiles.contents())
        names = written["names"].decode().split("\n")[:-1]
        self.assertEqual(names, [f"{i:04}" for i in range(1, len(self.files) + 1)])
        expected = written["expected"].decode().splitlines()
        self.assertEqual(expected[0], "0001: model 1 3")
        self.assertEqual([row.split(":")[0] for row in expected], names)
        self.assertEqual([written[name] for name in names], [data for _, data in self.files])

    def test_bad_folder(self):
        _, said, status = run_tool("readerfiles.py", __file__)
        self.assertEqual(status, 3)
        self.assertIn("cannot be made", said)

    def test_the_run_test_has_these_files(self):
        """crates/readings reads the same files and is held to the same replies."""
        made = readerfiles.contents()
        kept = Path(__file__).resolve().parents[2] / "crates" / "readings"
        texts = {"names": kept / "args", "expected": kept / "stdout", "about": None}
        for name, data in made.items():
            place = texts.get(name, kept / "data" / name)
            if place is not None:
                self.assertEqual(place.read_bytes(), data, name)
        self.assertEqual({path.name for path in (kept / "data").iterdir()}, set(made) - set(texts))


if __name__ == "__main__":
    unittest.main()
