"""Refusals in words: each number with its record, what is wrong there and what to change."""

import unittest
from pathlib import Path

from helpers import FolderTest, run_tool

import refusal
from layout import direction, drift, fitted, guard, head, pattern, point, row

ROOT = Path(__file__).resolve().parents[2]
ROWS = head(1, 3) + row(0, [5])
SETS = ROWS + point(0x14, [1]) + point(0x24, [1])
ASKED = SETS + direction([1])
TWO = head(2, 3) + row(0, [5, 5]) + row(1, [5, 5])

FIRST_POINTS = (
    "the lower corner of the initial set (10), the centre of the initial set (12) or a vertex of"
    " the initial set (14)"
)
BEHIND_ROWS = f"the drift (05), {FIRST_POINTS}"
FIRST_INPUTS = (
    "the lower corner of the input set (20), the centre of the input set (22), a vertex of the"
    " input set (24)"
)
START = "a packed model starts with byte 01"


class Words(unittest.TestCase):
    def told(self, data, *messages):
        for message in messages:
            self.assertIn(message, refusal.message("rail", data))
        self.assertTrue(refusal.message("rail", data).startswith("rail: refused "))

    def test_1_the_file_ends(self):
        self.told(b"", "refused 1 at 0: the file is empty: a packed model starts with the head")
        self.told(b"\x01", "refused 1 at 0: the file ends within the head: 3 of its 4 bytes are")
        self.told(ROWS, f"refused 1 at 30: the file ends where {BEHIND_ROWS} should come")
        self.told(TWO[:-1], "refused 1 at 30: the file ends within row 1 (the second): 1 of its 26"
                            " bytes is missing; get the whole file")
        self.told(head(1, 3),
                  "the file ends where a scaled row (02) or a fitted row (03) should come")
        self.told(head(2, 3) + row(0, []) + fitted(1, [])[:-1],
                  "refused 1 at 30: the file ends within fitted row 1 (the second): 1 of its 50")
        self.told(ASKED, "refused 1 at 105: the file ends where a direction (30), a guard (40) or"
                         " the end (FF) should come")

    def test_2_unknown_kind(self):
        self.told(b"\0", f"refused 2 at 0: byte 00 is no kind of record; here may stand the head"
                         f" (01); {START}")
        self.told(b"coordinates 1\n", START, "if this is a text, pack it first")
        self.told(SETS + b"\x31", "refused 2 at 80: byte 31 is no kind of record; here may stand a"
                                  " vertex of the input set (24) or a direction (30)")

    def test_3_not_here(self):
        self.told(b"\x02",
                  "refused 3 at 0: a scaled row (02) stands where only the head (01) may", START)
        self.told(ROWS + row(1, [5]),
                  f"refused 3 at 30: a scaled row (02) stands where only {BEHIND_ROWS} may stand")
        self.told(ROWS + fitted(1, []),
                  f"refused 3 at 30: a fitted row (03) stands where only {BEHIND_ROWS} may stand")
        self.told(head(2, 3) + fitted(0, []) + direction([1]),
                  "a direction (30) stands where only a scaled row (02) or a fitted row (03) may")
        self.told(ROWS + point(0x12, [1]) + point(0x24, [1]),
                  "refused 3 at 55: a vertex of the input set (24) stands where only a generator of"
                  " the initial set (13) may stand")
        self.told(ROWS + point(0x10, [1]) + direction([1]),
                  "a direction (30) stands where only the upper corner of the initial set (11) may")
        # A list that is full is not offered.
        self.told(ASKED + direction([1]) * 15 + head(1, 1), "only a guard (40) or the end (FF) may")

    def test_3_behind_the_initial_set(self):
        """A direction is offered too, and is said to be needed."""
        needed = "; a model has 1 to 16 directions"
        for start, more in (
            (ROWS + point(0x10, [1]) + point(0x11, [1]), ""),
            (ROWS + point(0x12, [1]) + point(0x13, [1]), "a generator of the initial set (13), "),
            (ROWS + point(0x12, [1]) + point(0x13, [1]) * 8, ""),
            (ROWS + point(0x14, [1]), "a vertex of the initial set (14), "),
        ):
            due = f"{more}{FIRST_INPUTS} or a direction (30)"
            for record, name in ((guard(0, 1), "a guard (40)"), (b"\xff", "the end (FF)")):
                self.told(start + record, f"refused 3 at {len(start)}: {name} stands where only"
                                          f" {due} may stand{needed}, also without an input set")
            self.told(start, f"the file ends where {due} should come")
            self.told(start + b"\x31", f"here may stand {due}")
            self.told(start + direction([0]), "direction 0 (the first): its entry is zero;")
        said = refusal.message("rail", SETS + guard(0, 1))
        self.assertTrue(said.endswith(f"a direction (30) may stand{needed}"), said)

    def test_3_an_input_set_behind_a_direction(self):
        for start in (ROWS + point(0x14, [1]) + direction([1]), ASKED, ASKED + guard(0, 1)):
            self.told(start + point(0x20, [1]),
                      "the lower corner of the input set (20) stands where only ",
                      "the end (FF) may stand; the input set comes before the directions")

    def test_4_the_head(self):
        self.told(head(7, 3), "refused 4 at 0: the head: n is 7; it must be 1 to 6")
        self.told(head(1, 257), "the head: the number of steps is 257; it must be 1 to 256, or 0"
                                " for 120")
        self.told(head(0, 65_535), "n is 0;", "the number of steps is 65,535;")

    def test_5_rows(self):
        self.told(head(2, 3) + row(0, [5]) + row(0, [5]),
                  "refused 5 at 30: row 1 (the second): it says number 0 and must say 1")
        self.told(head(2, 3) + row(0, [5, -131_073]),
                  "refused 5 at 4: row 0 (the first): entry -131,073 in column 1 (the second) must"
                  " be -131,072 to 131,072 in 1/65,536, which is -2 to 2")

        self.told(head(2, 3) + row(0, []) + fitted(0, [pattern(-2.5)]),
                  "refused 5 at 30: fitted row 1 (the second): it says number 0 and must say 1;"
                  " entry -2.5 in column 0 (the first) must be")
        self.told(head(2, 3) + fitted(0, []) + row(2, []),
                  "refused 5 at 54: row 1 (the second): it says number 2 and must say 1")

    def test_6_sets(self):
        self.told(TWO + point(0x10, [3, 2]) + point(0x11, [3, 1]),
                  "refused 6 at 81: the upper corner of the initial set: upper 1 is below lower 2"
                  " in coordinate 1 (the second)")
        self.told(ROWS + point(0x12, [-1_048_570]) + point(0x13, [-6]) + point(0x13, [1]),
                  "refused 6 at 80: generator 1 (the second) of the initial set: with it the set's"
                  " reach in coordinate 0 (the first) is 1,048,577; it must be at most 1,048,576")
        self.told(ROWS + point(0x14, [0]) + point(0x20, [-(2**31)]),
                  "the lower corner of the input set: with it the set's reach in coordinate 0"
                  " (the first) is 2,147,483,648;")

    def test_7_directions(self):
        self.told(SETS + direction([1_001]), "refused 7 at 80: direction 0 (the first): entry 1,001"
                                             " in column 0 (the first) must be -1,000 to 1,000")
        self.told(ASKED + direction([0]), "refused 7 at 105: direction 1 (the second): its entry"
                                          " is zero; one must not be")
        self.told(TWO + point(0x14, []) + point(0x24, []) + direction([]), "all of its 2 entries")

    def test_8_guards(self):
        self.told(ASKED + guard(0, 1) + guard(1, 1), "refused 8 at 115: guard 1 (the second): it is"
                                                     " on direction 1, but the only one is")
        self.told(ASKED + direction([1]) + guard(9, 1), "direction 9, but there are 0 to 1;")

    def test_9_too_many(self):
        for start, record, message in (
            (ROWS + point(0x12, [1]), point(0x13, [1]) * 9,
             "generator 8 (the ninth) of the initial set, kind 13, is one too many: a zonotope has"
             " 1 to 8 generators; leave it out"),
            (ROWS, point(0x14, [1]) * 17, "vertex 16 (the seventeenth) of the initial set, kind"),
            (SETS, direction([1]) * 17, "direction 16 (the seventeenth), kind 30, is one too many"),
            (ASKED, guard(0, 1) * 17, "guard 16 (the seventeenth), kind 40, is one too many"),
        ):
            self.told(start + record, "refused 9 at", message)

    def test_10_bytes_behind_the_end(self):
        self.told(ASKED + b"\xff\xff", "refused 10 at 106: 1 byte follows the end (FF)")
        self.told(ASKED + b"\xff" + bytes(5_000), "refused 10 at 106: 5,000 bytes follow the end")

    def test_15_fitted_rows(self):
        for bits, shown in ((pattern(2.0) + 1, "2.0000000000000004"), (pattern(-1e300), "-1e+300"),
                            (0x7FF0 << 48, "inf"), (0xFFF0 << 48, "-inf"), (0x7FF8 << 48, "nan"),
                            (0xFFF0 << 48 | 1, "nan")):
            self.told(head(2, 3) + row(0, []) + fitted(1, [0, bits]),
                      f"refused 15 at 30: fitted row 1 (the second): entry {shown} in column 1 (the"
                      " second) must be a number from -2 to 2")
        wrong = fitted(0, [pattern(2.5), pattern(-3.0), 0])
        said = refusal.message("rail", head(2, 3) + wrong)
        self.assertEqual(said.count("must be a number"), 2)
        self.assertNotIn("says number", said)

    def test_16_beyond_n(self):
        """Record, columns and entries of each kind, and what to do; a wrong value is not told."""
        for start, record, name, number in (
            (head(2, 3) + row(0, [5, 5]), row(1, [5, 5, 7]), "row 1 (the second)", 2),
            (head(2, 3), row(9, [131_073, 5, 7]), "row 0 (the first)", 1),
            (TWO, drift([5, 5, 7]), "the drift", 3),
            (TWO, point(0x10, [5, 5, 7]), "the lower corner of the initial set", 3),
            (TWO + point(0x12, [1]), point(0x13, [5, 5, 7]),
             "generator 0 (the first) of the initial set", 4),
            (TWO + point(0x14, [1]), point(0x14, [5, 5, 7]),
             "vertex 1 (the second) of the initial set", 4),
            (TWO + point(0x14, [1]) + point(0x20, [1]), point(0x21, [5, 5, 7]),
             "the upper corner of the input set", 5),
            (TWO + point(0x14, [1]), direction([0, 0, 7]), "direction 0 (the first)", 4),
        ):
            self.assertEqual(refusal.message("rail", start + record), (
                f"rail: refused 16 at {len(start)}: {name}, record {number} of the file from 0:"
                " entry 7 in column 2 (the third); n is 2, so that columns 2 to 5 must be zero: put"
                " zeros there, or save the model with all of its coordinates"
            ))
        last = head(5, 3) + row(0, [5, 5, 5, 5, 5, -1_000])
        self.told(last, "entry -1,000 in column 5 (the sixth); n is 5, so that column 5 must be")
        nan, least = 0x7FF8 << 48, 1 << 63 | 1
        self.told(head(1, 3) + fitted(0, [0, nan, 0, 1 << 63, least]),
                  "refused 16 at 4: fitted row 0 (the first), record 1 of the file from 0: entry"
                  " nan in column 1 (the second); entry -5e-324 in column 4 (the fifth); n is 1,")

    def test_17_the_drift(self):
        self.told(TWO + drift([1_048_577, -(2**31)]),
                  "refused 17 at 56: the drift: entry 1,048,577 in coordinate 0 (the first) must be"
                  " -1,048,576 to 1,048,576; entry -2,147,483,648 in coordinate 1 (the second)")
        start = TWO + drift([9, -1_048_570]) + point(0x14, [])
        sums = ("with it the set's reach in coordinate 1 (the second) is 7, which with the drift of"
                " -1,048,570 makes 1,048,577; together they must be at most 1,048,576")
        self.told(start + point(0x24, [0, 7]),
                  f"refused 17 at 106: vertex 0 (the first) of the input set: {sums}")
        self.told(start + point(0x22, [0, 4]) + point(0x23, [0, -3]),
                  f"refused 17 at 131: generator 0 (the first) of the input set: {sums}")

    def test_the_drift_at_its_place(self):
        self.told(ROWS + drift([1])[:-1], "refused 1 at 30: the file ends within the drift: 1 of")
        self.told(ROWS + drift([1]), f"refused 1 at 55: the file ends where {FIRST_POINTS} should")
        once = "; it comes once at most, between the last row and the initial set"
        self.told(ROWS + drift([1]) * 2, "refused 3 at 55: the drift (05) stands where only"
                                         f" {FIRST_POINTS} may stand{once}")
        for start in (head(1, 3), SETS, ASKED):
            self.told(start + drift([1]), f"refused 3 at {len(start)}: the drift (05) stands", once)
        self.told(drift([1]), f"where only the head (01) may stand; {START}")

    def test_not_refused(self):
        self.assertEqual(refusal.message("rail", ASKED + b"\xff"),
                         "rail: not refused: a model with n 1 and 3 steps")

    def test_all_files_of_the_reader(self):
        """Number and offset are those of the replies, and no sentence serves two numbers."""
        numbers = {}
        replies = (ROOT / "crates" / "readings" / "stdout").read_text().splitlines()
        self.assertEqual(len(replies), 1_426)
        for name, reply in (line.split(": ") for line in replies):
            data = (ROOT / "crates" / "readings" / "data" / name).read_bytes()
            said = refusal.message("f", data)
            if reply.startswith("model"):
                self.assertTrue(said.startswith("f: not refused"), said)
                continue
            self.assertTrue(said.startswith(f"f: {reply}: "), said)
            numbers.setdefault(said.split(": ", 2)[2], set()).add(reply.split()[1])
        self.assertEqual({len(of_one) for of_one in numbers.values()}, {1})
        expected = {str(i) for i in (*range(1, 11), *range(15, 18))}
        self.assertEqual(set().union(*numbers.values()), expected)


class Command(FolderTest):
    def test_command(self):
        cut = self.folder / "cut"
        cut.write_bytes(ROWS)
        told = "refused 1 at 30: the file ends where"
        for arguments, name in (((cut,), str(cut)), (("--name", "rail", cut), "rail")):
            out, said, status = run_tool("refusal.py", *arguments)
            self.assertEqual((out, status, said.count("\n")), (b"", 0, 1))
            self.assertTrue(said.startswith(f"{name}: {told}"), said)
        out, said, status = run_tool("refusal.py", "-", stdin=ASKED + b"\xff")
        self.assertEqual((out, status), (b"", 0))
        self.assertIn("standard input: not refused", said)

    def test_bad_input(self):
        for arguments, message, expected in (
            ((self.folder / "none",), "none: no such file", 3),
            ((self.folder,), "is a directory", 3),
            ((), "FILE", 2),
        ):
            out, said, status = run_tool("refusal.py", *arguments)
            self.assertEqual((out, status), (b"", expected))
            self.assertIn(message, said)


if __name__ == "__main__":
    unittest.main()
