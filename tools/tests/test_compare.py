"""Comparing: a right program agrees, and each kind of wrong one is told, with its file saved."""

import collections
import os
import stat
import sys
import unittest
from dataclasses import replace
from unittest import mock

from helpers import TOOLS, FolderTest, run_tool, single

import compare
import exact
import files
import models
from layout import FITTED, Model, encode, offsets, states_drift, states_input
from listings import Growth, Refusal


class Compare(FolderTest):
    def program(self, body):
        """A program of this Python text, with the listing of its input at hand as `text`."""
        path = self.folder / "program"
        path.write_text(
            f"#!{sys.executable}\nimport os, sys\nsys.path.insert(0, {TOOLS!r})\nimport exact\n"
            f"text = exact.listing(sys.stdin.buffer.read())\n{body}\n"
        )
        path.chmod(path.stat().st_mode | stat.S_IXUSR)
        return path

    def compare(self, body, *options):
        return run_tool("compare.py", self.program(body), "--save", self.folder, *options)

    def test_right_program(self):
        out, said, status = self.compare("sys.stdout.write(text)", "--count", 12, "--seed", 3)
        self.assertEqual((said, status), ("", 0))
        self.assertEqual(out.count(b"\n"), 1)
        replies = [exact.listing(data) for data in models.stream(3, 12)]
        accepted = sum(reply.startswith("model") for reply in replies)
        self.assertTrue(out.startswith(b"12 files of seed 3 agree: %d accepted" % accepted), out)

    def test_models_of_each_sort_are_counted(self):
        files = list(models.stream(3, 40))
        accepted = [data for data in files if exact.listing(data).startswith("model")]
        without = sum(not states_input(data) for data in accepted)
        self.assertGreater(without, 0)
        self.assertLess(without, sum(not states_input(data) for data in files))
        fitted = sum(any(data[at] == FITTED for at in offsets(data)) for data in accepted)
        self.assertTrue(len(accepted) / 4 < fitted < len(accepted) * 3 / 4, fitted)
        out = self.compare("sys.stdout.write(text)", "--count", 40, "--seed", 3)[0]
        drifting = sum(map(states_drift, accepted))
        self.assertTrue(len(accepted) / 4 < drifting < len(accepted) * 3 / 4, drifting)
        self.assertNotEqual(drifting, fitted)
        sorts = f"with fitted rows:{fitted} with a drift:{drifting} without input:{without}"
        told = f", {sorts}), refused 1:"
        self.assertIn(told.encode(), out)
        self.assertRegex(out, rb" 10:\d+ 15:\d+ 16:\d+ 17:\d+; directions")

    def test_models_without_input_come_seldom(self):
        files = models.stream(3, 400)
        accepted = [data for data in files if isinstance(exact.read_model(data), Model)]
        without = sum(not states_input(data) for data in accepted)
        self.assertTrue(0 < without < len(accepted) / 4, without)

    def test_refusals_are_counted_by_number(self):
        """Each number comes up in a thousand files, and 16 in some percent of them."""
        counts, seen = compare.Counts(), collections.Counter()
        for data in models.stream(2026, 1_000):
            if isinstance(read := exact.read_model(data), Refusal):
                counts.add(data, read)
                seen[read.number] += 1
        self.assertEqual(set(seen), set(exact.REASONS))
        self.assertTrue(50 < seen[16] < 120, seen)
        for number, count in seen.items():
            self.assertIn(f" {number}:{count}", counts.summary())

    def test_guards_where_a_verdict_changes_are_counted(self):
        """The bounds are 0, 1, 2, 2, and without their slacks 0, 1, 1, 1."""
        counts = compare.Counts()
        for levels in ((1, 2, 3), (2, 0, -1), ()):
            model = single(32_768, (0, 0), (0, 1), 1, 3, guards=levels)
            counts.add(encode(model), exact.listing_of(model))
        growing = single(131_072, (0, 0), (0, 1), 1, 11, guards=(1, 2))
        counts.add(encode(growing), exact.listing_of(growing))
        told = "guards HIT:2 UNKNOWN:1 CLEAR:3 GROWTH:2"
        told += " at the largest bound:2 at the largest bound - slack:1;"
        self.assertIn(told, counts.summary())

    def test_calm_models_are_counted(self):
        read = [exact.read_model(data) for data in models.stream(3, 40)]
        calm = sum(isinstance(model, Model) and exact.calm(model) for model in read)
        self.assertGreater(calm, 5)
        out = self.compare("sys.stdout.write(text)", "--count", 40, "--seed", 3)[0]
        self.assertTrue(out.endswith(b" models, slack limit on %d calm models\n" % calm), out)

    def test_a_slack_above_the_limit_is_a_difference(self):
        """It is found even if both programs are wrong in the same way."""
        right = exact.sweep

        def wrong(model, direction):
            swept = right(model, direction)
            if isinstance(swept, Growth):
                return swept
            return replace(swept, slacks=(*swept.slacks[:-1], swept.slacks[-1] + 10**9))

        with (
            mock.patch.object(exact, "sweep", wrong),
            mock.patch.object(compare, "output_of", lambda _, data: exact.listing(data).encode()),
            self.assertRaisesRegex(files.Failure, r"direction 0 step \d+: slack \d+ passes limit"),
        ):
            compare.compare("both", 3, 40, 5, str(self.folder))

    def test_wrong_output(self):
        number = next(n for n in range(99) if "guard" in exact.listing(models.file_of(4, n)))
        body = "sys.stdout.write(text.replace('guard', 'gate'))"
        out, said, status = self.compare(body, "--seed", 4, "--count", 99)
        self.assertEqual((out, status), (b"", 1))
        self.assertIn(f"file {number} of seed 4", said)
        self.assertIn("gate", said)
        saved = self.folder / f"difference-4-{number}.bin"
        self.assertIn(str(saved), said)
        self.assertEqual(saved.read_bytes(), models.file_of(4, number))

    def test_cut_output(self):
        _, said, status = self.compare("sys.stdout.write(text[:-1])", "--count", 2)
        self.assertEqual(status, 1)
        self.assertIn("output row", said)

    def test_crash(self):
        body = "sys.stdout.write(text); sys.stdout.flush(); os.kill(os.getpid(), 9)"
        _, said, status = self.compare(body, "--count", 2)
        self.assertEqual(status, 1)
        self.assertIn("signal 9", said)

    def test_no_program(self):
        for path in (self.folder, self.folder / "none", os.path.join(TOOLS, "tests", "helpers.py")):
            _, said, status = run_tool("compare.py", path)
            self.assertEqual(status, 3)
            self.assertIn("not a program that can be run", said)

    def test_counts_below_1(self):
        for option in ("--count", "--accuracy-every"):
            for word, message in (("0", "0 is below 1"), ("-3", "-3 is below 1"),
                                  ("x", "'x' is no whole number")):
                out, said, status = self.compare("sys.stdout.write(text)", f"{option}={word}")
                self.assertEqual((out, status), (b"", 2))
                self.assertIn(f"argument {option}: {message}", said)

    def test_the_folder_is_made(self):
        save = self.folder / "a" / "b"
        _, said, status = self.compare("print()", "--count", 2, "--save", save)
        self.assertEqual(status, 1)
        self.assertEqual([path.name for path in save.iterdir()], ["difference-1-0.bin"])
        self.assertIn(f"saved as {save}", said)

    def test_a_folder_that_cannot_be_made(self):
        ran = self.folder / "ran"
        body = f"open({str(ran)!r}, 'w')"
        save = self.program(body) / "a"
        _, said, status = self.compare(body, "--save", save)
        self.assertEqual((said, status), (f"{save}: cannot be made: Not a directory\n", 3))
        self.assertFalse(ran.exists())


if __name__ == "__main__":
    unittest.main()
