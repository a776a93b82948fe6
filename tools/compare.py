#!/usr/bin/env python3
"""Compare a program with the exact one, on random files.

    compare.py PROGRAM [--seed N] [--count N] [--accuracy-every N] [--save DIR]

PROGRAM reads a file on standard input and writes its listing on standard output. Its output must
be that of `exact`, byte by byte. Now and then, for an accepted model that is small enough, the
accuracy rule is checked of the program's own figures against exact largest values, and for each
calm model the limit of its slacks. The first difference ends the comparison with status 1 and saves
the file in DIR, which is made where it is missing. The summary counts what was seen.
"""

from __future__ import annotations

import argparse
import collections
import os
import subprocess
from operator import sub

import exact
import files
import listings
import models
from layout import DEFAULT_STEPS, MAX_N, MAX_STEPS, fitted_rows_of, states_drift, states_input
from listings import CLEAR, GROWTH, HIT, UNKNOWN, Growth, Refusal

TIME_LIMIT = 10  # seconds for one file
COST_LIMIT = 200_000  # products for one check of the accuracy rule
# Guards at whose level a verdict changes (Verdicts 2, Verdicts 3).
AT_BOUND, AT_LOW = "at the largest bound", "at the largest bound - slack"


def output_of(program: str, data: bytes) -> bytes:
    """What the program writes for a file; a failure where it does not end well.

    With a listing the status has to be 0; a program that refuses a file may end with any.
    """
    try:
        done = subprocess.run([program], input=data, capture_output=True, timeout=TIME_LIMIT)
    except subprocess.TimeoutExpired:
        raise files.Failure(f"no end within {TIME_LIMIT} seconds") from None
    except OSError as error:
        raise files.Failure(f"{program} cannot be run: {error.strerror}") from None
    if done.returncode < 0:
        raise files.Failure(f"ended by signal {-done.returncode}")
    if done.returncode and not done.stdout.startswith(b"refused"):
        raise files.Failure(f"status {done.returncode}")
    return done.stdout


def first_difference(expected: bytes, found: bytes) -> str:
    """Where two outputs first differ, in words."""
    pairs = zip(expected.splitlines(keepends=True), found.splitlines(keepends=True))
    for number, (wanted, got) in enumerate(pairs, 1):
        if wanted != got:
            return f"output row {number}: expected {wanted!r}, found {got!r}"
    return f"expected {len(expected)} bytes, found {len(found)}"


class Counts:
    """What kinds of file and of reply were seen."""

    def __init__(self) -> None:
        self.seen: collections.Counter[str] = collections.Counter()

    def add(self, data: bytes, told: listings.Listing | Refusal) -> None:
        if isinstance(told, Refusal):
            self.seen[f"refused {told.number}"] += 1
            return
        self.seen["accepted"] += 1
        self.seen["with fitted rows"] += bool(fitted_rows_of(data, told.n))
        self.seen["with a drift"] += states_drift(data)
        self.seen["without input"] += not states_input(data)
        self.seen[f"n {told.n}"] += 1
        self.seen[f"K {told.steps}"] += 1
        for swept in told.directions:
            self.seen["growth" if isinstance(swept, Growth) else "swept"] += 1
        for (number, level), said in zip(exact.read_model(data).guards, told.guards):
            self.seen[said.word] += 1
            swept = told.directions[number]
            if not isinstance(swept, Growth):
                lows = map(sub, swept.bounds, swept.slacks)
                self.seen[AT_BOUND] += level == max(swept.bounds)
                self.seen[AT_LOW] += level == max(lows)

    def summary(self) -> str:
        def counted(prefix: str, names: list) -> str:
            return " ".join(f"{name}:{self.seen[f'{prefix}{name}']}" for name in names)

        return (
            f"{self.seen['accepted']} accepted (n {counted('n ', list(range(1, MAX_N + 1)))},"
            f" K {counted('K ', [DEFAULT_STEPS, MAX_STEPS])},"
            f" {counted('', ['with fitted rows', 'with a drift', 'without input'])}),"
            f" refused {counted('refused ', list(exact.REASONS))};"
            f" directions {counted('', ['swept', 'growth'])};"
            f" guards {counted('', [HIT, UNKNOWN, CLEAR, GROWTH, AT_BOUND, AT_LOW])};"
            f" accuracy rule checked on {self.seen['checked']} models,"
            f" slack limit on {self.seen['calm']} calm models"
        )


def compare(program: str, seed: int, count: int, accuracy_every: int, save: str) -> str:
    """The summary of a comparison without a difference; the first difference is a failure."""
    counts = Counts()
    accepted = due = 0
    for number in range(count):
        data = models.file_of(seed, number)
        expected = exact.listing(data).encode("ascii")
        try:
            found = output_of(program, data)
            if found != expected:
                raise files.Failure(first_difference(expected, found))
            told = listings.parse(found.decode("ascii"))
            counts.add(data, told)
            if not isinstance(told, Refusal):
                accepted += 1
                model = exact.read_model(data)
                if exact.calm(model):
                    exact.check_limit(model, told)
                    counts.seen["calm"] += 1
                if accepted > due and exact.check_cost(model) <= COST_LIMIT:
                    exact.check_accuracy(model, told)
                    counts.seen["checked"] += 1
                    due = accepted + accuracy_every - 1
        except (files.Failure, AssertionError) as problem:
            path = os.path.join(save, f"difference-{seed}-{number}.bin")
            try:
                files.write_bytes(path, data)
                saved = f"saved as {path}"
            except files.Failure as failure:
                saved = f"not saved: {failure}"
            raise files.Failure(
                f"file {number} of seed {seed}: {problem}\n{len(data)} bytes, {saved}"
            ) from None
    return f"{count} files of seed {seed} agree: {counts.summary()}"


def positive(word: str) -> int:
    """A number of the command line that counts something."""
    try:
        number = int(word)
    except ValueError:
        raise argparse.ArgumentTypeError(f"{word!r} is no whole number") from None
    if number < 1:
        raise argparse.ArgumentTypeError(f"{number} is below 1")
    return number


def main() -> None:
    parser = argparse.ArgumentParser(description="Compare a program with the exact one.")
    parser.add_argument("program", help="reads a file on standard input, writes its listing")
    parser.add_argument("--seed", type=int, default=1)
    parser.add_argument("--count", type=positive, default=3_000, metavar="N",
                        help="how many files, at least 1")
    parser.add_argument("--accuracy-every", type=positive, default=5, metavar="N",
                        help="check the accuracy rule of every N-th accepted model")
    parser.add_argument("--save", default=".", metavar="DIR", help="where a differing file goes")
    options = parser.parse_args()
    program = os.path.abspath(options.program)
    if not os.path.isfile(program) or not os.access(program, os.X_OK):
        raise files.AccessFailure(f"{options.program}: not a program that can be run")
    files.make_folder(options.save)
    print(compare(program, options.seed, options.count, options.accuracy_every, options.save))


if __name__ == "__main__":
    files.run(main)
