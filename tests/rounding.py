#!/usr/bin/env python3
"""Test what the program makes of fitted rows, on more than 100,000 patterns of 64 bits.

    rounding.py [--program COMMAND] [--every N]

Each pattern is an entry of a fitted row (kind 03). What it must become is worked out here, from the
float that has these bits and by Python's fractions; no tool of this repository is asked, and the
files are made here too. A file has one step, no input set, one vertex, which is 65,536 in
coordinate i and zero elsewhere, and a direction for each coordinate. The bound of direction p at
step 1 is then the entry in row p and column i, so that n patterns are seen in a file, each by
itself. A pattern that is no entry is alone in its file, which must be refused by 15 at its row.
Beyond n a pattern that is no zero must be refused by 16.

It takes the built program, target/bin/envelope, and fails where there is none; or another command
that takes a file on its standard input, and of the patterns every N-th. Where all tests ran, on all
patterns, it also fails if these were fewer than 100,000.
"""

from __future__ import annotations

import argparse
import functools
import itertools
import os
import random
import shlex
import shutil
import struct
import sys
import tempfile
import unittest
from concurrent.futures import ThreadPoolExecutor
from fractions import Fraction
from pathlib import Path
from typing import Iterable, Iterator, Sequence

ROOT = Path(__file__).resolve().parent.parent
SIGN, INFINITY = 1 << 63, 0x7FF << 52
TWO = 0x400 << 52
QUIET = 1 << 51
SIDES = 2  # how many programs run at a time
LEAST = 100_000  # how many patterns are tried at least, by all tests together

command = str(ROOT / "target" / "bin" / "envelope")
every = 1
seen: set[int] = set()  # the patterns that were tried
files_seen = 0


def pattern(value: float) -> int:
    return struct.unpack("<Q", struct.pack("<d", value))[0]


def value_of(bits: int) -> float:
    return struct.unpack("<d", struct.pack("<Q", bits))[0]


@functools.cache
def entry_of(bits: int) -> int | None:
    """The entry that 64 bits must become, by the float that has them; None where they are none."""
    value = value_of(bits)
    return round(65_536 * Fraction(value)) if abs(value) <= 2 else None


# Files, and the replies that they must get

Case = tuple[bytes, str]


def file(n: int, rows: Sequence[bytes], column: int) -> bytes:
    """A file with these rows and with 65,536 in one coordinate of its vertex."""
    units = [[int(i == p) for i in range(6)] for p in range(n)]
    vertex = struct.pack("<B6i", 0x14, *(65_536 * x for x in units[column]))
    directions = [struct.pack("<B6i", 0x30, *unit) for unit in units]
    return b"".join([struct.pack("<BBH", 0x01, n, 1), *rows, vertex, *directions, b"\xff"])


def fitted(number: int, patterns: Sequence[int], beyond: Sequence[int] = ()) -> bytes:
    """A fitted row; beyond n it has these bits, and zero where there are too few."""
    six = (*patterns, *beyond, *[0] * 6)[:6]
    return struct.pack("<BB6Q", 0x03, number, *six)


def listing(entries: Sequence[Sequence[int]], column: int) -> str:
    """The reply to an accepted file with this matrix: nothing is rounded beyond it."""
    rows = [f"model {len(entries)} 1"]
    for p, row in enumerate(entries):
        spare = 10 if max(map(abs, row)) <= 65_536 else 9
        rows += [f"dir {p} spare {spare}", f"0 {65_536 * (p == column)} 0", f"1 {row[column]} 0"]
    return "\n".join(rows) + "\n"


def accepted(patterns: Sequence[int], n: int = 6, beyond: Sequence[int] = ()) -> Iterator[Case]:
    """Files that show these patterns, n at a time in one column; the others hold patterns too."""
    for start, column in zip(range(0, len(patterns), n), itertools.cycle(range(n))):
        places = [[start + p + (j - column) % n * n for j in range(n)] for p in range(n)]
        rows = [[patterns[place % len(patterns)] for place in row] for row in places]
        data = file(n, [fitted(p, row, beyond) for p, row in enumerate(rows)], column)
        yield data, listing([list(map(entry_of, row)) for row in rows], column)


def refused(patterns: Sequence[int]) -> Iterator[Case]:
    """Files with one of these patterns each, in turn in each row and column."""
    right = [TWO - j for j in range(6)]
    for bits, (p, i) in zip(patterns, itertools.cycle(itertools.product(range(6), repeat=2))):
        rows = [fitted(number, right) for number in range(6)]
        rows[p] = fitted(p, [*right[:i], bits, *right[i + 1 :]])
        yield file(6, rows, i), f"refused 15 at {4 + 50 * p}\n"


# The program


def run_on(files: Sequence[bytes]) -> list[str]:
    """What the program writes for each of these files, one after the other.

    A file is short enough for a pipe to hold it, and the replies go to one file, so that starting
    the program is all that takes time.
    """
    words = shlex.split(command)
    with tempfile.TemporaryFile() as out:
        for data in files:
            reading, writing = os.pipe()
            os.write(writing, data)
            os.close(writing)
            actions = [
                (os.POSIX_SPAWN_DUP2, reading, 0),
                (os.POSIX_SPAWN_DUP2, out.fileno(), 1),
                (os.POSIX_SPAWN_OPEN, 2, os.devnull, os.O_WRONLY, 0),
            ]
            process = os.posix_spawnp(words[0], words, os.environ, file_actions=actions)
            os.close(reading)
            _, status = os.waitpid(process, 0)
            assert os.WIFEXITED(status), f"ended by signal {os.WTERMSIG(status)}: {data.hex()}"
        out.seek(0)
        rows = out.read().decode("ascii").splitlines(keepends=True)
    # Each reply begins with one of two words, and no other row does.
    starts = [at for at, row in enumerate(rows) if row.startswith(("model ", "refused "))]
    assert len(starts) == len(files), f"{len(starts)} replies to {len(files)} files"
    return ["".join(rows[at:end]) for at, end in zip(starts, [*starts[1:], len(rows)])]


def replies(files: Sequence[bytes]) -> list[str]:
    """What the program writes for each of these files, run several at a time."""
    found = [""] * len(files)
    with ThreadPoolExecutor(SIDES) as pool:
        parts = [files[side::SIDES] for side in range(SIDES)]
        for side, told in enumerate(pool.map(run_on, parts)):
            found[side::SIDES] = told
    return found


class Rounding(unittest.TestCase):
    """File 11 to 14 and Refusals 15 and 16, seen in listings."""

    def check_files(self, cases: Iterable[Case]) -> None:
        global files_seen
        files, expected = zip(*cases)
        for data, wanted, found in zip(files, expected, replies(files)):
            if found != wanted:
                self.fail(f"file {data.hex()}: expected {wanted!r}, found {found!r}")
        files_seen += len(files)

    def check(self, patterns: Iterable[int]) -> tuple[list[int], list[int]]:
        """Check each pattern; those that are entries, and those that are none."""
        chosen = list(dict.fromkeys(patterns))[::every]
        right = [bits for bits in chosen if entry_of(bits) is not None]
        wrong = [bits for bits in chosen if entry_of(bits) is None]
        self.check_files([*accepted(right), *refused(wrong)])
        seen.update(chosen)
        return right, wrong

    def around(self, patterns: Iterable[int]) -> Iterator[int]:
        """Patterns, those one bit below and above in magnitude, and all of these with a sign."""
        for bits in patterns:
            for near in (bits, bits - 1, bits + 1):
                if near >= 0:
                    yield from (near, near | SIGN)

    def test_ties_go_to_the_even_entry_and_their_neighbours_to_the_nearest(self) -> None:
        rng = random.Random(1)
        low, high = [*range(1_500)], [*range(131_072 - 300, 131_072)]
        powers = [2**j + i for j in range(2, 17) for i in (-2, -1, 0, 1)]
        numbers = [*low, *high, *powers, *rng.sample(range(1_500, 131_072), 6_500)]
        right, wrong = self.check(self.around(pattern((k + 0.5) / 65_536) for k in numbers))
        self.assertEqual(wrong, [])
        if every == 1:
            ties = [bits for bits in right if (131_072 * Fraction(value_of(bits))) % 2 == 1]
            self.assertGreater(len(ties), 16_000)
            self.assertEqual({entry_of(bits) % 2 for bits in ties}, {0})
            self.assertLessEqual({0, 2, -2, 131_072, -131_072}, set(map(entry_of, ties)))

    def test_what_a_scaled_row_can_hold_stays(self) -> None:
        rng = random.Random(2)
        numbers = [*range(300), *range(131_072 - 300, 131_073), *rng.sample(range(131_072), 1_500)]
        _, wrong = self.check(self.around(pattern(k / 65_536) for k in numbers))
        if every == 1:
            self.assertEqual(sorted(wrong), [TWO + 1, TWO + 1 | SIGN])

    def test_zeros_and_the_tiniest_numbers_become_0(self) -> None:
        rng = random.Random(3)
        single = [1 << j for j in range(53)]
        random_ = [rng.getrandbits(rng.randint(1, 52)) for _ in range(1_000)]
        right, wrong = self.check([0, SIGN, *self.around([*single, *random_])])
        self.assertEqual((wrong, set(map(entry_of, right))), ([], {0}))

    def test_powers_of_two(self) -> None:
        normal = [exponent << 52 for exponent in range(1, 0x7FF)]
        near = [bits for bits in normal if 2.0**-20 <= value_of(bits) <= 4]
        self.check([*normal, *(bits | SIGN for bits in normal), *self.around(near)])

    def test_what_is_infinite_or_no_number_is_refused(self) -> None:
        rng = random.Random(4)
        single = [1 << j for j in range(52)]
        random_ = [rng.randrange(1, 1 << 51) for _ in range(100)]
        signalling = [*single[:-1], *random_, QUIET - 1]
        payloads = [*signalling, QUIET, *(bits | QUIET for bits in signalling)]
        none = [INFINITY, *(INFINITY | bits for bits in payloads)]
        right, _ = self.check([*none, *(bits | SIGN for bits in none)])
        self.assertEqual(right, [])

    def test_2_is_the_largest(self) -> None:
        larger = [TWO + (1 << j) for j in range(53)]
        right, wrong = self.check(self.around([TWO, TWO - 2, *larger, INFINITY - 1]))
        if every == 1:
            self.assertEqual(max(value_of(bits) for bits in right), 2)
            self.assertLessEqual({TWO + 1, TWO + 1 | SIGN, INFINITY - 1, INFINITY}, set(wrong))

    def test_random_bits(self) -> None:
        rng = random.Random(5)
        right, wrong = self.check(rng.getrandbits(64) for _ in range(14_000))
        self.assertGreater(4 * min(len(right), len(wrong)), len(right) + len(wrong))

    def test_random_numbers_from_minus_2_to_2(self) -> None:
        rng = random.Random(6)
        wide = [pattern(rng.uniform(-2, 2)) for _ in range(15_000)]
        small = [pattern(rng.choice((-1, 1)) * 2.0 ** rng.uniform(-20, 1)) for _ in range(8_000)]
        right, wrong = self.check([*wide, *small])
        self.assertEqual(wrong, [])

    def test_either_zero_passes_beyond_n(self) -> None:
        rng = random.Random(7)
        for n in range(1, 6):
            patterns = [pattern(rng.uniform(-2, 2)) for _ in range(60 * n)][:: min(every, 20)]
            for zeros in ([0], [SIGN], [0, SIGN]):
                self.check_files(accepted(patterns, n, rng.choices(zeros, k=6 - n)))
            seen.update(patterns)

    def test_all_else_beyond_n_is_refused_by_16(self) -> None:
        # Each bit by itself, numbers of every size, NaNs; also in a row out of turn, or beside an
        # entry that is none.
        rng = random.Random(8)
        single = [1 << j for j in range(63)]
        sizes = [rng.getrandbits(rng.randint(1, 63)) | 1 for _ in range(400)]
        none = [TWO + 1, INFINITY, INFINITY | 1, INFINITY | QUIET, SIGN - 1]
        tried = [bits | sign for bits in (*single, *sizes, *none) for sign in (0, SIGN)]
        self.assertTrue(all(value_of(bits) != 0 for bits in tried))
        cases = []
        for bits, n in zip(tried[::every], itertools.cycle(range(1, 6))):
            p = rng.randrange(n)
            number, entry = rng.choice(((p, TWO), (p, INFINITY), (p + 1, TWO), (255, INFINITY)))
            beyond = rng.choices((0, SIGN), k=6 - n)
            beyond[rng.randrange(6 - n)] = bits
            rows = [fitted(i, [TWO] * n) for i in range(n)]
            rows[p] = fitted(number, [entry] * n, beyond)
            cases.append((file(n, rows, 0), f"refused 16 at {4 + 50 * p}\n"))
        self.check_files(cases)

    def test_the_number_of_the_row_comes_first(self) -> None:
        cases = []
        for n, bits in itertools.product(range(1, 7), (INFINITY, INFINITY | QUIET, TWO + 1, TWO)):
            for number in {n, n - 2, 255} & set(range(256)):
                rows = [fitted(p, [TWO] * n) for p in range(n - 1)] + [fitted(number, [bits] * n)]
                cases.append((file(n, rows, 0), f"refused 5 at {4 + 50 * (n - 1)}\n"))
        self.check_files(cases[::every])


def tearDownModule() -> None:
    print(f"{len(seen):,} patterns in {files_seen:,} files")


def shortfall(ran: int) -> str | None:
    """What is wrong where all tests ran, on all patterns, and these were too few."""
    tests = unittest.TestLoader().loadTestsFromTestCase(Rounding).countTestCases()
    if every != 1 or ran < tests or len(seen) >= LEAST:
        return None
    return f"{len(seen):,} patterns are too few: all tests together try {LEAST:,} at least"


def main() -> None:
    global command, every
    parser = argparse.ArgumentParser(description="Test what the program makes of fitted rows.")
    parser.add_argument("--program", default=command, metavar="COMMAND",
                        help="takes a file on standard input; target/bin/envelope without it")
    parser.add_argument("--every", type=int, default=1, metavar="N", help="take every N-th pattern")
    options, rest = parser.parse_known_args()
    command, every = options.program, options.every
    if shutil.which(shlex.split(command)[0]) is None:
        sys.exit(f"{command}: not a program that can be run")
    result = unittest.main(argv=[sys.argv[0], *rest], exit=False).result
    sys.exit(not result.wasSuccessful() or shortfall(result.testsRun))


if __name__ == "__main__":
    main()
