#!/usr/bin/env python3
"""Answer models on one screen, sharp, in the units of their texts.

    ./report [--plain] [--json | --csv] [--html FILE] [--full] [--jobs N] MODEL ..
    ./report [--plain] [--json | --csv] [--html FILE] NEW --against OLD

For each direction: the largest bound, its step, the slack there. For each guard: its level, the
verdict with its step, and the margin, which is how far the largest bound stays below the level, or
by how much the level is certainly passed. A guard is reached only above its level: one whose level
is equal to the largest bound is CLEAR, by 0. The most urgent come first. Figures are in the units
that the text names, and in counts where it names none.

A MODEL is a text (python3 tools/pack.py --help shows the form) or a packed file; it may be a pipe,
and - is standard input. Of a folder all texts (*.model) and packed files (*.bin) in it and below it
are taken, but for a packed file that its text beside it packs to, and for linked folders. Several
models have a row each.

Bounds, slacks and verdicts are those of the proved program envelope, which is built first where it
is missing or older than its sources. Each direction is multiplied by the largest whole number, its
factor, that the limit of its entries and the growth of the arithmetic allow, and its levels too:
the runs are the same, and the slack shrinks by about that factor. Figures are divided by it again
and rounded outward, so that each follows from a proved one. Where entries were rounded (~, fitted),
the exact largest values of the matrix as written are told too, with a warning where one passes a
bound.

The status is
  0  where every guard is CLEAR,
  1  where a model is refused; standard error says why,
  2  where a model could not be read, the program not be built or run, or the command is wrong,
  3  where some guard isn't CLEAR, or is reached by the matrix as written;
of several the first in the order 2, 1, 3, 0.
"""

from __future__ import annotations

import argparse
import os
import signal
import sys
from typing import Sequence

import commands
import files
import inputs
from inputs import Failed, Input
from reporting import batch, data, page, program, terminal
from reporting.changes import Changes, changes
from reporting.reports import Report, Result, worst

EXAMPLES = """examples:
  ./report examples/rail.model
  ./report --html rail.html examples/rail.model
  ./report examples
  ./report examples/rail.model --against examples/rail.bin"""


def whole_number(word: str) -> int:
    if not (word.isascii() and word.isdigit() and 1 <= int(word[:6]) and len(word) < 6):
        raise argparse.ArgumentTypeError(f"{word!r} is no whole number from 1 to 99999")
    return int(word)


def options_of(arguments: Sequence[str]) -> argparse.Namespace:
    """The options and the models."""
    parser = commands.Parser("./report", __doc__, EXAMPLES)
    form = parser.add_mutually_exclusive_group()
    form.add_argument("--json", action="store_true", help="JSON in place of the text")
    form.add_argument("--csv", action="store_true", help="CSV: a row for each guard")
    parser.add_argument("--html", metavar="FILE", help="also write a page that can be handed over")
    parser.add_argument("--plain", action="store_true", help="multiply nothing, as ./run")
    parser.add_argument("--full", action="store_true", help="of several models, each one whole")
    parser.add_argument("--against", metavar="OLD", help="what changed from the model OLD")
    parser.add_argument("--jobs", metavar="N", type=whole_number, default=program.cores(),
                        help="how many models at once (as many as there are cores)")
    options = parser.parsed(arguments)
    if options.against is not None and len(options.models) != 1:
        parser.error("--against takes one MODEL")
    return options


def tell_failures(results: Sequence[Result]) -> None:
    for result in results:
        if isinstance(result, Failed):
            commands.tell(result.message)


def answered(words: Sequence[str], options: argparse.Namespace) -> list[Result]:
    """The results of all models. The program is built only where there is one to run it on."""
    given = inputs.models_of("report", words)
    if any(isinstance(one, Input) for one in given):
        program.ready()
    return batch.results_of(given, options.plain, options.jobs)


def compared(results: Sequence[Result]) -> Changes | None:
    """What changed, of a new and an old model, where both have an answer."""
    if len(results) != 2:
        raise files.AccessFailure("--against compares one model with one, and a folder has more")
    new, old = results
    if not isinstance(new, Report) or not isinstance(old, Report):
        return None
    return changes(old, new)


def text_of(
    results: Sequence[Result], found: Changes | None, status: int, options: argparse.Namespace
) -> str:
    """What goes to standard output."""
    colours = sys.stdout is not None and sys.stdout.isatty() and "NO_COLOR" not in os.environ
    if options.json:
        return data.as_json(results, status, found)
    if options.csv:
        return data.as_csv(results) if found is None else data.changes_as_csv(found)
    if found is not None:
        return terminal.side_by_side(found, colours)
    reports = [one for one in results if isinstance(one, Report)]
    if options.full or len(results) == 1:
        return "\n".join(terminal.whole(one, colours) for one in reports)
    return terminal.rows(results, colours)


def run(arguments: Sequence[str]) -> int:
    options = options_of(arguments)
    words = options.models + [options.against] * (options.against is not None)
    results = answered(words, options)
    tell_failures(results)
    found = compared(results) if options.against is not None else None
    # Of two models the old one's guards don't count.
    counted = [one.status for one in results if one is results[0] or isinstance(one, Failed)]
    status = worst([one.status for one in results] if options.against is None else counted)
    told = text_of(results, found, status, options)
    if options.html is not None:
        files.write_bytes(options.html, page.page(results, found).encode("utf-8"))
    # Only now: a program that leaves a part of its input unread would end this one too.
    signal.signal(signal.SIGPIPE, signal.SIG_DFL)
    files.write_bytes(None, told.encode("utf-8"))
    return status


if __name__ == "__main__":
    commands.run("report", run)
