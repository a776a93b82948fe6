"""Many models at once: a process for each core, and how far it is on a terminal."""

from __future__ import annotations

import multiprocessing
import os
import shutil
import signal
import sys
from concurrent.futures import ProcessPoolExecutor, as_completed
from concurrent.futures.process import BrokenProcessPool
from contextlib import suppress
from typing import Iterator, NoReturn, Sequence

import commands
from inputs import Failed, Input, not_run

from .reports import Result, report_of

BAR = 30  # characters of the bar


class Progress:
    """A bar on standard error, where that is a terminal and there is more than one model."""

    def __init__(self, count: int) -> None:
        self.count, self.done = count, 0
        self.shown = count > 1 and sys.stderr is not None and sys.stderr.isatty()
        self.show("")

    def show(self, name: str) -> None:
        if not self.shown:
            return
        full = BAR * self.done // self.count
        row = f"[{'#' * full}{'.' * (BAR - full)}] {self.done} of {self.count}  {name}"
        room = shutil.get_terminal_size().columns - 1
        sys.stderr.write(f"\r\x1b[K{row[:room]}")
        sys.stderr.flush()

    def step(self, name: str) -> None:
        self.done += 1
        self.show(name)

    def end(self) -> None:
        if self.shown:
            sys.stderr.write("\r\x1b[K")
            sys.stderr.flush()


def result_of(given: Input, plain: bool) -> Result:
    """The report of a model; whatever goes wrong with it is told and stops no other."""
    return commands.attempted("report", given, lambda one: report_of(one, plain))


def ended(given: Input) -> Failed:
    """The result of a model whose process was ended before it had one."""
    return not_run("report", given.name, "its process was ended")


def stop(progress: Progress) -> NoReturn:
    """End at once, with all processes: to wait for a pool may take for ever."""
    for child in multiprocessing.active_children():
        child.kill()
    progress.end()
    os._exit(128 + signal.SIGINT)


def results_at_once(
    given: Sequence[Input], plain: bool, jobs: int, progress: Progress
) -> Iterator[tuple[int, Result]]:
    """Each result with its place, as it comes, by so many processes.

    An interrupt is held back while these are made, so that none is missed that is just there; they
    themselves get none, and are ended from here.
    """
    before = signal.signal(signal.SIGINT, lambda *_: stop(progress))
    with ProcessPoolExecutor(jobs, multiprocessing.get_context("fork")) as pool:
        signal.pthread_sigmask(signal.SIG_BLOCK, {signal.SIGINT})
        places = {}
        with suppress(BrokenProcessPool):  # one may end before the last model is handed out
            for place, one in enumerate(given):
                places[pool.submit(result_of, one, plain)] = place
        signal.pthread_sigmask(signal.SIG_UNBLOCK, {signal.SIGINT})
        for done in as_completed(places):
            place = places[done]
            try:
                yield place, done.result()
            except BrokenProcessPool:
                yield place, ended(given[place])
        for place in range(len(places), len(given)):
            yield place, ended(given[place])
    signal.signal(signal.SIGINT, before)


def results_of(given: Sequence[Input | Failed], plain: bool, jobs: int) -> list[Result]:
    """The reports of models, in their order; those that have failed already stay as they are."""
    todo = [one for one in given if isinstance(one, Input)]
    progress = Progress(len(todo))
    found: dict[int, Result] = {}
    one_by_one = ((place, result_of(one, plain)) for place, one in enumerate(todo))
    jobs = min(jobs, len(todo))
    for place, result in results_at_once(todo, plain, jobs, progress) if jobs > 1 else one_by_one:
        found[place] = result
        progress.step(result.name)
    progress.end()
    results = iter(found[place] for place in range(len(todo)))
    return [one if isinstance(one, Failed) else next(results) for one in given]
