"""Small clones of this repository, for tests of its commands from outside.

A clone has the commands, the tools and the built programs, which are newer than their sources.
Nothing is proved in it: its `rt` only writes rows as the real one does, and notes how it was called.
"""

from __future__ import annotations

import fcntl
import os
import re
import shutil
import signal
import subprocess
import sys
import tempfile
import time
import unittest
from pathlib import Path
from typing import Callable, Sequence

ROOT = Path(__file__).resolve().parent.parent
EXAMPLES = ROOT / "examples"
PROGRAMS = ROOT / "target" / "bin"
SAMPLE = (ROOT / "crates" / "envelope" / "stdin").read_bytes()
SAMPLE_TEXT = (ROOT / "crates" / "envelope" / "stdout").read_bytes()
TIME_LIMIT = 20  # seconds; a command that has not ended by then hangs
# What the commands call, beside the programs.
COMMANDS = (
    "awk bash cp find flock head mkdir mkfifo mktemp mv od python3 readlink rm sed touch wc".split()
)
OTHER_FILES = ("reader/specs/Some.antt", "reader/proofs/some/Proof.antt", "reader/must-fail/some.edit")
# An `rt`. Like the real one it leaves a program alone where it and its stamp are there.
RT = """#!/usr/bin/env bash
name=${{PWD##*/}}
echo "$* $name" >> '{notes}/calls'
mkdir '{notes}/busy' || echo two >> '{notes}/overlaps'
for crate in {crates}; do
    echo "fn $crate::some: proved"
    echo "crate $crate: modules loaded=1 checked=1"
    echo "logic=proved functions=3 sum=0"
done >&2
sleep {seconds}
[ -e "out/$name" ] && [ -e "out/$name.stamp" ] || {{ mkdir -p out && cp '{programs}'/"$name" out/; }}
{last}
status=$?
rmdir '{notes}/busy'
exit $status
"""


def crates_of(program: str) -> list[str]:
    """The crates that a program is made of, itself at the end. Not each has all parts."""
    rows = (ROOT / "crates.txt").read_text()
    (row,) = re.findall(rf"^{program}:([^#\n]*)", rows, re.MULTILINE)
    return [name for name in row.split() if (ROOT / "crates" / name).is_dir()] + [program]


def heed_signals() -> None:
    """Undo that what a shell starts in the background ignores these, and hands that on."""
    for signal_ in (signal.SIGINT, signal.SIGHUP):
        signal.signal(signal_, lambda *_: sys.exit(2))


def script(path: Path, text: str) -> None:
    path.write_text(text)
    path.chmod(0o755)


def until(condition: Callable[[], bool]) -> None:
    """Wait for something that another process does."""
    limit = time.monotonic() + TIME_LIMIT
    while not condition():
        assert time.monotonic() < limit, "it does not come"
        time.sleep(0.01)


def end(started: subprocess.Popen[bytes]) -> None:
    with started:
        started.kill()


def is_free(lock: int) -> bool:
    """Whether a lock can be had; it then is held."""
    try:
        fcntl.flock(lock, fcntl.LOCK_EX | fcntl.LOCK_NB)
    except BlockingIOError:
        return False
    return True


class Clone(unittest.TestCase):
    """A clone in a folder of its own, and a command in it."""

    WORDS: tuple[str, ...] = ("run",)  # the command
    NAME = "envelope"  # the program that it calls

    def setUp(self) -> None:
        self.folder = Path(tempfile.mkdtemp())
        self.addCleanup(shutil.rmtree, self.folder, ignore_errors=True)
        self.clone, self.notes, self.temporary, self.bin = (
            self.folder / name for name in ("clone", "notes", "temporary", "bin")
        )
        for folder in (self.clone, self.notes, self.temporary, self.bin):
            folder.mkdir()
        for name in ("run", "report", "pepperscarp", "VERSION", "crates.txt"):
            shutil.copy(ROOT / name, self.clone / name)
        shutil.copytree(ROOT / "tools", self.clone / "tools", ignore=shutil.ignore_patterns("tests"))
        self.used = crates_of(self.NAME)
        for crate in {*self.used, *crates_of("envelope"), "figures"}:
            (self.clone / "crates" / crate / "src").mkdir(parents=True)
            (self.clone / "crates" / crate / "src" / "lib.rt").touch()
        for file in OTHER_FILES:
            (self.clone / "crates" / file).parent.mkdir(parents=True)
            (self.clone / "crates" / file).touch()
        self.program = self.clone / "target" / "bin" / self.NAME
        self.program.parent.mkdir(parents=True)
        for name in {"envelope", self.NAME}:
            shutil.copy(PROGRAMS / name, self.program.parent)
        (self.bin / "python3").symlink_to(sys.executable)
        self.rt()

    def rt(self, last: str = "true", seconds: float = 0, crates: list[str] | None = None) -> None:
        """An `rt` that sleeps, and ends with a command of the test's."""
        proved = " ".join(self.used if crates is None else crates)
        script(
            self.bin / "rt",
            RT.format(notes=self.notes, programs=PROGRAMS, crates=proved, seconds=seconds, last=last),
        )

    def stamp(self) -> None:
        """Let `rt` leave the program alone that it has made."""
        made = self.clone / "crates" / self.NAME / "out"
        made.mkdir()
        shutil.copy(PROGRAMS / self.NAME, made)
        (made / f"{self.NAME}.stamp").touch()

    def path(self, without: str = "", more: Sequence[str] = ()) -> str:
        """A PATH with what the commands call and no more."""
        places = {"python3": sys.executable, "rt": self.bin / "rt"}
        folder = self.folder / "path"
        folder.mkdir()
        for name in {*COMMANDS, *more} - {without}:
            (folder / name).symlink_to(places.get(name) or str(shutil.which(name)))
        return str(folder)

    def start(
        self, *words: str | Path, path: str | None = None, command: str | Path | None = None, **how
    ) -> subprocess.Popen[bytes]:
        """Start the command, or another one."""
        path = path or f"{self.bin}:{os.environ['PATH']}"
        how = {"stdin": subprocess.DEVNULL, "stdout": subprocess.PIPE, "stderr": subprocess.PIPE, **how}
        started = subprocess.Popen(
            [*([command] if command else [self.clone / self.WORDS[0], *self.WORDS[1:]]), *words],
            env={**os.environ, "TMPDIR": str(self.temporary), "PATH": path}, bufsize=0, **how,
        )
        self.addCleanup(end, started)
        return started

    def run_on(
        self, *words: str | Path, data: bytes | None = None, **how
    ) -> subprocess.CompletedProcess[bytes]:
        if data is not None:
            how["stdin"] = subprocess.PIPE
        started = self.start(*words, **how)
        out, err = started.communicate(data, TIME_LIMIT)
        self.assertEqual(list(self.temporary.iterdir()), [], "temporary files are left")
        return subprocess.CompletedProcess(words, started.returncode, out, err)

    def assert_done(
        self, done: subprocess.CompletedProcess[bytes], status: int, out: bytes, err: bytes | None = None
    ) -> None:
        self.assertEqual((done.returncode, done.stdout), (status, out), done.stderr)
        if err is not None:
            self.assertEqual(done.stderr, err)

    def calls(self) -> int:
        """How often `rt` was called."""
        calls = self.notes / "calls"
        return len(calls.read_text().splitlines()) if calls.exists() else 0

    def make_newer(self, file: Path) -> None:
        """Changed a second after the program was built."""
        time_ = self.program.stat().st_mtime + 1
        os.utime(file, (time_, time_))

    def age(self) -> None:
        """Put everything an hour back, so that whatever is done now is newer."""
        hour_ago = time.time() - 3600
        for file in [self.clone / "crates.txt", *self.clone.glob("crates/**/*")]:
            os.utime(file, (hour_ago, hour_ago))
        os.utime(self.program, (hour_ago + 1, hour_ago + 1))
