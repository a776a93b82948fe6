#!/usr/bin/env python3
"""Try wrong programs: edits that the prover must refuse, each because a fact is false.

    edits/try                        all of edits/
    edits/try CRATE.. CRATE/NAME..   those of a crate, or one
    edits/try --gate ..              with the gate's own edits, crates/CRATE/must-fail
    edits/try --fast ..              each by `rt check` of its crate, with all that the prover says
    edits/try --fits ..              only tell whether each edit fits its file; nothing is proved

The work tree is left alone: edits are tried in a copy, where `rt` begins with what its checks of
this tree proved. The table tells of each edit whether it was refused and what failed first. An
error that says only that the proof no longer fits the code (a goal, a field or a name that is not
there) shows nothing, and is NO FACT, and so is a limit of the prover. The status is 0 where all
were refused for a fact. The verdict is that of `rt must-fail`, which tells the start of one
message, tries several at a time (RT_JOBS says how many) and tries again from nothing what is still
proved. `--fast` goes by the first error of all, and leaves what the prover said of each edit in
target/edits/CRATE/NAME.log.
"""

from __future__ import annotations

import argparse
import re
import shutil
import subprocess
import tempfile
import time
from dataclasses import dataclass
from pathlib import Path
from typing import Iterable, Iterator

import files

ROOT = Path(__file__).resolve().parent.parent
REFUSED, NOT_REFUSED, NO_FACT, BAD = "refused", "NOT REFUSED", "NO FACT", "BAD EDIT"
NOT_TRIED = "NOT TRIED"
LIMIT = 3  # the status of a check that came to a limit of the prover


@dataclass(frozen=True)
class Edit:
    """An edit of a crate, and where it stands."""

    crate: str
    name: str
    path: Path

    def __str__(self) -> str:
        return f"{self.crate}/{self.name}"


@dataclass(frozen=True)
class Result:
    """What came of an edit."""

    edit: Edit
    verdict: str
    why: str
    seconds: str = ""  # where `rt check` tried it


# ---- the edits


def crates(root: Path) -> list[str]:
    """The crates, in the order of crates.txt."""
    rows = files.read_bytes(str(root / "crates.txt")).decode("utf-8").splitlines()
    return [row.partition(":")[0].split()[0] for row in rows if ":" in row.partition("#")[0]]


def edits_of(root: Path, gate: bool) -> list[Edit]:
    """The edits of edits/, and with `gate` those of the crates, crate by crate."""
    listed = crates(root)
    strays = [path for path in root.glob("edits/*/*") if path.parent.name not in listed]
    if strays:
        raise files.Failure(f"{strays[0].relative_to(root)}: crates.txt lists no such crate")
    found = []
    for crate in listed:
        folders = [root / "edits" / crate]
        if gate:
            folders.insert(0, root / "crates" / crate / "must-fail")
        paths = [path for folder in folders for path in sorted(folder.glob("*.edit"))]
        found += [Edit(crate, path.stem, path) for path in paths]
    names = [str(edit) for edit in found]
    twice = sorted({name for name in names if names.count(name) > 1})
    if twice:
        raise files.Failure(f"{', '.join(twice)}: there are two edits of this name")
    return found


def chosen(edits: list[Edit], words: list[str]) -> list[Edit]:
    """The edits that the words name, or all."""
    for word in words:
        if not any(word in (edit.crate, str(edit)) for edit in edits):
            raise files.Failure(f"{word}: there is no such edit, and no crate with edits")
    return [edit for edit in edits if not words or edit.crate in words or str(edit) in words]


def applied(root: Path, edit: Edit) -> dict[Path, str]:
    """The files that an edit changes, as it makes them; its `old:` must stand once in `file:`."""
    name, old = "", ""
    texts: dict[Path, str] = {}
    for row in files.read_bytes(str(edit.path)).decode("utf-8").splitlines():
        if row.startswith("file: "):
            name = row[len("file: ") :]
        elif row.startswith("old: "):
            old = row[len("old: ") :]
        elif row.startswith("new:"):
            path = root / "crates" / edit.crate / name
            if not name.startswith(("src/", "specs/", "proofs/")) or not path.is_file():
                raise files.Failure(f"its crate has no file {name or 'named'}")
            text = texts[path] if path in texts else path.read_text(encoding="utf-8")
            if not old or text.count(old) != 1:
                count = text.count(old) if old else 0
                raise files.Failure(f"its `old:` stands {count} times in {name}")
            texts[path] = text.replace(old, row[len("new:") :].removeprefix(" "))
            old = ""
    if not texts:
        raise files.Failure("it has no `old:` and `new:`")
    return texts


def misfits(root: Path, edits: list[Edit]) -> list[str]:
    """The edits that don't fit, and why."""
    wrong = []
    for edit in edits:
        try:
            applied(root, edit)
        except files.Failure as failure:
            wrong.append(f"{edit}: {failure}")
    return wrong


# ---- what the prover said

PLACE = r"(?P<file>\S+?):(?P<row>\d+):\d+: "  # the file from the crate's folder
TEXT = r"(?P<text>.*(?:\n  .*)*)"
ERROR = re.compile(f"^{PLACE}error: {TEXT}", re.MULTILINE)
NOTE = re.compile(f"^note: {PLACE}{TEXT}", re.MULTILINE)
NO_FIT = re.compile(r"has no `[^`]*` that can be named|has no field `|is not in scope")
# Said of a name that another one rests on.
FOLLOWS = re.compile(r"(?:`[^`]*`: )?\d+ declarations? that depends? on ")
DIFFER = re.compile(
    r"differ only where one has `(.+?)`\s+\(expected\).*?the other has `(.+?)`\s+\(found\)",
    re.DOTALL,
)


def short(text: str, most: int) -> str:
    """A text on one row, cut where it is long."""
    text = " ".join(text.split())
    return text if len(text) <= most else text[: most - 2] + ".."


def why(log: str) -> tuple[bool, str]:
    """Whether a fact failed first, and what."""
    errors = [error for error in ERROR.finditer(log) if not FOLLOWS.match(error["text"])]
    found = next(iter(errors), None) or NOTE.search(log)
    if found is None:
        found = ERROR.search(log)
        return False, told_of(found) if found else "the prover named no place"
    return not NO_FIT.search(found["text"].partition("\n")[0]), told_of(found)


def told_of(found: re.Match[str]) -> str:
    """A message on one row: the function or the file and its row, the subject, what is wrong."""
    place = found["file"].removeprefix("./")
    said = found["text"]
    subject = re.match(r"`([^`]+)`: ", said)
    message = said[subject.end() :] if subject else said
    differ = DIFFER.search(message)
    if differ:
        message = f"{short(differ[1], 60)} expected, {short(differ[2], 60)} found"
    owner = re.fullmatch(r"proofs/(.+)/(?:Proof|Answers|Invariants)\.antt", place)
    place = owner[1].replace("/", "::") if owner else f"{place}:{found['row']}"
    named = f" `{subject[1]}`" if subject else ""
    return f"{place}{named}: {short(message, 150)}"


TOLD = re.compile(
    r"rt: must-fail (?P<edit>\S+)\.edit: (?P<verdict>refused|NOT REFUSED|BAD EDIT|NOT TRIED)"
    r"(?:, as it must be)?(?: \((?P<only>only [^()]*)\))?(?:: (?P<text>.*))?",
    re.DOTALL,
)


def messages(rows: Iterable[str]) -> Iterator[str]:
    """What `rt` says, each with the rows below it that are not `rt`'s own."""
    kept: list[str] = []
    for row in rows:
        if row.startswith("rt: ") and kept:
            yield "\n".join(kept)
            kept = []
        kept.append(row.rstrip("\n"))
    if kept:
        yield "\n".join(kept)


def results(rows: Iterable[str], edits: list[Edit]) -> Iterator[Result]:
    """What came of a crate's edits, from what `rt must-fail` says."""
    left = {str(edit): edit for edit in edits}
    for message in messages(rows):
        told = TOLD.match(message)
        if told is None or told["edit"] not in left:
            continue
        verdict, text = told["verdict"], told["text"] or ""
        reason = "" if verdict == NOT_REFUSED else short(text, 200)
        if verdict == REFUSED:
            fact, reason = why(text)
            verdict = REFUSED if fact and not told["only"] else NO_FACT
            reason = f"{reason} ({told['only'].partition(',')[0]})" if told["only"] else reason
        yield Result(left.pop(told["edit"]), verdict, reason)
    for edit in left.values():
        yield Result(edit, NOT_TRIED, "`rt must-fail` did not come to it")


def keep(edit: Edit, log: str, logs: Path) -> None:
    """Keep what the prover said of an edit."""
    kept = logs / edit.crate / f"{edit.name}.log"
    kept.parent.mkdir(parents=True, exist_ok=True)
    kept.write_text(log, encoding="utf-8")


# ---- trying


def copied(root: Path, copy: Path) -> None:
    """A copy of the crates, without their own edits. `rt` itself begins with what it proved."""
    for name in ("crates.txt", "HANDLES"):
        if (root / name).is_file():
            shutil.copy(root / name, copy)
    left_out = shutil.ignore_patterns("must-fail", "out")
    shutil.copytree(root / "crates", copy / "crates", ignore=left_out)


def checked(copy: Path, crate: str) -> tuple[int, str, str]:
    """The status of a check of a crate, what it said, and its seconds."""
    start = time.monotonic()
    joined = {"stdout": subprocess.PIPE, "stderr": subprocess.STDOUT}
    try:
        done = subprocess.run(
            ["rt", "check"], cwd=copy / "crates" / crate, encoding="utf-8", **joined
        )
    except OSError as error:
        raise files.AccessFailure(f"rt cannot be run: {error.strerror}") from None
    return done.returncode, done.stdout, f"{time.monotonic() - start:.0f}"


def tried(root: Path, copy: Path, crate: str, edits: list[Edit]) -> Iterator[Result]:
    """Try the edits of one crate, which is proved, in the copy by `rt must-fail`."""
    folder = copy / "crates" / crate / "must-fail"
    folder.mkdir()
    for edit in edits:
        shutil.copy(edit.path, folder)
    joined = {"stdout": subprocess.PIPE, "stderr": subprocess.STDOUT}
    done = subprocess.run(["rt", "must-fail", crate], cwd=copy, encoding="utf-8", **joined)
    yield from results(done.stdout.splitlines(), edits)
    shutil.rmtree(folder)


def tried_fast(root: Path, copy: Path, crate: str, edits: list[Edit]) -> Iterator[Result]:
    """Try the edits of one crate, which is proved, in the copy, each by a check of the crate."""
    for edit in edits:
        try:
            texts = applied(copy, edit)
        except files.Failure as failure:
            yield Result(edit, BAD, str(failure))
            continue
        before = {path: path.read_text(encoding="utf-8") for path in texts}
        for path, text in texts.items():
            path.write_text(text, encoding="utf-8")
        status, said, seconds = checked(copy, crate)
        for path, text in before.items():
            path.write_text(text, encoding="utf-8")
        keep(edit, said, root / "target" / "edits")
        yield Result(edit, *verdict_of(status, said), seconds)


def verdict_of(status: int, said: str) -> tuple[str, str]:
    """The verdict on an edit by what a check of its crate said, and why."""
    if status == 0:
        return NOT_REFUSED, ""
    if status == LIMIT:
        return NO_FACT, f"{why(said)[1]} (only by a limit of the prover)"
    if status == 1 and "\nlogic=not-proved" in said:
        fact, reason = why(said)
        return REFUSED if fact else NO_FACT, reason
    return BAD, "it did not reach the prover"


def tried_over(
    root: Path, copy: Path, crate: str, edits: list[Edit], fast: bool
) -> Iterator[Result]:
    """Try the edits of one crate, if it is proved without them."""
    status, said, _ = checked(copy, crate)
    if status == 0:
        yield from (tried_fast if fast else tried)(root, copy, crate, edits)
        return
    reason = f"{crate} itself is not proved: {why(said)[1]}"
    yield from (Result(edit, NOT_TRIED, reason) for edit in edits)


def told(result: Result) -> str:
    """A row of the table."""
    name = f"{result.edit.crate:<13} {result.edit.name:<36}"
    return f"{name} {result.verdict:<11} {result.seconds:>4}  {result.why}".rstrip()


def main() -> int:
    parser = argparse.ArgumentParser(prog="edits/try", description="Try wrong programs.")
    parser.add_argument("words", nargs="*", metavar="CRATE or CRATE/NAME")
    parser.add_argument("--gate", action="store_true", help="with the gate's own edits")
    parser.add_argument("--fast", action="store_true", help="each by a check of its crate")
    parser.add_argument("--fits", action="store_true", help="only whether each fits its file")
    options = parser.parse_args()
    edits = chosen(edits_of(ROOT, options.gate), options.words)
    if options.fits:
        wrong = misfits(ROOT, edits)
        print("\n".join([*wrong, f"{len(edits)} edits, {len(wrong)} that don't fit their file"]))
        return 1 if wrong else 0

    print(f"{'crate':<13} {'edit':<36} {'':<11} {'s':>4}  why", flush=True)
    bad = 0
    with tempfile.TemporaryDirectory(prefix="edits-") as name:
        copy = Path(name)
        copied(ROOT, copy)
        for crate in dict.fromkeys(edit.crate for edit in edits):
            own = [edit for edit in edits if edit.crate == crate]
            for result in tried_over(ROOT, copy, crate, own, options.fast):
                print(told(result), flush=True)
                bad += result.verdict != REFUSED
    print(f"{len(edits)} edits, {len(edits) - bad} refused for a fact, {bad} not")
    return 1 if bad else 0


if __name__ == "__main__":
    files.run(main)
