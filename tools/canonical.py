#!/usr/bin/env python3
"""Write the canonical file of a model, or print digests that show which models are the same.

    ./pepperscarp canonical [--quiet] MODEL [-o FILE]
    ./pepperscarp canonical [--quiet] --digest [--same] MODEL .. [-o FILE]

A model has one canonical file, however it was saved: rows are scaled, the steps are stated, and a
drift of zeros and an input box of zeros are left out. Two models have the same canonical file only
if they are equal in every stored number. Names, units and comments of a text are not part of a
model.

A MODEL is a text, which is packed first (python3 tools/pack.py --help shows the form), or a packed
file. It may be a pipe, and - is standard input. After -- every word is a MODEL. Standard error says
how much of a text was rounded, and whether it has no input set; --quiet omits these notes.

The canonical file goes to FILE, or to standard output unless that is a terminal. FILE may be MODEL
itself if that is packed. FILE is replaced as a whole: it gets the complete output, or it stays as
it was. It stays as it was if there is no output or if writing fails.

A regular file FILE is not overwritten where a model would be lost. The command then writes nothing
and has status 2. It does so
  without --digest, if FILE is not empty and does not begin with byte 01: it is no packed model;
  with --digest, if FILE is one of the models, also a refused one, or if FILE is not empty and looks
  like a model: it begins with byte 01, or its name ends in .model or .bin. Digests replace an older
  file of digests.

With --digest the command prints a row for each MODEL: the SHA-256 of its canonical file in
hexadecimal, two spaces and the name. sha256sum writes rows of the same form, but the digest here is
not that of the named file itself: sha256sum -c fails on a row unless the named file is canonical.
If some models are refused or cannot be read, the rows of the others are still written, to FILE too.

With --digest a MODEL may be a folder. It means all texts (*.model) and packed files (*.bin) in it
and in the folders below it, except hidden files and folders (names that begin with a dot) and
links to folders.

With --same, which includes --digest, the rows of the same models form a block. Blocks are separated
by an empty row and stand in the order of their first rows. A model that no other MODEL equals is a
block of one row.

The proved program canonical makes the canonical file. It is built first if it is missing or older
than its sources. Its output is read again before it is written: it has to be the same model.

The status is
  0  if everything is written,
  1  if a model is refused or a text is wrong; standard error says why,
  2  if a model cannot be read, the program cannot be built or run, the output cannot be written, or
     the command is wrong;
the largest of these if there are several.
"""

from __future__ import annotations

import interrupts  # before anything else

import argparse
import hashlib
import os
import signal
import stat
import sys
from typing import Sequence

import commands
import exact
import files
import inputs
import listings
import pack
import programs
from inputs import Failed, Input
from layout import HEAD
from listings import Refusal

NAME = "canonical"  # of the command and of the program
EXAMPLES = """examples:
  ./pepperscarp canonical examples/rail.model -o rail.bin
  ./pepperscarp canonical --digest examples
  ./pepperscarp canonical --same examples
  ./pepperscarp canonical --same examples | awk -v RS= -v ORS='\\n\\n' -F '\\n' 'NF > 1'"""


def options_of(arguments: Sequence[str]) -> argparse.Namespace:
    """The options and the models, of which there is one without --digest."""
    parser = commands.Parser("./pepperscarp canonical", __doc__, EXAMPLES)
    parser.add_argument("-o", dest="to", metavar="FILE", help="write to FILE; - is standard output")
    parser.add_argument("--digest", action="store_true", help="print a SHA-256 for each model")
    parser.add_argument("--same", action="store_true", help="group the rows of the same models")
    parser.add_argument("--quiet", action="store_true",
                        help="omit the notes on rounding and on a missing input set")
    options = parser.parsed(arguments)
    options.digest |= options.same
    if options.to == "":
        parser.error("-o needs the name of a file")
    if options.digest:
        return options
    if len(options.models) > 1:
        parser.error("several models need --digest; without it there is one MODEL")
    (word,) = options.models
    if word != "-" and os.path.isdir(word):
        parser.error(f"{inputs.shown(word)} is a folder, which needs --digest")
    if options.to in (None, "-") and sys.stdout is not None and sys.stdout.isatty():
        parser.error("a canonical file is no text for a terminal: use -o FILE or > FILE")
    return options


def is_file(word: str, to: str) -> bool:
    """Whether a word names the file at this path."""
    try:
        read, there = os.fstat(0) if word == "-" else os.stat(word), os.stat(to)
    except OSError:
        return False
    return stat.S_ISREG(there.st_mode) and os.path.samestat(read, there)


def first_byte(to: str) -> bytes:
    """The first byte of a plain file; none of an empty file, an open one or anything else."""
    if not os.path.isfile(to) or files.open_file(to) is not None:
        return b""
    try:
        with open(to, "rb") as file:
            return file.read(1)
    except OSError as error:
        raise files.AccessFailure(f"{to}: cannot be read: {error.strerror}") from None


def refuse_loss(given: Sequence[Input | Failed], to: str, digest: bool) -> None:
    """Fail where a model would be lost: replaced by rows, or a text by a packed file.

    Every file that was given or found in a folder counts, also one without an answer, and so does
    a FILE that looks like a model.
    """
    less = "rows of digests" if digest else "a packed file, which has no names and comments"
    for one in given:
        packed = isinstance(one, Input) and one.source is None
        if (digest or not packed) and one.word and is_file(one.word, to):
            said = f"{one.name} would be replaced by {less}: choose another FILE"
            raise files.AccessFailure(said)
    byte, name = first_byte(to), inputs.shown(to)
    packed = byte == bytes([HEAD])
    if digest:
        is_named = any(path.endswith(inputs.ENDINGS) for path in (to, os.path.realpath(to)))
        lost = packed or byte and is_named
        said = f"looks like a model and would be replaced by {less}"
    else:
        lost = byte and not packed
        said = "is not a packed model and would be replaced by one"
    if lost:
        what_to_do = f"choose another FILE, or delete {name} first"
        raise files.AccessFailure(f"{name} {said}: {what_to_do}")


def refusal_of(told: bytes) -> Refusal | None:
    """The refusal that a program has written on standard error, if it is one."""
    try:
        found = listings.parse(told.decode("ascii"))
    except (files.Failure, UnicodeDecodeError):
        return None
    return found if isinstance(found, Refusal) else None


def canonical_of(given: Input) -> bytes | Failed:
    """The canonical file of a model, or why it is refused."""
    out, err = programs.output_of(NAME, given.packed)
    read = exact.read_model(given.packed)
    if err:
        refused = refusal_of(err)
        if out or refused is None:
            raise programs.unexpected(NAME, err)
        if read != refused:
            said = f"refused {refused.number} at {refused.offset}"
            raise files.AccessFailure(f"the program says {said}, and the tools do not")
        return inputs.refused(NAME, given, refused)
    if not out:
        raise files.AccessFailure("the program wrote nothing")
    if isinstance(read, Refusal) or exact.read_model(out) != read:
        raise files.AccessFailure("the program wrote another model than the tools read")
    return out


def row(data: bytes, word: str) -> bytes:
    """The row that `sha256sum` writes for a file with these bytes and this name."""
    name = os.fsencode(word)
    for byte, escaped in ((b"\\", b"\\\\"), (b"\n", b"\\n"), (b"\r", b"\\r")):
        name = name.replace(byte, escaped)
    mark = b"\\" if b"\\" in name else b""
    return mark + hashlib.sha256(data).hexdigest().encode("ascii") + b"  " + name + b"\n"


def digests(made: Sequence[tuple[str, bytes]], same: bool) -> bytes:
    """A row for each model; with `same` a block for each model that differs from the others."""
    if not same:
        return b"".join(row(data, word) for word, data in made)
    blocks: dict[bytes, bytes] = {}
    for word, data in made:
        blocks[data] = blocks.get(data, b"") + row(data, word)
    return b"\n".join(blocks.values())


def tell_read(given: Sequence[Input | Failed], quiet: bool) -> None:
    """Say what could not be read, and what `pack.py` says of the texts."""
    for one in given:
        if isinstance(one, Failed):
            commands.tell(one.message)
        elif one.source is not None and not quiet:
            for said in pack.notes(one.source):
                commands.tell(f"{one.name}: {said}")


def run(arguments: Sequence[str]) -> int:
    options = options_of(arguments)
    given = inputs.models_of(NAME, options.models, copies=True)
    if options.to not in (None, "-"):
        refuse_loss(given, options.to, options.digest)
    tell_read(given, options.quiet)
    status = max((one.status for one in given if isinstance(one, Failed)), default=0)
    todo = [one for one in given if isinstance(one, Input)]
    if todo:
        programs.ready(NAME, NAME)
    made: list[tuple[str, bytes]] = []
    for one in todo:
        answer = commands.attempted(NAME, one, canonical_of)
        if isinstance(answer, Failed):
            commands.tell(answer.message)
            status = max(status, answer.status)
        else:
            made.append((one.word, answer))
    if made:
        data = digests(made, options.same) if options.digest else made[0][1]
        # Only now: a program that leaves a part of its input unread would end this one too.
        signal.signal(signal.SIGPIPE, signal.SIG_DFL)
        if options.to in (None, "-"):
            files.write_bytes(None, data)
        else:
            files.write_whole(options.to, data)
    return status


if __name__ == "__main__":
    with interrupts.exit_at_signals():
        commands.run(NAME, run)
