"""Models from files, folders, pipes and standard input, with what `./run` says of wrong ones.

In order: a model that was read, and one without an answer; reading those that words name. `caller`
is the command whose messages they are.
"""

from __future__ import annotations

import os
import sys
from dataclasses import dataclass
from typing import Iterator, Sequence

import files
import pack
import refusal
from layout import HEAD
from listings import Refusal
from textform import Source

MOST = 1_048_576  # bytes that are read of a model
ENDINGS = (".model", ".bin")  # of the models in a folder
REFUSED, NOT_RUN = 1, 2  # the statuses that a model without an answer makes


def shown(word: str) -> str:
    """A file's name as messages show it: without a line end, or bytes that are no text."""
    return files.printable(files.shown(word))


@dataclass(frozen=True)
class Input:
    """The bytes of a model, and the word that names it; `source` is that of a text."""

    word: str
    data: bytes
    source: Source | None = None

    @property
    def name(self) -> str:
        return shown(self.word)

    @property
    def packed(self) -> bytes:
        return self.data if self.source is None else self.source.data


@dataclass(frozen=True)
class Failed:
    """A model without an answer: what is said of it, and the status that it makes.

    `word` names the file or folder that was given or found, if any.
    """

    name: str
    said: str  # a few words
    message: str
    status: int
    data: bytes | None = None
    word: str | None = None


def unread(caller: str, word: str, said: str) -> Failed:
    name = shown(word)
    return Failed(name, said, f"{caller}: {name} {said}", NOT_RUN, word=word)


def not_run(caller: str, name: str, reason: str) -> Failed:
    return Failed(name, "could not be run", f"{caller}: {name}: {reason}", NOT_RUN)


def refused(caller: str, given: Input, told: Refusal) -> Failed:
    """A model that a program refuses, with the reason in words."""
    said = f"refused {told.number} at {told.offset}"
    message = refusal.message(given.name, given.packed)
    message = message if given.data else f"{caller}: {given.name} is empty"
    return Failed(given.name, said, message, REFUSED, given.data, given.word)


# Reading


def in_folder(caller: str, folder: str) -> tuple[list[str], list[Failed]]:
    """The models in a folder and in those below it, and the folders that can't be read.

    Hidden files and folders, and what is no file, are left out. Links to folders are not followed.
    """
    found: list[str] = []
    failed: list[Failed] = []

    def unreadable(error: OSError) -> None:
        failed.append(unread(caller, error.filename, "is a folder that can't be read"))

    for place, folders, names in os.walk(folder, onerror=unreadable):
        folders[:] = sorted(name for name in folders if not name.startswith("."))
        found += [
            os.path.join(place, name)
            for name in sorted(names)
            if name.endswith(ENDINGS) and not name.startswith(".")
        ]
    return [path for path in found if os.path.isfile(path) or not os.path.exists(path)], failed


def model_of(caller: str, word: str) -> Input | Failed:
    """The model that one word names, packed or as a text."""
    name = shown(word)
    try:
        if word == "-":
            if sys.stdin is None:
                return unread(caller, word, "is closed")
            data = sys.stdin.buffer.read(MOST)
        else:
            with open(word, "rb") as file:
                data = file.read(MOST)
    except FileNotFoundError:
        return unread(caller, word, "is not there")
    except (OSError, ValueError):
        return unread(caller, word, "can't be read")
    if not data or data[0] == HEAD:
        return Input(word, data)
    if len(data) == MOST:
        return unread(caller, word, f"is too long: of a text less than {MOST} bytes are read")
    try:
        return Input(word, data, pack.read_text(data, name))
    except files.Failure as failure:
        count = str(failure).count("\n") + 1
        said = "the text has 1 mistake" if count == 1 else f"the text has {count} mistakes"
        return Failed(name, said, str(failure), REFUSED, data, word)


def without_copies(given: Sequence[Input | Failed]) -> Iterator[Input | Failed]:
    """A folder's models, except packed files that the text of the same name packs to."""
    texts = {
        (os.path.splitext(one.word)[0], one.packed)
        for one in given
        if isinstance(one, Input) and one.source is not None
    }
    for one in given:
        copy = isinstance(one, Input) and one.source is None
        if not copy or (os.path.splitext(one.word)[0], one.data) not in texts:
            yield one


def models_of(caller: str, words: Sequence[str], copies: bool = False) -> list[Input | Failed]:
    """The models that all words name, in their order; those of a folder with or without copies."""
    given: list[Input | Failed] = []
    for word in words:
        if not word:
            said = f"{caller}: an empty name is no model"
            given.append(Failed(word, "is no model", said, NOT_RUN))
        elif word != "-" and os.path.isdir(word):
            found, failed = in_folder(caller, word)
            read = [model_of(caller, path) for path in found]
            given += [*(read if copies else without_copies(read)), *failed]
            if not found and not failed:
                told = " or ".join("*" + ending for ending in ENDINGS)
                given.append(unread(caller, word, f"is a folder without a model ({told})"))
        else:
            given.append(model_of(caller, word))
    return given
