"""The proved program `envelope`: built as by `./run`, and called with the bytes of a model."""

from __future__ import annotations

import os

import files
import listings
import programs
from listings import Listing, Refusal

NAME = "envelope"


def ready() -> None:
    """See to it that the program is there and not older than its sources; `run` is its caller."""
    programs.ready(NAME, "run")


def reply(data: bytes, name: str) -> Listing | Refusal:
    """What the program says of a packed model."""
    out, err = programs.output_of(NAME, data)
    if err:
        raise programs.unexpected(NAME, err)
    try:
        return listings.parse(out.decode("ascii"), name)
    except (files.Failure, UnicodeDecodeError):
        raise files.AccessFailure("the program wrote no reply to it") from None


def accepted(told: Listing | Refusal) -> Listing:
    """The listing of what was made of a model that the program accepts."""
    if isinstance(told, Refusal):
        said = f"refused {told.number} at {told.offset}"
        raise files.AccessFailure(f"the program accepts it, and not what is made of it: {said}")
    return told


def cores() -> int:
    """How many processes can run at once."""
    return len(os.sched_getaffinity(0))
