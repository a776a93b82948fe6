"""The proved programs: built where they are missing or old, and called with a model's bytes."""

from __future__ import annotations

import subprocess
from pathlib import Path

import files

ROOT = Path(__file__).resolve().parent.parent
BUILDING = ROOT / "tools" / "building.sh"
TIME_LIMIT = 60  # seconds for one model; the largest takes some milliseconds


def version() -> str:
    return files.read_bytes(str(ROOT / "VERSION")).decode("ascii").strip()


def ready(name: str, caller: str) -> None:
    """See to it that a program is there and not older than its sources.

    Messages on a build go to standard error, under the name of the caller.
    """
    unused = {"stdin": subprocess.DEVNULL, "stdout": subprocess.DEVNULL}
    try:
        with subprocess.Popen([BUILDING, caller, name], **unused) as building:
            try:
                building.wait()
            except BaseException:
                building.terminate()  # and not killed: it ends what it has started
                raise
    except OSError as error:
        raise files.AccessFailure(f"{BUILDING} can't be run: {error.strerror}") from None
    if building.returncode:
        raise files.AccessFailure("the program is not ready, so nothing could be run")


def failed(name: str, why: str) -> files.AccessFailure:
    return files.AccessFailure(f"the program {name} failed ({why})")


def unexpected(name: str, err: bytes) -> files.AccessFailure:
    """The failure of a program that has written on standard error, with the first row of that."""
    row = err.decode("utf-8", "surrogateescape").partition("\n")[0]
    return failed(name, f"on standard error: {files.printable(row)}")


def output_of(name: str, data: bytes) -> tuple[bytes, bytes]:
    """What a program writes for a packed model, on standard output and on standard error."""
    program = ROOT / "target" / "bin" / name
    try:
        done = subprocess.run([program], input=data, capture_output=True, timeout=TIME_LIMIT)
    except OSError as error:
        raise files.AccessFailure(f"{program} can't be run: {error.strerror}") from None
    except subprocess.TimeoutExpired:
        raise failed(name, f"no answer in {TIME_LIMIT} s") from None
    if done.returncode:
        signal_ = -done.returncode
        raise failed(name, f"signal {signal_}" if signal_ > 0 else f"status {done.returncode}")
    return done.stdout, done.stderr
