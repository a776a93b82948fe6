"""Reading and writing files for the tools, with one message for each thing that can go wrong.

A tool that ends through `run` has status 0 if it is done, 1 if its input is wrong (a text, a
refused file, a comparison that differs), 2 if the command line is wrong, and 3 if something could
not be read or written. `canonical.py`, `changed.py` and `report.py` end through `commands.run`, and
have status 2 for the last too.
"""

from __future__ import annotations

import contextlib
import errno
import os
import re
import signal
import stat
import sys
import tempfile
import traceback
from typing import Callable, TextIO

# Control bytes but for tab, line feed and carriage return.
CONTROL = re.compile(rb"[\x00-\x08\x0B\x0C\x0E-\x1F\x7F]")
# What an editor may show as the end of a row and is none here: a carriage return without a line
# feed, and the separators of Unicode. Behind a `#` it would hide a statement.
OTHER_END = re.compile(rb"\r(?!\r*$)|\xC2\x85|\xE2\x80[\xA8\xA9]")
WIDE = (b"\xff\xfe", b"\xfe\xff", b"\0\0\xfe\xff")  # what UTF-16 and UTF-32 start with
MOST_WRONG = 5  # rows with wrong bytes, beyond which bytes are no text at all
MOST_LINKS = 40  # that are followed from a path


class Failure(Exception):
    """What a tool says before it ends, and the status that it ends with."""

    status = 1


class AccessFailure(Failure):
    """Something could not be read, written, made or run."""

    status = 3


def printable(text: str) -> str:
    """A text in one row, without control characters or bytes that are no text."""
    return "".join(c if c.isprintable() else ascii(c)[1:-1] for c in text)


def shown(path: str) -> str:
    """A path as messages name it."""
    return "standard input" if path == "-" else path


def _open(stream: TextIO | None) -> TextIO:
    """Standard input or output, which is None where it is closed."""
    if stream is None:
        raise OSError(errno.EBADF, "it is closed")
    return stream


def read_bytes(path: str) -> bytes:
    """The bytes of a file; `-` is standard input."""
    try:
        if path == "-":
            return _open(sys.stdin).buffer.read()
        with open(path, "rb") as file:
            return file.read()
    except FileNotFoundError:
        raise AccessFailure(f"{path}: no such file") from None
    except IsADirectoryError:
        raise AccessFailure(f"{shown(path)}: is a directory, not a file") from None
    except (OSError, ValueError) as error:
        reason = getattr(error, "strerror", None) or error
        raise AccessFailure(f"{shown(path)}: cannot be read: {reason}") from None


def _wrong_byte(row: bytes) -> str | None:
    """The first byte of a row that is no text, in words."""
    control = CONTROL.search(row)
    end = control.start() if control else len(row)
    try:
        row[:end].decode("utf-8")
    except UnicodeDecodeError as error:
        return f"byte {row[error.start]:02X} is no UTF-8: save the text as UTF-8"
    if control is None:
        return None
    byte = row[end]
    if byte == 0:
        return "byte 00 is a zero byte, which no text has: save the text as UTF-8"
    key = "delete" if byte == 0x7F else f"Ctrl-{chr(byte + 64)}"
    return f"byte {byte:02X} is a control byte ({key}), which no text has: take it out"


def decoded(data: bytes, name: str) -> tuple[str, dict[int, str]]:
    """The text that bytes hold, and for each row with bytes that are no text the first of them."""
    if data.startswith(WIDE):
        raise Failure(f"{name}: the text is saved as UTF-16 or UTF-32: save it as UTF-8")
    rows = list(enumerate(data.split(b"\n"), 1))
    wrong = {number: said for number, row in rows if (said := _wrong_byte(row))}
    if b"\0" in data or len(wrong) > MOST_WRONG:
        number = min(wrong)
        first = wrong[number].partition(":")[0]
        raise Failure(f"{name}:{number}: {first}; if this is a text at all, save it as UTF-8")
    for number, row in rows:
        if OTHER_END.search(row):
            told = "a line end that is no line feed: save the text with Unix or Windows line ends"
            raise Failure(f"{name}:{number}: {told}")
    return data.decode("utf-8-sig", "replace"), wrong


def text_of(data: bytes, name: str) -> str:
    """The text that a file's bytes hold; an empty one, or one that is no UTF-8, is a failure."""
    if not data.strip():
        raise Failure(f"{name}: the file is empty")
    text, wrong = decoded(data, name)
    for number, said in wrong.items():
        raise Failure(f"{name}:{number}: {said}")
    return text


def write_bytes(path: str | None, data: bytes) -> None:
    """Write a file; without a path or with `-`, standard output."""
    try:
        if path is None or path == "-":
            _open(sys.stdout).buffer.write(data)
            sys.stdout.buffer.flush()
            return
        with open(path, "wb") as file:
            file.write(data)
    except (OSError, ValueError) as error:
        # Nothing more goes to an output that failed, not even at exit.
        if path is None or path == "-":
            sys.stdout = None
            path = "standard output"
        reason = getattr(error, "strerror", None) or error
        raise AccessFailure(f"{path}: cannot be written: {reason}") from None


def open_file(path: str) -> int | None:
    """The number of the open file that a path such as /dev/stdout stands for."""
    for _ in range(MOST_LINKS):
        folder, name = os.path.split(path)
        folder = os.path.realpath(folder)
        if folder == f"/proc/{os.getpid()}/fd" and name.isdigit():
            return int(name)
        path = os.path.join(folder, name)
        if not os.path.islink(path):
            break
        path = os.path.join(folder, os.readlink(path))
    return None


def _keep_owner(number: int, old: os.stat_result) -> None:
    """Give an open file the owner and the group of an old one, as far as this user may."""
    try:
        os.fchown(number, old.st_uid, old.st_gid)
    except OSError:
        with contextlib.suppress(OSError):
            os.fchown(number, -1, old.st_gid)


def _replace(path: str, data: bytes, old: os.stat_result | None) -> None:
    """Put a new file in the place of an old one, or of none.

    The mode of an old file is kept, and its owner and group as far as this user may set them.
    Signals wait until this is done.
    """
    if old is not None and not os.access(path, os.W_OK):
        raise PermissionError(errno.EACCES, os.strerror(errno.EACCES))
    before = signal.pthread_sigmask(signal.SIG_BLOCK, signal.valid_signals())
    try:
        number, new = tempfile.mkstemp(".new", ".", os.path.dirname(path))
        try:
            with open(number, "wb") as file:
                file.write(data)
                file.flush()
                if old is None:
                    mask = os.umask(0)
                    os.umask(mask)
                    os.fchmod(number, 0o666 & ~mask)
                else:
                    _keep_owner(number, old)
                    os.fchmod(number, stat.S_IMODE(old.st_mode))
                os.fsync(number)
            os.replace(new, path)
        except BaseException:
            os.unlink(new)
            raise
    finally:
        signal.pthread_sigmask(signal.SIG_SETMASK, before)


def write_whole(path: str, data: bytes) -> None:
    """Write a file that then stands there whole, or not at all, so that an old one is as it was.

    A link is followed. What is no plain file, as a pipe, a device or /dev/stdout, is written to.
    """
    try:
        if not os.path.basename(path):
            raise IsADirectoryError(errno.EISDIR, os.strerror(errno.EISDIR))
        number, old = open_file(path), None
        with contextlib.suppress(FileNotFoundError):
            old = os.stat(path)
        if number is None and (old is None or stat.S_ISREG(old.st_mode)):
            _replace(os.path.realpath(path), data, old)
            return
        with open(path if number is None else number, "wb", closefd=number is None) as file:
            file.write(data)
    except (OSError, ValueError) as error:
        reason = getattr(error, "strerror", None) or error
        raise AccessFailure(f"{path}: cannot be written: {reason}") from None


def make_folder(path: str) -> None:
    """Make a folder and those that it is in, where they are not there."""
    try:
        os.makedirs(path, exist_ok=True)
    except (OSError, ValueError) as error:
        reason = getattr(error, "strerror", None) or error
        raise AccessFailure(f"{path}: cannot be made: {reason}") from None


def run(main: Callable[[], int | None]) -> None:
    """Run a tool's main function and end with its status; a failure is told first.

    A fault of the tool itself says nothing of the input, so its status is that of AccessFailure.
    """
    try:
        status = main()
    except Failure as failure:
        print(failure, file=sys.stderr)
        status = failure.status
    except Exception:
        traceback.print_exc()
        status = AccessFailure.status
    sys.exit(status or 0)
