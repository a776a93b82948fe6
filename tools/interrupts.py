"""Signals that end a command: without a word, and after it has put everything in order.

A command imports this before anything else, so that an interrupt ends it at once while the rest is
loaded, where Python would print how far it was. Then it runs within `exit_at_signals`.
"""

from __future__ import annotations

import contextlib
import signal
import sys
from typing import Iterator

if signal.getsignal(signal.SIGINT) is signal.default_int_handler:
    signal.signal(signal.SIGINT, signal.SIG_DFL)


@contextlib.contextmanager
def exit_at_signals() -> Iterator[None]:
    """Let signals raise SystemExit, but for those that are ignored, as in a shell's background."""
    all_ = signal.SIGHUP, signal.SIGINT, signal.SIGTERM
    heeded = [number for number in all_ if signal.getsignal(number) is not signal.SIG_IGN]
    try:
        for number in heeded:
            signal.signal(number, lambda number, _: sys.exit(128 + number))
        yield
    finally:
        # While Python ends, nothing may be raised any more.
        for number in heeded:
            signal.signal(number, signal.SIG_DFL)
