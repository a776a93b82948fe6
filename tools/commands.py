"""What the commands `report`, `canonical` and `changed` share: messages, options, how they end."""

from __future__ import annotations

import argparse
import signal
import sys
from typing import Callable, NoReturn, Sequence, TypeVar

import files
import programs
from inputs import NOT_RUN, Failed, Input, not_run

Answer = TypeVar("Answer")


def tell(message: str) -> None:
    """Say something on standard error, where that can be written."""
    try:
        if sys.stderr is not None:
            print(message, file=sys.stderr, flush=True)
    except OSError:
        sys.stderr = None  # nothing more goes there, not even at exit


class Parser(argparse.ArgumentParser):
    """The options of a command, and its help, which starts with `description`."""

    def __init__(self, command: str, description: str | None, examples: str) -> None:
        super().__init__(
            prog=command, description=description, epilog=examples, usage=argparse.SUPPRESS,
            formatter_class=argparse.RawDescriptionHelpFormatter, allow_abbrev=False, add_help=False,
        )

    def error(self, message: str) -> NoReturn:
        raise files.AccessFailure(f"{message} ({self.prog} --help tells more)")

    def parsed(self, arguments: Sequence[str]) -> argparse.Namespace:
        """The options, which may stand anywhere, and the models; behind -- every word is a model.

        If help or the version is asked for, it is printed, and nothing else is done.
        """
        self.add_argument("models", metavar="MODEL", nargs="*", help=argparse.SUPPRESS)
        self.add_argument("--help", action="store_true", help="print this help")
        self.add_argument("--version", action="store_true", help="print the version")
        end = arguments.index("--") if "--" in arguments else len(arguments)
        options = self.parse_intermixed_args(arguments[:end])
        options.models += arguments[end + 1 :]
        if options.help or options.version:
            told = self.format_help() if options.help else f"Pepperscarp {programs.version()}\n"
            files.write_bytes(None, told.encode("utf-8"))
            sys.exit(0)
        if not options.models:
            self.error("name a MODEL")
        return options


def fault(error: Exception) -> str:
    return f"a fault of the tool, please report it: {type(error).__name__}: {error}"


def attempted(caller: str, given: Input, make: Callable[[Input], Answer]) -> Answer | Failed:
    """What is made of a model; whatever goes wrong with it stops no other."""
    try:
        return make(given)
    except files.Failure as failure:
        return not_run(caller, given.name, str(failure))
    except Exception as error:
        return not_run(caller, given.name, fault(error))


def run(caller: str, main: Callable[[Sequence[str]], int]) -> NoReturn:
    """Run a command on its words and end with its status; print first what stops it."""
    status = NOT_RUN
    try:
        status = main(sys.argv[1:])
    except files.Failure as failure:
        tell(f"{caller}: {failure}")
    except KeyboardInterrupt:
        status = 128 + signal.SIGINT
    except Exception as error:
        tell(f"{caller}: {fault(error)}")
    sys.exit(status)
