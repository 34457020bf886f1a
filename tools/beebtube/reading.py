"""The options of a tool, by argparse. It takes a while to load: a tool that may be called without it loads it when it is needed."""
from __future__ import annotations

import argparse
import sys
from typing import Callable, IO, NoReturn, Optional

from .command import Usage, tool_name
from .words import number_of, shown


class Reader(argparse.ArgumentParser):
    """A reader of a tool's words, whose help is the tool's own text."""

    def __init__(self, doc: Optional[str] = None):
        super().__init__(description=doc or sys.modules["__main__"].__doc__, usage=argparse.SUPPRESS, allow_abbrev=False,
                         formatter_class=argparse.RawDescriptionHelpFormatter, prog=tool_name())

    def error(self, message: str) -> NoReturn:
        raise Usage(message)

    def parse_known_args(self, args=None, namespace=None):  # type: ignore[no-untyped-def]
        for word in args or ():
            name = word.split("=")[0]
            if word == "--":
                break
            if word[:1] == "-" and word[1:2].isalpha() and name not in self._option_string_actions and name[:2] not in self._option_string_actions:
                raise Usage("%s: no such option; a name that begins with `-` is written ./%s" % (word[:60], word[:60]))
        return super().parse_known_args(args, namespace)

    def _print_message(self, message: str, file: Optional[IO[str]] = None) -> None:
        # argparse passes over a help that cannot be written.
        print(message, end="", file=file or sys.stdout, flush=True)

    def format_help(self) -> str:
        return (self.description or "").strip() + "\n"


def seconds(word: str) -> float:
    """A time in seconds, from 0 up to an hour; argparse's error for any other word."""
    try:
        value = float(word)
    except ValueError:
        value = -1.0
    if not 0 <= value <= 3600:
        raise argparse.ArgumentTypeError("%s: a time is a number of seconds from 0 to 3,600" % word)
    return value


def whole_number(least: int, most: int) -> Callable[[str], int]:
    """What takes a word for a whole number of these limits; argparse's error for any other word."""
    def of(word: str) -> int:
        number = number_of(word)
        if number is None or not least <= number <= most:
            raise argparse.ArgumentTypeError("%s: it is a whole number from %d to %s" % (shown(word), least, "{:,}".format(most)))
        return number
    return of
