"""What a tool or a test gets if something is wrong."""
from __future__ import annotations

from typing import Iterable, List, Tuple


class Fault(Exception):
    """Something is wrong outside of this package: a file, a word, an input. Its text is for a person, in one line or a few."""


class NoRoom(Fault):
    """A disk is full: what comes next cannot be written either."""


class Refused(Fault):
    """The program ended with another status than 0.

    status  its exit status as docs/COMMANDS.md has them, or a signal's number below zero
    text    what it said itself, without the last line feed: on standard error, or with status 8 on standard output
    why     what is wrong in a person's words, a line each; there may be none
    """

    def __init__(self, status: int, text: str, why: Iterable[str] = ()):
        self.status = status
        self.text = text
        self.why: List[str] = list(why)
        super().__init__("\n".join(["status %d: %s" % (status, text or "nothing was said")] + self.why))

    def __reduce__(self) -> "Tuple[type, Tuple[int, str, List[str]]]":
        return type(self), (self.status, self.text, self.why)
