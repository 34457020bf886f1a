"""The tools `cover` and `profile`: their words, and what they write."""
from __future__ import annotations

import argparse
import contextlib
import sys
from typing import Iterator, List

from .command import Usage, note
from .counting import Counting
from .cover import Cover
from .files import write_beside
from .past import Past
from .profile import Profile, read_rows, slower, table
from .program import Program
from .reading import Reader
from .sources import Sources

DIFFERS = 8


def _reader() -> Reader:
    reader = Reader()
    reader.add_argument("--host", action="append", default=[])
    reader.add_argument("--para", action="append", default=[])
    reader.add_argument("-o", dest="out")
    reader.add_argument("run", nargs=argparse.REMAINDER)
    return reader


@contextlib.contextmanager
def _past(program: Program, given: argparse.Namespace) -> Iterator[Past]:
    if not given.run:
        raise Usage("give a session file, or the arguments of a run")
    if len(given.run) > 1:
        past = Past.of_words(program, given.run)
    else:
        past = Past.of_session(program, given.run[0])
    try:
        for side in ("host", "para"):
            if getattr(given, side) and side not in past.machines:
                raise Usage(f"--{side}: the run has no such machine")
        yield past
    finally:
        past.close()


def cover(words: List[str]) -> int:
    """tools/cover."""
    given, program, found = _reader().parse_args(words), Program(), Cover()
    if not given.host and not given.para:
        raise Usage("--para or --host: the sources of a machine are missing")
    with _past(program, given) as past:
        for side in past.machines:
            if getattr(given, side):
                found.add(Sources(program, getattr(given, side)), Counting(past, side))
    missing = found.missing()
    if missing:
        note(f"not here, and left out: {' '.join(missing)}")
    _write(given, found.info())
    return 0


def profile(words: List[str]) -> int:
    """tools/profile."""
    reader = _reader()
    reader.add_argument("--against")
    given, program = reader.parse_args(words), Program()
    before = read_rows(given.against) if given.against else None
    with _past(program, given) as past:
        sides = [side for side in past.machines if getattr(given, side)] or list(past.machines)[-1:]
        if len(sides) > 1 and (given.out or given.against):
            raise Usage("-o and --against are of one machine: --host or --para")
        for side in sides:
            found = Profile(Sources(program, getattr(given, side)), Counting(past, side))
            if given.out:
                _write(given, found.callgrind("beebtube " + " ".join(given.run)))
            elif before is None:
                print(table(found.rows()), end="")
    if before is None:
        return 0
    worse = slower(found.rows(), before)
    for row, had in worse:
        print(f"{row.place}: {row.own:,} cycles, before {had:,}")
    return DIFFERS if worse else 0


def _write(given: argparse.Namespace, text: str) -> None:
    if given.out is None:
        sys.stdout.write(text)
    else:
        write_beside(given.out, text, [name for name in given.host + given.para + given.run[:1]])
