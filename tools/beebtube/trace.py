"""Tube traces: the accesses of both sides in their order, a line each, read one after another however many there are."""
from __future__ import annotations

import io
import os
import re
from typing import BinaryIO, Iterator, NamedTuple, Optional, Tuple, Union

from .faults import Fault
from .files import TRACE_CAP, Name, is_plain, open_file
from .words import second_of

FORM = re.compile(rb"([0-9A-F]{10}) ([HP]) ([RWX]) ([0-7]) ([0-9A-F]{2})\n")
LENGTH = 20  # bytes of a line, with its line feed


class Access(NamedTuple):
    """One access to the Tube.

    tick      of 1/6 microsecond, with `--speed 4` of 1/12
    side      "H", the host, or "P", the second processor
    way       "R", "W", or "X" for BREAK
    register  the number of the address, 0 to 7: even ones are status, odd ones bytes of registers 1 to 4
    byte      answered or written
    """

    tick: int
    side: str
    way: str
    register: int
    byte: int

    def line(self) -> str:
        """The line of a trace, without its line feed."""
        return "%010X %s %s %d %02X" % self

    @property
    def is_host(self) -> bool:
        return self.side == "H"


def _order(access: Access) -> int:
    return 2 * access.tick + (access.side == "P")


class Trace:
    """A trace as a file or as bytes; going through it gives its accesses, as often as you like, without holding them all. What is no
    plain file, a pipe, is gone through once.

    speed   the second processor's clock in MHz, 3 or 4
    second  ticks of a second: 6,000,000 or 12,000,000
    Fault at the first line outside the form or the order, with the number that the program prints: `bad trace N`.
    """

    def __init__(self, source: Union[Name, bytes], run: object = None):
        # (the run whose file it is: its folder stays as long as this)
        self._source, self._run = source, run
        self._file: Optional[BinaryIO] = self._open()
        begin = self._read(self._file, 3)
        self.speed = 4 if begin == b"T2\n" else 3
        self.second = second_of(self.speed)
        self._begin = b"" if self.speed == 4 else begin
        if isinstance(source, bytes) or is_plain(source):
            self._file.close()
            self._file = None

    def __repr__(self) -> str:
        name = "bytes" if isinstance(self._source, bytes) else os.path.basename(self._source)
        return f"<Trace: {name}, {self.speed} MHz>"

    # The file after the line of the clock, and the bytes that were read of its first line.
    def _at_first_line(self) -> Tuple[BinaryIO, bytes]:
        if self._file is not None:
            file, self._file = self._file, None
            return file, self._begin
        file = self._open()
        if self.speed == 4:
            self._read(file, 3)
        return file, b""

    def _open(self) -> BinaryIO:
        return io.BytesIO(self._source) if isinstance(self._source, bytes) else open_file(self._source)

    def _read(self, file: BinaryIO, most: int) -> bytes:
        try:
            return file.read(most)
        except (OSError, ValueError):
            raise self._unread() from None

    def _unread(self) -> Fault:
        return Fault("cannot read %s" % (os.fspath(self._source) if not isinstance(self._source, bytes) else "the trace"))

    def __iter__(self) -> Iterator[Access]:
        before, number, left = -1, 0, TRACE_CAP
        file, begin = self._at_first_line()
        with file:
            while True:
                try:
                    line = begin + file.readline(LENGTH + 1 - len(begin))
                except (OSError, ValueError):
                    raise self._unread() from None
                begin = b""
                if not line:
                    return
                number += 1
                left -= len(line)
                access = access_of(line)
                if access is None or _order(access) <= before:
                    raise Fault("bad trace %d" % number)
                if left < 0:
                    raise Fault("too long: a trace has at most {:,} bytes".format(TRACE_CAP))
                before = _order(access)
                yield access

    def count(self) -> int:
        """How many accesses there are."""
        return sum(1 for _ in self)


def access_of(line: bytes) -> Optional[Access]:
    """The access of a line with its line feed; None where it is outside the form."""
    match = FORM.fullmatch(line)
    if not match:
        return None
    tick, side, way, register, byte = match.groups()
    if way == b"X" and (side, register, byte) != (b"H", b"0", b"00"):
        return None
    return Access(int(tick, 16), side.decode(), way.decode(), int(register), int(byte, 16))
