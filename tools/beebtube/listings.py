"""The starts of instructions, as the program's `follow` lists them."""
from __future__ import annotations

import mmap
import os
import re
from typing import Callable, Iterator, List, NamedTuple, Tuple, Union

from .faults import Fault
from .report import Registers

MOST_LINES = 1048576
START = re.compile(
    rb"([0-9A-F]{10}) ([0-9A-F]{4}) A=(..) X=(..) Y=(..) S=(..) P=(..) ([^\n]*)\n")
# The same in the parts that the call stack needs: tick, PC, X, S, and the mnemonic.
BRIEF = re.compile(rb"(.{10}) (.{4}) A=.. X=(..) Y=.. S=(..) P=.. (\S+)[^\n]*\n")
Brief = Tuple[bytes, bytes, bytes, bytes, bytes]


def hexes(test: Callable[[int], bool]) -> str:
    """A form of the bytes, in two digits, for which a test holds."""
    rows = []
    for high in range(16):
        lows = "".join(f"{low:X}" for low in range(16) if test(16 * high + low))
        if lows:
            rows.append(f"{high:X}[{lows}]" if len(lows) > 1 else f"{high:X}{lows}")
    return "(?:%s)" % "|".join(rows) if len(rows) > 1 else "".join(rows) or "(?!)"


class Start(NamedTuple):
    """The start of an instruction: its side and tick, the registers before it, and its text."""

    side: str
    tick: int
    registers: Registers
    text: str

    @property
    def word(self) -> str:
        """The mnemonic."""
        return self.text.partition(" ")[0]


class Change(NamedTuple):
    """A byte that becomes another: by the instruction of `start`, or by the interrupt after it,
    which is over at `tick`."""

    start: Start
    tick: int
    old: int
    new: int


class Listing:
    """What `follow` listed: lines in a file, found by their ticks. The file goes away with this.

    low      the tick from which all starts are listed
    covers   the tick below which they are
    first    the place of the first of them; `size` is the end
    """

    def __init__(self, side: str, path: str, total: int, low: int, high: int):
        self.side, self.low = side, low
        self.data: Union[bytes, mmap.mmap] = b""
        if os.path.getsize(path):
            with open(path, "rb") as file:
                self.data = mmap.mmap(file.fileno(), 0, access=mmap.ACCESS_READ)
        os.unlink(path)
        self.size = len(self.data)
        self.covers = high
        if total > MOST_LINES:
            self.covers = self.tick_at(self.data.rfind(b"\n", 0, self.size - 1) + 1) + 1
        self.first = self.place_of(low)

    def tick_at(self, place: int) -> int:
        """The tick of the line that begins there."""
        return int(self.data[place : place + 10], 16)

    def place_of(self, tick: int) -> int:
        """Where the first line of this tick or a later one begins; the end if there is none."""
        low, high = 0, self.size
        while low < high:
            begin = self.data.rfind(b"\n", 0, (low + high) // 2) + 1
            if self.tick_at(begin) < tick:
                low = self.data.find(b"\n", begin) + 1
            else:
                high = begin
        return low

    def after(self, place: int, count: int) -> Tuple[int, int]:
        """The place `count` lines on, and how many there were: fewer if the listing ends."""
        for done in range(count):
            if place >= self.size:
                return self.size, done
            place = self.data.find(b"\n", place) + 1
        return place, count

    def before(self, place: int, count: int) -> Tuple[int, int]:
        """The place `count` lines back, and how many there were: fewer if the listing begins."""
        for done in range(count):
            if place <= self.first:
                return self.first, done
            place = self.data.rfind(b"\n", 0, place - 1) + 1
        return place, count

    def start(self, place: int) -> Start:
        """The start of the line that begins there."""
        match = START.match(self.data, place)
        if not match:
            raise Fault("a listing has a line outside its form")
        return self._of(match)

    def starts(self, place: int) -> Iterator[Start]:
        """Each start from there on."""
        return (self._of(match) for match in START.finditer(self.data, place))

    def brief(self, low: int, high: int) -> List[Brief]:
        """The parts of the lines from one place up to another."""
        return BRIEF.findall(self.data, low, high)

    def found(self, form: "re.Pattern[bytes]", place: int) -> Iterator[Start]:
        """Each start from there on in whose line the form is found."""
        for match in form.finditer(self.data, place):
            yield self.start(self.data.rfind(b"\n", 0, match.start()) + 1)

    def _of(self, match: "re.Match[bytes]") -> Start:
        tick, pc, a, x, y, s, p = (int(word, 16) for word in match.groups()[:7])
        registers = Registers(pc, a, x, y, s, p, False)
        return Start(self.side, tick, registers, match.group(8).decode("ascii"))
