"""Where the beam is: the 6845's counters, by what a run wrote to its registers.

The chip counts as docs/DEFINITIONS.md has it ("character clock", "whole frames"). Nothing stops it, so that the stores to it
and to the control byte of the video ULA, which says how many character clocks a microsecond has, show where it is at any tick. The
picture's own tests compare the frames that shots take with what is counted here.
"""
from __future__ import annotations

import re
from typing import TYPE_CHECKING, List, NamedTuple, Optional, Tuple

from .frame import HEIGHT

if TYPE_CHECKING:
    from .listings import Start

ABOVE = 40  # lines of vertical sync and above the frame, by the picture's profile
STORE = re.compile(r"ST([AXY]) &(FE[0-9A-F]{2})(?:,([XY]))?")
BITS = {4: 127, 5: 31, 6: 127, 7: 127, 9: 31}


class Position(NamedTuple):
    """Where the beam is.

    line, lines            the line, from 0 where vertical sync began; and how many there were from one vertical sync to the next
    character, characters  the character of the line that comes next, and how many a line has
    is_set                 the registers were written: before that there is no picture
    """

    line: int
    lines: Optional[int]
    character: int
    characters: int
    is_set: bool

    @property
    def row(self) -> Optional[int]:
        """The line of the frame that a shot takes, 0 to 255; None above and below it."""
        return self.line - ABOVE if 0 <= self.line - ABOVE < HEIGHT else None

    def text(self) -> str:
        """In words."""
        if not self.is_set:
            return "the 6845 has no registers yet: no beam"
        row = "line %d of the picture" % self.row if self.row is not None else "above the picture" if self.line < ABOVE else "below the picture"
        lines = " of %d" % self.lines if self.lines is not None else ""
        return "beam in line %d%s since vertical sync, character %d of %d: %s" % (self.line, lines, self.character, self.characters, row)


class Beam:
    """The 6845 from power-on, which gets stores in their order."""

    def __init__(self, ticks: int):
        self.ticks = ticks  # of a microsecond
        self.time = 0  # microseconds that are done
        self.registers, self.selected, self.control = [0] * 16, 0, 0
        self.character = self.row = self.raster = self.sync_left = 0
        self.adjust: Optional[int] = None
        self.line = 0  # lines that are done
        self.sync: Optional[int] = None  # the line at which vertical sync began
        self.height: Optional[int] = None
        self.clock = 0  # character clocks that are done
        self.frames: List[Tuple[int, int]] = []  # clock and line of the last frames that began since a register was written

    def store(self, start: "Start") -> None:
        """An instruction that stores: it is done in its last cycle."""
        match = STORE.match(start.text)
        if not match:
            return
        registers = start.registers
        value = {"A": registers.a, "X": registers.x, "Y": registers.y}[match.group(1)]
        index = {"X": registers.x, "Y": registers.y, None: 0}[match.group(3)]
        address = (int(match.group(2), 16) + index) & 0xFFFF
        # The fourth cycle, or with an index the fifth, of three or six ticks; one of 1 MHz ends with a microsecond.
        cycle = self.ticks // 2
        ends = start.tick + cycle * (4 if match.group(3) is None else 5)
        if 0xFE00 <= address < 0xFE08:
            self.go_to(-(-ends // self.ticks))
            if address % 2 == 0:
                self.selected = value % 32
            elif self.selected < 16:
                self.registers[self.selected] = value & BITS.get(self.selected, 255)
                self.frames = []
        elif 0xFE20 <= address < 0xFE30 and address % 2 == 0:
            self.go_to(-(-ends // self.ticks))
            if (value ^ self.control) & 16:
                self.frames = []
            self.control = value

    def at(self, tick: int) -> Position:
        """Where it is at a tick."""
        self.go_to(tick // self.ticks)
        characters = self.registers[0] + 1
        line = 0 if self.sync is None else self.line - self.sync
        return Position(line, self.height, self.character, characters, self.registers[0] > 0 and self.sync is not None)

    def go_to(self, time: int) -> None:
        """Goes on to so many microseconds."""
        if time > self.time:
            self._clocks((time - self.time) * (2 if self.control & 16 else 1))
            self.time = time

    def _clocks(self, count: int) -> None:
        while count > 0:
            if self.character == 0:
                count -= self._whole_frames(count)
                self._line_begins()
            left = (self.registers[0] - self.character) % 256 + 1
            if left > count:
                self.character = (self.character + count) % 256
                self.clock += count
                return
            count -= left
            self.clock += left
            self.character = 0
            self._line_ends()

    # As many whole frames at once as come while no register is written; the last two are gone through. Gives their clocks.
    def _whole_frames(self, count: int) -> int:
        if self.row or self.raster or self.adjust is not None:
            return 0
        self.frames = self.frames[-2:] + [(self.clock, self.line)]
        if len(self.frames) < 3:
            return 0
        (_, _), (clock, line), _ = self.frames
        clocks, lines = self.clock - clock, self.line - line
        if clocks != clock - self.frames[0][0]:
            return 0
        whole = max(0, count // clocks - 2)
        self.clock += whole * clocks
        self.line += whole * lines
        if self.sync is not None:
            self.sync += whole * lines
        if whole:
            self.frames = []
        return whole * clocks

    def _line_begins(self) -> None:
        self.sync_left = max(0, self.sync_left - 1)
        if self.adjust is None and self.row == self.registers[7] and self.raster == 0 and self.sync_left == 0:
            self.sync_left = self.registers[3] // 16 or 16
            self.height = None if self.sync is None else self.line - self.sync
            self.sync = self.line

    def _line_ends(self) -> None:
        self.line += 1
        r = self.registers
        is_interlaced = r[8] & 3 == 3
        last = r[9] - r[9] % 2 if is_interlaced else r[9]
        if self.adjust is not None:
            self.adjust = (self.adjust + 1) % 32
            if self.adjust == r[5]:
                self._frame_begins()
        elif self.raster != last:
            self.raster = (self.raster + (2 if is_interlaced else 1)) % 32
        elif self.row != r[4]:
            self.row, self.raster = (self.row + 1) % 128, 0
        elif r[5] == 0:
            self._frame_begins()
        else:
            self.row, self.raster, self.adjust = self.row + 1, 0, 0

    def _frame_begins(self) -> None:
        self.row, self.raster, self.adjust = 0, 0, None


__all__ = ["Beam", "Position"]
