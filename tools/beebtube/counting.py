"""Counts of the instructions of one machine of a run, and the starts at chosen addresses.

`follow --counts` counts the starts at each address, `follow --points` lists those at many.
"""
from __future__ import annotations

import os
import re
from typing import Dict, Iterable, Iterator, List, NamedTuple, Set, Tuple

from .faults import Fault
from .files import OUTPUT_CAP, read_file
from .past import Past

LINE = re.compile(r"([0-9A-F]{4}) ([0-9]+) ([0-9]+)(?: ([0-9]+))?\n")
LISTED = re.compile(rb"([0-9A-F]{10}) ([0-9A-F]{4}) A=.. X=(..) Y=.. S=(..) P=.. ([^\n]*)\n")
MOST_LINES = 1048576
CONDITIONAL = (0x10, 0x30, 0x50, 0x70, 0x90, 0xB0, 0xD0, 0xF0)
# The bytes of an instruction by the last five bits of its opcode: those of the 65C02, which has all of the 6502's.
_LENGTHS = (2, 2, 2, 1, 2, 2, 2, 1, 1, 2, 1, 1, 3, 3, 3, 1, 2, 2, 2, 1, 2, 2, 2, 1, 1, 3, 1, 1, 3, 3, 3, 1)


class Count(NamedTuple):
    """Of an address: how many instructions start there, the ticks from each to the next start, and how often the condition of a
    conditional branch held."""

    starts: int
    ticks: int
    held: int


class Event(NamedTuple):
    """The start of an instruction: tick, address, X, S and text."""

    tick: int
    address: int
    x: int
    s: int
    text: str


def parse(text: str) -> Dict[int, Count]:
    """The counts of a file of `follow --counts`; Fault at a line outside its form."""
    found: Dict[int, Count] = {}
    for number, line in enumerate(text.splitlines(keepends=True), 1):
        match = LINE.fullmatch(line)
        if not match:
            raise Fault(f"bad counts {number}: a line has an address, starts, ticks, and for a branch how often its condition held")
        found[int(match[1], 16)] = Count(int(match[2]), int(match[3]), int(match[4] or 0))
    return found


def length_of(opcode: int) -> int:
    """How many bytes the instruction of an opcode has."""
    if opcode in (0x00, 0x40, 0x60):
        return 1
    return 3 if opcode == 0x20 else _LENGTHS[opcode & 31]


class Counting:
    """What is counted of one machine of a run.

    cycle  ticks of a cycle
    end    the tick at which the run ends
    """

    def __init__(self, past: Past, side: str):
        self.past, self.side, self.end = past, side, past.held
        self.cycle = past.cycle(side)
        memory = past.machines[side].state(past.held).memory
        images = past.inputs.images
        self._images: List[Tuple[int, bytes]] = [(0, memory)]
        for name, data in images.items():
            if side == "para" and name == "tube":
                self._images.append((65536 - len(data), data))
            if side == "host" and name == "os":
                self._images.append((0xC000, data))
            if side == "host" and re.fullmatch("rom[0-9]+", name):
                self._images.append((0x8000, data))

    def instructions(self, address: int) -> Set[bytes]:
        """The three bytes from an address on, in memory at the run's end and in each ROM that can be there."""
        return {(data[address - at : address - at + 3] + b"\0\0")[:3] for at, data in self._images if at <= address < at + len(data)}

    def vectors(self) -> Set[int]:
        """Where interrupts, BRK and the reset go."""
        return {int.from_bytes(word[:2], "little") for at in (0xFFFA, 0xFFFC, 0xFFFE) for word in self.instructions(at)}

    def resets(self) -> Set[int]:
        """Where a reset goes."""
        return {int.from_bytes(word[:2], "little") for word in self.instructions(0xFFFC)}

    def counts(self) -> Dict[int, Count]:
        """The counts of all addresses, over the whole run."""
        place = self._follow(0, (), "--counts")
        return parse(read_file(place + ".counts", OUTPUT_CAP).decode("ascii"))

    def starts_at(self, addresses: Iterable[int]) -> Iterator[Event]:
        """Each start at one of the addresses, one after another."""
        low, wanted = 0, sorted(set(addresses))
        while low < self.end:
            place = self._follow(low, wanted)
            data = read_file(place + ".list", OUTPUT_CAP)
            os.unlink(place + ".list")
            tick = low
            for match in LISTED.finditer(data):
                tick = int(match[1], 16)
                yield Event(tick, int(match[2], 16), int(match[3], 16), int(match[4], 16), match[5].decode("ascii"))
            if data.count(b"\n") < MOST_LINES:
                return
            low = tick + 1

    def _follow(self, low: int, points: Iterable[int], *extra: str) -> str:
        past = self.past
        out, named = past.fresh("list"), past.fresh("points")
        with open(os.path.join(past.folder, named), "w", encoding="ascii") as file:
            file.write("".join(f"{at:04X}\n" for at in points))
        words = ["follow", self.side, past.cut(self.end), str(self.end), out, "--points", named, *extra]
        past.program.done(words + past.options(self.side) + (["--from", str(low)] if low else []), past.folder)
        return os.path.join(past.folder, out)


__all__ = ["CONDITIONAL", "Count", "Counting", "Event", "length_of", "parse"]
