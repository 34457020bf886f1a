"""`call`: a subroutine of machine code by itself, for unit tests of assembler."""
from __future__ import annotations

import functools
from typing import Dict, List, Mapping, Optional, Union

from .execution import LOWEST, MACHINES, PAGE, Block, Image, Left, Runner
from .execution import broken_at, look_at_cpu, name_of, text_behind, ticks_of
from .faults import Fault
from .files import IMAGE_CAP
from .program import Data, Part, Program, Side, bytes_of

# Where the caller's part of page 0 ends: the ROM has the rest.
ZERO_PAGE = {"host": 0xE0, "para": 0xEE}
# What keeps a processor's registers as they are: an opcode that halts it, and BRA to itself.
STOPS = {"host": b"\x02", "para": b"\x80\xfe"}
JSR = 6


class Called:
    """What a subroutine left.

    a, x, y, p, s  the registers; carry, zero, negative, overflow and decimal are bits of p
    memory         of its machine, 32,768 or 65,536 bytes
    out            what it wrote by OSWRCH
    cycles         how many it took, with its RTS and without the JSR; a second run finds it
    """

    def __init__(self, runner: Runner, left: Left, end: int):
        self._runner, self._ticks, self._places = runner, left.ticks, (end - 3, end)
        side = runner.images[0].machine
        registers = left.registers[side]
        self.a, self.x, self.y, self.s, self.p = registers[1:6]
        self.memory = left.host if side == "host" else left.para or b""
        self.out = left.out

    def __repr__(self) -> str:
        names = enumerate("NV-BDIZC")
        flags = "".join(letter if self.p >> (7 - at) & 1 else "-" for at, letter in names)
        return f"<Called: A={self.a:02X} X={self.x:02X} Y={self.y:02X} {flags}>"

    @property
    def carry(self) -> bool:
        return bool(self.p & 0x01)

    @property
    def zero(self) -> bool:
        return bool(self.p & 0x02)

    @property
    def decimal(self) -> bool:
        return bool(self.p & 0x08)

    @property
    def overflow(self) -> bool:
        return bool(self.p & 0x40)

    @property
    def negative(self) -> bool:
        return bool(self.p & 0x80)

    def word(self, at: int) -> int:
        """The two bytes at an address, the low one first."""
        return self.memory[at] | self.memory[at + 1] << 8

    @functools.cached_property
    def cycles(self) -> int:
        runner, side = self._runner, self._runner.images[0].machine
        if runner.has_tube:
            runner.run(self._ticks, ("--keep", "4194304"))
        before, after = (
            runner.listed(side, self._ticks, ("--at", f"{at:04X}"))[0] for at in self._places)
        clock = runner.speed if side == "para" else 2
        return (int(after[:10], 16) - int(before[:10], 16)) * clock * 1000000 // runner.second - JSR


# A program of several pieces of memory.
class _Pieces(Image):
    def __init__(self, name: str, machine: Side, pages: Dict[int, bytearray], entry: int):
        self.name, self.machine, self.form, self.entry, self.place = name, machine, "raw", entry, 0
        self._pages = pages

    @property
    def blocks(self) -> List[Block]:
        pages = sorted(self._pages.items())
        return [Block(self.machine, page * PAGE, bytes(data)) for page, data in pages]


def call(image: Data, *, at: int, start: Optional[int] = None,
         a: int = 0, x: int = 0, y: int = 0, p: int = 0x24,
         memory: Mapping[int, Union[int, bytes]] = {}, cpu: Part = "6502", limit: float = 5.0,
         using: Optional[Program] = None) -> Called:
    """Calls a subroutine of an image, and gives what it left.

    image    machine code that lies at `at`: bytes, as `asm` gives them, or a file's name
    start    the subroutine's address, if it is not `at`
    a, x, y, p  the registers before it
    memory   bytes of memory before it, by their addresses: a number is one byte; all else is 00
    cpu      "6502", the host's processor, with memory up to 7FFF; or "65c02", the second processor,
             up to F7FF
    limit    the most seconds of machine time
    using    the emulator, if it is not ./beebtube
    Fault if it does not return, ends by a BRK, or if there is no room in memory.
    """
    look_at_cpu(cpu)
    machine: Side = "para" if cpu == "65c02" else "host"
    name, data = name_of(image, "the image"), bytes_of(image, IMAGE_CAP)
    routine = at if start is None else start
    _look("start", routine, 0xFFFF)
    for register, value in (("a", a), ("x", x), ("y", y), ("p", p)):
        _look(register, value)
    pages: Dict[int, bytearray] = {}
    low: Dict[int, int] = {}
    _put(machine, pages, low, at, data)
    for where, what in memory.items():
        if isinstance(what, int):
            _look(f"memory at {where:04X}", what)
        _put(machine, pages, low, where, bytes([what]) if isinstance(what, int) else what)
    code = b"".join(
        b"\xa9%c\x8d%c%c" % (byte, where & 255, where >> 8) for where, byte in sorted(low.items()))
    code = b"\xa2\xff\x9a" + code + b"\xa9%c\x48\xa9%c\xa2%c\xa0%c\x28" % (p, a, x, y)
    code += b"\x20%c%c" % (routine & 255, routine >> 8)
    entry = _room(machine, pages, len(code) + 2)
    end = entry + len(code)
    for number, byte in enumerate(code + STOPS[machine], entry):
        pages.setdefault(number // PAGE, bytearray(PAGE))[number % PAGE] = byte
    runner = Runner(using or Program(), [_Pieces(name, machine, pages, entry)], [])
    runner.give(b"")
    left = runner.until(
        ticks_of(limit, 3), lambda left: left.ended or left.registers[machine].pc == end)
    if left.registers[machine].pc == end and left.how == 0:
        return Called(runner, left, end)
    raise Fault(f"{name}: the subroutine at {routine:04X} {_why(left, machine, limit)}")


def _look(name: str, value: int, most: int = 255) -> None:
    if not 0 <= value <= most:
        raise Fault(f"{name}={value}: it is from 0 to {most:,}")


def _why(left: Left, machine: Side, limit: float) -> str:
    if left.how in (2, 3):
        memory = left.host if left.how == 2 else left.para or b""
        at = broken_at(memory)
        return f"ended by a BRK at {at:04X}{text_behind(memory, (at + 1) % 65536)}"
    if left.how == 1:
        return "ended the program, and did not return"
    at = left.registers[machine].pc
    if left.registers[machine].halted:
        return f"stopped at {at:04X}"
    return f"did not return within {limit:g} seconds of machine time; it is at {at:04X}"


# Puts bytes into the pages that are loaded, or among those below, which the calling code stores.
def _put(machine: Side, pages: Dict[int, bytearray], low: Dict[int, int], at: int,
         data: bytes) -> None:
    for where, byte in enumerate(data, at):
        if 0 <= where < ZERO_PAGE[machine] or 0x0100 <= where < LOWEST:
            low[where] = byte
        elif LOWEST <= where < MACHINES[machine][0]:
            pages.setdefault(where // PAGE, bytearray(PAGE))[where % PAGE] = byte
        else:
            raise Fault(f"{where:04X} is outside the memory of a program: it has 0000 to "
                        f"{ZERO_PAGE[machine] - 1:04X}, and 0100 to {MACHINES[machine][0] - 1:04X}")


# The highest pages that nothing else has, for so many bytes.
def _room(machine: Side, pages: Mapping[int, bytearray], length: int) -> int:
    count = -(-length // PAGE)
    for page in range(MACHINES[machine][0] // PAGE - count, LOWEST // PAGE - 1, -1):
        if not any(other in pages for other in range(page, page + count)):
            return page * PAGE
    raise Fault("there is no free page of memory from which the subroutine could be called")
