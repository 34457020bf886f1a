"""Cycles of functions and of what they call.

The cycles of an address are those from each start there to the next start, so that all of a machine's time is some address's.
Calls are found by JSR, RTS, RTI, BRK, interrupts, jumps from function to function, and TXS: each call has S before it, and
ends where S is there again. An interrupt is a call by the function that it interrupts.
"""
from __future__ import annotations

import re
from typing import Dict, Iterator, List, NamedTuple, Optional, Tuple

from .counting import Count, Counting, Event
from .cover import called_at
from .faults import Fault
from .files import OUTPUT_CAP, Name, read_text
from .sources import Function, Sources

TARGET = re.compile(r"(?:JSR|JMP) &([0-9A-F]{4})")
ROOT = 0x200  # above each S: such a call ends only by a reset or with the run
UNKNOWN = Function(0, 0, "(unknown)", "", 0)
# Instructions that move from function to function or raise S, and their cycles. (The 65C02's JMP by address has six.)
CYCLES = {0x20: 6, 0x60: 6, 0x40: 6, 0x4C: 3, 0x6C: 5, 0x7C: 6, 0x9A: 2}


class Frame(NamedTuple):
    """A call that goes on: S before it, where it was made from, what was called, when that began, and whether it counts as a call."""

    level: int
    site: int
    callee: Function
    since: int
    number: int = 1


class Edge(NamedTuple):
    """Calls from a place to a function: how many, and the ticks until they ended."""

    number: int
    ticks: int


class Profile:
    """The time of one machine, by functions.

    own      the ticks of each address
    edges    the calls from each address to each function
    within   of each function, the ticks from each call of it to that call's end, those within another call of it left out
    calls    how often each function was called
    """

    def __init__(self, sources: Sources, counting: Counting):
        counts = counting.counts()
        sources.find_functions(called_at(sources, counting, counts))
        self.sources, self.counting = sources, counting
        self.own = {address: count.ticks for address, count in counts.items()}
        self.edges: Dict[Tuple[int, Function], Edge] = {}
        self.within: Dict[Function, int] = {}
        self.calls: Dict[Function, int] = {}
        self._stack: List[Frame] = []
        self._depth: Dict[Function, int] = {}
        self._site = 0
        self._vectors, self._resets = counting.vectors(), counting.resets()
        for event in counting.starts_at(self._points(counts)):
            self._take(event)
        self._end_to(0, counting.end)

    # The addresses at which a function may begin or end.
    def _points(self, counts: Dict[int, Count]) -> Iterator[int]:
        yield from (function.begin for function in self.sources.functions if function.begin in counts)
        for address in counts:
            for word in self.counting.instructions(address):
                if word[0] == 0x4C:
                    here, there = (self._function_at(it) for it in (address, word[1] | word[2] << 8))
                    if here is not there:
                        yield address
                elif word[0] in CYCLES:
                    yield address

    def _function_at(self, address: int) -> Function:
        return self.sources.function_at(address) or UNKNOWN

    @property
    def _here(self) -> Optional[Function]:
        return self._stack[-1].callee if self._stack else None

    def _call(self, level: int, site: int, callee: Function, since: int, number: int = 1) -> None:
        self._stack.append(Frame(level, site, callee, since, number))
        self._depth[callee] = self._depth.get(callee, 0) + 1

    # Ends the calls above so many.
    def _end_to(self, depth: int, tick: int) -> None:
        while len(self._stack) > depth:
            frame = self._stack.pop()
            self._depth[frame.callee] -= 1
            if not self._depth[frame.callee]:
                self.within[frame.callee] = self.within.get(frame.callee, 0) + tick - frame.since
            if self._stack:
                edge = self.edges.get((frame.site, frame.callee), Edge(0, 0))
                self.edges[frame.site, frame.callee] = Edge(edge.number + frame.number, edge.ticks + tick - frame.since)
                self.calls[frame.callee] = self.calls.get(frame.callee, 0) + frame.number

    # Ends the calls that were made with S at this value or below.
    def _end_below(self, level: int, tick: int) -> None:
        depth = len(self._stack)
        while depth and self._stack[depth - 1].level <= level:
            depth -= 1
        self._end_to(depth, tick)

    # Control came into another function without a call: a jump, or on from the function before. It ends with the call that it is
    # in; where it comes back to a function of the same call, what it went through ends.
    def _go(self, site: int, callee: Function, tick: int, number: int = 1) -> None:
        level = self._stack[-1].level if self._stack else ROOT
        depth = len(self._stack)
        while depth and self._stack[depth - 1].level == level:
            if self._stack[depth - 1].callee is callee:
                self._end_to(depth, tick)
                return
            depth -= 1
        self._call(level, site, callee, tick, number)

    def _take(self, event: Event) -> None:
        tick, address, s, text = event.tick, event.address, event.s, event.text
        here = self._function_at(address)
        if address in self._resets:
            self._end_to(0, tick)
        if address in self._vectors - self._resets and self._stack and not self._is_in(here, s):
            self._call(s + 3, self._site, here, tick)
        elif self._here is not here:
            self._go(self._site, here, tick)
        self._site = address
        opcode = _opcode(text)
        if not opcode:
            return
        target = TARGET.fullmatch(text)
        there = self._function_at(int(target[1], 16)) if target else None
        after = tick + self.counting.cycle * (CYCLES[opcode] + (opcode == 0x6C and self.counting.side == "para"))
        if opcode == 0x20 and there:
            self._call(s, address, there, after)
        elif opcode in (0x60, 0x40):
            self._end_below(s + (2 if opcode == 0x60 else 3), after)
        elif opcode == 0x9A:
            self._end_below(event.x, after)
            if self._here is not here:
                self._go(address, here, after, 0)
        elif there is not here:
            self._end_below(s, after)
            if there and self._here is not there:
                self._go(address, there, after)

    # A handler begins by an interrupt, save where it was called or jumped to.
    def _is_in(self, handler: Function, s: int) -> bool:
        return self._here is handler and self._stack[-1].level in (s + 2, s + 3)

    # --- What is written ---

    def cycles(self, ticks: int) -> int:
        """Ticks as cycles of this machine's processor."""
        return ticks // self.counting.cycle

    def rows(self) -> List[Row]:
        """A row for each function, those with the most cycles of their own first."""
        own: Dict[Function, int] = {}
        for address, ticks in self.own.items():
            function = self._function_at(address)
            own[function] = own.get(function, 0) + ticks
        found = [Row(it.name, it.file, it.line, self.cycles(own.get(it, 0)), self.cycles(self.within.get(it, 0)), self.calls.get(it, 0))
                 for it in {*own, *self.within}]
        return sorted(found, key=lambda it: (-it.own, it.name))

    def callgrind(self, command: str) -> str:
        """The text of a file in callgrind's format."""
        costs: Dict[Function, Dict[int, int]] = {}
        calls: Dict[Function, List[Tuple[int, Function, Edge]]] = {}
        for address, ticks in self.own.items():
            of_lines = costs.setdefault(self._function_at(address), {})
            line = self._line_at(address)
            of_lines[line] = of_lines.get(line, 0) + ticks
        for (site, callee), edge in self.edges.items():
            calls.setdefault(self._function_at(site), []).append((self._line_at(site), callee, edge))
        total = self.cycles(sum(self.own.values()))
        text = [f"# callgrind format\nversion: 1\ncreator: beebtube\ncmd: {command}\npositions: line\nevents: Cycles\nsummary: {total}\n"]
        for function in sorted({*costs, *calls}):
            text.append(f"\nfl={function.file or '?'}\nfn={function.name}\n")
            text += [f"{line} {self.cycles(ticks)}\n" for line, ticks in sorted(costs.get(function, {}).items())]
            for line, callee, edge in sorted(calls.get(function, [])):
                text.append(f"cfi={callee.file or '?'}\ncfn={callee.name}\ncalls={edge.number} {callee.line}\n{line} {self.cycles(edge.ticks)}\n")
        return "".join(text)

    def _line_at(self, address: int) -> int:
        return self.sources.lines.get(address, ("", 0))[1]


class Row(NamedTuple):
    """A function: its own cycles, those with what it calls, and how often it was called."""

    name: str
    file: str
    line: int
    own: int
    within: int
    calls: int

    @property
    def place(self) -> str:
        return f"{self.name} ({self.file}:{self.line})" if self.file else self.name


def _opcode(text: str) -> int:
    if text.startswith("JMP"):
        return 0x4C if TARGET.fullmatch(text) else 0x7C if text.endswith(",X)") else 0x6C
    return {"JSR": 0x20, "RTS": 0x60, "RTI": 0x40, "TXS": 0x9A}.get(text[:3], 0)


def table(rows: List[Row]) -> str:
    """A table for people."""
    total = sum(row.own for row in rows) or 1
    lines = [f"{'cycles':>13}  {'%':>5}  {'with calls':>13}  {'calls':>9}  function\n"]
    lines += [f"{row.own:13,}  {100 * row.own / total:5.1f}  {row.within:13,}  {row.calls:9,}  {row.place}\n" for row in rows]
    return "".join(lines)


def read_rows(name: Name) -> List[Row]:
    """The functions of a file that `callgrind` wrote, with their own cycles."""
    file, place, found, is_call = "", ("", ""), {}, False
    text = read_text(name, OUTPUT_CAP)
    if not text.startswith("# callgrind format\nversion: 1\ncreator: beebtube\n"):
        raise Fault(f"{name}: it is no file that this tool wrote")
    for line in text.splitlines():
        key, equal, value = line.partition("=")
        if key == "fl":
            file = value
        elif key == "fn":
            place = (value, file)
            found[place] = 0
        elif key == "calls":
            is_call = True
        elif not equal and re.fullmatch("[0-9]+ [0-9]+", line):
            if not is_call:
                found[place] += int(line.split()[1])
            is_call = False
    return [Row(name, file, 0, own, 0, 0) for (name, file), own in found.items()]


def slower(rows: List[Row], before: List[Row]) -> List[Tuple[Row, int]]:
    """The functions that have more cycles of their own than before, and how many they had; the most first."""
    had = {(row.name, row.file): row.own for row in before}
    found = [(row, had.get((row.name, row.file or "?"), 0)) for row in rows]
    return sorted([it for it in found if it[0].own > it[1]], key=lambda it: it[1] - it[0].own)


__all__ = ["Profile", "Row", "read_rows", "slower", "table"]
