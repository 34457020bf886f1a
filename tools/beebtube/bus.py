"""The accesses that the signals of a capture make: where each begins and ends, and what is passed
over.

An access ends where its side's clock falls, or one of its strobes rises, while its select is low.
Its levels are those right before.
"""

from __future__ import annotations

from fractions import Fraction
from itertools import compress, islice
from operator import sub
from typing import Dict, Iterator, List, NamedTuple, Optional, Tuple

from .faults import Fault
from .signals import Moments, Reader, Watched
from .words import shown

# The signals of a side, after its letter, and the reset line. A side has a clock and a line for
# read and write, or two strobes.
ADDRESS, DATA = ("A0", "A1", "A2"), tuple("D%d" % bit for bit in range(8))
CLOCKED, STROBED = ("RW", "CLK"), ("RD", "WR")
SIDE = ADDRESS + DATA + ("CS",) + CLOCKED + STROBED
RESET = "RST"
SIGNALS = tuple(side + signal for side in "HP" for signal in SIDE) + (RESET,)
BUSES = {side + bus: len(bits) for side in "HP" for bus, bits in (("A", ADDRESS), ("D", DATA))}
ACTIVE_LOW = ("CS", "RD", "WR")
# A shorter pulse on a clock, a strobe, a select or the reset line is none.
GLITCH = Fraction(20, 10**9)


class Captured(NamedTuple):
    """An access of a capture: from when to when it lasts, in units of the file's time, and its line
    in a list of accesses, or 0."""

    side: str
    way: str
    register: int
    byte: int
    begin: int
    end: int
    line: int = 0


class Wanted(NamedTuple):
    """A line that is needed: its name in the file, and whether its level is the other one."""

    line: str
    is_inverted: bool


class _Side:
    """What of a side's lines is needed to take an access.

    known  by whether the read strobe ended and by the levels, the access: its side, way, register
           and byte
    """

    def __init__(self, letter: str, bit: Dict[str, int], inverted: int, unknown: int):
        self.letter, self._inverted, self._unknown = letter, inverted, unknown
        self.is_clocked = letter + "CLK" in bit
        self.ends = ("CLK",) if self.is_clocked else STROBED
        self.signals = [
            letter + name for name in ADDRESS + DATA + (("RW",) if self.is_clocked else ())
        ]
        self._bits = [bit[name] for name in self.signals]
        self.mask = sum(self._bits) | sum(self._bits) << unknown
        self.begin = 0
        self.last: Optional[int] = None
        self.count = self.idle = 0
        self.known: Dict[bool, Dict[int, Tuple[str, str, int, int]]] = {False: {}, True: {}}

    def access(self, levels: int, is_read: bool) -> Tuple[str, str, int, int]:
        """The access with these levels, which `known` has from now on. Fault if a signal has no
        value."""
        if self._unknown:
            for name, bit in zip(self.signals, self._bits):
                if levels >> self._unknown & bit:
                    raise Fault("%s has no value where an access ends" % name)
        values = [int((levels ^ self._inverted) & bit != 0) for bit in self._bits]
        found = (
            self.letter,
            "R" if (values[11] if self.is_clocked else is_read) else "W",
            sum(value << at for at, value in enumerate(values[:3])),
            sum(value << at for at, value in enumerate(values[3:11])),
        )
        self.known[is_read][levels & self.mask] = found
        return found


# What edges of a side, or of the reset line, are: the begin of a cycle, the end of one with and
# without an access, by the clock or the write strobe, or by the read strobe; the begin and the end
# of a reset.
BEGIN, END, END_READ, IDLE, RESET_BEGIN, RESET_END = range(6)
Rule = Tuple[Tuple[int, _Side], ...]


class _Rules(Dict[Tuple[int, int, int], int]):
    """The number in `rules` of what a moment is, by the lines that are active right before and
    right after it, and the selects that count."""

    def __init__(self, sides: List[_Side], bit: Dict[str, int]):
        super().__init__()
        self._sides, self._bit = sides, bit
        self.rules: List[Rule] = [()]

    def __missing__(self, key: Tuple[int, int, int]) -> int:
        before, after, selects = key
        changed, reset = before ^ after, self._bit.get(RESET, 0)
        rule: List[Tuple[int, _Side]] = []
        if changed & reset:
            rule.append((RESET_END if before & reset else RESET_BEGIN, self._sides[0]))
        for side in self._sides:
            bits = [self._bit[side.letter + name] for name in side.ends]
            ended = changed & sum(bits)
            if ended and not ended & before:
                rule.append((BEGIN, side))
            elif ended and not selects & self._bit[side.letter + "CS"]:
                rule.append((IDLE, side))
            elif ended and not after & reset:
                is_read = not side.is_clocked and ended & before & bits[0]
                rule.append((END_READ if is_read else END, side))
        if tuple(rule) not in self.rules:
            self.rules.append(tuple(rule))
        self[key] = self.rules.index(tuple(rule))
        return self[key]

    def marks(self, kinds: bytes, whats: Tuple[int, ...], side: Optional[_Side] = None) -> bytes:
        """For each moment 1 if it is one of these edges of a side, or of any, else 0."""
        table = bytes(
            any(what in whats and side in (None, whose) for what, whose in rule)
            for rule in self.rules
        )
        return kinds.translate(table.ljust(256, b"\0"))


class Bus:
    """The accesses of a capture's signals.

    sides     "H" and "P", as far as their lines are there
    ringing   edges that are taken as one with the edge before
    glitches  pulses shorter than `glitch` that are passed over
    """

    def __init__(
        self,
        reader: Reader,
        names: Dict[str, Wanted],
        begin: Optional[int],
        glitch: Optional[Fraction],
        second: int,
    ):
        self.reader = reader
        self.ringing = self.glitches = 0
        self._find(names)
        if not self.sides:
            raise Fault(
                "the file has the signals of no side: the host's are HA0 to HA2, HD0 to HD7, HCS, "
                "and HRW and HCLK; it has %s"
                % (", ".join(map(shown, reader.lines.names[:40])) or "no lines")
            )
        if begin is None and RESET not in self.bit:
            raise Fault(
                "the time of the last reset is unknown, and a trace begins at a reset: give the signal %s, or "
                "--at TICK where the capture begins"
                % RESET
            )
        is_own = reader.speed is not None
        glitch = (Fraction(0) if is_own else GLITCH) if glitch is None else glitch
        self._quiet = -(-glitch // reader.unit)
        # A side's cycle has at least two ticks: two edges of its clock within one are one edge.
        self._cycle = 0 if is_own else int(9 * Fraction(1, second) / reader.unit / 10)
        self.zero = None if begin is None else reader.start
        # The lines that bound accesses, and the bit that each has if it is active.
        lines = [RESET] * (RESET in self.bit)
        for side in self._sides:
            lines += [side.letter + name for name in ("CS",) + side.ends]
        self._bit = {line: 1 << at for at, line in enumerate(lines)}
        self._watched = Watched(
            [(self.bit[line], bool(self.bit[line] & self.inverted)) for line in lines],
            reader.unknown,
        )
        self._rules = _Rules(self._sides, self._bit)

    def _find(self, names: Dict[str, Wanted]) -> None:
        reader = self.reader
        self.bit: Dict[str, int] = {}
        self.inverted = 0
        for signal in SIGNALS:
            wanted = names.get(signal, Wanted(signal, signal[1:] in ACTIVE_LOW or signal == RESET))
            number = reader.lines.find(wanted.line)
            if number is not None:
                self.bit[signal] = 1 << reader.bit_of(number)
                self.inverted |= wanted.is_inverted << reader.bit_of(number)
            elif signal in names:
                raise Fault(
                    "the file has no signal %s, which is to be %s; it has %s"
                    % (shown(wanted.line), signal, ", ".join(map(shown, reader.lines.names[:40])))
                )
        used: Dict[int, str] = {}
        for signal, bit in self.bit.items():
            if bit in used:
                raise Fault("%s and %s are the same line" % (used[bit], signal))
            used[bit] = signal
        self._sides = [
            _Side(letter, self.bit, self.inverted, reader.unknown)
            for letter in "HP"
            if self._has(letter)
        ]
        self.sides = [side.letter for side in self._sides]

    def _has(self, letter: str) -> bool:
        there = {signal[1:] for signal in self.bit if signal[0] == letter and signal != RESET}
        if not there:
            return False
        ways = STROBED if "CLK" not in there and there & set(STROBED) else CLOCKED
        lack = [signal for signal in ADDRESS + DATA + ("CS",) + ways if signal not in there]
        if lack:
            raise Fault(
                "the file has no signal %s%s: a side has A0 to A2, D0 to D7, CS, and RW and CLK or "
                "RD and WR, after %s"
                % (letter, lack[0], letter)
            )
        return True

    def accesses(self) -> Iterator[Captured]:
        """The accesses in the order in which they end. `zero` is the time of the first reset's
        end."""
        rest = Moments([], [], b"", b"")
        for block in self.reader.blocks(self._watched, sum(self.bit.values())):
            times = rest.times + block.times
            # Moments near the last one wait for those after it.
            end = len(times) - 1
            while end > 0 and times[end] - times[end - 1] < self._quiet:
                end -= 1
            whole = Moments(
                times,
                rest.levels + block.levels,
                rest.before + block.before,
                rest.after + block.after,
            )
            yield from self._accesses(whole.part(0, end))
            rest = whole.part(end, None)
        yield from self._accesses(rest)
        if self.zero is None:
            raise Fault(
                "the capture begins later than a reset: its signal %s never rises; a trace begins "
                "at a reset, or --at TICK says where it begins"
                % RESET
            )

    def _accesses(self, moments: Moments) -> List[Captured]:
        times, levels, before, after = moments
        before, after, selects = self._calm(times, before, after)
        kinds = bytes(map(self._rules.__getitem__, zip(before, after, selects)))
        rules, marks = self._rules.rules, self._rules.marks
        begins = {side: marks(kinds, (BEGIN,), side) for side in self._sides}
        found: List[Captured] = []
        ends = marks(kinds, (END, END_READ, RESET_BEGIN, RESET_END))
        for at in compress(range(len(kinds)), ends):
            time = times[at]
            for what, side in rules[kinds[at]]:
                if what == BEGIN or what == IDLE:
                    pass
                elif what == RESET_END:
                    if self.zero is None:
                        self.zero = time
                elif self.zero is None:
                    pass
                elif what == RESET_BEGIN:
                    found.append(Captured("H", "X", 0, 0, time, time))
                elif side.last is not None and time - side.last < self._cycle:
                    self.ringing += 1
                else:
                    side.last, side.count = time, side.count + 1
                    is_read, level = what == END_READ, levels[at]
                    access = side.known[is_read].get(level & side.mask)
                    if access is None:
                        try:
                            access = side.access(level, is_read)
                        except Fault as fault:
                            raise Fault("%s: %s" % (self.reader.place(time), fault)) from None
                    first = begins[side].rfind(1, 0, at)
                    begin = times[first] if first >= 0 else side.begin
                    found.append(Captured._make(access + (begin, time, 0)))
        for side, places in begins.items():
            side.begin = times[places.rfind(1)] if 1 in places else side.begin
            side.idle += marks(kinds, (IDLE,), side).count(1)
        return found

    # The active lines before and after each moment without the pulses that are passed over, and
    # those whose selects count: of moments near each other those before the first.
    def _calm(self, times: List[int], before: bytes, after: bytes) -> Tuple[bytes, bytes, bytes]:
        quiet = self._quiet
        gaps = map(sub, islice(times, 1, None), times)
        near = list(compress(range(1, len(times)), map(quiet.__gt__, gaps)))
        if not near:
            return before, after, before
        calm = bytearray(before), bytearray(after), bytearray(before)
        selects, end, first, changed, twice = calm[2], 0, 0, 0, 0
        for at in near:
            if at != end:
                if twice:
                    self._pass_over(times[first:end], first, *calm[:2])
                first, changed, twice = at - 1, before[at - 1] ^ after[at - 1], 0
            edges = before[at] ^ after[at]
            twice, changed, end = twice | changed & edges, changed | edges, at + 1
            selects[at] = before[first]
        if twice:
            self._pass_over(times[first:end], first, *calm[:2])
        return bytes(calm[0]), bytes(calm[1]), bytes(selects)

    # Several moments near each other: of each line that comes back to its level nothing is left, of
    # one that does not its first edge.
    def _pass_over(self, times: List[int], first: int, before: bytearray, after: bytearray) -> None:
        edges = [before[first + at] ^ after[first + at] for at in range(len(times))]
        left = [0] * len(times)
        for bit in self._bit.values():
            places = [at for at, changed in enumerate(edges) if changed & bit]
            while places:
                many = next(
                    (
                        it
                        for it in range(1, len(places))
                        if times[places[it]] - times[places[it - 1]] >= self._quiet
                    ),
                    len(places),
                )
                if many % 2:
                    left[places[0]] |= bit
                    self.ringing += many // 2
                else:
                    self.glitches += many // 2
                places = places[many:]
        active = before[first]
        for at, changed in enumerate(left, first):
            before[at], after[at] = active, active ^ changed
            active ^= changed

    def hints(self) -> List[str]:
        """What seems wrong with the lines of a side."""
        said = []
        for side in self._sides:
            edge = side.letter + ("CLK" if side.is_clocked else "RD and %sWR" % side.letter)
            if not side.count and not side.idle:
                said.append(
                    "%s: no edge ends an access; is it the right line, and is the sample rate high "
                    "enough?"
                    % edge
                )
            elif not side.count:
                said.append(
                    "%sCS is never active where %s ends an access: is it the right line? "
                    "`%sCS=+NAME` is a select that is active high"
                    % (side.letter, edge, side.letter)
                )
            elif side.count > 1000 and side.idle * 20 < side.count and side.is_clocked:
                said.append(
                    "%sCS is active at nearly each edge of %s: `%sCS=+NAME` is a select that is "
                    "active high"
                    % (side.letter, edge, side.letter)
                )
        return said
