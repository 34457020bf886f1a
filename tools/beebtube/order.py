"""What passed through the Tube in two traces: the bytes of each register, the flags and the resets,
without times and polls.

The two sides run on clocks of their own, so a capture and a run of the same programs differ in
times, in how often a side polls, and in the order of what passes through different registers. So
each register is compared by itself, from reset to reset.
"""

from __future__ import annotations

import collections
from array import array
from typing import Deque, Dict, Iterator, List, NamedTuple, Optional, Tuple

from .accesses import SIDES, is_status, letter_of, name_of
from .faults import Fault
from .trace import Access, Trace
from .tube import Tube, line_of

BEFORE = 3  # accesses that are shown before one that differs
MOST_SHOWN = 20  # differences that are shown
AHEAD = 4  # so many bytes are the same where both go on after a difference
FARTHEST = 128  # bytes that are looked through for that place

Key = Tuple[str, int]  # the side that takes a byte, and the register's address; 0 for the flags


class Stream:
    """The bytes that passed through a register between two resets: each with the number and the
    tick of its access."""

    def __init__(self) -> None:
        self.data = bytearray()
        self.numbers = array("L")
        self.ticks = array("Q")

    def add(self, byte: int, number: int, tick: int) -> None:
        self.data.append(byte)
        self.numbers.append(number)
        self.ticks.append(tick)


class Passed:
    """What passed in a trace. `parts` has the streams from reset to reset, with the tick of the
    reset before."""

    def __init__(self, trace: Trace):
        self.trace = trace
        self.parts: List[Tuple[int, Dict[Key, Stream]]] = [(0, {})]
        tube = Tube()
        for number, access in enumerate(trace, 1):
            key = _key_of(access, tube)
            if key is not None:
                self.parts[-1][1].setdefault(key, Stream()).add(access.byte, number, access.tick)
            elif access.way == "X":
                self.parts.append((access.tick, {}))
            tube.put(access)
        self.count = sum(len(it.data) for _, streams in self.parts for it in streams.values())


# Whether something passes with an access: a byte is taken of a register that holds one, or the host
# writes flags. Flags have the number 0.
def _key_of(access: Access, tube: Tube) -> Optional[Key]:
    if is_status(access.register):
        return ("P", 0) if access.way == "W" and access.is_host and access.register == 0 else None
    if access.way == "R" and tube.holds_byte(access):
        return access.side, access.register
    return None


class Difference(NamedTuple):
    """Where two streams part: what, and the accesses of both traces, by their numbers; 0 if a trace
    has none there."""

    what: str
    one: int
    other: int


def differences(one: Passed, other: Passed, within: Optional[int]) -> Iterator[Difference]:
    """What differs, from reset to reset, and in each by register."""
    for part, ((begin, first), (start, second)) in enumerate(zip(one.parts, other.parts)):
        where = " after reset %d" % part if part else ""
        for key in sorted(set(first) | set(second), key=lambda it: (it[1], it[0])):
            here, there = first.get(key, Stream()), second.get(key, Stream())
            yield from _of_streams(_name_of(key) + where, here, there)
            if within is not None:
                yield from _of_times(_name_of(key) + where, here, there, start - begin, within)
    if len(one.parts) != len(other.parts):
        yield Difference("resets: %d | %d" % (len(one.parts) - 1, len(other.parts) - 1), 0, 0)


def _name_of(key: Key) -> str:
    return "%s to %s" % (name_of(key[1]), SIDES[key[0]]) if key[1] else "flags"


def _of_streams(name: str, here: Stream, there: Stream) -> Iterator[Difference]:
    first, second = here.data, there.data
    at, beside = 0, 0
    while first[at:] != second[beside:]:
        same = _same(first[at:], second[beside:])
        at, beside = at + same, beside + same
        found = _meeting(first[at : at + FARTHEST], second[beside : beside + FARTHEST])
        skip, pass_over = found or (len(first) - at, len(second) - beside)
        said = "%s, byte %d: %s | %s" % (
            name,
            at + 1,
            _shown(first[at : at + skip]),
            _shown(second[beside : beside + pass_over]),
        )
        yield Difference(said, _number(here, at), _number(there, beside))
        at, beside = at + skip, beside + pass_over


# How many bytes are the same at first.
def _same(one: bytearray, other: bytearray) -> int:
    low, high = 0, min(len(one), len(other))
    while low < high:
        middle = (low + high + 1) // 2
        if one[low:middle] == other[low:middle]:
            low = middle
        else:
            high = middle - 1
    return low


# How many bytes of both are passed over until they are the same again; None if that is far away.
def _meeting(one: bytearray, other: bytearray) -> Optional[Tuple[int, int]]:
    for total in range(1, FARTHEST):
        for skip in sorted(range(total + 1), key=lambda it: abs(2 * it - total)):
            ahead = one[skip : skip + AHEAD]
            if ahead and ahead == other[total - skip : total - skip + AHEAD]:
                return skip, total - skip
    return None


def _number(stream: Stream, at: int) -> int:
    return stream.numbers[at] if at < len(stream.numbers) else 0


def _shown(data: bytearray) -> str:
    if not data:
        return "nothing"
    if len(data) == 1:
        return "%02X%s" % (data[0], letter_of(data[0]))
    return " ".join("%02X" % byte for byte in data[:8]) + (
        " .. (%d bytes)" % len(data) if len(data) > 8 else ""
    )


# The first byte of a stream that passed too early or too late; times are those from the reset on.
def _of_times(
    name: str, here: Stream, there: Stream, shift: int, within: int
) -> Iterator[Difference]:
    for at, (tick, beside) in enumerate(zip(here.ticks, there.ticks)):
        if abs(beside - shift - tick) > within:
            said = "%s, byte %d: %d ticks %s" % (
                name,
                at + 1,
                abs(beside - shift - tick),
                "later" if beside - shift > tick else "earlier",
            )
            yield Difference(said, here.numbers[at], there.numbers[at])
            return


def compare(one: Trace, other: Trace, within: Optional[int]) -> Tuple[int, List[str]]:
    """The status, 0 if the same passed in both, else 1; and what is to be said."""
    if within is not None and one.speed != other.speed:
        speeds = one.speed, other.speed
        raise Fault("the second processor has %d MHz | %d MHz, so ticks are not the same" % speeds)
    first, second = Passed(one), Passed(other)
    found = list(differences(first, second, within))
    if not found:
        return 0, ["same: bytes and flags %d, resets %d" % (first.count, len(first.parts) - 1)]
    found.sort(key=lambda it: (it.one or 1 << 40, it.other))
    shown = found[:MOST_SHOWN]
    before = _before(one, {it.one for it in shown}), _before(other, {it.other for it in shown})
    lines = []
    for difference in shown:
        lines.append(difference.what)
        for which, said, number in (
            ("first ", before[0], difference.one),
            ("second", before[1], difference.other),
        ):
            lines += ["  %s %s" % (which, line) for line in said.get(number, [])]
    lines.append(
        "differences %d; %d | %d bytes and flags passed" % (len(found), first.count, second.count)
    )
    return 1, lines


# By the numbers of some accesses each in words, after those before it that are no polls.
def _before(trace: Trace, numbers: "set[int]") -> Dict[int, List[str]]:
    found: Dict[int, List[str]] = {}
    last: Deque[str] = collections.deque(maxlen=BEFORE)
    for number, access in enumerate(trace, 1):
        if number in numbers:
            found[number] = list(last) + [line_of(access, trace.second)]
        if not (is_status(access.register) and access.way == "R"):
            last.append(line_of(access, trace.second))
    return found
