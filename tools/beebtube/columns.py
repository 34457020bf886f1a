"""A Tube trace as columns, for charts: millions of accesses in a few seconds, by Python's own work on whole blocks of bytes.

An access is an order, a code and a byte. The order is twice the tick, and one more for the second processor, so orders rise. The
code has the register in bits 0 to 2, then `PARA` for the second processor, `WRITE`, `BREAK`, and the byte's two top bits, which of a
status show that a byte is there (`THERE`) and that there is room (`ROOM`).
"""
from __future__ import annotations

import bisect
import operator
import re
import sys
from array import array
from collections import Counter
from itertools import compress, islice
from typing import Callable, Dict, Iterator, List, NamedTuple, Optional, Tuple

from .faults import Fault
from .files import TRACE_CAP, Name, is_plain, open_file, reading
from .frame import either
from .trace import LENGTH, Trace
from .words import MOST_TICKS

PARA, WRITE, BREAK, ROOM, THERE = 8, 16, 32, 64, 128
LINES = 1 << 18  # read at once
HEX = b"0123456789ABCDEF"
SIDES = ("the host", "the second processor")
SHORT = ("host", "second processor")


class Columns(NamedTuple):
    """All accesses of a trace, each as its order, its code and its byte; `second` is the ticks of a second."""

    second: int
    orders: "array[int]"
    codes: bytes
    values: bytes


def columns_of(name: Name) -> Columns:
    """The columns of a trace's file; Fault with the line that is outside the form or the order, as `Trace` has it, and if a tick
    is above that of any run."""
    if not is_plain(name):
        raise Fault("%s is no plain file" % name)
    trace = Trace(name)
    orders = array("I")
    codes: List[bytes] = []
    values: List[bytes] = []
    left = TRACE_CAP
    with open_file(name) as file, reading(name):
        if trace.speed == 4:
            file.read(3)
        while True:
            block = file.read(LENGTH * LINES)
            if not block:
                return Columns(trace.second, orders, b"".join(codes), b"".join(values))
            left -= len(block)
            if left < 0:
                raise Fault("too long: a trace has at most {:,} bytes".format(TRACE_CAP))
            found = _block(block, orders[-1] if orders else -1)
            if found is None:
                trace.count()
                raise Fault("%s has an access above tick %s, the last of a run" % (name, "{:,}".format(MOST_TICKS)))
            orders.extend(found[0])
            codes.append(found[1])
            values.append(found[2])


# The columns of some lines after an order; None if one is outside the form, the order or the ticks of a run.
def _block(block: bytes, before: int) -> Optional[Tuple["array[int]", bytes, bytes]]:
    number, rest = divmod(len(block), LENGTH)
    column = [block[at::LENGTH] for at in range(LENGTH)]
    if rest or any(column[at].count(b" ") != number for at in (10, 12, 14, 16)) or column[19].count(b"\n") != number:
        return None
    allowed = [(at, HEX) for at in (*range(10), 17, 18)] + [(11, b"HP"), (13, b"RWX"), (15, b"01234567")]
    if any(column[at].translate(None, letters) for at, letters in allowed):
        return None
    side, high = column[11].translate(_TO_SIDE), column[17].translate(_TO_HIGH)
    codes = either(column[15].translate(_TO_REGISTER), side, column[13].translate(_TO_WAY), high)
    pairs = bytearray(2 * number)
    pairs[::2], pairs[1::2] = column[17], column[18]
    values = bytes.fromhex(pairs.decode())
    if column[13].count(b"X") and any(codes[at] != BREAK or values[at] for at in _places(column[13], b"X")):
        return None
    orders = _orders(column, side, number)
    if orders[0] <= before or max(orders) > 2 * MOST_TICKS + 1 or not all(map(operator.lt, orders, islice(orders, 1, None))):
        return None
    return array("I", orders), codes, values


def _orders(column: List[bytes], side: bytes, number: int) -> "array[int]":
    digits = bytearray(b"0") * (16 * number)
    for at in range(10):
        digits[6 + at :: 16] = column[at]
    last = bytearray(8 * number)
    last[7::8] = side.translate(_TO_ONE)
    # Each lane has 64 bits, and a tick 40: so twice the whole is twice each.
    twice = 2 * int.from_bytes(bytes.fromhex(digits.decode()), "big") | int.from_bytes(last, "big")
    orders = array("Q", twice.to_bytes(8 * number, "big"))
    if sys.byteorder == "little":
        orders.byteswap()
    return orders


def _table(value: Callable[[int], int]) -> bytes:
    return bytes(value(code) & 255 for code in range(256))


_TO_SIDE = _table(lambda letter: PARA if letter == ord("P") else 0)
_TO_ONE = _table(lambda code: code // PARA)
_TO_WAY = _table(lambda letter: {ord("W"): WRITE, ord("X"): BREAK}.get(letter, 0))
_TO_REGISTER = _table(lambda letter: letter - ord("0"))
_TO_HIGH = _table(lambda letter: HEX.index(letter) << 4 & 192 if letter in HEX else 0)


def _places(data: bytes, letter: bytes) -> Iterator[int]:
    return (match.start() for match in re.finditer(letter, data))


# --- Who waits for whom ---


class Wait(NamedTuple):
    """A wait: from the first look at a status in vain to the access that was waited for, in ticks, and how many looks there were."""

    first: int
    last: int
    looks: int


# The accesses of a side to a register are letters: a status without byte and room, with a byte, with room, with both; a byte
# taken, a byte given; what resets the Tube; and others.
_WAITS = (("a byte", b"r", b"ac", re.compile(rb"[ac][^rwx]*(?:[rwx]|\Z)")), ("room", b"w", b"ab", re.compile(rb"[ab][^rwx]*(?:[rwx]|\Z)")))
_AT_END = re.compile(rb"[^rwx]*\Z")


def _letter_of(code: int, side: int, register: int) -> str:
    if code & BREAK:
        return "x"
    if code & PARA != side or code >> 1 & 3 != register:
        return ""
    if code & 1:
        return "w" if code & WRITE else "r"
    return "o" if code & WRITE else "abcd"[code >> 7 | code >> 5 & 2]


class Waits:
    """Who waited for whom: `waits[side, register, kind]`, with side 0 the host and 1 the second processor, registers from 0 on, and
    kind "a byte" or "room"; and `at_end[side, register]`, what was still waited for at the end of the trace."""

    def __init__(self, columns: Columns):
        self.waits: Dict[Tuple[int, int, str], List[Wait]] = {}
        self.at_end: Dict[Tuple[int, int], Wait] = {}
        for side in (0, 1):
            for register in range(4):
                self._look_at(columns, side, register)

    def _look_at(self, columns: Columns, side: int, register: int) -> None:
        letters = [_letter_of(code, PARA * side, register) for code in range(256)]
        table = bytes(ord(letter or " ") for letter in letters)
        said = columns.codes.translate(table, bytes(code for code in range(256) if not letters[code]))
        if not said.strip(b"x"):
            return
        mask = columns.codes.translate(bytes(letter != "" for letter in letters))
        orders = array("I", compress(columns.orders, mask))
        for kind, end, vain, form in _WAITS:
            found = []
            for match in form.finditer(said):
                last = match.end() - 1
                if said[last : last + 1] == end:
                    looks = sum(said.count(letter, match.start(), last) for letter in vain)
                    found.append(Wait(orders[match.start()] // 2, orders[last] // 2, looks))
            if found:
                self.waits[side, register, kind] = found
        self._look_at_end(columns, said, orders, side, register)

    def _look_at_end(self, columns: Columns, said: bytes, orders: "array[int]", side: int, register: int) -> None:
        start = max(said.rfind(letter) for letter in b"rwx") + 1
        first = min((at for at in (said.find(letter, start) for letter in b"abc") if at >= 0), default=-1)
        if first >= 0:
            looks = sum(said.count(letter, first) for letter in b"abc")
            self.at_end[side, register] = Wait(orders[first] // 2, columns.orders[-1] // 2, looks)


def _empty(columns: Columns) -> Tuple[Dict[int, List[int]], Dict[int, int]]:
    """The reads that take no byte, since their register is empty: by the code without its status,
    their places in the trace. And how many bytes were lost, by the code of the reads that would
    have taken them."""
    counts: Dict[int, int] = {}

    def clear() -> None:
        counts.update({place | side: int((place, side) == (5, 0)) for place in (1, 3, 5, 7) for side in (0, PARA)})

    clear()
    found: Dict[int, List[int]] = {}
    lost: Dict[int, int] = {}
    is_two = False
    mask = columns.codes.translate(_table(lambda code: code & 1 or code & 63 in (WRITE, BREAK)))
    for at in compress(range(len(mask)), mask):
        code = columns.codes[at] & 63
        if code & 1 and not code & WRITE:
            if counts[code]:
                counts[code] -= 1
            else:
                found.setdefault(code, []).append(at)
        elif code & 1:
            to = code & 15 ^ PARA
            room = 24 if to == 1 else 2 if is_two and code & 7 == 5 else 1
            before = counts[to]
            counts[to] = 1 if room == 1 else before + (before < room)
            lost[to] = lost.get(to, 0) + before + 1 - counts[to]
        elif code == BREAK:
            is_two = False
            clear()
        else:
            value = columns.values[at]
            is_two = value & 128 != 0 if value & 16 else is_two
            if value & 192 == 192:
                clear()
    return found, lost


def told(columns: Columns, waits: Waits) -> List[str]:
    """The lines of `tools/tube` for a trace, without what `check` says of one that it refuses."""
    codes, orders, second = columns.codes, columns.orders, columns.second
    count = Counter(codes)
    paras = sum(number for code, number in count.items() if code & PARA)
    lines = ["accesses %d: the host %d, the second processor %d" % (len(codes), len(codes) - paras, paras)]
    if not codes:
        return lines

    def us(ticks: int) -> str:
        time = ticks * 1e6 / second
        return ("%.1f us" if time < 1000 else "%.0f us") % time

    lines.append("from %s to %s" % (us(orders[0] // 2), us(orders[-1] // 2)))
    if count[BREAK]:
        lines.append("BREAK %d" % count[BREAK])
    empty, lost = _empty(columns)
    for place in (1, 3, 5, 7):
        for side in (0, 1):
            is_it = _table(lambda code: code & 63 == place | PARA * side)  # noqa: B023 # used at once
            taken = bytearray(codes.translate(is_it))
            for at in empty.get(place | PARA * side, ()):
                taken[at] = 0
            number = taken.count(1)
            if number:
                first, last = orders[taken.find(1)] // 2, orders[taken.rfind(1)] // 2
                rate = "%d bytes a second" % round((number - 1) * second / (last - first)) if last > first else "at once"
                lines.append("register %d to %s: %d bytes, %s" % (place // 2 + 1, SIDES[side], number, rate))
    for code, number in sorted(lost.items(), key=lambda item: (item[0] & 7, item[0])):
        if number:
            whose = SIDES[code // PARA]
            what = "%d byte%s lost, written while full" % (number, "" if number == 1 else "s")
            lines.append("register %d to %s: %s" % (code // 2 % 4 + 1, whose, what))
    for code, places in sorted(empty.items(), key=lambda item: (item[0] & 7, item[0])):
        lines.append("%s reads register %d while it is empty: %d" % (SHORT[code // PARA], code // 2 % 4 + 1, len(places)))
    for (side, register, kind), found in sorted(waits.waits.items()):
        lines.append("%s waits for %s in register %d: %d, polls %d, %s, longest %s" % (
            SHORT[side], kind, register + 1, len(found), sum(it.looks for it in found), us(sum(it.last - it.first for it in found)),
            us(max(it.last - it.first for it in found))))
    for (side, register), it in sorted(waits.at_end.items()):
        lines.append("%s waits at the end at register %d: polls %d, %s" % (SHORT[side], register + 1, it.looks, us(it.last - it.first)))
    return lines


# --- Over time ---


class Lane(NamedTuple):
    """A line of a chart: its name, what is counted, a value for each stretch of time, and the code that is counted, or -1."""

    name: str
    unit: str
    values: List[int]
    code: int = -1


def lanes_of(columns: Columns, waits: Waits, ticks: int, stretches: int) -> List[Lane]:
    """What happens in each of so many stretches of time, which are as long as one another and make `ticks` together: bytes that were
    given to each register each way, ticks for which each side waited, interrupts that were asked for, and resets."""
    edges = [bisect.bisect_left(columns.orders, 2 * -(-ticks * at // stretches)) for at in range(stretches)] + [len(columns.codes)]
    spans = list(zip(edges, edges[1:]))
    bare = columns.codes.translate(_table(lambda code: code & 63))
    counts = [Counter(bare[first:last]) for first, last in spans]
    lanes = []
    for side in (0, 1):
        for register in range(4):
            code = 2 * register + 1 + WRITE + (0 if side else PARA)
            lanes.append(Lane("register %d to %s" % (register + 1, SIDES[side]), "bytes", [count[code] for count in counts], code))
    for side in (0, 1):
        lanes.append(Lane("%s waits" % SIDES[side], "ticks", _waited(waits, side, ticks, stretches)))
    asked, resets = _asked(columns)
    for kind, name in enumerate(("interrupts asked of the host", "interrupts asked of the second processor", "NMIs asked of the second processor"), 1):
        lanes.append(Lane(name, "requests", [asked.count(kind, first, last) for first, last in spans]))
    lanes.append(Lane("resets of the second processor", "resets", [resets.count(1, first, last) for first, last in spans]))
    return lanes


# For how long a side waits in each stretch; it may wait at two registers at once.
def _waited(waits: Waits, side: int, ticks: int, stretches: int) -> List[int]:
    sums = [0] * stretches
    edges = [-(-ticks * at // stretches) for at in range(stretches + 1)]
    all_waits = [it for (whose, _, _), found in waits.waits.items() if whose == side for it in found]
    all_waits += [it for (whose, _), it in waits.at_end.items() if whose == side]
    for first, last, _ in all_waits:
        at = min(first * stretches // ticks, stretches - 1)
        while at < stretches and edges[at] < last:
            sums[at] += max(min(last, edges[at + 1]) - max(first, edges[at]), 0)
            at += 1
    return [min(total, edges[at + 1] - edges[at]) for at, total in enumerate(sums)]


# The accesses at which a byte comes, or goes, of which the flags of that time ask an interrupt: 1 of the host, 2 of the second
# processor, 3 an NMI of it; and those that reset the second processor, by BREAK or by its flag P.
def _asked(columns: Columns) -> Tuple[bytes, bytes]:
    flags, before, parts = 0, 0, []
    resets = bytearray(len(columns.codes))
    tables: Dict[int, bytes] = {}
    changes = columns.codes.translate(_table(lambda code: code & 63 in (WRITE, BREAK)))
    for at in list(_places(changes, b"\1")) + [len(changes)]:
        if flags & 15 and flags not in tables:
            tables[flags] = _table(lambda code: _asks(code & 63, flags))
        parts.append(columns.codes[before:at].translate(tables[flags]) if flags & 15 else bytes(at - before))
        before = at
        if at < len(changes):
            was, value = flags, columns.values[at]
            flags = 0 if columns.codes[at] & BREAK else flags | value & 63 if value & 128 else flags & ~value & 63
            resets[at] = columns.codes[at] & BREAK != 0 or flags & ~was & 32 != 0
    return b"".join(parts), bytes(resets)


def _asks(code: int, flags: int) -> int:
    if code == WRITE | PARA | 7 and flags & 1:
        return 1
    if code == WRITE | 1 and flags & 2 or code == WRITE | 7 and flags & 4:
        return 2
    return 3 if code in (WRITE | 5, 5) and flags & 8 else 0
