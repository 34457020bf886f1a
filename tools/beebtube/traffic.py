"""The accesses to the Tube of a run, found by their ticks, and what they leave in the Tube.

All is told by the one model of the Tube (tube.py). Where it is asked about one moment of a long
run, it is given the accesses to one register from a moment on at which that was surely empty.
"""
from __future__ import annotations

import bisect
import re
from array import array
from typing import Dict, List, Optional, Sequence, Tuple

from .accesses import words_of
from .faults import Fault
from .trace import LENGTH, Access, access_of
from .tube import Key, Tube

KEYS: List[Key] = [(side, number) for number in (1, 2, 3, 4) for side in "HP"]
OTHER = {"H": "P", "P": "H"}


# The columns of a line: the bits of its kind by the letters there. The last is the byte's first
# digit.
COLUMNS: List[Tuple[int, Dict[str, int]]] = [
    (11, {"H": 0, "P": 8}), (13, {"R": 0, "W": 16, "X": 32}),
    (15, {str(number): number for number in range(8)}),
    (17, {f"{digit:X}": digit // 4 * 64 for digit in range(16)})]


def _kind(side: str, way: str, register: int, quarters: Sequence[int] = range(4)) -> List[int]:
    """The kinds of an access, by the quarters in which its byte may be: 0 for 00 to 3F, up to 3 for
    C0 to FF."""
    letters = dict(zip((11, 13, 15), (side, way, str(register))))
    first = sum(values[letters[place]] for place, values in COLUMNS[:3])
    return [first + 64 * quarter for quarter in quarters]


CLEARS = _kind("H", "X", 0, [0]) + _kind("H", "W", 0, [3])
CONTROLS = _kind("H", "X", 0, [0]) + _kind("H", "W", 0)


class Traffic:
    """The lines of a trace, without the one that tells its clock."""

    def __init__(self, trace: bytes):
        self.trace = trace
        self.end = len(trace)
        self._of_kinds: Optional[bytes] = None
        self._places: "Dict[bytes, array[int]]" = {}

    @property
    def _kinds(self) -> bytes:
        """A byte for each line: what it is, without its tick (`_kind`). A search of these takes a
        twentieth of the time of one of the lines."""
        if self._of_kinds is None:
            found = 0
            for place, values in COLUMNS:
                table = bytes(values.get(chr(letter), 0) for letter in range(256))
                column = self.trace[place::LENGTH].translate(table)
                found |= int.from_bytes(column, "big")
            self._of_kinds = found.to_bytes(self.end // LENGTH, "big")
        return self._of_kinds

    def place(self, tick: int) -> int:
        """Where the first line of a tick or a later one begins."""
        low, high = 0, self.end // LENGTH
        while low < high:
            middle = (low + high) // 2
            if int(self.trace[LENGTH * middle : LENGTH * middle + 10], 16) < tick:
                low = middle + 1
            else:
                high = middle
        return LENGTH * low

    def access(self, place: int) -> Access:
        """The access of the line that holds a place."""
        place -= place % LENGTH
        found = access_of(self.trace[place : place + LENGTH])
        if found is None:
            raise Fault(f"the trace has a line outside its form at tick {self.tick(place)}")
        return found

    def tick(self, place: int) -> int:
        """The tick of the line that holds a place."""
        place -= place % LENGTH
        return int(self.trace[place : place + 10], 16)

    def words(self, place: int) -> str:
        """The access of a line in words."""
        access = self.access(place)
        return f"{access.tick} {words_of(*access[1:])}"

    def split(self, tick: int, side: str, after: bool) -> int:
        """Where the lines before a side's step at a tick end; or those after it begin. At one tick
        the host's access comes first."""
        place = self.place(tick)
        while place < self.end and self.tick(place) == tick:
            own, host = self.trace[place + 11 : place + 12] == side.encode(), side == "H"
            if not after and (own or host) or after and host and not own:
                break
            place += LENGTH
        return place

    def last(self, forms: Sequence[bytes], end: int) -> int:
        """The line of the last of these before a place; below 0 if there is none."""
        found = max(self.trace.rfind(form, 0, end) for form in forms)
        return found - found % LENGTH if found >= 0 else -1

    def _last_kind(self, kinds: Sequence[int], end: int) -> int:
        found = max(self._kinds.rfind(kind, 0, end // LENGTH) for kind in kinds)
        return LENGTH * found if found >= 0 else -1

    # The lines of these kinds from a place on and before another; they are found once.
    def _all_kinds(self, kinds: Sequence[int], begin: int, end: int) -> "array[int]":
        name = bytes(kinds)
        if name not in self._places:
            form = re.compile(b"[" + re.escape(name) + b"]")
            self._places[name] = array("Q", (LENGTH * it.start()
                                             for it in form.finditer(self._kinds)))
        places = self._places[name]
        return places[bisect.bisect_left(places, begin) : bisect.bisect_left(places, end)]

    # --- What is in the Tube ---

    def resets(self) -> Tuple[List[int], List[int], List[int], List[int]]:
        """The ticks at which the host's BREAK comes, those at which the second processor is reset,
        those of them from which its reset line holds it, and those at which the line goes."""
        tube = Tube()
        breaks: List[int] = []
        holds: List[int] = []
        ends: List[int] = []
        for place in self._all_kinds(CONTROLS, 0, self.end):
            access = self.access(place)
            before = tube.flags & 32
            tube.put(access)
            if before and not tube.flags & 32:
                ends.append(access.tick)
            if access.way == "X":
                breaks.append(access.tick)
            elif tube.flags & 32 and not before:
                holds.append(access.tick)
        return breaks, sorted(breaks + holds), holds, ends

    # The lines that give or take bytes of a register, from where it was empty last, and before
    # a place: a status told so, but of register 3, which waits for two bytes at times.
    def _lines(self, key: Key, end: int, known: int) -> "array[int]":
        side, number = key
        first = -1
        if number != 3:
            first = self._last_kind(_kind(side, "R", 2 * number - 2, (0, 1)), known)
        first = max(first, self._last_kind(CLEARS, known), 0)
        data = 2 * number - 1
        kinds = _kind(side, "R", data) + _kind(OTHER[side], "W", data)
        return self._all_kinds(kinds, first, end)

    def tube(self, end: int, keys: Sequence[Key] = tuple(KEYS),
             known: Optional[int] = None) -> Tube:
        """The Tube after all lines before a place, right for these registers; they are followed
        from where they were empty before `known`."""
        begin = max(self._last_kind(_kind("H", "X", 0, [0]), end), 0)
        places = list(self._all_kinds(CONTROLS, begin, end))
        for key in keys:
            places += self._lines(key, end, end if known is None else known)
        tube = Tube()
        for place in sorted(places):
            tube.put(self.access(place))
        return tube

    def taken(self, key: Key, end: int) -> Optional[Tuple[Access, Optional[Access]]]:
        """The last access before a place that took a byte of a register, and the one that gave
        it; None if none did."""
        form = f" {key[0]} R {2 * key[1] - 1} ".encode()
        place = self.last([form], end)
        while place >= 0:
            found = self.tube(place + LENGTH, [key], place).taken.get(key)
            if found is not None and found[0] == self.access(place):
                return found
            place = self.last([form], place)
        return None

    def sender(self, side: str, end: int) -> Tuple[Access, Access]:
        """The access by which a side took its last byte before a place, and the one by which the
        other side gave it. Fault if there is none."""
        found = [self.taken((side, number), end) for number in (1, 2, 3, 4)]
        last = max((it for it in found if it is not None), key=lambda it: it[0], default=None)
        if last is None:
            raise Fault("this side has taken no byte from the Tube")
        if last[1] is None:
            raise Fault("that is the byte that a reset leaves in register 3")
        return last[0], last[1]

    def taker(self, giver: Access) -> Optional[Access]:
        """The access that took the byte of another; None if it was lost or is still there."""
        key = (OTHER[giver.side], giver.register // 2 + 1)
        tube, place = self.tube(self.place(giver.tick), [key]), self.place(giver.tick)
        data = f"(?:{key[0]} R|{giver.side} W) {giver.register}"
        form = re.compile(f" (?:{data}|H (?:W 0|X 0)) ".encode())
        for match in form.finditer(self.trace, place):
            access = self.access(match.start())
            tube.put(access)
            if tube.taken.get(key, (None, None))[1] == giver:
                return access
            if access.tick > giver.tick and giver not in tube.givers[key]:
                return None
        return None

    def loss(self, place: int, back: bool) -> int:
        """The line of the next access that loses a byte from a line on, or of the last before it;
        below 0 if there is none."""
        form = re.compile(rb" (?:[HP] [RW] [1357] |H (?:W 0 |X 0 ))")
        low, high = (max(0, place - (LENGTH << 12)), place) if back else (place, self.end)
        while low < high:
            tube, found = self.tube(low), -1
            for match in form.finditer(self.trace, low, high):
                before = sum(tube.lost.values())
                tube.put(self.access(match.start()))
                if sum(tube.lost.values()) > before:
                    found = match.start() - 10
                    if not back:
                        return found
            if found >= 0 or not back:
                return found
            low, high = max(0, low - 4 * (high - low)), low
        return -1

    def lost(self) -> Dict[Key, int]:
        """How many bytes of each register were lost."""
        return self.tube(self.end, known=0).lost
