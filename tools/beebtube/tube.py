"""What stands in the registers of the Tube, access for access."""
from __future__ import annotations

from typing import Dict, List, Optional, Tuple

from .accesses import SIDES, is_status, words_of
from .trace import Access

Key = Tuple[str, int]


def line_of(access: Access, second: int) -> str:
    """An access in words, behind its time in microseconds; `second` is how many ticks one has."""
    return "%14.3f us  %s" % (access.tick * 1e6 / second, words_of(*access[1:]))


class Tube:
    """What the Tube's registers hold, from power-on on, after each access that `put` was given.

    flags   P V M J I Q, from bit 5 to bit 0
    held    the bytes of each register, by the side that reads them and its number, 1 to 4: ("H", 1); the oldest first
    givers  the accesses that gave these bytes, None for the byte that a reset leaves
    taken   what each register gave last: the access that took the byte, and the one that gave it
    lost    how many bytes of each register were lost: written over in a register for one byte, and
            else not taken in, since there was no room
    """

    def __init__(self) -> None:
        self.flags = 0
        self._last: Dict[Key, int] = {}
        self.held: Dict[Key, List[int]] = {}
        self.givers: Dict[Key, List[Optional[Access]]] = {}
        self.taken: Dict[Key, Tuple[Access, Optional[Access]]] = {}
        self.lost: Dict[Key, int] = {(side, number): 0 for side in "HP" for number in (1, 2, 3, 4)}
        self._clear()

    # Empty registers with 00 as what was taken last, but for the one byte 00 in register 3 to the host.
    def _clear(self) -> None:
        self.held = {(side, number): [] for side in "HP" for number in (1, 2, 3, 4)}
        self._last = {key: 0 for key in self.held}
        self.givers = {key: [] for key in self.held}
        self.held["H", 3], self.givers["H", 3] = [0], [None]

    def _room(self, side: str, number: int) -> int:
        if number == 3:
            return 2 if self.flags & 16 else 1
        return 24 if (side, number) == ("H", 1) else 1

    def _has_room(self, side: str, number: int) -> bool:
        held, room = self.held[side, number], self._room(side, number)
        return len(held) < room if room > 1 else not held

    def _is_ready(self, side: str, number: int) -> bool:
        held = self.held[side, number]
        return len(held) == 2 if number == 3 and self.flags & 16 else bool(held)

    def _status(self, side: str, number: int) -> int:
        ready = self._is_ready(side, number)
        if (side, number) == ("P", 3):
            ready = ready or not self.held["H", 3]
        room = self._has_room("P" if side == "H" else "H", number)
        return 128 * ready + 64 * room + (self.flags if number == 1 else 63)

    def interrupts(self) -> Dict[str, int]:
        """Which interrupts are asked for, by their names: 1 or 0."""
        flag = {name: self.flags >> 5 - at & 1 for at, name in enumerate("PVMJIQ")}
        there = {key: int(bool(held)) for key, held in self.held.items()}
        return {"host_irq": flag["Q"] & there["H", 4],
                "para_irq": flag["I"] & there["P", 1] | flag["J"] & there["P", 4],
                "para_nmi": flag["M"] & (int(self._is_ready("P", 3)) | 1 - there["H", 3])}

    def holds_byte(self, access: Access) -> bool:
        """A read of this register would take a byte: it is not empty."""
        return bool(self.held[access.side, access.register // 2 + 1])

    def put(self, access: Access) -> int:
        """Does an access, whatever its answer is said to be; gives the chip's answer, 0 for a write."""
        _, side, way, register, byte = access
        number = register // 2 + 1
        if way == "X":
            self.flags = 0
            self._clear()
        elif way == "R" and is_status(register):
            return self._status(side, number)
        elif way == "R":
            held = self.held[side, number]
            if held:
                self._last[side, number] = held.pop(0)
                self.taken[side, number] = (access, self.givers[side, number].pop(0))
            return self._last[side, number]
        elif register == 0 and side == "H":
            self.flags = self.flags | byte & 63 if byte & 128 else self.flags & ~byte & 63
            if byte & 192 == 192:
                self._clear()
        elif not is_status(register):
            self._give(("P" if side == "H" else "H", number), access)
        return 0

    def _give(self, key: Key, access: Access) -> None:
        held, givers, room = self.held[key], self.givers[key], self._room(*key)
        if room == 1:
            self.lost[key] += sum(giver is not None for giver in givers)
            held.clear()
            givers.clear()
        if len(held) < room:
            held.append(access.byte)
            givers.append(access)
        else:
            self.lost[key] += 1

    def text(self) -> str:
        """The flags, and the bytes that are held."""
        flags = "".join(name if self.flags >> 5 - at & 1 else "-" for at, name in enumerate("PVMJIQ"))
        told = ["flags " + flags]
        for side, name in SIDES.items():
            told += [f"register {number} to {name}: {bytes(held).hex(' ').upper()}"
                     for (to, number), held in self.held.items() if to == side and held]
        return "; ".join(told)
