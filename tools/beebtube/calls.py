"""The calls that are open at a moment, and where they come back, by the starts of instructions.

A JSR, a BRK and an interrupt open a frame; its level is S before it. A frame is over at the first
start after it at which S is above its level. It is over too where S is at its level again: for a
JSR where an RTS or a JMP through a pointer leads to the byte after it or up to 255 bytes of text
further, unless it is the way back from a JSR at that same level; for the others after an RTI. A
reset ends all.
S is above a level up to the end of the stack, and by up to 15 bytes past it.
"""
from __future__ import annotations

import functools
import re
from typing import TYPE_CHECKING, Dict, Iterator, NamedTuple, Optional, Set, Tuple

from .effects import LEVELS, level_after, sequences
from .faults import Fault
from .listings import Start, hexes

if TYPE_CHECKING:
    from .machine import Machine

LOOK_BACK = 2000000  # ticks; what began before is on the stack
FEW = 16  # starts that are no interrupt's, and changes of a vector, before all starts are listed
VECTORS = (0xFFFA, 0xFFFB, 0xFFFE, 0xFFFF)
TEXT = 256  # bytes after a JSR to which it may come back
HEX = {f"{number:02X}".encode(): number for number in range(256)}
OPENING = {b"JSR": "call", b"BRK": "BRK"}
DELTAS = {word.encode(): delta for word, delta in LEVELS.items()}


def is_above(s: int, level: int) -> bool:
    """S is above a level: something that was there before the call was taken."""
    more = s - level & 255
    return 0 < more < 240 and (s > level or more < 16)


# The levels at which a frame of each level may be over, as bits.
OVER = [1 << level | sum(1 << s for s in range(256) if is_above(s, level)) for level in range(256)]


@functools.lru_cache(256)
def _form(level: int) -> "re.Pattern[bytes]":
    return re.compile(f" S={hexes(lambda s: bool(OVER[level] >> s & 1))} P".encode())


# A call that `pc` opened is over if S comes to its level first by `word`, which leads to `to`.
def _came_back(kind: str, pc: bytes, word: bytes, to: bytes) -> bool:
    if kind != "call":
        return word == b"RTI"
    return word == b"RTS" and int(to, 16) - int(pc, 16) - 3 & 0xFFFF < TEXT


class Frame(NamedTuple):
    """A call that is open.

    kind       "call" of a JSR, "BRK", or "interrupt"
    start      the JSR or BRK; the instruction after which the interrupt came
    level      S before it
    is_at      S was at the level since: its return address was taken
    """

    kind: str
    start: Start
    level: int
    is_at: bool = False


class Calls:
    """The calls of one side."""

    def __init__(self, machine: "Machine"):
        self.machine, self.past = machine, machine.past
        self._to: Optional[Tuple[int, ...]] = None

    def over(self, frame: Frame, tick: int, until: Optional[int] = None) -> Optional[Start]:
        """The first start after a tick at which a frame is over; None if it is not before the
        run's end, or up to `until`."""
        machine, form, inner = self.machine, _form(frame.level), -1
        reset = next((it for it in self.past.resets(machine.side) if it >= tick), None)
        for listing in machine.parts(tick + 1):
            for start in listing.found(form, listing.place_of(tick + 1)):
                if reset is not None and start.tick > reset or until and start.tick > until:
                    break
                if start.registers.s != frame.level:
                    return start
                before = machine.preceding(start.tick)
                if before is not None and before.tick >= frame.start.tick:
                    if self._is_back(frame, before, start, inner):
                        return start
                if start.word == "JSR":
                    inner = start.registers.pc + 3
            if reset is not None and listing.covers > reset + 1:
                after = machine.following(reset)
                return None if after is None or until and after.tick > until else after
            if until and listing.covers > until:
                return None
        return None

    # The start is where the frame is over, though S is at its level alone.
    @staticmethod
    def _is_back(frame: Frame, before: Start, start: Start, inner: int) -> bool:
        if frame.kind != "call":
            return before.word == "RTI"
        pc, back = start.registers.pc, frame.start.registers.pc + 3
        if before.word == "RTS" and 0 <= pc - inner < TEXT and inner >= 0:
            return False
        is_way = before.word == "RTS" or before.text.startswith("JMP (")
        return is_way and pc - back & 0xFFFF < TEXT

    def opened(self, start: Start) -> Optional[Frame]:
        """The frame that an instruction opens, or the interrupt after it."""
        registers = start.registers
        if start.word in ("JSR", "BRK"):
            return Frame("call" if start.word == "JSR" else "BRK", start, registers.s)
        after = self.machine.following(start.tick)
        if after is None or not sequences(start, after) or self._reset(start.tick, after.tick):
            return None
        return Frame("interrupt", start, level_after(start.word, registers.s, registers.x))

    def _reset(self, low: int, high: int) -> bool:
        return any(low <= reset < high for reset in self.past.resets(self.machine.side))

    def next(self, tick: int) -> Optional[Start]:
        """The next start that is not within a call or an interrupt that begins here."""
        start = self.machine.current(tick)
        frame = None if start is None else self.opened(start)
        if frame is None or start is None:
            return self.machine.following(tick)
        found = self.over(frame, start.tick)
        return found if found is None or found.tick > tick else self.machine.following(tick)

    def previous(self, tick: int) -> Optional[Start]:
        """The start before a tick that is not within a call or an interrupt that is over here."""
        before, here = self.machine.preceding(tick), self.machine.current(tick)
        if before is None or here is None or here.tick < tick or self._reset(before.tick, tick):
            return before
        if before.word != "JMP" and not is_above(here.registers.s, before.registers.s):
            return before
        found = before
        for frame in self.frames(before.tick):
            over = self.over(frame, frame.start.tick if frame.is_at else before.tick, here.tick)
            if over is None:
                break
            found = frame.start
        return found

    def interrupt(self, tick: int, back: bool) -> Optional[Start]:
        """The first start after a tick that an interrupt leads to; or the last one before it."""
        machine = self.machine
        begins, way = self._begins(), machine.last_of if back else machine.next_of
        found = way("at", begins, tick) if begins else None
        for _ in range(FEW):
            if begins and (found is None or self._is_interrupt(found)):
                return found
            found = None if found is None else way("at", begins, found.tick)
        high = tick
        for listing in machine.parts(tick if back else tick + 1, back):
            # From the line before, since it is seen from two.
            place = listing.first if back else listing.place_of(tick + 1)
            end = listing.place_of(high) if back else listing.size
            lines = listing.brief(listing.data.rfind(b"\n", 0, max(0, place - 1)) + 1, end)
            pairs = list(zip(lines, lines[1:]))
            for one, other in reversed(pairs) if back else pairs:
                left = HEX[one[2]] if one[4] == b"TXS" else HEX[one[3]] + DELTAS.get(one[4], 0)
                if left - HEX[other[3]] & 255:
                    low, begun = int(one[0], 16), int(other[0], 16)
                    if not self._reset(low, begun) and (begun < tick if back else begun > tick):
                        return listing.start(listing.place_of(begun))
            high = listing.low
        return None

    # An interrupt leads to this start.
    def _is_interrupt(self, start: Start) -> bool:
        before = self.machine.preceding(start.tick)
        return before is not None and sequences(before, start) > 0 and (
            not self._reset(before.tick, start.tick))

    # The addresses to which interrupts may lead in the whole run; none if there are too many.
    def _begins(self) -> Tuple[int, ...]:
        if self._to is None:
            machine, rom = self.machine, self.past.inputs.images
            vectors = {rom["os" if machine.side == "host" else "tube"][-6:]}
            if machine.side == "para":
                changes: Set[int] = {1}
                self.past.together(*(functools.partial(machine.every, "watch", at, machine.bound)
                                     for at in VECTORS))
                for at in VECTORS:
                    changes |= {it.tick for it in machine.every("watch", at, machine.bound)}
                states = machine.states_at(sorted(changes)) if len(changes) <= FEW else []
                vectors = vectors | {it.memory[-6:] for it in states} if states else set()
            self._to = tuple(sorted({it[at] | it[at + 1] << 8 for it in vectors for at in (0, 4)}))
        return self._to

    def frames(self, tick: int) -> Iterator[Frame]:
        """The frames that are open at a tick, the innermost first; of calls that began before
        the last LOOK_BACK ticks or some more, those whose return addresses are on the stack."""
        machine, here = self.machine, self.machine.current(tick)
        if here is None:
            return
        resets = self.past.resets(machine.side)
        reset = max((it for it in resets if it < here.tick), default=-1)
        seen, below, after = 1 << here.registers.s, here.registers.s, here.tick
        later = b"%04X" % here.registers.pc
        ways: Dict[int, Tuple[bytes, bytes]] = {}  # how S comes to a level first, and where
        for listing in machine.parts(here.tick, backwards=True):
            place = listing.place_of(after)
            for tick_, pc, x, s_, word in reversed(listing.brief(listing.first, place)):
                s, begun = HEX[s_], int(tick_, 16)
                if begun <= reset:
                    return
                ways[below] = word, later
                left = HEX[x] if word == b"TXS" else s + DELTAS.get(word, 0) & 255
                opened = [("interrupt", below + 3 * (number + 1) & 255)
                          for number in range((left - below) * 171 & 255)] if left != below else []
                if word in OPENING:
                    opened.append((OPENING[word], s))
                for kind, level in opened:
                    if not seen & OVER[level] & ~(1 << level):
                        is_at = bool(seen >> level & 1)
                        if is_at and _came_back(kind, pc, *ways[level]):
                            continue
                        frame = Frame(kind, listing.start(listing.place_of(begun)), level, is_at)
                        if not is_at or self.over(frame, begun, here.tick) is None:
                            yield frame
                seen, below, later = seen | 1 << s, s, pc
            after = listing.low
            if here.tick - after >= LOOK_BACK:
                yield from self._on_stack(here, after, seen)
                return

    # The calls whose return addresses are on the stack, and which began before a tick.
    def _on_stack(self, here: Start, before: int, seen: int) -> Iterator[Frame]:
        machine = self.machine
        memory = machine.state(here.tick).memory
        code = machine.view.bytes_at(here.tick, 0, 65536)
        for s in range(256):
            if seen >> s & 1 or seen & OVER[s]:
                continue
            at = 0x100 | s - 1 & 255
            back = (memory[at] | memory[0x100 | s] << 8) - 2 & 0xFFFF
            if code[back] == 0x20:
                start = machine.last_of("at", back, before)
                if start is not None and start.registers.s == s:
                    yield Frame("call", start, s)

    def back(self, tick: int) -> Optional[Start]:
        """The start at which the innermost frame is over; Fault if none is open."""
        frame = next(self.frames(tick), None)
        if frame is None:
            raise Fault("there is no call or interrupt to come back from")
        here = self.machine.current(tick)
        assert here is not None
        return self.over(frame, frame.start.tick if frame.is_at else here.tick)

