"""A moment of a run, and the ways from it to others: what the debugger in the terminal and the one
in an editor have in common."""
from __future__ import annotations

import contextlib
import functools
from typing import Callable, Dict, Iterable, Iterator, List, NamedTuple, Optional, Tuple

from .accesses import is_status
from .calls import Calls, Frame
from .conditions import Condition
from .effects import (
    CHANGES, Effects, address_of, effects_of, may_write, sequences, touching)
from .faults import Fault
from .listings import Change, Listing, Start
from .machine import SOME, Machine
from .past import LETTERS, Past
from .trace import Access
from .view import BOOT

FULL = {"host": "the host", "para": "the second processor"}
SIDE = {letter: side for side, letter in LETTERS.items()}
# Ticks after its reset line comes at which the second processor is held, at the latest: an
# instruction and a sequence of 7 cycles each end first.
FAR_HELD = 48
FEW = 16  # bytes of a range whose changes are looked for one by one
TUBE = {"host": (0xFEE0, 0xFEFF), "para": (0xFEF8, 0xFEFF)}
COPIES = {"TAX": "a", "TAY": "a", "TXA": "x", "TYA": "y", "TSX": "s", "TXS": "x"}
SETS = {"a": ("LDA", "PLA", "TXA", "TYA", "ADC", "SBC", "AND", "ORA", "EOR"),
        "x": ("LDX", "PLX", "TAX", "TSX", "INX", "DEX"),
        "y": ("LDY", "PLY", "TAY", "INY", "DEY")}


class Link(NamedTuple):
    """A part of the way by which a byte came: an instruction or an access, and what it did."""

    start: Optional[Start]
    text: str


class Engine:
    """A moment of a run: all ticks below `tick` are done, and one side is looked at."""

    def __init__(self, past: Past):
        self.past, self.tick, self.side = past, past.end, "host"
        self._calls: Dict[Tuple[int, str], Calls] = {}

    @property
    def machine(self) -> Machine:
        """The machine of the side that is looked at."""
        return self.past.machines[self.side]

    @property
    def calls(self) -> Calls:
        """The calls of that side."""
        key = (id(self.past), self.side)
        if key not in self._calls:
            self._calls[key] = Calls(self.machine)
        return self._calls[key]

    @contextlib.contextmanager
    def on(self, side: str) -> Iterator[None]:
        """Another side, for a while."""
        before, self.side = self.side, side
        try:
            yield
        finally:
            self.side = before

    def _to(self, start: Optional[Start], what: str) -> Start:
        if start is None:
            raise Fault(what)
        self.tick = start.tick
        return start

    def need_tube(self) -> None:
        """Fault for a host alone."""
        if not self.past.has_tube:
            raise Fault("the host is alone: there is no second processor, and no Tube")

    def need_accesses(self) -> None:
        """Fault after the tick up to which accesses are at hand."""
        if self.tick > self.past.held:
            raise Fault(f"accesses to the Tube are at hand up to tick {self.past.held}")

    # Up to where a search went.
    def _ends(self, back: bool) -> str:
        if back:
            return "before"
        held = self.past.held
        return "before the run ends" if held == self.past.end else (
            f"before tick {held}, up to which accesses are at hand")

    # --- By instructions and calls ---

    def step(self, count: int = 1) -> Start:
        """So many instructions on."""
        return self._to(self.machine.following(self.tick, count),
                        f"the run ends at tick {self.past.end}, before that many instructions")

    def back(self, count: int = 1) -> Start:
        """So many instructions back."""
        return self._to(self.machine.preceding(self.tick, count),
                        "there are not that many instructions before")

    def next(self) -> Start:
        """To the next instruction, past what a JSR or an interrupt does."""
        return self._to(self.calls.next(self.tick), "the call does not come back before the run"
                        f" ends at tick {self.past.end}, or there is no instruction after it")

    def previous(self) -> Start:
        """The way back of `next`."""
        return self._to(self.calls.previous(self.tick), "there is no instruction before")

    def back_out(self) -> Start:
        """To where the innermost call or interrupt comes back."""
        return self._to(self.calls.back(self.tick),
                        f"it does not come back before the run ends at tick {self.past.end}")

    def caller(self) -> Start:
        """Back to the JSR of the innermost call, or to what was interrupted."""
        frame = next(self.calls.frames(self.tick), None)
        return self._to(frame.start if frame else None, "no call or interrupt is open here")

    def frames(self) -> Iterator[Frame]:
        """The calls that are open, the innermost first."""
        return self.calls.frames(self.tick)

    def go(self, tick: int) -> None:
        """To a tick."""
        if not 0 <= tick <= self.past.end:
            raise Fault(f"tick {tick} is not within the run, which is from 0 to {self.past.end}")
        self.tick = tick

    # --- To addresses and conditions ---

    def byte(self, start: Start, address: int) -> int:
        """The byte that a read of an address gives before a start."""
        machine, tick = self.past.machines[start.side], start.tick
        if address < (0x8000 if start.side == "host" else BOOT):
            tick = machine.since(address, tick)
        return machine.view.bytes_at(tick, address, 1)[0]

    def find(self, addresses: Iterable[int], test: Optional[Condition] = None,
             back: bool = False) -> Optional[Start]:
        """The next start at one of these addresses, or at any if there are none, for which a test
        holds; or the last one before."""
        places = list(addresses)
        if not places:
            return next(self._all(test or Condition(), back), None)
        way, tick = self.machine.last_of if back else self.machine.next_of, self.tick
        while True:
            found = way("at", places[0] if len(places) == 1 else tuple(places), tick)
            if found is None or test is None or test(found):
                return found
            tick = found.tick

    def _all(self, test: Condition, back: bool) -> Iterator[Start]:
        tick = self.tick if back else self.tick + 1
        for listing in self.machine.parts(tick, back, test.at):
            place = listing.first if back else listing.place_of(tick)
            starts = listing.found(test.form, place) if test.form else listing.starts(place)
            if back:
                yield from (it for it in reversed(list(starts)) if it.tick < tick and test(it))
                tick = min(tick, listing.low)
            else:
                yield from filter(test, starts)
                tick = max(tick, listing.covers)

    def until(self, addresses: Iterable[int], test: Optional[Condition] = None,
              back: bool = False) -> Start:
        """To such a start."""
        return self._to(self.find(addresses, test, back), f"{FULL[self.side]} " + (
            "was not there before" if back else "does not come there before the run ends"))

    # --- To changes of memory ---

    def watched(self, low: int, high: int) -> None:
        """Fault for addresses that are no memory."""
        if self.side == "host" and high >= 0x8000:
            raise Fault(f"there is no memory of the host at {high:04X}: it ends at 7FFF")

    def find_change(self, low: int, high: int, back: bool = False
                    ) -> Optional[Tuple[int, Change]]:
        """The next change of a byte of a range, or the last one before; with its address."""
        self.watched(low, high)
        machine, tick = self.machine, self.tick
        one = machine.last_change if back else machine.next_change
        if low == high:
            change = one(low, tick)
            return None if change is None else (low, change)
        under_way, after = machine.current(tick), machine.following(tick)
        if under_way is not None and under_way.tick < tick:
            # In the midst of an instruction, which may have done it already, or do it still.
            end = self.past.held if after is None else after.tick
            first, last = (under_way.tick, tick) if back else (tick, end)
            if may_write(under_way) or after is None or machine.view.is_between(under_way, after):
                for at in range(low, high + 1):
                    change = self._change(at, under_way, first, last)
                    if change is not None:
                        return at, change
            tick = under_way.tick if back else end
        may = machine.view.may_have(touching(low, high))
        for listing, first, last in self._windows(tick, back, low, high):
            writes = self._writes(listing, first, last, low, high)
            for write in reversed(list(writes)) if back else writes:
                change = self._done(*write)
                if change is not None:
                    return write[1], change
            if high - low >= FEW or may and machine.chosen(may):
                continue
            far = machine.following(first - 1) if back and first > 0 else None
            if far is not None or not back and last <= self.past.held:
                tick = last if far is None else far.tick
                if not machine.view.is_under_rom(high):
                    listed = machine.last_of if back else machine.next_of
                    self.past.together(*(functools.partial(listed, "watch", at, tick + back)
                                         for at in range(low, high + 1)))
                found = [(at, it) for at in range(low, high + 1)
                         for it in [one(at, tick)] if it is not None]
                found.sort(key=lambda it: it[1].start.tick, reverse=back)
                return found[0] if found else None
        return None

    # Listings that have all instructions that may touch a range, from a tick on or back, each with
    # the ticks from which and below which they are looked at.
    def _windows(self, tick: int, back: bool, low: int, high: int
                 ) -> Iterator[Tuple[Listing, int, int]]:
        may = self.machine.view.may_have(touching(low, high))
        for listing in self.machine.parts(tick, back, may):
            yield (listing, listing.low, tick) if back else (listing, tick, listing.covers)
            tick = listing.low if back else listing.covers

    def _change(self, at: int, start: Start, first: int, last: int) -> Optional[Change]:
        old, new = (it.memory[at] for it in self.machine.states_at([first, last]))
        return Change(start, last, old, new) if old != new else None

    # The change by a write, if it is one.
    def _done(self, start: Start, at: int, old: Optional[int], new: Optional[int]
                 ) -> Optional[Change]:
        if old is not None and old == new:
            return None
        after = self.machine.following(start.tick) if start.tick < self.past.held else None
        if old is None or new is None or after is None:
            end = self.past.held if after is None else after.tick
            return self._change(at, start, start.tick, end)
        return Change(start, after.tick, old, new)

    # The starts of a listing, from a tick on and below another, of instructions that may touch a
    # range, each with its effects and the memory before it.
    def _touching(self, listing: Listing, first: int, last: int, low: int, high: int
                  ) -> Iterator[Tuple[Start, Effects, bytearray]]:
        place, form, memory = listing.place_of(first), touching(low, high), bytearray()
        for start in listing.found(form, place) if form else listing.starts(place):
            if start.tick >= last:
                break
            memory = memory or bytearray(self.machine.view.bytes_at(start.tick, 0, 65536))
            effects = effects_of(start, memory.__getitem__)
            yield start, effects, memory
            for at, byte in effects.writes:
                if self.side == "para" or at < 0x8000:
                    memory[at] = byte

    # The writes to a range by instructions that start from a tick on and below another: the
    # instruction, the address, and the byte before and after it; None for one that is not known.
    def _writes(self, listing: Listing, first: int, last: int, low: int, high: int
                ) -> Iterator[Tuple[Start, int, Optional[int], Optional[int]]]:
        machine, before = self.machine, None
        has_stack = low < 0x200 and high >= 0x100
        unknown = {at for at in range(low, high + 1) if machine.view.is_under_rom(at)}
        for start, effects, memory in self._touching(listing, first, last, low, high):
            for at in self._pushed(before, start) if has_stack else ():
                unknown.add(at)
                if before is not None and low <= at <= high:
                    yield before, at, None, None
            for at, byte in effects.writes:
                if low <= at <= high:
                    yield start, at, None if at in unknown else memory[at], byte
                if start.word not in CHANGES and not machine.view.is_under_rom(at):
                    unknown.discard(at)
            before = start
        if has_stack and before is not None:
            after = machine.following(before.tick) if before.tick < self.past.held else None
            stack = self._pushed(before, after) if after else range(0x100, 0x200)
            yield from ((before, at, None, None) for at in stack if low <= at <= high)

    # What interrupts push between a start and the next one.
    @staticmethod
    def _pushed(one: Optional[Start], other: Start) -> List[int]:
        number = 0 if one is None else 3 * sequences(one, other)
        return [0x100 | other.registers.s + 1 + more & 255 for more in range(number)]

    def change(self, low: int, high: int) -> Tuple[int, Change]:
        """To where a byte of a range has become another."""
        found = self.find_change(low, high)
        if found is None:
            raise Fault(f"no byte at {_range(low, high)} changes before the run ends")
        self.tick = found[1].tick
        return found

    def who(self, low: int, high: int) -> Tuple[int, Change]:
        """Back to the instruction that changed a byte of a range last."""
        found = self.find_change(low, high, back=True)
        if found is None:
            raise Fault(f"no byte at {_range(low, high)} changed before")
        self.tick = found[1].start.tick
        return found

    def find_reader(self, low: int, high: int, back: bool = False) -> Optional[Start]:
        """The next instruction that reads a byte of a range, or the last one before. Pointers and
        the stack are followed."""
        for window in self._windows(self.tick + (not back), back, low, high):
            reads = (start for start, effects, _ in self._touching(*window, low, high)
                     if any(low <= at <= high for at in effects.reads))
            found = next(reversed(list(reads)) if back else reads, None)
            if found is not None:
                return found
        return None

    # --- To accesses to the Tube ---

    def access(self, form: bytes, back: bool = False) -> Access:
        """To the next access of this form, as ` H R 1 `, or back to the last one. At one tick the
        host's comes before the second processor's."""
        self.need_tube()
        self.need_accesses()
        traffic, letter = self.past.traffic, LETTERS[self.side]
        place = traffic.split(self.tick, letter, not back)
        found = traffic.trace.rfind(form, 0, place) if back else traffic.trace.find(form, place)
        if found < 0:
            raise Fault(f"there is no such access {self._ends(back)}")
        return self.to_access(traffic.access(found))

    def to_access(self, access: Access) -> Access:
        """To an access, on its side."""
        self.side, self.tick = SIDE[access.side], access.tick
        return access

    def sender(self) -> Tuple[Access, Access]:
        """Back to where the other side gave the byte that was taken last; both accesses."""
        self.need_tube()
        self.need_accesses()
        traffic, letter = self.past.traffic, LETTERS[self.side]
        taken, given = traffic.sender(letter, traffic.split(self.tick, letter, True))
        self.to_access(given)
        return taken, given

    def loss(self, back: bool = False) -> Access:
        """To the next access that loses a byte in a full register, or back to the last one."""
        self.need_tube()
        self.need_accesses()
        traffic = self.past.traffic
        place = traffic.loss(traffic.split(self.tick, LETTERS[self.side], not back), back)
        if place < 0:
            raise Fault(f"no byte is lost {self._ends(back)}")
        return self.to_access(traffic.access(place))

    # --- To interrupts and resets ---

    def interrupt(self, back: bool = False) -> Start:
        """To the first instruction of the next interrupt, or back to that of the last one."""
        return self._to(self.calls.interrupt(self.tick, back), "no interrupt comes " + (
            "before" if back else "before the run ends"))

    def reset(self, back: bool = False) -> Start:
        """To the first instruction after the next reset, or back to that after the last one."""
        self.need_accesses()
        machine, resets = self.machine, self.past.resets(self.side)
        for reset in reversed(resets) if back else resets:
            start = machine.following(reset) if reset < self.past.held else None
            if start is not None and (start.tick < self.tick if back else start.tick > self.tick):
                return self._to(start, "")
        raise Fault(f"no reset comes {self._ends(back)}")

    def held(self, back: bool = False) -> None:
        """To the next tick at which the second processor begins to be held by its reset line, or
        back to the last one."""
        self.need_tube()
        self.need_accesses()
        machine, resets = self.past.machines["para"], self.past.resets("held")
        for reset in reversed(resets) if back else resets:
            if reset >= self.tick if back else reset + FAR_HELD < self.tick:
                continue
            # It is held once what is under way has ended, if the line does not go before.
            ends = [it for it in self.past.resets("freed") if it > reset]
            low, high = reset + 1, min([reset + FAR_HELD, self.past.held] + ends[:1])
            if low > high or not machine.state(high).held:
                continue
            while low < high:
                middle = (low + high) // 2
                is_held = machine.state(middle).held
                low, high = (low, middle) if is_held else (middle + 1, high)
            if low < self.tick if back else low > self.tick:
                self.side, self.tick = "para", low
                return
        raise Fault(f"no reset line holds the second processor {self._ends(back)}")

    # --- Where a byte came from ---

    def origin(self, address: int) -> List[Link]:
        """The way by which a byte came to an address: stores, loads, and the Tube, from the last
        to the first; goes to the first."""
        self.watched(address, address)
        links: List[Link] = []
        side, tick, at = self.side, self.tick, address
        while len(links) < 100:
            change = self.past.machines[side].last_change(at, tick)
            if change is None:
                links.append(Link(None, f"{at:04X} has no change before: power-on left it"))
                break
            start = change.start
            links.append(Link(start, f"{at:04X}: {change.old:02X} to {change.new:02X}"))
            self.side, self.tick = side, start.tick
            from_ = self._source(start, at)
            if isinstance(from_, str):
                links.append(Link(None, from_))
                break
            load, at = from_
            links.append(Link(load, f"from {at:04X}"))
            self.tick = load.tick
            low, high = TUBE[side]
            if self.past.has_tube and low <= at <= high and not is_status(at % 8):
                taken, given = self._through_tube(load)
                links.append(Link(None, f"{taken.tick} to {given.tick}: through the Tube"))
                side, tick = SIDE[given.side], given.tick
                store = self.past.machines[side].current(tick)
                if store is None:
                    break
                links.append(Link(store, "given"))
                self.side, self.tick = side, store.tick
                from_ = self._source(store, TUBE[side][0] + given.register)
                if isinstance(from_, str):
                    links.append(Link(None, from_))
                    break
                load, at = from_
                links.append(Link(load, f"from {at:04X}"))
                self.tick = load.tick
            if side == "host" and at >= 0x8000:
                links.append(Link(None, "a ROM or a device"))
                break
            tick = load.tick
        return links

    def _through_tube(self, load: Start) -> Tuple[Access, Access]:
        traffic, letter = self.past.traffic, LETTERS[load.side]
        after = self.past.machines[load.side].following(load.tick)
        end = self.past.held if after is None else after.tick
        return traffic.sender(letter, traffic.place(end))

    # The load of what a store wrote, and its address; or why there is none.
    def _source(self, store: Start, at: int) -> "str | Tuple[Start, int]":
        machine = self.past.machines[store.side]
        word, register = store.word, store.word[-1].lower()
        if word in ("JSR", "BRK", "PHP", "STZ") or word not in (
                "STA", "STX", "STY", "PHA", "PHX", "PHY"):
            return f"{store.text} makes it"
        start = machine.preceding(store.tick)
        while start is not None:
            if start.word in SETS[register]:
                if start.word in COPIES:
                    register = COPIES[start.word]
                    if register == "s":
                        return "the stack pointer"
                elif start.word in ("LDA", "LDX", "LDY", "PLA", "PLX", "PLY"):
                    return self._loaded(start)
                else:
                    return f"{start.tick} {start.text} computes it"
            if start.tick + SOME < store.tick:
                break
            start = machine.preceding(start.tick)
        return f"no load of {register.upper()} is near before"

    def _loaded(self, load: Start) -> "str | Tuple[Start, int]":
        if load.word.startswith("PL"):
            return load, 0x100 | load.registers.s + 1 & 255
        view = self.past.machines[load.side].view
        at, _ = address_of(load, lambda it: view.bytes_at(load.tick, it, 1)[0])
        return (load, at) if at is not None else f"{load.tick} {load.text} has it in itself"


def _range(low: int, high: int) -> str:
    return f"{low:04X}" if low == high else f"{low:04X}..{high:04X}"
