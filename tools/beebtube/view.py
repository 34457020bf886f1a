"""What the processor of one side does and reads at a tick: the instruction under way, the boot ROM
over the second processor's memory, and the host's paged ROM."""
from __future__ import annotations

import re
from typing import TYPE_CHECKING, Callable, Dict, Iterator, List, NamedTuple, Optional, Tuple

from .effects import effects_of, leaves_all, may_write, sequences
from .instructions import text_of
from .listings import Change, Start
from .naming import length_of
from .report import Registers

if TYPE_CHECKING:
    from .machine import Machine
    from .program import Part

BOOT = 0xF800  # the boot ROM's first address
# The most accesses of one instruction to the Tube.
FEW = 8
HELD = "held by its reset line"
VECTORS = {0xFFFA: "NMI", 0xFFFE: "IRQ"}
# A store by absolute address, with or without an index, from FE00 to FE3F on.
STORE = re.compile(rb"(?s)[\x8c-\x8e\x99\x9d](?=[\x00-\x3f]\xfe)")
STORED = re.compile(r"ST([AXY]) &(FE[0-3][0-9A-F])(?:,([XY]))?")
TO_LATCH = re.compile(rb" ST[AXY] &FE(?:3[0-9A-F]\n|[0-3][0-9A-F],[XY]\n)")


class Phase(NamedTuple):
    """What a processor is at.

    kind   "instruction", "halted", "held", or a sequence that no instruction is: "reset", "NMI",
           "IRQ" or "interrupt"
    start  the instruction that begins at this tick or is under way; in a sequence the one before
    next   after a sequence: the start that follows it, if the run has it
    begun  the tick at which the sequence began, if it is known
    """

    kind: str
    start: Optional[Start]
    next: Optional[Start] = None
    begun: Optional[int] = None


class View:
    """What one side's processor reads."""

    def __init__(self, machine: "Machine"):
        self.machine, self.past, self.side = machine, machine.past, machine.side
        self.cycle = machine.past.cycle(machine.side)
        self._stores: Dict[int, List[Start]] = {}

    # --- The instruction under way ---

    def phase(self, tick: int) -> Phase:
        """What the processor is at once all ticks below this one are done."""
        machine = self.machine
        start = machine.current(tick)
        if start is not None and start.tick == tick and tick < machine.bound:
            return Phase("instruction", start)
        after = machine.listed_after(tick)
        if start is not None and after is not None and not self.is_between(start, after):
            return Phase("instruction", start)
        state = machine.state(tick)
        if state.registers.halted:
            return Phase("halted", start)
        after = machine.at_hand(tick) if tick < self.past.held else None
        if state.held:
            return Phase("held", start, after)
        if start is None:
            return Phase("reset", None, after, 0)
        number = sequences(start, after) if after is not None else 0
        begun, each = None, 7 * self.cycle
        if after is not None and number:
            begun = after.tick - each * min(number, -(-(after.tick - tick) // each))
        if state.registers == start.registers:
            if not leaves_all(start):
                return Phase("instruction", start)
            if tick < (start.tick + self._jump(start) if begun is None else begun):
                return Phase("instruction", start)
        kind = self._kind(start, after, tick if begun is None else begun)
        return Phase(kind, start, after, begun)

    def is_between(self, one: Start, other: Start) -> bool:
        """Something begins between a start and the next one: an interrupt or a reset."""
        return sequences(one, other) > 0 or any(
            one.tick <= reset < other.tick for reset in self.past.resets(self.side))

    def may_have_written(self, tick: int) -> bool:
        """What is under way at a tick may have written to memory."""
        found = self.phase(tick)
        return found.kind != "instruction" or found.start is None or may_write(found.start)

    def registers(self, tick: int) -> Registers:
        """The registers at a tick: those at the start of the instruction under way."""
        found = self.phase(tick) if tick <= self.past.held else None
        if found is not None and found.kind == "instruction" and found.start is not None:
            return found.start.registers
        return self.machine.state(tick).registers

    # How many ticks an instruction takes that leaves all registers; one that halts says so.
    def _jump(self, start: Start) -> int:
        at = start.registers.pc
        if start.word == "byte":
            return 1
        crossing = start.word != "JMP" and (at ^ (at + 2)) & 0xFF00
        return (4 if crossing else 3) * self.cycle

    def _kind(self, start: Start, after: Optional[Start], begun: int) -> str:
        if any(start.tick <= reset < begun for reset in self.past.resets(self.side)):
            return "reset"
        to = [] if after is None else [kind for at, kind in VECTORS.items()
                                       if self._word(after.tick, at) == after.registers.pc]
        return to[0] if len(to) == 1 else "interrupt"

    def _word(self, tick: int, address: int) -> int:
        return int.from_bytes(self.bytes_at(tick, address, 2), "little")

    def text(self, tick: int) -> str:
        """What the processor is at, as a text: an instruction, or what it is in place of one."""
        if tick > self.past.held:
            state = self.machine.state(tick)
            if state.registers.halted or state.held:
                return "halted" if state.registers.halted else HELD
            return self.list_at(tick, state.registers.pc, 1)[0][1]
        found = self.phase(tick)
        if found.kind == "instruction" and found.start is not None:
            return found.start.text
        to = "" if found.next is None else f", then {found.next.registers.pc:04X}"
        if found.kind in ("halted", "held"):
            return "halted" if found.kind == "halted" else HELD
        return f"{found.kind} begins{to}"

    # --- The boot ROM ---

    def is_under_rom(self, address: int) -> bool:
        """A byte of the second processor's memory that the boot ROM hides while it is in."""
        return self.side == "para" and address >= BOOT

    def rom_is_in(self, tick: int) -> bool:
        """The boot ROM is in: from each reset to the first access to the Tube after it."""
        found = self.phase(tick)
        if found.start is None:
            return True
        # A reset that rose later is not taken yet.
        taken = found.start.tick if found.begun is None else found.begun
        if found.kind in ("reset", "interrupt") and found.begun is None:
            taken = tick
        resets = [reset for reset in self.past.resets(self.side) if reset < taken]
        last = resets[-1] if resets else -1
        if last >= found.start.tick:
            return True
        ticks = self._accesses(last, tick)
        if not ticks or len(ticks) > FEW:
            return not ticks
        first = self.machine.following(last) if resets else None
        return not any(first is None or at >= first.tick for at in ticks)

    # The ticks of the first of its accesses to the Tube between two ticks.
    def _accesses(self, low: int, high: int) -> List[int]:
        found: List[int] = []
        place, end = self.past.line_at(low + 1), self.past.line_at(high)
        while len(found) <= FEW:
            place = self.past.trace.find(b" P ", place, end)
            if place < 0:
                break
            found.append(int(self.past.trace[place - 10 : place], 16))
            place += 3
        return found

    # The times in which the boot ROM is in, up to a tick, the last first: the first start, and
    # the tick of the access that ends it.
    def _rom_times(self, high: int) -> Iterator[Tuple[int, int]]:
        end = self.past.held + 1
        for reset in [*reversed(self.past.resets(self.side)), -1]:
            if reset >= high:
                continue
            first = self.machine.following(reset)
            if first is None or first.tick >= end:
                continue
            place = self.past.trace.find(b" P ", self.past.line_at(first.tick))
            out = end if place < 0 else int(self.past.trace[place - 10 : place], 16)
            yield first.tick, min(out, end)
            end = first.tick

    def last_change_under_rom(self, address: int, tick: int) -> Optional[Change]:
        """The last change of a byte of the memory which the boot ROM may hide."""
        machine, high = self.machine, tick
        for first, out in self._rom_times(tick):
            after = machine.last_of("watch", address, high + 1)
            if after is not None and (before := machine.preceding(after.tick)) is not None:
                if before.tick > out:
                    return self._change(address, before, after.tick)
            found = [it for it in self._changes(address, first, out) if it.tick <= tick]
            if found:
                return found[-1]
            # A reset brings the boot ROM back in front of the first start after it.
            high = min(high, first - 1)
            before = machine.preceding(first) if first <= tick else None
            if before is not None and (it := self._change(address, before, first)).old != it.new:
                return it
        return None

    def next_change_under_rom(self, address: int, tick: int) -> Optional[Change]:
        """The next such change after a tick."""
        machine = self.machine
        times = list(self._rom_times(machine.bound))[::-1]
        for number, (first, out) in enumerate(times):
            end = times[number + 1][0] if number + 1 < len(times) else machine.bound
            if tick >= end:
                continue
            found = [it for it in self._changes(address, first, out) if it.tick > tick]
            if found:
                return found[0]
            low = max(tick, out)
            while low < end:
                after = machine.next_of("watch", address, low)
                before = None if after is None else machine.preceding(after.tick)
                if after is None or before is None or after.tick >= end:
                    break
                if before.tick > out:
                    return self._change(address, before, after.tick)
                low = after.tick
            before = machine.preceding(end) if end < machine.bound else None
            if before is not None and before.tick > out:
                if (it := self._change(address, before, end)).old != it.new:
                    return it
        return None

    def _change(self, address: int, before: Start, tick: int) -> Change:
        old, new = (it.memory[address] for it in self.machine.states_at([before.tick, tick]))
        return Change(before, tick, old, new)

    # The changes of a byte while the boot ROM is in: by what each instruction writes.
    def _changes(self, address: int, first: int, out: int) -> List[Change]:
        memory, found = bytearray(self.machine.state(first).memory), []
        rom = self.past.inputs.images["tube"]

        def peek(at: int) -> int:
            return rom[at - BOOT] if at >= BOOT else memory[at]
        before: Optional[Start] = None
        written: List[Tuple[int, int]] = []
        for start in self.starts(first, min(out + 1, self.past.held)):
            for at, byte in written:
                if at == address and memory[at] != byte and before is not None:
                    found.append(Change(before, start.tick, memory[at], byte))
                memory[at] = byte
            before = start
            written = [it for it in effects_of(start, peek).writes if not 0xFEF8 <= it[0] <= 0xFEFF]
        if before is not None and any(at == address and memory[at] != byte for at, byte in written):
            after = self.machine.following(before.tick) if before.tick < self.past.held else None
            tick = self.past.held if after is None else after.tick
            found.append(self._change(address, before, tick))
        return [it for it in found if it.old != it.new]

    def starts(self, low: int, high: int) -> Iterator[Start]:
        """All starts from a tick on and below another."""
        for listing in self.machine.parts(low) if low < high else ():
            for start in listing.starts(listing.place_of(low)):
                if start.tick >= min(high, listing.covers):
                    break
                yield start
            low = listing.covers
            if low >= high:
                return

    def may_have(self, form: "Optional[re.Pattern[bytes]]") -> Optional[Callable[[int], bool]]:
        """A test of addresses: an instruction may start there whose text has a form. It may be any
        if a byte of it is not in a ROM. None if all addresses would pass: without a form, and of
        the second processor, which has its program in memory."""
        images = self.past.inputs.images
        roms = [data * 2 for name, data in images.items() if re.fullmatch("rom[0-9]+", name)]

        def test(at: int) -> bool:
            if at < 0x8000 or 0xBFFE <= at < 0xC000 or 0xFBFE <= at < 0xFF00 or at > 0xFFFD:
                return True
            place = at % 0x4000
            texts = (text_of("6502", data[place : place + 3])
                     for data in (roms if at < 0xC000 else [images["os"]]))
            return any(form.search(f" P=00 {text}\n".encode()) for text in texts if form)
        return test if form and self.side == "host" else None

    # --- Stores to the 6845, the video ULA, and the latch of the paged ROM ---

    def storing(self, tick: Optional[int], *ranges: Tuple[int, int]) -> List[int]:
        """Where instructions are that may store to these addresses, by their bytes: in a ROM,
        or in memory at this tick. Without a tick those in a ROM alone."""
        images = self.past.inputs.images
        places = [(0xC000, images["os"])]
        places += [(0, self.machine.state(tick).memory)] if tick is not None else []
        places += [(0x8000, (data * 2)[:16384]) for name, data in images.items()
                   if name.startswith("rom")]
        found = set()
        for origin, data in places:
            for match in STORE.finditer(data):
                at = 0xFE00 | data[match.start() + 1]
                last = at + (255 if data[match.start()] in (0x99, 0x9D) else 0)
                if any(at <= high and last >= low for low, high in ranges):
                    found.add(origin + match.start())
        return sorted(found)

    def knows(self, address: int) -> bool:
        """The stores at an address were looked for."""
        return address in self._stores

    def stores_at(self, addresses: List[int]) -> List[Start]:
        """The starts at these addresses that store to a device, in their order."""
        wanted = tuple(address for address in addresses if address not in self._stores)
        self._stores.update((address, []) for address in wanted)
        for start in self.machine.every("at", wanted, self.machine.bound) if wanted else ():
            if STORED.match(start.text):
                self._stores[start.registers.pc].append(start)
        return sorted(start for address in addresses for start in self._stores[address])

    def slot(self, tick: int) -> int:
        """The slot of the paged ROM: what was stored in FE30 to FE3F last, 0 from power-on."""
        near = self.machine.current(tick)
        if near is None or not any(name.startswith("rom") for name in self.past.inputs.images):
            return 0
        listing = self.machine.around((), near.tick, backwards=True)
        data, place = listing.data, listing.place_of(near.tick + 1)
        for match in reversed(list(TO_LATCH.finditer(data, listing.first, place))):
            found = self._stored(listing.start(data.rfind(b"\n", 0, match.start()) + 1), tick)
            if found is not None:
                return found
        last: List[Tuple[int, int]] = []
        machine = self.machine
        for address in self.storing(tick, (0xFE30, 0xFE3F)):
            start = machine.last_of("at", address, near.tick + 1)
            while start is not None:
                found = self._stored(start, tick)
                if found is not None:
                    last.append((start.tick, found))
                    break
                start = machine.last_of("at", address, start.tick)
        return max(last)[1] if last else 0

    # The slot that an instruction has stored below a tick; None if it has not.
    def _stored(self, start: Start, tick: int) -> Optional[int]:
        match = STORED.fullmatch(start.text)
        if not match:
            return None
        registers = start.registers
        index = {None: 0, "X": registers.x, "Y": registers.y}[match.group(3)]
        cycles = 3 if match.group(3) is None else 4  # before the cycle of the write
        if not 0xFE30 <= int(match.group(2), 16) + index <= 0xFE3F:
            return None
        if start.tick + cycles * self.cycle >= tick:
            return None
        return int(getattr(registers, match.group(1).lower())) & 15

    # --- Bytes and instructions ---

    def bytes_at(self, tick: int, address: int, length: int) -> bytes:
        """What the processor reads: memory, or the ROM that is there; a device's address has the
        byte of the ROM behind it."""
        memory, images = self.machine.state(tick).memory, self.past.inputs.images
        end = address + length
        if self.side == "para":
            if end > BOOT and tick <= self.past.held and self.rom_is_in(tick):
                memory = memory[:BOOT] + images["tube"]
            return memory[address:end]
        slot = b"\xff" * 16384
        if address < 0xC000 and end > 0x8000:
            number = self.slot(tick) if tick <= self.past.held else memory[0xF4] & 15
            slot = images.get(f"rom{number}", slot)
        return (memory + (slot * 2)[:16384] + images["os"])[address:end]

    def list_at(self, tick: int, address: int, count: int) -> List[Tuple[int, str]]:
        """Addresses and texts of `count` instructions from an address on, at most to the end of
        memory. Where the instruction under way is, its text is that of the listing."""
        data = self.bytes_at(tick, address, 3 * count + 2)
        part: Part = "6502" if self.side == "host" else "65c02"
        told: List[Tuple[int, str]] = []
        if tick <= self.past.held:
            found = self.phase(tick)
            if found.kind == "instruction" and found.start and found.start.registers.pc == address:
                told.append((address, found.start.text))
                length = length_of(found.start.text)
                data, address = data[length:], address + length
        lines = self.past.program.dis(part, data, address).splitlines()[1:] if data else []
        for line in lines:
            if len(told) >= count:
                break
            told.append((address, line))
            address += length_of(line)
        return told
