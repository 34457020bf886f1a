"""A program on the second processor, on the host, or one on each: `execute`.

The host's ROM (examples/c/host.asm) takes a deck of bytes from the paged ROMs: the program in blocks, where it begins, and the
input. It loads the program, through the Tube by the boot ROM (examples/c/boot.asm), prints what is written, and halts. What lies
in the two ROMs beside that are the arguments and, for a program in sim65's file format, examples/c/sim65.asm.
docs/PROGRAMS.md has the protocol.
"""
from __future__ import annotations

import contextlib
import functools
import os
import re
import subprocess
import weakref
from typing import Callable, Dict, List, NamedTuple, Optional, Sequence, Tuple, Union

from .disc import Disc
from .faults import Fault
from .files import IMAGE_CAP, OUTPUT_CAP, Name, own_folder, read_file
from .frame import Frame, frames_in
from .labels import Labels
from .program import TOP, Data, Part, Program, Side, Source, Speed, bytes_of
from .report import Registers
from .report import parse as parse_report
from .script import Script
from .words import MOST_TICKS, second_of

SOURCES = os.path.join(TOP, "examples", "c")
TIMED_OUT, NOT_RUN, NO_OPCODE, BROKEN, TOO_MUCH = 124, 125, 132, 134, 153
DECK = 16 * 16384
SLOT = 16384
KEPT = 4194304
PAGE = 256
LOWEST = 0x0200
# Of each machine: where memory for programs ends, where its ROM begins, where the arguments and the words of sim65 lie in it,
# and the entry that ends a program.
MACHINES: Dict[Side, Tuple[int, int, int, int]] = {"para": (0xF800, 0xF800, 0xFC00, 0xFA00), "host": (0x8000, 0xC000, 0xD200, 0xD000)}
WHO = {"para": "the second processor", "host": "the host"}
MOST_ARGUMENTS = 509
CPUS: Tuple[Part, Part] = ("6502", "65c02")
# The cycles of each ROM between what is looked for in the list of accesses, or in the listing, and the program; those of the
# host are more where it holds the second processor before it halts, and those of a second processor that is held are fewer.
AROUND = {"para": 43, "held": 23, "host": 20, "both": 25}
# The boot ROM of a second processor that does nothing, in the session of a host that has none: BRA to itself.
PARKED = b"\x80\xfe".ljust(2044, b"\0") + b"\x00\xf8\x00\xf8"
Keys = Union[Script, Data, None]
Names = Union[Labels, Name, None]


def look_at_cpu(cpu: Optional[str]) -> None:
    """Fault if there is no such processor."""
    if cpu is not None and cpu not in CPUS:
        raise Fault(f"cpu {cpu!r}: it is '6502' or '65c02'")


class Image:
    """A program: its bytes, where they lie, where it begins, and for which processor it is.

    form   "raw", "ld65" or "sim65"
    place  of sim65's form the address of the C stack's pointer
    """

    BOUNDS: Dict[Side, Tuple[int, int]] = {machine: (LOWEST, MACHINES[machine][0]) for machine in MACHINES}

    def __init__(self, name: str, data: bytes, machine: Side, at: Optional[int], start: Optional[int], cpu: Optional[Part]):
        self.name, self.machine, self.place = name, machine, 0
        told: Optional[str] = None
        look_at_cpu(cpu)
        if at is not None:
            self.form, self.load, self.data = "raw", at, data
            self.entry = at if start is None else start
        elif data[:4] == b"BTP1":
            self.form, self.data = "ld65", data[16:]
            told = self._number(data, 5, ("6502", "65c02"))
            made_for = self._number(data, 4, ("para", "host"))
            if made_for != machine:
                raise Fault("%s is made for %s%s" % (name, WHO[made_for], ": --host runs it" if made_for == "host" else ""))
            self.load, self.entry = (data[at] | data[at + 1] << 8 for at in (6, 8))
        elif data[:5] == b"sim65":
            if data[5:6] != b"\2" or len(data) < 12:
                raise Fault("%s: of sim65's file format this takes version 2" % name)
            self.form, self.data = "sim65", data[12:]
            told, self.place = self._number(data, 6, ("6502", "65c02")), data[7]
            self.load, self.entry = (data[at] | data[at + 1] << 8 for at in (8, 10))
            self._lower_stack()
        else:
            raise Fault("%s is no program of ld65 with a configuration of examples/c, and none of sim65: a raw image needs --at AAAA" % name)
        if start is not None and at is None:
            raise Fault("%s holds its own start address: --start is for a raw image" % name)
        self.cpu = told or cpu
        if told and cpu and told != cpu:
            raise Fault("%s is made for a %s, and --cpu says %s" % (name, told.upper(), cpu.upper()))
        if machine == "host" and self.cpu == "65c02":
            raise Fault("%s is made for a 65C02, and the host has a 6502" % name)
        self._look()

    def _number(self, data: bytes, at: int, names: Tuple[str, ...]) -> str:
        if len(data) < 16 and at < 6 or data[at] >= len(names):
            raise Fault("%s: byte %d of its header is %02X" % (self.name, at, data[at] if at < len(data) else 0))
        return names[data[at]]

    # sim65's start-up code begins its stack at FFF0, where no memory for programs is: it gets the address at which that ends.
    def _lower_stack(self) -> None:
        end = MACHINES[self.machine][0]
        form = re.compile(b"\xa9(.)\xa2(.)\x85" + re.escape(bytes([self.place])) + b"\x86" + re.escape(bytes([(self.place + 1) % 256])), re.S)
        found = form.search(self.data, max(0, self.entry - self.load), max(0, self.entry - self.load) + 32)
        if found and found.group(1)[0] | found.group(2)[0] << 8 > end:
            self.data = self.data[: found.start()] + bytes([0xA9, end & 255, 0xA2, end >> 8]) + self.data[found.start() + 4 :]

    def _look(self) -> None:
        lowest, end = self.BOUNDS[self.machine]
        if not self.data:
            raise Fault("%s is empty" % self.name)
        if self.load < lowest or self.load + len(self.data) > end:
            raise Fault("%s is larger than memory: %s bytes from %04X on; programs have %04X to %04X"
                        % (self.name, "{:,}".format(len(self.data)), self.load, lowest, end - 1))
        if not self.load <= self.entry < self.load + len(self.data):
            raise Fault("%s begins at %04X, outside its bytes from %04X to %04X" % (self.name, self.entry, self.load, self.load + len(self.data) - 1))

    @property
    def first(self) -> int:
        """Where its machine's ROM begins it."""
        return MACHINES[self.machine][3] + 7 if self.form == "sim65" else self.entry

    @property
    def blocks(self) -> List["Block"]:
        """Its bytes from the beginning of a page to the end of one."""
        data = bytes(self.load % PAGE) + self.data
        return [Block(self.machine, self.load // PAGE * PAGE, data + bytes(-len(data) % PAGE))]


class Block(NamedTuple):
    """Whole pages of memory of a machine, from an address on."""

    machine: Side
    at: int
    data: bytes


def block_of(arguments: List[bytes]) -> bytes:
    """The arguments as a program finds them; Fault where they are too many."""
    texts = b"".join(argument + b"\0" for argument in arguments)
    if len(texts) > MOST_ARGUMENTS or len(arguments) > 127:
        raise Fault("the arguments are too long: with the program's name they have %d bytes, and there is room for %d"
                    % (len(texts), MOST_ARGUMENTS))
    return bytes([len(arguments), len(texts) & 255, len(texts) >> 8]) + texts


@functools.lru_cache(64)
def _assembled(program: str, part: Part, text: bytes) -> bytes:
    return Program(program).asm(part, text)


def rom_of(program: Program, machine: Side, image: Optional[Image], arguments: List[bytes]) -> bytes:
    """The ROM of a machine, as the program's own assembler makes it, with what its program finds in it."""
    part, name = CPUS[machine == "para"], "boot.asm" if machine == "para" else "host.asm"
    rom = bytearray(_assembled(program.path, part, read_file(os.path.join(SOURCES, name))))
    _, begin, place, words = MACHINES[machine]
    if image is None:
        return bytes(rom)
    block = block_of(arguments)
    rom[place - begin : place - begin + len(block)] = block
    if image.form == "sim65":
        text = read_file(os.path.join(SOURCES, "sim65.asm")).replace(b"org &FA00", b"org &%04X" % words, 1)
        hooks = bytearray(_assembled(program.path, "6502", text))
        hooks[0:2] = rom[-2:]
        hooks[2:4] = image.entry.to_bytes(2, "little")
        hooks[4:6] = place.to_bytes(2, "little")
        hooks[6] = image.place
        rom[words - begin : words - begin + len(hooks)] = hooks
        rom[-12:-6] = bytes(6)
        rom[-2:] = (words + 10).to_bytes(2, "little")
    return bytes(rom)


def deck_of(images: Sequence[Image], given: Optional[bytes]) -> Tuple[bytes, int]:
    """What the host's ROM reads: the programs, where they begin, and the input, or None where that is still to come; and where the
    input begins. Fault where it is too long."""
    deck = b""
    for block in (block for image in images for block in image.blocks):
        deck += bytes([1 if block.machine == "para" else 2]) + block.at.to_bytes(2, "little") + bytes([len(block.data) // PAGE])
        deck += bytes(-len(deck) % PAGE) + block.data
    for image in images:
        deck += bytes([3 if image.machine == "para" else 4]) + image.first.to_bytes(2, "little")
    deck += b"\0" + len(given or b"").to_bytes(3, "little") + bytes([given is None]) + (given or b"")
    if len(deck) > DECK:
        raise Fault("too long -: with the program there is room for %s bytes of input" % "{:,}".format(len(given or b"") - len(deck) + DECK))
    return deck + bytes(-len(deck) % SLOT), len(deck) - len(given or b"")


class Left(NamedTuple):
    """What a run left: the host's memory and the second processor's, its registers, and what was written.

    how     how it ended, as host.asm notes it; 0 where it did not
    status  the program's status, or the call that is not there
    """

    ticks: int
    host: bytes
    para: Optional[bytes]
    registers: Dict[str, Registers]
    out: bytes
    err: bytes
    how: int
    status: int

    @property
    def ended(self) -> bool:
        return self.registers["host"].halted


class Runner:
    """Runs of programs in a folder of their own.

    images  one program, or that of the second processor and that of the host
    speed   3 or 4, the second processor's clock in MHz
    """

    def __init__(self, program: Program, images: Sequence[Image], arguments: List[bytes], speed: Speed = 3,
                 keys: Keys = None, font: Optional[Data] = None):
        stack = contextlib.ExitStack()
        self.folder: str = stack.enter_context(own_folder())
        self.close = weakref.finalize(self, stack.close)
        self.program, self.images, self.speed = program, images, speed
        self.has_tube = images[0].machine == "para"
        self.second = second_of(speed)
        self.more: List[str] = []
        self.slots = self.input_at = 0
        self._make_roms(arguments)
        for name, data, most in (("keys", keys, IMAGE_CAP), ("font", font, IMAGE_CAP)):
            if data is not None:
                self._put(name, bytes_of(data, most))
                self.more += ["--" + name, name] if "--" + name not in self.more else []

    def _make_roms(self, arguments: List[bytes]) -> None:
        # The program that writes has the arguments; the other has its name alone.
        own = {image.machine: image for image in self.images}
        texts = {image.machine: [os.fsencode(os.path.basename(image.name))] for image in self.images}
        texts[self.images[-1].machine] += arguments
        self._put("os", rom_of(self.program, "host", own.get("host"), texts.get("host", [])))
        if self.has_tube:
            self._put("tube", rom_of(self.program, "para", own["para"], texts["para"]))

    def _put(self, name: str, data: bytes) -> None:
        with open(os.path.join(self.folder, name), "wb") as file:
            file.write(data)

    def give(self, given: Optional[bytes]) -> None:
        """The input for the runs to come; None where it is still to be read."""
        deck, self.input_at = deck_of(self.images, given)
        self.slots = len(deck) // SLOT
        for slot in range(self.slots):
            self._put("rom%d" % slot, deck[slot * SLOT : slot * SLOT + SLOT])

    def _host_words(self) -> List[str]:
        words = ["--os", "os", "--plugs", "2"] + self.more
        for slot in range(self.slots):
            words += ["--rom%d" % slot, "rom%d" % slot]
        return words

    def _pair_words(self, ticks: int) -> List[str]:
        return ["solo", str(ticks), "out", "--tube", "tube", "--speed", str(self.speed)] + self._host_words()

    def run(self, ticks: int, words: Tuple[str, ...] = ("--keep", "0")) -> Left:
        """One run from power-on."""
        if self.has_tube:
            self.program.done(self._pair_words(ticks) + list(words), self.folder)
        else:
            self.program.done(["replay", "host", os.devnull, str(ticks), "out", "--no-tube"] + self._host_words(), self.folder)
        return self._left(ticks)

    def _left(self, ticks: int) -> Left:
        host = self.output("host")
        # (the latch keeps 65,536 bytes, and so does the card)
        errors = int.from_bytes(host[0xF5:0xF8], "little")
        report = parse_report(self.output("report"))
        return Left(ticks, host, self.output("para") if self.has_tube else None,
                    report.registers, self.output("plug1"), self.output("plug0")[:errors], host[0xF0], host[0xF1])

    def seen_by_host(self, left: Left) -> bytes:
        """The host's memory, where the text of an error is."""
        return left.host

    def saved(self, ticks: int) -> bytes:
        """The session of a run. That of the host alone has a second processor that does nothing; Fault where the host would
        notice it."""
        left = None
        if not self.has_tube:
            left = self.run(ticks)
            self._put("tube", PARKED)
        self.program.done(self._pair_words(ticks) + ["--keep", str(KEPT), "--save", "out.save"], self.folder)
        if left is not None and (self._left(ticks).host, self._left(ticks).registers["host"]) != (left.host, left.registers["host"]):
            raise Fault("%s uses the Tube's addresses: on the host alone it has no session" % self.images[0].name)
        return self.output("save")

    def taken(self, left: Left) -> int:
        """How many bytes of the input the program took: by where the host's ROM is in the deck."""
        at = left.host[0xE2] * SLOT + (left.host[0xE1] - 0x80) * PAGE + left.host[0xE0]
        return max(0, at - self.input_at)

    def output(self, ending: str) -> bytes:
        place = os.path.join(self.folder, "out." + ending)
        return read_file(place, min(OUTPUT_CAP, os.path.getsize(place)))

    @property
    def frames(self) -> List[Frame]:
        """The frames of the script's shots, of the last run."""
        return [Frame(self.output(name[4:])) for name in frames_in(self.folder)]

    def until(self, most: int, is_over: Callable[[Left], bool] = lambda left: left.ended) -> Left:
        """Runs of 1, 2, 4 .. seconds of machine time, until the program has ended, or all of the time was had."""
        ticks = min(self.second, most)
        while True:
            left = self.run(ticks)
            if is_over(left) or ticks == most:
                return left
            ticks = min(2 * ticks, most)

    def listed(self, side: str, ticks: int, words: Tuple[str, ...] = ()) -> List[bytes]:
        """The lines of a listing of one side."""
        if not self.has_tube:
            given = ["follow", "host", os.devnull, str(ticks), "out", "--no-tube"] + self._host_words()
        else:
            # (the trace is named: other runs write its file again)
            given = ["follow", side, "out.trace", str(ticks), "out", "--speed", str(self.speed)]
            given += ["--tube", "tube"] if side == "para" else self._host_words()
        self.program.done(given + list(words), self.folder)
        return self.output("list").splitlines(keepends=True)

    def told_ticks(self, ticks: int) -> int:
        """Up to which tick the trace has all accesses."""
        report = parse_report(self.output("report"))
        return ticks if report.kept == report.tube else int(self.output("trace")[-20:-10], 16)


# --- Ends ---


SPARE = re.compile(rb"[0-9A-F]{10} ([0-9A-F]{4}) .{24} byte &([0-9A-F]{2})\n")


# The first opcode among the first million instructions of the second processor that its data sheet does not name.
def _spare_of(runner: Runner, ticks: int, labels: Labels) -> str:
    try:
        runner.run(ticks, ("--keep", str(KEPT)))
        for line in runner.listed("para", runner.told_ticks(ticks)):
            found = SPARE.match(line)
            if found:
                return "\nbefore that it met the opcode %s at %s, which the 65C02 does not document" % (
                    found.group(2).decode(), labels.place(int(found.group(1), 16)))
    except (Fault, OSError):
        pass
    return ""


def text_behind(memory: bytes, at: int) -> str:
    """The number and the text of an error after a BRK, if they are there."""
    text = re.match(rb"[ -~\r\n]{1,60}\0", memory[at + 1 : at + 62])
    return ", error %d: %s" % (memory[at], text.group(0)[:-1].decode("ascii").strip()) if text else ""


def broken_at(memory: bytes) -> int:
    """The address of the BRK that ended a program, of its machine's memory."""
    return ((memory[0xFD] | memory[0xFE] << 8) - 1) % 65536


class Ending(NamedTuple):
    """How a program ended: the status, what is said of it, and where it was, if it did not end by itself."""

    status: int
    text: str = ""
    at: Optional[int] = None


def _ending(runner: Runner, left: Left, limit: int, names: Dict[Side, Labels]) -> Ending:
    how, host, name = left.how, left.host, runner.images[0].name
    if not left.ended:
        side = runner.images[0].machine
        where = "; it is at %s" % names[side].place(left.registers[side].pc)
        if len(runner.images) == 2:
            where = "; the host is at %s, the second processor at %s" % tuple(
                labels.place(left.registers[side].pc) for side, labels in names.items())
        spare = _spare_of(runner, min(left.ticks, runner.second), names[side]) if side == "para" else ""
        return Ending(TIMED_OUT, "%s did not end within %g seconds of machine time%s%s" % (name, limit / runner.second, where, spare),
                      left.registers[side].pc)
    if how == 0:
        at = left.registers["host"].pc
        byte = "%02X " % host[at] if at < len(host) else ""
        return Ending(NO_OPCODE, "the host stopped at %s: the opcode %sis none that the 6502 documents" % (names["host"].place(at), byte), at)
    if how == 1:
        return Ending(left.status)
    if how in (2, 3):
        memory, labels = (runner.seen_by_host(left), names["host"]) if how == 2 else (left.para or b"", names["para"])
        at = broken_at(memory)
        call = "" if at < 0xFF00 else ": no call of the operating system is there"
        return Ending(BROKEN, "%s ended by a BRK at %s%s%s%s" % (
            runner.images[-1 if how == 2 else 0].name, labels.place(at), text_behind(memory, (at + 1) % 65536), call,
            _spare_of(runner, left.ticks, names["para"]) if how == 3 else ""), at)
    if how == 4:
        return Ending(BROKEN, "%s asked for the call %02X, which the host's ROM does not have" % (name, left.status))
    if how == 6:
        return Ending(TIMED_OUT, "%s reads a key after the end of its input" % name)
    return Ending(TOO_MUCH, "%s wrote more than 65,536 bytes: the first of them are here, and it was stopped" % runner.images[-1].name)


class Executed:
    """What came of a program.

    status     its exit status, or 124, 132, 134 or 153 as docs/PROGRAMS.md has them
    text       what is said of an end that is not the program's own, a line each; else nothing
    out, err   what it wrote
    ended_at   the address where it was stopped, of a BRK, of an opcode, or at the limit; None if it ended by itself
    registers  of "host" and "para"; with `host` there is no "para"
    memory     likewise
    frames     the pictures of the shots of `keys`
    What follows is asked for by another run, once it is looked at.
    """

    def __init__(self, runner: Runner, left: Left, limit: int, names: Dict[Side, Labels]):
        self._runner, self._left = runner, left
        self.out, self.err, self.registers = left.out, left.err, left.registers
        self.memory: Dict[str, bytes] = {"host": left.host}
        if left.para is not None:
            self.memory["para"] = left.para
        self.frames = runner.frames
        self.status, self.text, self.ended_at = _ending(runner, left, limit, names)

    def __repr__(self) -> str:
        return f"<Executed: status {self.status}, out {self.out[:60]!r}{', ' + self.text if self.text else ''}>"

    def close(self) -> None:
        """Removes the folder of the run."""
        self._runner.close()

    @functools.cached_property
    def _whole(self) -> Tuple[int, bytes, int]:
        # The tick at which it had ended, the accesses that are kept, and how many there were.
        runner, left = self._runner, self._left
        if not runner.has_tube:
            if not left.ended:
                return left.ticks, b"", 0
            halted = runner.listed("host", left.ticks, ("--at", "%04X" % left.registers["host"].pc))
            return min(left.ticks, int(halted[-1][:10], 16) + 24), b"", 0
        runner.run(left.ticks, ("--keep", str(KEPT)))
        report, trace, ticks = parse_report(runner.output("report")), runner.output("trace"), left.ticks
        if left.ended and report.kept:
            # The host's last access holds the second processor; a little after it both have stopped.
            ticks = min(ticks, int(trace[-20:-10], 16) + 24)
            runner.run(ticks, ("--keep", str(KEPT)))
        return ticks, trace, report.tube

    @property
    def trace(self) -> bytes:
        """The accesses to the Tube up to the program's end, the first 4,194,304 of them."""
        return self._whole[1]

    @property
    def accesses(self) -> int:
        """How many accesses to the Tube there were."""
        return self._whole[2]

    @functools.cached_property
    def session(self) -> bytes:
        """The run up to its end, for `tools/debug` and `resume`. That of `host` has a second processor that does nothing."""
        return self._runner.saved(self._whole[0])

    @functools.cached_property
    def listing(self) -> str:
        """The instructions of the program, of the first million of the run. Of two programs they are those of the host's."""
        image, ticks = self._runner.images[-1], self._whole[0]
        lines = self._runner.listed(image.machine, self._runner.told_ticks(ticks) if self._runner.has_tube else ticks)
        at = b" %04X " % image.entry
        first = next((number for number, line in enumerate(lines) if line[10:16] == at), len(lines))
        return b"".join(lines[first:]).decode("ascii")

    @property
    def cycles(self) -> int:
        """How many cycles the program took, from its first instruction to the end of its last; of two that of the second
        processor, up to where it ended or was held. Fault if no end was reached."""
        return self._cycles(self._runner.images[0].machine)

    @property
    def host_cycles(self) -> int:
        """The same of the program on the host."""
        return self._cycles("host")

    def _cycles(self, side: Side) -> int:
        if self._left.how != 1:
            raise Fault("it did not end by itself: there is no time")
        return self._host_time() if side == "host" else self._para_time()

    def _host_time(self) -> int:
        runner, ticks = self._runner, self._whole[0]
        if runner.images[-1].machine != "host":
            raise Fault("there is no program on the host")
        if runner.has_tube and len(self.trace) < 20 * self.accesses:
            raise Fault("the list of accesses does not reach its end: there is no time")
        lines = [runner.listed("host", ticks, ("--at", "%04X" % at)) for at in (runner.images[-1].first, self.registers["host"].pc)]
        between = int(lines[1][-1][:10], 16) - int(lines[0][0][:10], 16)
        return between * 2000000 // runner.second - AROUND["both" if runner.has_tube else "host"]

    def _para_time(self) -> int:
        runner, trace = self._runner, self.trace
        # The byte with which it begins; and its last call, which its status follows, or else where the host holds it.
        begun, ended = trace.find(b" P R 3 80\n"), trace.rfind(b" P W 3 ", 0, max(0, trace.rfind(b" P W 3 ")))
        around, by_itself = AROUND["para"], trace[ended : ended + 10] == b" P W 3 18\n"
        if len(runner.images) == 2 and not by_itself:
            ended, around = trace.rfind(b" H W 0 A0\n"), AROUND["held"]
        if begun < 0 or ended < begun or not by_itself and len(runner.images) == 1:
            raise Fault("the list of accesses does not reach its end: there is no time")
        between = int(trace[ended - 10 : ended], 16) - int(trace[begun - 10 : begun], 16)
        return between * runner.speed * 1000000 // runner.second - around


def images_of(program: Data, both: Optional[Data], host: bool, at: Optional[int], start: Optional[int], host_at: Optional[int],
              host_start: Optional[int], cpu: Optional[Part]) -> List[Image]:
    """The programs of a call: one, or that of the second processor and that of the host."""
    if host and both is not None:
        raise Fault("host runs one program, and both two")
    if both is None and (host_at is not None or host_start is not None):
        raise Fault("host_at and host_start are of the program of both")
    for begin, where in ((start, at), (host_start, host_at)):
        if begin is not None and where is None:
            raise Fault("a start needs the address of a raw image")
    images = [Image(name_of(program, "the program"), bytes_of(program, IMAGE_CAP), "host" if host else "para", at, start, cpu)]
    if both is not None:
        images.append(Image(name_of(both, "the host's program"), bytes_of(both, IMAGE_CAP), "host", host_at, host_start, None))
    return images


def name_of(data: Data, other: str) -> str:
    """The name of a file, or another text for what has none."""
    return other if isinstance(data, (bytes, bytearray, Source, Script, Disc)) else os.fspath(data)


def ticks_of(limit: Optional[float], speed: Speed) -> int:
    """The ticks of a limit in seconds; Fault where a run has fewer."""
    second = second_of(speed)
    if limit is not None and not 0 < limit * second <= MOST_TICKS:
        raise Fault("the limit is above 0, and at most %g seconds of machine time" % (MOST_TICKS // second))
    return int(limit * second) if limit else MOST_TICKS


def labels_of(given: Names) -> Labels:
    """The labels that a caller gives."""
    return given if isinstance(given, Labels) else Labels({}) if given is None else Labels.read(given)


def execute(program: Data, args: Sequence[Union[str, bytes]] = (), *, stdin: bytes = b"", host: bool = False,
            both: Optional[Data] = None, at: Optional[int] = None, start: Optional[int] = None, host_at: Optional[int] = None,
            host_start: Optional[int] = None, cpu: Optional[Part] = None, speed: Speed = 3, limit: Optional[float] = None,
            keys: Keys = None, font: Optional[Data] = None, labels: Names = None, host_labels: Names = None,
            using: Optional[Program] = None) -> Executed:
    """Runs a program: on the second processor, with `host` on the host alone, or with `both` one on each.

    program      the name of its file, or its bytes
    args, stdin  its arguments, and what it reads; of two programs they are the host's, which writes and ends the run
    both         the program of the host, beside that of the second processor
    at, start    of a raw image where it lies and where it begins; host_at, host_start the same of `both`
    cpu          what it was made for, if its file does not say
    limit        the most seconds of machine time; all that a run has if nothing is said
    keys, font   a key script, with shots, and the font of teletext
    labels       names of addresses in `text`: Labels, or the name of a file of them; host_labels for `both`
    using        the emulator, if it is not ./beebtube
    Fault where it cannot be run.
    """
    if isinstance(args, (str, bytes)):
        raise TypeError("args: a sequence of arguments, and no single text")
    if not isinstance(stdin, (bytes, bytearray)):
        raise TypeError(f"stdin: bytes, and no {type(stdin).__name__}")
    if both is None and host_labels is not None:
        raise Fault("host_labels are of the program of both")
    most = ticks_of(limit, speed)
    runner = Runner(using or Program(), images_of(program, both, host, at, start, host_at, host_start, cpu),
                    [os.fsencode(word) for word in args], speed, keys, font)
    runner.give(stdin)
    own: Dict[Side, Labels] = {"host" if host else "para": labels_of(labels)}
    names: Dict[Side, Labels] = {"host": labels_of(host_labels), "para": Labels({}), **own}
    return Executed(runner, runner.until(most), most, names)


def build(*sources: Name, host: bool = False, cpu: Part = "6502", options: Sequence[str] = ()) -> bytes:
    """The program that examples/c/build makes of sources in C and for ca65, by cc65; Fault with what it says if it makes none.

    host     for the host, in place of the second processor
    options  others of its options, as ("-I", "include")
    """
    with own_folder() as folder:
        place = os.path.join(folder, "program")
        words = ["bash", os.path.join(SOURCES, "build"), "--cpu", cpu.upper()] + ["--host"] * host + list(options)
        done = subprocess.run(words + [place] + [os.fspath(it) for it in sources], stdin=subprocess.DEVNULL, stdout=subprocess.PIPE,
                              stderr=subprocess.STDOUT)
        if done.returncode != 0:
            raise Fault(done.stdout.decode("utf-8", "replace").strip() or "examples/c/build failed")
        return read_file(place)
