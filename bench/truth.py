#!/usr/bin/env python3
"""truth.py [--answers N] [--seed S] [--ticks T] [--verbose]: asks the debugger at random moments of
random runs, and compares each answer with what complete listings (`follow`), the trace, and
`resume` at that tick say.

The programs have interrupts, NMIs, BREAK, resets of the second processor, BRK, self-modifying code,
text after JSR, return addresses that are dropped and pushed, jumps by RTS, paged ROMs without 00F4,
and reads and writes of all registers of the Tube. Runs are of both clocks, of a host alone, and of
sessions that hold fewer accesses than the run has. In half of the runs the debugger lists few ticks
at once, as if the run were long. The truth is of a run that goes on after the debugger's, so that
the last instruction is known. Prints a line for each answer that differs, and the counts; the
status is 1 if one differs."""
from __future__ import annotations

import argparse
import bisect
import contextlib
import io
import os
import random
import sys
import tempfile
from unittest import mock

TOP = os.path.dirname(os.path.dirname(os.path.realpath(__file__)))
sys.path.insert(0, os.path.join(TOP, "tools"))
sys.dont_write_bytecode = True

from beebtube import machine  # noqa: E402
from beebtube.debugging import Debugger  # noqa: E402
from beebtube.effects import LEVELS, effects_of, sequences  # noqa: E402
from beebtube.faults import Fault  # noqa: E402
from beebtube.listings import Listing  # noqa: E402
from beebtube.naming import Names, length_of  # noqa: E402
from beebtube.past import Past  # noqa: E402
from beebtube.program import Program  # noqa: E402
from beebtube.report import parse  # noqa: E402
from beebtube.trace import Trace  # noqa: E402
from beebtube.tube import Tube  # noqa: E402

MORE = 6000  # ticks that the truth goes on
LETTER = {"host": "H", "para": "P"}

# --- Random programs ---

HANDLED = "PLA\nPLA\n"
# The parts of a program: each has lines for the main loop, and a subroutine that follows the loop.
# The generator replaces @ by a number that no other part has, and %r by a random byte.
PARTS = {
    "count": ("INC &70\nDEC &71\nINC &0200", ""),
    "shift": ("LDX #%r\nSTX &72\nASL &72\nROL &73\nLSR &72\nROR &74", ""),
    "text": (
        "JSR text@\nbyte 65,66,%r7,0\nINC &75",
        "text@: PLA\nSTA &80\nPLA\nSTA &81\nLDY #0\ntl@: INC &80\nBNE ti@\nINC &81\nti@: LDA (&80),Y\nBEQ te@\n"
        "JSR sub\nJMP tl@\nte@: LDA &81\nPHA\nLDA &80\nPHA\nRTS",
    ),
    "text2": (
        "JSR text@\nbyte 1,2,0\nDEC &75",
        "text@: PLA\nSTA &80\nPLA\nSTA &81\nLDY #0\ntl@: INC &80\nLDA (&80),Y\nBNE tl@\nINC &80\nJMP (&0080)",
    ),
    "drop": ("JSR drop@\nINC &76", "drop@: JSR drop2@\nINC &FF\ndrop2@: PLA\nPLA\nDEC &76\nRTS"),
    "table": (
        "JSR jump@\nINC &77",
        "jump@: LDA #>jt@\nPHA\nLDA #<jt@\nPHA\nRTS\njt@: NOP\nINC &78\nRTS",
    ),
    "tail": ("JSR tail@", "tail@: INC &79\nJMP sub"),
    "nested": ("JSR n1@", "n1@: JSR n2@\nPHA\nJSR n2@\nPLA\nRTS\nn2@: PHP\nJSR sub\nPLP\nRTS"),
    "recurse": ("LDX #%s\nJSR r@", "r@: DEX\nBEQ rx@\nJSR r@\nINC &7A\nrx@: RTS"),
    "break": ("BRK\nbyte 0\nINC &7B", ""),
    "wait": ("LDX #%s\nw@: DEX\nBNE w@", ""),
    "spin": ("LDX #%s\nv@: LDY #20\nu@: DEY\nBNE u@\nDEX\nBNE v@", ""),
    "self": (
        "LDX #8\nsc@: LDA sm@,X\nSTA &0900,X\nDEX\nBPL sc@\nINC &0901\nJSR &0900\nINC &0901",
        "sm@: LDA #%r\nSTA &7C\nINC &0901\nRTS\nNOP",
    ),
    "stack": ("TSX\nSTX &7D\nLDX #%r\nPHA\nTXA\nPHA\nPLA\nPLA\nPHP\nPLP", ""),
    "cli": ("SEI\nINC &7E\nCLI", ""),
}
HOST = {
    **PARTS,
    "rom": ("LDA #%k\nSTA &FE30\nJSR &8000\nLDX #%k\nSTX &FE30\nJSR &8003", ""),
    "romx": ("LDX #%k\nTXA\nSTA &FE2F,X\nSTX &FE3F\nJSR &8000", ""),
    "give": ("LDA #%r\nSTA &FEE1\nSTA &FEE3\nSTA &FEE5\nSTA &FEE5\nSTA &FEE7", ""),
    "take": ("LDA &FEE0\nLDA &FEE1\nLDA &FEE3\nLDA &FEE5\nLDA &FEE7", ""),
    "poll": (
        "LDY #12\np@: BIT &FEE0\nBMI pt@\nDEY\nBNE p@\nJMP px@\npt@: LDA &FEE1\nSTA &0300\npx@: NOP",
        "",
    ),
    "flags": ("LDA #%f\nSTA &FEE0", ""),
    "reset": (
        "LDA #&A0\nSTA &FEE0\nLDX #%t\nh@: DEX\nBNE h@\nLDA #&20\nSTA &FEE0\nLDA #&8E\nSTA &FEE0",
        "",
    ),
    "device": ("LDA &FE40\nLDA &FE44\nINC &FE60", ""),
}
PARA = {
    **PARTS,
    "give": ("LDA #%r\nSTA &FEF9\nSTA &FEFB\nSTA &FEFD\nSTA &FEFF", ""),
    "stream": ("LDX #%s\ng@: STX &FEF9\nDEX\nBNE g@", ""),
    "take": ("LDA &FEF8\nLDA &FEF9\nLDA &FEFB\nLDA &FEFD\nLDA &FEFF", ""),
    "poll": (
        "LDY #9\np@: LDA &FEF8\nBMI pt@\nDEY\nBNE p@\nBRA px@\npt@: LDA &FEF9\nSTA &0300\npx@: NOP",
        "",
    ),
    "high": ("INC &F900\nLDA #%r\nSTA &F901\nSTA &FFF0\nDEC &FF00", ""),
    "cmos": ("LDA #%r\nTSB &72\nTRB &73\nSTZ &74\nPHX\nPLY\nINC A\nSTA (&90)\nLDA (&90)", ""),
}


def body(parts, rng, number, banned=()):
    """The loop and the subroutines of a random choice of parts."""
    lines, subs = [], ["sub: INC &7F\nRTS"]
    for at in range(number):
        name = rng.choice([it for it in parts if it not in banned])
        for kind, text in enumerate(parts[name]):
            text = text.replace("@", f"_{at}")
            for mark, least, most in (
                ("%r7", 1, 127),
                ("%r", 0, 255),
                ("%k", 0, 3),
                ("%s", 2, 12),
                ("%t", 1, 60),
            ):
                while mark in text:
                    text = text.replace(mark, str(rng.randint(least, most)), 1)
            while "%f" in text:
                text = text.replace(
                    "%f",
                    str(rng.choice((0x01, 0x81, 0x82, 0x84, 0x88, 0x90, 0x8E, 0x9E, 0x10, 0x08))),
                    1,
                )
            (subs if kind else lines).append(text)
    return "\n".join(lines), "\n".join(it for it in subs if it)


def host_source(rng, alone):
    """A random operating system: a loop with a timer's interrupts."""
    banned = ("give", "take", "poll", "flags", "reset") if alone else ()
    loop, subs = body(HOST, rng, rng.randint(4, 9), banned)
    timer = rng.choice((700, 1500, 4000, 60000))
    flags = "" if alone else "LDA #&8E\nSTA &FEE0\n"
    return (
        f"org &C000\nstart: LDX #&FF\nTXS\n{flags}LDA #&40\nSTA &FE4B\nLDA #&C0\nSTA &FE4E\nLDA #{timer & 255}\nSTA &FE44\n"
        f"LDA #{timer >> 8}\nSTA &FE45\nCLI\nLDX #5\nb1: DEY\nBNE b1\nDEX\nBNE b1\nloop: NOP\n{loop}\nJMP loop\n{subs}\n"
        "irq: PHA\nTXA\nPHA\nTSX\nLDA &0103,X\nAND #&10\nBNE brk\nINC &6F\nLDA &FE44\nPLA\nTAX\nPLA\nRTI\n"
        "brk: INC &6E\nPLA\nTAX\nPLA\nRTI\n"
        f"org &FFFA\nword {rng.choice(('start', 'irq'))}, start, irq\n"
    )


def para_source(rng):
    """A random boot ROM, which copies itself, or not, and loops."""
    loop, subs = body(PARA, rng, rng.randint(4, 9))
    copy = (
        "LDX #0\ncopy: LDA &F800,X\nSTA &F800,X\nLDA &F900,X\nSTA &F900,X\nLDA &FA00,X\nSTA &FA00,X\nLDA &FB00,X\nSTA &FB00,X\n"
        "LDA &FF00,X\nSTA &FF00,X\nINX\nBNE copy\n"
    )
    if rng.random() < 0.2:
        copy = "JSR sub\n" + copy
    return (
        f"org &F800\nstart: LDX #&FF\nTXS\n{copy}LDA #&A0\nSTA &91\nSTZ &90\nLDA &FEF8\nCLI\nloop: NOP\n{loop}\nJMP loop\n{subs}\n"
        "nmi: PHA\nINC &6D\nLDA &FEFD\nSTA &FEFD\nPLA\nRTI\n"
        "irq: PHA\nPHX\nTSX\nLDA &0103,X\nAND #&10\nBNE brk\nINC &6F\nLDA &FEF9\nLDA &FEFF\nPLX\nPLA\nRTI\n"
        "brk: INC &6E\nPLX\nPLA\nRTI\norg &FFFA\nword nmi, start, irq\n"
    )


def rom_source(rng, slot):
    """A paged ROM with two entries."""
    return (
        f"org &8000\nJMP one\nJMP two\none: INC &{0x60 + slot:02X}\nLDA #{slot}\nNOP\n"
        + "NOP\n" * rng.randint(0, 3)
        + f"RTS\ntwo: LDA #{0x40 + slot}\nSTA &6C\nJSR three\nRTS\nthree: DEC &{0x60 + slot:02X}\nRTS\norg &9FFF\nbyte {slot}\n"
    )


# --- The whole truth ---


class Side:
    """All starts of a side, and all changes of its memory, by what each instruction writes."""

    def __init__(self, truth, side):
        self.truth, self.side = truth, side
        past = truth.past
        path, total = past.machines[side].follow(0, past.held + 1)
        listing = Listing(side, path, total, 0, past.held + 1)
        self.starts = list(listing.starts(0))
        self.ticks = [start.tick for start in self.starts]
        self.resets = truth.resets[side]
        self.cycle = (
            {"host": 3, "para": 2}[side] if past.speed == 3 else {"host": 6, "para": 3}[side]
        )
        self._follow_memory()

    def pairs(self):
        return zip(self.starts, self.starts[1:])

    def is_reset(self, one, other):
        return any(one.tick <= reset < other.tick for reset in self.resets)

    def _follow_memory(self):
        size = 32768 if self.side == "host" else 65536
        ram, self.log = bytearray(size), []
        self.rom_times = []
        if self.side == "para":
            own = [access.tick for access in self.truth.accesses if access.side == "P"]
            firsts = [0] + [other.tick for one, other in self.pairs() if self.is_reset(one, other)]
            for first, end in zip(firsts, firsts[1:] + [self.truth.past.held + 1]):
                at = bisect.bisect_left(own, first)
                begun = (
                    0
                    if not first
                    else first
                    - 7
                    * self.cycle
                    * sequences(
                        self.starts[self.ticks.index(first) - 1],
                        self.starts[self.ticks.index(first)],
                    )
                )
                self.rom_times.append((begun, min(own[at] if at < len(own) else end, end)))
        images = self.truth.past.inputs.images
        high = images["os"] if self.side == "host" else images["tube"]
        for number, (one, other) in enumerate(self.pairs()):
            in_rom = any(begun <= one.tick <= out for begun, out in self.rom_times)

            def peek(at):
                if self.side == "host":
                    return ram[at] if at < size else high[at - 0xC000] if at >= 0xC000 else 0
                return high[at - 0xF800] if in_rom and at >= 0xF800 else ram[at]

            for at, byte in effects_of(one, peek).writes:
                if at < size and not (self.side == "para" and 0xFEF8 <= at <= 0xFEFF):
                    self._write(ram, number, other.tick, at, byte)
            count = sequences(one, other)
            if count:
                memory = self.truth.memory(self.side, other.tick)
                for more in range(3 * count, 0, -1):
                    at = 0x100 | other.registers.s + more & 255
                    self._write(ram, number, other.tick, at, memory[at])
        self.final = bytes(ram)

    def _write(self, ram, number, tick, at, byte):
        if ram[at] != byte:
            self.log.append((number, tick, at, ram[at], byte))
            ram[at] = byte

    def ram_at(self, number):
        """The memory at a start, by the changes so far."""
        ram = bytearray(len(self.final))
        for at_number, _, at, _, byte in self.log:
            if at_number >= number:
                break
            ram[at] = byte
        return bytes(ram)

    def at(self, tick):
        """The number of the last start at a tick or before it; below 0 if there is none."""
        return bisect.bisect_right(self.ticks, tick) - 1

    # What the processor is at: a text as the debugger has it, or "sequence" for each that is no
    # instruction.
    def phase(self, tick):
        if self.truth.state(self.side, tick)[2]:
            return "held"
        if self.truth.state(self.side, tick)[0].halted:
            return "halted"
        number = self.at(tick)
        if number < 0:
            return "sequence"
        one = self.starts[number]
        other = self.starts[number + 1] if number + 1 < len(self.starts) else one
        count = sequences(one, other) if other is not one else 0
        if count and tick >= other.tick - 7 * self.cycle * count:
            return "sequence"
        return one.text

    # --- Calls, by the words of tools/beebtube/calls.py ---

    def over(self, kind, number, level):
        """The number of the start at which a frame is over that the instruction of this number
        opened; None if there is none."""
        inner, back = None, self.starts[number].registers.pc + 3
        for at in range(number + 1, len(self.starts)):
            before, start = self.starts[at - 1], self.starts[at]
            if self.is_reset(before, start):
                return at
            s = start.registers.s
            more = (s - level) % 256
            if 0 < more < 240 and (s > level or more < 16):
                return at
            if s == level:
                if kind == "call":
                    nested = (
                        before.word == "RTS"
                        and inner is not None
                        and 0 <= start.registers.pc - inner < 256
                    )
                    is_way = before.word == "RTS" or before.text.startswith("JMP (")
                    if not nested and is_way and (start.registers.pc - back) % 65536 < 256:
                        return at
                elif before.word == "RTI" and at - 1 >= number:
                    return at
                if start.word == "JSR":
                    inner = start.registers.pc + 3
        return None

    def frames_of(self, number):
        """The frames that the instruction of this number opens, and the interrupts after it, the
        outermost first."""
        one, found = self.starts[number], []
        other = self.starts[number + 1] if number + 1 < len(self.starts) else None
        if one.word in ("JSR", "BRK"):
            found.append(("call" if one.word == "JSR" else "BRK", one.registers.s))
        if other is not None and not self.is_reset(one, other):
            after = (
                one.registers.x if one.word == "TXS" else one.registers.s + LEVELS.get(one.word, 0)
            )
            found += [
                ("interrupt", (after - 3 * more) % 256) for more in range(sequences(one, other))
            ]
        return found

    def all_frames(self):
        """Each frame of the run: kind, number of its start, and the number of the start at which it
        is over."""
        if not hasattr(self, "_frames"):
            self._frames = []
            for number in range(len(self.starts) - 1):
                for kind, level in self.frames_of(number):
                    self._frames.append((kind, number, self.over(kind, number, level)))
        return self._frames

    def open_at(self, number):
        """The frames that are open at a start, the innermost first."""
        return [
            it for it in self.all_frames() if it[1] < number and (it[2] is None or it[2] > number)
        ][::-1]


class Truth:
    """A run with all that is known of it."""

    def __init__(self, rng, folder, ticks, program):
        self.program, self.folder, self.ticks = program, folder, ticks
        self.alone = rng.random() < 0.15
        self.speed = 3 if self.alone or rng.random() < 0.7 else 4
        put = self._put
        put("os", program.asm("6502", host_source(rng, self.alone).encode()))
        words = ["--os", "os"]
        for slot in range(4):
            if rng.random() < 0.8:
                put(f"rom{slot}", program.asm("6502", rom_source(rng, slot).encode()))
                words += [f"--rom{slot}", f"rom{slot}"]
        events = sorted(rng.randrange(ticks // 8, ticks) for _ in range(rng.choice((0, 0, 1, 3))))
        put("keys", b"".join(b"at %d break\n" % tick for tick in events))
        words += ["--keys", "keys"]
        if not self.alone:
            put("tube", program.asm("65c02", para_source(rng).encode()))
            words += ["--tube", "tube", "--speed", str(self.speed)]
        words = [self._at(word) if os.path.exists(self._at(word)) else word for word in words]
        self.events = events
        if self.alone:
            self.past = Past.of_words(program, ["host", str(ticks + MORE), "x"] + words)
            self.asked = Past.of_words(program, ["host", str(ticks), "x"] + words)
            self.words = words
        else:
            program.done(
                ["solo", str(ticks + MORE), "all", "--save", "all.session"] + words, folder
            )
            self.past = Past.of_session(program, self._at("all.session"))
            if rng.random() < 0.2:
                most = str(max(60, self.past.traffic.place(rng.randrange(ticks // 2, ticks)) // 20))
                program.done(
                    ["solo", str(ticks), "part", "--keep", most, "--save", "part.session"] + words,
                    folder,
                )
                self.asked = Past.of_session(program, self._at("part.session"))
            else:
                self.asked = Past.of_words(program, ["solo", str(ticks), "x"] + words)
        self.end = self.asked.held
        trace = self.past.trace
        self.accesses = list(Trace(self.past.head + trace)) if trace else []
        self.known, self.resets = {}, self._resets()
        self._follow_tube()
        self.sides = {side: Side(self, side) for side in self.past.sides}

    def _at(self, name):
        return os.path.join(self.folder, name)

    def _put(self, name, data):
        with open(self._at(name), "wb") as file:
            file.write(data)

    def close(self):
        self.past.close()
        self.asked.close()

    def _resets(self):
        breaks = (
            [access.tick for access in self.accesses if access.way == "X"]
            if not self.alone
            else self.events
        )
        para, is_set, self.sets = [], False, []
        for access in self.accesses:
            if access.way == "X":
                para.append(access.tick)
                is_set = False
            elif (
                access.side == "H"
                and access.way == "W"
                and access.register == 0
                and access.byte & 32
            ):
                if access.byte & 128 and not is_set:
                    para.append(access.tick)
                    self.sets.append(access.tick)
                is_set = bool(access.byte & 128)
        return {"host": breaks, "para": para}

    # Each access that took a byte, with the one that gave it; and each that lost one.
    def _follow_tube(self):
        tube, self.takes, self.losses, self.tubes = Tube(), {"H": [], "P": []}, [], []
        for access in self.accesses:
            self.tubes.append(tube.text())
            key = (access.side, access.register // 2 + 1)
            is_taken = access.way == "R" and access.register % 2 == 1 and bool(tube.held[key])
            lost = sum(tube.lost.values())
            answer = tube.put(access)
            if access.way == "R" and answer != access.byte:
                raise Fault(f"the model of the Tube answers {answer:02X}: {access.line()}")
            if is_taken:
                self.takes[access.side].append(tube.taken[key])
            if sum(tube.lost.values()) > lost:
                self.losses.append(access)
        self.tubes.append(tube.text())

    def state(self, side, tick):
        """Registers, memory and whether it is held, by a run up to the tick."""
        if tick not in self.known:
            if len(self.known) > 400:
                self.known.pop(next(iter(self.known)))
            if self.alone:
                words = ["replay", "host", os.devnull, str(tick), "at", "--no-tube"] + self.words
            else:
                words = ["resume", "all.session", str(tick), "at", "--keep", "0"]
            self.program.done(words, self.folder)
            with open(self._at("at.report"), "rb") as file:
                text = file.read()
            report = parse(text)
            found = {}
            for name in self.past.sides:
                with open(self._at(f"at.{name}"), "rb") as file:
                    found[name] = (
                        getattr(report, name),
                        file.read(),
                        name == "para" and b" held" in text,
                    )
            self.known[tick] = found
        return self.known[tick][side]

    def memory(self, side, tick):
        return self.state(side, tick)[1]

    def held(self):
        """The ticks at which the second processor begins to be held by its reset line."""
        if not hasattr(self, "_held"):
            ends = zip(self.sets, self.sets[1:] + [self.end + 1])
            found = (
                [at for at in range(low + 1, min(high, low + 40)) if self.state("para", at)[2]]
                for low, high in ends
            )
            self._held = [it[0] for it in found if it and it[0] <= self.end]
        return self._held


# --- Questions ---


class Questions:
    """Random questions to one run, and their answers by the truth: the tick and the side to which a command leads, and what it
    shows, or "refused"."""

    def __init__(self, truth, rng):
        self.truth, self.rng, self.out = truth, rng, io.StringIO()
        self.debugger = Debugger(
            truth.asked, {side: Names() for side in ("host", "para")}, out=self.out
        )
        self.asked = self.wrong = 0

    def moment(self):
        side = self.rng.choice(self.truth.asked.sides)
        whole, end = self.truth.sides[side], self.truth.end
        kind = self.rng.randrange(8)
        tick = self.rng.randrange(end + 1)
        start = self.rng.choice(whole.starts).tick
        near = self.rng.choice(self.truth.resets[side] or [0]) + self.rng.randrange(-20, 80)
        gaps = [other.tick for one, other in self.some(whole) if sequences(one, other)] or [0]
        tick = [
            tick,
            start,
            start + self.rng.choice((-1, 1)),
            near,
            self.rng.choice(gaps) - self.rng.randrange(30),
            end - self.rng.choice((0, 1, 2, 7, 20)),
            self.rng.choice((0, 1, 15, 40)),
            start,
        ][kind]
        return side, min(max(tick, 0), end)

    def some(self, whole):
        at = self.rng.randrange(len(whole.starts))
        return list(zip(whole.starts[at : at + 2000], whole.starts[at + 1 : at + 2001]))

    def ask(self):
        side, tick = self.moment()
        whole = self.truth.sides[side]
        name = self.rng.choice([it for it in QUESTIONS if side == "para" or it not in ("high",)])
        if self.truth.alone and name in ("access", "sender", "lost", "held"):
            return
        line, wanted = QUESTIONS[name](self, whole, side, tick)
        if line is None:
            return
        self.debugger.past, self.debugger.side, self.debugger.tick = self.truth.asked, side, tick
        self.out.seek(0)
        self.out.truncate()
        try:
            self.debugger.do(line)
            found = (self.debugger.side, self.debugger.tick)
        except Fault as fault:
            found = "refused"
            self.out.write(str(fault))
        said = self.out.getvalue()
        self.asked += 1
        place, test = (
            wanted
            if isinstance(wanted, tuple) and callable(wanted[1])
            else (wanted, lambda _: True)
        )
        if found != place or found != "refused" and not test(said):
            self.wrong += 1
            print(f"{side} {tick} {name}: {line}: {found}, not {place}\n    {said.strip()[:300]}")

    def goes(self, whole, number, text=None):
        """Leads to the start of this number."""
        if (
            number is None
            or not 0 <= number < len(whole.starts)
            or whole.ticks[number] > self.truth.end
        ):
            return "refused"
        start = whole.starts[number]
        return (whole.side, start.tick), lambda said: start.text in said and (
            text is None or text in said
        )

    def step(self, whole, side, tick):
        count = int(2 ** self.rng.uniform(0, 12))
        return f"step {count}", self.goes(whole, whole.at(tick) + count)

    def back(self, whole, side, tick):
        count = int(2 ** self.rng.uniform(0, 12))
        return f"back {count}", self.goes(whole, whole.at(tick - 1) + 1 - count)

    def go(self, whole, side, tick):
        phase, state = whole.phase(tick), self.truth.state(side, tick)
        form = "%04X A=%02X X=%02X Y=%02X S=%02X P=%02X " % state[0][:6]

        def test(said):
            if phase == "sequence":
                return form in said and " begins" in said
            return (
                form in said
                and said.rstrip().endswith(phase)
                or phase == "held"
                and "held by" in said
            )

        return f"go {tick}", ((side, tick), test)

    def where(self, whole, side, tick):
        done = [it for it in self.truth.accesses if it.tick < tick and it.side == LETTER[side]]
        tube = self.truth.tubes[bisect.bisect_left([it.tick for it in self.truth.accesses], tick)]

        def test(said):
            return (self.truth.alone or f"tube {tube}\n" in said) and (
                not done or f"     {done[-1].tick} " in said
            )

        return "where", ((side, tick), test)

    def memory(self, whole, side, tick):
        state = self.truth.memory(side, tick)
        at = self.rng.choice((0x60, 0x70, 0x100, 0x1F0, 0x200, 0x300, 0x900))
        return f"memory {at:04X} 16", (
            (side, tick),
            lambda said: said[6:53] == state[at : at + 16].hex(" ").upper(),
        )

    def high(self, whole, side, tick):
        at = self.rng.choice((0xF7F8, 0xF800, 0xF900, 0xFF00, 0xFFF0))
        data = bytearray(self.truth.memory(side, tick))
        if any(begun <= tick <= out for begun, out in whole.rom_times):
            data[0xF800:] = self.truth.past.inputs.images["tube"]
        return f"memory {at:04X} 16", (
            (side, tick),
            lambda said: said[6:53] == bytes(data[at : at + 16]).hex(" ").upper(),
        )

    def roms(self, whole, side, tick):
        if side == "para":
            return None, None
        slot, number = 0, whole.at(tick)
        for one, other in zip(whole.starts[: number + 1], whole.starts[1:]):
            word, _, operand = one.text.partition(" ")
            if word not in ("STA", "STX") or not operand.startswith("&FE"):
                continue
            at = int(operand[1:5], 16) + (one.registers.x if operand.endswith(",X") else 0)
            done = other.tick - 7 * whole.cycle * sequences(one, other) - whole.cycle
            if 0xFE30 <= at <= 0xFE3F and done < tick:
                slot = getattr(one.registers, word[2].lower()) & 15
        image = self.truth.past.inputs.images.get(f"rom{slot}", b"\xff" * 8192)
        return "memory 8000 16", (
            (side, tick),
            lambda said: said[6:53] == image[:16].hex(" ").upper(),
        )

    def list(self, whole, side, tick):
        number = whole.at(tick)
        if number < 0 or whole.ticks[number] != tick:
            return None, None
        start = whole.starts[number]
        return "list", (
            (side, tick),
            lambda said: said.splitlines()[0] == "%04X %s" % (start.registers.pc, start.text)
            and (
                len(said.splitlines()) < 2
                or said.splitlines()[1].startswith(
                    "%04X " % (start.registers.pc + length_of(start.text))
                )
            ),
        )

    def stack(self, whole, side, tick):
        registers, memory, _ = self.truth.state(side, tick)
        data = memory[0x101 + registers.s : 0x200]
        return "stack", (
            (side, tick),
            lambda said: bytes.fromhex("".join(line[6:] for line in said.splitlines()[1:])) == data,
        )

    def until(self, whole, side, tick, back=False):
        pc = self.rng.choice(whole.starts).registers.pc
        other = self.rng.choice(whole.starts).registers
        log = [it for it in whole.log if it[2] < 0xF800]
        how = self.rng.randrange(4 if log else 3)
        if how == 3:
            at, byte = self.rng.choice(log)[2::2]
            log = [it for it in log if it[2] == at]
            line = f"if ({at:04X})={byte:02X} and S>{other.s:02X}"

            def test(it):
                done = bisect.bisect_left([one[1] for one in log], it.tick + 1)
                return it.registers.s > other.s and (log[done - 1][4] if done else 0) == byte
        elif how == 0:
            line, test = f"{pc:04X}", lambda it: it.registers.pc == pc
        elif how == 1:
            line, test = (
                f"{pc:04X} {other.pc:04X} if S<{other.s:02X}",
                lambda it: it.registers.pc in (pc, other.pc) and it.registers.s < other.s,
            )
        else:
            line = f"if A={other.a:02X} and pc outside {pc:04X}..FFFF"

            def test(it):
                return it.registers.a == other.a and it.registers.pc < pc

        places = (
            range(whole.at(tick - 1), -1, -1)
            if back
            else range(whole.at(tick) + 1, len(whole.starts))
        )
        found = next((at for at in places if test(whole.starts[at])), None)
        return ("before " if back else "until ") + line, self.goes(whole, found)

    def before(self, whole, side, tick):
        return self.until(whole, side, tick, True)

    # The changes of a range before a tick or after it, by the log; and what an instruction under
    # way has done.
    def changes(self, whole, tick, low, high):
        number, memory = whole.at(tick), self.truth.memory(whole.side, tick)
        now = {}
        if number >= 0 and whole.ticks[number] < tick:
            ram = whole.ram_at(number)
            now = {
                at: (ram[at], memory[at]) for at in range(low, high + 1) if ram[at] != memory[at]
            }
        log = [it for it in whole.log if low <= it[2] <= high]
        return number, now, [it for it in log if it[1] <= tick], [it for it in log if it[1] > tick]

    def place(self, whole):
        if whole.log and self.rng.random() < 0.9:
            at = self.rng.choice(whole.log)[2]
        else:
            at = self.rng.choice((0x50, 0x1FE, 0xF800 if whole.side == "para" else 0x7C00))
        # The debugger searches for up to 16 bytes one by one, and for more by what is written.
        more = self.rng.choice((1, 2, 3, 4, 7, 11, 15, 16, 40, 255, 700))
        high = at if self.rng.random() < 0.6 else min(at + more, len(whole.final) - 1)
        at = at if at == high else max(0, at - self.rng.randrange(more))
        return at, high, f"{at:04X}" if at == high else f"{at:04X}..{high:04X}"

    def who(self, whole, side, tick):
        low, high, line = self.place(whole)
        number, now, before, _ = self.changes(whole, tick, low, high)
        if now:
            at = min(now)
            return f"who {line}", (
                (side, whole.ticks[number]),
                lambda said: any(
                    f"{at:04X}: {old:02X} to {new:02X}" in said for at, (old, new) in now.items()
                ),
            )
        if not before:
            return f"who {line}", "refused"
        number = before[-1][0]
        last = [it for it in before if it[0] == number]
        return f"who {line}", (
            (side, whole.ticks[number]),
            lambda said: any(
                said.startswith(f"{at:04X}: ") and f"to {new:02X}" in said
                for _, _, at, _, new in last
            ),
        )

    def change(self, whole, side, tick):
        low, high, line = self.place(whole)
        number, now, _, after = self.changes(whole, tick, low, high)
        memory, end = self.truth.memory(side, tick), self.truth.end
        done = [
            it for it in after if not (number >= 0 and it[0] == number and memory[it[2]] == it[4])
        ]
        final = self.truth.memory(side, end)
        inside = [it for it in done if it[1] <= end]
        if inside:
            return f"change {line}", (
                (side, inside[0][1]),
                lambda said: any(
                    f"{it[2]:04X}: " in said and f"to {it[4]:02X}" in said
                    for it in inside
                    if it[1] == inside[0][1]
                ),
            )
        # The last instruction may have done it before the end.
        last = whole.at(end)
        ram = whole.ram_at(last) if last >= 0 else bytes(len(final))
        base = memory if last == number else ram
        if last >= 0 and any(base[at] != final[at] for at in range(low, high + 1)) and tick < end:
            return f"change {line}", (side, end)
        return f"change {line}", "refused"

    def access(self, whole, side, tick):
        one = self.rng.choice(self.truth.accesses)
        if one.way == "X":
            return None, None
        back = self.rng.random() < 0.5
        key = (tick, side == "para")
        places = [
            it for it in self.truth.accesses if it[1:4] == one[1:4] and it.tick < self.truth.end
        ]
        found = [
            it
            for it in places
            if ((it.tick, it.side == "P") < key if back else (it.tick, it.side == "P") > key)
        ]
        word = (
            str(one.register)
            if self.rng.random() < 0.5
            else f"{'sr'[one.register % 2]}{one.register // 2 + 1}"
        )
        line = f"access {one.side} {one.way} {word}" + " back" * back
        if not found:
            return line, "refused"
        it = found[-1 if back else 0]
        return line, ({"H": "host", "P": "para"}[it.side], it.tick)

    def sender(self, whole, side, tick):
        found = [
            it
            for it in self.truth.takes[LETTER[side]]
            if it[0].tick <= tick and it[0].tick < self.truth.end
        ]
        if not found or found[-1][1] is None:
            return "sender", "refused"
        giver = found[-1][1]
        return "sender", ({"H": "host", "P": "para"}[giver.side], giver.tick)

    def lost(self, whole, side, tick):
        back, key = self.rng.random() < 0.5, (tick, side == "para")
        found = [
            it
            for it in self.truth.losses
            if it.tick < self.truth.end
            and ((it.tick, it.side == "P") < key if back else (it.tick, it.side == "P") > key)
        ]
        line = "lost" + " back" * back
        if not found:
            return line, "refused"
        it = found[-1 if back else 0]
        return line, ({"H": "host", "P": "para"}[it.side], it.tick)

    def next(self, whole, side, tick):
        number = whole.at(tick)
        frames = whole.frames_of(number) if number >= 0 else []
        if not frames:
            return "next", self.goes(whole, number + 1)
        over = whole.over(frames[0][0], number, frames[0][1])
        return "next", self.goes(whole, over)

    def previous(self, whole, side, tick):
        number = whole.at(tick - 1)
        here = whole.at(tick)
        if number < 0:
            return "previous", "refused"
        if whole.ticks[here] == tick and not whole.is_reset(
            whole.starts[number], whole.starts[here]
        ):
            for kind, frame, over in whole.open_at(number):
                if over != here:
                    break
                number = frame
        return "previous", self.goes(whole, number)

    def back_out(self, whole, side, tick):
        frames = whole.open_at(whole.at(tick)) if whole.at(tick) >= 0 else []
        return "return", self.goes(whole, frames[0][2]) if frames else "refused"

    def caller(self, whole, side, tick):
        frames = whole.open_at(whole.at(tick)) if whole.at(tick) >= 0 else []
        return "caller", self.goes(whole, frames[0][1]) if frames else "refused"

    def backtrace(self, whole, side, tick):
        frames = whole.open_at(whole.at(tick)) if whole.at(tick) >= 0 else []
        wanted = [str(whole.ticks[frame[1]]) for frame in frames][:32]
        return "backtrace", (
            (side, tick),
            lambda said: [line.split()[0] for line in said.splitlines()[1:]] == wanted,
        )

    def interrupt(self, whole, side, tick):
        back = self.rng.random() < 0.5
        found = [
            at + 1
            for at, (one, other) in enumerate(whole.pairs())
            if sequences(one, other)
            and not whole.is_reset(one, other)
            and (other.tick < tick if back else other.tick > tick)
        ]
        return "interrupt" + " back" * back, self.goes(
            whole, (found[-1] if back else found[0]) if found else None
        )

    def reset(self, whole, side, tick):
        back = self.rng.random() < 0.5
        found = [
            at + 1
            for at, (one, other) in enumerate(whole.pairs())
            if whole.is_reset(one, other) and (other.tick < tick if back else other.tick > tick)
        ]
        return "reset" + " back" * back, self.goes(
            whole, (found[-1] if back else found[0]) if found else None
        )

    # To the host's first start after a BREAK.
    def break_(self, whole, side, tick):
        line, place = self.reset(self.truth.sides["host"], "host", tick)
        return line.replace("reset", "break"), place

    def held(self, whole, side, tick):
        back = self.rng.random() < 0.5
        found = [it for it in self.truth.held() if (it < tick if back else it > tick)]
        line = "held" + " back" * back
        return line, ("para", found[-1 if back else 0]) if found else "refused"

    def readers(self, whole, side, tick):
        if not whole.log:
            return None, None
        at = self.rng.choice(whole.log)[2]
        last = 0xF7FF if side == "para" else 0x7FFF
        if at > last:
            return None, None
        high = min(at + self.rng.choice((0, 0, 1, 4, 9, 15, 300)), last)
        line = f"readers {at:04X}" if at == high else f"readers {at:04X}..{high:04X}"
        first = whole.at(tick) + 1
        ram = bytearray(whole.ram_at(max(first, 0)))
        images = self.truth.past.inputs.images
        log = iter([it for it in whole.log if it[0] >= first])
        entry = next(log, None)
        for number in range(first, len(whole.starts)):
            while entry is not None and entry[0] < number:
                ram[entry[2]] = entry[4]
                entry = next(log, None)
            reads = effects_of(
                whole.starts[number],
                lambda it: ram[it]
                if it < len(ram)
                else (images["os"][it - 0xC000] if it >= 0xC000 else 0),
            ).reads
            if any(at <= it <= high for it in reads):
                return line, self.goes(whole, number)
        return line, "refused"


QUESTIONS = {
    name: getattr(Questions, name)
    for name in (
        "step",
        "back",
        "go",
        "where",
        "memory",
        "high",
        "roms",
        "list",
        "stack",
        "until",
        "before",
        "who",
        "change",
        "access",
        "sender",
        "lost",
        "next",
        "previous",
        "back_out",
        "caller",
        "backtrace",
        "interrupt",
        "reset",
        "break_",
        "held",
        "readers",
    )
}


def sizes(rng):
    """Short listings in half of the runs: a run then needs several, as a long one does."""
    if rng.random() < 0.5:
        return contextlib.nullcontext()
    near = rng.choice((500, 2000, 8000))
    far, some = near * rng.choice((2, 8)), near * rng.choice((2, 30))
    most = rng.choice((0, 50, machine.CHOSEN, machine.CHOSEN))
    return mock.patch.multiple(
        machine, NEAR=near, FAR=far, SOME=some, WIDE=4 * some, MANY=1000, CHOSEN=most
    )


def compare(answers, seed, ticks, each=60, verbose=False):
    """Asks this many questions, some of each of random runs; gives how many were asked, and how many
    answers differ."""
    asked = wrong = number = 0
    program = Program()
    while asked < answers:
        rng = random.Random(f"{seed} {number}")
        number += 1
        with tempfile.TemporaryDirectory() as folder:
            truth = Truth(rng, folder, rng.randrange(ticks // 2, ticks), program)
            try:
                questions = Questions(truth, rng)
                with sizes(random.Random(f"sizes {seed} {number}")):
                    while questions.asked < min(each, answers - asked):
                        questions.ask()
            finally:
                truth.close()
        asked, wrong = asked + questions.asked, wrong + questions.wrong
        if verbose or questions.wrong:
            print(
                f"run {number - 1} of seed {seed}: {questions.asked} answers, {questions.wrong} wrong",
                flush=True,
            )
    return asked, wrong


def main():
    reader = argparse.ArgumentParser(description=__doc__)
    reader.add_argument("--answers", type=int, default=10000)
    reader.add_argument("--seed", type=int, default=1)
    reader.add_argument("--ticks", type=int, default=200000)
    reader.add_argument("--each", type=int, default=100)
    reader.add_argument("--verbose", action="store_true")
    given = reader.parse_args()
    asked, wrong = compare(given.answers, given.seed, given.ticks, given.each, given.verbose)
    print(f"{asked} answers, {wrong} differ")
    sys.exit(1 if wrong else 0)


if __name__ == "__main__":
    main()
