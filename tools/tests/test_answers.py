"""The debugger's answers that were wrong once, and all commands beside complete listings."""
import importlib.util
import io
import json
import os
import random
import sys
import unittest
from unittest import mock

from common import TOP, Case, call, put

import beebtube
from beebtube import machine, past
from beebtube.calls import Calls
from beebtube.conditions import condition
from beebtube.debugging import Debugger
from beebtube.effects import BRANCHES, effects_of, sequences, touching
from beebtube.faults import Fault
from beebtube.listings import Start
from beebtube.machine import Machine
from beebtube.naming import Names
from beebtube.program import Program
from beebtube.report import Registers

# Text after a JSR, which is gone through by the return address; a return address that is dropped; a
# paged ROM that 00F4 does
# not tell; and a store that is the last instruction, at 40,000 ticks.
CALLS = """
        org &C000
start:  LDX #&FF
        TXS
        LDA #2
        STA &FE30
        LDA #0
        STA &F4
loop:   JSR text
        byte 72,105,0
after:  JSR drop
back:   JSR &8000
behind: INC &70
        JMP loop
text:   PLA
        STA &80
        PLA
        STA &81
        LDY #0
next:   INC &80
        LDA (&80),Y
        BEQ done
        JSR sub
        JMP next
done:   LDA &81
        PHA
        LDA &80
        PHA
        RTS
drop:   JSR deep
never:  INC &FF
deep:   PLA
        PLA
dropped: RTS
sub:    INC &71
subrts: RTS
        org &FFFA
        word start, start, start
"""
ROM = """
        org &8000
        JSR inner
ends:   RTS
inner:  INC &72
        RTS
        org &9FFF
        byte 0
"""
# The host gives four bytes, of which the second takes the place of the first, and others by what
# register 3 holds.
LOSES = """
        org &C000
start:  LDA #&11
        STA &FEE1
        LDA #&22
        STA &FEE1
        LDA #&33
        STA &FEE5
        LDA #&44
        STA &FEE5
loop:   JMP loop
        org &FFFA
        word start, start, start
"""
TAKES = """
        org &F800
start:  LDX #0
wait:   DEX
        BNE wait
        LDA &FEF9
        LDA &FEFD
loop:   JMP loop
        org &FFFA
        word start, start, start
"""
# The host resets the second processor while this accesses the Tube in each instruction, and gives
# it bytes between; the
# second processor's memory is not its boot ROM's.
RESETS = """
        org &C000
start:  LDX #0
        LDA #&20
        STA &70
loop:   LDY &70
wait:   DEY
        BNE wait
        INC &70
        LDA #&A0
        STA &FEE0
        LDA #&20
        STA &FEE0
        LDA #&82
        STA &FEE0
        STA &FEE1
        LDX #4
        LDY #0
more:   DEY
        BNE more
        DEX
        BNE more
        JMP loop
        org &FFFA
        word start, start, start
"""
IS_RESET = """
        org &F800
start:  LDX #&FF
        TXS
        LDX #&40
copy:   LDA &F800,X
        STA &F800,X
        LDA &FFC0,X
        STA &FFC0,X
        DEX
        BNE copy
        STX &F800
        LDA &FEF8
        INX
        STX &F800
        CLI
loop:   LDA &FEF8
        LDA &FEF8
        STA &FEFB
        JMP loop
handle: LDA &FEF9
        RTI
        org &FFFA
        word start, start, handle
"""
# A loop with a call that comes back.
PLAIN = """
        org &C000
start:  LDX #&FF
        TXS
loop:   JSR sub
        JMP loop
sub:    RTS
        org &FFFA
        word start, start, start
"""
# Both look at a status again and again.
LOOKS = """
        org &C000
start:  LDA &FEE0
        NOP
        JMP start
        org &FFFA
        word start, start, start
"""
LOOK = """
        org &F800
start:  LDX #&40
copy:   LDA &F800,X
        STA &F800,X
        DEX
        BNE copy
loop:   LDA &FEF8
        JMP loop
        org &FFFA
        word start, start, start
"""
# A store in memory whose operand is 0370 once and then again 0570, a store in a paged ROM in whose
# place another ROM is later, and then a loop without stores.
ONCE = """
        org &C000
start:  LDX #&FF
        TXS
        LDX #3
copy:   LDA code,X
        STA &0900,X
        DEX
        BPL copy
        JSR &0900
        LDA #2
        STA &FE30
        JSR &8000
        LDA #0
        STA &FE30
        JSR &8000
        LDA #3
        STA &0902
        JSR &0900
        LDA #5
        STA &0902
        JSR &0900
wait:   LDY #3
again:  DEY
        BNE again
        JMP wait
code:   STA &0570
        RTS
        org &FFFA
        word start, start, start
"""
STORES = "org &8000\nSTA &0385\nRTS\norg &9FFF\nbyte 0\n"
LOADS = "org &8000\nLDA &1385\nRTS\norg &9FFF\nbyte 0\n"


class Answers(Case):
    """Runs that are debugged in this process."""

    def debugger(self, host, para=None, ticks=40000, more=()):
        program = Program()
        put(self.at("os"), program.asm("6502", host.encode()))
        words = ["host" if para is None else "solo", str(ticks), "x", "--os", self.at("os")] + list(
            more
        )
        if para is not None:
            put(self.at("tube"), program.asm("65c02", para.encode()))
            words += ["--tube", self.at("tube")]
        made = past.Past.of_words(program, words)
        self.addCleanup(made.close)
        self.out = io.StringIO()
        return Debugger(made, {side: Names() for side in past.SIDES}, out=self.out)

    def said(self, debugger, words):
        self.out.seek(0)
        self.out.truncate()
        debugger.do(words)
        return self.out.getvalue()

    def starts(self, debugger, side):
        """All starts, as listed by the program itself."""
        one = debugger.past
        found, tick = [], -1
        while True:
            start = one.machines[side].following(tick) if tick < one.held - 1 else None
            if start is None:
                return found
            found.append(start)
            tick = start.tick

    def calls(self):
        put(self.at("rom"), Program().asm("6502", ROM.encode()))
        self.labels = beebtube.labels_of("6502", CALLS.encode())
        return self.debugger(CALLS, more=["--rom2", self.at("rom")])

    def pc(self, debugger):
        return debugger.past.machines[debugger.side].state(debugger.tick).registers.pc

    def test_text_after_a_call(self):
        debugger, labels = self.calls(), self.labels
        self.said(debugger, "go 1000; until %04X; next" % labels["loop"])
        self.assertEqual(self.pc(debugger), labels["after"])
        self.said(debugger, "before %04X; until %04X; return" % (labels["loop"], labels["done"]))
        self.assertEqual(self.pc(debugger), labels["after"])

    def test_back_past_a_call_from_one_that_took_its_return_address(self):
        debugger, labels = self.calls(), self.labels
        self.said(debugger, "go 1000; until %04X; step" % labels["subrts"])
        self.said(debugger, "previous")
        self.assertEqual(self.pc(debugger), labels["next"] + 6)

    def test_how_many_replays(self):
        """One listing for a moment and what is near, and one search for a change."""
        debugger, labels = self.calls(), self.labels
        program = debugger.past.program
        for words, most in (("go 20001", 1), ("step; back; next; previous", 0),
                            ("until %04X; before %04X" % (labels["sub"], labels["loop"]), 0),
                            ("go 20001; backtrace", 1), ("who 81", 2), ("change 70..73", 1)):
            with mock.patch.object(program, "done", wraps=program.done) as done:
                self.said(debugger, words)
            self.assertLessEqual(done.call_count, most, words)

    def test_changes_of_a_short_range(self):
        """More bytes than replays side by side."""
        debugger, labels = self.calls(), self.labels
        said = self.said(debugger, "go 2000; until %04X; who 71..7F" % labels["subrts"])
        self.assertIn("\n0071: ", said)
        self.assertEqual(self.pc(debugger), labels["sub"])

    def test_return_address_dropped(self):
        debugger, labels = self.calls(), self.labels
        self.said(debugger, "go 1000; until %04X; step; return" % labels["deep"])
        self.assertEqual(self.pc(debugger), labels["back"])
        self.said(debugger, "before %04X; next" % labels["drop"])
        self.assertEqual(self.pc(debugger), labels["back"])

    def test_return_within_an_rts(self):
        debugger, labels = self.calls(), self.labels
        self.said(debugger, "go 1000; until %04X" % labels["subrts"])
        after = debugger.past.machines["host"].following(debugger.tick).tick
        self.said(debugger, "go +3; return")
        self.assertEqual(debugger.tick, after)

    def test_no_call_is_open(self):
        """In start-up code `return` does not take the RTI of an interrupt for its way out."""
        debugger = self.debugger(RESETS, IS_RESET)
        self.said(debugger, "para; go 100")
        self.assertRaises(Fault, self.said, debugger, "return")

    def test_byte_in_a_condition(self):
        """It is known from one search for its changes, and takes no replay for each start."""
        debugger = self.debugger(ONCE, ticks=20000)
        program = debugger.past.program
        with mock.patch.object(program, "done", wraps=program.done) as done:
            self.said(debugger, "go 0; until if (0571)=00 and (0570)=8D")
            self.said(debugger, "before if (0570)=00; before if (0900)!=8D")
        self.assertEqual((self.pc(debugger), done.call_count < 9), (0xC008, True))

    def test_listings_that_are_in_use(self):
        """A listing can be read while others take its place."""
        host = self.calls().past.machines["host"]
        with mock.patch.multiple(machine, NEAR=200, KEPT=0):
            listing = host.around((), 1000)
            for tick in range(3000, 12000, 1000):
                host.around((), tick)
            self.assertIsNot(host.around((), 1000), listing)
        self.assertEqual(listing.start(listing.first).tick // 100, 9)

    def test_far_away(self):
        """Two replays find what addresses may do it and where; if these have too many starts, all
        listings are gone through."""
        for slot, source in ((0, LOADS), (2, STORES)):
            put(self.at(f"rom{slot}"), Program().asm("6502", source.encode()))
        roms = ["--rom0", self.at("rom0"), "--rom2", self.at("rom2")]
        stored = (
            ("who 0370..0371", "0370: 00 to 03\n", 0x0900),
            ("who 0380..03FF", "0385: 00 to 02\n", 0x8000),
            ("who 0300..036F", None, None),
            ("before if pc outside 8000..FFFF", "", 0x0903),
            ("before if pc in 8000..BFFF and A=02", "", 0x8003),
            ("go 0; change 0370..03FF", "0385: 00 to 02\n", 0x8003),
            ("go 0; readers 1385..1386", "", 0x8000),
            ("go 0; until if pc in 0000..7FFF and A=03", "", 0x0900),
            ("before if (0370)=00 and pc in 0000..7FFF", "", 0x0900),
            ("go 0; until if (0370)=03", "", 0x0903),
        )
        few = dict(NEAR=200, FAR=400, SOME=800, OVERLAP=100)
        for most in (0, 1 << 17):
            for words, shown, pc in stored:
                debugger = self.debugger(ONCE, ticks=20000, more=roms)
                program = debugger.past.program
                with mock.patch.multiple(machine, CHOSEN=most, **few), mock.patch.object(
                    program, "done", wraps=program.done
                ) as done:
                    if shown is None:
                        self.assertRaises(Fault, self.said, debugger, words)
                    else:
                        self.assertIn(shown, self.said(debugger, words))
                if most:
                    self.assertLess(done.call_count, 9, words)
                if pc is not None:
                    self.assertEqual(self.pc(debugger), pc, words)

    def test_backtrace_where_no_call_is_open(self):
        """It lists the instructions once, and does not look for the end of each call before."""
        debugger = self.debugger(PLAIN, ticks=600000)
        self.said(debugger, "before C003")
        follow = mock.patch.object(Machine, "follow", autospec=True, side_effect=Machine.follow)
        with follow as follows, mock.patch.object(Calls, "over") as over:
            said = self.said(debugger, "backtrace")
        self.assertEqual((follows.call_count, over.call_count, said.count("\n")), (1, 0, 1))

    def test_paged_rom_that_00F4_does_not_tell(self):
        debugger, labels = self.calls(), self.labels
        self.assertIn("JSR &8004", self.said(debugger, "go 1000; until 8000; go +0"))
        self.assertIn("JSR &8004", self.said(debugger, "where"))
        self.assertIn("20 04 80", self.said(debugger, "memory 8000 3"))
        self.said(debugger, "next")
        self.assertEqual(self.pc(debugger), 0x8003)
        self.said(debugger, "next")
        self.assertEqual(self.pc(debugger), labels["behind"])

    def test_last_instruction_of_a_run(self):
        stores = [
            start.tick for start in self.starts(self.calls(), "host") if start.text == "INC &70"
        ]
        # The write is done, and the next instruction begins at the run's end, or would.
        for ticks in (stores[-1] + 15, stores[-1] + 14):
            debugger = self.debugger(CALLS, ticks=ticks, more=["--rom2", self.at("rom")])
            self.said(debugger, "who 70")
            self.assertEqual(debugger.tick, stores[-1])
            self.said(debugger, "change 70")
            self.assertEqual(debugger.tick, ticks)
        self.said(debugger, "go 0; step")
        first = debugger.tick
        self.assertRaises(Fault, self.said, debugger, "go %d; back" % first)

    def test_bytes_that_are_lost(self):
        debugger = self.debugger(LOSES, TAKES)
        gives = [it for it in self.starts(debugger, "host") if it.text.startswith("STA &FEE")]
        takes = [it for it in self.starts(debugger, "para") if it.text.startswith("LDA &FEF")]
        for take, give in zip(takes, (gives[1], gives[3])):
            self.said(
                debugger, "para; go %d" % debugger.past.machines["para"].following(take.tick).tick
            )
            self.assertIn("takes %02X" % give.registers.a, self.said(debugger, "sender"))
            self.assertEqual(
                (debugger.side, debugger.past.machines["host"].current(debugger.tick)),
                ("host", give),
            )

    def test_boot_rom_after_each_reset(self):
        debugger = self.debugger(RESETS, IS_RESET, ticks=80000)
        rom = debugger.past.inputs.images["tube"]
        begun = [
            it.tick
            for it in self.starts(debugger, "para")
            if it.text == "LDX #&FF" and it.registers.pc == 0xF800
        ]
        self.assertGreater(len(begun), 4)
        for tick in begun:
            self.assertIn("LDX #&FF", self.said(debugger, "para; go %d" % tick))
            self.assertIn(rom[:2].hex(" ").upper(), self.said(debugger, "memory F800 2"))

    def test_changes_under_the_boot_rom(self):
        debugger = self.debugger(RESETS, IS_RESET, ticks=80000)
        stores = [it for it in self.starts(debugger, "para") if it.text == "STX &F800"]
        # The second store of a time changes 00 to 01, and the first of the next changes it back.
        changes = [
            (one, other)
            for one, other in zip(stores, stores[1:])
            if one.registers.x != other.registers.x
        ]
        self.assertGreater(len(changes), 6)
        debugger.side = "para"
        for before, store in changes:
            after = debugger.past.machines["para"].following(store.tick).tick
            told = self.said(debugger, "go %d; who F800" % after)
            self.assertEqual(debugger.tick, store.tick)
            self.assertIn("F800: %02X to %02X" % (before.registers.x, store.registers.x), told)
            self.said(debugger, "change F800")
            self.assertEqual(debugger.tick, after)

    def test_accesses_at_one_tick(self):
        debugger = self.debugger(LOOKS, LOOK)
        lines = [line.split() for line in debugger.past.trace.decode().splitlines()]
        both = [
            (one, other)
            for one, other in zip(lines, lines[1:])
            if one[0] == other[0] and one[2] != "X"
        ]
        self.assertTrue(both)
        for one, other in both[:20]:
            tick = int(one[0], 16)
            self.said(debugger, "host; go %d; access %s" % (tick, " ".join(other[1:4])))
            self.assertEqual((debugger.side, debugger.tick), ("para", tick))
            self.said(debugger, "access %s back" % " ".join(one[1:4]))
            self.assertEqual((debugger.side, debugger.tick), ("host", tick))

    def test_what_comes_next(self):
        debugger = self.debugger(RESETS, IS_RESET)
        one = debugger.past.machines["para"]
        handled = [it for it in self.starts(debugger, "para") if it.text == "LDA &FEF9"]
        self.assertTrue(handled)
        at = handled[0].registers.pc
        self.assertIn(
            "IRQ begins, then %04X" % at, self.said(debugger, "para; go %d" % (handled[0].tick - 5))
        )
        reset = next(tick for tick in one.past.resets("para") if tick > handled[0].tick)
        after = one.following(reset).tick
        self.assertIn("reset begins, then F800", self.said(debugger, "go %d" % (after - 3)))
        held = [tick for tick in range(reset, after) if " held" in self.report(debugger, tick)]
        self.assertIn("held", self.said(debugger, "go %d; where" % held[0]))

    def report(self, debugger, tick):
        one = debugger.past
        one.program.done(
            ["replay", "para", one.cut(tick), str(tick), "now"] + one.options("para"), one.folder
        )
        with open(os.path.join(one.folder, "now.report")) as file:
            return file.read()

    def test_behind_the_last_access(self):
        """`go` one tick past what is held, and back: to the last start that is held."""
        program = Program()
        self.debugger(RESETS, IS_RESET)
        for most in (40, 47, 51):
            program.done(
                [
                    "solo",
                    "40000",
                    "part",
                    "--os",
                    "os",
                    "--tube",
                    "tube",
                    "--keep",
                    str(most),
                    "--save",
                    "session",
                ],
                self.folder,
            )
            one = past.Past.of_words(
                program, ["solo", "40000", "x", "--os", self.at("os"), "--tube", self.at("tube")]
            )
            with open(self.at("part.trace"), "rb") as file:
                trace = file.read()
            from beebtube.inputs import Fields

            with open(self.at("session"), "rb") as file:
                short = past.Past(program, Fields(file.read()), "part", None, trace, 40000)
            held = short.held
            for side in past.SIDES if held < 40000 else ():
                whole, part = (
                    Debugger(it, {name: Names() for name in past.SIDES}, out=self.out)
                    for it in (one, short)
                )
                for debugger in (whole, part):
                    debugger.side = side
                    self.said(debugger, "go %d; back" % (held + 1))
                last = one.machines[side].preceding(held + 1).tick
                self.assertEqual(whole.tick, last)
                # What is held may end in the midst of an access at that tick.
                self.assertIn(part.tick, {last, one.machines[side].preceding(held).tick})
                if last < held:
                    self.assertEqual(part.tick, last)
            one.close()
            short.close()

    def test_a_damaged_session_is_explained(self):
        self.debugger(LOSES, TAKES)
        self.launcher("solo", "40000", "all", "--os", "os", "--tube", "tube", "--save", "session")
        with open(self.at("session"), "rb") as file:
            whole = file.read()
        put(self.at("damaged"), whole[:-1] + bytes([whole[-1] ^ 1]))
        told = self.tool("debug", "damaged", "-c", "quit", status=1).err
        self.assertIn("damaged is damaged, or from another program: its access", told)

    def test_held_and_break(self):
        """From where the reset line holds the second processor, and where BREAK led, each way."""
        put(self.at("keys"), b"at 20000 break\nat 33001 break\n")
        debugger = self.debugger(RESETS, IS_RESET, 60000, ["--keys", self.at("keys")])
        para, end = debugger.past.machines["para"], debugger.past.end
        sets = [
            int(line[:10], 16)
            for line in debugger.past.trace.splitlines()
            if line[10:] == b" H W 0 A0"
        ]
        first = [next(tick for tick in range(it, end) if para.state(tick).held) for it in sets]
        self.assertGreater(len(first), 2)
        self.said(debugger, "host; go 0")
        for tick in first:
            self.assertIn("held by its reset line", self.said(debugger, "held"))
            self.assertEqual((debugger.side, debugger.tick), ("para", tick))
        self.assertRaises(Fault, self.said, debugger, "held")
        for tick in reversed(first[:-1]):
            self.said(debugger, "held back")
            self.assertEqual(debugger.tick, tick)
        self.assertRaises(Fault, self.said, debugger, "held back")
        self.said(debugger, "go %d; held back" % (first[0] + 1))
        self.assertEqual(debugger.tick, first[0])
        host = debugger.past.machines["host"]
        after = [host.following(tick).tick for tick in (20000, 33001)]
        self.said(debugger, "para; go 0; break")
        self.assertEqual((debugger.side, debugger.tick), ("host", after[0]))
        self.said(debugger, "break")
        self.assertEqual(debugger.tick, after[1])
        self.assertRaises(Fault, self.said, debugger, "break")
        self.said(debugger, "para; break back")
        self.assertEqual((debugger.side, debugger.tick), ("host", after[0]))
        self.said(debugger, "para")
        self.assertRaises(Fault, self.said, debugger, "break back")
        self.assertEqual(debugger.side, "para")

    def test_held_after_what_is_under_way(self):
        """The reset line takes effect when the instruction has ended."""
        long = IS_RESET.replace("loop:   LDA &FEF8\n", "loop:   INC &0200,X\n")
        debugger = self.debugger(RESETS, long, 60000)
        para, resets = debugger.past.machines["para"], debugger.past.resets("held")
        first = [next(it for it in range(tick, tick + 40) if para.state(it).held) for tick in resets]
        self.assertGreater(max(at - tick for at, tick in zip(first, resets)), 4)
        for tick in first:
            self.said(debugger, "go %d; held" % (tick - 1))
            self.assertEqual((debugger.side, debugger.tick), ("para", tick))

    def test_interrupts_by_their_vectors(self):
        """They are found without the instructions between being listed."""
        debugger = self.debugger(RESETS, IS_RESET, 60000)
        self.said(debugger, "para")
        machine = debugger.machine
        starts = self.starts(debugger, "para")
        found = [other.tick for one, other in zip(starts, starts[1:]) if sequences(one, other)
                 and not any(one.tick <= it < other.tick for it in debugger.past.resets("para"))]
        self.assertGreater(len(found), 1)
        with mock.patch.object(machine, "parts", side_effect=AssertionError("all are listed")):
            self.said(debugger, "go 0")
            for tick in found:
                self.said(debugger, "interrupt")
                self.assertEqual(debugger.tick, tick)
            self.assertRaises(Fault, self.said, debugger, "interrupt")
            for tick in reversed(found[:-1]):
                self.said(debugger, "interrupt back")
                self.assertEqual(debugger.tick, tick)
            self.assertRaises(Fault, self.said, debugger, "interrupt back")

    def test_conditions_and_lines(self):
        """The form of a condition is in the line of each start for which it holds."""
        def line(start):
            return ("%010X %04X A=%02X X=%02X Y=%02X S=%02X P=%02X %s\n" % (
                start.tick, *start.registers[:6], start.text)).encode()
        debugger = self.calls()
        starts = self.starts(debugger, "host")
        for text in ("A=48", "S<FD", "P>=80 and Y=0", "pc in C000..C0FF", "pc outside C000..C0FF",
                     "X!=FF and pc<9000"):
            test = condition(text, lambda _: 0, debugger.byte)
            self.assertIsNotNone(test.form)
            held = [it for it in starts if test(it)]
            self.assertTrue(all(test.form.search(line(it)) for it in held), text)
        of_memory = [condition(text, lambda _: 0, debugger.byte).form for text in (
            "(0070)=1", "(0070)=1 and A=0")]
        self.assertEqual([form is None for form in of_memory], [True, False])

    def test_what_touches_a_range(self):
        """Each instruction that does has the form of the range, and each that writes a pointer."""
        rng, low_high = random.Random(1), [(0x74, 0x74), (0, 0xFF), (0x2000, 0x20FF), (0x10, 0x10),
                                           (0xFFFE, 0xFFFF), (0x2F0, 0x310), (0xFE40, 0xFE4F)]
        words = [*"LDA STA INC ADC TSB BIT ROR STZ STX JMP CPX".split(), *BRANCHES]
        missed = touched = 0
        for _ in range(3000):
            at, wide = rng.choice((0, 0x1F, 0x20, 0x2F, 0xFE, 0xFF)), rng.random() < 0.5
            operand = f"&{at:02X}{rng.randrange(256):02X}" if wide else f"&{rng.randrange(256):02X}"
            form = rng.choice(("%s", "%s,X", "%s,Y", "(%s)", "(%s,X)", "(%s),Y"))
            text = f"{rng.choice(words)} {form % operand}"
            if text[:3] in BRANCHES:
                text = f"{text[:3]} &C022"
            registers = Registers(0xC000, 1, rng.randrange(256), rng.randrange(256), 0xFF, 0, False)
            start = Start("para", 0, registers, text)
            effects = effects_of(start, lambda at: at * 7 & 255)
            for low, high in low_high:
                of_form = touching(low, high).search(f" P=00 {text}\n".encode())
                reached = effects.reads + [it for it, _ in effects.writes]
                if any(low <= it <= high for it in reached) or any(
                        it < 0x100 for it, _ in effects.writes):
                    touched += 1
                    missed += of_form is None
        self.assertGreater(touched, 1000)
        self.assertEqual(missed, 0)
        self.assertIsNone(touching(0x1F0, 0x200))

    def test_marks(self):
        debugger = self.debugger(LOSES, TAKES)
        self.said(debugger, "go 500; mark one; para; step 3; mark two; go end")
        tick = debugger.past.machines["para"].following(500, 3).tick
        self.said(debugger, "go one")
        self.assertEqual((debugger.side, debugger.tick), ("host", 500))
        self.said(debugger, "go two")
        self.assertEqual((debugger.side, debugger.tick), ("para", tick))
        self.assertEqual(
            self.said(debugger, "mark"), "one: tick 500, host\ntwo: tick %d, para\n" % tick
        )
        for wrong in ("mark end", "mark 12", "mark a-b", "go three"):
            self.assertRaises(Fault, self.said, debugger, wrong)

    def test_halted_and_held_after_the_last_access(self):
        """A state alone shows them, too."""
        program = Program()
        self.debugger(RESETS, IS_RESET)
        words = ["solo", "40000", "part", "--os", "os", "--tube", "tube", "--keep", "40"]
        program.done([*words, "--save", "session"], self.folder)
        from beebtube.inputs import Fields

        whole = self.debugger(RESETS, IS_RESET)
        with open(self.at("part.trace"), "rb") as file, open(self.at("session"), "rb") as session:
            short = past.Past(program, Fields(session.read()), "x", None, file.read(), 40000)
        self.addCleanup(short.close)
        debugger = Debugger(short, {side: Names() for side in past.SIDES}, out=self.out)
        self.said(whole, "go end; held back")
        self.assertGreater(whole.tick, short.held)
        self.assertIn("held by its reset line", self.said(debugger, "para; go %d" % whole.tick))

    def test_differ(self):
        """Each moment at which something more differs, by the states of every tick."""
        first = "INC &70\nloop: INC &71\nLDA &70\nSTA &72\nLDX #9\nw: DEX\nBNE w\nSTA &73\n"
        last = "JMP loop\norg &FFFA\nword start,start,start\n"
        text = "org &C000\nstart: LDX #0\n" + first + last
        one = self.debugger(text, ticks=600)
        other = self.debugger(text.replace("INC &70", "DEC &70"), ticks=600)
        debugger = Debugger(one.past, one.names, other.past, out=self.out)

        def differing(tick):
            mine, yours = (it.past.machines["host"].state(tick) for it in (one, other))
            pairs = list(zip([*mine.registers, *mine.memory], [*yours.registers, *yours.memory]))
            return {at for at, (a, b) in enumerate(pairs) if a != b}

        found = {tick: differing(tick) for tick in range(601)}
        debugger.compare()
        ticks = [debugger.tick]
        while True:
            try:
                self.said(debugger, "differ")
            except Fault:
                break
            ticks.append(debugger.tick)
            self.assertIn("nothing more differs to tick %d" % debugger.tick, self.out.getvalue())
        self.assertGreater(len(ticks), 3)
        known = set()
        for tick in ticks:
            self.assertLessEqual(found[tick], known)
            self.assertFalse(found[tick + 1] <= known)
            known = found[tick + 1]
        said = self.said(debugger, "go 0; differ; differ; differ; differ")
        self.assertIn("host memory 0072: 01, FF", said)
        self.assertRaises(Fault, self.said, one, "differ")


class Completion(Case):
    def test_labels_where_they_belong(self):
        from beebtube.console import completions

        program = Program()
        put(self.at("os"), program.asm("6502", CALLS.encode()))
        one = past.Past.of_words(program, ["host", "100", "x", "--os", self.at("os")])
        self.addCleanup(one.close)
        debugger = Debugger(
            one, {side: Names([beebtube.labels_of("6502", CALLS.encode())]) for side in past.SIDES}
        )
        self.assertEqual(completions(debugger, "wh", "wh"), ["where ", "who "])
        self.assertEqual(completions(debugger, "until d", "d"), ["deep", "done", "drop", "dropped"])
        self.assertEqual(completions(debugger, "go 5; u lo", "lo"), ["loop"])
        self.assertEqual(completions(debugger, "step d", "d"), [])

    def test_marks_and_commands(self):
        from beebtube.console import completions

        put(self.at("os"), Program().asm("6502", CALLS.encode()))
        one = past.Past.of_words(Program(), ["host", "100", "x", "--os", self.at("os")])
        self.addCleanup(one.close)
        debugger = Debugger(one, {side: Names() for side in past.SIDES}, out=io.StringIO())
        debugger.do("mark here; mark there")
        self.assertEqual(completions(debugger, "go he", "he"), ["here"])
        self.assertEqual(completions(debugger, "help ma", "ma"), ["mark"])

    def test_progress_is_cleared(self):
        """What is shown does not follow the line of the progress, which is cleared first."""
        from beebtube.console import Clearing, Progress

        class Terminal(io.StringIO):
            def isatty(self):
                return True

        progress, out, err = Progress(), io.StringIO(), Terminal()
        keep = sys.stdout, sys.stderr
        sys.stdout, sys.stderr = out, err
        try:
            progress._from -= 1
            progress("tick 5")
            self.assertIn("tick 5", err.getvalue())
            Clearing(progress).write("told")
        finally:
            sys.stdout, sys.stderr = keep
        self.assertTrue(err.getvalue().endswith("\r" + " " * 40 + "\r"))


class Prompt(Case):
    """What a person has besides the commands."""

    CODE = """
import sys
sys.path.insert(0, sys.argv[1])
from beebtube.console import history
import readline
with history():
    length = readline.get_current_history_length()
    print([readline.get_history_item(at + 1) for at in range(length)])
    for line in sys.argv[2:]:
        readline.add_history(line)
"""

    def lines(self, *typed, **env):
        words = [sys.executable, "-B", "-c", self.CODE, os.path.join(TOP, "tools"), *typed]
        done = call(words, self.folder, env={"HOME": self.folder, "XDG_STATE_HOME": "", **env})
        self.assertEqual((done.status, done.err), (0, ""))
        return done.out.strip()

    @unittest.skipUnless(importlib.util.find_spec("readline"), "this python has no readline")
    def test_history(self):
        """The lines of an earlier time are there again; without a folder that can be made, none."""
        self.assertEqual(self.lines("who 70", "back"), "[]")
        self.assertEqual(self.lines("step"), "['who 70', 'back']")
        self.assertEqual(self.lines(), "['who 70', 'back', 'step']")
        self.assertTrue(os.path.isfile(self.at(".local/state/beebtube/history")))
        self.assertEqual(self.lines("next", XDG_STATE_HOME=self.at("state")), "[]")
        self.assertEqual(self.lines(XDG_STATE_HOME=self.at("state")), "['next']")
        put(self.at("file"))
        self.assertEqual(self.lines("next", XDG_STATE_HOME=self.at("file")), "[]")

    def test_pager(self):
        """It shows what is longer than the terminal, whole, and nothing else."""
        from beebtube.console import Clearing, Progress

        out, shown = io.StringIO(), []
        with mock.patch("sys.stdout", out), mock.patch("pydoc.pager", shown.append), mock.patch(
            "shutil.get_terminal_size", lambda: os.terminal_size((80, 5))
        ):
            paged = Clearing(Progress(), True)
            for count in (4, 5):
                for number in range(count):
                    paged.write("%d\n" % number)
                self.assertNotIn("5", out.getvalue())
                paged.flush()
            Clearing(Progress()).write("more\n" * 9)
        self.assertEqual(shown, ["0\n1\n2\n3\n4\n"])
        self.assertEqual(out.getvalue(), "0\n1\n2\n3\n" + "more\n" * 9)

    def test_json(self):
        """A line for each command, with what it found; the status is as without it."""
        self.pair()
        words = ["debug", "solo", "2000", "x", "--os", "os", "--tube", "tube", "--json"]
        done = self.tool(
            *words, "-c", "go 1503; mark here; memory 70 2; sender; bogus", "-c", "who 70", status=1
        )
        told = [json.loads(line) for line in done.out.splitlines()]
        self.assertEqual(
            [it["command"] for it in told],
            ["go 1503", "mark here", "memory 70 2", "sender", "bogus", "who 70", "where"],
        )
        self.assertEqual((told[0]["side"], told[0]["tick"], told[0]["error"]), ("host", 1503, None))
        start = told[0]["found"][0]
        self.assertEqual((start["tick"], start["pc"], start["text"]), (1503, 0xC011, "JMP &C011"))
        self.assertEqual(told[2]["found"], [{"address": 0x70, "bytes": "4849"}])
        self.assertEqual(told[3]["side"], "para")
        given = {"tick": told[3]["tick"], "side": "para", "way": "W", "address": 1, "byte": 0x49}
        self.assertEqual(told[3]["found"][1], given)
        self.assertIn("no such command", told[4]["error"])
        self.assertIsNotNone(told[5]["error"])
        plain = self.tool(*words[:-1], "-c", "go 1503; sender; where", status=0).out.splitlines()
        where = told[6]["lines"]
        self.assertEqual(told[0]["lines"] + told[3]["lines"] + where, plain[: -len(where)])
        self.assertEqual({it["side"] for it in told[6]["found"]}, {"host", "para"})
        # Commands of standard input, and two runs.
        other = "solo 1500 x --os os --tube tube"
        done = self.tool(*words, "--against", other, stdin=b"step\nquit\nstep\n", status=1)
        told = [json.loads(line) for line in done.out.splitlines()]
        self.assertEqual([it["command"] for it in told], ["--against", "step", "quit", "where"])
        self.assertIn("the same to tick 1500", told[0]["lines"][0])


class Truth(unittest.TestCase):
    def test_answers_are_those_of_complete_listings(self):
        sys.path.insert(0, os.path.join(TOP, "bench"))
        import truth

        self.assertEqual(truth.compare(500, "gate", 30000, 50), (500, 0))


if __name__ == "__main__":
    unittest.main()
