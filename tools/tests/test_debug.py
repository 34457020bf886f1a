"""The debugger: each way forwards and backwards, what it tells beside what the program tells, and what is wrong."""
import bisect
import contextlib
import io
import os
import random
import unittest

from common import EXAMPLES, Case, put

import beebtube
from beebtube import listings, naming, past
from beebtube import machine as machines
from beebtube.console import limit_of
from beebtube.debugging import WORDS, Debugger
from beebtube.faults import Fault
from beebtube.inputs import Fields
from beebtube.naming import Names
from beebtube.parting import parting
from beebtube.program import Program

TICKS = 600000

# The host gives a byte to register 3 now and then, which is an NMI there, and its timer interrupts it.
NMI_HOST = """
        org &C000
start:  LDX #&FF
        TXS
        LDA #&88
        STA &FEE0
        LDA #&40
        STA &FE4B
        LDA #&C0
        STA &FE4E
        LDA #&E8
        STA &FE44
        LDA #&03
        STA &FE45
        LDX #8          ; the second processor copies its ROM meanwhile
boot:   DEY
        BNE boot
        DEX
        BNE boot
        CLI
loop:   STA &FEE5
        LDY #50
wait:   DEY
        BNE wait
        INC &70
        JSR more
        JMP loop
more:   INC &71
        RTS
irq:    PHA
        INC &72
        LDA &FE44
        PLA
        RTI
        org &FFFA
        word start, start, irq
"""
NMI_PARA = """
        org &F800
start:  LDX #&FF
        TXS
        LDX #0
copy:   LDA &F800,X
        STA &F800,X
        LDA &FF00,X
        STA &FF00,X
        INX
        BNE copy
loop:   INX
        STX &80
        JMP loop
nmi:    PHA
        INC &81
        LDA &FEFD
        STA &0082
        PLA
        RTI
        org &FFFA
        word nmi, start, start
"""
# The host resets the second processor again and again, and gives it a byte, which interrupts it.
RESET_HOST = """
        org &C000
start:  LDX #&FF
        TXS
loop:   LDA #&A0
        STA &FEE0
        LDY #20
held:   DEY
        BNE held
        LDA #&20
        STA &FEE0
        LDA #&82
        STA &FEE0
        LDX #20
long:   LDY #0
wait:   DEY
        BNE wait
        DEX
        BNE long
        STX &FEE1
        INC &70
        JMP loop
        org &FFFA
        word start, start, start
"""
RESET_PARA = """
        org &F800
start:  LDX #&FF
        TXS
        LDX #0
copy:   LDA &F800,X
        STA &F800,X
        LDA &FF00,X
        STA &FF00,X
        INX
        BNE copy
        LDA &FEF8
        INC &80
        CLI
loop:   JMP loop
irq:    INC &81
        LDA &FEF9
        RTI
        org &FFFA
        word start, start, irq
"""
# A loop that goes through one address more often than can be listed, and then another one.
LONG_HOST = """
        org &C000
start:  LDY #0
        LDA #18
        STA &72
        LDX #0
hot:    DEX
        BNE hot
        DEY
        BNE hot
        DEC &72
        BNE more
rest:   INC &71
        JMP rest
more:   JMP hot
        org &FFFA
        word start, start, start
"""
# It asks for the Tube, and counts.
ALONE_HOST = """
        org &C000
start:  LDX #&FF
        TXS
        LDA #&81
        STA &FEE0
        LDA &FEE0
        STA &70
loop:   INC &71
        LDY #200
wait:   DEY
        BNE wait
        JMP loop
        org &FFFA
        word start, start, start
"""


def source(name):
    with open(os.path.join(EXAMPLES, name), "rb") as file:
        return file.read()


class Debugged(Case):
    """Runs that are debugged in this process."""

    def past_of(self, host, para, keys=b"", ticks=TICKS, more=()):
        program = Program()
        put(self.at("os"), program.asm("6502", host if isinstance(host, bytes) else host.encode()))
        put(self.at("tube"), program.asm("65c02", para if isinstance(para, bytes) else para.encode()))
        put(self.at("keys"), keys)
        words = ["solo", str(ticks), "x", "--os", self.at("os"), "--tube", self.at("tube"), "--keys", self.at("keys")] + list(more)
        made = past.Past.of_words(program, words)
        self.addCleanup(made.close)
        return made

    def three(self):
        """Interrupts and BREAK; NMIs and interrupts; resets and interrupts."""
        keys = b"at 200000 down 54\nat 300000 up 54\nat 400001 break\n"
        return {"keys": lambda: self.past_of(source("keys-os.asm"), source("keys-tube.asm"), keys),
                "nmi": lambda: self.past_of(NMI_HOST, NMI_PARA), "reset": lambda: self.past_of(RESET_HOST, RESET_PARA)}


class Ways(Debugged):
    def test_step_and_back(self):
        """After `step N` and `back N` all is as it was: 1,000 random N on each of three programs, on both sides."""
        rng = random.Random(51)
        for name, made in self.three().items():
            one = made()
            text = io.StringIO()
            debugger = Debugger(one, {side: Names() for side in past.SIDES}, out=text)
            totals = {side: one.machines[side].count(0, one.end) for side in past.SIDES}
            for number in range(1000):
                side = rng.choice(past.SIDES)
                count = min(totals[side] // 2, int(2 ** rng.uniform(0, 14)))
                machine = one.machines[side]
                debugger.side = side
                # A start that has as many behind it.
                last = machine.preceding(one.end, count + 1)
                debugger.tick = machine.current(rng.randint(machine.following(0).tick, last.tick)).tick
                before, registers = debugger.tick, machine.current(debugger.tick).registers
                check = number % 50 == 0
                state = machine.state(before) if check else None
                debugger.do("step %d" % count)
                behind = debugger.tick
                self.assertGreater(behind, before)
                debugger.do("back %d" % count)
                self.assertEqual(debugger.tick, before, (name, side, before, count))
                self.assertEqual(machine.current(before).registers, registers)
                if check:
                    machine._states.clear()
                    self.assertEqual(machine.state(before), state)
                    # What the listing tells of a start is what the program tells of that tick.
                    self.assertEqual(state.registers, registers)
                    self.assertEqual(machine.state(behind).registers, machine.current(behind).registers)
            self.assertTrue(text.getvalue())

    def test_programs_are_interrupted(self):
        """The three programs have what they are to have: interrupts, NMIs and resets are among their starts."""
        handlers = {"keys": (), "nmi": (("host", "INC &72"), ("para", "INC &81")), "reset": (("para", "INC &81"), ("para", "INC &80"))}
        for name, made in self.three().items():
            one = made()
            for side, text in handlers[name]:
                address = next(start.registers.pc for start in self.whole(one, side) if start.text == text)
                self.assertGreater(one.machines[side].listing_count("at", address), 2, (name, side))
            if name == "keys":
                self.assertIn(b" H X 0 00", one.trace)
                self.assertGreater(one.machines["host"].state(one.end).memory[0x70], 0)

    def whole(self, one, side):
        """All starts of a side, of one listing."""
        path, total = one.machines[side].follow(0, one.end + 1)
        starts = list(listings.Listing(side, path, total, 0, one.end + 1).starts(0))
        self.assertEqual(len(starts), total)
        return starts

    def test_what_is_listed_in_parts(self):
        """What listings of small parts tell is what one listing of the whole run tells, in any order of questions."""
        rng = random.Random(7)
        for name, made in self.three().items():
            one = made()
            for side in past.SIDES:
                starts = self.whole(one, side)
                ticks = [start.tick for start in starts]
                handlers = [start.registers.pc for start in rng.sample(starts, 3)]
                watched = {address: beebtube_starts(one, side, address) for address in (0x70, 0x72, 0x81)}
                with parts(NEAR=30000, FAR=60000, SOME=50000, WIDE=200000, MANY=1000):
                    machine = machines.Machine(one, side)
                    for _ in range(12):
                        tick = rng.choice([rng.randrange(one.end), rng.choice(starts).tick])
                        here, count = bisect.bisect_right(ticks, tick), int(2 ** rng.uniform(0, 12))
                        wanted = starts[here + count - 1] if here + count <= len(starts) else None
                        self.assertEqual(machine.following(tick, count), wanted, (name, side, tick, count))
                        here = bisect.bisect_left(ticks, tick)
                        wanted = starts[here - count] if here >= count else None
                        self.assertEqual(machine.preceding(tick, count), wanted, (name, side, tick, -count))
                        address = rng.choice(handlers)
                        behind = [start for start in starts if start.registers.pc == address and start.tick > tick]
                        before = [start for start in starts if start.registers.pc == address and start.tick < tick]
                        self.assertEqual(machine.next_of("at", address, tick), behind[0] if behind else None)
                        self.assertEqual(machine.last_of("at", address, tick), before[-1] if before else None)
                        address = rng.choice(list(watched))
                        behind = [start for start in watched[address] if start.tick > tick]
                        before = [start for start in watched[address] if start.tick < tick]
                        self.assertEqual(machine.next_of("watch", address, tick), behind[0] if behind else None)
                        self.assertEqual(machine.last_of("watch", address, tick), before[-1] if before else None)

    def test_more_than_can_be_listed(self):
        """An address at which more starts are than one listing has, and steps of more instructions than are gone through."""
        put(self.at("os"), Program().asm("6502", LONG_HOST.encode()))
        one = past.Past.of_words(Program(), ["host", "24000000", "x", "--os", self.at("os")])
        self.addCleanup(one.close)
        machine, labels = one.machines["host"], beebtube.labels_of("6502", LONG_HOST.encode())
        last = machine.last_of("at", labels["hot"], one.end)
        self.assertGreater(machine.follow(0, one.end, ["--at", "%04X" % labels["hot"]], keep=False)[1], listings.MOST_LINES)
        self.assertEqual((last.registers.x, last.registers.y), (1, 1))
        self.assertIsNone(machine.next_of("at", labels["hot"], last.tick))
        self.assertEqual(machine.last_of("at", labels["hot"], last.tick).registers.x, 2)
        first = machine.next_of("at", labels["hot"], 0)
        total = machine.count(first.tick, last.tick)
        self.assertGreater(total, 2 * machines.MANY)
        self.assertEqual(machine.following(first.tick, total), last)
        self.assertEqual(machine.preceding(last.tick, total), first)

    def test_each_way_has_its_way_back(self):
        """By the words themselves, on three programs and both sides: each way forwards and its way back lead to the same moment."""
        rng = random.Random(52)
        for name, made in self.three().items():
            one = made()
            text = io.StringIO()
            debugger = Debugger(one, {side: Names() for side in past.SIDES}, out=text)
            done = dict.fromkeys(("step", "go", "until", "change", "access", "next", "return"), 0)
            for side in past.SIDES:
                starts = self.whole(one, side)
                machine = one.machines[side]
                range_of = range(len(starts) // 20, len(starts) // 2)
                calls = [place for place in range_of if starts[place].text.startswith("JSR")]
                for place in rng.sample(range_of, 15) + rng.sample(calls, min(5, len(calls))):
                    start = starts[place]

                    def goes(forwards, backwards):
                        debugger.side, debugger.tick = side, start.tick
                        debugger.do(forwards)
                        behind = debugger.tick
                        self.assertGreater(behind, start.tick, (name, side, forwards))
                        debugger.do(backwards)
                        self.assertEqual((debugger.side, debugger.tick), (side, start.tick), (name, forwards, backwards))
                        done[forwards.split()[0]] += 1
                        return behind
                    count = rng.randrange(1, 500)
                    goes("step %d" % count, "back %d" % count)
                    goes("go +%d" % count, "go -%d" % count)
                    address = "%04X" % start.registers.pc
                    if any(it.registers.pc == start.registers.pc for it in starts[place + 1 :]):
                        goes("until " + address, "before " + address)
                    if start.text.startswith("JSR"):
                        goes("next", "before " + address)
                        debugger.side, debugger.tick = side, start.tick
                        debugger.do("step; return")
                        self.assertEqual(machine.state(debugger.tick).registers.pc, (start.registers.pc + 3) & 65535)
                        debugger.do("before " + address)
                        self.assertEqual(debugger.tick, start.tick)
                        done["return"] += 1
                    # From a change of a byte on, the next one and back to the instruction that made it: the byte is what it was.
                    changed = machine.next_of("watch", 0x70 if side == "host" else 0x81, start.tick)
                    if changed is not None and machine.next_of("watch", 0x70 if side == "host" else 0x81, changed.tick) is not None:
                        byte = 0x70 if side == "host" else 0x81
                        debugger.side, debugger.tick = side, start.tick
                        debugger.do("change %04X" % byte)
                        here = debugger.tick
                        self.assertEqual(here, changed.tick)
                        debugger.do("who %04X" % byte)
                        self.assertGreaterEqual(debugger.tick, start.tick)
                        self.assertEqual(machine.following(debugger.tick).tick, here)
                        done["change"] += 1
                    letter = past.LETTERS[side]
                    mine = [line for line in one.trace.splitlines() if (" %s " % letter).encode() in line and b" X " not in line]
                    if len(mine) > 4:
                        line = rng.choice(mine[:-2]).split()
                        word = "access %s %s %s" % tuple(part.decode() for part in line[1:4])
                        same = [int(it[:10], 16) for it in mine if it.split()[1:4] == line[1:4]]
                        if len(same) > 1:
                            debugger.side, debugger.tick = side, same[0]
                            debugger.do(word)
                            self.assertEqual((debugger.side, debugger.tick), (side, same[1]))
                            debugger.do(word + " back")
                            self.assertEqual((debugger.side, debugger.tick), (side, same[0]))
                            done["access"] += 1
            self.assertTrue(all(done[way] for way in ("step", "go", "until", "change", "access")), (name, done))
            if name == "nmi":
                self.assertTrue(done["next"] and done["return"], done)

    def test_behind_what_is_held(self):
        """Behind the last access that a session holds states are told, as a whole session tells them, and instructions are refused."""
        whole = self.past_of(NMI_HOST, NMI_PARA, ticks=200000)
        program = Program()
        program.done(["solo", "200000", "part", "--os", "os", "--tube", "tube", "--keys", "keys", "--keep", "40", "--save", "session"], self.folder)
        with open(self.at("session"), "rb") as file:
            session = file.read()
        with open(self.at("part.trace"), "rb") as file:
            trace = file.read()
        fields = Fields(session)
        one = past.Past(program, fields, "part", None, trace, 200000)
        self.addCleanup(one.close)
        self.assertLess(one.held, 100000)
        self.assertIn("but no instructions", limit_of(one))
        self.assertEqual(limit_of(whole), "")
        for tick in (one.held, one.held + 1, 150001, 200000):
            self.assertEqual(one.states(tick), whole.states(tick), tick)
            self.assertEqual(one.machines["host"].state(tick), whole.machines["host"].state(tick))
            self.assertEqual(one.frame(tick), whole.frame(tick))
        text = io.StringIO()
        debugger = Debugger(one, {side: Names() for side in past.SIDES}, out=text)
        debugger.do("go %d; step; back; go end; memory 70 4; stack; screen; list; where; para; list" % (one.held - 200))
        self.assertIn("at hand up to tick %d" % one.held, text.getvalue())
        for words in ("go end; step", "go end; back", "go end; who 70", "go end; before C000", "go 0; until 1234", "go 0; change 7F", "go end; tube", "go end; sender",
                      "go end; return", "go end; access H R 5", "go %d; step 9" % (one.held - 1)):
            debugger.side = "host"
            with self.assertRaisesRegex(Fault, "at hand|hold", msg=words):
                debugger.do(words)
        for words in ("access H R 1 back", "reset", "reset back", "break", "break back", "held",
                      "held back", "lost", "lost back", "readers 70", "before if A=1",
                      "change 70..7F", "who 70..7F", "change 100..1FF", "interrupt back"):
            debugger.do("go end; host")
            with self.assertRaisesRegex(Fault, "at hand|the session holds", msg=words):
                debugger.do(words)
        # What does not come up to the last access may come after it.
        for words in ("reset", "break", "held", "lost", "access H R 5", "readers FFF0",
                      "change 7000..7FFF", "interrupt", "until if A=1 and X=77"):
            debugger.do("go %d; host" % (one.held - 1))
            with self.assertRaisesRegex(Fault, "at hand|the session holds", msg=words):
                debugger.do(words)


def beebtube_starts(one, side, address):
    """The starts in front of which a byte changed, of one listing."""
    path, total = one.machines[side].follow(0, one.end + 1, ["--watch", "%04X" % address])
    return list(listings.Listing(side, path, total, 0, one.end + 1).starts(0))


@contextlib.contextmanager
def parts(**sizes):
    """Listings of other sizes."""
    old = {name: getattr(machines, name) for name in sizes}
    for name, size in sizes.items():
        setattr(machines, name, size)
    try:
        yield
    finally:
        for name, size in old.items():
            setattr(machines, name, size)


class Alone(Debugged):
    """A Model B alone, without a Tube."""

    def setUp(self):
        super().setUp()
        put(self.at("os"), Program().asm("6502", ALONE_HOST.encode()))
        put(self.at("keys"), b"at 1000 down 41\nat 40000 break\n")
        self.one = past.Past.of_words(Program(), ["host", "100000", "x", "--os", self.at("os"), "--keys", self.at("keys")])
        self.addCleanup(self.one.close)
        self.text = io.StringIO()
        self.debugger = Debugger(self.one, {side: Names() for side in past.SIDES}, out=self.text)

    def test_nobody_answers(self):
        """A read of the Tube's addresses gives FE, and a write leaves nothing, from a BREAK on too."""
        self.assertEqual(self.one.sides, ("host",))
        memory = self.one.machines["host"].state(100000).memory
        self.assertEqual(memory[0x70], 0xFE)
        self.assertGreater(memory[0x71], 3)
        self.assertEqual(self.one.machines["host"].listing_count("at", 0xC000), 2)

    def test_words(self):
        debugger = self.debugger
        debugger.do("go 1000; step 100; back 100; until C005; before C005; change 71; who 71; where; list; stack; screen; memory 70; frame %s" % self.at("x.png"))
        self.assertTrue(os.path.exists(self.at("x.png")))
        told = self.text.getvalue()
        self.assertIn("INC &71", told)
        self.assertNotIn("second processor", told)
        for words in ("para", "access H R 1", "access P R 1", "sender", "tube", "go 0; back", "go end; step"):
            self.assertRaises(Fault, debugger.do, words)

    def test_against_another(self):
        put(self.at("other"), Program().asm("6502", ALONE_HOST.replace("INC &71", "DEC &71").encode()))
        other = past.Past.of_words(Program(), ["host", "100000", "x", "--os", self.at("other"), "--no-tube"])
        self.addCleanup(other.close)
        found = parting(self.one, other)
        self.assertEqual(found.sides, ["host"])
        self.assertIn("INC &71", self.one.machines["host"].current(found.tick).text)


class Words(Debugged):
    """Each word and its way back, by the tool's own words."""

    def setUp(self):
        super().setUp()
        self.one = self.past_of(NMI_HOST, NMI_PARA, ticks=200000)
        self.text = io.StringIO()
        labels = {"host": beebtube.labels_of("6502", NMI_HOST.encode()), "para": beebtube.labels_of("65c02", NMI_PARA.encode())}
        self.labels = labels
        self.debugger = Debugger(self.one, {side: Names([labels[side]]) for side in labels}, out=self.text)

    def do(self, words):
        self.text.seek(0)
        self.text.truncate()
        self.debugger.do(words)
        return self.text.getvalue()

    def place(self):
        return self.debugger.side, self.debugger.tick

    def test_until_and_before(self):
        self.do("go 1000; until more")
        first = self.place()
        self.assertEqual(self.one.machines["host"].state(first[1]).registers.pc, self.labels["host"]["more"])
        self.do("at more")
        self.assertGreater(self.debugger.tick, first[1])
        self.do("before more")
        self.assertEqual(self.place(), first)

    def test_next_and_return(self):
        self.do("go 1000; until more; back")
        self.assertIn("JSR more", self.do("go +0"))
        begin = self.debugger.tick
        self.assertIn("JMP loop", self.do("next"))
        over = self.debugger.tick
        self.do("go %d; step" % begin)
        self.assertIn("JMP loop", self.do("return"))
        self.assertEqual(self.debugger.tick, over)
        # From within the handler of an interrupt to where it comes back to.
        self.do("para; until nmi; before nmi")
        here = self.one.machines["para"].state(self.debugger.tick)
        pushed = here.memory[0x100 + here.registers.s + 2] | here.memory[0x100 + here.registers.s + 3] << 8
        self.do("return")
        back = self.one.machines["para"].state(self.debugger.tick).registers
        self.assertEqual((back.pc, back.s), (pushed, (here.registers.s + 3) & 255))

    def test_change_and_who(self):
        self.do("go 100")
        told = self.do("change 0070")
        self.assertIn("0070: 00 to 01", told)
        self.assertEqual(self.one.machines["host"].state(self.debugger.tick).memory[0x70], 1)
        self.assertEqual(self.one.machines["host"].state(self.debugger.tick - 12).memory[0x70], 0)
        told = self.do("who 0070")
        self.assertIn("INC &70", told)
        self.assertIn("0070: 00 to 01", told)
        self.do("change 0070; change 0070; who 0070; who 0070")
        self.assertEqual(self.one.machines["host"].state(self.debugger.tick).memory[0x70], 0)
        for words in ("go 0; who 0070", "who FE40", "who C000"):
            self.assertRaises(Fault, self.do, words)

    def test_access_and_its_way_back(self):
        self.do("go 1000; access H W 5; access H W 5")
        second = self.place()
        self.assertIn("the host gives", self.do("access H W 5"))
        self.do("access H W 5 back")
        self.assertEqual(self.place(), second)
        self.do("access P R 5")
        self.assertEqual(self.debugger.side, "para")
        self.assertIn("LDA &FEFD", self.do("go +0"))
        told = self.do("sender")
        self.assertEqual(self.place(), second)
        self.assertIn("STA &FEE5", told)
        self.assertRaises(Fault, self.do, "access P W 7")
        self.assertRaises(Fault, self.do, "access P Q 7")

    def test_go(self):
        self.do("go 1000; go +50; go -25")
        self.assertEqual(self.debugger.tick, 1025)
        self.do("go end")
        self.assertEqual(self.debugger.tick, self.one.end)
        for words in ("go -1", "go 1e6", "go %d" % (self.one.end + 1)):
            self.do("go 0")
            self.assertRaises(Fault, self.do, words)
        self.assertRaises(Fault, self.do, "go 0; back")
        self.assertRaises(Fault, self.do, "go end; step")

    def test_what_is_shown(self):
        self.do("go 100000")
        state = self.one.machines["host"].state(100000)
        told = self.do("memory 0070 3")
        self.assertEqual(told.split()[1:4], ["%02X" % byte for byte in state.memory[0x70:0x73]])
        self.assertIn("C000 LDX #&FF", self.do("list start 2"))
        self.assertIn("C002 TXS", self.do("list C000 2"))
        self.assertIn("S=%02X, %d bytes" % (state.registers.s, 255 - state.registers.s), self.do("stack"))
        self.assertEqual(self.do("tube 2").count("\n"), 5)
        where = self.do("where")
        self.assertIn("host %04X" % state.registers.pc, where)
        self.assertEqual(where.count("\n"), 7)
        picture = self.at("now.png")
        self.do("frame %s" % picture)
        with open(picture, "rb") as file:
            self.assertEqual(file.read(8), b"\x89PNG\r\n\x1a\n")
        self.do("frame %s" % picture)
        put(picture, b"a letter")
        self.assertRaises(Fault, self.do, "frame %s" % picture)
        # The boot ROM is told where it stands in front of the memory, and a reset brings it back.
        self.assertIn("F800 LDX #&FF", self.do("go 10; para; list F800 1"))

    def test_words(self):
        for word in WORDS:
            self.assertIn(word, self.do("help %s" % word))
        self.do("g 1000; s; s 3; b 4")
        self.do("")
        for words in ("bogus", "step 0", "step x", "step 1 2", "until", "until nowhere", "memory 12345", "other", "co", "s;bogus"):
            self.assertRaises(Fault, self.do, words)

    def test_two_runs(self):
        """The parting of two runs is the tick up to which both sides are the same."""
        other = self.past_of(NMI_HOST.replace("INC &71", "DEC &71"), NMI_PARA, ticks=200000)
        found = parting(self.one, other)
        self.assertEqual(found.sides, ["host"])
        self.assertEqual(self.one.states(found.tick), other.states(found.tick))
        self.assertNotEqual(self.one.states(found.tick + 1), other.states(found.tick + 1))
        self.assertIn("INC &71", self.one.machines["host"].current(found.tick).text)
        self.assertIsNone(parting(self.one, self.one))
        slower = self.past_of(NMI_HOST.replace("LDY #50", "LDY #51"), NMI_PARA, ticks=200000)
        found = parting(self.one, slower)
        self.assertEqual(self.one.machines["host"].current(found.tick).text, "LDY #&32")


class Tool(Case):
    """The tool as a person calls it."""

    def test_scripts(self):
        self.pair()
        words = ["run", "2000", "x", "--os", "os", "--tube", "tube", "--keep", "3", "--save", "kept"]
        before = sorted(os.listdir(self.folder))
        told = self.tool("debug", *words, "-c", "go 1500; step 3; back 3; where")
        self.assertEqual(told.out.splitlines()[-7:], told.out.splitlines()[-14:-7])
        self.assertEqual(sorted(os.listdir(self.folder)), before)
        self.assertEqual(self.tool("debug", *words, stdin=b"go 1500\nstep 3\n\nback 3\nwhere\nquit\nback\n").out, told.out)
        wrong = self.tool("debug", *words, "-c", "bogus; go 1500; step 0; who zzz; where", status=1)
        self.assertEqual(len(wrong.err.splitlines()), 3)
        self.assertEqual(wrong.out.splitlines()[-7:], wrong.out.splitlines()[-14:-7])
        self.assertIn("no such command", self.tool("debug", *words, stdin=b"\xff\x00\n\xc3 9\n", status=1).err)
        self.assertIn("letters or more", self.tool("debug", *words, stdin=b"x" * 5000, status=1).err)
        self.assertIn("cannot read -", self.tool("debug", *words, stdin=None, preexec=lambda: os.close(0), status=1).err)
        self.launcher("run", "2000", "x", "--os", "os", "--tube", "tube", "--save", "session")
        self.assertEqual(self.tool("debug", "session", "-c", "go 1500; step 3; back 3; where").out, told.out)
        self.assertIn("the same to tick 2000", self.tool("debug", "session", "--against", " ".join(words), "-c", "quit").out)

    def test_what_is_wrong(self):
        self.pair()
        self.tool("debug", status=2)
        self.tool("debug", "-c", status=2)
        self.tool("debug", "missing", status=1)
        self.tool("debug", "os", status=1)
        self.tool("debug", "/dev/zero", status=1)
        self.tool("debug", "check", "x", status=1)
        self.tool("debug", "run", "2000", "x", "--os", "tube", "--tube", "tube", status=1)
        self.tool("debug", "run", "1e6", "x", "--os", "os", "--tube", "tube", status=1)
        self.tool("debug", "run", "20", "x", "--os", "os", "--tube", "tube", "--host-labels", "os", "-c", "quit", status=1)
        self.launcher("run", "2000", "x", "--os", "os", "--tube", "tube", "--save", "session")
        with open(self.at("session"), "rb") as file:
            whole = file.read()
        put(self.at("cut"), whole[:-3])
        self.assertIn("status 4", self.tool("debug", "cut", "-c", "quit", status=1).err)
        put(self.at("damaged"), whole[:-1] + bytes([whole[-1] ^ 1]))
        self.assertIn("status 8", self.tool("debug", "damaged", "-c", "quit", status=1).err)
        put(self.at("short"), whole[:40])
        self.tool("debug", "short", "-c", "quit", status=1)
        self.tool("debug", "session", status=1, env={"TMPDIR": self.at("nowhere")})

    def test_labels(self):
        put(self.at("small.asm"), b"org &C000\nstart: LDA #1\nloop: JMP loop\n")
        told = self.tool("labels", "small.asm", "6502").out
        self.assertEqual(told, "al 00C000 .start\nal 00C002 .loop\n")
        for text in (told, "[{'start':49152L,'loop':49154L}]", "[{'.start':49152,'.loop':49154}]", "C000 start\nC002 loop\n"):
            self.assertEqual(naming.parse(text).addresses, {"start": 0xC000, "loop": 0xC002}, text)
        names = Names([naming.parse(told)])
        self.assertEqual([names.of(at) for at in (0xBFFF, 0xC000, 0xC001, 0xC002)], ["", "start", "start+1", "loop"])
        self.assertEqual(names.text("JMP &C002"), "JMP loop")
        put(self.at("labels"), told.encode())
        put(self.at("x.list"), b"0000000015 C000 A=00 X=00 Y=00 S=FD P=24 LDA #&01\n000000001B C002 A=01 X=00 Y=00 S=FD P=24 JMP &C002\n")
        named = self.tool("labels", "--in", "labels", "x.list").out.splitlines()
        self.assertTrue(named[0].startswith("0000000015 C000 A=00 X=00 Y=00 S=FD P=24 LDA #&01 ") and named[0].endswith("; start"), named)
        self.assertIn(" JMP loop ", named[1])
        # What BeebAsm prints besides stands before and behind its dump.
        for text in ("Processed file 'x' ok\n[{'start':49152L,'loop':49154L}]\n", "1, 2\n [{'.start':49152L,'loop':49154L,'half':0.5L,'big':4.29497e+09L,'minus':-1L}]\r\nend\n"):
            self.assertEqual(naming.parse(text).addresses, {"start": 0xC000, "loop": 0xC002}, text)
        for text in ("[{'start':49152L,'loop'}]", "[{'start'=49152}]", "[{start:49152L}]", "[{'start':49152L"):
            self.assertRaises(Fault, naming.parse, text)
        self.tool("labels", status=2)
        self.tool("labels", "small.asm", "z80", status=2)
        self.tool("labels", "missing", "6502", status=1)
        self.tool("labels", "--in", "small.asm", "x.list", status=1)
        self.tool("labels", "--in", "labels", "small.asm", status=1)
        # The program cannot write what it assembles.
        self.assertIn("cannot write", self.tool("labels", "small.asm", "6502", status=1, limit=300).err)
        # A file of 20 GB is not read to its end.
        put(self.at("large"), b"", 20 * 10**9)
        self.assertIn("a line of 4,096 bytes", self.tool("labels", "--in", "labels", "large", status=1).err)

    def test_names_in_a_source(self):
        """A text of `dis` with names is a source of the same bytes, wherever labels stand and whatever they are called."""
        rng = random.Random(3)
        for part in ("6502", "65c02"):
            for origin in (0, 0xC000, 0xFF00):
                data = bytes(rng.choice((0xA9, 0x8D, 0x4C, 0x20, 0xD0, 0xF0, 0x10, 0x02, 0xFE, 0xC0, rng.randrange(256))) for _ in range(256))
                text = Program().dis(part, data, origin)
                names = {"label%d" % number: origin + number for number in rng.sample(range(256), 120)}
                names.update({"A": origin, "x": origin + 2, "LDA": origin + 5, "two words": origin + 9, "far": (origin + 5000) & 0xFFFF, "@2": origin + 4, "byte": origin + 7})
                named = "\n".join(naming.named(iter(text.splitlines()), Names([naming.Labels(names)]))) + "\n"
                self.assertIn("label", named)
                self.assertEqual(Program().asm(part, named.encode()), data, (part, origin))
        self.assertRaises(Fault, list, naming.named(iter(["org &C000", "nonsense;"]), Names()))


if __name__ == "__main__":
    unittest.main()
