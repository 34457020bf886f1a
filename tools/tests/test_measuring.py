"""Coverage and profiles: examples by hand, and comparisons with complete listings."""
import os
import random
import re

from common import EXAMPLES, TOP, Case, beebtube, call, put, text_of, unittest

from beebtube.counting import Count, Counting, Event, parse
from beebtube.past import Past
from beebtube.profile import UNKNOWN, Profile
from beebtube.sources import Sources

LISTED = re.compile(rb"([0-9A-F]{10}) ([0-9A-F]{4}) A=.. X=(..) Y=.. S=(..) (P=.. [^\n]*)\n")
# Of each branch the bit of P that it looks at, and the value for which it is taken.
BRANCHES = {"BPL": (128, 0), "BMI": (128, 1), "BVC": (64, 0), "BVS": (64, 1), "BCC": (1, 0), "BCS": (1, 1), "BNE": (2, 0), "BEQ": (2, 1)}

SMALL = """org &0800
        LDX #3
loop:   DEX
        BNE loop
        JSR sub
        BEQ skip
        NOP
skip:   RTS
sub:    LDA #0
        RTS
spare:  LDA #1
        BNE spare
        RTS
"""


def listed(past, side):
    """All starts of a side with P before each, from complete listings."""
    found, low = [], 0
    while True:
        out = past.fresh("list")
        words = ["follow", side, past.cut(past.held), str(past.held), out, "--from", str(low)]
        past.program.done(words + past.options(side), past.folder)
        data = text_of(os.path.join(past.folder, out + ".list"))
        for match in LISTED.finditer(data):
            found.append((int(match[5][2:4], 16), Event(*(int(it, 16) for it in match.groups()[:4]), match[5][5:].decode("ascii"))))
        if data.count(b"\n") < 1048576:
            return found
        low = found[-1][1].tick + 1


def counted(starts, end):
    """The counts of a list of starts, each with P before it."""
    found = {}
    for (flags, start), following in zip(starts, [it for _, it in starts[1:]] + [None]):
        count = found.get(start.address, Count(0, 0, 0))
        mask, value = BRANCHES.get(start.text[:3], (0, 1))
        held = bool(flags & mask) == bool(value)
        ticks = (following.tick if following else end) - start.tick
        found[start.address] = Count(count.starts + 1, count.ticks + ticks, count.held + held)
    return found


def calls_of(starts, cycle):
    """The calls of a list of starts in which each JSR comes back behind itself: from each JSR's target to the first start with S as
    it was, by the places of both."""
    found, waiting = {}, []
    for start in starts:
        while waiting and start.s >= waiting[-1][0]:
            _, site, target, since, closed = waiting.pop()
            number, ticks = found.get((site, target), (0, 0))
            found[site, target] = (number + 1, ticks + start.tick - since)
        if start.text.startswith("JSR &"):
            waiting.append((start.s, start.address, int(start.text[5:9], 16), start.tick + 6 * cycle, None))
    return found


class Measured(Case):
    def executed(self, text, *words):
        """The session of a program on the second processor, whose source is `program.asm`."""
        put(self.at("program.asm"), text.encode())
        put(self.at("program"), beebtube.asm("6502", text.encode()))
        call([os.path.join(TOP, "tools", "execute"), "--save", "program.session", "--at", "0800", *words, "program"], self.folder)

    def past(self, name="program.session"):
        past = Past.of_session(beebtube.Program(), self.at(name))
        self.addCleanup(past.close)
        return past

    def profiled(self, past, side="para", source="program.asm"):
        return Profile(Sources(beebtube.Program(), [self.at(source)] if source else []), Counting(past, side))

    def rows(self, profile):
        return {row.name: row for row in profile.rows()}


class Coverage(Measured):
    def test_lines_functions_and_branches_of_a_small_program(self):
        self.executed(SMALL)
        self.tool("cover", "--para", "program.asm", "-o", "out.info", "program.session")
        self.assertEqual(text_of(self.at("out.info")).decode().splitlines(), [
            "TN:", "SF:" + self.at("program.asm"), "FN:9,sub", "FN:11,spare", "FNDA:1,sub", "FNDA:0,spare", "FNF:2", "FNH:1",
            "BRDA:4,0,0,2", "BRDA:4,0,1,1", "BRDA:6,0,0,1", "BRDA:6,0,1,0", "BRDA:12,0,0,-", "BRDA:12,0,1,-", "BRF:6", "BRH:3",
            "DA:2,1", "DA:3,3", "DA:4,3", "DA:5,1", "DA:6,1", "DA:7,0", "DA:8,1", "DA:9,1", "DA:10,1", "DA:11,0", "DA:12,0", "DA:13,0",
            "LF:12", "LH:8", "end_of_record"])

    def test_both_machines_are_in_one_report(self):
        self.pair()
        for name in ("letters-os.asm", "letters-tube.asm"):
            put(self.at(name), text_of(os.path.join(EXAMPLES, name)))
        words = ["run", "20000", "x", "--os", "os", "--tube", "tube"]
        done = self.tool("cover", "--host", "letters-os.asm", "--para", "letters-tube.asm", *words)
        self.assertEqual(re.findall("(?m)^SF:(.*)$", done.out), [self.at("letters-os.asm"), self.at("letters-tube.asm")])

    def test_labels_alone_are_lines_of_their_file(self):
        self.executed(SMALL)
        put(self.at("labels"), b"0800 begin\n080E sub\n0811 spare\n")
        done = self.tool("cover", "--para", "labels", "program.session")
        self.assertIn("DA:1,3\nDA:2,1\nDA:3,0\n", done.out)

    def test_a_source_that_is_not_here_is_named(self):
        self.executed(SMALL)
        put(self.at("x.dbg"), b'version\tmajor=2,minor=0\nfile\tid=0,name="gone.c",size=1,mtime=0x0,mod=0\n'
            b'file\tid=1,name="gone.s",size=1,mtime=0x0,mod=0\nmod\tid=0,name="x.o",file=1\nseg\tid=0,name="CODE",start=0x000800,size=0x0010,type=ro\n'
            b'span\tid=0,seg=0,start=0,size=2\nline\tid=0,file=0,line=7,type=1,span=0\n')
        done = self.tool("cover", "--para", "x.dbg", "program.session")
        self.assertEqual((done.out, done.err), ("", "cover: not here, and left out: gone.c\n"))

    def test_words_and_files_that_are_wrong(self):
        self.executed(SMALL)
        self.tool("cover", "program.session", status=2)
        self.tool("cover", "--para", "program.asm", status=2)
        put(self.at("bad.asm"), b"LDA here\n")
        self.assertIn("bad.asm: bad source 1", self.tool("cover", "--para", "bad.asm", "program.session", status=1).err)
        put(self.at("bad.dbg"), b"version\tmajor=2,minor=0\nspan\tid=0,seg=0,start=0,size=2\n")
        self.assertIn("bad.dbg: not a debug file of ld65", self.tool("cover", "--para", "bad.dbg", "program.session", status=1).err)
        self.tool("cover", "--para", "program.asm", "-o", "program.session", "program.session", status=1)

    def test_a_pipe_is_not_waited_for(self):
        self.pair()
        os.mkfifo(self.at("pipe"))
        done = self.tool("cover", "--para", "tube", "run", "9", "x", "--os", "pipe", "--tube", "tube", status=1)
        self.assertIn("pipe is no plain file", done.err)

    def test_counts_have_a_form(self):
        self.assertEqual(parse("0800 1 6\n0802 3 18 2\n"), {0x800: Count(1, 6, 0), 0x802: Count(3, 18, 2)})
        for text in ("0800 1\n", "0800 1 6", "800 1 6\n", "0800 1 6 2 3\n"):
            with self.assertRaisesRegex(beebtube.Fault, "bad counts 1"):
                parse(text)


class Profiles(Measured):
    def test_cycles_of_a_small_program(self):
        self.executed(SMALL.replace("org &0800\n", "org &0800\nJSR main\nRTS\nmain:\n"))
        rows = self.rows(self.profiled(self.past()))
        self.assertEqual([(rows[it].own, rows[it].within, rows[it].calls) for it in ("main", "sub")], [(31, 39, 1), (8, 8, 1)])

    def test_the_cycles_are_those_of_time(self):
        text = SMALL.replace("org &0800\n", "org &0800\nbegin:\n")
        put(self.at("program.asm"), text.encode())
        put(self.at("program"), beebtube.asm("6502", text.encode()))
        done = call([os.path.join(TOP, "tools", "execute"), "--time", "--save", "program.session", "--at", "0800", "program"], self.folder)
        rows = self.rows(self.profiled(self.past()))
        self.assertEqual(re.match("execute: ([0-9]+) cycles", done.err)[1], str(rows["begin"].within))

    def check_sums(self, past, side, profile):
        """All time is in it, and the counts are those of the complete listing."""
        starts = listed(past, side)
        self.assertEqual(Counting(past, side).counts(), counted(starts, past.held))
        self.assertEqual(sum(profile.own.values()), past.held - starts[0][1].tick)
        self.assertEqual(sum(row.own for row in profile.rows()), sum(profile.own.values()) // profile.counting.cycle)
        return [it for _, it in starts]

    def test_calls_are_those_of_the_complete_listing(self):
        rng = random.Random(7)
        for _ in range(4):
            # Functions that call those behind them, in loops, with values kept on the stack.
            text, count = ["org &0800", "JSR f0", "RTS"], 6
            for number in range(count):
                text.append("f%d:" % number)
                text.append("LDA #%d" % rng.randrange(256))
                if number + 1 < count:
                    text += ["PHA"] * 2
                    for _ in range(rng.randrange(1, 4)):
                        text.append("JSR f%d" % rng.randrange(number + 1, count))
                    text += ["PLA"] * 2
                text += ["LDX #%d" % rng.randrange(1, 9), "w%d: DEX" % number, "BNE w%d" % number, "RTS"]
            self.executed("\n".join(text) + "\n")
            past = self.past()
            profile = self.profiled(past)
            starts = self.check_sums(past, "para", profile)
            inside = [it for it in starts if 0x800 <= it.address < 0x800 + 512]
            wanted = calls_of([it for it in starts if inside[0].tick <= it.tick <= inside[-1].tick + 1000], 2)
            found = {(site, callee.begin): (edge.number, edge.ticks) for (site, callee), edge in profile.edges.items()
                     if 0x803 < site < 0xA00}
            self.assertEqual(found, {key: it for key, it in wanted.items() if 0x803 < key[0] < 0xA00})

    def test_text_behind_a_call(self):
        self.executed("""org &0800
        JSR main
        RTS
main:   JSR print
        byte 72,105,0
        JSR print
        byte 33,0
        RTS
print:  PLA
        STA &70
        PLA
        STA &71
        LDY #1
next:   LDA (<ptr),Y
        BEQ end
        INY
        BNE next
end:    TYA
        CLC
        ADC &70
        STA &70
        LDA &71
        ADC #0
        PHA
        LDA &70
        PHA
        RTS
ptr:    byte 0
""".replace("(<ptr)", "(&70)"))
        rows = self.rows(self.profiled(self.past()))
        self.assertEqual((rows["print"].calls, rows["print"].own), (2, rows["print"].within))
        self.assertEqual(rows["main"].within, rows["main"].own + rows["print"].own)

    def test_text_behind_a_call_that_comes_back_by_a_jump(self):
        self.executed("""org &0800
        JSR main
        RTS
main:   JSR skip
        byte 72,105,0
        RTS
skip:   PLA
        PLA
        JMP behind
behind: RTS
""")
        rows = self.rows(self.profiled(self.past()))
        # PLA, PLA and JMP are eleven cycles; `behind` goes on in `main`'s place.
        self.assertEqual((rows["skip"].calls, rows["skip"].own), (1, 8 + 3 + 6))

    def test_jumps_from_function_to_function(self):
        self.executed("""org &0800
        JSR main
        RTS
main:   JSR one
        JSR two
        JSR go
        RTS
one:    LDA #1
        JMP two
two:    LDX #2
        RTS
go:     JMP (where)
where:  word three
three:  LDY #3
        RTS
""")
        rows = self.rows(self.profiled(self.past()))
        self.assertEqual([(it, rows[it].own, rows[it].within, rows[it].calls) for it in ("one", "two")], [("one", 5, 13, 1), ("two", 16, 16, 2)])
        # `go` jumps by (where) to `three`, which nothing calls and which is a part of `go`.
        self.assertEqual(rows["go"].within, 6 + 2 + 6)
        self.assertEqual(rows["main"].within, rows["main"].own + 13 + 8 + 14)

    def test_recursion_and_a_stack_that_is_reset(self):
        self.executed("""org &0800
        TSX
        STX &70
        JSR main
        RTS
main:   LDX #5
        JSR down
        RTS
down:   DEX
        BEQ out
        JSR down
        RTS
out:    LDX &70
        TXS
        RTS
""")
        rows = self.rows(self.profiled(self.past()))
        self.assertEqual(rows["down"].calls, 5)
        self.assertEqual(rows["main"].within, 2 + 6 + 5 * 2 + 4 * (2 + 6) + 3 + 3 + 2)

    def test_interrupts_are_calls_of_what_they_interrupt(self):
        # Timer 1 of the system's 6522, each 1,000 microseconds, on a host alone.
        text = """org &C000
reset:  LDX #&FF
        TXS
        LDA #&40
        STA &FE4B
        LDA #&C0
        STA &FE4E
        LDA #&E8
        STA &FE44
        LDA #&03
        STA &FE45
        CLI
again:  JSR work
        JMP again
work:   LDX #10
loop:   DEX
        BNE loop
        RTS
irq:    PHA
        LDA &FE44
        INC &70
        PLA
        RTI
        org &FFFA
        word reset,reset,irq
"""
        put(self.at("host.asm"), text.encode())
        put(self.at("os"), beebtube.asm("6502", text.encode()))
        past = Past.of_words(beebtube.Program(), ["host", "600000", "x", "--os", self.at("os")])
        self.addCleanup(past.close)
        profile = self.profiled(past, "host", "host.asm")
        self.check_sums(past, "host", profile)
        rows = self.rows(profile)
        memory = past.machines["host"].state(past.held).memory
        self.assertEqual(rows["irq"].calls, memory[0x70])
        self.assertGreater(memory[0x70], 90)
        self.assertEqual(rows["irq"].own, rows["irq"].within)
        self.assertEqual(sum(row.own for row in rows.values()), rows["reset"].within)

    def test_the_table_and_callgrinds_format(self):
        self.executed(SMALL.replace("org &0800\n", "org &0800\nJSR main\nRTS\nmain:\n"))
        done = self.tool("profile", "--para", "program.asm", "program.session")
        self.assertRegex(done.out, r"(?m)^ *31 +[0-9.]+ +39 +1  main \(program.asm:5\)$")
        self.tool("profile", "--para", "program.asm", "-o", "callgrind.out", "program.session")
        written = text_of(self.at("callgrind.out")).decode()
        self.assertIn("\nfl=program.asm\nfn=sub\n12 2\n13 6\n", written)
        self.assertIn("cfi=program.asm\ncfn=sub\ncalls=1 12\n8 8\n", written)

    def test_against_an_earlier_profile(self):
        text = SMALL.replace("org &0800\n", "org &0800\nJSR main\nRTS\nmain:\n")
        self.executed(text)
        self.tool("profile", "--para", "program.asm", "-o", "before", "program.session")
        self.assertEqual(self.tool("profile", "--para", "program.asm", "--against", "before", "program.session").out, "")
        self.executed(text.replace("LDA #0\n", "LDA #0\n NOP\n"))
        done = self.tool("profile", "--para", "program.asm", "--against", "before", "program.session", status=8)
        self.assertEqual(done.out, "sub (program.asm:12): 10 cycles, before 8\n")
        put(self.at("other"), b"# callgrind format\n")
        self.tool("profile", "--para", "program.asm", "--against", "other", "program.session", status=1)


class OfTheSourceForms(Measured):
    def test_lines_of_ld65(self):
        put(self.at("a.s"), b"; nothing\nstart: lda #1\n jsr sub\n rts\nsub: rts\n")
        put(self.at("x.dbg"), b'version\tmajor=2,minor=0\nfile\tid=0,name="a.s",size=1,mtime=0x0,mod=0\n'
            b'mod\tid=0,name="a.o",file=0\nseg\tid=0,name="CODE",start=0x000800,size=0x0007,type=ro\n'
            b'span\tid=0,seg=0,start=0,size=2\nspan\tid=1,seg=0,start=2,size=3\nspan\tid=2,seg=0,start=5,size=1\nspan\tid=3,seg=0,start=6,size=1\n'
            b'line\tid=0,file=0,line=2,span=0\nline\tid=1,file=0,line=3,span=1\nline\tid=2,file=0,line=4,span=2\nline\tid=3,file=0,line=5,span=3\n'
            b'scope\tid=0,name="",mod=0,size=7\n'
            b'sym\tid=0,name="start",addrsize=absolute,scope=0,val=0x800,seg=0,type=lab\nsym\tid=1,name="sub",addrsize=absolute,scope=0,val=0x806,seg=0,type=lab\n')
        self.executed("org &0800\nLDA #1\nJSR sub\nRTS\nsub: RTS\n")
        done = self.tool("cover", "--para", "x.dbg", "program.session")
        self.assertIn("FN:2,start\nFN:5,sub\nFNDA:1,start\nFNDA:1,sub\n", done.out)
        self.assertIn("DA:2,1\nDA:3,1\nDA:4,1\nDA:5,1\n", done.out)

    def test_nothing_is_known_without_sources(self):
        self.executed(SMALL)
        profile = self.profiled(self.past(), source=None)
        self.assertNotIn(UNKNOWN, [row for row in profile.rows() if row.calls])


if __name__ == "__main__":
    unittest.main()
