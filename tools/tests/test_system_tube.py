"""The Tube's code of system/built: programs and languages on the second processor."""
import os
import random
import struct
import unittest

from common import beebtube, text_of
from test_system import BUILT, FONT, MON, OS, SECOND, byte, calls, rom, screen, word
from test_system_dfs import BOOT, DFS, EXEC, SHIFT, code, disc_of, files_of, new

from beebtube.disc import Disc

TUBE = text_of(os.path.join(BUILT, "tube.rom"))
AT = 0x3000


def started(seconds, keys=None, *, language=MON, dfs=DFS, **more):
    """Both machines so many seconds after power-on; the language goes over."""
    return beebtube.solo(int(seconds * SECOND), os=OS, rom13=language, rom14=dfs, tube=TUBE,
        font=FONT, keys=keys or beebtube.Script(), **more)


def program(source, at=AT):
    return beebtube.asm("65c02", ("        org &%04X\n%s" % (at, source)).encode())


def poke(at, data):
    """A source that writes bytes into memory."""
    return "".join("        LDA #%d\n        STA &%04X\n" % (value, at + number)
        for number, value in enumerate(data))


def texts(at, *those):
    """A source that writes texts with a 0D behind each, 16 bytes apart."""
    return "".join(poke(at + 16 * number, text.encode() + b"\r")
        for number, text in enumerate(those))


class Start(unittest.TestCase):
    def test_a_language_goes_over(self):
        run = started(3.5, beebtube.typed("S 2000 12 34{RETURN}R{RETURN}", start=1.2))
        self.assertEqual(screen(run), ["beebtube Tube 64K", "DFS", ">S 2000 12 34", ">R",
            "PC=2000 A=00 X=00 Y=00 P=00 S=FF", ">"])
        self.assertEqual((run.para[0x2000:0x2002], run.host[0x2000:0x2002]), (b"\x12\x34", b"\0\0"))
        self.assertEqual(run.para[0x8000:0xA000], MON)

    def test_without_a_language(self):
        run = started(5, beebtube.typed("*FX 241,7{RETURN}FX0{RETURN}GO 80G{RETURN}NONE{RETURN}"
            "{WAIT 1}{ESCAPE}", start=0.8), language=None, disc0=disc_of())
        self.assertEqual(screen(run), ["beebtube Tube 64K", "DFS", "**FX 241,7", "*FX0",
            "beebtube OS", "*GO 80G", "Bad address", "*NONE", "Bad command", "*", "Escape", "*"])
        self.assertEqual(run.host[0x281], 7)

    def test_without_host_code(self):
        """The system leaves the Tube alone, and the language is the host's."""
        self.assertEqual(screen(started(1.5, dfs=None)), ["beebtube 32K", "Monitor", ">"])

    def test_break(self):
        run = started(5, beebtube.typed("S 2000 12{RETURN}*FX 241,7{RETURN}{BREAK}R{RETURN}",
            start=1.2))
        self.assertEqual(screen(run)[2:], [">R", "PC=2000 A=00 X=00 Y=00 P=00 S=FF", ">"])
        self.assertEqual((run.para[0x2000], run.host[0x281]), (0x12, 7))

    def test_a_language_for_another_address(self):
        """With bit 5 of its type the four bytes after its (C) text are where it goes."""
        source = "        org &8000\n        byte 0, 0, 0, 0, 0, 0, &62, &10, 1, 84, 0\n" + \
            "        org &8010\n        byte 0, 40, 67, 41, 0\n        byte 0, &B8, 0, 0\n"
        head = bytearray(beebtube.asm("6502", source.encode()).ljust(64, b"\0"))
        head[:3] = b"\x4c\x40\xb8"
        body = program("        LDA #&84\n        JSR &FFF4\n        STX &2000\n        STY &2001\n"
            "        LDA #65\n        JSR &FFEE\nstop:   JMP stop\n", 0xB840)
        run = started(1.5, language=(bytes(head) + body).ljust(8192))
        self.assertEqual(run.para[0x2000:0x2002], word(0xB800))
        self.assertEqual(screen(run)[2:], ["A"])

    def test_no_language_of_this_processor(self):
        for kind, told in ((0x82, "This is not a language"), (0x48, "I cannot run this code")):
            image = bytearray(program("        JMP &4011\n        byte 0, 0, 0, %d, &0C, 0, 84, 0, "
                "0, 0, 40, 67, 41, 0\n        RTS\n" % kind, 0x4000))
            image[7] = image.index(b"\0(C)")
            run = started(2.5, SHIFT, language=None, disc0=disc_of(new("IMAGE", image, 0x4000,
                0x4000), new(BOOT, b"IMAGE\r"), option=EXEC))
            self.assertEqual(screen(run)[2:], ["*IMAGE", told, "*"])


class OnBoth(unittest.TestCase):
    """The same language on the host alone and on the second processor leaves the same."""

    def both(self, source, seconds=2.0, keys=None, disc=None, printed=b""):
        """Memory from 2000 to 2FFF of both, and what the screen has after the first lines."""
        more = {} if disc is None else {"disc0": disc}
        language = rom(printed, source)
        host = beebtube.host(int(seconds * SECOND), os=OS, rom13=language, rom14=DFS, font=FONT,
            keys=keys or beebtube.Script(), **more)
        second = started(seconds, keys, language=language, **more)
        self.runs = host, second
        ours, theirs = host.host[0x2000:0x3000], second.para[0x2000:0x3000]
        self.assertEqual((ours[0], theirs[0]), (0x5A, 0x5A), "it does not come back")
        self.assertEqual(second.host[0x2000], 0)
        return ours, theirs

    def same(self, source, **how):
        ours, theirs = self.both(source, **how)
        host, second = self.runs
        self.assertEqual([(hex(0x2000 + at), ours[at], theirs[at]) for at in range(len(ours))
            if ours[at] != theirs[at]], [])
        if host.host[0x355] == 7:
            lines = [screen(run)[2:] for run in self.runs]
            self.assertEqual(lines[0][lines[0][:1] == ["T"] :], lines[1])
        else:
            self.assertEqual(host.host[0x3000:0x8000], second.host[0x3000:0x8000])
        return theirs

    def test_osbyte(self):
        """Calls below 80 give X, and others X, Y and C."""
        low = [byte(0, 1), byte(1, 5), byte(4, 1), byte(6, 3), byte(11, 9), byte(117), byte(118)]
        high = [byte(241, 0, 255), byte(128, 255), byte(138, 0, 65), byte(145), byte(145),
            byte(133, 4), byte(134), byte(135), byte(160, 8), byte(129, 2, 0), byte(121, 0x90),
            byte(200, 1, 0), byte(200, 0, 0), byte(253, 0, 255)]
        ours, theirs = self.both(calls(*low, *high), printed=b"\x16\x07Hi")
        for at, asked in enumerate(low + high):
            count = 4 if asked[1] in (129, 145) else 3
            count -= at < len(low) or asked[1] == 121
            pair = [list(memory[0x100 + 4 * at : 0x100 + 4 * at + count]) for memory in (ours,
                theirs)]
            for cells in pair:
                cells[3:] = [flags & 1 for flags in cells[3:]]
            if asked[1] == 135:  # the letter at the cursor is below another screen
                self.assertEqual(pair[1][2], 7)
            self.assertEqual(pair[0], pair[1], asked)

    def test_the_memory_of_the_second_processor(self):
        asked = calls(byte(0x82), byte(0x83), byte(0x84))
        _, theirs = self.both(asked)
        self.assertEqual([theirs[0x101 + 4 * at : 0x103 + 4 * at] for at in range(3)],
            [word(0), word(0x800), word(0x8000)])

    def test_osword(self):
        source = ""
        blocks = {2: [1, 2, 3, 4, 5], 4: [9, 8, 7, 6, 5], 5: [9, 0x80, 0, 0, 0],
            6: [0x70, 0x7B, 0, 0, 0x41], 9: [100, 0, 100, 0, 0], 10: [65], 11: [1],
            12: [1, 6, 0, 0, 0], 13: [], 7: [1, 0, 0, 0, 100, 0, 1, 0], 8: [2] + [1] * 13,
            0x15: list(range(16)), 0x7E: list(range(16))}
        for number, block in blocks.items():
            at = 0x2200 + 16 * list(blocks).index(number)
            source += poke(at, block) + "        LDX #<%d\n        LDY #>%d\n" % (at, at)
            source += "        LDA #%d\n        JSR &FFF1\n" % number
        theirs = self.same(source, printed=bytes([22, 2, 18, 0, 5]) + struct.pack("<BBhh", 25, 69,
            100, 100))
        self.assertEqual(theirs[0x200 + 16 * 4 + 4], 5)
        self.assertEqual(self.runs[1].host[0x7B70], 0x41)

    def test_osword_with_lengths_of_its_own(self):
        """From 80 on the block's first bytes have how many go over and come back."""
        serve = beebtube.asm("6502", b"""
        org &8000
        byte 0, 0, 0
        JMP serve
        byte &82, &0C, 1, 70, 0, 0
        org &800C
        byte 0, 40, 67, 41, 0
serve:  CMP #8
        BNE no
        LDA &EF
        CMP #&90
        BNE back
        LDY #15
turn:   LDA (&F0),Y
        EOR #&FF
        STA (&F0),Y
        DEY
        CPY #2
        BCS turn
        LDA #0
        RTS
back:   LDA #8
no:     RTS
""")
        source = poke(0x2200, [5, 7, 1, 2, 3] + [9] * 11) + \
            "        LDA #&90\n        LDX #<&2200\n        LDY #>&2200\n        JMP &FFF1\n"
        run = started(2.5, SHIFT, rom15=serve.ljust(8192, b"\xff"), disc0=disc_of(new("P",
            program(source), AT, AT), new(BOOT, b"*P\r"), option=EXEC))
        found = run.para[0x2200:0x2210]
        self.assertEqual((found[:5], found[7:]), (bytes([5, 7, 254, 253, 252]), b"\t" * 9))

    def test_a_line_and_keys(self):
        line = poke(0x2200, word(0x2300) + bytes([5, 32, 126]))
        ask = "        LDX #<&2200\n        LDY #>&2200\n        LDA #0\n        JSR &FFF1\n" + \
            "        PHP\n        PLA\n        AND #1\n        STA &%04X\n        STY &%04X\n"
        keys = beebtube.typed("abX{DELETE}cdefg{RETURN}ab{ESCAPE}yz", start=1.2)
        clear = "        LDA #126\n        JSR &FFF4\n        STX &2402\n"
        read = "        JSR &FFE0\n        STA &%04X\n"
        theirs = self.same(line + ask % (0x2400, 0x2401) + ask % (0x2403, 0x3000) + clear
            + read % 0x2405 + read % 0x2406, seconds=4, keys=keys)
        self.assertEqual(theirs[0x300:0x306], b"ABCDE\r"[:2] + theirs[0x302:0x306])
        self.assertEqual(theirs[0x400:0x404], bytes([0, 5, 255, 1]))
        self.assertEqual(theirs[0x405:0x407], b"YZ")

    def test_files(self):
        """Each call of the filing system, and what it leaves in its block."""
        chance = random.Random(5)
        data = chance.randbytes(700)
        disc = disc_of(new("DATA", data, 0x1900, 0x8023), new("LOCK", b"l", locked=True),
            title="Both")
        name = {text: 0x2800 + 16 * at for at, text in enumerate(("DATA", "NEW", "NONE", "OUT"))}
        source = texts(0x2800, *name)
        handle = 0x2700

        def block(at, *parts):
            return poke(at, b"".join(struct.pack("<I", part) if number else word(part)
                for number, part in enumerate(parts)))

        def asked(entry, a, at, place):
            return "        LDA #%d\n        LDX #<%d\n        LDY #>%d\n        JSR &%04X\n" % (
                a, at, at, entry) + "        STA &%04X\n" % place

        def gbpb(a, at, memory, count, pointer):
            return poke(at, b"\0" + struct.pack("<III", memory, count, pointer)) + \
                "        LDA &%04X\n        STA &%04X\n" % (handle, at) + asked(0xFFD1, a, at,
                0x2701) + "        PHP\n        PLA\n        AND #1\n" \
                "        STA &%04X\n" % (at + 14)

        source += block(0x2900, name["DATA"], 0, 0, 0, 0) + asked(0xFFDD, 5, 0x2900, 0x2710)
        source += block(0x2920, name["NONE"], 0, 0, 0, 0) + asked(0xFFDD, 5, 0x2920, 0x2711)
        source += block(0x2940, name["DATA"], 0x2100, 0, 0, 0)
        source += asked(0xFFDD, 255, 0x2940, 0x2712)
        source += block(0x2960, name["NEW"], 0x1234, 0x5678, 0x2110, 0x2180) + asked(0xFFDD, 0,
            0x2960, 0x2713)
        source += asked(0xFFCE, 0x40, name["DATA"], handle)
        source += "        LDY &2700\n        JSR &FFD7\n        STA &2714\n"
        for number, (a, count, pointer) in enumerate(((4, 20, 0), (3, 300, 256), (4, 300, 0))):
            source += gbpb(a, 0x2980 + 16 * number, 0x2400 + 256 * number, count, pointer)
        source += "        LDA #0\n        LDX #&80\n        LDY &2700\n        JSR &FFDA\n"
        source += "".join("        LDA &%02X\n        STA &%04X\n" % (0x80 + at, 0x2720 + at)
            for at in range(4))
        source += "        LDA #2\n        LDX #&80\n        LDY &2700\n        JSR &FFDA\n"
        source += "".join("        LDA &%02X\n        STA &%04X\n" % (0x80 + at, 0x2724 + at)
            for at in range(4))
        source += "        LDA #127\n        LDX &2700\n        JSR &FFF4\n        STX &2728\n"
        source += "        LDA #0\n        LDY &2700\n        JSR &FFCE\n        STA &2729\n"
        source += asked(0xFFCE, 0x80, name["OUT"], handle)
        source += "        LDA #88\n        LDY &2700\n        JSR &FFD4\n        STA &272A\n"
        source += gbpb(2, 0x29B0, 0x2110, 400, 0) + gbpb(1, 0x29C0, 0x2100, 8, 4)
        source += "        LDA #0\n        LDY &2700\n        JSR &FFCE\n"
        for number, a in enumerate((5, 6, 7, 8)):
            source += "        LDA #0\n        STA &2700\n" + gbpb(a, 0x29D0 + 16 * number,
                0x2A80 + 64 * number, 3, 0)
        source += "        LDA #0\n        LDY #0\n        JSR &FFDA\n        STA &2730\n"
        source += asked(0xFFCE, 0x40, name["NONE"], 0x2731)
        theirs = self.same(source, seconds=7, disc=disc)
        self.assertEqual(theirs[0x100:0x100 + 700], data)
        self.assertEqual(theirs[0x710:0x715] + theirs[0x730:0x732], bytes([1, 0, 1, 1, data[0], 4,
            0]))
        files = [files_of(run.discs[0]) for run in self.runs]
        self.assertEqual(files[0], files[1])
        out = b"X" + data[0x10 : 0x10 + 400]
        self.assertEqual(files[1]["$.OUT"], out[:4] + data[:8] + out[12:])
        self.assertEqual(files[1]["$.NEW"], data[0x10:0x80])

    def test_an_error(self):
        """A program's own BRKV gets the errors of the host and its own."""
        source = """
        LDA #<caught
        STA &0202
        LDA #>caught
        STA &0203
        LDX #&00
        LDY #&28
        JSR &FFF7
caught: LDY #0
copy:   LDA (&FD),Y
        STA &2700,Y
        INY
        CMP #0
        BNE copy
        LDX #&F0
        TXS
        LDA #<again
        STA &0202
        LDA #>again
        STA &0203
        BRK
        byte 99, 65, 0
again:  LDY #0
        LDA (&FD),Y
        STA &2781
        LDA #&5A
        STA &2000
halt:   JMP halt
"""
        theirs = self.same(texts(0x2800, "LOAD QQ") + source, seconds=3, disc=disc_of())
        self.assertEqual((theirs[0x700:0x70B], theirs[0x781]), (b"\xd6Not found\0", 99))


class Programs(unittest.TestCase):
    def test_a_program_of_a_disc(self):
        """It is started on the second processor and comes back; one with an address of the host's
        runs there."""
        here = program("        LDA #72\n        JSR &FFEE\n        LDA #1\n        STA &2000\n"
            "        JMP &FFE7\n")
        host = code("        LDA #2\n        STA &2001\n", 0x2800)
        disc = disc_of(new("HERE", here, AT, AT), new("HOST", host, 0x32800, 0x32800),
            new(BOOT, b"*HERE\r*RUN HOST\r*GO 3000\r*GO\r*LOAD HERE 4000\r*SAVE IT 3000 +10\r"
                b"*SAVE OS FFFFC000 +200\r"), option=EXEC)
        run = started(5, SHIFT, disc0=disc)
        self.assertEqual([line for line in screen(run) if line == "H"], ["H"] * 3)
        self.assertEqual((run.para[0x2000], run.host[0x2000], run.para[0x2001], run.host[0x2001]),
            (1, 0, 0, 2))
        self.assertEqual(run.para[0x4000 : 0x4000 + len(here)], here)
        files = files_of(run.discs[0])
        self.assertEqual((files["$.IT"], files["$.OS"]), (run.para[0x3000:0x3010], OS[:0x200]))

    def test_boot(self):
        """A !BOOT that is a program starts on the second processor, in place of the language."""
        run = started(2.5, SHIFT, disc0=disc_of(new(BOOT, program(
            "        LDA #66\n        JSR &FFEE\nstop:   JMP stop\n"), AT, AT), option=2))
        self.assertEqual(screen(run)[2:], ["B"])

    def test_escape_ends_a_program(self):
        source = """
loop:   BIT &FF
        BPL loop
        LDA #126
        JSR &FFF4
        BRK
        byte 17, 69, 115, 99, 97, 112, 101, 0
"""
        disc = disc_of(new("LOOP", program(source), AT, AT), new(BOOT, b"*LOOP\r"), option=EXEC)
        keys = beebtube.typed("{ESCAPE}R{RETURN}", start=2.5)
        run = started(4, SHIFT + b"at 12000000 up 00\n" + keys.text().encode(), disc0=disc)
        self.assertEqual(screen(run)[2:], [">*LOOP", "Escape", ">R",
            "PC=2000 A=7E X=FF Y=03 P=00 S=FF", ">"])
        self.assertEqual((run.host[0xFF], run.para[0xFF]), (0, 0))

    def test_a_disc_fault_releases_the_tube(self):
        """A file of which the disc lacks sectors is an error, and a language can claim the Tube."""
        disc = disc_of(new("P", program("        LDA #80\n        JSR &FFEE\n        RTS\n"), AT,
            AT), new(BOOT, b"*LOAD BIG 4000\r*MON\r*P\r"), new("BIG", b"b" * 5000), option=EXEC)
        image = bytearray(disc.image.ljust(256 * 798, b"\0") + b"b" * 512)
        image[256 + 14 : 256 + 16] = [3, 798 & 255]  # it begins two sectors before the end
        run = started(8, SHIFT, disc0=Disc(image))
        self.assertEqual(screen(run)[2:], [">*LOAD BIG 4000", "Disc fault 10 at 50/00", ">*MON",
            ">*P", "P>"])
        self.assertEqual(run.para[0x4000:0x4201], b"b" * 512 + b"\0")

    def test_break_at_any_moment(self):
        """With SHIFT held the disc starts again, whatever was under way."""
        data = bytes(range(256)) * 20
        disc = disc_of(new("P", program("        LDA #80\n        JSR &FFEE\n        RTS\n"), AT,
            AT), new("BIG", data, 0x4000, 0x4000), new(BOOT,
            b"*LOAD BIG\r*P\r*SAVE COPY 4000 +1400\r*P\r"), option=EXEC)
        chance = random.Random(1)
        for moment in (chance.uniform(0.3, 4) for _ in range(4)):
            run = started(moment + 7, SHIFT + b"at %d break\n" % (moment * SECOND), disc0=disc)
            self.assertEqual(screen(run)[-4:], [">*P", "P>*SAVE COPY 4000 +1400", ">*P", "P>"],
                moment)
            self.assertEqual(run.para[0x4000 : 0x4000 + len(data)], data, moment)
            self.assertEqual(files_of(run.discs[0])["$.COPY"], data, moment)

    def test_events(self):
        """An event of the host's reaches EVNTV with A, X and Y."""
        source = """
        LDA #<mine
        STA &0220
        LDA #>mine
        STA &0221
        LDA #14
        LDX #2
        JSR &FFF4
        LDA #153
        LDX #0
        LDY #81
        JSR &FFF4
wait:   LDA &2000
        BEQ wait
        RTS
mine:   STA &2000
        STX &2001
        STY &2002
        RTS
"""
        run = started(3, SHIFT, disc0=disc_of(new("EV", program(source), AT, AT), new(BOOT,
            b"*EV\r"), option=EXEC))
        self.assertEqual(run.para[0x2000:0x2003], bytes([2, 0, 81]))


# A paged ROM whose service call 4 does a list of transfers: kind, address, length (0 is 256), and
# the bytes of those to the second processor. The bytes of the others go to memory from 2000 up. The
# list ends with FF. It does nothing before the command, and the wait after each transfer is the
# time that the application note gives for its kind.
TRANSFERS = """
        org &8000
        byte 0, 0, 0
        JMP serve
        byte &82, &10, 1, 84, 0
        org &8010
        byte 0, 40, 67, 41, 0
serve:  CMP #4
        BEQ go
        RTS
go:     LDA #&C9
        JSR &0406
        BCC go
        LDA #<list
        STA &A8
        LDA #>list
        STA &A9
        LDA #0
        STA &AA
        LDA #&20
        STA &AB
next:   JSR fetch
        CMP #&FF
        BEQ done
        STA &AC
        JSR fetch
        STA &B0
        JSR fetch
        STA &B1
        LDA #0
        STA &B2
        STA &B3
        JSR fetch
        STA &AD
        SEI
        LDA &AC
        LDX #&B0
        LDY #0
        JSR &0406
        JSR wait
        LDA &AC
        LSR A
        BCS give
take:   LDA &FEE5
        LDY #0
        STA (&AA),Y
        INC &AA
        BNE after
        INC &AB
after:  JSR pause
        DEC &AD
        BNE take
        BEQ ended
give:   JSR fetch
        STA &FEE5
        JSR pause
        DEC &AD
        BNE give
ended:  CLI
        JMP next
done:   LDA #&89
        JSR &0406
        LDA #&5A
        STA &1F00
        LDX &F4
        LDA #0
        RTS
fetch:  LDY #0
        LDA (&A8),Y
        INC &A8
        BNE got
        INC &A9
got:    RTS
pause:  LDA &AC
        CMP #2
        BCC wait
        CMP #6
        BCS some
        LDA &AD
        LSR A
        BCC some
wait:   LDY #10
count:  DEY
        BNE count
some:   RTS
list:
"""


class Transfers(unittest.TestCase):
    def test_random_transfers(self):
        """All kinds, one after the other, beside a model of the second processor's memory."""
        for seed in (1, 2, 3):
            chance = random.Random(seed)
            model = bytearray(65536)
            listed, wanted = b"", b""
            filled = chance.randbytes(256)
            while len(listed) < 7000:
                kind = chance.choice((0, 1, 2, 3, 6, 7) if listed else (7,))
                count = 256 if kind > 5 else 2 * chance.randrange(1, 40) if kind > 1 else \
                    chance.randrange(1, 80)
                at = chance.choice((0x3000, 0x3F80, 0x2345, 0x70F0)) + chance.randrange(600)
                listed += bytes([kind]) + word(at) + bytes([count & 255])
                if kind & 1:
                    data = chance.randbytes(count) if at & 1 else (filled * 2)[at & 255 :][:count]
                    listed += data
                    model[at : at + count] = data
                else:
                    wanted += bytes(model[at : at + count])
            image = beebtube.asm("6502", TRANSFERS.encode()) + listed + b"\xff"
            run = started(4.5, SHIFT, rom15=image.ljust(16384, b"\xff"), disc0=disc_of(new(BOOT,
                b"*T\r"), option=EXEC))
            self.assertEqual(run.host[0x1F00], 0x5A, screen(run))
            self.assertEqual(run.host[0x2000 : 0x2000 + len(wanted)], wanted, seed)
            for at in range(0x2345, 0x7500, 256):
                self.assertEqual(run.para[at : at + 256], model[at : at + 256], (seed, hex(at)))
            self.assertEqual(screen(run)[-1], ">")

    def test_who_claims(self):
        """A second claim is refused, and a release of another's claim does nothing."""
        source = "".join("        LDA #%d\n        JSR &0406\n        LDA #0\n        ROL A\n"
            "        STA &%04X\n" % (a, 0x2100 + at)
            for at, a in enumerate((0xC9, 0xCA, 0xC9, 0x8A, 0xCA, 0x89, 0xCA, 0x8A)))
        host = code(source, 0x2800)
        run = started(3, SHIFT, disc0=disc_of(new("HOST", host, 0x32800, 0x32800), new(BOOT,
            b"*HOST\rR\r"), option=EXEC))
        found = run.host[0x2100:0x2108]
        self.assertEqual([found[at] for at in (0, 1, 2, 4, 6)], [1, 0, 1, 0, 1])
        self.assertIn("PC=2000 A=00 X=00 Y=00 P=00 S=FF", screen(run))


if __name__ == "__main__":
    unittest.main()
