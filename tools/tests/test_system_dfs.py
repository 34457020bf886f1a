"""The disc filing system of system/built, run by the program on discs of the tools."""
import os
import random
import unittest

from common import TOP, beebtube, text_of
from test_system import FONT, MON, OS, SECOND, screen

from beebtube import disc as discs
from beebtube.disc import Disc, NewFile, empty_disc, with_file, with_option, without_file

DFS = text_of(os.path.join(TOP, "system", "built", "dfs.rom"))
SHIFT = b"at 0 down 00\n"
BOOT, LOAD, RUN, EXEC = "!BOOT", 1, 2, 3


def new(name, data=b"", load=0, start=0, locked=False, folder="$"):
    return NewFile(folder, name, locked, load, start, data)


def disc_of(*files, title="", option=0, double=False, tracks=80, side=0):
    disc = empty_disc(double, tracks, title)
    for file in files:
        disc = with_file(disc, file, side)
    return with_option(disc, option)


def started(seconds, keys=SHIFT, **more):
    """The machine so many seconds after power-on, with SHIFT held down."""
    return beebtube.host(int(seconds * SECOND), os=OS, rom13=MON, rom14=DFS, font=FONT, keys=keys,
        **{name: value if isinstance(value, Disc) else Disc(value) for name, value in more.items()})


def script(*lines):
    """A disc whose !BOOT types these commands."""
    return disc_of(new(BOOT, "".join(line + "\r" for line in lines).encode()), option=EXEC)


def done(lines, disc, seconds):
    """The machine after commands of a script in drive 0, and the disc in drive 1."""
    run = started(seconds, disc0=script("*DRIVE 1", *lines), disc1=disc)
    return run, run.discs[1]


def files_of(disc, side=0):
    catalogue = disc.catalogue(side)
    return {file.whole_name: catalogue.bytes_of(file) for file in catalogue.files}


def code(text, at=0x2000):
    return beebtube.asm("6502", ("        org &%04X\n%s        RTS\n" % (at, text)).encode())


def whole(address):
    """An address of 18 bits as the operating system has it: from 30000 on it is the host's."""
    return address | (0xFFFC0000 if address >> 16 == 3 else 0)


def marks(place, byte):
    """A program that puts a byte into a cell."""
    return code("        LDA #%d\n        STA &%04X\n" % (byte, place))


class Start(unittest.TestCase):
    def test_the_catalogue_on_the_screen(self):
        disc = disc_of(new(BOOT, b"*CAT\r*INFO #.*\r*TYPE TEXT\r*DUMP TEXT\r"),
            new("TEXT", b"A text.\rLine 2\r", 0x31900, 0x8023, locked=True),
            new("OTHER", bytes(700), 0x1900, 0x1902, folder="A"), title="Hello", option=EXEC)
        run = started(3, disc0=disc)
        self.assertEqual(run.discs[0].image, disc.image)
        self.assertEqual(screen(run), [
            "beebtube 32K", "DFS", "Monitor", ">*CAT", "Hello (03)",
            "Drive 0             Option 3 (EXEC)", "Dir. :0.$           Lib. :0.$",
            "    !BOOT                TEXT    L", "  A.OTHER", ">*INFO #.*",
            "A.OTHER       001900 001902 0002BC 004", "$.TEXT     L  FF1900 008023 00000F 003",
            "$.!BOOT       000000 000000 000025 002", ">*TYPE TEXT", "A text.", "Line 2",
            ">*DUMP TEXT", "0000 41 20 74 65 78 74 2E 0D A text..",
            "0008 4C 69 6E 65 20 32 0D ** Line 2.", ">"])

    def test_without_shift(self):
        """Without SHIFT nothing is begun; *DISC names the filing system, *HELP has its commands."""
        disc = script("*FX 1,7")
        run = started(2.6, b"", disc0=disc)
        self.assertEqual(screen(run), ["beebtube 32K", "DFS", "Monitor", ">"])
        run = started(1.5, disc0=script("*HELP DFS"))
        self.assertIn("  COPY      <from> <to> <afsp>", screen(run))

    def test_no_disc(self):
        """A start without a disc goes on, and a command says what is wrong."""
        run = started(9, disc1=script("*FX 1,7"))
        self.assertEqual(screen(run), ["beebtube 32K", "DFS", "Monitor", ">"])
        run, _ = done(["*OPT 1", "*CAT 2"], script(), 8)
        self.assertEqual(screen(run)[-3:], [">*CAT 2", "Disc fault 10 at 00/00", ">"])

    def test_shift_and_break(self):
        """SHIFT+BREAK runs a !BOOT of machine code, and *OPT 4 says how it is begun."""
        keys = "".join("at %d %s\n" % (int(at * SECOND), what)
            for at, what in ((1, "down 00"), (1.1, "break"), (1.4, "up 00"))).encode()
        for option, cell, byte in ((0, 0x2500, 0), (RUN, 0x2500, 0x5A), (LOAD, 0x2000, 0xA9)):
            disc = disc_of(new(BOOT, marks(0x2500, 0x5A), 0x2000, 0x2000), option=option)
            run = started(2.2, keys, disc0=disc)
            self.assertEqual(run.host[cell], byte, option)


class Programs(unittest.TestCase):
    def test_load_and_run(self):
        """Whole files come to the address that is said, or their own, and no byte more."""
        data = random.Random(1).randbytes(0x1234)
        disc = disc_of(new("DATA", data, 0x3000), new("PROG", marks(0x2500, 1), 0x32000, 0x32000),
            new("TOOL", marks(0x2501, 2), 0x2000, 0x2000, folder="L"),
            new("PLAIN", marks(0x2502, 3), 0x2000, 0x2000))
        run, after = done(["*LOAD DATA", "*LOAD :1.$.DATA 5000", "*RUN PROG", "*LIB :1.L", "*TOOL",
            "*/plain"], disc, 5)
        self.assertEqual(run.host[0x3000 : 0x3000 + len(data) + 1], data + b"\0")
        self.assertEqual(run.host[0x5000 : 0x5000 + len(data) + 1], data + b"\0")
        self.assertEqual(run.host[0x2500 : 0x2503], b"\1\2\3")
        self.assertEqual(after.image, disc.image)

    def test_faults(self):
        disc = disc_of(new("LOCKED", b"x", locked=True))
        for lines in ({"*LOAD NONE": "Not found", "*NONE": "Bad command", "*RUN NONE": "Not found",
                "*DELETE LOCKED": "Locked", "*DELETE A:B": "Bad name"}, {"*DRIVE 4": "Bad drive",
                "*DIR AB": "Bad dir", "*BACKUP 0 1": "Not enabled", "*RENAME": "Syntax",
                "*OPT 4,4": "Bad option"}):
            run, after = done(list(lines), disc, 2.5)
            told = [line for line in screen(run) if not line.startswith(">")]
            self.assertEqual(told[3:], list(lines.values()))
            self.assertEqual(after.image, disc.image)

    def test_both_sides(self):
        """Drives 2 and 3 are the other sides; a side may have 40 tracks."""
        disc = disc_of(new("UP", b"up"), double=True, tracks=40)
        disc = with_file(disc, new("DOWN", b"down\r"), side=1)
        run = started(4, disc0=script("*DRIVE 3", "*TYPE DOWN", "*SAVE NEW C000 +100",
            "*COPY 3 1 D*"), disc1=disc)
        self.assertIn("down", screen(run))
        after = run.discs[1]
        self.assertEqual(after.catalogue(1).sectors, 400)
        self.assertEqual(files_of(after), {"$.UP": b"up", "$.DOWN": b"down\r"})
        self.assertEqual(files_of(after, 1), {"$.DOWN": b"down\r", "$.NEW": OS[:256]})


CALLS = """
        LDA #&80
        JSR open
        LDX #0
        STX &52
put:    TXA
        EOR &52
        LDY &50
        JSR &FFD4
        INX
        BNE put
        INC &52
        LDA &52
        CMP #10
        BNE put
        LDA #2
        LDX #&60
        JSR &FFDA
        JSR shut
        LDA #&C0
        JSR open
        LDA #0
        STA &64
        STA &65
        STA &66
        STA &67
        JSR point
        JSR &FFD7
        STA &53
        LDA #&EE
        JSR &FFD4
        LDA &50
        STA block
        LDA #3
        LDX #<block
        LDY #>block
        JSR &FFD1
        LDA #&10
        STA &64
        LDA #&0B
        STA &65
        JSR point
        LDA #&AA
        JSR &FFD4
        JSR &FFD7
        STA &54
        LDA #0
        ROL A
        STA &55
        LDX &50
        LDA #127
        JSR &FFF4
        STX &56
        JSR shut
        LDA #5
        LDX #<info
        LDY #>info
        JSR &FFDD
        STA &57
        LDA #0
        TAY
        JSR &FFDA
        STA &58
        LDA #8
        LDX #<names
        LDY #>names
        JSR &FFD1
        LDX #<word
        LDY #>word
        LDA #127
        JSR &FFF1
        LDA word10
        STA &59
        RTS
open:   LDX #<name
        LDY #>name
        JSR &FFCE
        STA &50
        TAY
        RTS
shut:   LDA #0
        LDY &50
        JMP &FFCE
point:  LDA #1
        LDX #&64
        LDY &50
        JSR &FFDA
        LDY &50
        RTS
name:   byte 68, 65, 84, 65, 13
block:  byte 0, 0, &30, 0, 0
        byte 44, 1, 0, 0, &F0, 3, 0, 0
info:   word name
        byte 0, 0, 0, 0, 0, 0, 0, 0, 0, 0, 0, 0, 0, 0, 0, 0
names:  byte 0, 0, &33, 0, 0, 9, 0, 0, 0, 0, 0, 0, 0
word:   byte 1, 0, &34, 0, 0, 3, &53, 0, 0, &22
word10: byte 255
"""


class Calls(unittest.TestCase):
    def test_bytes_of_files(self):
        """OSFIND, OSBPUT, OSBGET, OSARGS, OSGBPB, OSFILE, OSWORD 7F, and the end of a file."""
        program = new("PROG", code(CALLS), 0x2000, 0x2000)
        run, after = done(["*PROG"], disc_of(program), 7.5)
        wanted = bytearray(b"".join(bytes(at ^ page for at in range(256)) for page in range(10)))
        zero = run.host[0x50:0x70]
        self.assertEqual(int.from_bytes(zero[0x10:0x13], "little"), len(wanted))
        self.assertEqual(zero[3], wanted[0])
        wanted[1] = 0xEE
        self.assertEqual(run.host[0x3000 : 0x3000 + 301], wanted[0x3F0 : 0x3F0 + 300] + b"\0")
        wanted += bytes(0xB10 - len(wanted)) + b"\xaa"
        self.assertEqual(files_of(after)["$.DATA"], bytes(wanted))
        self.assertEqual(list(zero[4:10]), [0xFE, 1, 0xFF, 1, 4, 0])
        self.assertEqual(run.host[0x3300:0x3311], b"\7DATA   \7PROG   \0")
        self.assertEqual(run.host[0x3400:0x3600], after.image[:512])

    def test_build_and_spool(self):
        keys = beebtube.typed("*BUILD :1.T{RETURN}ONE{RETURN}TWO{RETURN}{ESCAPE}"
            "*SPOOL :1.LOG{RETURN}*DRIVE 1{RETURN}*SPOOL{RETURN}*LIST T{RETURN}*DUMP T{RETURN}"
            "{WAIT 0.5}", start=1)
        run = started(keys.ticks / SECOND, keys, disc0=script(), disc1=disc_of())
        files = files_of(run.discs[1])
        self.assertEqual(files["$.T"], b"ONE\rTWO\r")
        self.assertEqual(files["$.LOG"], b">*DRIVE 1\n\r>*SPOOL\n\r")
        self.assertEqual(screen(run)[-6:], [">*LIST T", "0001 ONE", "0002 TWO", ">*DUMP T",
            "0000 4F 4E 45 0D 54 57 4F 0D ONE.TWO.", ">"])


class Writing(unittest.TestCase):
    def test_random_commands(self):
        """Discs are byte for byte those that the tools make."""
        for seed in range(3):
            chance = random.Random(seed)
            before = empty_disc(False, 80, "Disc One")
            for number in range(chance.randrange(10)):
                before = with_file(before, new("OLD%d" % number, chance.randbytes(
                    chance.choice((0, 1, 255, 256, 257, 3000))), chance.getrandbits(18),
                    chance.getrandbits(18), folder=chance.choice("$A")))
            wanted, lines = before, []
            for number in range(8):
                files = wanted.catalogue().files
                if chance.random() < 0.6 or not files:
                    at, length = chance.randrange(0xC000, 0xF000), chance.choice((0, 1, 256, 700))
                    load, start = chance.getrandbits(18), chance.getrandbits(18)
                    lines.append("*SAVE A.N%d %X +%X %X %X" % (number, at, length, whole(start),
                        whole(load)))
                    wanted = with_file(wanted, new("N%d" % number,
                        OS[at - 0xC000 : at - 0xC000 + length], load, start, folder="A"))
                else:
                    name = chance.choice(files).whole_name
                    lines.append("*DELETE " + name)
                    wanted = without_file(wanted, name)
            run, after = done(lines, before, 10)
            size = max(len(after.image), len(wanted.image))
            self.assertEqual(after.image.ljust(size, b"\0"), wanted.image.ljust(size, b"\0"),
                "%d: %s\n%s" % (seed, lines, screen(run)))

    def test_other_commands(self):
        disc = disc_of(new("ONE", b"1" * 300), new("TWO", b"2", locked=True), new("THREE", b"3"),
            new("GAP", bytes(3000)), new("END", b"end" * 700), title="Before")
        lines = ["*TITLE \"Twelve chars\"", "*OPT 4,2", "*ACCESS TWO", "*ACCESS ONE L",
            "*RENAME THREE A.THREE", "*DELETE GAP", "*COMPACT", "*COPY 1 0 E*", "*ENABLE",
            "*DESTROY T*", "Y"]
        run, after = done(lines, disc, 10)
        catalogue = after.catalogue()
        self.assertEqual((catalogue.title, catalogue.option), ("Twelve chars", 2))
        self.assertEqual([(file.whole_name, file.locked, file.sector) for file in catalogue.files],
            [("$.END", False, 6), ("A.THREE", False, 5), ("$.ONE", True, 2)], screen(run))
        self.assertEqual(files_of(after)["$.END"], b"end" * 700)
        self.assertEqual(files_of(run.discs[0])["$.END"], b"end" * 700)

    def test_backup(self):
        """Only after *ENABLE, and between sides of the same size."""
        def small(disc, sectors):
            image = bytearray(disc.image)
            image[262:264] = bytes([image[262] & 0xFC, sectors])
            return Disc(image)
        boot = small(script("*BACKUP 0 1", "*ENABLE", "*BACKUP 0 1"), 30)
        run = started(6, disc0=boot, disc1=small(disc_of(), 30))
        self.assertIn("Not enabled", screen(run))
        self.assertEqual(run.discs[1].image[: len(boot.image)], boot.image)
        run = started(3, disc0=small(script("*ENABLE", "*BACKUP 0 1"), 30), disc1=disc_of())
        self.assertIn("Other size", screen(run))
        self.assertEqual(run.discs[1].image, disc_of().image)


class PowerCuts(unittest.TestCase):
    def test_no_file_is_lost(self):
        """A run that ends at any moment of *SAVE and *COMPACT leaves each file as it was, or its
        new one."""
        chance = random.Random(7)
        disc = disc_of(*(new("OLD%d" % number, chance.randbytes(length), folder="$AB"[number % 3])
            for number, length in enumerate((700, 256, 2000, 1, 300, 1500, 257))))
        disc = without_file(disc, "A.OLD1")
        disc = without_file(disc, "A.OLD4")
        wanted = {name: [data] for name, data in files_of(disc).items()}
        wanted["$.OLD3"].append(OS[0x100:0x700])
        lines = ["*SAVE NEW C000 +300", "*SAVE OLD3 C100 +600", "*COMPACT", "*TYPE B.OLD2"]
        moments = sorted(chance.uniform(0.7, 8) for _ in range(12)) + [9.5]
        for moment in moments:
            _, after = done(lines, disc, moment)
            catalogue = after.catalogue()
            for name, data in wanted.items():
                self.assertIn(catalogue.bytes_of(catalogue.find(name)), data, (moment, name))
        self.assertEqual([(file.name, file.sector) for file in catalogue.files], [("OLD3", 24),
            ("NEW", 21), ("OLD6", 19), ("OLD5", 13), ("OLD2", 5), ("OLD0", 2)])
        self.assertEqual(files_of(after)["$.NEW"], OS[:0x300])
