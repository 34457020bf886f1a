"""The images of system/built, run by the program: the screen, memory, keys and calls."""
import hashlib
import os
import shutil
import struct

from common import TOP, Case, beebtube, call, text_of, unittest

BUILT = os.path.join(TOP, "system", "built")
OS, MON, FONT = (text_of(os.path.join(BUILT, name + ".rom")) for name in ("os", "mon", "font"))
SECOND = 6_000_000
OFF = bytes([23, 1, 0, 0, 0, 0, 0, 0, 0, 0])  # no cursor: it flashes
START = 0x350  # where the screen begins

# What a test's paged ROM does: it prints the bytes behind `data`, and then calls `then`.
PRINTER = """
        org &8000
        JMP start
        byte 0, 0, 0, &42, &10, 1, 84, 0
        org &8010
        byte 0, 40, 67, 41, 0
start:  LDX #<data
        STX &70
        LDX #>data
        STX &71
        LDY #0
loop:   LDA &70
        CMP #<end
        BNE one
        LDA &71
        CMP #>end
        BEQ all
one:    LDA (&70),Y
        JSR &FFEE
        INC &70
        BNE loop
        INC &71
        BNE loop
all:    JSR then
        LDA #&5A
        STA &2000
stop:   JMP stop
"""


def rom(printed: bytes = b"", then: str = "") -> bytes:
    """A language that prints bytes and does what a source text says."""
    lines = "".join("        byte %s\n" % ",".join(str(byte) for byte in printed[at : at + 16])
        for at in range(0, len(printed), 16))
    source = "%sthen:\n%s        RTS\ndata:\n%send:\n" % (PRINTER, then, lines)
    return beebtube.asm("6502", source.encode()).ljust(16384, b"\xff")


def word(value: int) -> bytes:
    return struct.pack("<H", value & 0xFFFF)


def plot(code: int, x: int, y: int) -> bytes:
    return bytes([25, code]) + word(x) + word(y)


def calls(*those) -> str:
    """A source that makes calls (entry, A, X, Y): A, X, Y and the flags stand from 2100 on."""
    source = ""
    for at, (entry, a, x, y) in enumerate(those):
        place = 0x2100 + 4 * at
        source += "        LDA #%d\n        LDX #%d\n        LDY #%d\n        JSR &%04X\n" % (a, x,
            y, entry)
        for step in ("PHP", "STA", "STX", "STY", "PLA", "STA"):
            source += "        %s" % step + (" &%04X" % place if step[0] == "S" else "") + "\n"
            place += step[0] == "S"
    return source


def byte(a: int, x: int = 0, y: int = 0):
    return 0xFFF4, a, x, y


def started(seconds: float = 1, keys=None, language: bytes = MON, **more):
    """The machine after so many seconds."""
    return beebtube.host(int(seconds * SECOND), os=OS, rom13=language, font=FONT,
        keys=keys or beebtube.Script(), **more)


def screen(run) -> list:
    """The lines of the teletext page that have something."""
    return [line for line in beebtube.screen_of(run.host, int.from_bytes(
        run.host[START : START + 2], "little")) if line]


class Images(Case):
    def test_sums(self):
        for line in text_of(os.path.join(BUILT, "sums")).decode().splitlines():
            digits, name = line.split()
            self.assertEqual(hashlib.sha256(text_of(os.path.join(BUILT, name))).hexdigest(),
                digits, name)
        self.assertEqual([len(OS), len(MON), len(FONT)], [16384, 8192, 960])

    def test_they_are_what_the_sources_give(self):
        if not (shutil.which("ca65") and shutil.which("ld65")):
            self.skipTest("not installed: ca65, ld65 (Debian package cc65)")
        done = call([os.path.join(TOP, "system", "build"), "check"], self.folder)
        self.assertEqual((done.status, done.out), (0, "built: as stored\n"), done.err)


class Start(unittest.TestCase):
    def test_the_prompt(self):
        self.assertEqual(screen(started()), ["beebtube 32K", "Monitor", ">"])

    def test_a_paged_rom_takes_the_first_line_away(self):
        """OSBYTE 215 in service call 1."""
        source = """
        org &8000
        byte 0, 0, 0
        JMP served
        byte &82, 10, 1, 83, 0, 40, 67, 41, 0
served: CMP #1
        BNE other
        TYA
        PHA
        LDA #215
        LDX #0
        LDY #127
        JSR &FFF4
        PLA
        TAY
        LDX &F4
        LDA #1
other:  RTS
"""
        served = beebtube.asm("6502", source.encode()).ljust(8192)
        self.assertEqual(screen(started(1, rom14=served)), ["Monitor", ">"])

    def test_no_language(self):
        run = beebtube.host(2 * SECOND, os=OS, font=FONT)
        self.assertEqual(screen(run), ["beebtube 32K", "Language?"])

    def test_the_highest_language_comes_first(self):
        run = started(1, language=MON, rom15=rom(b"high"))
        self.assertEqual(screen(run), ["beebtube 32K", "T", "high"])

    def test_break(self):
        keys = beebtube.typed("*FX 241,7{RETURN}S 2000 12{RETURN}{BREAK}*FX 1,9{RETURN}", start=1)
        run = started(5, keys)
        self.assertEqual(screen(run), ["beebtube 32K", "Monitor", ">*FX 1,9", ">"])
        self.assertEqual((run.host[0x2000], run.host[0x281], run.host[0x28D]), (0x12, 9, 0))
        run = started(5, beebtube.typed("*FX 241,7{RETURN}{CTRL+BREAK}", start=1))
        self.assertEqual((run.host[0x281], run.host[0x28D]), (0, 2))

    def test_the_links(self):
        for keys, mode, options in ((b"at 0 down 09\n", 6, 0xFE), (b"at 0 down 07\n", 3, 0xFB),
            (b"at 0 down 02\n", 7, 0x7F)):
            run = started(1, keys)
            self.assertEqual((run.host[0x355], run.host[0x28F]), (mode, options))

    def test_break_types_key_10(self):
        run = started(4, beebtube.typed("*KEY 10 S 2000 34|M{RETURN}{BREAK}", start=1))
        self.assertEqual(run.host[0x2000], 0x34)

    def test_memory_is_kept_and_cleared(self):
        for command, kept in (("", 0x12), ("*FX200,2{RETURN}", 0)):
            run = started(5, beebtube.typed(command + "S 2000 12{RETURN}{BREAK}", start=1))
            self.assertEqual(run.host[0x2000], kept)


class Modes(unittest.TestCase):
    """Each mode's picture, by its sum."""

    SUMS = {
        "actions": "9ee6c813065d24f9", "mode 0": "cea3e8f4a2847c88", "mode 1": "c50333bff0e0574c",
        "mode 2": "1028de951f3fa5e7", "mode 3": "e2fc2c506b4526c9", "mode 4": "f5fd5fdaa7834aa4",
        "mode 5": "8e9a94ccfa042f5b", "mode 6": "012d4fe3b5f2f05b", "mode 7": "441b34473549ee3c",
        "scroll 0": "60e858faf7ae8c7d", "scroll 1": "c8a1945c98340c93",
        "scroll 3": "676096a95c7d9614",
        "scroll 5": "fc29c4caebdca4a1", "scroll 6": "e669177a9e3f2c1b",
        "scroll 7": "ca886303e3b76b7f",
        "windows": "6b51fc58880d9c08",
    }

    def picture(self, name, printed, seconds=2.0):
        run = started(seconds, b"at %d shot\n" % (seconds * SECOND - 100), rom(printed))
        self.assertEqual(run.host[0x2000], 0x5A, name)
        found = hashlib.sha256(run.frames[0].pixmap).hexdigest()[:16]
        self.assertEqual(found, self.SUMS.get(name), name)

    def test_modes(self):
        for mode in range(8):
            with self.subTest(mode=mode):
                made = bytes([22, mode]) + OFF + bytes(range(32, 127)) + b"\r\n"
                for colour in range(8):
                    made += bytes([17, colour, 65 + colour])
                made += bytes([17, 7, 17, 129]) + b"back" + bytes([17, 128])
                for colour in range(1, 8):
                    made += bytes([18, 0, colour]) + plot(4, 100 + 60 * colour, 300)
                    made += plot(5, 140 + 60 * colour, 600)
                made += bytes([18, 0, 1]) + plot(4, 200, 50) + plot(4, 500, 100)
                made += plot(85, 300, 280)
                made += plot(69, 50, 50) + bytes([18, 3, 3]) + plot(4, 0, 0)
                made += plot(5, 1279, 1023) + plot(21, 1279, 0)
                self.picture("mode %d" % mode, made)

    def test_scrolling(self):
        lines = b"".join(b"line %d of many\r\n" % number for number in range(45))
        for mode in (0, 1, 3, 5, 6, 7):
            with self.subTest(mode=mode):
                self.picture("scroll %d" % mode, bytes([22, mode]) + OFF + lines
                    + bytes([30, 11, 11]) + b"up")

    def test_windows(self):
        lines = b"".join(b"line %d of many\r\n" % number for number in range(18))
        made = bytes([22, 1]) + OFF + bytes([28, 5, 20, 20, 10, 17, 129, 12]) + lines + bytes(
            [26, 31, 0, 25]) + b"out"
        made += bytes([24]) + word(700) + word(100) + word(1100) + word(500) + bytes(
            [18, 0, 130, 16, 18, 3, 1])
        made += plot(4, 600, 50) + plot(5, 1200, 600) + bytes([18, 0, 1]) + plot(4, 720,
            480) + bytes([5]) + b"Hello VDU5 wraps here\x04"
        made += bytes([28, 22, 8, 38, 2, 17, 130, 12]) + b"win" + bytes(
            [30, 11, 11, 11]) + b"down" + bytes([26])
        made += bytes([23, 224, 0x81, 0x42, 0x24, 0x18, 0x18, 0x24, 0x42, 0x81, 31, 2, 2, 224, 225,
            224]) + b"ab" + bytes([127, 127]) + b"Z"
        self.picture("windows", made + OFF)

    def test_actions(self):
        made = bytes([22, 2]) + OFF + bytes([19, 1, 4, 0, 0, 0, 17, 1]) + b"blue"
        for action in range(5):
            made += bytes([18, 0, 5]) + plot(4, 100 + 200 * action, 300) + plot(4, 250
                + 200 * action, 300) + plot(85, 100 + 200 * action, 600)
            made += bytes([18, action, 3]) + plot(4, 80 + 200 * action, 400) + plot(4, 280
                + 200 * action, 400) + plot(85, 80 + 200 * action, 500)
        made += bytes([18, 0, 6]) + plot(4, 100, 100) + plot(5, 300, 100) + plot(5, 300,
            200) + plot(5, 100, 200) + plot(5, 100, 100)
        made += bytes([18, 0, 1]) + plot(77, 200, 150) + plot(77, 200, 160)
        made += bytes([29]) + word(640) + word(512) + plot(4, 0, 0) + plot(1, 100, 100) + plot(1,
            -50, 50) + plot(2, 0, -200)
        self.picture("actions", made + OFF)


class Text(unittest.TestCase):
    def test_teletext(self):
        run = started(1, language=rom(b"a\x80\x81#_`\r\n" + bytes([31, 5, 10])
            + b"there\x7f\x7f!\x0b\x08up\x1c\x0a\x0f\x14\x0cin" + b"dow" * 4 + b"\x1a\x1e>"))
        self.assertEqual(run.host[0x7C00 + 40 * 5 : 0x7C00 + 40 * 5 + 6], b"a\x80\x81\x5f\x60\x23")
        lines = beebtube.screen_of(run.host)
        self.assertEqual((lines[10][5:9], lines[9][8:10]), ("the!", "up"))
        self.assertEqual((lines[12], lines[13], lines[14]), (" " * 10 + "indowdowdow", " " * 10
            + "dow", ""))
        self.assertEqual(lines[0][0], ">")

    def test_a_printed_character_is_its_pattern(self):
        for mode, dots in ((0, 8), (4, 8), (1, 4), (5, 4), (2, 2)):
            run = started(1, language=rom(bytes([22, mode, 23, 240, 1, 2, 4, 8, 16, 32, 64, 0x81,
                240])))
            begin = int.from_bytes(run.host[START : START + 2], "little")
            drawn = []
            for line in range(8):
                row = 0
                for part in range(8 // dots):
                    byte_at = run.host[begin + 8 * part + line]
                    for dot in range(dots):
                        row = row * 2 + (byte_at << dot & {8: 0x80, 4: 0x88, 2: 0xAA}[dots] != 0)
                drawn.append(row)
            self.assertEqual(drawn, [1, 2, 4, 8, 16, 32, 64, 0x81], mode)

    def test_disabled_and_paged(self):
        run = started(1, language=rom(b"\x15hidden\x06shown"))
        self.assertEqual(screen(run)[2:], ["shown"])
        run = started(3, language=rom(b"\x0c\x0e" + b"".join(b"%d\r\n" % line
            for line in range(60))))
        self.assertEqual(run.host[0x2000], 0)
        keys = beebtube.pressed((2 * SECOND, "SHIFT", SECOND))
        self.assertEqual(started(3, keys, rom(b"\x0c\x0e" + b"".join(b"%d\r\n" % line
            for line in range(60)))).host[0x2000], 0x5A)


class Calls(unittest.TestCase):
    def asked(self, *those, printed=b"", seconds=1, keys=None, before="", **more):
        run = started(seconds, keys, rom(printed, before + calls(*those)), **more)
        self.assertEqual(run.host[0x2000], 0x5A, "it does not come back")
        answers = []
        for at in range(len(those)):
            a, x, y, flags = run.host[0x2100 + 4 * at : 0x2104 + 4 * at]
            answers.append((a, x, y, flags & 1))
        self.run = run
        return answers

    def x_of(self, *those, **how):
        return [answer[1] for answer in self.asked(*those, **how)]

    def test_variables(self):
        self.assertEqual(self.x_of(byte(0, 1), byte(1, 5), byte(1, 6), byte(241, 0, 255),
            byte(241, 9, 0), byte(241, 1, 0xF0), byte(241, 0, 255)), [1, 0, 5, 6, 6, 9, 1])
        self.assertEqual(self.x_of(byte(4, 1), byte(4), byte(6, 3), byte(6, 10), byte(9, 10),
            byte(10, 20), byte(11, 9), byte(12, 7), byte(12), byte(196, 0, 255), byte(197, 0, 255)),
                         [0, 1, 10, 3, 25, 25, 50, 8, 7, 50, 8])
        self.assertEqual(self.asked(byte(166, 0, 255), byte(168, 0, 255), byte(170, 0, 255),
            byte(174, 0, 255)),
                         [(166, 0x90, 0x01, 1), (168, 0x9F, 0x0D, 1), (170, 0xA1, 0x02, 1),
                         (174, 0x00, 0x03, 1)])

    def test_what_is_read(self):
        answers = self.asked(byte(130), byte(131), byte(132), byte(133, 0), byte(133, 4),
            byte(134), byte(135), byte(117), byte(160, 8), byte(160, 10),
            printed=b"\x16\x07Hi#\x1f\x02\x00")
        self.assertEqual([answer[1:3] for answer in answers],
            [(255, 255), (0, 0x0E), (0, 0x7C), (0, 0x30), (0, 0x58), (2, 0), (0x23, 7), (0, 0),
            (0, 24), (39, 0)])
        for mode in range(7):
            self.assertEqual(self.asked(byte(135), printed=bytes([22, mode, 17, 1, 17, 130])
                + b"Hi#\x1f\x01\x00")[0][1:3], (0x69 if mode in (1, 2, 5) else 0x69 if mode == 99
                else self.run.host[0x2101], mode))

    def test_buffers(self):
        self.assertEqual(self.asked(byte(138, 0, 65), byte(145), byte(145))[1:],
            [(145, 0, 65, 0), (145, 0, 0xE1, 1)])
        self.assertEqual(self.x_of(byte(138, 0, 66), byte(128, 255), byte(21, 0), byte(128, 255),
            byte(128, 252), byte(128, 251)), [0, 1, 0, 0, 63, 15])
        self.assertEqual([answer[3] for answer in self.asked(*[byte(138, 0, 66)] * 32)], [0] * 31
            + [1])

    def test_escape(self):
        answers = self.asked(byte(153, 0, 27), byte(126), byte(126), byte(125), byte(124),
            byte(126), byte(229, 1), byte(153, 0, 27), byte(145))
        self.assertEqual([answer[1] for answer in answers][1:3] + [answers[5][1]], [255, 0, 0])
        self.assertEqual(answers[8][2], 27)

    def test_keys(self):
        read = (0xFFE0, 0, 0, 0)
        keys = beebtube.typed(
            "aA1!{CAPS LOCK}aA{CTRL+A}{TAB}{f1}{SHIFT+f1}{CTRL+f1}{DELETE}{RETURN}", start=0.7)
        codes = [answer[0] for answer in self.asked(*[read] * 13, seconds=3.5, keys=keys,
            before="        LDA #225\n        LDX #&A0\n        LDY #0\n        JSR &FFF4\n")]
        self.assertEqual(bytes(codes), b"AA1!aA\x01\x09\xa1\x81\x91\x7f\x0d")
        self.assertEqual(self.asked(read, seconds=2, keys=beebtube.typed("{ESCAPE}", start=0.7)),
            [(27, 0, 0, 1)])
        answers = self.asked(byte(129, 10, 0), byte(129, 0xBF, 255), byte(121, 0xC1), byte(122))
        self.assertEqual(answers[:2] + [answer[1] for answer in answers[2:]],
            [(129, 255, 255, 1), (129, 0, 0, 0), 0x41, 255])
        held = beebtube.pressed((0, "A", 2 * SECOND))
        self.assertEqual(self.x_of(byte(129, 0xBE, 255), byte(121, 0xC1), byte(122),
            byte(129, 0, 255), keys=held, seconds=1.5), [255, 0xC1, 0x41, 255])

    def test_a_time_that_is_counted_while_it_is_looked_at(self):
        # OSBYTE 129 with 257 hundredths of a second, while a key comes each 8: none times out.
        source = """
        LDA #0
        STA &2080
        STA &70
next:   LDX &70
delay:  DEX
        BNE delay
        LDA #129
        LDX #1
        LDY #1
        JSR &FFF4
        BCC came
        INC &2080
came:   INC &70
        LDA &70
        CMP #100
        BNE next
"""
        run = started(10, beebtube.pressed((SECOND, "A", 9 * SECOND)), rom(b"", source))
        self.assertEqual((run.host[0x2000], run.host[0x2080]), (0x5A, 0))

    def test_a_held_key_repeats(self):
        # The first after 50 hundredths of a second, the others after 8 each: 1 + 1 + 6 in a second.
        run = started(3.5, beebtube.pressed((2 * SECOND, "A", int(1.0 * SECOND))))
        self.assertEqual(screen(run)[2], ">AAAAAAAA"[: len(screen(run)[2])])
        self.assertIn(len(screen(run)[2]) - 1, (7, 8))

    def test_words(self):
        def block(at, data):
            return "".join("        LDA #%d\n        STA &%04X\n" % (value, at + number)
                for number, value in enumerate(data))

        def done(number, data, **how):
            answer = self.asked((0xFFF1, number, 0x00, 0x22), before=block(0x2200, data), **how)[0]
            return self.run.host[0x2200 : 0x2200 + len(data)], answer

        drawn = b"\x16\x02" + bytes([18, 0, 5]) + plot(69, 100, 100) + plot(4, 300, 300) + plot(5,
            400, 500)
        self.assertEqual(done(9, word(100) + word(100) + b"\0", printed=drawn)[0][4], 5)
        self.assertEqual(done(9, word(200) + word(100) + b"\1", printed=drawn)[0][4], 0)
        self.assertEqual(done(9, word(2000) + word(100) + b"\0", printed=drawn)[0][4], 255)
        self.assertEqual(done(13, bytes(8), printed=b"\x16\x00" + plot(4, 300, 300)
            + plot(4, 400, 500))[0], word(300) + word(300) + word(400) + word(500))
        self.assertEqual(done(10, b"\xf0" + bytes(8), printed=bytes(
            [23, 240, 1, 2, 3, 4, 5, 6, 7, 8]))[0], bytes([0xF0, 1, 2, 3, 4, 5, 6, 7, 8]))
        self.assertEqual(done(11, b"\1" + bytes(4), printed=bytes([22, 1, 19, 1, 6, 0, 0, 0]))[0],
            b"\1\6\0\0\0")
        self.assertEqual(done(5, bytes([9, 0x80, 0, 0, 0]))[0][4], ord("T"))
        for number, other in ((2, 1), (4, 3)):
            self.asked((0xFFF1, number, 0, 0x22), (0xFFF1, other, 0x10, 0x22),
                before=block(0x2200, bytes([1, 2, 3, 4, 5])))
            self.assertEqual((self.run.host[0x2211:0x2215], self.run.host[0x2210] in (1, 2)),
                (bytes([2, 3, 4, 5]), True))
        line = word(0x2300) + bytes([5, 32, 126])
        text, answer = done(0, line, seconds=3, keys=beebtube.typed("abX{DELETE}cdefg{RETURN}",
            start=0.7))
        self.assertEqual((self.run.host[0x2300:0x2306], answer[2:]), (b"ABCDE\r", (5, 0)))
        text, answer = done(0, line, seconds=2.5, keys=beebtube.typed("ab{CTRL+U}c{ESCAPE}",
            start=0.7))
        self.assertEqual((self.run.host[0xFF], answer[3]), (255, 1))

    def test_more_characters(self):
        define = "".join("        LDA #%d\n        JSR &FFEE\n" % code for code in
            bytes([23, 65, 1, 2, 3, 4, 5, 6, 7, 8, 23, 200, 8, 7, 6, 5, 4, 3, 2, 1]))
        source = "        LDA #20\n        LDX #6\n        JSR &FFF4\n" + define
        for at, code in ((0x2200, 65), (0x2220, 200), (0x2240, 98)):
            source += "        LDA #%d\n        STA &%04X\n        LDX #<%d\n        LDY #>%d\n" % (
                code, at, at, at) + "        LDA #10\n        JSR &FFF1\n"
        answer = self.asked(byte(131), before=source, printed=b"\x16\x07")[0]
        memory = self.run.host
        self.assertEqual(answer[1:3], (0, 0x0E + 6))
        self.assertEqual(memory[0x2201:0x2209], bytes([1, 2, 3, 4, 5, 6, 7, 8]))
        self.assertEqual(memory[0x2221:0x2229], bytes([8, 7, 6, 5, 4, 3, 2, 1]))
        self.assertEqual(memory[0x2241:0x2249], OS[8 * (98 - 32) :][:8])

    def test_the_users_vector(self):
        source = """
        LDA #<mine
        STA &0200
        LDA #>mine
        STA &0201
        LDX #<code
        LDY #>code
        JSR &FFF7
        LDX #<line
        LDY #>line
        JSR &FFF7
        LDA #224
        LDX #5
        LDY #6
        JSR &FFF1
        JMP past
mine:   STX &7E
        LDX &7F
        STA &2080,X
        LDA &7E
        STA &2081,X
        TYA
        STA &2082,X
        TXA
        CLC
        ADC #3
        STA &7F
        RTS
code:   byte 67, 79, 68, 69, 32, 7, 13
line:   byte 76, 73, 78, 69, 32, 65, 66, 13
past:   LDA #0
""".replace("32, 7, 13", "32, 55, 44, 57, 13")
        run = started(1, language=rom(b"", "        LDA #0\n        STA &7F\n" + source))
        found = run.host[0x2080:0x2089]
        self.assertEqual((found[:4], found[6:]), (bytes([0, 7, 9, 1]), bytes([224, 5, 6])))

    def test_another_escape_character(self):
        keys = beebtube.typed("{ESCAPE}x", start=0.7)
        read = (0xFFE0, 0, 0, 0)
        answers = self.asked(byte(220, 120), read, read, seconds=2, keys=keys)
        self.assertEqual([(answer[0], answer[3]) for answer in answers[1:]], [(27, 0), (88, 0)])

    def test_an_unknown_call_goes_to_the_roms(self):
        flags = "        PHP\n        PLA\n        STA &2080\n"
        source = "        LDA #116\n        JSR &FFF4\n" + flags
        run = started(1, language=rom(b"", source))
        self.assertTrue(run.host[0x2080] & 0x40)

    def test_service_calls_10_and_11(self):
        """A paged ROM forbids OSBYTE 119 to close files, and hears of OSBYTE 20's new OSHWM."""
        source = """
        org &8000
        byte 0, 0, 0
        JMP served
        byte &82, 10, 1, 83, 0, 40, 67, 41, 0
served: CMP #&10
        BEQ closes
        CMP #&11
        BNE other
        STY &2200
other:  RTS
closes: LDA #0
        RTS
"""
        asked = (byte(198, 9), byte(119), byte(198, 0, 255), byte(20, 6))
        served = beebtube.asm("6502", source.encode()).ljust(8192)
        for more, exec_file, hwm in ((dict(rom14=served), 9, 0x14), (dict(), 0, 0)):
            self.assertEqual(self.x_of(*asked, **more)[2:], [exec_file, 0x14])
            self.assertEqual(self.run.host[0x2200], hwm)


class Commands(unittest.TestCase):
    def said(self, text, seconds=6.0, **more):
        return screen(started(seconds, beebtube.typed(text, start=1, hold=0.03, gap=0.03),
            **more))[2:]

    def test_function_keys_and_copies(self):
        said = self.said('*KEY 0 *HELP|M{RETURN}{f0}*key1 "R A 55|M" x{RETURN}{f1}'
            "{up}{up}{COPY 0.03}{COPY 0.03}{COPY 0.03}{COPY 0.03}2{RETURN}")
        self.assertEqual(said, [
            ">*KEY 0 *HELP‖M", ">*HELP", "beebtube OS 1", "Monitor 1", "  MON",
            '>*KEY1 "R A 55‖M" X', ">R A 55", "PC=2000 A=55 X=00 Y=00 P=00 S=FF",
                                ">R A 2", "PC=2000 A=02 X=00 Y=00 P=00 S=FF", ">"])

    def test_errors_and_abbreviations(self):
        said = self.said("*BAD{RETURN}*L. X{RETURN}*.{RETURN}*fx1,2,3{RETURN}"
            "*SAVE X{RETURN}*|x{RETURN}", 7)
        self.assertEqual(said, [">*BAD", "Bad command", ">*L. X", "No filing system", ">*.",
            "No filing system", ">*FX1,2,3", ">*SAVE X", "Bad address", ">*‖X", ">"])

    def test_the_monitor(self):
        said = self.said("S 2000 A9 41 20 EE FF 0 42{RETURN}G 2000{RETURN}"
            "D 2000 2005{RETURN}F 2100 2108 7E{RETURN}M 20FC 2107{RETURN}", 8)
        said[3] = said[3][:19]  # the flags are those of whatever came before
        self.assertEqual(said, [">S 2000 A9 41 20 EE FF 0 42", ">G 2000", "A",
            "PC=2005 A=41 X=00 Y", ">D 2000 2005", "2000 A9 41    LDA #&41",
            "2002 20 EE FF JSR &FFEE",
                                     "2005 00       BRK", ">F 2100 2108 7E", ">M 20FC 2107",
                                "20FC 00 00 00 00 7E 7E 7E 7E ....÷÷÷÷",
                                "2104 7E 7E 7E 7E 7E 00 00 00 ÷÷÷÷÷...", ">"])

    def test_the_disassembly_is_that_of_the_program(self):
        code = bytes.fromhex(
            "000AA912A512B512B612AD3412BD3412B93412A112B1126C3412D005D0FA2034124C341202EA9AFE3412")
        run = started(5, beebtube.typed("D 9000 %04X{RETURN}" % (0x9000 + len(code) - 1), start=1),
            MON[:0x1000] + code + MON[0x1000 + len(code) :])
        text = beebtube.dis("6502", code, 0x9000)
        wanted = ["?" if line.startswith("byte") else line for line in (text
            if isinstance(text, str) else text.decode()).splitlines()[1:]]
        self.assertEqual([line[14:] for line in screen(run) if line.startswith("90")], wanted)


# A filing system that writes down its calls from 2400 on, and the block of a file.
FILER = """
        org &8000
        byte 0, 0, 0
        JMP service
        byte &82, &0C, 1, 70, 0, 0
        org &800C
        byte 0, 40, 67, 41, 0
service: CMP #3
        BEQ take
        RTS
take:   STY &2410
        LDX #13
vector: LDA vectors,X
        STA &0212,X
        DEX
        BPL vector
        LDX #20
more:   LDA places,X
        STA &0DBA,X
        CPX #0
        BEQ done
        DEX
        JMP more
done:   LDA &F4
        STA &0DBC
        STA &0DBF
        STA &0DC2
        STA &0DC5
        STA &0DC8
        STA &0DCB
        STA &0DCE
        LDA #0
        STA &2400
        STA &2401
        STA &2402
        RTS
vectors: word &FF1B, &FF1E, &FF21, &FF24, &FF27, &FF2A, &FF2D
places: word file
        byte 0
        word args
        byte 0
        word bget
        byte 0
        word bput
        byte 0
        word gbpb
        byte 0
        word find
        byte 0
        word fsc
        byte 0
file:   STX &B0
        STY &B1
        PHA
        LDY #17
copy:   LDA (&B0),Y
        STA &2420,Y
        DEY
        BPL copy
        LDA &2420
        STA &B0
        LDA &2421
        STA &B1
        LDY #15
name:   LDA (&B0),Y
        STA &2440,Y
        DEY
        BPL name
        PLA
        STA &2403
        RTS
args:   RTS
gbpb:   RTS
bget:   LDX &2401
        LDA letters,X
        BEQ over
        INC &2401
        CLC
        RTS
over:   SEC
        RTS
letters: byte 82, 32, 65, 32, 55, 55, 13, 0
bput:   LDX &2402
        STA &2500,X
        INC &2402
        RTS
find:   CMP #0
        BEQ close
        STA &2404
        LDA #&11
        RTS
close:  STY &2405
        RTS
fsc:    CMP #8
        BEQ fscend
        STA &2406
        STX &B0
        STY &B1
        LDY #15
text:   LDA (&B0),Y
        STA &2460,Y
        DEY
        BPL text
        STX &2407
        STA &2408
fscend: RTS
"""


class Files(unittest.TestCase):
    def run_with(self, text, seconds=4.0):
        filer = beebtube.asm("6502", FILER.encode()).ljust(8192, b"\xff")
        return started(seconds, beebtube.typed(text, start=1, hold=0.03, gap=0.03),
            rom14=filer).host

    def block(self, memory):
        return [memory[0x2403]] + [int.from_bytes(memory[at : at + 4], "little")
            for at in range(0x2422, 0x2432, 4)]

    def test_load_and_save(self):
        memory = self.run_with("*LOAD FRED 1900{RETURN}")
        self.assertEqual((self.block(memory)[:2], memory[0x2426], memory[0x2440:0x2445]),
            ([0xFF, 0x1900], 0, b"FRED "))
        memory = self.run_with("*LOAD FRED{RETURN}")
        self.assertEqual((memory[0x2403], memory[0x2426] != 0, memory[0x2440:0x2445]),
            (0xFF, True, b"FRED\r"))
        self.assertEqual(self.block(self.run_with("*SAVE A 1900 +100 1903{RETURN}")),
            [0, 0x1900, 0x1903, 0x1900, 0x1A00])
        self.assertEqual(self.block(
            self.run_with("*SAVE A FFFF1900 1A80 FFFF1903 FFFF0E00{RETURN}", 5)),
            [0, 0xFFFF0E00, 0xFFFF1903, 0xFFFF1900, 0x1A80])

    def test_texts_and_reasons(self):
        for text, reason, rest in (("*CAT 1", 5, b"1\r"), ("*.", 5, b"\r"),
                ("*RUN AB C", 4, b"AB C\r"), ("*/AB C", 2, b"AB C\r"),
                ("*FOO BAR", 3, b"FOO BAR\r")):
            memory = self.run_with(text + "{RETURN}", 3)
            self.assertEqual((memory[0x2406], memory[0x2460 : 0x2460 + len(rest)]), (reason, rest),
                text)
        memory = self.run_with("*OPT 1,2{RETURN}", 3)
        self.assertEqual((memory[0x2406], memory[0x2407], memory[0x2410]), (0, 1, 128))

    def test_streams(self):
        memory = self.run_with("*EXEC CMDS{RETURN}")
        self.assertEqual((memory[0x7A], memory[0x79], memory[0x2404], memory[0x2405],
            memory[0x256]), (0, 0x77, 0x40, 0x11, 0))
        memory = self.run_with("*SPOOL X{RETURN}R{RETURN}*SPOOL{RETURN}")
        self.assertEqual((memory[0x2500:0x250B], memory[0x2404], memory[0x2405], memory[0x257]),
            (b">R\n\rPC=2000", 0x80, 0x11, 0))

    def test_the_start_of_a_disc(self):
        self.assertEqual(self.run_with("{SHIFT+BREAK}", 4)[0x2410], 0)


class Tube(unittest.TestCase):
    def test_a_tube_that_no_rom_uses(self):
        loop = beebtube.asm("65c02", os.path.join(TOP, "examples", "loop-tube.asm"))
        run = beebtube.solo(SECOND, os=OS, rom13=MON, tube=loop, font=FONT)
        self.assertEqual((screen(run), run.host[0x27A]), (["beebtube 32K", "Monitor", ">"], 0))


    def test_host_code_takes_the_language_over(self):
        # A ROM claims call FF and writes code to 0400: it keeps what it is entered with.
        source = """
        org &8000
        byte 0, 0, 0
        JMP service
        byte &82, &0C, 1, 70, 0, 0
        org &800C
        byte 0, 40, 67, 41, 0
service: CMP #&FF
        BEQ claim
        RTS
claim:  LDX #0
copy:   LDA code,X
        STA &0400,X
        INX
        BNE copy
        LDX &F4
        LDA #0
        RTS
code:   JMP &0409
        JMP &0420
        JMP &0420
        STA &2080
        PHP
        PLA
        STA &2081
        LDA &F4
        STA &2082
        LDA &8009
        STA &2083
        CLI
        JMP &041D
        INC &2084
        RTS
"""
        host_code = beebtube.asm("6502", source.encode()).ljust(8192, b"\xff")
        loop = beebtube.asm("65c02", os.path.join(TOP, "examples", "loop-tube.asm"))
        keys = beebtube.typed("{ESCAPE}", start=1)
        run = beebtube.solo(2 * SECOND, os=OS, rom13=MON, rom14=host_code, tube=loop, font=FONT,
            keys=keys)
        kept = run.host[0x2080:0x2085]
        self.assertEqual((kept[0], kept[1] & 1, kept[2:], run.host[0x27A], run.host[0xFF]),
            (1, 0, b"\x0dM\x01", 255, 255))
        self.assertEqual(screen(run), [])


class Hardware(unittest.TestCase):
    def test_the_converter(self):
        script = b"".join(b"at 0 adc %d %04X\n" % (channel, 0x1230 + 0x2000 * channel)
            for channel in range(4))
        source = "        LDA #19\n        JSR &FFF4\n" * 12 + calls(
            *[byte(128, number) for number in (1, 2, 3, 4)])
        run = started(1, script, rom(b"", source))
        levels = [run.host[0x2101 + 4 * at] + 256 * run.host[0x2102 + 4 * at] >> 4
            for at in range(4)]
        self.assertEqual(levels, [0x123, 0x323, 0x523, 0x723])

    def test_a_printer(self):
        source = "        LDA #5\n        LDX #3\n        JSR &FFF4\n" + "".join(
            "        LDA #%d\n        JSR &FFEE\n" % code
            for code in b"\x02Hi\r\n\x1f\x05\x06x\x03no\x01y\x02\x01z\x15\x03")
        run = started(1, language=rom(b"", source), plugs=2)
        self.assertEqual(run.plugs[1], b"Hi\rxz")

    def test_the_users_printer(self):
        """UPTV's reasons; the driver takes a byte at each turn, and is dormant after the last."""
        wait = "        LDX #6\n%s:   TXA\n        PHA\n        LDA #19\n        JSR &FFF4\n" \
            "        PLA\n        TAX\n        DEX\n        BNE %s\n"
        printed = ["        LDA #%d\n        JSR &FFEE\n" % code for code in b"\x02Hix\x03"]
        source = """
        LDA #<mine
        STA &0222
        LDA #>mine
        STA &0223
        LDA #5
        LDX #4
        JSR &FFF4
%s      JMP past
mine:   CPX #3
        BNE over
        CPY #4
        BNE over
        CMP #0
        BEQ turn
        LDX &2280
        STA &2281,X
        INC &2280
over:   CLC
        RTS
turn:   INC &2290
        LDX #3
        CLV
        JSR remove
        BCS empty
        LDX &2291
        STA &2292,X
        INC &2291
        RTS
empty:  LDA #123
        LDX #3
        JMP &FFF4
remove: JMP (&022C)
past:   LDA #0
""" % ("".join(printed[:3]) + wait % ("first", "first") + printed[3] + wait % ("second", "second")
            + printed[4])
        run = started(1, language=rom(b"", source))
        self.assertEqual((run.host[0x2280:0x2286], run.host[0x2290:0x2295]),
            (bytes([5, 5, 2, 1, 1, 3]), bytes([5, 3]) + b"Hix"))

    def test_events_and_timers(self):
        # The interval timer ends after five hundredths: event 5; vertical sync is event 4.
        source = """
        LDA #<event
        STA &0220
        LDA #>event
        STA &0221
        LDA #14
        LDX #5
        JSR &FFF4
        LDA #14
        LDX #4
        JSR &FFF4
        LDA #4
        LDX #<ticks
        LDY #>ticks
        JSR &FFF1
        LDX #10
wait:   TXA
        PHA
        LDA #19
        JSR &FFF4
        PLA
        TAX
        DEX
        BNE wait
        LDA #13
        LDX #4
        JSR &FFF4
        JMP past
event:  CMP #5
        BEQ five
        INC &2090
        RTS
five:   INC &2091
        RTS
ticks:  byte &FB, &FF, &FF, &FF, &FF
past:   LDA &2090
"""
        run = started(1, language=rom(b"", source))
        self.assertEqual((run.host[0x2091], run.host[0x2090] in (9, 10, 11), run.host[0x2000]),
            (1, True, 0x5A))


class Sound(unittest.TestCase):
    def test_a_tone(self):
        block = b"".join(word(value) for value in (1, -15, 89, 20))
        source = "".join("        LDA #%d\n        STA &%04X\n" % (value, 0x2200 + at) for at,
            value in enumerate(block))
        run = started(1, language=rom(b"", source + calls((0xFFF1, 7, 0, 0x22))), wav=True)
        data = run.wav
        levels = struct.unpack("<%dH" % ((len(data) - 44) // 2), data[44:])
        part = levels[15625:31250]  # half a second, behind the bell of the start
        middle = (max(part) + min(part)) / 2
        rises = sum(one < middle <= other for one, other in zip(part, part[1:]))
        self.assertIn(rises, range(218, 223))


if __name__ == "__main__":
    unittest.main()
