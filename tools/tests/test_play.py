"""`tools/play`, and `tools/differs --mame`: what they write and tell, and what is wrong."""
import os
import re

from common import EXAMPLES, Case, beebtube, put, text_of, unittest

from beebtube import mame
from beebtube.disc import NewFile, empty_disc, with_file, with_option
from beebtube.frame import lines_in


class Played(Case):
    def setUp(self):
        super().setUp()
        put(self.at("os"), beebtube.asm("6502", os.path.join(EXAMPLES, "screen-os.asm")))
        put(self.at("font"), beebtube.asm("6502", os.path.join(EXAMPLES, "font.asm")))
        put(self.at("game.ssd"), b"disc")
        self.tool("words", "--make", "roms.set", "--os", "os", "--font", "font")

    def test_pictures(self):
        """Each picture is that of a shot in a run of the program by the same keys, without a second processor."""
        told = self.tool("play", "game.ssd", "4{SHOT}1{SHOT}", "--start", "0.2", "--wait", "0.4")
        self.assertEqual(told.out.split(), ["game.000.png", "game.001.png", "game.png"])
        self.assertIn("no paged ROM", told.err)
        self.assertNotIn("no font", told.err)
        script = beebtube.typed("4{SHOT}1{SHOT}{WAIT 0.4}", 0.2, shot=True)
        run = beebtube.host(script.ticks, os=self.at("os"), font=self.at("font"), keys=script, disc0=self.at("game.ssd"))
        for name, frame in zip(told.out.split(), run.frames):
            with open(self.at(name), "rb") as file:
                self.assertEqual(lines_in(file.read()), [frame.lines()], name)
        self.assertEqual(run.report.tube, 0)
        self.assertEqual(len(set(frame.colours for frame in run.frames)), 3)
        self.assertEqual(self.tool("play", "game.ssd", "4", "--ticks", "--start", "0.2", "--wait", "0.4").out, "%d\n" % beebtube.typed("4{WAIT 0.4}", 0.2, shot=True).ticks)

    def test_moving_pictures_and_sound(self):
        """A moving picture has a screen each fifth of a second, and the shots of the text stay pictures of their own."""
        told = self.tool("play", "--movie", "--wav", "-", "1{SHOT}", "--start", "0.2", "--wait", "0.5", "--out", "here")
        self.assertEqual(told.out.split(), ["here.000.png", "here.png", "here.movie.png", "here.wav"])
        ticks = beebtube.typed("1{SHOT}{WAIT 0.5}", 0.2, shot=True).ticks
        events = [beebtube.Event(1200000 * number, "shot") for number in range(1, ticks // 1200000 + 1)]
        typed = beebtube.typed("1", 0.2)
        script = beebtube.Script(sorted(typed.events + events, key=lambda event: event.tick))
        run = beebtube.host(ticks, os=self.at("os"), font=self.at("font"), keys=script, wav=True)
        with open(self.at("here.movie.png"), "rb") as file:
            self.assertEqual(lines_in(file.read()), [frame.lines() for frame in run.frames])
        with open(self.at("here.wav"), "rb") as file:
            self.assertEqual(file.read(), run.wav)

    def test_the_ticks_of_a_set_with_speed(self):
        """`--speed 4` in a set makes ticks shorter, for a host alone too."""
        self.tool("words", "--make", "fast.set", "--os", "os", "--font", "font", "--speed", "4")
        for name in ("roms.set", "fast.set"):
            self.tool("play", "--start", "0.2", "--wait", "0.4", "--out", name, name, "-", "4")
        self.assertEqual(self.names()["fast.set.png"], self.names()["roms.set.png"])

    def test_a_refusal_names_the_file(self):
        put(self.at("long.ssd"), length=300000)
        self.assertIn("--disc0 long.ssd has 300,000 bytes", self.tool("play", "long.ssd", "4", status=1).err)

    def test_another_picture_stays(self):
        """A picture that was not made here is somebody's own, be it a PNG."""
        for data in (b"\x89PNG\r\n\x1a\n" + b"\0\0\0\rIHDR" + b"\0" * 90, b"\x89PNG\r\n\x1a\n", b"GIF89a"):
            put(self.at("game.png"), data)
            self.assertIn("is no picture that was made here", self.tool("play", "game.ssd", "4", "--start", "0", "--wait", "0", status=1).err)
            self.assertEqual(self.names()["game.png"], data)
        for more in ((), ("--movie",), ("--movie",)):
            self.tool("play", *more, "game.ssd", "4", "--start", "0", "--wait", "0.3", "--out", "here")

    def test_both_machines(self):
        self.assertIn("no --tube", self.tool("play", "--both", "roms.set", "-", status=1).err)
        self.pair()
        self.tool("words", "--make", "both.set", "--os", "os", "--tube", "tube")
        told = self.tool("play", "--both", "both.set", "-", "--start", "0", "--wait", "0")
        self.assertEqual((told.out, told.err.count("play: ")), ("screen.png\n", 2))
        self.assertIn("left aside", self.tool("play", "both.set", "-", "--start", "0", "--wait", "0").err)

    def test_the_projects_own_roms(self):
        """Without a set a disc's program runs on the host, and with --both on the second processor."""
        os.unlink(self.at("roms.set"))
        letter = beebtube.asm("65c02", b"org &3000\nLDA &F800\nJSR &FFEE\nRTS\n")
        disc = with_option(empty_disc(False, 80, ""), 3)
        for name, data, at in (("P", letter, 0x3000), ("!BOOT", b"*P\r", 0)):
            disc = with_file(disc, NewFile("$", name, False, at, at, data))
        put(self.at("own.ssd"), disc.image)
        script = beebtube.typed("{SHIFT+BREAK}{WAIT 2}", 0.5, shot=True)
        for both, machine in (((), beebtube.host), (("--both",), beebtube.solo)):
            told = self.tool("play", *both, "own.ssd", "--start", "0.5", "--wait", "2")
            self.assertEqual(told.err.count("play: "), 1, told.err)
            run = machine(script.ticks, keys=script, disc0=disc)
            with open(self.at("own.png"), "rb") as file:
                self.assertEqual(lines_in(file.read()), [run.frames[-1].lines()])
            self.assertEqual("x>" in run.screen(), bool(both), run.screen())

    def test_what_is_wrong(self):
        before = self.names()
        for words, what in ((["none.set", "game.ssd"], "cannot read"), (["game.ssd.x"], "ends in .ssd"), (["roms.set", "missing.ssd"], "cannot read missing.ssd"),
                            (["game.ssd", "{XX}"], "no key is called XX"), (["game.ssd", "a", "b"], "in quotes"), (["os", "game.ssd"], "no text"),
                            (["game.ssd", "--out", "nowhere/x"], "cannot write nowhere/x.png"), (["game.ssd", "{SHOT}" * 256, "--movie"], "256")):
            self.assertIn(what, self.tool("play", *words, status=1).err, words)
        for words in ([], ["a", "b.ssd", "c", "d"], ["game.ssd", "--wait", "x"], ["game.ssd", "--bogus"]):
            self.tool("play", *words, status=2)
        self.assertEqual(self.names(), before)
        put(self.at("game.png"), b"mine")
        self.assertIn("is no picture that was made here", self.tool("play", "game.ssd", "1", "--start", "0", "--wait", "0", status=1).err)
        put(self.at("here.wav"), b"mine")
        self.assertIn("is no sound", self.tool("play", "-", "1", "--wav", "--out", "here", "--start", "0", "--wait", "0", status=1).err)
        put(self.at("set"), b"--os os\n--disc0 game.ssd\n")
        self.assertIn("drive 0", self.tool("play", "set", "game.ssd", status=1).err)
        put(self.at("set"), b"--font font\n")
        self.assertIn("set has no --os", self.tool("play", "set", "game.ssd", status=1).err)
        put(self.at("set"), b"--os os\n--keys font\n")
        self.assertIn("--keys", self.tool("play", "set", "game.ssd", status=1).err)
        os.unlink(self.at("roms.set"))
        self.assertIn("the machine has the ROMs of system/", self.tool("play", "game.ssd", status=1).err)
        self.assertEqual(self.names()["game.png"], b"mine")


LISTING = [(0xC000 + 2 * (number % 5), number) for number in range(60)]


def listed(steps):
    return b"".join(b"%010X %04X A=%02X X=00 Y=00 S=FD P=24 NOP\n" % (6 * number, pc, a) for number, (pc, a) in enumerate(steps))


def traced(steps, how=lambda number, line: line):
    lines = [b"A=%02X X=00 Y=00 SP=1FD P=34 %04X: nop" % (a, pc) for pc, a in steps]
    return b"\n".join(how(number, line) for number, line in enumerate(lines)) + b"\n"


class Mame(Case):
    """In MAME's own form, which docs/TOOLS.md tells of."""

    def told(self, listing, trace, status):
        put(self.at("x.list"), listing)
        put(self.at("x.tr"), trace)
        return self.tool("differs", "--mame", "x.tr", "x.list", status=status).out

    def test_the_same(self):
        self.assertEqual(self.told(listed(LISTING), traced(LISTING), 0), "same: instructions 60; both end there\n")
        self.assertIn("instructions 50; the listing ends", self.told(listed(LISTING[:50]), traced(LISTING), 0))
        self.assertIn("instructions 50; the trace ends", self.told(listed(LISTING), traced(LISTING[:50]), 0))
        without = re.sub(rb"A=.. X=.. Y=.. SP=... P=.. ", b"", traced(LISTING))
        self.assertIn("same: instructions 60", self.told(listed(LISTING), without, 0))
        before = traced(LISTING, lambda number, line: line[:-11] + b"\n" + line[-11:])
        self.assertIn("same: instructions 60", self.told(listed(LISTING), before, 0))

    def test_one_begins_later(self):
        """It is the place with the same registers, not the first with the same addresses."""
        self.assertIn("from instruction 1 of the listing, 13 of the trace\nsame: instructions 48", self.told(listed(LISTING[12:]), traced(LISTING), 0))
        self.assertIn("from instruction 13 of the listing, 1 of the trace\nsame: instructions 48", self.told(listed(LISTING), traced(LISTING[12:]), 0))

    def test_where_they_part(self):
        other = LISTING[:40] + [(0xD000, 40)] + LISTING[41:]
        told = self.told(listed(LISTING), traced(other), 1).splitlines()
        self.assertEqual(told[0], "instructions 40 are the same; then another instruction")
        self.assertEqual([line.split()[0] for line in told[1:]], ["both"] * 5 + ["listing"] * 3 + ["MAME"] * 3)
        self.assertIn("D000: nop", told[9])
        other = LISTING[:40] + [(LISTING[40][0], 99)] + LISTING[41:]
        self.assertIn("instructions 40 are the same; then other registers: A 28 | 63", self.told(listed(LISTING), traced(other), 1))
        self.assertIn("neither are in the other", self.told(listed(LISTING), traced([(pc + 0x1000, a) for pc, a in LISTING]), 1))

    def test_loops(self):
        """Instructions that MAME leaves out are passed over, if they are of the loop."""
        def with_loop(count):
            lines = traced(LISTING[:20]).splitlines() + [b"", b"   (loops for %d instructions)" % count, b""] + traced(LISTING[20 + count :]).splitlines()
            return b"\n".join(lines) + b"\n"
        self.assertIn("same: instructions 60", self.told(listed(LISTING), with_loop(25), 0))
        leaves = LISTING[:30] + [(0xE000, 30)] + LISTING[31:]
        told = self.told(listed(leaves), with_loop(25), 1)
        self.assertIn("instructions 30 are the same; then MAME is in a loop for 15 more", told)

    def test_the_second_processor(self):
        """A listing of `follow para`, beside the same in MAME's form for `:tube:6502:maincpu`, which begins at the reset."""
        self.pair()
        self.launcher("follow", "para", os.path.join(EXAMPLES, "letters.trace"), "2000", "para", "--tube", "tube")
        lines = []
        for line in text_of(self.at("para.list")).decode().splitlines():
            tick, pc, a, x, y, s, p, text = line.split(" ", 7)
            flags = "P=%02X" % (int(p[2:], 16) | 0x30)
            lines.append(" ".join([a, x, y, "S=1" + s[2:], flags, pc + ":", text.lower().replace("&", "$")]))
        lines.insert(7, "(interrupted at F808, IRQ 0)")
        put(self.at("x.tr"), "\n".join(lines).encode() + b"\n")
        told = self.tool("differs", "--mame", "x.tr", "para.list").out
        self.assertEqual(told, "same: instructions %d; both end there\n" % (len(lines) - 1))
        put(self.at("x.tr"), "\n".join(lines[40:]).replace("A=1F", "A=20", 1).encode())
        self.assertIn("other registers: ", self.tool("differs", "--mame", "x.tr", "para.list", status=1).out)

    def test_what_is_wrong(self):
        put(self.at("x.list"), listed(LISTING))
        for data, what in ((b"", "has no instruction"), (b"\x80\n", "is no line of a trace"), (b"   (loops for 5 instructions)\n", "a loop before"), (b"x" * 9000, "4,096")):
            put(self.at("x.tr"), data)
            self.assertIn(what, self.tool("differs", "--mame", "x.tr", "x.list", status=1).err)
        put(self.at("x.tr"), traced(LISTING))
        put(self.at("bad"), b"none\n")
        self.assertIn("line 1 is no line of a listing", self.tool("differs", "--mame", "x.tr", "bad", status=1).err)
        self.assertIn("cannot read", self.tool("differs", "--mame", "missing", "x.list", status=1).err)
        self.tool("differs", "--mame", "x.tr", "x.list", "more", status=2)
        self.tool("differs", "x.list", status=2)
        self.assertEqual(len(mame.steps_of_mame(self.at("x.tr"))), 60)


if __name__ == "__main__":
    unittest.main()
