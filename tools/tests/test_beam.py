"""Where the beam is, beside the frames that the program's shots take."""
from common import Case, put, unittest

from beebtube import past
from beebtube.faults import Fault
from beebtube.program import Program

# A picture that is another one in each frame: a byte of it counts on and on. Its registers come from a table.
HOST = """
        org &C000
start:  LDX #&FF
        TXS
        LDA #%s
        STA &FE20
        LDX #%d
wait:   DEX
        BNE wait
        LDX #15
paint:  LDA colours,X
        STA &FE21
        DEX
        BPL paint
        LDX #13
set:    STX &FE00
        LDA timing,X
        STA &FE01
        DEX
        BPL set
        LDA #&FF
        LDX #0
fill:   STA &3400,X
        INX
        BNE fill
count:  INC &3400       ; the character 128, which each of the pictures shows
        JMP count
timing: byte %s
colours: byte &07,&17,&27,&37,&47,&57,&67,&77,&80,&90,&A0,&B0,&C0,&D0,&E0,&F0
        org &FFFA
        word start, start, start
"""
MODE0 = "&7F,&50,&62,&28,&26,&00,&20,&22,&01,&07,&67,&08,&06,&00"
MODE4 = "&3F,&28,&31,&24,&26,&00,&20,&22,&01,&07,&67,&08,&06,&00"
MODE7 = "&3F,&28,&33,&24,&1E,&02,&19,&1B,&93,&12,&72,&13,&06,&00"
SHORT = "&4F,&28,&31,&54,&24,&05,&20,&21,&00,&06,&67,&08,&06,&00"
# Control bytes of the video ULA: with bit 4 a microsecond has two character clocks.
PICTURES = (("&9C", 1, MODE0, 128, 312), ("&88", 77, MODE4, 64, 312), ("&88", 200, MODE7, 64, 312), ("&88", 9, SHORT, 80, 264))


class Beam(Case):
    def past_of(self, control, wait, timing):
        put(self.at("os"), Program().asm("6502", (HOST % (control, wait, timing)).encode()))
        made = past.Past.of_words(Program(), ["host", "3000000", "x", "--os", self.at("os")])
        self.addCleanup(made.close)
        return made

    def finished(self, made, ticks):
        """For each of these ticks whether the frame that a shot takes then is another than that of the one before."""
        put(self.at("keys"), b"".join(b"at %d shot\n" % tick for tick in ticks))
        put(self.at("empty"))
        words = ["replay", "host", "empty", "3000000", "shots", "--os", "os", "--keys", "keys", "--no-tube"]
        Program().done(words, self.folder)
        frames = []
        for number in range(len(ticks)):
            with open(self.at("shots.%03d.ppm" % number), "rb") as file:
                frames.append(file.read())
        return [one != other for one, other in zip(frames, frames[1:])]

    def test_frames_finish_where_the_beam_says(self):
        """Vertical sync, where a frame is finished, begins in the microsecond that is told, early and late in a run."""
        for control, wait, timing, characters, lines in PICTURES:
            made = self.past_of(control, wait, timing)
            clocks = 2 if control == "&9C" else 1
            for tick in (600000, 2500001):
                place = made.position(tick)
                self.assertEqual((place.lines, place.characters, place.is_set), (lines, characters, True), timing)
                left = (place.lines - place.line) * characters - place.character
                begins = (tick // 6 + left // clocks) * 6
                ticks = [begins + six for six in range(-18, 24, 6)]
                changes = [after for after, other in zip(ticks[1:], self.finished(made, ticks)) if other]
                self.assertEqual(len(changes), 1, (timing, tick))
                self.assertIn(changes[0] - begins, (0, 6), (timing, tick))

    def test_each_line_comes(self):
        """Within a frame each line comes in its order, and a line has its characters."""
        made = self.past_of(*PICTURES[0][:3])
        first = made.position(600000)
        for number in range(1, 40):
            place = made.position(600000 + 6 * number * 1000)
            self.assertEqual((128 * (place.line - first.line) + place.character - first.character - 2000 * number) % (312 * 128), 0)
            self.assertEqual(place.row, place.line - 40 if 40 <= place.line < 296 else None)

    def test_at_once(self):
        """Where it takes long, it is told when it is asked for, and then known."""
        made, old = self.past_of(*PICTURES[1][:3]), past.AT_ONCE
        self.addCleanup(setattr, past, "AT_ONCE", old)
        past.AT_ONCE = 1000
        self.assertIsNone(made.position(600000, at_once=True))
        self.assertEqual(made.position(600000), made.position(600000, at_once=True))
        self.assertRaises(Fault, made.position, 3000001)

    def test_before_there_is_a_picture(self):
        made = self.past_of(*PICTURES[1][:3])
        self.assertIn("no registers yet", made.position(20).text())
        self.assertIn("of 312 since vertical sync", made.position(2000000).text())


if __name__ == "__main__":
    unittest.main()
