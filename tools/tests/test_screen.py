"""Screens in a terminal: the page of teletext, and frames as blocks."""
from common import Case, beebtube, put, unittest

from beebtube.blocks import blocks_of, coloured_blocks_of

HEADER = b"P6\n640 256\n255\n"


def frame_of(boxes):
    """A frame with boxes (colour, left, right, top, bottom) on black."""
    pixels = bytearray(640 * 256 * 3)
    for colour, left, right, top, bottom in boxes:
        value = bytes(255 * (colour >> bit & 1) for bit in range(3))
        for y in range(top, bottom):
            pixels[3 * (640 * y + left) : 3 * (640 * y + right)] = value * (right - left)
    return beebtube.Frame(HEADER + bytes(pixels))


class Screen(Case):
    def test_the_page(self):
        memory = bytearray(32768)
        memory[0x7C00:0x7C05] = b"\x81Hi!#"
        memory[0x7C28:0x7C2B] = b"_`\xc1"
        put(self.at("o.host"), bytes(memory))
        lines = self.tool("screen", "o").out.split("\n")
        self.assertEqual(lines[:3] + [len(lines)], [" Hi!£", "#—A", "", 26])
        self.assertEqual(self.tool("screen", "--start", "7C28", "o").out.split("\n")[0], "#—A")

    def test_what_is_no_screen(self):
        put(self.at("o.host"), b"x")
        put(self.at("o.000.ppm"), HEADER)
        put(self.at("p.host"), bytes(32768))
        for words, status in ((["o"], 1), (["nothing"], 1), (["--frame", "0", "o"], 1), (["--frame", "1", "o"], 1), (["--frame", "x", "o"], 2), (["--start", "7c00", "p"], 2),
                              (["--start", "3000", "p"], 1), (["--colour", "p"], 2), ([], 2)):
            self.tool("screen", *words, status=status)
        put(self.at("o.000.ppm"), frame_of([]).pixmap)
        for columns in ("0", "19", "321"):
            self.tool("screen", "--frame", "0", "--columns", columns, "o", status=1)
        self.assertEqual(self.tool("screen", "--frame", "0", "o").out, "\n" * 30)

    def test_blocks(self):
        lines = blocks_of(frame_of([(7, 0, 320, 0, 128), (1, 636, 640, 250, 256)]), 80)
        self.assertEqual((len(lines), lines[:15]), (30, ["█" * 40] * 15))
        self.assertEqual(lines[15:29], [""] * 14)
        self.assertEqual(lines[29], " " * 79 + "▗")

    def test_each_quarter(self):
        # With 80 columns a letter is 8 pixels wide and 256 / 30 high.
        for at, mark in ((0, "▘"), (1, "▝"), (2, "▖"), (3, "▗")):
            left, top = 4 * (at % 2), 4 * (at // 2)
            self.assertEqual(blocks_of(frame_of([(2, left, left + 4, top, top + 4)]), 80)[0], " " * 0 + mark)

    def test_colours(self):
        lines = coloured_blocks_of(frame_of([(1, 0, 640, 0, 4), (4, 0, 640, 4, 8)]), 80)
        self.assertEqual(lines[0], "\x1b[31;44m" + "▀" * 80 + "\x1b[0m")
        self.assertEqual(lines[1], "\x1b[30;40m" + "▀" * 80 + "\x1b[0m")

    def test_widths(self):
        for columns in (20, 33, 160, 320):
            lines = blocks_of(frame_of([(7, 0, 640, 0, 256)]), columns)
            self.assertEqual(lines, ["█" * columns] * (columns * 3 // 8))


if __name__ == "__main__":
    unittest.main()
