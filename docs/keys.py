#!/usr/bin/env python3
"""Makes docs/keys.png, the keyboard with its keys' numbers, from the table of docs/KEYS.md.

  docs/keys.py make     writes it
  docs/keys.py check    says whether it is another picture, or the tools have other keys, with status 1
"""
import os
import re
import struct
import sys
import zlib

TOP = os.path.dirname(os.path.dirname(os.path.realpath(__file__)))

# The keyboard as it is on the table: for each row how far in it begins, and its keys with their widths, in
# units of a key. A key that is no part of the matrix has no number.
ROWS = [
    (3, [("f%d" % n, 1) for n in range(10)] + [("BREAK", 1.5)]),
    (0.5, [("ESCAPE", 1.5)] + [(key, 1) for key in "1234567890-^\\"] + [("left", 1), ("right", 1)]),
    (0.75, [("TAB", 1.5)] + [(key, 1) for key in "QWERTYUIOP@[_"] + [("up", 1), ("down", 1)]),
    (0, [("CAPS LOCK", 1.25), ("CTRL", 1.25)] + [(key, 1) for key in "ASDFGHJKL;:]"] + [("RETURN", 1.5)]),
    (0, [("SHIFT LOCK", 1.25), ("SHIFT", 1.5)] + [(key, 1) for key in "ZXCVBNM,./"] + [("SHIFT", 1.5), ("DELETE", 1.5), ("COPY", 1)]),
    (4, [("SPACE", 8)]),
]
UNIT, HIGH, GAP = 54, 50, 3
WIDTH, HEIGHT = 940, 6 * HIGH + 8
BACK, KEY, INK, NUMBER = 255, 40, 255, 170


def fail(text):
    sys.exit("keys: " + text)


def read(name):
    with open(TOP + "/" + name, encoding="utf-8") as file:
        return file.read()


def matrix():
    rows = re.findall(r"^\| ([0-7]) \| (.*) \|$", read("docs/KEYS.md"), re.M)
    return {name: "%s%d" % (row, column) for row, names in rows for column, name in enumerate(names.split(" | "))}


# The shapes of the teletext font, ten rows of six dots for each code from 20 on.
def shapes():
    rows = re.findall(r"^ *byte +([0-9, ]+?) *;", read("examples/font.asm"), re.M)
    return [[int(dots) for dots in row.split(",")] for row in rows]


class Picture:
    def __init__(self):
        self.dots = [bytearray([BACK] * WIDTH) for _ in range(HEIGHT)]
        self.shapes = shapes()

    def box(self, left, top, right, bottom, colour):
        assert 0 <= left <= right <= WIDTH and bottom <= HEIGHT
        for y in range(top, bottom):
            self.dots[y][left:right] = bytes([colour] * (right - left))

    # A text in the middle of x, each dot of a letter `wide` by `high`.
    def text(self, x, y, text, wide, high, colour):
        left = x - len(text) * 6 * wide // 2
        # In teletext # and _ have other codes.
        for at, letter in enumerate(text.replace("_", "\x60")):
            for row, bits in enumerate(self.shapes[ord(letter) - 32]):
                for dot in range(6):
                    if bits >> 5 - dot & 1:
                        start = left + (6 * at + dot) * wide
                        self.box(start, y + row * high, start + wide, y + (row + 1) * high, colour)

    def lines(self):
        return b"".join(b"\0" + bytes(line) for line in self.dots)


def draw():
    keys, picture = matrix(), Picture()
    for row, (left, names) in enumerate(ROWS):
        x, top = 4 + round(left * UNIT), 4 + row * HIGH
        for name, width in names:
            right = x + round(width * UNIT)
            picture.box(x, top, right - GAP, top + HIGH - GAP, KEY)
            middle = (x + right - GAP) // 2
            # The signs of arrows and the like in the font are others: a backslash is drawn as its own.
            if name == "\\":
                for at in range(12):
                    picture.box(middle - 6 + at, top + 7 + at, middle - 4 + at, top + 9 + at, INK)
            elif name == "[" or name == "]":
                side = middle - 4 if name == "[" else middle + 3
                picture.box(side, top + 6, side + 2, top + 21, INK)
                for y in (top + 6, top + 19):
                    picture.box(middle - 4, y, middle + 5, y + 2, INK)
            elif name == "^":
                for at in range(6):
                    for sign in (-1, 1):
                        picture.box(middle + sign * at, top + 7 + at, middle + sign * at + 2, top + 9 + at, INK)
            elif len(name) == 1:
                picture.text(middle, top + 4, name, 2, 2, INK)
            else:
                for line, word in enumerate(name.split()):
                    picture.text(middle, top + 5 + 10 * line, word, 1, 1, INK)
            if name in keys:
                picture.text(middle, top + 26, keys[name], 2, 2, NUMBER)
            x = right
    return picture.lines()


def part(name, data):
    return struct.pack(">I", len(data)) + name + data + struct.pack(">I", zlib.crc32(name + data))


def check(lines):
    with open(TOP + "/docs/keys.png", "rb") as file:
        picture = file.read()
    at = picture.index(b"IDAT") + 4
    if zlib.decompress(picture[at : at + int.from_bytes(picture[at - 8 : at - 4], "big")]) != lines:
        fail("docs/keys.png shows something else than the table of docs/KEYS.md")
    typed = re.search(r'MATRIX = """\n(.*?)\n"""', read("tools/beebtube/script.py"), re.S).group(1).replace("\\\\", "\\")
    table = {name: row for name, row in matrix().items()}
    for row, line in enumerate(typed.split("\n")):
        for column, name in enumerate(line.split()):
            plain = re.sub("^link", "link ", name.replace("_", " ") if len(name) > 1 else name)
            if table.get(plain) != "%d%d" % (row, column):
                fail("tools/beebtube/script.py has the key %s at %d%d" % (plain, row, column))


def main():
    if sys.argv[1:] == ["check"]:
        check(draw())
    elif sys.argv[1:] == ["make"]:
        with open(TOP + "/docs/keys.png", "wb") as file:
            file.write(b"\x89PNG\r\n\x1a\n" + part(b"IHDR", struct.pack(">IIBBBBB", WIDTH, HEIGHT, 8, 0, 0, 0, 0))
                       + part(b"IDAT", zlib.compress(draw(), 9)) + part(b"IEND", b""))
    else:
        sys.exit(__doc__.strip())


main()
