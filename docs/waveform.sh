#!/usr/bin/env bash
# Makes scale.png of this folder again: what examples/scale-os.asm plays, as the program writes it. With the word `check` it reports if the picture
# shows something else, and ends with 1 then. It needs python3, of which zlib packs the bytes. The strips are, from the top: the whole 2.6 seconds,
# the least and the greatest sample of each column; 20 milliseconds of the first tone; and 20 milliseconds of the noise.
set -eu
case $#${1:-} in
    0 | 1make | 1check) ;;
    1--help) sed -n '2,/^set/s/^# //p' "$0"; exit ;;
    *) echo "docs/waveform.sh: the only argument is make or check" >&2; exit 2 ;;
esac
top=$(cd "$(dirname "$0")/.." && pwd)
work=$(mktemp -d) || exit 1
trap 'rm -rf "$work"' EXIT
cd "$work"

"$top/beebtube" asm 6502 "$top/examples/scale-os.asm" os
: >empty.trace
"$top/beebtube" replay host empty.trace 15600000 scale --os os --wav scale.wav

python3 - "$top/docs/scale.png" "${1:-make}" <<'PY'
import struct
import sys
import zlib

WIDTH, HEIGHT, GAP = 640, 120, 8
RATE, TOP = 31250, 9000


# A part of a PNG: its length, name and bytes, and a sum over both.
def part(name, data):
    return struct.pack(">I", len(data)) + name + data + struct.pack(">I", zlib.crc32(name + data))


# One strip of this many samples, each column from its least to its greatest, joined to the column before it.
def strip(samples):
    rows = [bytearray(WIDTH) for _ in range(HEIGHT)]
    before = samples[0]
    for x in range(WIDTH):
        column = samples[x * len(samples) // WIDTH : max(x * len(samples) // WIDTH + 1, (x + 1) * len(samples) // WIDTH)]
        low, high = min(before, *column), max(before, *column)
        before = column[-1]
        for y in range(low * (HEIGHT - 1) // TOP, high * (HEIGHT - 1) // TOP + 1):
            rows[HEIGHT - 1 - y][x] = 1
    return rows


# The strips as the lines of a PNG, a pixel a byte.
def lines_of(samples):
    def from_ms(ms):
        return samples[ms * RATE // 1000 : (ms + 20) * RATE // 1000]

    gap = [bytearray([2]) * WIDTH for _ in range(GAP)]
    rows = strip(samples) + gap + strip(from_ms(100)) + gap + strip(from_ms(2010))
    return b"".join(b"\0" + bytes(row) for row in rows)


def picture_of(lines):
    palette = bytes([255, 255, 255, 0, 64, 128, 192, 192, 192])
    size = struct.pack(">IIBBBBB", WIDTH, 3 * HEIGHT + 2 * GAP, 8, 3, 0, 0, 0)
    return (
        b"\x89PNG\r\n\x1a\n"
        + part(b"IHDR", size)
        + part(b"PLTE", palette)
        + part(b"IDAT", zlib.compress(lines, 9))
        + part(b"IEND", b"")
    )


# The lines of a picture that was made here.
def lines_in(picture):
    at = picture.index(b"IDAT") + 4
    size = int.from_bytes(picture[at - 8 : at - 4], "big")
    return zlib.decompress(picture[at : at + size])


with open("scale.wav", "rb") as file:
    sound = file.read()
lines = lines_of(struct.unpack("<%dh" % ((len(sound) - 44) // 2), sound[44:]))
if sys.argv[2] == "check":
    with open(sys.argv[1], "rb") as picture:
        if lines_in(picture.read()) != lines:
            print("scale.png shows something else")
            sys.exit(1)
else:
    with open(sys.argv[1], "wb") as picture:
        picture.write(picture_of(lines))
PY
