"""Frames, the pixmaps that shots write, and pictures (PNG, and animated ones, APNG) of them."""
from __future__ import annotations

import functools
import os
import re
import struct
import zlib
from typing import Iterator, List, Optional, Sequence, Tuple

from .faults import Fault
from .files import Name, look_at_place, read_file

WIDTH, HEIGHT = 640, 256
HEADER = b"P6\n640 256\n255\n"
LENGTH = len(HEADER) + 3 * WIDTH * HEIGHT
PICTURE_CAP = 67108864
SIGNATURE = b"\x89PNG\r\n\x1a\n"
PALETTE = bytes(255 * (colour >> bit & 1) for colour in range(8) for bit in range(3))
SIZE = struct.pack(">IIBBBBB", WIDTH, 2 * HEIGHT, 4, 3, 0, 0, 0)  # of a picture, with four bits a pixel
LINES = 2 * HEIGHT * (1 + WIDTH // 2)  # bytes of a picture's lines, before they are made smaller


# The bit of a part of a colour, and a colour as the left one of two pixels.
_BITS = [bytes(byte >> 7 << bit for byte in range(256)) for bit in range(3)]
_LEFT = bytes(colour << 4 & 255 for colour in range(256))


def either(*columns: bytes) -> bytes:
    """Columns of as many bytes, joined by `or` place by place: all of them at once, as one number."""
    joined = 0
    for one in columns:
        joined |= int.from_bytes(one, "little")
    return joined.to_bytes(len(columns[0]), "little")


class Frame:
    """A frame: 640 by 256 pixels in eight colours. A colour is red + 2 green + 4 blue, so 0 is black and 7 white."""

    def __init__(self, pixmap: bytes, name: str = "the pixmap"):
        if not pixmap.startswith(HEADER) or len(pixmap) != LENGTH:
            raise Fault("%s is no frame of 640 by 256" % name)
        self.pixmap = pixmap
        self.colours = _colours_of(pixmap)

    @staticmethod
    def read(name: Name) -> "Frame":
        """The frame of a file; Fault where it is none."""
        return Frame(read_file(name), str(name))

    @staticmethod
    def of_colours(colours: bytes) -> "Frame":
        """The frame of 640 by 256 colours, row by row."""
        parts = bytearray(3 * len(colours))
        for part in range(3):
            parts[part::3] = colours.translate(bytes(255 * (colour >> part & 1) for colour in range(256)))
        return Frame(HEADER + bytes(parts))

    @staticmethod
    def of_png(picture: bytes, name: str = "the picture") -> "Frame":
        """The frame of a PNG that `png` made; Fault if it is none."""
        lines = lines_in(picture, name)
        if len(lines) != 1:
            raise Fault("%s has %d frames" % (name, len(lines)))
        pairs = b"".join(lines[0][at + 1 : at + 1 + WIDTH // 2] for at in range(0, LINES, 2 + WIDTH))
        colours = bytearray(WIDTH * HEIGHT)
        colours[::2] = pairs.translate(bytes(byte >> 4 & 7 for byte in range(256)))
        colours[1::2] = pairs.translate(bytes(byte & 7 for byte in range(256)))
        return Frame.of_colours(bytes(colours))

    def __repr__(self) -> str:
        return f"<Frame: colours {''.join(map(str, sorted(set(self.colours))))}, crc {zlib.crc32(self.colours):08X}>"

    def box(self, other: "Frame") -> Optional[Tuple[int, int, int, int]]:
        """The smallest box that holds every pixel in which this frame and another differ: its left, top, right and bottom
        pixel, each inside it. None if they are equal."""
        rows = [y for y in range(HEIGHT) if self.row(y) != other.row(y)]
        if not rows:
            return None
        columns = 0
        for y in rows:
            columns |= int.from_bytes(self.row(y), "big") ^ int.from_bytes(other.row(y), "big")
        places = [x for x, byte in enumerate(columns.to_bytes(WIDTH, "big")) if byte]
        return places[0], rows[0], places[-1], rows[-1]

    def difference(self, other: "Frame") -> "Frame":
        """A frame that is white where this one and another differ, and black elsewhere."""
        size = len(self.colours)
        apart = (int.from_bytes(self.colours, "big") ^ int.from_bytes(other.colours, "big")).to_bytes(size, "big")
        return Frame.of_colours(apart.translate(bytes([0]) + bytes([7]) * 255))

    def differing(self, other: "Frame") -> int:
        """How many pixels differ in this frame and another."""
        return len(self.colours) - self.difference(other).colours.count(0)

    def pixel(self, x: int, y: int) -> int:
        """The colour of a pixel; x from 0 to 639 to the right, y from 0 to 255 down."""
        if not (0 <= x < WIDTH and 0 <= y < HEIGHT):
            raise IndexError("a frame has 640 by 256 pixels")
        return self.colours[WIDTH * y + x]

    def row(self, y: int) -> bytes:
        """The 640 colours of a row."""
        return self.colours[WIDTH * y : WIDTH * (y + 1)]

    def __eq__(self, other: object) -> bool:
        return isinstance(other, Frame) and self.colours == other.colours

    def __hash__(self) -> int:
        return hash(self.colours)

    def lines(self) -> bytes:
        """The lines of a picture, each row twice, two pixels a byte, as a screen of 4 by 3 shows them."""
        pairs = either(self.colours[::2].translate(_LEFT), self.colours[1::2])
        return b"".join(2 * (b"\0" + pairs[320 * y : 320 * (y + 1)]) for y in range(HEIGHT))

    def png(self) -> bytes:
        """The frame as a PNG of 640 by 512."""
        return _png_of(self)


# A suite makes a picture and a page of one frame.
@functools.lru_cache(maxsize=2)
def _colours_of(pixmap: bytes) -> bytes:
    return either(*(pixmap[len(HEADER) + part :: 3].translate(_BITS[part]) for part in range(3)))


@functools.lru_cache(maxsize=2)
def _png_of(frame: Frame) -> bytes:
    return picture_of([frame])


def _part(name: bytes, data: bytes) -> bytes:
    return struct.pack(">I", len(data)) + name + data + struct.pack(">I", zlib.crc32(name + data))


def picture_of(frames: Sequence[Frame], delay: Optional[int] = None) -> bytes:
    """A PNG of one frame; with a delay an animated one of all, each of which lasts so many milliseconds, 0 to 65,535."""
    parts = [_part(b"IHDR", SIZE)]
    if delay is not None:
        parts.append(_part(b"acTL", struct.pack(">II", len(frames), 0)))
    parts.append(_part(b"PLTE", PALETTE))
    order = 0
    for index, frame in enumerate(frames):
        data = zlib.compress(frame.lines(), 9)
        if delay is not None:
            parts.append(_part(b"fcTL", struct.pack(">IIIIIHHBB", order, WIDTH, 2 * HEIGHT, 0, 0, delay, 1000, 0, 0)))
            order += 1
        if index == 0:
            parts.append(_part(b"IDAT", data))
        else:
            parts.append(_part(b"fdAT", struct.pack(">I", order) + data))
            order += 1
    return SIGNATURE + b"".join(parts) + _part(b"IEND", b"")


def look_at_picture(name: Name) -> None:
    """Fault if a file that is no picture of frames has the name of one that is to be written."""
    begin = SIGNATURE + _part(b"IHDR", SIZE)
    # The part `acTL` of a moving picture may come before its colours.
    forms = begin + _part(b"PLTE", PALETTE), begin + b"\0\0\0\10acTL"
    look_at_place(name, "picture that was made here", lambda found: found.startswith(forms))


def frames_in(folder: Name) -> List[str]:
    """The names of the frames in the folder of a run `out`, in their order."""
    return sorted(name for name in os.listdir(folder) if re.fullmatch(r"out\.[0-9]{3}\.ppm", name))


# The parts of a picture, by their names; Fault where it ends inside one, or a part has another sum.
def _parts_of(picture: bytes, name: str) -> Iterator[Tuple[bytes, bytes]]:
    place = len(SIGNATURE)
    while place < len(picture):
        if place + 12 > len(picture):
            raise Fault("%s is cut" % name)
        size, kind = struct.unpack(">I4s", picture[place : place + 8])
        data, sum_there = picture[place + 8 : place + 8 + size], picture[place + 8 + size : place + 12 + size]
        if len(data) != size or len(sum_there) != 4:
            raise Fault("%s is cut" % name)
        if struct.unpack(">I", sum_there)[0] != zlib.crc32(kind + data):
            raise Fault("%s has a part %s with another checksum" % (name, kind.decode("latin-1") if kind.isalpha() else "without a name"))
        yield kind, data
        place += 12 + size


def lines_in(picture: bytes, name: str = "the picture") -> List[bytes]:
    """The lines of each frame of a picture that `picture_of` made; Fault where it is no such picture: of its size, with its colours,
    whole, and with the sums of its parts."""
    if not picture.startswith(SIGNATURE):
        raise Fault("%s is no picture" % name)
    frames, kinds = [], []
    for kind, data in _parts_of(picture, name):
        kinds.append(kind)
        if kind == b"IHDR" and data != SIZE:
            raise Fault("%s has another size or depth: it needs 640 by 512 in 16 colours" % name)
        if kind == b"PLTE" and data != PALETTE:
            raise Fault("%s has other colours" % name)
        if kind in (b"IDAT", b"fdAT"):
            reader = zlib.decompressobj()
            try:
                lines = reader.decompress(data if kind == b"IDAT" else data[4:], LINES + 1)
            except zlib.error:
                lines = b""
            if len(lines) != LINES or not reader.eof:
                raise Fault("%s is no picture that was made here" % name)
            frames.append(lines)
    if kinds[:1] != [b"IHDR"] or kinds.count(b"IHDR") != 1 or kinds.count(b"PLTE") != 1 or kinds[-1:] != [b"IEND"]:
        raise Fault("%s is no picture that was made here" % name)
    return frames
