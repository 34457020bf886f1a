"""`tools/png` and `tools/screen`: frames as pictures, and screens in a terminal."""
from __future__ import annotations

import re
from typing import List, Optional, Sequence

from .blocks import blocks_of, coloured_blocks_of
from .command import Usage
from .faults import Fault
from .files import read_file, write_beside
from .frame import PICTURE_CAP, Frame, lines_in, look_at_picture, picture_of
from .program import screen_of
from .reading import Reader, seconds, whole_number


def _compare(picture: str, names: Sequence[str]) -> None:
    wanted = lines_in(read_file(picture, PICTURE_CAP), picture)
    if len(wanted) != len(names):
        raise Fault(f"{picture} has {len(wanted)} frames, not {len(names)}")
    for name, lines in zip(names, wanted):
        if Frame.read(name).lines() != lines:
            raise Fault(f"{picture} does not show {name}")


def png(words: List[str]) -> None:
    """tools/png."""
    reader = Reader()
    reader.add_argument("--movie", metavar="PICTURE")
    reader.add_argument("--compare", metavar="PICTURE")
    reader.add_argument("--delay", type=seconds, default=0.5)
    reader.add_argument("names", nargs="+")
    asked = reader.parse_args(words)
    if asked.compare is not None and asked.movie is None:
        _compare(asked.compare, asked.names)
        return
    delay: Optional[int] = None
    if asked.movie is not None and asked.compare is None:
        name, frames, delay = asked.movie, asked.names, round(1000 * asked.delay)
        if asked.delay > 65.535:
            raise Fault("a delay has from 0 to 65 seconds")
    elif asked.compare is None and len(asked.names) == 2:
        *frames, name = asked.names
    else:
        raise Usage("the arguments are a frame and a picture, or --movie, a picture and frames")
    look_at_picture(name)
    write_beside(name, picture_of([Frame.read(it) for it in frames], delay), reads=frames)


def _teletext(out: str, start: str) -> List[str]:
    if not re.fullmatch("[0-9A-F]{4}", start):
        raise Usage("--start has four upper-case hexadecimal digits, as 7C00")
    memory = read_file(out + ".host")
    if len(memory) != 32768:
        raise Fault(f"{out}.host is no memory of the host: it has {len(memory):,} bytes, not 32,768")
    return screen_of(memory, int(start, 16))


def screen(words: List[str]) -> None:
    """tools/screen."""
    reader = Reader()
    reader.add_argument("--start")
    reader.add_argument("--frame", type=whole_number(0, 255))
    reader.add_argument("--colour", action="store_true")
    reader.add_argument("--columns", type=int)
    reader.add_argument("out")
    asked = reader.parse_args(words)
    if asked.frame is None:
        if asked.colour or asked.columns is not None:
            raise Usage("--colour and --columns are of a --frame")
        lines = _teletext(asked.out, asked.start or "7C00")
    else:
        if asked.start is not None:
            raise Usage("--start is of a teletext screen, without --frame")
        frame = Frame.read(f"{asked.out}.{asked.frame:03d}.ppm")
        blocks = coloured_blocks_of if asked.colour else blocks_of
        lines = blocks(frame, 80 if asked.columns is None else asked.columns)
    print("\n".join(lines))
