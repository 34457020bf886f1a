"""`tools/differs`: where two runs part, or a listing and a trace of MAME."""
from __future__ import annotations

import os
from typing import List

from . import mame, order
from .command import Usage
from .differs import Outputs, differences
from .faults import Fault
from .files import is_plain, make_folder, write_beside
from .frame import Frame, picture_of
from .reading import Reader
from .trace import Trace


# An animated picture of both frames and of the pixels that differ.
def _write_picture(folder: str, ending: str, names: List[str]) -> None:
    try:
        one, other = (Frame.read(name) for name in names)
    except Fault:
        return
    make_folder(folder)
    picture = picture_of([one, other, one.difference(other)], 1000)
    write_beside(os.path.join(folder, ending[:-4] + ".png"), picture, reads=names)


# The trace of this name, or of a run with this OUT.
def _trace_of(name: str) -> Trace:
    return Trace(name if is_plain(name) or not is_plain(name + ".trace") else name + ".trace")


def differs(words: List[str]) -> int:
    """The tool."""
    reader = Reader()
    reader.add_argument("--order", action="store_true")
    reader.add_argument("--within", type=int, metavar="TICKS")
    reader.add_argument("--pictures", metavar="FOLDER")
    reader.add_argument("--mame", metavar="TRACE")
    reader.add_argument("one")
    reader.add_argument("other", nargs="?")
    asked = reader.parse_args(words)
    if asked.mame is not None:
        if asked.other is not None or asked.pictures is not None or asked.order:
            raise Usage("--mame takes a trace and one listing")
        status, lines = mame.compare(asked.one, asked.mame)
        print("\n".join(lines))
        return status
    if asked.other is None:
        raise Usage("two runs are needed: OUT1 OUT2")
    if asked.within is not None and (not asked.order or asked.within < 0):
        raise Usage("--within has a number of ticks from 0 on, and goes with --order")
    if asked.order:
        if asked.pictures is not None:
            raise Usage("--order compares traces, which have no pictures")
        traces = _trace_of(asked.one), _trace_of(asked.other)
        status, lines = order.compare(*traces, asked.within)
        print("\n".join(lines))
        return status
    one, other = Outputs.of(asked.one), Outputs.of(asked.other)
    status = 0
    for ending, lines in differences(one, other):
        status = 1
        print(f"{ending}: " + "\n".join(lines))
        names = [it.names[ending] for it in (one, other) if ending in it.names]
        if asked.pictures is not None and ending.endswith(".ppm") and len(names) == 2:
            _write_picture(asked.pictures, ending, names)
    if status == 0:
        print(f"same: files {len(one.names)}")
    return status
