"""beebtube from Python: runs of the emulator and what comes of them, for tests and tools.

    import beebtube

    os = beebtube.asm("6502", "host.asm")              # the name of a source's file, or its bytes
    run = beebtube.run(6_000_000, os=os, tube="tube.rom", keys=beebtube.typed("HELLO{RETURN}"))
    run.registers["host"].pc                           # registers: pc a x y s p halted
    run.host[0x70], run.para                           # memories
    run.frames, run.discs[0], run.plugs                # pictures of shots, discs afterwards, devices
    for access in run.accesses: ...                    # the Tube's accesses, one after another
    run.screen()[0]                                    # the first line of a teletext page

What the program refuses is `Refused`, with `status`, `text` and `why`; any other fault of a file or
a value is `Fault`. The package needs Python 3.9 and its standard library. docs/PYTHON.md has an
entry for each name.
"""
from __future__ import annotations

import importlib as _importlib
import os as _os
from typing import TYPE_CHECKING as _TYPE_CHECKING
from typing import Any as _Any

from .disc import Catalogue, Disc
from .faults import Fault, Refused
from .files import read_text as _read_text
from .frame import Frame, picture_of
from .labels import Labels
from .program import TOP as _TOP
from .program import Ended, Program, Run, Source, Version, screen_of, version
from .report import Registers, Report
from .script import Event, Script, Typed, key, pressed, typed
from .trace import Access, Trace

if _TYPE_CHECKING:
    from .calling import Called, call
    from .execution import Executed, build, execute
    from .past import Past

__all__ = [
    "Access", "Called", "Catalogue", "Disc", "Ended", "Event", "Executed", "Fault", "Frame",
    "Labels", "Past", "Program", "Refused", "Registers", "Report", "Run", "Script", "Source",
    "Trace", "Typed", "Version", "asm", "build", "call", "check", "dis", "execute", "follow", "gen",
    "host", "key", "labels_of", "picture_of", "pressed", "replay", "resume", "run", "screen_of",
    "solo", "typed", "version",
]

_VERSION = _os.path.join(_TOP, "VERSION")
__version__ = _read_text(_VERSION).strip() if _os.path.exists(_VERSION) else "unknown"
_program = Program()


# The modules that are loaded by the first use of what they have.
_LATER = {"Called": "calling", "call": "calling", "Executed": "execution", "build": "execution",
          "execute": "execution", "Past": "past"}


def __getattr__(name: str) -> _Any:
    if name in _LATER:
        return getattr(_importlib.import_module("." + _LATER[name], __name__), name)
    raise AttributeError(f"module {__name__!r} has no attribute {name!r}")


run = _program.run
solo = _program.solo
resume = _program.resume
replay = _program.replay
host = _program.host
follow = _program.follow
check = _program.check
asm = _program.asm
dis = _program.dis
labels_of = _program.labels_of
gen = _program.gen
