"""A program with the ROMs of system/, which it calls: `execute --os`.

The program is a file of the disc in drive 1, and its input an *EXEC file there; drive 0 has the
user's disc, or an empty one. A language, examples/c/language.asm, runs it, and has what it writes
in the printer's latch. All else is execution.py's.
"""
from __future__ import annotations

import os
from typing import Dict, List, Optional, Tuple

from .disc import Disc, NewFile, empty_disc, is_double, with_file
from .execution import SOURCES, Image, Left, Runner
from .faults import Fault
from .files import IMAGE_CAP, read_file
from .program import OWN, Part, Side, bytes_of
from .sets import read_set

AT = 0x1900
MOST_TEXT = 200
FLAG, BEFORE, COMMAND, LENGTH = 0x1FF, 0x100, 0x200, 0x2000  # places in the language
SLOT_AT_ERROR = 0x24A


class DiscImage(Image):
    """A program for calls of the operating system: a binary, at 1900 if no address is given."""

    BOUNDS: Dict[Side, Tuple[int, int]] = {"para": (0x0800, 0x8000), "host": (AT, 0x7C00)}

    def __init__(self, name: str, machine: Side, at: Optional[int], start: Optional[int],
                 cpu: Optional[Part]):
        data = bytes_of(name, IMAGE_CAP)
        if at is None and (data[:4] == b"BTP1" or data[:5] == b"sim65"):
            raise Fault(f"{name} is no program of a disc: `examples/c/build --disc` makes one")
        super().__init__(name, data, machine, AT if at is None else at, start, cpu)


def disc_of(name: Optional[str]) -> Disc:
    """The disc of a file for drive 0; an empty one without a file. Fault if the file is none."""
    if name is None or not os.path.exists(name):
        return empty_disc(is_double(name or ""), 80, "")
    disc = Disc.read(name)
    try:
        is_long = disc.catalogue().is_long
    except Fault as fault:
        raise Fault(f"{name} is no disc: {fault}")
    if is_long:
        raise Fault(f"{name} has a catalogue of Watford's DFS, which the disc filing system lacks")
    return disc


class DiscRunner(Runner):
    """Runs of such a program."""

    given: Optional[bytes] = None
    drive0 = "drive0.ssd"

    def insert(self, disc: Disc) -> None:
        """The disc in drive 0, before `give`."""
        self.drive0 = "drive0.dsd" if disc.double else "drive0.ssd"
        self._put(self.drive0, disc.image)

    def _make_roms(self, arguments: List[bytes]) -> None:
        for option, name in read_set(OWN):
            data = read_file(name)
            self._put(option[2:], data)
            if option not in ("--os", "--tube"):
                self.more += [option, option[2:]]
        self.more += ["--rom15", "rom15", "--disc1", "drive1.ssd"]
        text = b" ".join(arguments)
        if len(text) > MOST_TEXT or b"\r" in text:
            raise Fault("the arguments are no text of a command: it has at most "
                        f"{MOST_TEXT} bytes, and no carriage return")
        self.command = b"RUN :1.PROG " + text + b"\r"

    def _host_words(self) -> List[str]:
        return super()._host_words() + ["--disc0", self.drive0]

    def give(self, given: Optional[bytes]) -> None:
        """The input for the runs to come; None where it is still to be read."""
        self.given = given
        image = self.images[0]
        disc = with_file(empty_disc(False, 80, ""),
                         NewFile("$", "PROG", False, image.load, image.entry, image.data))
        source = read_file(os.path.join(SOURCES, "language.asm"))
        rom = bytearray(self.program.asm("6502", source).ljust(LENGTH, b"\0"))
        rom[FLAG] = 0x80 if "--keys" in self.more else 0
        before = b"\r"
        if given:
            disc = with_file(disc, NewFile("$", "INPUT", False, 0, 0, given.replace(b"\n", b"\r")))
            before = b"EXEC :1.INPUT\r"
        for at, text in ((BEFORE, before), (COMMAND, self.command)):
            rom[at : at + len(text)] = text
        self._put("rom15", bytes(rom))
        self._put("drive1.ssd", disc.image)

    def _left(self, ticks: int) -> Left:
        left, card = super()._left(ticks), self.output("plug0")
        how = 3 if card[3] == 2 and self.has_tube else card[3]
        return left._replace(out=left.out.replace(b"\n\r", b"\n"), err=b"", how=how, status=card[4])

    def seen_by_host(self, left: Left) -> bytes:
        """The host's memory, with the ROM that had the error, and the operating system."""
        name = "rom%d" % (left.host[SLOT_AT_ERROR] & 15)
        rom = read_file(os.path.join(self.folder, name)) if "--" + name in self.more else b""
        return left.host + rom.ljust(0x4000, b"\0") + read_file(os.path.join(self.folder, "os"))

    def taken(self, left: Left) -> int:
        """All of the input is taken."""
        return len(self.given or b"")
