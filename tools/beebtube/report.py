"""What `OUT.report` has: the ticks, the registers of each machine, and some counts."""
from __future__ import annotations

import re
from typing import Dict, NamedTuple, Optional, Union

from .faults import Fault

LINE = re.compile(r"(host|para) PC=([0-9A-F]{4}) A=([0-9A-F]{2}) X=([0-9A-F]{2}) Y=([0-9A-F]{2}) S=([0-9A-F]{2}) P=([0-9A-F]{2})( halted| held)?")
COUNT = re.compile(r"(ticks|tube|kept|frames) ([0-9]{1,20})")


class Registers(NamedTuple):
    """The registers of a 6502 or a 65C02; `pc` is from 0 to 65,535, the others from 0 to 255. A halted one goes on after BREAK alone."""

    pc: int
    a: int
    x: int
    y: int
    s: int
    p: int
    halted: bool

    def __repr__(self) -> str:
        return "Registers(PC=%04X A=%02X X=%02X Y=%02X S=%02X P=%02X%s)" % (self[:6] + (" halted" * self.halted,))


class Report(NamedTuple):
    """A report. What a command does not print is None.

    ticks       how long the run was, in ticks
    host, para  the registers of each machine
    tube        how many accesses to the Tube there were
    kept        how many of them the trace has
    frames      how many shots were taken
    """

    ticks: int
    host: Optional[Registers]
    para: Optional[Registers]
    tube: int
    kept: Optional[int]
    frames: Optional[int]

    @property
    def registers(self) -> Dict[str, Registers]:
        """Those of "host" and "para", of the machines that there are."""
        return {name: it for name, it in (("host", self.host), ("para", self.para)) if it is not None}


def parse(text: Union[str, bytes]) -> Report:
    """The report of its text; Fault where it is none."""
    if isinstance(text, bytes):
        text = text.decode("latin-1")
    machines: Dict[str, Registers] = {}
    counts: Dict[str, int] = {}
    for line in text.splitlines():
        machine, count = LINE.fullmatch(line), COUNT.fullmatch(line)
        if machine:
            pc, a, x, y, s, p = (int(word, 16) for word in machine.groups()[1:7])
            machines[machine.group(1)] = Registers(pc, a, x, y, s, p, machine.group(8) == " halted")
        elif count:
            counts[count.group(1)] = int(count.group(2))
        else:
            raise Fault("no report: the line %r" % line[:80])
    if "ticks" not in counts or "tube" not in counts:
        raise Fault("no report: the ticks or the accesses lack")
    return Report(counts["ticks"], machines.get("host"), machines.get("para"), counts["tube"], counts.get("kept"), counts.get("frames"))
