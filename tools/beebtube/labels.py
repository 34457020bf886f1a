"""Labels of a source text, and their addresses."""
from __future__ import annotations

import bisect
import re
from typing import TYPE_CHECKING, Dict, Iterator, List, Optional, Tuple

from .faults import Fault, Refused
from .files import Name

if TYPE_CHECKING:
    from .program import Part, Program

LABEL = re.compile(rb"[ \t]*([A-Za-z_][A-Za-z0-9_]*)[ \t]*:")
FIRST = re.compile(rb"[ \t]*(?:[A-Za-z_][A-Za-z0-9_]*[ \t]*:)?[ \t]*(?:([A-Za-z_0-9]+)[ \t]*(&?[0-9A-Fa-f]+)?)?")


class Labels:
    """Labels and their addresses. A text of them has a line each, `AAAA name`, in four upper-case hexadecimal digits."""

    def __init__(self, addresses: Dict[str, int]):
        self.addresses = dict(addresses)
        self._sorted: List[Tuple[int, str]] = sorted((address, name) for name, address in self.addresses.items())

    def __iter__(self) -> Iterator[Tuple[int, str]]:
        """Address and name of each, by address."""
        return iter(self._sorted)

    def __len__(self) -> int:
        return len(self._sorted)

    def __contains__(self, name: object) -> bool:
        """There is a label of this name."""
        return name in self.addresses

    def __repr__(self) -> str:
        return f"Labels({self.addresses!r})"

    def __getitem__(self, name: str) -> int:
        """The address of a label; Fault where there is none."""
        if name not in self.addresses:
            raise Fault("no label is called %s" % name)
        return self.addresses[name]

    def names_at(self, address: int) -> List[str]:
        """The labels at an address."""
        first, last = (bisect.bisect_left(self._sorted, (at, "")) for at in (address, address + 1))
        return [self._sorted[at][1] for at in range(first, last)]

    def place(self, address: int) -> str:
        """An address as a person reads it: `loop+2 (0802)`, or `0802` if no label is at or below it."""
        found = self.near(address, 4095)
        if found is None:
            return "%04X" % address
        return f"{found[0]}{'+%d' % found[1] if found[1] else ''} ({address:04X})"

    def near(self, address: int, most: int = 65535) -> Optional[Tuple[str, int]]:
        """The last label at or below an address, and how far it is after it; None if there is none within `most` bytes."""
        place = bisect.bisect_right(self._sorted, (address, "\uffff")) - 1
        if place < 0 or address - self._sorted[place][0] > most:
            return None
        at = self._sorted[place][0]
        return self.names_at(at)[0], address - at

    def text(self) -> str:
        """A line for each, by address."""
        return "".join("%04X %s\n" % entry for entry in self._sorted)

    @staticmethod
    def parse(text: str) -> "Labels":
        """The labels of a text: plain lines, those of ld65's `-Ln`, or a dump of BeebAsm; Fault if it has none of these forms."""
        from .naming import parse
        return parse(text)

    @staticmethod
    def read(name: Name) -> "Labels":
        """The labels of a file of one of these forms."""
        from .naming import read
        return read(name)

    @staticmethod
    def of_source(program: "Program", part: "Part", source: bytes) -> "Labels":
        """The labels of a source text, which the program's own assembler finds: it assembles the text with words of all labels in
        front of it, or after it if there is no room in front. Refused where it refuses the text; Fault where neither has room.

        part  "6502" or "65c02"
        """
        image = program.asm(part, source)
        names = [match.group(1).decode() for match in map(LABEL.match, source.split(b"\n")) if match]
        origin = _origin_of(source)
        addresses: Dict[str, int] = {}
        left = list(names)
        room_before, room_behind = origin // 2, (65536 - origin - len(image)) // 2
        room = max(room_before, room_behind)
        while left:
            if room == 0:
                raise Fault("the source fills all memory: there is no room in which its labels could be told")
            batch, left = left[:room], left[room:]
            addresses.update(_told(program, part, source, batch, origin, len(image), room_before >= room_behind))
        return Labels(addresses)


# The address where the image of a source begins: that of its first statement, where it is an `org`.
def _origin_of(source: bytes) -> int:
    for line in source.split(b"\n"):
        match = FIRST.match(line.split(b";")[0])
        if match and match.group(1):
            number = (match.group(2) or b"").decode()
            if match.group(1).lower() == b"org" and number:
                return int(number[1:], 16) if number.startswith("&") else int(number)
            return 0
    return 0


# The addresses of some labels: the words of them are put before the source, or after it.
def _told(program: "Program", part: "Part", source: bytes, names: List[str], origin: int, length: int, before: bool) -> Dict[str, int]:
    wanted, told = list(names), {}
    while wanted:
        words = b"".join(b"word %s\n" % name.encode() for name in wanted)
        text = (b"org 0\n" + words + source) if before else source + b"\n" + words
        try:
            image = program.asm(part, text)
        except Refused as refused:
            if not refused.text.startswith("bad source "):
                raise
            # A label after the last byte of memory may not be used: its line is reported, and its address is 65,536.
            number = int(refused.text.split()[-1]) - 2 if before else int(refused.text.split()[-1]) - source.count(b"\n") - 2
            if not 0 <= number < len(wanted):
                raise
            told[wanted.pop(number)] = 65536
            continue
        start = 0 if before else length
        told.update((name, image[start + 2 * at] | image[start + 2 * at + 1] << 8) for at, name in enumerate(wanted))
        break
    return told
