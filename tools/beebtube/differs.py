"""Where two runs part: their reports, accesses, memories, discs, frames, sounds and devices, in words."""
from __future__ import annotations

import collections
import os
import re
import struct
from typing import Deque, Dict, Iterator, List, NamedTuple, Optional, Tuple

from .disc import LARGEST, SECTOR, TRACK, Catalogue, Disc
from .faults import Fault
from .files import BLOCK, OUTPUT_CAP, Name, is_plain, open_file, read_file, reading
from .frame import Frame
from .trace import Access, Trace
from .tube import line_of
from .words import counted

# What a call writes, by the ending of its name, in the program's order; then the sound and the session, where they are named so.
ENDING = re.compile(r"report|host|para|d[01]|[0-9]{3}\.ppm|trace|plug[0-9]|list|wav|save")
ORDER = ("report", "host", "para", "d0", "d1", "ppm", "trace", "plug", "list", "wav", "save")
BEFORE = 5  # accesses that are shown before the first one that differs
RANGES = 8  # ranges of a memory that are shown
SECTORS = 8  # files or sectors of a disc that are shown


class Outputs(NamedTuple):
    """What a call wrote: by the ending of each file its name."""

    out: str
    names: Dict[str, str]

    @staticmethod
    def of(out: str) -> "Outputs":
        """The files of OUT; Fault where there is none."""
        folder, begin = os.path.dirname(out) or ".", os.path.basename(out) + "."
        try:
            found = os.listdir(folder)
        except OSError as error:
            raise Fault("cannot read %s: %s" % (folder, error.strerror)) from None
        names = {name[len(begin) :]: os.path.join(os.path.dirname(out), name) for name in found if name.startswith(begin)}
        names = {ending: name for ending, name in names.items() if ENDING.fullmatch(ending) and is_plain(name)}
        if not names:
            raise Fault("no run wrote %s: there is no %s.report, and nothing else of it" % (out, out))
        return Outputs(out, names)


def _place(ending: str) -> Tuple[int, str]:
    return next(place for place, kind in enumerate(ORDER) if kind in ending), ending


class Difference(NamedTuple):
    """What differs of one kind of file: its ending, and lines that say where. The first line follows the ending."""

    ending: str
    lines: List[str]


def differences(one: Outputs, other: Outputs) -> Iterator[Difference]:
    """What differs, in the order in which the program writes."""
    for ending in sorted(set(one.names) | set(other.names), key=_place):
        if ending not in one.names or ending not in other.names:
            yield Difference(ending, ["only %s has it" % (one if ending in one.names else other).out])
        else:
            lines = difference_of(ending, one.names[ending], other.names[ending])
            if lines:
                yield Difference(ending, lines)


def difference_of(ending: str, one: Name, other: Name) -> List[str]:
    """Lines that say where two files of a kind differ; none where they are the same, byte for byte."""
    if is_same(one, other):
        return []
    try:
        lines = _look_closer(ending, one, other)
    except Fault as fault:
        return ["they differ; %s" % fault]
    return lines or _of_bytes(one, other)


def is_same(one: Name, other: Name) -> bool:
    """Both files have the same bytes; they are read in blocks."""
    with open_file(one) as first, open_file(other) as second, reading(one):
        while True:
            block, beside = first.read(BLOCK), second.read(BLOCK)
            if block != beside:
                return False
            if not block:
                return True


def _look_closer(ending: str, one: Name, other: Name) -> List[str]:
    if ending == "report":
        return _of_report(read_file(one), read_file(other))
    if ending == "trace":
        return _of_traces(Trace(one), Trace(other))
    if ending in ("d0", "d1"):
        return _of_discs(read_file(one), read_file(other))
    if ending.endswith(".ppm"):
        return _of_frames(Frame.read(one), Frame.read(other))
    if ending == "wav":
        return _of_sounds(read_file(one, OUTPUT_CAP), read_file(other, OUTPUT_CAP))
    if ending in ("host", "para") or ending.startswith("plug"):
        return _of_memories(read_file(one, OUTPUT_CAP), read_file(other, OUTPUT_CAP))
    if ending == "list":
        return _of_lines(one, other)
    return []


# --- Each kind ---


def _shown(line: bytes) -> str:
    return "".join(chr(byte) if 32 <= byte < 127 else "?" for byte in line[:200])


def _of_report(one: bytes, other: bytes) -> List[str]:
    first, second = one.splitlines(), other.splitlines()
    lines = ["  %s | %s" % (_shown(here), _shown(there)) for here, there in zip(first, second) if here != there]
    lines += ["  only the %s has: %s" % (which, _shown(line)) for which, longer, shorter in (("first", first, second), ("second", second, first))
              for line in longer[len(shorter) :]]
    return [counted(len(lines), "line")] + lines if lines else []


def _of_traces(one: Trace, other: Trace) -> List[str]:
    if one.speed != other.speed:
        return ["the second processor has %d MHz | %d MHz" % (one.speed, other.speed)]
    before: Deque[Access] = collections.deque(maxlen=BEFORE)
    first, second = iter(one), iter(other)
    number = 0
    while True:
        here, there = next(first, None), next(second, None)
        number += 1
        if here == there:
            if here is None:
                return []
            before.append(here)
            continue
        lines = ["access %s differs" % "{:,}".format(number)]
        lines += ["  both   %s" % line_of(access, one.second) for access in before]
        lines.append("  first  %s" % (line_of(here, one.second) if here is not None else "             nothing more"))
        lines.append("  second %s" % (line_of(there, one.second) if there is not None else "             nothing more"))
        if here is not None and there is not None and here[1:] == there[1:]:
            lines.append("  the ticks alone differ here: --order compares without times")
        return lines


def ranges_of(one: bytes, other: bytes, gap: int = 4) -> List[Tuple[int, int]]:
    """From where to where two memories differ, each with its first and its last place; what lies at most `gap` places apart is one."""
    found: List[Tuple[int, int]] = []
    for block in range(0, min(len(one), len(other)), 256):
        here, there = one[block : block + 256], other[block : block + 256]
        if here == there:
            continue
        for at, (left, right) in enumerate(zip(here, there), block):
            if left != right:
                if found and at - found[-1][1] <= gap:
                    found[-1] = (found[-1][0], at)
                else:
                    found.append((at, at))
    return found


def _hex(data: bytes, most: int = 16) -> str:
    return " ".join("%02X" % byte for byte in data[:most]) + (" .." if len(data) > most else "")


def _of_memories(one: bytes, other: bytes) -> List[str]:
    found = ranges_of(one, other)
    count = sum(left != right for left, right in zip(one, other))
    lines = ["%s in %s" % (counted(count, "byte"), counted(len(found), "range"))]
    lines += ["  %04X to %04X  %s | %s" % (first, last, _hex(one[first : last + 1]), _hex(other[first : last + 1])) for first, last in found[:RANGES]]
    if len(found) > RANGES:
        lines.append("  and %d more, up to %04X" % (len(found) - RANGES, found[-1][1]))
    if len(one) != len(other):
        lines.append("  %s bytes | %s bytes" % ("{:,}".format(len(one)), "{:,}".format(len(other))))
    return lines


# The name of the file of a catalogue that has a sector, or what else is there.
def _owner_of(catalogue: Optional[Catalogue], sector: int) -> str:
    if catalogue is None:
        return "in no file of a catalogue"
    if sector < 2:
        return "the catalogue"
    for file in catalogue.files:
        if file.sector <= sector < file.sector + (file.length + SECTOR - 1) // SECTOR:
            return file.whole_name
    return "no file's"


def _of_discs(one: bytes, other: bytes) -> List[str]:
    double = max(len(one), len(other)) > LARGEST[False] or _looks_double(one, other)
    first, second = Disc(one, double), Disc(other, double)
    sectors = (max(len(one), len(other)) + SECTOR - 1) // SECTOR
    owners: Dict[Tuple[int, str], List[int]] = {}
    for side in range(1 + double):
        catalogue = second.catalogues().get(side, first.catalogues().get(side))
        for sector in range(TRACK * ((sectors + 2 * TRACK - 1) // (2 * TRACK)) if double else sectors):
            if first.sector(sector, side) != second.sector(sector, side):
                owners.setdefault((side, _owner_of(catalogue, sector)), []).append(sector)
    lines = [counted(sum(map(len, owners.values())), "sector")]
    for (side, owner), numbers in list(owners.items())[:SECTORS]:
        where = "side %d, " % side if double else ""
        lines.append("  %s%s: %s %s" % (where, owner, "sector" if len(numbers) == 1 else "sectors", _numbers(numbers)))
    if len(owners) > SECTORS:
        lines.append("  and %d files more" % (len(owners) - SECTORS))
    if len(one) != len(other):
        lines.append("  %s bytes | %s bytes" % ("{:,}".format(len(one)), "{:,}".format(len(other))))
    return lines


# Of an image that is no longer than one side: it is double if both sides have catalogues, of as many sectors as sides have.
def _looks_double(one: bytes, other: bytes) -> bool:
    def has_both(image: bytes) -> bool:
        sides = Disc(image, True).catalogues().values()
        return len(sides) == 2 and all(side.sectors in (400, 800) for side in sides)

    return has_both(one) or has_both(other)


def _numbers(numbers: List[int]) -> str:
    runs: List[List[int]] = []
    for number in numbers:
        if runs and number == runs[-1][1] + 1:
            runs[-1][1] = number
        else:
            runs.append([number, number])
    told = ["%03X" % first if first == last else "%03X to %03X" % (first, last) for first, last in runs]
    return ", ".join(told[:SECTORS]) + (" and more" if len(told) > SECTORS else "")


def _of_frames(one: Frame, other: Frame) -> List[str]:
    box = one.box(other)
    if box is None:
        return []
    left, top, right, bottom = box
    pixels = counted(one.differing(other), "pixel")
    return [f"{pixels}: columns {left} to {right}, rows {top} to {bottom}"]


def _samples_of(sound: bytes) -> Tuple[int, bytes]:
    if len(sound) < 44 or sound[:4] != b"RIFF" or sound[8:16] != b"WAVEfmt " or sound[36:40] != b"data":
        raise Fault("one is no sound file of the program")
    rate, = struct.unpack_from("<I", sound, 24)
    return max(rate, 1), sound[44:]


def _of_sounds(one: bytes, other: bytes) -> List[str]:
    (rate, first), (_, second) = _samples_of(one), _samples_of(other)
    for block in range(0, min(len(first), len(second)) & ~1, 4096):
        here, there = first[block : block + 4096], second[block : block + 4096]
        if here != there:
            at = next((at for at in range(0, min(len(here), len(there)) & ~1, 2) if here[at : at + 2] != there[at : at + 2]), None)
            if at is not None:
                number = (block + at) // 2
                values = struct.unpack_from("<h", here, at) + struct.unpack_from("<h", there, at)
                return ["sample %s, at %.3f ms: %s" % ("{:,}".format(number), number * 1000 / rate, " | ".join(map(str, values)))]
    if len(first) != len(second):
        return ["%s samples | %s samples, the same as far as both go" % ("{:,}".format(len(first) // 2), "{:,}".format(len(second) // 2))]
    return []


def _of_lines(one: Name, other: Name) -> List[str]:
    before: Deque[bytes] = collections.deque(maxlen=BEFORE)
    with open_file(one) as first, open_file(other) as second:
        number = 0
        while True:
            here, there = first.readline(4096), second.readline(4096)
            number += 1
            if here == there:
                if not here:
                    return []
                before.append(here)
                continue
            lines = ["line %s differs" % "{:,}".format(number)]
            lines += ["  both   %s" % _shown(line.rstrip(b"\n")) for line in before]
            lines.append("  first  %s" % (_shown(here.rstrip(b"\n")) if here else "nothing more"))
            lines.append("  second %s" % (_shown(there.rstrip(b"\n")) if there else "nothing more"))
            return lines


# Of files of another kind, and of those that differ where nothing is looked at: the first byte.
def _of_bytes(one: Name, other: Name) -> List[str]:
    with open_file(one) as first, open_file(other) as second:
        at = 0
        while True:
            here, there = first.read(BLOCK), second.read(BLOCK)
            if here != there:
                near = next((place for place, (left, right) in enumerate(zip(here, there)) if left != right), min(len(here), len(there)))
                return ["byte %s: %s | %s" % ("{:,}".format(at + near), _hex(here[near : near + 8]) or "nothing more",
                                              _hex(there[near : near + 8]) or "nothing more")]
            at += len(here)
