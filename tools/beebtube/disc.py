"""Discs: their sectors, and the catalogue of Acorn's DFS."""
from __future__ import annotations

import contextlib
import os
import re
from typing import Dict, Iterable, List, NamedTuple, Optional, Tuple

from .faults import Fault
from .files import IMAGE_CAP, Name, read_file

SECTOR, TRACK = 256, 10
LARGEST = {False: 204800, True: 409600}
MOST_FILES = 31
WATFORD = b"\xaa" * 8
NO_CATALOGUE = "no catalogue of the DFS is there"
BOOTS = ("none", "load", "run", "exec")


def is_double(name: Name) -> bool:
    """A name is that of a DSD: it ends in .dsd, in capitals too, or in .dsd.gz."""
    return os.fspath(name).lower().endswith((".dsd", ".dsd.gz"))


def note_of(name: Name) -> Optional[str]:
    """What is to be said of a name that the program takes otherwise than the tools do; None where it does not."""
    shown = os.fspath(name)
    if shown.lower().endswith(".dsd") and not shown.endswith(".dsd"):
        return "beebtube takes %s as an SSD: with it the name of a DSD ends in .dsd" % shown
    return None


class Disc:
    """A disc's image. A double one, a DSD, has both sides of each track in turn; another, an SSD, has side 0 alone."""

    def __init__(self, image: bytes, double: bool = False):
        self.image = bytes(image)
        self.double = double

    def __repr__(self) -> str:
        return f"<Disc: {'DSD' if self.double else 'SSD'}, {len(self.image):,} bytes>"

    def __eq__(self, other: object) -> bool:
        return isinstance(other, Disc) and (self.image, self.double) == (other.image, other.double)

    def __hash__(self) -> int:
        return hash((self.image, self.double))

    @staticmethod
    def read(name: Name) -> "Disc":
        """The disc of a file: a DSD where its name ends in .dsd, in capitals too. Fault where it cannot be read."""
        return Disc(read_file(name, IMAGE_CAP), is_double(name))

    def sector(self, number: int, side: int = 0) -> bytes:
        """The 256 bytes of a sector of a side, from 0 on, ten to a track; what lies past the end of the image reads 00."""
        start = self._place(number, side)
        return self.image[start : start + SECTOR].ljust(SECTOR, b"\0")

    def _place(self, number: int, side: int) -> int:
        if side and not self.double:
            raise Fault("an SSD has one side")
        track, sector = divmod(number, TRACK)
        if self.double:
            track = 2 * track + side
        return SECTOR * (TRACK * track + sector)

    def with_span(self, start: int, data: bytes, side: int = 0) -> "Disc":
        """The disc with these bytes from the first of a sector on; the rest of the last sector is 00, and the image grows where it has
        to. Fault where the side ends before."""
        image = bytearray(self.image)
        for at in range(0, len(data), SECTOR):
            place = self._place(start + at // SECTOR, side)
            if place + SECTOR > LARGEST[self.double]:
                raise Fault("a side has at most %d sectors" % (LARGEST[False] // SECTOR))
            image.extend(bytes(max(0, place + SECTOR - len(image))))
            image[place : place + SECTOR] = data[at : at + SECTOR].ljust(SECTOR, b"\0")
        return Disc(bytes(image), self.double)

    def span(self, start: int, length: int, side: int = 0) -> bytes:
        """So many bytes from the first of a sector on."""
        if not self.double:
            first = self._place(start, side)
            return self.image[first : first + length].ljust(length, b"\0")
        sectors = range(start, start + (length + SECTOR - 1) // SECTOR)
        return b"".join(self.sector(number, side) for number in sectors)[:length]

    def lacking(self, start: int, length: int, side: int = 0) -> int:
        """How many of these bytes from the first of a sector on lie past the end of the image."""
        there = 0
        for at in range(0, length, SECTOR):
            there += max(0, min(SECTOR, length - at, len(self.image) - self._place(start + at // SECTOR, side)))
        return length - there

    @property
    def is_sequential(self) -> bool:
        """A DSD whose second side seems to follow the whole first one: its catalogue is there."""
        def has_catalogue(disc: "Disc", side: int) -> bool:
            catalogue = disc.catalogues().get(side)
            return catalogue is not None and bool(catalogue.files)

        halves = [Disc(self.image[at:]) for at in (LARGEST[False] // 2, LARGEST[False]) if at < len(self.image)]
        return self.double and not has_catalogue(self, 1) and any(has_catalogue(half, 0) for half in halves)

    def catalogue(self, side: int = 0) -> "Catalogue":
        """What is on a side; Fault if there is no catalogue of the DFS."""
        return Catalogue(self, side)

    def catalogues(self) -> Dict[int, "Catalogue"]:
        """The catalogues of the sides that have one."""
        found = {}
        for side in range(1 + self.double):
            with contextlib.suppress(Fault):
                found[side] = self.catalogue(side)
        return found


class File(NamedTuple):
    """A file of a catalogue: addresses of 18 bits, the length in bytes, and its first sector."""

    folder: str
    name: str
    locked: bool
    load: int
    start: int
    length: int
    sector: int

    @property
    def whole_name(self) -> str:
        return "%s.%s" % (self.folder, self.name)


def _text_of(data: bytes) -> str:
    return "".join(chr(byte & 127) if 32 <= byte & 127 < 127 else "?" if byte & 127 else "" for byte in data).rstrip()


def _file_of(names: bytes, places: bytes) -> File:
    high = places[6]
    return File(
        folder=_text_of(names[7:8]) or " ",
        name=_text_of(names[:7]),
        locked=names[7] > 127,
        load=places[0] | places[1] << 8 | (high >> 2 & 3) << 16,
        start=places[2] | places[3] << 8 | (high >> 6 & 3) << 16,
        length=places[4] | places[5] << 8 | (high >> 4 & 3) << 16,
        sector=places[7] | (high & 3) << 8,
    )


def _files_of(names: bytes, places: bytes) -> List[File]:
    return [_file_of(names[at : at + 8], places[at : at + 8]) for at in range(8, places[5] + 1, 8)]


class Catalogue:
    """A catalogue of the DFS.

    title, cycle   the disc's title, and how often its catalogue was written
    sectors        how many the side has
    option         what is done at boot: 0 nothing, 1 *LOAD, 2 *RUN, 3 *EXEC
    files          in the catalogue's order
    is_long        it is of Watford's DFS, with room for 62 files
    """

    def __init__(self, disc: Disc, side: int = 0):
        self.disc, self.side = disc, side
        names, places = disc.sector(0, side), disc.sector(1, side)
        count = places[5]
        self.sectors = places[7] | (places[6] & 3) << 8
        if count % 8 or count > 248 or self.sectors == 0:
            raise Fault(NO_CATALOGUE)
        self.title = _text_of(names[:8] + places[:4])
        self.cycle = places[4]
        self.option = places[6] >> 4 & 3
        self.files: List[File] = _files_of(names, places)
        names, places = disc.sector(2, side), disc.sector(3, side)
        # Watford's DFS has 31 files more in the next two sectors, which no file of the first part has then.
        self.is_long = names[:8] == WATFORD and places[5] % 8 == 0 and places[5] <= 248 and all(it.sector > 3 for it in self.files if it.length)
        if self.is_long:
            self.files += _files_of(names, places)

    def find(self, name: str) -> File:
        """The file of a name, `$.NAME` or `NAME`, in either case; Fault where there is none."""
        folder, name = name.split(".", 1) if name[1:2] == "." else ("$", name)
        for file in self.files:
            if (file.folder.upper(), file.name.upper()) == (folder.upper(), name.upper()):
                return file
        raise Fault("no file is called %s.%s" % (folder, name))

    def bytes_of(self, file: File) -> bytes:
        """The bytes of a file; those past the end of the image are 00."""
        return self.disc.span(file.sector, file.length, self.side)

    def lacking(self, file: File) -> int:
        """How many of a file's bytes lie past the end of the image."""
        return self.disc.lacking(file.sector, file.length, self.side)


# --- Discs that are made ---


class NewFile(NamedTuple):
    """A file that comes onto a disc: a letter for its folder, its name, whether it is locked, addresses of 18 bits, and its bytes."""

    folder: str
    name: str
    locked: bool
    load: int
    start: int
    data: bytes

    @property
    def whole_name(self) -> str:
        return "%s.%s" % (self.folder, self.name)


NAME = re.compile(r"(?:([!-~])\.)?([!-~]{1,7})")
HEX = re.compile(r"[0-9A-Fa-f]{1,8}")


def split_name(text: str) -> Tuple[str, str]:
    """The folder and the name of `$.NAME` or `NAME`; Fault where the DFS has no such name."""
    match = NAME.fullmatch(text)
    if not match or re.search(r'[.:#*"]', match.group(2)) or (match.group(1) or "$") in '.:#*"':
        raise Fault("%s is no name of the DFS: a letter and a point for the folder, if wanted, and 1 to 7 letters" % text[:60])
    return match.group(1) or "$", match.group(2)


def _address(word: str) -> int:
    value = int(word, 16)
    # FFFF1900 and FF1900 are the host's, as 31900.
    return value & 0x3FFFF


def parse_inf(text: str) -> Tuple[str, str, bool, int, int]:
    """Folder, name, whether it is locked, load and execution address of the text of an .inf file: `$.NAME 001900 008023`, and
    after it, if given, the length, `L` or `Locked`, and words with `=`. Fault where it has another form."""
    line = text.strip().splitlines()[0] if text.strip() else ""
    quoted = re.match(r'"([^"]+)"\s*(.*)', line)
    name, rest = (quoted.group(1), quoted.group(2)) if quoted else (line.split(None, 1) + ["", ""])[:2]
    words = [word for word in rest.split() if "=" not in word]
    numbers = words[:2]
    if len(numbers) != 2 or not all(HEX.fullmatch(word) for word in numbers):
        raise Fault("an .inf file has a name and two addresses in hexadecimal digits: $.NAME 001900 008023")
    folder, short = split_name(name)
    return folder, short, any(word.upper() in ("L", "LOCKED") for word in words[2:]), _address(numbers[0]), _address(numbers[1])


def shown_address(address: int) -> str:
    """An address of 18 bits, six digits: those from 30000 on are of the host, as FF0000 and on."""
    return "%06X" % (address | (0xFC0000 if address >> 16 == 3 else 0))


def file_name(file: File) -> str:
    """The name of a catalogue's file as one of a folder: what is no letter of a name there is `%XX`, and so is a blank."""
    return re.sub(r"[^!-~]|[%/]|^[.]", lambda match: "%%%02X" % (ord(match.group()) & 255), file.whole_name)


def text_of_inf(file: File) -> str:
    """The text of an .inf file for a file of a catalogue."""
    name = '"%s"' % file.whole_name if " " in file.whole_name else file.whole_name
    return "%s %s %s %06X%s\n" % (name, shown_address(file.load), shown_address(file.start), file.length, " L" if file.locked else "")


def read_new_file(name: Name) -> NewFile:
    """A file for a disc, with what NAME.inf beside it says; where there is none, its own name is the name, and the addresses are 0."""
    data, beside = read_file(name, LARGEST[False], plain=True), os.fspath(name) + ".inf"
    if not os.path.exists(beside) and os.path.exists(os.fspath(name) + ".INF"):
        beside = os.fspath(name) + ".INF"
    try:
        if os.path.exists(beside):
            return NewFile(*parse_inf(read_file(beside, 4096, plain=True).decode("latin-1")), data=data)
        return NewFile(*split_name(os.path.basename(os.fspath(name))), locked=False, load=0, start=0, data=data)
    except Fault as fault:
        raise Fault("%s: %s" % (beside if os.path.exists(beside) else os.fspath(name), fault)) from None


def empty_disc(double: bool, tracks: int = 80, title: str = "") -> Disc:
    """A disc whose sides have a catalogue without files. Fault where the title has more than 12 letters."""
    disc = Disc(b"", double)
    for side in range(1 + double):
        disc = _with_catalogue(disc, side, title if side == 0 else "", 0, TRACK * tracks, 0, [])
    return disc


def _with_catalogue(disc: Disc, side: int, title: str, cycle: int, sectors: int, option: int, files: Iterable[File]) -> Disc:
    letters = title.encode("latin-1", "replace")
    if len(letters) > 12 or any(not 32 <= letter < 127 for letter in letters):
        raise Fault("a title has at most 12 letters")
    # The last one on the disc comes first, as the DFS needs it.
    ordered = sorted(files, key=lambda file: (-file.sector, not file.length))
    letters = letters.ljust(12, b"\0")
    names, places = letters[:8], letters[8:] + bytes([cycle, 8 * len(ordered), option << 4 | sectors >> 8, sectors & 255])
    for file in ordered:
        names += file.name.encode("latin-1").ljust(7) + bytes([ord(file.folder) | 128 * file.locked])
        high = file.start >> 16 << 6 | file.length >> 16 << 4 | file.load >> 16 << 2 | file.sector >> 8
        for value in (file.load, file.start, file.length):
            places += bytes([value & 255, value >> 8 & 255])
        places += bytes([high, file.sector & 255])
    return disc.with_span(0, names.ljust(SECTOR, b"\0") + places.ljust(SECTOR, b"\0"), side)


# The next cycle, which counts in decimal digits.
def _next_cycle(cycle: int) -> int:
    low, high = cycle & 15, cycle >> 4
    return (high + (low >= 9)) % 10 << 4 | (low + 1 if low < 9 else 0)


def _same_name(file: File, folder: str, name: str) -> bool:
    return (file.folder.upper(), file.name.upper()) == (folder.upper(), name.upper())


# The first sector of the first gap that has so many; Fault where none has.
def _gap(files: List[File], sectors: int, wanted: int) -> int:
    at, largest = 2, 0
    by_sector: List[Optional[File]] = [*sorted(files, key=lambda file: file.sector), None]
    for file in by_sector:
        room = (sectors if file is None else file.sector) - at
        if room >= wanted:
            return at
        largest = max(largest, room)
        if file is not None:
            at = max(at, file.sector + (file.length + SECTOR - 1) // SECTOR)
    raise Fault("it needs %d sectors, and the largest gap of the disc has %d" % (wanted, largest))


def _to_change(disc: Disc, side: int) -> Catalogue:
    catalogue = disc.catalogue(side)
    if catalogue.is_long:
        raise Fault("a catalogue of Watford's DFS, with room for 62 files, is read and not written")
    return catalogue


def with_file(disc: Disc, new: NewFile, side: int = 0) -> Disc:
    """The disc with a file put in, in the place of one of the same name. Fault where that one is locked, or there is no room."""
    old = _to_change(disc, side)
    files = [file for file in old.files if not _same_name(file, new.folder, new.name)]
    if any(file.locked for file in old.files if file not in files):
        raise Fault("%s is locked" % new.whole_name)
    if len(files) == MOST_FILES:
        raise Fault("%s: a catalogue has at most %d files" % (new.whole_name, MOST_FILES))
    try:
        sector = _gap(files, old.sectors, (len(new.data) + SECTOR - 1) // SECTOR)
    except Fault as fault:
        raise Fault("%s: %s" % (new.whole_name, fault)) from None
    file = File(new.folder, new.name, new.locked, new.load, new.start, len(new.data), sector)
    disc = disc.with_span(sector, new.data, side)
    return _with_catalogue(disc, side, old.title, _next_cycle(old.cycle), old.sectors, old.option, files + [file])


def without_file(disc: Disc, name: str, side: int = 0) -> Disc:
    """The disc with a file taken out of its catalogue; its bytes stay where they were. Fault where there is none, or it is locked."""
    old = _to_change(disc, side)
    file = old.find(name)
    if file.locked:
        raise Fault("%s is locked" % file.whole_name)
    return _with_catalogue(disc, side, old.title, _next_cycle(old.cycle), old.sectors, old.option, [it for it in old.files if it != file])


def with_option(disc: Disc, option: int, title: Optional[str] = None, side: int = 0) -> Disc:
    """The disc with another option at boot, and another title, if one is said."""
    old = _to_change(disc, side)
    return _with_catalogue(disc, side, old.title if title is None else title, old.cycle, old.sectors, option, old.files)
