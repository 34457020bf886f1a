"""`tools/catalogue`: shows what is on a disc, and makes discs."""
from __future__ import annotations

import argparse
import os
import sys
from typing import List, Sequence

from .command import Usage, note
from .contents import as_csv, as_json, contents_of, discs_of, extract
from .disc import (BOOTS, Catalogue, Disc, File, empty_disc, is_double, note_of, read_new_file,
                   shown_address, text_of_inf, with_file, with_option, without_file)
from .faults import Fault
from .files import same_file, write_beside
from .reading import Reader
from .words import printable

AT_BOOT = ("nothing at boot", *(f"at boot *{word} of $.!BOOT" for word in ("LOAD", "RUN", "EXEC")))


def _tell_all(texts: Sequence[str]) -> int:
    for text in texts:
        note(printable(text))
    return 1 if texts else 0


def _lacks(image: str, catalogue: Catalogue, file: File) -> str:
    return (f"{image} ends before {file.whole_name}: {catalogue.lacking(file)} of its {file.length}"
            " bytes are past the end")


def _print(catalogue: Catalogue) -> None:
    print(f"title {catalogue.title}")
    print(f"cycle {catalogue.cycle:02X}, sectors {catalogue.sectors}, {AT_BOOT[catalogue.option]}")
    print(f"files {len(catalogue.files)}: name, locked, load, start, length, first sector")
    for file in sorted(catalogue.files, key=lambda file: (file.folder, file.name.upper())):
        print(f"{file.folder}.{file.name:7} {'L' if file.locked else ' '}"
              f"  {shown_address(file.load)} {shown_address(file.start)}"
              f" {file.length:06X}  {file.sector:03X}")


# What a name means for the program, if that takes it otherwise.
def _tell_note(name: str) -> None:
    text = note_of(name)
    if text:
        note(text)


def _look_at_name(name: str) -> None:
    if not name.lower().endswith((".ssd", ".dsd")):
        raise Fault(f"{name}: the name of a disc ends in .ssd or .dsd")


def _write_disc(name: str, disc: Disc, reads: Sequence[str]) -> int:
    write_beside(name, disc.image, reads=reads)
    _tell_note(name)
    return 0


def _put_in(disc: Disc, names: Sequence[str], asked: argparse.Namespace) -> Disc:
    beside = [name for name in names if name[-4:].lower() == ".inf" and name[:-4] in names]
    files = [read_new_file(name) for name in names if name not in beside]
    for file in files:
        disc = with_file(disc, file, asked.side)
    option = disc.catalogue(asked.side).option
    if asked.boot is not None:
        option = BOOTS.index(asked.boot)
    elif asked.make and any(file.whole_name.upper() == "$.!BOOT" for file in files):
        option = BOOTS.index("exec")
    return with_option(disc, option, asked.title, asked.side)


def _make(asked: argparse.Namespace) -> int:
    image, *names = asked.words
    _look_at_name(image)
    if os.path.lexists(image):
        raise Fault(f"{image} is there: --put puts files into a disc")
    disc = _put_in(empty_disc(is_double(image), asked.tracks or 80), names, asked)
    return _write_disc(image, disc, names)


def _change(asked: argparse.Namespace) -> int:
    if len(asked.words) < 3:
        raise Usage("it needs a disc, the name of the new one, and files")
    image, new, *names = asked.words
    _look_at_name(new)
    if is_double(image) != is_double(new):
        one, other = ("a DSD" if is_double(it) else "an SSD" for it in (image, new))
        raise Fault(f"{image} is {one}, and {new} is {other} by its name")
    disc = Disc.read(image)
    if asked.put:
        disc = _put_in(disc, names, asked)
    else:
        for name in names:
            disc = without_file(disc, name, asked.side)
    return _write_disc(new, disc, [image] + (names if asked.put else []))


def _show(asked: argparse.Namespace) -> int:
    if len(asked.words) > 3:
        raise Usage("the arguments are a disc, or a disc, a file and the name for its bytes")
    image = asked.words[0]
    _tell_note(image)
    catalogue = Disc.read(image).catalogue(asked.side)
    if len(asked.words) == 1:
        _print(catalogue)
        lacking = [file for file in catalogue.files if catalogue.lacking(file)]
        return _tell_all([_lacks(image, catalogue, file) for file in lacking])
    if len(asked.words) == 2:
        raise Fault("a file is written under a name: tools/catalogue IMAGE FILE OUT")
    out, file = asked.words[2], catalogue.find(asked.words[1])
    if catalogue.lacking(file):
        raise Fault(_lacks(image, catalogue, file))
    if asked.inf and same_file(image, out + ".inf"):
        raise Fault(f"{image} is read too, and is not overwritten")
    write_beside(out, catalogue.bytes_of(file), reads=[image])
    if asked.inf:
        write_beside(out + ".inf", text_of_inf(file), reads=[image])
    return 0


def _list_all(asked: argparse.Namespace) -> int:
    if len(asked.words) != 1 or asked.side:
        raise Usage("the arguments are a folder or a disc")
    notes: List[str] = []
    faults: List[str] = []
    found = contents_of(discs_of(asked.words[0], asked.recursive, notes, faults), faults)
    for text in as_csv(found) if asked.csv else as_json(found):
        sys.stdout.write(text)
    _tell_all(notes)
    return _tell_all(faults)


def _extract_all(asked: argparse.Namespace) -> int:
    if len(asked.words) != 2 or asked.side:
        raise Usage("the arguments are a disc and a new folder")
    faults: List[str] = []
    print(f"files {extract(Disc.read(asked.words[0]), asked.words[1], faults)}")
    return _tell_all(faults)


def catalogue(words: List[str]) -> int:
    """The tool."""
    reader = Reader()
    how = reader.add_mutually_exclusive_group()
    for name in ("--make", "--put", "--take", "--inf", "--extract", "--csv", "--json"):
        how.add_argument(name, action="store_true")
    reader.add_argument("--recursive", action="store_true")
    reader.add_argument("--side", type=int, choices=(0, 1), default=0)
    reader.add_argument("--title")
    reader.add_argument("--boot", choices=BOOTS)
    reader.add_argument("--tracks", type=int, choices=(40, 80))
    reader.add_argument("words", nargs="+")
    asked = reader.parse_intermixed_args(words)
    if asked.tracks is not None and not asked.make:
        raise Usage("--tracks is of --make")
    if not (asked.make or asked.put) and (asked.title, asked.boot) != (None, None):
        raise Usage("--title and --boot are of --make and --put")
    if asked.recursive and not (asked.csv or asked.json):
        raise Usage("--recursive is of --csv and --json")
    if asked.csv or asked.json:
        return _list_all(asked)
    if asked.make or asked.put or asked.take:
        return _make(asked) if asked.make else _change(asked)
    return _extract_all(asked) if asked.extract else _show(asked)
