"""Discs as they come in a folder: by themselves, inside of a .zip, or as a .gz.

A disc inside of an archive has a path through it: `games.zip/elite.ssd`, `elite.ssd.gz`.
"""
from __future__ import annotations

import gzip
import os
import zlib
from typing import Dict, Iterator, List, NamedTuple, Optional, Set, Tuple

from .faults import Fault
from .files import open_file, read_file, too_long
from .words import shown, told

DISCS = (".ssd", ".dsd")
# Files that somebody may take for discs, and that no run reads.
OTHERS = (".adl", ".adf", ".adm", ".img", ".uef", ".hfe", ".fsd", ".mmb", ".csw", ".hdf", ".7z", ".rar", ".tar", ".tgz")
MOST_MEMBERS = 65536


def is_disc(name: str) -> bool:
    """A name is that of a disc's image, which may be a .gz."""
    return bare(name).lower().endswith(DISCS)


def bare(name: str) -> str:
    """A name without the .gz of a disc."""
    return name[:-3] if name.lower().endswith(tuple(disc + ".gz" for disc in DISCS)) else name


class Place(NamedTuple):
    """Where the bytes of a path are: a file, and the member of a .zip."""

    file: str
    member: Optional[str]


def place_in(path: str) -> Place:
    """The file of a path, and the member if the path goes through a .zip."""
    at = path.lower().find(".zip/")
    while at >= 0:
        if os.path.isfile(path[: at + 4]):
            return Place(path[: at + 4], path[at + 5 :])
        at = path.lower().find(".zip/", at + 1)
    return Place(path, None)


def read_disc(path: str, most: int) -> bytes:
    """The bytes of a plain file, of a member of a .zip, or of a disc's .gz; Fault if they cannot be read or are more than `most`."""
    file, member = place_in(path)
    if member is None and bare(path) == path:
        return read_file(path, most, plain=True)
    import zipfile  # it takes a while to load
    try:
        with open_file(file, plain=True) as packed:
            if member is None:
                with gzip.GzipFile(fileobj=packed) as unpacked:
                    data = unpacked.read(most + 1)
            else:
                with zipfile.ZipFile(packed) as archive, archive.open(member) as unpacked:
                    data = unpacked.read(most + 1)
    except (OSError, EOFError, KeyError, ValueError, NotImplementedError, RuntimeError, zipfile.BadZipFile, zlib.error) as error:
        raise Fault("cannot unpack %s: %s" % (told(path), shown(str(error)))) from None
    if len(data) > most:
        raise too_long(told(path), most)
    return data


# The discs inside of a .zip by their names, and what is wrong with it if it cannot be read.
def _members(path: str) -> Tuple[List[str], str]:
    import zipfile
    try:
        with open_file(path, plain=True) as packed, zipfile.ZipFile(packed) as archive:
            names = archive.namelist()
    except (Fault, OSError, ValueError, NotImplementedError, RuntimeError, zipfile.BadZipFile) as error:
        return [], "cannot unpack %s: %s" % (told(path), shown(str(error)))
    if len(names) > MOST_MEMBERS:
        return [], "%s has more than %s files" % (told(path), "{:,}".format(MOST_MEMBERS))
    return sorted({name for name in names if bare(name) == name and is_disc(name)}), ""


class Folder(NamedTuple):
    """A folder of discs.

    path   its path
    begin  with what the names of its runs begin: the folders above it, each with `/`
    names  all that is in it
    discs  the names of discs, through archives, too
    bad    archives that cannot be read, and what is wrong with each
    """

    path: str
    begin: str
    names: Set[str]
    discs: List[str]
    bad: Dict[str, str]


def folders_in(path: str, recursive: bool, notes: List[str], begin: str = "") -> Iterator[Folder]:
    """A folder, and with `recursive` those below it. What is passed over is put into the notes."""
    try:
        with os.scandir(path) as scanned:
            entries = sorted(scanned, key=lambda entry: entry.name)
    except OSError as error:
        raise Fault("cannot read %s: %s" % (path, error.strerror)) from None
    found, others, below = Folder(path, begin, {entry.name for entry in entries}, [], {}), {}, []  # type: ignore[var-annotated]
    for entry in entries:
        if entry.is_dir(follow_symlinks=False) and recursive:
            below.append(entry.name)
        else:
            what = _sort(found, entry)
            if what:
                others.setdefault(what, []).append(begin + entry.name)
    yield found
    for what, them in others.items():
        notes.extend("%s: %s" % (shown(name), what) for name in them[:5])
        if len(them) > 5:
            notes.append("and %d more: %s" % (len(them) - 5, what))
    for name in below:
        yield from folders_in(os.path.join(path, name), recursive, notes, begin + name + "/")


# Puts a file of a folder where it belongs; says what it is if it is passed over and somebody may take it for a disc.
def _sort(found: Folder, entry: "os.DirEntry[str]") -> str:
    name = entry.name
    if entry.is_dir(follow_symlinks=False):
        return "a folder, which --recursive looks into"
    if is_disc(name):
        found.discs.append(name)
    elif name.lower().endswith(".zip"):
        inner, fault = _members(os.path.join(found.path, name))
        if fault:
            found.bad[name] = fault
        elif not inner:
            return "an archive without a disc"
        found.discs.extend(name + "/" + member for member in inner)
    elif name.lower().endswith(OTHERS):
        return "a file that beebtube does not read"
    elif entry.is_dir():
        return "a link to a folder"
    return ""
