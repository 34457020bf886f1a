"""What is on many discs: the catalogues of a folder as a table or as JSON, and all files of a disc in a folder."""
from __future__ import annotations

import csv
import io
import json
import os
from typing import Any, Dict, Iterable, Iterator, List, NamedTuple, Tuple

from .archives import folders_in, read_disc
from .disc import BOOTS, NO_CATALOGUE, Catalogue, Disc, File, file_name, is_double, shown_address, text_of_inf
from .faults import Fault
from .files import IMAGE_CAP, Sum, inside, make_folder, make_new_folder, write_beside
from .table import cell_text
from .words import shown, told

COLUMNS = ("disc", "form", "same_as", "side", "title", "cycle", "sectors", "boot", "file", "locked", "load", "start", "length", "sector", "lacking", "sum")


class Contents(NamedTuple):
    """What is on a disc.

    name     its name, from the folder on
    form     ssd or dsd; `sequential` is a dsd whose second side seems to stand behind the first
    sum      its checksum
    same_as  the first disc of the same bytes; nothing if it is the first
    sides    by the number of each side its catalogue
    """

    name: str
    form: str
    sum: str
    same_as: str
    sides: Dict[int, Catalogue]


def contents_of(names: Iterable[Tuple[str, str]], faults: List[str]) -> Iterator[Contents]:
    """The contents of discs, each told by its name and its path; what is wrong is put into the faults."""
    known: Dict[str, str] = {}
    for name, path in names:
        try:
            image = read_disc(path, IMAGE_CAP)
        except Fault as fault:
            faults.append(str(fault))
            continue
        disc, digits = Disc(image, is_double(path)), Sum([image]).digits
        sides = disc.catalogues()
        if 0 not in sides:
            faults.append(f"{shown(name)}: {NO_CATALOGUE}")
        faults.extend("%s ends before %s" % (shown(name), file.whole_name) for catalogue in sides.values() for file in catalogue.files if catalogue.lacking(file))
        if disc.is_sequential:
            faults.append("%s: its second side seems to follow the whole first side: beebtube reads a DSD track by track, both sides in turn" % shown(name))
        form = "sequential" if disc.is_sequential else "dsd" if disc.double else "ssd"
        yield Contents(name, form, digits, "" if known.setdefault(digits, name) == name else known[digits], sides)


def discs_of(path: str, recursive: bool, notes: List[str], faults: List[str]) -> Iterator[Tuple[str, str]]:
    """The names and paths of the discs of a folder, or of one disc."""
    if not os.path.isdir(path):
        yield os.path.basename(path), path
        return
    for folder in folders_in(path, recursive, notes):
        faults.extend(folder.bad.values())
        for name in sorted(folder.discs):
            yield folder.begin + name, os.path.join(folder.path, name)


def _sum(catalogue: Catalogue, file: File) -> str:
    return "" if catalogue.lacking(file) else Sum([catalogue.bytes_of(file)]).digits


def _of_disc(it: Contents) -> Dict[str, Any]:
    sides = [{"side": side, "title": catalogue.title, "cycle": "%02X" % catalogue.cycle, "sectors": catalogue.sectors, "boot": BOOTS[catalogue.option],
              "files": [_of_file(catalogue, file) for file in catalogue.files]} for side, catalogue in it.sides.items()]
    return {"disc": told(it.name), "form": it.form, "sum": it.sum, "same_as": told(it.same_as), "sides": sides}


def _of_file(catalogue: Catalogue, file: File) -> Dict[str, Any]:
    return {"file": file.whole_name, "locked": file.locked, "load": shown_address(file.load), "start": shown_address(file.start), "length": file.length,
            "sector": file.sector, "lacking": catalogue.lacking(file), "sum": _sum(catalogue, file)}


def as_json(found: Iterable[Contents]) -> Iterator[str]:
    """The contents as a list of JSON, piece by piece."""
    begin = "[\n"
    for it in found:
        yield begin + json.dumps(_of_disc(it))
        begin = ",\n"
    yield ("[" if begin == "[\n" else "\n") + "]\n"


def as_csv(found: Iterable[Contents]) -> Iterator[str]:
    """The contents as a table, a row for each file, and one for each side without a file or without a catalogue."""
    yield ",".join(COLUMNS) + "\n"
    for it in found:
        disc = _of_disc(it)
        for side in disc.pop("sides") or [{"files": []}]:
            for file in side.pop("files") or [{}]:
                text = io.StringIO(newline="")
                row = {**disc, "sum": "", **side, **file}
                csv.writer(text, lineterminator="\n").writerow(cell_text(_word(row.get(column, ""))) for column in COLUMNS)
                yield text.getvalue()


def _word(value: Any) -> str:
    return ("L" if value else "") if isinstance(value, bool) else str(value)


# --- All files of a disc ---


def extract(disc: Disc, folder: str, faults: List[str]) -> int:
    """Writes all files of a disc into a new folder, each with an .inf beside it; of a DSD into `0` and `1` below it. How many there were;
    what is wrong is put into the faults."""
    make_new_folder(folder, "files of a disc come into")
    count, catalogues = 0, disc.catalogues()
    for side in range(1 + disc.double):
        if disc.double:
            make_folder(os.path.join(folder, str(side)))
        if side not in catalogues:
            faults.append(f"side {side}: {NO_CATALOGUE}")
            continue
        catalogue, taken = catalogues[side], {}  # type: Catalogue, Dict[str, int]
        for file in catalogue.files:
            lacking, name = catalogue.lacking(file), file_name(file)
            taken[name] = taken.get(name, 0) + 1
            if lacking:
                faults.append("the image ends before %s: %d of its %d bytes are past the end" % (file.whole_name, lacking, file.length))
                continue
            place = inside(os.path.join(folder, str(side)) if disc.double else folder, name if taken[name] == 1 else "%s%%%d" % (name, taken[name]))
            write_beside(place, catalogue.bytes_of(file), follow=False)
            write_beside(place + ".inf", text_of_inf(file), follow=False)
            count += 1
    return count
