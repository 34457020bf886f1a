"""Which line of which source an address belongs to, and the functions and variables of C."""
from __future__ import annotations

import bisect
import os
import re
from typing import Dict, List, NamedTuple, Optional, Tuple

from .faults import Fault
from .files import SOURCE_CAP, Name, read_file, read_text
from .labels import Labels
from .program import Part, Program

FIELD = re.compile(r'(\w+)=("[^"]*"|[^,]*)')
STATEMENT = re.compile(r"\s*(?:([A-Za-z_][A-Za-z0-9_]*)\s*:)?\s*([^;\s][^;]*)?(?:;.*)?$")
PUSHES = {"pushax": 2, "pusha": 1, "pusheax": 4, "pusha0": 2}
Line = Tuple[str, int]
Row = Dict[str, str]


class Function(NamedTuple):
    """A function of C: its addresses, from the first up to below `end`, and its variables by
    their offsets from the stack of C at its beginning."""

    begin: int
    end: int
    name: str
    variables: Tuple[Tuple[int, str], ...]


class Source:
    """The lines of sources.

    lines      the file and the line of an address
    functions  those of C, by rising addresses
    symbols    the addresses of variables and functions, by their names in the source
    """

    def __init__(self) -> None:
        self.lines: Dict[int, Line] = {}
        self.functions: List[Function] = []
        self.symbols: Dict[str, int] = {}

    def add_ld65(self, name: Name, folder: Name = ".") -> None:
        """The lines of a file of ld65's `--dbgfile`; its sources are found from a folder. Lines
        of C go before those of the assembler source that the compiler made."""
        rows: Dict[str, Dict[int, Row]] = {}
        for text in read_text(name, SOURCE_CAP * 4).splitlines():
            kind, _, rest = text.partition("\t")
            row = {key: value.strip('"') for key, value in FIELD.findall(rest)}
            if "id" in row:
                rows.setdefault(kind, {})[int(row["id"])] = row
        if "line" not in rows or "span" not in rows:
            raise Fault(f"{os.fspath(name)}: not a debug file of ld65")
        try:
            self._add(rows, os.fspath(folder))
        except (KeyError, ValueError):
            raise Fault(f"{os.fspath(name)}: a row of the debug file lacks a field") from None

    def _add(self, rows: Dict[str, Dict[int, Row]], folder: str) -> None:
        def span(number: str) -> Tuple[int, int]:
            row = rows["span"][int(number)]
            begin = int(rows["seg"][int(row["seg"])]["start"], 0) + int(row["start"])
            return begin, begin + int(row["size"])
        files = {at: os.path.normpath(os.path.join(folder, row["name"]))
                 for at, row in rows["file"].items()}
        # What the compiler wrote for the assembler says nothing more than the lines of C.
        from_c = {module for row in rows["line"].values() if row.get("type") == "1"
                  for module in rows["file"][int(row["file"])]["mod"].split("+")}
        written = {row["file"] for number, row in rows.get("mod", {}).items()
                   if str(number) in from_c}
        sizes: Dict[int, int] = {}
        for kind in ("0", "1"):  # assembler first, and C over it; the shortest span counts
            for row in rows["line"].values():
                if "span" not in row or row.get("type", "0") != kind or row["file"] in written:
                    continue
                for begin, end in map(span, row["span"].split("+")):
                    for at in range(begin, end):
                        if kind == "0" or end - begin < sizes.get(at, 65536):
                            self.lines[at] = (files[int(row["file"])], int(row["line"]))
                            sizes[at] = end - begin if kind == "1" else 65536
        symbols = rows.get("csym", {}).values()
        for number, row in rows.get("scope", {}).items():
            if row.get("type") == "scope" and "span" in row:
                begin, end = span(row["span"].split("+")[0])
                own = sorted((int(it.get("offs", 0)), it["name"]) for it in symbols
                             if it["sc"] == "auto" and int(it["scope"]) == number)
                self.functions.append(Function(begin, end, row["name"].lstrip("_"), tuple(own)))
        self.functions.sort()
        for row in rows.get("sym", {}).values():
            if row.get("type") == "lab" and "val" in row and "parent" not in row:
                at = int(row["val"], 0)
                if at < 65536:
                    self.symbols[row["name"].lstrip("_")] = at

    def add_asm(self, program: Program, part: Part, name: Name) -> None:
        """The lines of a source of `beebtube asm`: each statement gets a label, and the program
        itself says where they are."""
        text, numbers = [], []
        source = read_file(name, SOURCE_CAP).decode("latin-1")
        for number, line in enumerate(source.split("\n"), 1):
            match = STATEMENT.fullmatch(line)
            if match and match.group(2) and not match.group(2).lower().startswith("org"):
                numbers.append(number)
                if match.group(1):
                    text.append(f"{match.group(1)}:")
                line = f"line__{number}: {match.group(2)}"
            text.append(line)
        labels = Labels.of_source(program, part, "\n".join(text).encode("latin-1"))
        places = sorted((labels[f"line__{number}"], number) for number in numbers)
        for (at, number), (after, _) in zip(places, places[1:] + [(65536, 0)]):
            for address in range(at, min(after, at + 3)):
                self.lines[address] = (os.path.abspath(name), number)
        for label, at in zip(labels.addresses, labels.addresses.values()):
            if not label.startswith("line__"):
                self.symbols.setdefault(label, at)

    def function_at(self, address: int) -> Optional[Function]:
        """The function of C that an address is in."""
        place = bisect.bisect_right([it.begin for it in self.functions], address) - 1
        found = self.functions[place] if place >= 0 else None
        return found if found is not None and address < found.end else None

    def places(self, name: str, line: int) -> List[int]:
        """The first addresses of a line, or of the next line that has any: one of each run of
        addresses."""
        name = os.path.realpath(name)
        own: Dict[int, List[int]] = {}
        for at, (file, number) in self.lines.items():
            if number >= line and os.path.realpath(file) == name:
                own.setdefault(number, []).append(at)
        if not own:
            return []
        found = sorted(own[min(own)])
        return [at for at in found if at - 1 not in found]

    def line_of(self, address: int) -> Optional[Line]:
        """The line of an address."""
        return self.lines.get(address)
