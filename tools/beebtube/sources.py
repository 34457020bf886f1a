"""The functions of a program, and which of its source lines have instructions: what coverage and
profiles need beside the lines that `source` reads.

A file of sources is ld65's `--dbgfile`, a source of this product's assembler, or labels of ld65
(`-Ln`), BeebAsm (`-d`) or tools/labels. Labels alone are each a line of their own file.
"""
from __future__ import annotations

import bisect
import os
import re
from typing import Dict, Iterable, List, NamedTuple, Optional, Set

from . import naming
from .faults import Fault, Refused
from .files import SOURCE_CAP, Name, read_file, read_text
from .program import Program
from .source import Source

LABELS = re.compile(rb"\s*(?:al [0-9A-Fa-f]{6} \.|[0-9A-F]{4} \S+\s*\n|.*\[\{')")
# A line of an assembler's source that has an instruction, or calls a macro of such a name.
INSTRUCTION = re.compile(r"\s*(?:@?\w*:)?\s*(?!org\b)[A-Za-z]{3}[0-7]?\b(?!\s*[:=])")
# Labels that cc65 and ld65 make for themselves.
INNER = re.compile(r"L[0-9A-F]{4}$|_*[A-Z]+_*$")
C_ENDINGS = (".c", ".h")
NEAR = 256  # so many bytes after a label are its own, if no other label is there


class Function(NamedTuple):
    """A function: its addresses from `begin` up to below `end`, and the line in which it begins."""

    begin: int
    end: int
    name: str
    file: str
    line: int


class Sources:
    """What is known of the addresses of one machine.

    lines      the file and the line of an address
    code       the lines of each file that have instructions
    labels     the name of each address that has one
    functions  those that `find_functions` made, by their addresses
    """

    def __init__(self, program: Program, names: Iterable[Name]):
        """Those of all files; Fault if one has no form that is known."""
        source, labels = Source(), []
        for name in [os.fspath(it) for it in names]:
            data = read_file(name, SOURCE_CAP * 4)
            try:
                if data.startswith(b"version\tmajor="):
                    source.add_ld65(name, _folder_of(name, data))
                elif LABELS.match(data):
                    labels.append(name)
                else:
                    source.add_asm(program, "65c02", name)
            except Refused as refused:
                raise Fault(f"{name}: {refused.text}") from None
        self._scopes = [(it.begin, it.end, it.name) for it in source.functions]
        self.lines = {at: (_shown(file), line) for at, (file, line) in source.lines.items()}
        self.labels = {at: label for label, at in source.symbols.items() if not INNER.match(label)}
        has_lines = bool(self.lines)
        for name in labels:
            self._add_labels(name, has_lines)
        self.code: Dict[str, Set[int]] = {}
        for file in {file for file, _ in self.lines.values()}:
            numbers = {line for it, line in self.lines.values() if it == file}
            self.code[file] = numbers if file in labels else _with_instructions(file, numbers)
        self.functions: List[Function] = []
        self._begins: List[int] = []

    # Beside other files they are names alone.
    def _add_labels(self, name: str, has_lines: bool) -> None:
        text = read_text(name, SOURCE_CAP * 4)
        at_line: Dict[str, int] = {}
        for number, row in enumerate(text.splitlines(), 1):
            match = naming.LD65.fullmatch(row.strip()) or naming.PLAIN.fullmatch(row.strip())
            if match:
                at_line.setdefault(match.group(2), number)
        known = [(at, label) for at, label in naming.parse(text, name) if not INNER.match(label)]
        for (address, label), (following, _) in zip(known, known[1:] + [(65536, "")]):
            self.labels.setdefault(address, label)
            for at in range(address, address if has_lines else min(following, address + NEAR)):
                self.lines[at] = (name, at_line.get(label, 1))

    def find_functions(self, called: Iterable[int]) -> None:
        """Makes `functions`: functions of C and scopes of ca65, and outside of them what is called,
        by its label or its address. A label that nothing calls is a place in its function."""
        outer = [it for it in self._scopes if not any(
            it is not other and other[0] <= it[0] and it[1] <= other[1] for other in self._scopes)]
        begins = sorted(it[0] for it in outer)
        ends = {it[0]: it[1] for it in outer}

        def is_inside(address: int) -> bool:
            place = bisect.bisect_right(begins, address) - 1
            return place >= 0 and address < ends[begins[place]]

        wanted = {at for at in {*called, *self._first_labels()} if not is_inside(at)}
        bounds = sorted(wanted | set(begins) | self._gaps() | {65536})
        made = [(at, bounds[bisect.bisect_right(bounds, at)], self.labels.get(at, f"{at:04X}"))
                for at in wanted]
        self.functions = sorted(Function(*it, *self.lines.get(it[0], ("", 0))) for it in outer + made)
        self._begins = [it.begin for it in self.functions]

    def function_at(self, address: int) -> Optional[Function]:
        """The function in which an address lies."""
        place = bisect.bisect_right(self._begins, address) - 1
        if place < 0 or address >= self.functions[place].end:
            return None
        return self.functions[place]

    def is_code(self, address: int) -> bool:
        """The address is of a line with an instruction, or nothing is known of it."""
        file, line = self.lines.get(address, ("", 0))
        return not file or line in self.code.get(file, ())

    # Where the lines of a file end, and those of another or of none follow.
    def _gaps(self) -> Set[int]:
        return {at + 1 for at, (file, _) in self.lines.items()
                if self.lines.get(at + 1, ("", 0))[0] != file}

    def _first_labels(self) -> Set[int]:
        return {at for at in self.labels if at in self.lines and self.is_code(at) and
                self.lines.get(at - 1, ("", 0))[0] != self.lines[at][0]}


# The names in ld65's file are relative to the folder in which it was called: this one, or its own.
def _folder_of(name: str, data: bytes) -> str:
    named = re.findall(rb'(?m)^file\t.*?name="([^"]*\.(?:c|s|asm))"', data)
    here = sum(os.path.exists(os.fsdecode(it)) for it in named)
    folder = os.path.dirname(name)
    return folder if sum(os.path.exists(os.path.join(folder, os.fsdecode(it))) for it in named) > here else ""


# A name from the working folder on, if the file is there or below.
def _shown(file: str) -> str:
    near = os.path.relpath(file)
    return file if near.startswith("..") else near


def _with_instructions(file: str, numbers: Set[int]) -> Set[int]:
    if file.endswith(C_ENDINGS):
        return numbers
    try:
        rows = read_text(file, SOURCE_CAP).splitlines()
    except (Fault, OSError):
        return numbers
    return {it for it in numbers if it <= len(rows) and INSTRUCTION.match(rows[it - 1])}


__all__ = ["Function", "Sources"]
