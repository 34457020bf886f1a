"""Coverage of source lines, as lcov has it.

The hits of a line are the most starts that any of its instructions has; a conditional branch is a block of two ways, the one
if its condition holds and the other; the hits of a function are the starts at its first address.
"""
from __future__ import annotations

import os
from typing import Dict, Iterable, Iterator, List, Set, Tuple

from .counting import CONDITIONAL, Count, Counting, length_of
from .faults import Fault
from .sources import Sources


class Cover:
    """What was carried out of each source file, by one machine or more.

    lines      hits of each line that has instructions
    functions  hits of each function, by its line and name
    branches   of each line, how often each of its branches was met and how often its condition held
    """

    def __init__(self) -> None:
        self.lines: Dict[str, Dict[int, int]] = {}
        self.functions: Dict[str, Dict[Tuple[int, str], int]] = {}
        self.branches: Dict[str, Dict[int, List[Tuple[int, int]]]] = {}

    def add(self, sources: Sources, counting: Counting) -> None:
        """Adds a machine's counts."""
        counts = counting.counts()
        starts = set(_starts_of(sources, counting)) | counts.keys()
        sources.find_functions(called_at(sources, counting, starts))
        for file, numbers in sources.code.items():
            of_file = self.lines.setdefault(file, {})
            for number in numbers:
                of_file.setdefault(number, 0)
        hits: Dict[Tuple[str, int], int] = {}
        for address in sorted(starts):
            if address not in sources.lines:
                continue
            file, line = sources.lines[address]
            count = counts.get(address, Count(0, 0, 0))
            hits[file, line] = max(hits.get((file, line), 0), count.starts)
            if any(word[0] in CONDITIONAL for word in counting.instructions(address)):
                self.branches.setdefault(file, {}).setdefault(line, []).append((count.starts, count.held))
        for (file, line), number in hits.items():
            of_file = self.lines.setdefault(file, {})
            of_file[line] = of_file.get(line, 0) + number
        for function in sources.functions:
            if function.file:
                of_names = self.functions.setdefault(function.file, {})
                key = (function.line, function.name)
                of_names[key] = of_names.get(key, 0) + counts.get(function.begin, Count(0, 0, 0)).starts

    def missing(self) -> List[str]:
        """The source files that are not there."""
        return sorted(file for file in self.lines if not os.path.exists(file))

    def info(self) -> str:
        """The text of a file of lcov, of the source files that are there."""
        return "".join(row + "\n" for file in sorted(self.lines) if os.path.exists(file) for row in self._rows(file))

    def _rows(self, file: str) -> Iterator[str]:
        if "\n" in file or "\r" in file:
            raise Fault("a source file's name has a line feed: lcov has no form for it")
        lines, functions = self.lines[file], sorted(self.functions.get(file, {}).items())
        yield "TN:"
        yield f"SF:{os.path.abspath(file)}"
        yield from (f"FN:{line},{name}" for (line, name), _ in functions)
        yield from (f"FNDA:{hits},{name}" for (_, name), hits in functions)
        yield f"FNF:{len(functions)}"
        yield f"FNH:{sum(hits > 0 for _, hits in functions)}"
        ways = []
        for line, branches in sorted(self.branches.get(file, {}).items()):
            for block, (met, held) in enumerate(branches):
                for way, taken in enumerate((held, met - held)):
                    ways.append(taken if met else 0)
                    yield f"BRDA:{line},{block},{way},{taken if met else '-'}"
        yield f"BRF:{len(ways)}"
        yield f"BRH:{sum(taken > 0 for taken in ways)}"
        yield from (f"DA:{line},{hits}" for line, hits in sorted(lines.items()))
        yield f"LF:{len(lines)}"
        yield f"LH:{sum(hits > 0 for hits in lines.values())}"
        yield "end_of_record"


def called_at(sources: Sources, counting: Counting, starts: Iterable[int]) -> Set[int]:
    """Where functions begin, by the instructions at these addresses: what a JSR calls, where interrupts
    go, and each label after an RTS, RTI or JMP to which no branch and no JMP before it goes."""
    called, jumped, after = counting.vectors(), set(), set()
    for address in starts:
        for word in counting.instructions(address):
            opcode, target = word[0], int.from_bytes(word[1:], "little")
            if opcode == 0x20:
                called.add(target)
            elif opcode in CONDITIONAL or opcode == 0x80:
                target = address + 2 + (word[1] ^ 0x80) - 0x80
            elif opcode in (0x40, 0x4C, 0x60, 0x6C, 0x7C):
                after.add(address + length_of(opcode))
            if (opcode in CONDITIONAL or opcode in (0x80, 0x4C)) and address < target:
                jumped.add(target)
    return called | {at for at in after - jumped if at in sources.labels and sources.is_code(at)}


# Where instructions begin by the lines: each line's first address, and from there on by the lengths.
def _starts_of(sources: Sources, counting: Counting) -> Iterator[int]:
    following = -1
    for address, (file, line) in sorted(sources.lines.items()):
        is_first = sources.lines.get(address - 1) != (file, line)
        if line in sources.code.get(file, ()) and (is_first or address == following):
            yield address
            following = address + max((length_of(word[0]) for word in counting.instructions(address)), default=1)


__all__ = ["Cover", "called_at"]
