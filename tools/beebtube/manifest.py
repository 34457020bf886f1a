"""The text of a run that can be cited: its words, the sums of what it read and of what it wrote, and the program that ran."""
from __future__ import annotations

import os
import re
import shlex
from typing import Dict, Iterable, Iterator, List, Optional, Sequence, Tuple

from .faults import Fault
from .files import OUTPUT_CAP, Sum, is_plain, read_text, sum_of
from .program import Ended, version
from .words import Call

HEAD = "beebtube manifest 1"


def program_lines() -> List[str]:
    """The program that runs here: its sources and the kits that proved it, or the sum of the one that BEEBTUBE names."""
    given = os.environ.get("BEEBTUBE")
    if given:
        return ["program " + sum_of(os.path.realpath(given)).digits]
    told = version()
    return ["kit " + kit for kit in told.kits] + ["sources " + told.sources]


def run_lines(words: Sequence[str], reads: Iterable[Tuple[str, Sum]], ended: Ended, written: Iterable[Tuple[str, Sum]]) -> List[str]:
    """The lines that tell a run: words, files read with their sums, status and texts, files written with their sums."""
    lines = ["words " + shlex.join(words)]
    lines += ["read %s %s" % (found, name) for name, found in reads]
    lines.append("status %d" % ended.status)
    lines += ["said " + line for line in ended.out.decode("utf-8", "replace").splitlines()]
    lines += ["told " + line for line in ended.err.decode("utf-8", "replace").splitlines()]
    return lines + ["wrote %s %s" % (found, name) for name, found in written]


def files_in(lines: Iterable[str]) -> Iterator[Tuple[str, str, str]]:
    """What a manifest says of files: `read` or `wrote`, the name, and the sum with the length."""
    for line in lines:
        match = re.fullmatch(r"(read|wrote) ([0-9a-f]{64} [0-9]{1,12}) (.+)", line)
        if match:
            yield match.group(1), match.group(3), match.group(2)


class Manifest:
    """A manifest: its words, and what it says of each file. Fault where it is none."""

    def __init__(self, name: str, sums: Dict[str, Sum]):
        lines = read_text(name).splitlines()
        if lines[:1] != [HEAD]:
            raise Fault("%s is no manifest" % name)
        self.sums = sums
        self.name, self.lines = name, [line for line in lines[1:] if not line.startswith(("read ", "wrote "))]
        self.files = list(files_in(lines))
        self.call = self._call()

    def _call(self) -> Optional[Call]:
        for line in self.lines:
            if line.startswith("words "):
                try:
                    return Call(shlex.split(line[6:]))
                except (Fault, ValueError):
                    return None
        return None

    def place(self, name: str) -> str:
        """The path of a file that the manifest names: from its own folder on."""
        return os.path.join(os.path.dirname(self.name), name)

    def found(self, name: str, wanted: str) -> str:
        """What stands under a name now, beside what the manifest says."""
        place = self.place(name)
        if not is_plain(place) or os.path.getsize(place) > OUTPUT_CAP:
            return "not here"
        found = self.sums.get(place) or sum_of(place)
        return "the same here" if str(found) == wanted else "another here"

    def of_option(self, option: str) -> Optional[str]:
        """The path of the file that an option named, which the run read or wrote, where it is here with the manifest's sum; else None."""
        name = self.call.options.get(option) if self.call is not None else None
        for _, named, wanted in self.files:
            if named == name and self.found(named, wanted) == "the same here":
                return self.place(named)
        return None
