"""Names of addresses: labels as assemblers write them, and listings with them.

A file of labels has one of three forms:

  al 00C000 .start              ld65 with `-Ln`, and `tools/labels`
  [{'start':49152L,'loop':..}]  BeebAsm with `-d`, the line by itself or among what else it prints
  C000 start                    plain: four upper-case hexadecimal digits and a name
"""
from __future__ import annotations

import itertools
import re
import sys
from typing import Dict, Iterator, List, Optional

from .command import Usage
from .faults import Fault
from .files import Name, lines_of, read_text
from .labels import Labels
from .program import Part, Program

LD65 = re.compile(r"al ([0-9A-Fa-f]{6}) \.([^\s]+)")
PLAIN = re.compile(r"([0-9A-F]{4}) ([^\s]+)")
# A dump of BeebAsm's; a number that is no whole one is no address.
DUMP = re.compile(r"^[ \t]*\[\{(.*)\}\][ \t\r]*$", re.M)
DUMPED = re.compile(r"(?:\s*'[^']+'\s*:\s*[-+.0-9Ee]+L?\s*(?:,|$))*")
BEEBASM = re.compile(r"'\.?([^']+)'\s*:\s*(-?[0-9]+)L?\s*(?:,|$)")
LISTED = re.compile(r"[0-9A-F]{10} ([0-9A-F]{4}) A=.. X=.. Y=.. S=.. P=.. \S+(?: .*)?")
SOURCE = re.compile(r"[A-Z]{3}[0-7]?(?: [^;]{1,20})?|byte &[0-9A-F]{2}(?:,&[0-9A-F]{2})*", re.I)
# Words of the assembler, which are no labels.
RESERVED = ("A", "X", "Y", "ORG", "BYTE", "WORD")
TEXT = 41  # where the text of an instruction begins in a line of a listing
ADDRESS = re.compile(r"&([0-9A-F]{4})")


def parse(text: str, name: str = "the labels") -> Labels:
    """The labels of a text in any of the three forms; Fault where it has none of them. What is no address of 16 bits is left aside,
    such as constants below zero."""
    found: Dict[str, int] = {}
    dump = DUMP.search(text)
    if dump:
        if not DUMPED.fullmatch(dump.group(1)):
            raise Fault("%s: a dump of BeebAsm is [{'start':49152L,'loop':49154L}]" % name)
        for label, number in BEEBASM.findall(dump.group(1)):
            if not label.isprintable():
                raise Fault("%s: a label has a letter that cannot be printed" % name)
            if 0 <= int(number) < 65536:
                found.setdefault(label, int(number))
        return Labels(found)
    for number, line in enumerate(text.splitlines(), 1):
        match = LD65.fullmatch(line.strip()) or PLAIN.fullmatch(line.strip())
        if match and not line.strip().isprintable():
            raise Fault("%s, line %d: a label has a letter that cannot be printed" % (name, number))
        if match and int(match.group(1), 16) < 65536:
            found.setdefault(match.group(2), int(match.group(1), 16))
        elif line.strip() and not match:
            raise Fault("%s, line %d: labels are `al 00C000 .start` of ld65, the dump of BeebAsm, or `C000 start`" % (name, number))
    return Labels(found)


def read(name: Name) -> Labels:
    """The labels of a file."""
    return parse(read_text(name), str(name))


def ld65_of(labels: Labels) -> str:
    """The labels in the form of ld65's `-Ln`."""
    return "".join("al %06X .%s\n" % (address, name) for address, name in labels if address < 65536)


def length_of(text: str) -> int:
    """How many bytes an instruction's text has."""
    word, _, operand = text.strip().partition(" ")
    if word.lower() == "byte":
        return operand.count(",") + 1
    if not operand or operand == "A":
        return 1
    if re.fullmatch(r"B(?!IT)[A-Z]{2}", word) or operand.startswith("#"):
        return 2
    return 3 if re.search(r"&[0-9A-F]{4}", operand) else 2


class Names:
    """Names for the addresses of one side: the labels of all files that were given for it."""

    def __init__(self, given: Optional[List[Labels]] = None):
        merged: Dict[str, int] = {}
        for labels in given or []:
            merged.update(labels.addresses)
        self.labels = Labels(merged)

    def of(self, address: int, most: int = 255) -> str:
        """The name of an address, `loop` or `loop+3`; nothing where no label is near before it."""
        near = self.labels.near(address, most)
        if near is None:
            return ""
        return near[0] + ("+%d" % near[1] if near[1] else "")

    def text(self, text: str) -> str:
        """An instruction's text, with the names of the addresses that have one behind it."""
        match = ADDRESS.search(text)
        exact = self.labels.names_at(int(match.group(1), 16)) if match else []
        return text.replace("&" + match.group(1), exact[0], 1) if match and exact else text

    def address(self, word: str) -> Optional[int]:
        """The address of a label, or of a label and a number, `loop+3`; None where there is no such label."""
        name, _, more = word.partition("+")
        if name in self.labels.addresses and (not more or more.isdigit()):
            return self.labels.addresses[name] + int(more or 0)
        return None


def named(lines: Iterator[str], names: Names) -> Iterator[str]:
    """The lines of a listing with names: the address' own behind each line, and those of operands in their place. A text of `dis`
    stays a source: a label stands before the instruction at its address, and in place of an operand where it does."""
    first = next(lines, None)
    if first is None:
        return
    if first.startswith("org "):
        yield from _named_source([first.rstrip("\n")] + [line.rstrip("\n") for line in lines], names)
        return
    for number, line in enumerate(itertools.chain([first], lines), 1):
        line = line.rstrip("\n")
        match = LISTED.fullmatch(line)
        if not match or not line.isprintable():
            raise Fault("line %d is no line of a listing" % number)
        at = names.of(int(match.group(1), 16))
        line = line[:TEXT] + names.text(line[TEXT:])
        yield "%-60s; %s" % (line, at) if at else line


# A label that the assembler takes: another one is told in a comment.
TAKEN = re.compile(r"[A-Za-z_][A-Za-z0-9_]*")


def _named_source(lines: List[str], names: Names) -> Iterator[str]:
    match = re.fullmatch(r"org &([0-9A-F]{4})", lines[0])
    if not match:
        raise Fault("line 1 is no `org` of a text of `dis`")
    address, places = int(match.group(1), 16), []
    for number, line in enumerate(lines[1:], 2):
        if not SOURCE.fullmatch(line) or not line.isprintable():
            raise Fault("line %d is no line of a text of `dis`" % number)
        places.append(address)
        address += length_of(line)
    standing: Dict[int, str] = {}
    for place in places:
        fine = [name for name in names.labels.names_at(place) if TAKEN.fullmatch(name) and name.upper() not in RESERVED]
        if fine:
            standing[place] = fine[0]
    yield lines[0]
    for place, line in zip(places, lines[1:]):
        others = [name for name in names.labels.names_at(place) if name != standing.get(place)]
        match = ADDRESS.search(line)
        target = int(match.group(1), 16) if match else -1
        if match and target in standing:
            line = line.replace("&" + match.group(1), standing[target], 1)
        elif match:
            others += names.labels.names_at(target)[:1]
        line = "%s: %s" % (standing[place], line) if place in standing else line
        yield "%-40s; %s" % (line, " ".join(others)) if others else line


def labels(words: List[str]) -> None:
    """tools/labels."""
    if len(words) == 3 and words[0] == "--in":
        names = Names([read(words[1])])
        for line in named((line.decode("latin-1") for line in lines_of(words[2])), names):
            print(line)
    elif len(words) == 2 and not words[0].startswith("-") and words[1] in ("6502", "65c02"):
        part: Part = "6502" if words[1] == "6502" else "65c02"
        sys.stdout.write(ld65_of(Program().labels_of(part, words[0])))
    else:
        raise Usage("the arguments are a source and 6502 or 65c02, or --in, labels and a listing")
