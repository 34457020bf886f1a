"""A listing of `follow` beside what MAME's debugger wrote of the same program with its command `trace`, of the host
(`trace FILE,maincpu`) or of the second processor (`trace FILE,:tube:6502:maincpu`).

A line of MAME's is `C000: ldx #$ff`, with what `tracelog` printed in front of it or on lines of its own; registers are taken from there
in the form `A=00 X=FF Y=00 S=1FF P=34`. Without `noloop` it leaves out instructions of a loop, and prints how many:

   (loops for 6666 instructions)

Both are laid side by side by the addresses of the instructions. Their texts and times are not compared.
"""
from __future__ import annotations

import collections
import re
from typing import Deque, Dict, List, NamedTuple, Optional, Sequence, Tuple

from .faults import Fault
from .files import Name, lines_of
from .words import printable

AT = re.compile(rb"\b([0-9A-Fa-f]{4}): \S")
LOOPS = re.compile(rb"\(loops for ([0-9]{1,12}) instructions\)")
INTERRUPTED = re.compile(rb"\(interrupted at [0-9A-Fa-f]+, IRQ -?[0-9]+\)")
REGISTER = re.compile(rb"\b(A|X|Y|SP|S|P)=([0-9A-Fa-f]{1,4})\b")
LISTED = re.compile(rb"[0-9A-F]{10} ([0-9A-F]{4}) A=[0-9A-F]{2} X=[0-9A-F]{2} Y=[0-9A-F]{2} S=[0-9A-F]{2} P=[0-9A-F]{2} .*")
BEFORE, BEHIND = 5, 3  # instructions that are shown before the first that differs, and from it on
WINDOW = 32  # so many addresses have to be the same where one of both begins later
HISTORY = 64  # a loop of MAME's is among so many addresses
NAMES = ("A", "X", "Y", "S", "P")


class Step(NamedTuple):
    """An instruction: its address, its line and what was logged before it, and how many are left out after it."""

    pc: int
    line: bytes
    left_out: int = 0


def _shown(line: bytes) -> str:
    return printable(line.decode("latin-1").strip()[:100])


def _registers_in(text: bytes) -> Dict[str, int]:
    found = {}
    for name, value in REGISTER.findall(text):
        key = "S" if name == b"SP" else name.decode()
        # Bits 4 and 5 of the flags are none of the processor's.
        found[key] = int(value, 16) & (0xCF if key == "P" else 0xFF)
    return found


def steps_of_mame(name: Name) -> List[Step]:
    """What MAME's debugger traced; Fault at a line that is none of a trace."""
    steps: List[Step] = []
    logged = b""
    for number, line in enumerate(lines_of(name), 1):
        match = AT.search(line)
        if match:
            steps.append(Step(int(match.group(1), 16), logged + line))
            logged = b""
            continue
        loops = LOOPS.fullmatch(line.strip())
        if loops:
            if not steps:
                raise Fault("%s, line %d: a loop before the first instruction" % (name, number))
            steps[-1] = steps[-1]._replace(left_out=steps[-1].left_out + int(loops.group(1)))
        elif REGISTER.search(line):
            logged += line + b" "
        elif line.strip() and not INTERRUPTED.fullmatch(line.strip()):
            raise Fault("%s, line %d is no line of a trace of MAME's debugger, as `C000: ldx #$ff`: %s" % (name, number, _shown(line)[:60]))
    if not steps:
        raise Fault("%s has no instruction" % name)
    return steps


def steps_listed(name: Name) -> List[Step]:
    """What `follow` listed."""
    steps = []
    for number, line in enumerate(lines_of(name), 1):
        match = LISTED.fullmatch(line)
        if not match:
            raise Fault("%s, line %d is no line of a listing of `follow`" % (name, number))
        steps.append(Step(int(match.group(1), 16), line))
    if not steps:
        raise Fault("%s has no instruction" % name)
    return steps


def _is_same(one: Step, other: Step, with_registers: bool) -> bool:
    if one.pc != other.pc:
        return False
    if not with_registers:
        return True
    first, second = _registers_in(one.line), _registers_in(other.line)
    return all(first.get(name, value) == value for name, value in second.items())


def _meeting(one: Sequence[Step], other: Sequence[Step]) -> Optional[Tuple[int, int]]:
    """Where both begin to be the same: at the beginning of one of them, with the same registers if there is such a place."""
    if one[0].pc == other[0].pc and (len(one) < 2 or len(other) < 2 or one[1].pc == other[1].pc):
        if _is_same(one[0], other[0], True) or one[0].pc not in [step.pc for step in one[1:WINDOW]]:
            return 0, 0
    window = min(WINDOW, len(one), len(other))
    for with_registers in (True, False):
        for first, second, is_turned in ((one, other, False), (other, one, True)):
            for place in range(len(first) - window + 1):
                if first[place].pc == second[0].pc and all(_is_same(first[place + at], second[at], with_registers) for at in range(window)):
                    return (0, place) if is_turned else (place, 0)
    return None


def compare(listing: Name, trace: Name) -> Tuple[int, List[str]]:
    """The status, 0 where one is the same as the other to the end of the shorter, else 1; and what is to be said."""
    ours, theirs = steps_listed(listing), steps_of_mame(trace)
    met = _meeting(ours, theirs)
    if met is None:
        return 1, ["the addresses of the first %d instructions of neither are in the other" % min(WINDOW, len(ours), len(theirs))]
    here, there = met
    said = ["from instruction %s of the listing, %s of the trace" % ("{:,}".format(here + 1), "{:,}".format(there + 1))] if here or there else []
    history: Deque[int] = collections.deque(maxlen=HISTORY)
    same, differing = 0, None  # type: int, Optional[Dict[str, bool]]
    while here < len(ours) and there < len(theirs):
        one, other = ours[here], theirs[there]
        if one.pc != other.pc:
            return 1, said + _parted(ours, theirs, here, there, same, "another instruction")
        registers, told = _registers_in(one.line), _registers_in(other.line)
        others = {name: registers[name] != value for name, value in told.items()}
        if differing is None:
            unset = [name for name, is_other in others.items() if is_other]
            if unset:
                said.append("at the beginning: " + ", ".join("%s %02X | %02X" % (name, registers[name], told[name]) for name in unset))
        else:
            new = [name for name, is_other in others.items() if is_other and not differing.get(name, False)]
            if new:
                what = ", ".join("%s %02X | %02X" % (name, registers[name], told[name]) for name in new)
                return 1, said + _parted(ours, theirs, here, there, same, "other registers: " + what)
        differing = others
        same += 1
        history.append(one.pc)
        here += 1
        left_out = min(other.left_out, len(ours) - here)
        inside = next((number for number in range(left_out) if ours[here + number].pc not in history), left_out)
        if inside < left_out:
            return 1, said + _parted(ours, theirs, here + inside, there + 1, same + inside, "MAME is in a loop for %d more" % (other.left_out - inside))
        here, there, same = here + left_out, there + 1, same + left_out
        if other.left_out:
            differing = dict.fromkeys(NAMES, True)
    ends = "both end" if here >= len(ours) and there >= len(theirs) else "the listing ends" if here >= len(ours) else "the trace ends"
    return 0, said + ["same: instructions {:,}; {} there".format(same, ends)]


def _parted(ours: Sequence[Step], theirs: Sequence[Step], here: int, there: int, same: int, why: str) -> List[str]:
    lines = ["instructions {:,} are the same; then {}".format(same, why)]
    lines += ["  both     " + _shown(step.line) for step in ours[max(0, here - BEFORE) : here]]
    lines += ["  listing  " + _shown(step.line) for step in ours[here : here + BEHIND]]
    return lines + ["  MAME     " + _shown(step.line) for step in theirs[there : there + BEHIND]]


__all__ = ["Step", "compare", "steps_listed", "steps_of_mame"]
