"""Where two runs begin to differ, and where they differ in something more."""
from __future__ import annotations

from typing import List, NamedTuple, Optional, Set, Tuple

from .past import Past
from .trace import LENGTH

# What differs: a side, and the address of a byte of its memory, a register, or whether it is held.
Item = Tuple[str, "int | str"]


class Parting(NamedTuple):
    """The last tick before something differs, the sides on which it does after it, and what it is,
    in the order of sides and addresses."""

    tick: int
    sides: List[str]
    items: List[Item]


def differing(one: Past, other: Past, tick: int) -> Set[Item]:
    """What differs at a tick, of the sides that both runs have."""
    one.progress(f"tick {tick}")
    first, second = one.states(tick), other.states(tick)
    found: Set[Item] = set()
    for side in first:
        if side not in second or first[side] == second[side]:
            continue
        mine, yours = first[side], second[side]
        found.update((side, name) for name in mine.registers._fields
                     if getattr(mine.registers, name) != getattr(yours.registers, name))
        if mine.held != yours.held:
            found.add((side, "held"))
        if mine.memory != yours.memory:
            found.update((side, at) for at, pair in enumerate(zip(mine.memory, yours.memory))
                         if pair[0] != pair[1])
    return found


# By halves: at `low` nothing but what is known differs, at `high` something more.
def _parting(one: Past, other: Past, low: int, high: int, known: Set[Item]) -> Parting:
    while high - low > 1:
        middle = (low + high) // 2
        low, high = (middle, high) if differing(one, other, middle) <= known else (low, middle)
    return _parted(low, differing(one, other, high) - known)


def _parted(tick: int, found: Set[Item]) -> Parting:
    items = sorted(found, key=lambda it: (it[0], str(it[1]).rjust(6)))
    return Parting(tick, sorted({side for side, _ in items}), items)


def parting(one: Past, other: Past) -> Optional[Parting]:
    """The first moment at which registers or memories of two runs differ; None if both are the
    same to the end of the shorter.

    The accesses to the Tube show the first that differs, and from there the moment is found by
    halves over ticks. A byte of a memory that differed before that for a while is not seen.
    """
    end = min(one.end, other.end)
    if differing(one, other, 0):
        return _parted(0, differing(one, other, 0))
    place, high = _same_lines(one.trace, other.trace), end
    for trace in (one.trace, other.trace):
        line = trace[LENGTH * place : LENGTH * place + 10]
        if line:
            high = min(high, int(line, 16) + 48)
    for last in (high, end):
        if differing(one, other, last):
            return _parting(one, other, 0, last, set())
    return None


def next_parting(one: Past, other: Past, tick: int) -> Optional[Parting]:
    """The next moment after a tick at which something differs that is the same at the tick after
    it; None if nothing is seen. It is looked for at distances that double, and then by halves: what
    differs for a while between them is not seen."""
    low, end, far = tick + 1, min(one.end, other.end), 1
    if low >= end:
        return None
    known = differing(one, other, low)
    while low < end:
        high = min(low + far, end)
        if not differing(one, other, high) <= known:
            return _parting(one, other, low, high, known)
        low, far = high, 2 * far
    return None


# How many lines from the first on are the same in both.
def _same_lines(one: bytes, other: bytes) -> int:
    low, high = 0, min(len(one), len(other)) // LENGTH
    while low < high:
        middle = (low + high + 1) // 2
        if one[LENGTH * low : LENGTH * middle] == other[LENGTH * low : LENGTH * middle]:
            low = middle
        else:
            high = middle - 1
    return low
