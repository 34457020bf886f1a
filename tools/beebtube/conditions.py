"""Conditions of a start: `A=8C and S<10`, `pc outside C000..FFFF`, `(0070)=41`."""
from __future__ import annotations

import functools
import operator
import re
from typing import Callable, Dict, List, Optional, Tuple

from .faults import Fault
from .listings import Start, hexes

TERM = re.compile(r"\s*(\([^()]+\)|[A-Za-z]+)\s*(<=|>=|!=|==|=|<|>|in\b|outside\b)\s*(\S+)\s*")
TESTS: Dict[str, Callable[[int, int], bool]] = {
    "=": operator.eq, "==": operator.eq, "!=": operator.ne, "<": operator.lt, ">": operator.gt,
    "<=": operator.le, ">=": operator.ge}
Address = Callable[[str], int]
# The byte of the memory at an address before a start.
Byte = Callable[[Start, int], int]
Test = Callable[[int], bool]


class Condition:
    """What holds of a start, or does not.

    form  is found in the line of each start for which it holds; None if any line may be such
    at    holds of the address of each such start; None if any address may be such
    """

    def __init__(self, *terms: "Tuple[str, Callable[[Start], int], Test]"):
        self._terms = terms
        tests = [test for name, _, test in terms if name == "pc"]
        self.at: Optional[Test] = (lambda at: all(test(at) for test in tests)) if tests else None
        self.form: "Optional[re.Pattern[bytes]]" = None
        for name, _, test in terms:
            if name in ("a", "x", "y", "s", "p"):
                self.form = re.compile(f" {name.upper()}={hexes(test)} ".encode())
                return
        for name, _, test in terms:
            if name == "pc":
                pages = {pc >> 8 for pc in range(65536) if test(pc)}
                self.form = re.compile(f"(?m)^.{{10}} {hexes(pages.__contains__)}".encode())

    def __call__(self, start: Start) -> bool:
        return all(test(get(start)) for _, get, test in self._terms)


def value_of(word: str, address: Address) -> int:
    """A number in hexadecimal digits, or the address of a label."""
    bare = word.lstrip("&$")
    return int(bare, 16) if re.fullmatch("[0-9A-Fa-f]{1,4}", bare) else address(word)


def range_of(word: str, address: Address) -> Tuple[int, int]:
    """`AAAA..BBBB`, or one address."""
    low, dots, high = word.partition("..")
    found = value_of(low, address), value_of(high if dots else low, address)
    if found[0] > found[1]:
        raise Fault(f"{word}: the range is empty")
    return found


def condition(text: str, address: Address, byte: Byte) -> Condition:
    """The condition of a text; Fault if it is none. Registers are A, X, Y, S, P and PC; a byte
    of memory is an address in brackets."""
    terms: List[Tuple[str, Callable[[Start], int], Test]] = []
    for part in re.split(r"\band\b|&&", text):
        match = TERM.fullmatch(part)
        name = match.group(1).lower() if match else ""
        if not match or not name.startswith("(") and name not in ("a", "x", "y", "s", "p", "pc"):
            raise Fault(f"{part.strip()[:40]}: a condition is `A=8C`, `S<10`, `(0070)!=0` or"
                        " `pc outside C000..FFFF`, with `and` between several")
        if name.startswith("("):
            at = value_of(match.group(1)[1:-1].strip(), address)
            terms.append((name, functools.partial(_byte, byte, at), _test(match, address)))
        else:
            terms.append((name, functools.partial(_register, name), _test(match, address)))
    return Condition(*terms)


def _byte(byte: Byte, at: int, start: Start) -> int:
    return byte(start, at)


def _register(name: str, start: Start) -> int:
    return int(getattr(start.registers, name))


def _test(match: "re.Match[str]", address: Address) -> Test:
    way, word = match.group(2), match.group(3)
    if way in TESTS:
        test, wanted = TESTS[way], value_of(word, address)
        return lambda value: test(value, wanted)
    low, high = range_of(word, address)
    return lambda value: (low <= value <= high) == (way == "in")
