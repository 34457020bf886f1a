"""What an instruction reads and writes in memory, by its text and the registers before it."""
from __future__ import annotations

import functools
import re
from typing import Callable, List, NamedTuple, Optional, Tuple

from .listings import Start, hexes

OPERAND = re.compile(r"(\(?)&([0-9A-F]{2,4})(,X\)|\),Y|\)|,[XY])?")
STORES = {"STA": "a", "STX": "x", "STY": "y", "STZ": ""}
CHANGES = ("ASL", "LSR", "ROL", "ROR", "INC", "DEC", "TSB", "TRB")
PUSHES = {"PHA": "a", "PHX": "x", "PHY": "y", "PHP": "p"}
PULLS = {"PLA": 1, "PLX": 1, "PLY": 1, "PLP": 1, "RTS": 2, "RTI": 3}
BRANCHES = ("BCC", "BCS", "BEQ", "BMI", "BNE", "BPL", "BRA", "BVC", "BVS")
# How much an instruction changes S; TXS sets it.
LEVELS = {**dict.fromkeys(PUSHES, -1), **PULLS, "JSR": -2, "BRK": -3}
Peek = Callable[[int], int]


class Effects(NamedTuple):
    """The addresses that an instruction reads besides its own bytes, and those that it writes,
    each with its byte."""

    reads: List[int]
    writes: List[Tuple[int, int]]


def level_after(word: str, s: int, x: int) -> int:
    """S after an instruction of this mnemonic, by S and X before it."""
    return x if word == "TXS" else (s + LEVELS.get(word, 0)) & 255


def sequences(one: Start, other: Start) -> int:
    """How many interrupts and resets begin between a start and the next one: each lowers S by 3,
    which no instruction but BRK does."""
    registers = one.registers
    after = level_after(one.word, registers.s, registers.x)
    return (after - other.registers.s) * 171 & 255  # 3 * 171 is 1, modulo 256


def leaves_all(start: Start) -> bool:
    """An instruction that leaves all registers as they are: a jump or a branch to itself, or an
    opcode that halts a 6502, from which BREAK leads away."""
    if start.word == "byte":
        return start.side == "host"
    return start.word in (*BRANCHES, "JMP") and start.text.endswith(f" &{start.registers.pc:04X}")


@functools.lru_cache(1 << 16)
def _operand(text: str) -> Tuple[Optional[int], bool, bool, str]:
    word, _, operand = text.partition(" ")
    match = OPERAND.fullmatch(operand)
    if not match or word in BRANCHES or word == "byte":
        return None, False, False, ""
    digits = match.group(2)
    return int(digits, 16), len(digits) == 4, bool(match.group(1)), match.group(3) or ""


@functools.lru_cache(64)
def touching(low: int, high: int) -> "Optional[re.Pattern[bytes]]":
    """A form that is found in the line of each instruction that may read or write a byte of a
    range, or write one of the zero page, where pointers are; None if any instruction may."""
    if low < 0x200 and high >= 0x100:
        return None
    pages = hexes(lambda page: low - 510 <= page * 256 <= high or page == 0xFF and low < 0xFF)
    end = "(?:,[XY])?\\n"
    told = [r"... \(", f"(?!J|B(?!IT))... &{pages}..{end}",
            rf"(?:ST.|INC|DEC|[AL]S[LR]|RO[LR]|T[SR]B) &(?:00|FF)?..{end}"]
    if low < 0x100:
        told += [rf"... &{hexes(lambda at: low <= at <= high)}\n", r"... &..,[XY]\n"]
    if high >= 0xFFFE:
        told.append("BRK")
    return re.compile(f" P=.. (?:{'|'.join(told)})".encode())


def address_of(start: Start, peek: Peek) -> Tuple[Optional[int], List[int]]:
    """The address of an instruction's operand in memory, and the addresses from which it takes a
    pointer. None for an operand that is none."""
    at, wide, is_pointer, index = _operand(start.text)
    registers = start.registers
    if at is None:
        return None, []
    if not is_pointer:
        more = registers.x if index == ",X" else registers.y if index == ",Y" else 0
        return at + more & (0xFFFF if wide else 0xFF), []
    if wide:  # JMP (&1234) and JMP (&1234,X); the pointer of a 6502 stays in its page
        at = at + registers.x & 0xFFFF if index == ",X)" else at
        high = at & 0xFF00 | at + 1 & 0xFF if start.side == "host" else at + 1 & 0xFFFF
        return peek(at) | peek(high) << 8, [at, high]
    at = at + registers.x & 0xFF if index == ",X)" else at
    found = peek(at) | peek(at + 1 & 0xFF) << 8
    return found + (registers.y if index == "),Y" else 0) & 0xFFFF, [at, at + 1 & 0xFF]


def effects_of(start: Start, peek: Peek) -> Effects:
    """What an instruction reads and writes; `peek` gives the byte at an address before it."""
    word, registers = start.word, start.registers
    at, reads = address_of(start, peek)
    stack = [0x100 | registers.s + more & 0xFF for more in range(-2, 4)]
    if word in PULLS:
        return Effects(stack[3 : 3 + PULLS[word]], [])
    if word in PUSHES:
        return Effects([], [(stack[2], written(start, 0) or 0)])
    if word in ("JSR", "BRK"):
        back = registers.pc + 2 & 0xFFFF
        writes = [(stack[2], back >> 8), (stack[1], back & 0xFF)]
        if word == "BRK":
            writes.append((stack[0], registers.p | 0x30))
        return Effects([] if word == "JSR" else [0xFFFE, 0xFFFF], writes)
    if at is None or word == "JMP":
        return Effects(reads, [])
    if word in STORES:
        return Effects(reads, [(at, written(start, 0) or 0)])
    if word in CHANGES:
        return Effects(reads + [at], [(at, written(start, peek(at)) or 0)])
    return Effects(reads + [at], [])


def may_write(start: Start) -> bool:
    """An instruction may write to memory."""
    word = start.word
    return word in STORES or word in PUSHES or word in CHANGES or word in ("JSR", "BRK")


def written(start: Start, byte: int) -> Optional[int]:
    """What an instruction makes of the one byte that it changes; None if it may change several."""
    word, registers = start.word, start.registers
    if word in STORES:
        return int(getattr(registers, STORES[word])) if STORES[word] else 0
    if word in PUSHES:
        return int(getattr(registers, PUSHES[word])) | (0x30 if word == "PHP" else 0)
    return _changed(word, byte, registers.a, registers.p & 1) if word in CHANGES else None


def _changed(word: str, byte: int, a: int, carry: int) -> int:
    if word in ("ASL", "ROL"):
        return byte << 1 & 0xFF | (carry if word == "ROL" else 0)
    if word in ("LSR", "ROR"):
        return byte >> 1 | (carry << 7 if word == "ROR" else 0)
    if word in ("TSB", "TRB"):
        return byte | a if word == "TSB" else byte & ~a
    return byte + (1 if word == "INC" else -1) & 0xFF
