#!/usr/bin/env python3
"""Measures when timer 1 of the system's 6522 sets its flag, here and by MAME.

  bench/timers.py source >timers.asm   a program that writes N = 30 to the timer and reads its flag
                                       k microseconds later, for sixteen k: in one-shot mode, and
                                       for the second timeout
  bench/timers.py here timers.list     the first k at which it is set, by a listing of `follow`
  bench/timers.py mame TRACE           the same by a trace of MAME's debugger, with this command
                                       (a line): trace TRACE,maincpu,noloop,
      {tracelog "A=%02X X=%02X Y=%02X S=%02X P=%02X T=%d ",a,x,y,sp,p,totalcycles}

k is in microseconds from the end of the instruction that writes FE45 to the end of the one that
reads FE4D.
"""
from __future__ import annotations

import re
import sys
from typing import Iterable, List, Tuple

N = 30
Start = Tuple[float, str, int]


def nops(count: int) -> List[str]:
    return ["NOP"] * count


def trial(waits: List[str], number: int) -> List[str]:
    begin = [f"LDA #{N}", "STA &FE44", "LDA #0", "STA &FE45"]
    end = ["LDA &FE4D", "AND #&40", f"STA &{0x300 + number:04X}", *nops(50), "LDA &FE44"]
    return begin + waits + end


def source() -> List[str]:
    lines = ["org &C000", "start: LDX #&FF", "TXS", "LDA #&7F", "STA &FE4E", "LDA #0", "STA &FE4B"]
    for number in range(16):
        lines += trial(nops(18 + number), number)
    lines += ["LDA #&40", "STA &FE4B"]
    for number in range(16):
        lines += trial([*nops(N + 2), "LDA &FE44", *nops(16 + number)], 16 + number)
    return [*lines, "here: JMP here", "org &FFFA", "word start, start, start"]


def of_listing(lines: Iterable[str]) -> Iterable[Start]:
    for line in lines:
        words = line.split()
        yield int(words[0], 16) / 6, " ".join(words[7:]).lower(), int(words[2][2:], 16)


def of_mame(lines: Iterable[str]) -> Iterable[Start]:
    for line in lines:
        found = re.match(r"A=(..) .*T=(\d+) [0-9A-F]{4}: (.*)", line)
        if found:
            yield int(found[2]) / 2, found[3].strip().lower(), int(found[1], 16)


def report(starts: Iterable[Start]) -> None:
    seen: List[Tuple[float, bool]] = []
    written, before = 0.0, ""
    for time, text, a in starts:
        if "fe45" in before:
            written = time
        if "fe4d" in before:
            seen.append((time - written, bool(a & 0x40)))
        if text.startswith("jmp"):
            break
        before = text
    for name, part in (("first", seen[:16]), ("second", seen[16:])):
        clear = max((k for k, is_set in part if not is_set), default=0)
        found = min((k for k, is_set in part if is_set), default=0)
        print(f"{name} timeout: clear at {clear:g} us, set at {found:g} us")


def main() -> None:
    words = sys.argv[1:]
    if words == ["source"]:
        print("\n".join(source()))
    elif len(words) == 2 and words[0] in ("here", "mame"):
        with open(words[1], encoding="utf-8", errors="replace") as file:
            report(of_listing(file) if words[0] == "here" else of_mame(file))
    else:
        sys.exit((__doc__ or "").strip())


main()
