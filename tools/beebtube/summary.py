"""What went through the Tube in a trace, and who waited for whom: what `tools/tube` prints."""
from __future__ import annotations

from typing import Dict, List, Optional, Tuple

from .accesses import SIDES, is_status, letter_of, name_of
from .checking import said_of_check
from .command import Usage
from .files import is_plain
from .trace import Access, Trace
from .tube import Tube, line_of

SHORT = {"H": "host", "P": "second processor"}


def tell_all(trace: Trace) -> None:
    for access in trace:
        print(line_of(access, trace.second))


# What the Tube holds before the first access at a tick or after it.
def tell_at(trace: Trace, tick: int) -> None:
    tube, done, following = Tube(), 0, None  # type: Tube, int, Optional[Access]
    for access in trace:
        if access.tick >= tick:
            following = access
            break
        tube.put(access)
        done += 1
    print("at %.3f us, after access %d" % (tick * 1e6 / trace.second, done))
    flags = [name if tube.flags >> 5 - at & 1 else "-" for at, name in enumerate("PVMJIQ")]
    print("flags " + "".join(flags))
    for number in (1, 2, 3, 4):
        for side in "HP":
            held = tube.held[side, number]
            if held:
                shown = ", ".join("%02X%s" % (byte, letter_of(byte)) for byte in held)
                print("register %d to %s holds %s" % (number, SIDES[side], shown))
    asked = [name for name, is_asked in tube.interrupts().items() if is_asked]
    print("interrupts " + (", ".join(INTERRUPTS[name] for name in asked) or "none"))
    if following is not None:
        print("next " + line_of(following, trace.second))


INTERRUPTS = {
    "host_irq": "of the host",
    "para_irq": "of the second processor",
    "para_nmi": "NMI of the second processor",
}


class Vain:
    """Looks at a status in vain, one after another: how many, and when the first was."""

    def __init__(self) -> None:
        self.looks = self.first = 0

    def look(self, tick: int, is_vain: bool) -> None:
        if is_vain:
            self.first = self.first if self.looks else tick
            self.looks += 1


class Waits:
    def __init__(self) -> None:
        self.looks = self.ticks = self.longest = self.times = 0

    def end(self, vain: Vain, tick: int) -> None:
        self.times += 1
        self.looks += vain.looks
        self.ticks += tick - vain.first
        self.longest = max(self.longest, tick - vain.first)


class Summary:
    def __init__(self, trace: Trace) -> None:
        self.second = trace.second
        self.count = {"H": 0, "P": 0}
        self.first = self.last = self.breaks = 0
        self.taken = {}  # type: Dict[Tuple[str, int], Tuple[int, int, int]]
        self.waits = {}  # type: Dict[Tuple[str, int, str], Waits]
        self.empty, self.lost = {}, {}  # type: Dict[Tuple[str, int], int], Dict[Tuple[str, int], int]
        self.tube = Tube()
        # For each status: the looks in vain for a byte, for room, and for one of both.
        self.looks = {}  # type: Dict[Tuple[str, int], List[Vain]]
        for access in trace:
            if sum(self.count.values()) == 0:
                self.first = access.tick
            self.last = access.tick
            self.count[access.side] += 1
            self.put(access)
            to = "P" if access.is_host else "H"
            held = len(self.tube.held[to, access.register // 2 + 1])
            self.tube.put(access)
            if access.way == "W" and not is_status(access.register):
                lost = held + 1 - len(self.tube.held[to, access.register // 2 + 1])
                self.lost[to, access.register] = self.lost.get((to, access.register), 0) + lost

    def put(self, access: Access) -> None:
        tick, side, way, place, byte = access
        if way == "X":
            self.breaks += 1
            self.looks.clear()
        elif is_status(place):
            if way == "R":
                vain = self.looks.setdefault((side, place), [Vain(), Vain(), Vain()])
                for one, bits in zip(vain, (128, 64, 192)):
                    one.look(tick, byte & bits != bits)
        else:
            kind, which = ("a byte", 0) if way == "R" else ("room", 1)
            if way == "R" and not self.tube.holds_byte(access):
                self.empty[side, place] = self.empty.get((side, place), 0) + 1
            elif way == "R":
                first, _, number = self.taken.get((side, place), (tick, tick, 0))
                self.taken[side, place] = (first, tick, number + 1)
            # The looks in vain right before this access: what it waited for.
            before = self.looks.pop((side, place - 1), [])
            if before and before[which].looks:
                self.waits.setdefault((side, place, kind), Waits()).end(before[which], tick)

    def us(self, ticks: int) -> str:
        time = ticks * 1e6 / self.second
        return "%.1f us" % time if time < 1000 else "%.0f us" % time

    def tell(self) -> None:
        print("accesses %d: the host %d, the second processor %d" % (sum(self.count.values()), self.count["H"], self.count["P"]))
        if not sum(self.count.values()):
            return
        print("from %s to %s" % (self.us(self.first), self.us(self.last)))
        if self.breaks:
            print("BREAK %d" % self.breaks)
        for (side, place), (first, last, number) in sorted(self.taken.items(), key=lambda item: (item[0][1], item[0][0])):
            rate = "%d bytes a second" % round((number - 1) * self.second / (last - first)) if last > first else "at once"
            print("%s to %s: %d bytes, %s" % (name_of(place), SIDES[side], number, rate))
        for (side, place), number in sorted(self.lost.items(), key=lambda item: item[0][::-1]):
            if number:
                plural = "" if number == 1 else "s"
                whose = "%s to %s" % (name_of(place), SIDES[side])
                print("%s: %d byte%s lost, written while full" % (whose, number, plural))
        for (side, place), number in sorted(self.empty.items(), key=lambda item: (item[0][1], item[0][0])):
            print("%s reads %s while it is empty: %d" % (SHORT[side], name_of(place), number))
        for (side, place, kind), wait in sorted(self.waits.items()):
            print("%s waits for %s in %s: %d, polls %d, %s, longest %s"
                  % (SHORT[side], kind, name_of(place), wait.times, wait.looks, self.us(wait.ticks), self.us(wait.longest)))
        for (side, place), vain in sorted(self.looks.items()):
            if vain[2].looks:
                print("%s waits at the end at %s: polls %d, %s"
                      % (SHORT[side], name_of(place), vain[2].looks, self.us(self.last - vain[2].first)))


def tube(words: List[str]) -> None:
    """What `tools/tube` does."""
    if len(words) == 2 and words[0] == "--all":
        tell_all(Trace(words[1]))
    elif len(words) == 3 and words[0] == "--at" and words[1].isdigit() and len(words[1]) < 16:
        tell_at(Trace(words[2]), int(words[1]))
    elif len(words) == 1 and not words[0].startswith("-"):
        summary = Summary(Trace(words[0]))
        said = said_of_check(words[0]) if is_plain(words[0]) else []
        if len(said) > 1:
            print("\n".join(said))
        summary.tell()
    else:
        raise Usage("the arguments are a trace, or --all or --at TICK and a trace")
