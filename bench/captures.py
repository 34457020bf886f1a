#!/usr/bin/env python3
"""Makes captures of a Tube as logic analysers export them, and tries `tools/trace` on them.

  bench/captures.py [--seed N] [--count 200] [--wrong 100]
                    tries 200 right captures, and 100 with one wrong answer
  bench/captures.py --write FOLDER [--seed N]
                    writes a capture of each kind, and prints the calls of `tools/trace` for them

Two processors, whose clocks drift and jitter, make random accesses. The chip takes each access at a
random moment between its begin and its end, and answers as the tools' Tube does, so the true order
is known. Clocks, strobes, selects and the reset line ring and have glitches. A kind of file is a
format, a sample rate, a way to name lines, and a clock or strobes on the second processor's side.
The tool must not call a right answer wrong, and must report the wrong one, and only that, at its
place. The status is 1 if it does not.
"""
import argparse
import os
import random
import sys
import tempfile
import zipfile
from fractions import Fraction
from typing import Dict, List, NamedTuple, Optional, Tuple

sys.dont_write_bytecode = True
sys.path.insert(
    0, os.path.join(os.path.dirname(os.path.dirname(os.path.realpath(__file__))), "tools")
)
from beebtube.capture import Capture, names_of  # noqa: E402
from beebtube.trace import Access  # noqa: E402
from beebtube.tube import Tube  # noqa: E402

NS = 1000  # times are in ps
KINDS = ("vcd", "vcd sampled", "pulseview", "pulseview times", "saleae", "sr", "list", "list ns")
SCHEMES = ("plain", "blank", "index", "bus", "inverted")
BITS = ["A0", "A1", "A2"] + ["D%d" % bit for bit in range(8)]


class Made(NamedTuple):
    """A true access: its side, way, register, byte, its begin, its end, and when the chip takes
    it."""

    side: str
    way: str
    register: int
    byte: int
    begin: int
    end: int
    moment: int


class Plan(NamedTuple):
    """A kind of capture."""

    kind: str
    scheme: str
    strobes: bool
    speed: int
    sides: str
    rate: int  # samples in a second, if there are samples


def plan_of(dice: random.Random) -> Plan:
    kind = dice.choice(KINDS)
    speed = dice.choice((3, 3, 4))
    rates = (24, 50, 100, 200) if speed == 3 else (50, 100, 200)
    return Plan(
        kind,
        dice.choice(SCHEMES),
        dice.random() < 0.5,
        speed,
        "HP" if kind.startswith("list") else dice.choice(("HP", "HP", "HP", "HP", "H", "P")),
        1000000 * dice.choice(rates),
    )


class Machine:
    """Both processors at the chip, as events of lines: when, which line, which level."""

    def __init__(self, dice: random.Random, plan: Plan, length: int):
        self.dice, self.plan = dice, plan
        self.events: List[Tuple[int, str, int]] = []
        self.accesses: List[Made] = []
        self.length = length
        self.reset_end = 5000 * NS + dice.randrange(400 * NS)
        self.breaks = [
            dice.randrange(20000 * NS, length) // NS * NS for _ in range(dice.choice((0, 0, 1, 2)))
        ]
        self.breaks = [at for at in sorted(self.breaks) if at > self.reset_end + 20000 * NS]
        self.breaks = [
            at for before, at in zip([0] + self.breaks, self.breaks) if at - before > 20000 * NS
        ]
        self.low = [(0, self.reset_end)] + [(at, at + 6000 * NS) for at in self.breaks]
        for low, high in self.low:
            self.edge(low, "RST", 0)
            self.edge(high, "RST", 1)
        for side in "HP":
            self.run(side)
        self.answer()

    def edge(self, time: int, line: str, level: int) -> None:
        """An edge, which may ring."""
        self.events.append((time, line, level))
        if self.dice.random() < 0.02 and time:
            at = time + self.dice.randrange(1, 4) * NS
            self.events += [
                (at, line, 1 - level),
                (at + self.dice.randrange(1, 5) * NS, line, level),
            ]

    def glitch(self, time: int, line: str, level: int) -> None:
        """A pulse of some ns."""
        self.events += [
            (time, line, 1 - level),
            (time + self.dice.randrange(1, 7) * NS, line, level),
        ]

    def run(self, side: str) -> None:
        dice, clock = self.dice, 2000000 if side == "H" else 1000000 * self.plan.speed
        period = 10**12 / clock * (1 + dice.uniform(-2e-4, 2e-4))
        has_strobes = side == "P" and self.plan.strobes
        time, is_busy = dice.uniform(0, period), 0
        for signal in BITS:
            self.events.append((0, side + signal, 0))
        self.events += [(0, side + "CS", 1)] + [
            (0, side + it, 1) for it in (("RD", "WR") if has_strobes else ("RW", "CLK"))
        ]
        while time < self.length:
            start, end = int(time), int(time + period + dice.gauss(0, 300))
            rise = int(start + period / 2 + dice.gauss(0, 300))
            time += period
            is_busy = is_busy - 1 if is_busy else dice.choice((0, 0, 1, 2, 6))
            is_low = any(low - 2 * period < end < high + 2 * period for low, high in self.low)
            if is_low or not is_busy or dice.random() < 0.3:
                self.cycle(side, start, rise, end, None, has_strobes)
            else:
                way, register, byte = dice.choice("RRW"), dice.randrange(8), dice.randrange(256)
                if side == "H" and register == 0 and dice.random() < 0.7:
                    byte = dice.choice((0x90, 0x10, 0x88, 0x8F, 0x1F))
                made = Made(
                    side,
                    way,
                    register,
                    byte,
                    rise,
                    end,
                    dice.choice((end, end, rise, dice.randrange(rise, end))),
                )
                self.accesses.append(made)
                self.cycle(side, start, rise, end, len(self.accesses) - 1, has_strobes)

    # A cycle begins where the clock falls; its address comes some ns after that, and the data
    # before its end. What the data are is known once the chip has answered: `number` is that of the
    # access.
    def cycle(
        self, side: str, start: int, rise: int, end: int, number: Optional[int], has_strobes: bool
    ) -> None:
        dice = self.dice
        address = start + dice.randrange(15, 40) * NS
        made = self.accesses[number] if number is not None else None
        register, way = (
            (made.register, made.way) if made else (dice.randrange(8), dice.choice("RW"))
        )
        for bit in range(3):
            self.events.append((address, "%sA%d" % (side, bit), register >> bit & 1))
        self.edge(address, side + "CS", int(made is None))
        if made is None and dice.random() < 0.01:
            self.glitch(address + 40 * NS, side + "CS", 1)
        line = side + ("RD" if way == "R" else "WR") if has_strobes else side + "CLK"
        if not has_strobes:
            self.events.append((address, side + "RW", int(way == "R")))
            self.edge(rise, line, 1)
            self.edge(end, line, 0)
        elif made is not None or dice.random() < 0.5:
            self.edge(rise, line, 0)
            self.edge(end, line, 1)
        if number is not None:
            self.events.append((end - 65 * NS, side + "D", number))
        else:
            self.events.append((end - 65 * NS, side + "D", -1 - dice.randrange(256)))

    def answer(self) -> None:
        """The chip takes the accesses in their true order, and answers."""
        tube = Tube()
        order = sorted(
            [(made.moment, made.side, number) for number, made in enumerate(self.accesses)]
            + [(at, "H", -1) for at in self.breaks]
        )
        self.order = [number for _, _, number in order if number >= 0]
        started = False
        for time, _, number in order:
            if number < 0:
                tube.put(Access(0, "H", "X", 0, 0))
                continue
            made = self.accesses[number]
            started = started or time > self.reset_end
            answer = tube.put(Access(0, made.side, made.way, made.register, made.byte))
            if made.way == "R":
                self.accesses[number] = made._replace(byte=answer)

    def plant(self, edges: int) -> Optional[int]:
        """Makes an answer wrong that nothing else may explain; its number, or None."""
        ends = sorted((made.begin, made.end, number) for number, made in enumerate(self.accesses))
        fine = []
        for before, (begin, end, number), after in zip(ends, ends[1:], ends[2:]):
            if (
                self.accesses[number].way == "R"
                and begin - before[1] > edges
                and after[0] - end > edges
            ):
                fine.append(number)
        if not fine:
            return None
        number = self.dice.choice(fine)
        made = self.accesses[number]
        bit = self.dice.randrange(8)
        self.accesses[number] = made._replace(byte=made.byte ^ 1 << bit)
        return number

    def lines(self) -> List[Tuple[int, str, int]]:
        """The events of single lines, by time."""
        found = []
        for time, line, level in self.events:
            if line in ("HD", "PD"):
                byte = self.accesses[level].byte if level >= 0 else -1 - level
                found += [(time, "%s%d" % (line, bit), byte >> bit & 1) for bit in range(8)]
            elif line[0] in self.plan.sides or line == "RST":
                found.append((time, line, level))
        found = [it for it in found if it[1][0] in self.plan.sides or it[1] == "RST"]
        found.sort(key=lambda it: it[0])
        for other in range(self.dice.randrange(3)):
            found += [
                (at, "other %d" % other, at // 7 % 2) for at in range(0, self.length, 90000 * NS)
            ]
        return sorted(found, key=lambda it: it[0])


# --- Files ---


def named(plan: Plan, signals: List[str]) -> Tuple[Dict[str, str], List[str]]:
    """By signal its name in the file, and the parts of `--names` that say so."""
    names, said = {signal: signal for signal in signals}, []
    if plan.scheme == "plain":
        return names, said
    for signal in signals:
        side, rest = signal[0], signal[1:]
        if signal.startswith("other"):
            continue
        where = "host" if side == "H" else "tube"
        if signal == "RST":
            names[signal], part = "nRST", "RST=!nRST"
        elif rest[0] in "AD":
            form = {
                "blank": "%s %s %s",
                "index": "%s_%s[%s]",
                "bus": "%s_%s[%s]",
                "inverted": "%s.%s%s",
            }[plan.scheme]
            names[signal] = form % (where, rest[0], rest[1])
            part = "%s=%s" % (signal, names[signal]) if plan.scheme != "bus" else None
            if plan.scheme == "bus" and rest[1] == "0":
                part = "%s%s=%s_%s[%d:0]" % (
                    side,
                    rest[0],
                    where,
                    rest[0],
                    2 if rest[0] == "A" else 7,
                )
        elif plan.scheme == "inverted" and rest in ("CS", "CLK", "RD", "WR"):
            names[signal] = "%s %s inverted" % (where, rest)
            part = "%s=%s%s" % (signal, "!" if rest == "CLK" else "+", names[signal])
        else:
            names[signal] = (
                {"CS": "nTUBE", "RD": "NRDS", "WR": "NWDS"}.get(rest, rest) + " " + where
            )
            part = "%s=%s%s" % (signal, "!" if rest in ("CS", "RD", "WR") else "", names[signal])
        if part:
            said.append(part)
    return names, said


def sampled(
    events: List[Tuple[int, str, int]], rate: int, signals: List[str], length: int
) -> List[Tuple[int, int]]:
    """The samples at which something changed: their number, and the levels as bits in the order of
    the signals."""
    place = {signal: at for at, signal in enumerate(signals)}
    found, state, at = [], 0, 0
    for time, line, level in events:
        number = -(-time * rate // 10**12)
        if number != at:
            if not found or found[-1][1] != state:
                found.append((at, state))
            at = number
        state = state | 1 << place[line] if level else state & ~(1 << place[line])
    if not found or found[-1][1] != state:
        found.append((at, state))
    return found


def flip(changes: List[Tuple[int, int]], mask: int) -> List[Tuple[int, int]]:
    return [(at, state ^ mask) for at, state in changes]


def write(place: str, plan: Plan, machine: Machine) -> Tuple[str, str]:
    """Writes the capture; its name and the words for `--names`."""
    if plan.kind.startswith("list"):
        return write_list(place + ".csv", plan, machine), ""
    events = machine.lines()
    signals = sorted({line for _, line, _ in events})
    names, said = named(plan, signals)
    rate = (
        10**9
        if plan.kind == "vcd"
        else plan.rate
        if plan.kind != "saleae"
        else max(plan.rate, 100000000)
    )
    changes = sampled(events, rate, signals, machine.length)
    mask = sum(
        1 << at
        for at, signal in enumerate(signals)
        if plan.scheme == "inverted" and signal[1:] in ("CS", "CLK", "RD", "WR")
    )
    changes = flip(changes, mask)
    labels = [names[signal] for signal in signals]
    name = place + (
        ".vcd" if plan.kind.startswith("vcd") else ".sr" if plan.kind == "sr" else ".csv"
    )
    {
        "vcd": write_vcd,
        "vcd sampled": write_vcd,
        "pulseview": write_samples,
        "pulseview times": write_samples,
        "saleae": write_saleae,
        "sr": write_sr,
    }[plan.kind](name, labels, changes, rate, plan)
    return name, ",".join(said)


def write_vcd(
    name: str, labels: List[str], changes: List[Tuple[int, int]], rate: int, plan: Plan
) -> None:
    marks = [chr(33 + at) for at in range(len(labels))]
    step = 10**9 // rate if rate <= 10**9 and 10**9 % rate == 0 else None
    with open(name, "w") as file:
        file.write("$date today $end\n$version bench $end\n")
        if plan.kind == "vcd sampled":
            file.write(
                "$comment\n  Acquisition with %d/%d channels at %d MHz\n$end\n"
                % (len(labels), len(labels), rate // 10**6)
            )
        file.write("$timescale 1 ns $end\n$scope module libsigrok $end\n")
        if plan.scheme == "bus":
            buses: Dict[str, List[int]] = {}
            for at, label in enumerate(labels):
                if label.endswith("]"):
                    buses.setdefault(label[:-3], []).append(at)
            single = [at for at, label in enumerate(labels) if not label.endswith("]")]
            file.write(
                "".join(
                    "$var wire %d %s %s [%d:0] $end\n"
                    % (len(bits), "b" + marks[bits[0]], bus, len(bits) - 1)
                    for bus, bits in buses.items()
                )
            )
        else:
            buses, single = {}, list(range(len(labels)))
        file.write("".join("$var wire 1 %s %s $end\n" % (marks[at], labels[at]) for at in single))
        file.write("$upscope $end\n$enddefinitions $end\n")
        before = ~changes[0][1]
        for number, state in changes:
            changed = before ^ state
            file.write("#%d" % (number * step if step else number * 10**9 // rate))
            file.write(
                "".join(
                    " %d%s" % (state >> at & 1, marks[at]) for at in single if changed >> at & 1
                )
            )
            for bits in buses.values():
                if any(changed >> at & 1 for at in bits):
                    file.write(
                        "\nb%s b%s\n"
                        % ("".join(str(state >> at & 1) for at in reversed(bits)), marks[bits[0]])
                    )
            file.write("\n")
            before = state


def row_of(state: int, count: int) -> str:
    return ",".join(bin(state | 1 << count)[:2:-1])


def write_samples(
    name: str, labels: List[str], changes: List[Tuple[int, int]], rate: int, plan: Plan
) -> None:
    has_times = plan.kind == "pulseview times"
    with open(name, "w") as file:
        file.write(
            "; CSV generated by libsigrok 0.5.2\n; from unknown on today\n"
            "; Channels (%d/%d): %s\n; Samplerate: %d MHz\n"
            % (len(labels), len(labels), ", ".join(labels), rate // 10**6)
        )
        file.write(("nanoseconds," if has_times else "") + ",".join(["logic"] * len(labels)) + "\n")
        for (number, state), (following, _) in zip(
            changes, changes[1:] + [(changes[-1][0] + 5, 0)]
        ):
            row = row_of(state, len(labels))
            for at in range(number, following):
                file.write(("%d," % (at * 10**9 // rate) if has_times else "") + row + "\n")


def write_saleae(
    name: str, labels: List[str], changes: List[Tuple[int, int]], rate: int, plan: Plan
) -> None:
    with open(name, "w", newline="\r\n") as file:
        file.write("Time [s]," + ",".join(labels) + "\n")
        trigger = changes[len(changes) // 3][0]
        for number, state in changes:
            time = (number - trigger) * 10**9 // rate
            file.write(
                "%s%d.%09d," % ("-" if time < 0 else "", abs(time) // 10**9, abs(time) % 10**9)
                + row_of(state, len(labels))
                + "\n"
            )


def write_sr(
    name: str, labels: List[str], changes: List[Tuple[int, int]], rate: int, plan: Plan
) -> None:
    size = (len(labels) + 7) // 8
    samples = b"".join(
        state.to_bytes(size, "little") * (following - number)
        for (number, state), (following, _) in zip(changes, changes[1:] + [(changes[-1][0] + 5, 0)])
    )
    with zipfile.ZipFile(name, "w", zipfile.ZIP_DEFLATED) as archive:
        archive.writestr("version", "2")
        archive.writestr(
            "metadata",
            "[global]\nsigrok version=0.5.2\n\n[device 1]\ncapturefile=logic-1\ntotal probes=%d\n"
            "samplerate=%d MHz\n"
            "total analog=0\n%sunitsize=%d\n"
            % (
                len(labels),
                rate // 10**6,
                "".join("probe%d=%s\n" % it for it in enumerate(labels, 1)),
                size,
            ),
        )
        half = len(samples) // 2 // size * size
        archive.writestr("logic-1-1", samples[:half])
        archive.writestr("logic-1-2", samples[half:])


def write_list(name: str, plan: Plan, machine: Machine) -> str:
    """A list has the accesses in the order in which the chip took them, with the times of that."""
    rows = sorted(
        [
            (
                made.moment,
                machine.order.index(number),
                "%s,%s,FEE%X,%02X" % (made.side, made.way, made.register, made.byte),
            )
            for number, made in enumerate(machine.accesses)
        ]
        + [(at, -1, "H,X,0,0") for at in machine.breaks]
    )
    with open(name, "w") as file:
        file.write(
            "; made\n%s,side,rw,address,data\n" % ("time" if plan.kind == "list" else "time_ns")
        )
        for time, _, row in rows:
            time -= machine.reset_end
            file.write(
                "%s,%s\n"
                % ("%.9f" % (time / 10**12) if plan.kind == "list" else time // 1000, row)
            )
    return name


# --- Trying ---


class Tried(NamedTuple):
    plan: Plan
    seed: int
    capture: Capture
    trace: List[bytes]
    machine: Machine
    planted: Optional[Made]


def tried(folder: str, seed: int, is_wrong: bool, length: int = 150000 * NS) -> Tried:
    """Makes the capture of a seed, and takes it."""
    dice = random.Random(seed)
    plan = plan_of(dice)
    if is_wrong:
        plan = plan._replace(sides="HP")
    machine = Machine(dice, plan, length)
    number = machine.plant(150 * NS) if is_wrong else None
    name, words = write(os.path.join(folder, "capture"), plan, machine)
    capture = Capture(name, plan.speed, None, names_of(words) if words else {})
    trace = list(capture.trace())
    os.unlink(name)
    return Tried(
        plan,
        seed,
        capture,
        trace,
        machine,
        machine.accesses[number] if number is not None else None,
    )


def fault_of(it: Tried) -> Optional[str]:
    """What is wrong with what the tool said, if something is."""
    wrong, machine = it.capture.judge.wrong, it.machine
    count = sum(made.side in it.plan.sides for made in machine.accesses) + len(machine.breaks)
    if it.capture.count != count:
        return "%d accesses, and %d were found" % (count, it.capture.count)
    if it.planted is None:
        return "a false wrong: %s" % (wrong[0],) if wrong else None
    made = it.planted
    if len(wrong) != 1:
        return "%d wrong answers in place of one" % len(wrong)
    access = wrong[0].access
    if (access.side, access.way, access.register, access.byte) != (
        made.side,
        made.way,
        made.register,
        made.byte,
    ):
        return "another answer is called wrong: %s" % (access,)
    tick = it.capture.tick_of(wrong[0].number)
    moment = made.moment if it.plan.kind.startswith("list") else made.end
    true = Fraction(moment - machine.reset_end, 10**12) * it.capture.second
    return None if abs(tick - true) < 2 else "at tick %d in place of %.2f" % (tick, true)


def main() -> int:
    reader = argparse.ArgumentParser(
        description=__doc__, formatter_class=argparse.RawDescriptionHelpFormatter
    )
    reader.add_argument("--seed", type=int, default=1)
    reader.add_argument("--count", type=int, default=200)
    reader.add_argument("--wrong", type=int, default=100)
    reader.add_argument("--write", metavar="FOLDER")
    asked = reader.parse_args()
    if asked.write:
        os.makedirs(asked.write, exist_ok=True)
        for at, kind in enumerate(KINDS):
            dice = random.Random(asked.seed + at)
            plan = plan_of(dice)._replace(kind=kind, sides="HP")
            name, words = write(
                os.path.join(asked.write, kind.replace(" ", "-")),
                plan,
                Machine(dice, plan, 150000 * NS),
            )
            print(
                "tools/trace %s %s.trace --speed %d%s"
                % (name, name, plan.speed, " --names '%s'" % words if words else "")
            )
        return 0
    faults = accesses = turned = planted = 0
    with tempfile.TemporaryDirectory() as folder:
        for number in range(asked.count + asked.wrong):
            it = tried(folder, asked.seed * 100000 + number, number >= asked.count)
            accesses, turned, planted = (
                accesses + it.capture.count,
                turned + it.capture.judge.turned,
                planted + (it.planted is not None),
            )
            fault = fault_of(it)
            if fault is not None:
                faults += 1
                print("seed %d, %s: %s" % (it.seed, it.plan, fault))
    print(
        "captures %d, planted %d, accesses %d, taken in another order %d, faults %d"
        % (asked.count + asked.wrong, planted, accesses, turned, faults)
    )
    return int(faults > 0)


if __name__ == "__main__":
    sys.exit(main())
