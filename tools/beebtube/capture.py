"""Traces as a logic analyser has them: value changes (VCD), tables (CSV) and sigrok's `.sr`, to a
trace and back.

Time 0 is where the reset line rises first; where it falls again there is a BREAK. An access is at
the tick in which it ends; accesses keep the order in which they were captured.
"""
from __future__ import annotations

import csv
import io
import re
from fractions import Fraction
from typing import BinaryIO, Callable, Dict, Iterable, Iterator, List, Optional, Tuple

from .accesses import SIDES, words_of
from .bus import ACTIVE_LOW, BUSES, RESET, SIGNALS, Bus, Captured, Wanted
from .faults import Fault
from .files import Name, open_file
from .signals import MOST_LINE, Head, Progress, Session, Table, Vcd, head_of, time_in, time_unit_of
from .trace import Trace
from .tube import Tube
from .verdict import Judge
from .words import shown

# The signals of a side that `vcd_of` shows, after its letter. Select and reset are active where
# they are low.
BITS = ("A0", "A1", "A2") + tuple("D%d" % bit for bit in range(8)) + ("RW", "CS", "CLK")
SHOWN = tuple(side + bit for side in "HP" for bit in BITS) + (RESET,)
FLAGS = "PVMJIQ"
LEAD = 100  # units of 10 ns in which the reset line is low at first
UNIT = 100000000  # units of a second
MOST_TICK = (1 << 40) - 1
TIMES = ("tick", "time", "time_ns", "time_us", "time_ms")
COLUMNS = TIMES + ("side", "way", "register", "byte")
ALSO = {"way": ("rw", "r/w"), "register": ("address", "addr"), "byte": ("data",)}


# --- A trace to others ---


def _marks() -> Iterator[str]:
    letters = [chr(code) for code in range(33, 127)]
    yield from letters
    for first in letters:
        for second in letters:
            yield first + second


class _Writer:
    """Value changes of signals of one bit; what does not change is not said again. sigrok reads no
    others."""

    def __init__(self, signals: Iterable[str]) -> None:
        self.mark = dict(zip(signals, _marks()))
        self._value: Dict[str, int] = {}

    def head(self) -> str:
        return "".join(
            "$var wire 1 %s %s $end\n" % (mark, signal) for signal, mark in self.mark.items()
        )

    def at(self, time: int, values: Dict[str, int]) -> str:
        told = [
            "%d%s" % (value, self.mark[signal])
            for signal, value in values.items()
            if self._value.get(signal) != value
        ]
        self._value.update(values)
        return "#%d\n%s\n" % (time, "\n".join(told)) if told else ""


# What is shown of the Tube itself: the flags, the interrupts, in which registers a byte is, and how
# many in the long one.
def _tube_values(tube: Tube) -> Dict[str, int]:
    values = {"flag_" + name: tube.flags >> 5 - at & 1 for at, name in enumerate(FLAGS)}
    values.update(tube.interrupts())
    for (side, number), held in tube.held.items():
        values["r%d_to_%s" % (number, "host" if side == "H" else "para")] = int(bool(held))
    values.update(
        {"r1_to_host_count%d" % bit: len(tube.held["H", 1]) >> bit & 1 for bit in range(5)}
    )
    return values


def vcd_of(trace: Trace) -> Iterator[bytes]:
    """The trace as value changes of 10 ns: the signals of both sides, the flags and interrupts, and
    which registers hold bytes."""
    tube = Tube()
    tick = UNIT // trace.second
    held = _tube_values(tube)
    writer = _Writer(SHOWN + tuple(held))
    head = (
        "$comment beebtube speed %d $end\n$timescale 10 ns $end\n$scope module tube $end\n"
        % trace.speed
    )
    head += writer.head() + "$upscope $end\n$enddefinitions $end\n"
    idle = {signal: 1 if signal[1:] in ("RW", "CS") else 0 for signal in SHOWN}
    yield (head + writer.at(0, {**idle, **held}) + writer.at(LEAD, {RESET: 1})).encode()
    # What is to be said later, by its time: a clock that falls, and what ends an access.
    later: Dict[int, Dict[str, int]] = {}
    last = LEAD

    def until(time: int) -> Iterator[bytes]:
        for at in sorted(it for it in later if it < time):
            yield writer.at(at, later.pop(at)).encode()

    for access in trace:
        # The first unit of the tick, so that the tick follows from the time.
        start = LEAD - -access.tick * UNIT // trace.second
        half, last = start + tick // 2, start + tick
        yield from until(start)
        now = later.pop(start, {})
        tube.put(access)
        held = _tube_values(tube)
        if access.way == "X":
            now[RESET] = 0
            later.setdefault(half, {})[RESET] = 1
            later.setdefault(last, {}).update(held)
        else:
            side = access.side
            now.update({side + "A%d" % bit: access.register >> bit & 1 for bit in range(3)})
            now.update({side + "D%d" % bit: access.byte >> bit & 1 for bit in range(8)})
            now.update({side + "RW": int(access.way == "R"), side + "CS": 0, side + "CLK": 1})
            # The host's access of a tick ends first.
            later.setdefault(half + (side == "P"), {})[side + "CLK"] = 0
            later.setdefault(last, {})[side + "CS"] = 1
            later[last].update(held)
        yield writer.at(start, now).encode()
    yield from until(last + 1)
    yield b"#%d\n" % (last + LEAD)


def csv_of(trace: Trace) -> Iterator[bytes]:
    """The trace as a table: tick, time in microseconds, side, way, register, byte, the access in
    words, and after it the flags and how many bytes each register holds (h1 to the host, p1 to the
    second processor)."""
    tube = Tube()
    yield b"tick,time_us,side,way,register,byte,words,flags,h1,h2,h3,h4,p1,p2,p3,p4\n"
    for access in trace:
        tube.put(access)
        flags = "".join(name if tube.flags >> 5 - at & 1 else "-" for at, name in enumerate(FLAGS))
        row = [
            str(access.tick),
            "%.3f" % (access.tick * 1e6 / trace.second),
            access.side,
            access.way,
            str(access.register),
            "%02X" % access.byte,
            '"%s"' % words_of(*access[1:]).replace('"', '""'),
            flags,
        ]
        row += [str(len(tube.held[side, number])) for side in "HP" for number in (1, 2, 3, 4)]
        yield (",".join(row) + "\n").encode()


# --- Others to a trace ---


def names_of(text: str) -> Dict[str, str]:
    """What is called otherwise in a capture: `HCLK=D3,HD=D[7:0],HCS=!nTUBE,time=when`. Fault if it
    has another form."""
    names: Dict[str, str] = {}
    for part in text.split(","):
        name, equals, other = (word.strip() for word in part.partition("="))
        if not equals or not other.lstrip("!+ "):
            raise Fault("--names has parts like HCLK=D3: %s is none" % shown(part))
        if name in BUSES:
            names.update(
                (name + str(bit), other[: len(other) - len(other.lstrip("!+"))] + line)
                for bit, line in enumerate(_lines_of_bus(other.lstrip("!+ "), BUSES[name]))
            )
        elif name in SIGNALS + COLUMNS:
            names[name] = other
        else:
            raise Fault("--names: %s is no signal and no column" % shown(name))
    return names


# The lines of a bus, the lowest first: of `D[7:0]`, or of `D`.
def _lines_of_bus(name: str, width: int) -> List[str]:
    match = re.fullmatch(r"(.*?)\s*\[([0-9]{1,3}):([0-9]{1,3})\]", name)
    base, high, low = (
        (match.group(1), int(match.group(2)), int(match.group(3)))
        if match
        else (name, width - 1, 0)
    )
    if abs(high - low) + 1 != width:
        raise Fault(
            "--names: %s has %d lines, and needs %d"
            % (shown(name), abs(high - low) + 1, width)
        )
    return ["%s[%d]" % (base, low + (bit if high >= low else -bit)) for bit in range(width)]


def _wanted(signal: str, line: str) -> Wanted:
    is_low = signal[1:] in ACTIVE_LOW or signal == RESET
    return Wanted(line.lstrip("!+ "), is_low and not line.startswith("+") or line.startswith("!"))


class Capture:
    """A capture's file, of which `trace` makes a trace; its other answers are right once that
    is done.

    speed   the second processor's clock in MHz, 3 or 4
    sides   those that are there, "H" and "P"
    is_new  it begins at a reset
    judge   which answers are wrong
    count   how many accesses there are
    moved   how many of them are at a later tick than their time, to keep their order, and
            `farthest` by how many ticks ringing, glitches  edges and pulses that were passed over
    """

    def __init__(
        self,
        name: Name,
        speed: Optional[int] = None,
        begin: Optional[int] = None,
        names: Optional[Dict[str, str]] = None,
        glitch: Optional[Fraction] = None,
        skew: Optional[Fraction] = None,
        progress: Optional[Progress] = None,
    ):
        """
        speed   None if the file has it, else 3
        begin   at which tick the capture begins; None if its reset line shows it
        names   the file's names of signals and columns, by those here, if they are others
        glitch  seconds of the longest pulse that is passed over; None for 20 ns
        skew    seconds by which edges of the two sides may be captured in the wrong order; None for
                a sample Fault if a side has some of its signals and not all, or none is there, or
                the time of the last reset is unknown.
        """
        names = names or {}
        ending = re.sub(".*[.]", "", str(name)).lower()
        head = head_of(_lines_of(name), _fields) if ending == "csv" else None
        self.bus: Optional[Bus] = None
        self.is_new = not begin
        self.count = self.moved = self.farthest = 0
        self._at: Dict[int, int] = {}
        if head is not None and _is_list(head.columns, names):
            self.speed, self.sides, self._zero = speed or 3, ["H", "P"], 0
            rows = _Rows(name, head, names, 2000000 * (6 if speed == 4 else 3))
            self._found, unit, is_own = rows.accesses(), rows.unit, False
            self._skew: Optional[int] = 0
        else:
            reader = (
                Table(name, head, progress)
                if head is not None
                else (Session if ending == "sr" else Vcd)(name, progress)
            )
            is_own = reader.speed is not None
            self.speed = speed or reader.speed or 3
            second = 2000000 * (6 if self.speed == 4 else 3)
            self.bus = Bus(
                reader,
                {
                    signal: _wanted(signal, line)
                    for signal, line in names.items()
                    if signal in SIGNALS
                },
                begin,
                glitch,
                second,
            )
            self.sides, self._found, unit = self.bus.sides, self.bus.accesses(), reader.unit
            self._skew = (
                None
                if is_own and skew is None
                else int((reader.sample if skew is None else skew) / unit)
            )
        self.second = 2000000 * (6 if self.speed == 4 else 3)
        self._first, self._ticks = begin or 0, unit * self.second
        self.judge = Judge(self.sides, self.is_new, self._skew)

    @property
    def ringing(self) -> int:
        return self.bus.ringing if self.bus is not None else 0

    @property
    def glitches(self) -> int:
        return self.bus.glitches if self.bus is not None else 0

    def hints(self) -> List[str]:
        """What seems wrong with its lines."""
        return self.bus.hints() if self.bus is not None and self.bus.reader.speed is None else []

    def tick_of(self, number: int) -> int:
        """At which tick of the trace a wrong answer is."""
        return self._at[number]

    def trace(self) -> Iterator[bytes]:
        """The trace's lines. An access is at the tick of its end, or at the first after it that
        keeps the order."""
        many, few = self._ticks.numerator, self._ticks.denominator
        last, before = -1, {"H": -1, "P": -1}  # the order, and the times of each side's end
        half, wrong = 0 if self.bus is not None else few // 2, self.judge.wrong
        texts: Dict[Tuple[object, ...], bytes] = {}
        if self.speed == 4:
            yield b"T2\n"
        for access in self.judge.ordered(self._found):
            side, way, register, byte, _, end, line = access
            zero = self.bus and self.bus.zero or 0
            tick = self._first + ((end - zero) * many + half) // few
            order = 2 * tick + (side == "P")
            if order <= last:
                if line and before[side] == end:
                    raise Fault(
                        "line %d: %s has an access at tick %d already, and one a tick at most"
                        % (line, SIDES[side], tick)
                    )
                order = last + 1 + ((last + 1) % 2 != (side == "P"))
                self.moved, self.farthest = self.moved + 1, max(self.farthest, order // 2 - tick)
            before[side] = end
            last, tick = order, order // 2
            if tick > MOST_TICK:
                raise Fault("%s: a trace has ticks up to %X" % (self.place_of(access), MOST_TICK))
            self.count += 1
            if wrong and wrong[-1].number == self.count:
                self._at[self.count] = tick
            text = texts.get(access[:4])
            if text is None:
                text = b" %s %s %d %02X\n" % (side.encode(), way.encode(), register, byte)
                texts[access[:4]] = text
            yield b"%010X%s" % (tick, text)

    def place_of(self, access: Captured) -> str:
        """Where the file has an access."""
        return (
            "line %d" % access.line
            if access.line or self.bus is None
            else self.bus.reader.place(access.end)
        )


# --- Lists of accesses ---


def _lines_of(name: Name) -> Iterator[Tuple[int, str]]:
    number = 0
    with open_file(name) as file:
        for line in iter(lambda: _read_line(file, name), b""):
            number += 1
            if len(line) > MOST_LINE:
                raise Fault("line %d has more than %d bytes" % (number, MOST_LINE))
            try:
                yield number, line.decode("utf-8").lstrip("\ufeff")
            except UnicodeDecodeError:
                raise Fault("line %d is no text" % number) from None


def _read_line(file: BinaryIO, name: Name) -> bytes:
    try:
        return file.readline(MOST_LINE + 1)
    except OSError:
        raise Fault("cannot read %s" % name) from None


def _fields(line: str, number: int) -> List[str]:
    if '"' not in line:
        return [word.strip() for word in line.split(",")]
    try:
        return [word.strip() for word in next(csv.reader(io.StringIO(line)))]
    except (csv.Error, StopIteration):
        raise Fault("line %d is no row of a table" % number) from None


def _is_list(columns: List[str], names: Dict[str, str]) -> bool:
    lower = {column.lower() for column in columns}
    wanted = {
        word
        for column in ("side", "way", "register", "byte")
        for word in (column,) + ALSO.get(column, ())
    }
    return bool(lower & wanted) or any(column in names for column in COLUMNS if column not in TIMES)


class _Rows:
    """The accesses of a table that has a line for each: `tick`, or a time with its unit; `side`, H
    or P; `way`, R, W or X, or 1 for a read; `register`, in hexadecimal digits of which the low
    three bits count; `byte`. Lines that begin with `;` or `#` are comments.
    """

    def __init__(self, name: Name, head: Head, names: Dict[str, str], second: int):
        self._name, self._head = name, head
        self._place = self._places(head.columns, names)
        self._words: Dict[Tuple[str, str], int] = {}
        column = next(column for column in self._place if column in TIMES)
        self._time = self._place[column]
        self._is_tick = column == "tick"
        unit = time_unit_of(head.columns[self._time] if column == "time" else column) or Fraction(1)
        self.unit = Fraction(1, second) if self._is_tick else unit / 10**12

    def _places(self, row: List[str], names: Dict[str, str]) -> Dict[str, int]:
        lower = [word.lower() for word in row]
        place = {}
        for column in ("side", "way", "register", "byte"):
            wanted = (
                [names[column].lower()]
                if column in names
                else [column] + list(ALSO.get(column, ()))
            )
            place[column] = next((lower.index(it) for it in wanted if it in lower), -1)
            if place[column] < 0:
                raise Fault(
                    "no column is called %s; there are %s"
                    % (shown(names.get(column, column)), ", ".join(map(shown, row[:20])))
                )
        for column in TIMES:
            if column in names and names[column].lower() not in lower:
                raise Fault(
                    "no column is called %s; there are %s"
                    % (shown(names[column]), ", ".join(map(shown, row[:20])))
                )
        named = [column for column in TIMES if column in names]
        if named:
            return {**place, named[0]: lower.index(names[named[0]].lower())}
        if "tick" in lower:
            return {**place, "tick": lower.index("tick")}
        at = next((at for at, word in enumerate(row) if word and time_unit_of(word)), -1)
        if at < 0:
            raise Fault(
                "no column is called tick, time or time_us; there are %s"
                % ", ".join(map(shown, row[:20]))
            )
        return {**place, "time": at}

    def accesses(self) -> Iterator[Captured]:
        """The accesses in their order; those of one tick, if there are ticks, the host's first."""
        most, time, beside = max(self._place.values()), -1, []  # type: int, int, List[Captured]
        for number, line in _lines_of(self._name):
            if number <= self._head.line or not line.strip() or line[0] in ";#":
                continue
            row = _fields(line, number)
            if len(row) <= most:
                raise Fault(
                    "line %d has %d columns, and needs %d" % (number, len(row), 1 + most)
                )
            access = self._access(row, number)
            if access.end < time:
                raise Fault(
                    "line %d: its %s is below that of the access before"
                    % (number, "tick %d" % access.end if self._is_tick else "time")
                )
            if access.end > time or not self._is_tick:
                yield from sorted(beside, key=lambda it: it.side) if self._is_tick else beside
                beside = []
            time = access.end
            beside.append(access)
        yield from sorted(beside, key=lambda it: it.side) if self._is_tick else beside

    def _access(self, row: List[str], number: int) -> Captured:
        text = row[self._time]
        try:
            time = (
                int(text)
                if self._is_tick and re.fullmatch("[0-9]{1,15}", text)
                else None
                if self._is_tick
                else time_in(text.encode())
            )
        except ValueError:
            time = None
        if time is None or time < 0:
            raise Fault(
                "line %d: %s is no %s" % (number, shown(text), "tick" if self._is_tick else "time")
            )
        side, way, register, byte = (
            self._word(column, row[self._place[column]], number)
            for column in ("side", "way", "register", "byte")
        )
        if way == 2:
            return Captured("H", "X", 0, 0, time, time, number)
        return Captured("HP"[side], "WR"[way], register, byte, time, time, number)

    # A word of a column as a number; each is looked at once.
    def _word(self, column: str, text: str, number: int) -> int:
        value = self._words.get((column, text))
        if value is None:
            form, number_of = WORDS[column]
            if not re.fullmatch(form, text):
                raise Fault(
                    "line %d: %s is no %s" % (number, shown(text) if text else "nothing", column)
                )
            value = number_of(text)
            if len(self._words) < 10000:
                self._words[column, text] = value
        return value


def _hexadecimal(text: str) -> int:
    return int(re.sub("0x|&", "", text), 16)


WORDS: Dict[str, Tuple[str, Callable[[str], int]]] = {
    "side": ("[HhPp].{0,20}", lambda text: int(text[0] in "Pp")),
    "way": ("[RrWwXx01]", lambda text: "w0r1x".index(text.lower()) // 2),
    "register": ("(0x|&)?[0-9A-Fa-f]{1,4}", lambda text: _hexadecimal(text) & 7),
    "byte": ("(0x|&)?[0-9A-Fa-f]{1,2}", _hexadecimal),
}
