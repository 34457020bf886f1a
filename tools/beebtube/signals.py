"""The signals of a capture over time.

A file is a VCD, a table (CSV) of PulseView, sigrok-cli or Saleae Logic 2, or sigrok's `.sr`. Each
reader gives the moments at which a line that bounds accesses changes, many at once, with the levels
right before and right after.
"""

from __future__ import annotations

import configparser
import itertools
import re
import sys
import zipfile
import zlib
from array import array
from decimal import Decimal, InvalidOperation
from fractions import Fraction
from typing import Callable, Dict, Iterable, Iterator, List, NamedTuple, Optional, Tuple

from .faults import Fault
from .files import Name, open_file
from .words import shown

MOST_LINE = 65536
MOST_KEPT = 100000  # moments of a VCD that are not looked at again
BLOCK = 1 << 20
MOST_MOMENTS = 8192  # moments that are given at once
UNITS = ("s", "ms", "us", "ns", "ps", "fs")
# What reading an archive may raise.
DAMAGED = (zipfile.BadZipFile, OSError, zlib.error, NotImplementedError, RuntimeError)

Moment = Tuple[int, int, int]  # the time in units, the levels right before, and those right after
Progress = Callable[[int], None]


class Moments(NamedTuple):
    """Moments at which a watched line changes: their times, all levels right before each, and the
    watched lines that are active right before and right after it, a bit for each."""

    times: List[int]
    levels: List[int]
    before: bytes
    after: bytes

    def part(self, begin: int, end: Optional[int]) -> "Moments":
        """Those from one place to another."""
        at = slice(begin, end)
        return Moments(self.times[at], self.levels[at], self.before[at], self.after[at])


def _moments(times: List[int], levels: List[int], first: int, after: bytes) -> Moments:
    """`first` has the active lines before the first moment."""
    return Moments(times, levels, (bytes([first]) + after)[: len(after)], after)


class Watched(Dict[int, int]):
    """By the levels of the watched lines, those that are active: bit n is line n of `lines`, which
    has its bit in the levels, and whether it is active low. An unknown level is not active."""

    def __init__(self, lines: List[Tuple[int, bool]], unknown: int):
        super().__init__()
        self._lines, self._unknown = lines, unknown
        self.bits = sum(bit for bit, _ in lines)
        self._mask = self.bits | self.bits << unknown

    def __missing__(self, levels: int) -> int:
        known = ~(levels >> self._unknown) if self._unknown else -1
        self[levels] = active = self.active(levels, known)
        return active

    def active(self, levels: int, known: int) -> int:
        """The lines that are active among the known ones."""
        return sum(
            1 << at
            for at, (bit, is_low) in enumerate(self._lines)
            if known & bit and (levels & bit == 0) == is_low
        )

    def among(self, moments: List[Moment]) -> Moments:
        """The same moments with the active lines."""
        mask, (times, before, after) = self._mask, zip(*moments)
        active = bytes([self[levels & mask] for levels in after])
        return _moments(list(times), list(before), self[before[0] & mask], active)


def plain_name(name: str) -> str:
    """A line's name without blanks and brackets: `D[0]`, `D 0` and `D0` are one."""
    return re.sub(r"[][\s\"]", "", name)


def _hertz(text: str) -> Optional[Fraction]:
    """The frequency that a text is, `24 MHz`; None if it is none, or 0."""
    match = re.fullmatch(r"([0-9]{1,12}(?:[.][0-9]{1,9})?)(?: ?([kMG]?)Hz)?", text)
    if not match:
        return None
    return Fraction(match.group(1)) * 1000 ** " kMG".index(match.group(2) or " ") or None


def _seconds_of(number: str, unit: str) -> Fraction:
    return Fraction(int(number), 1000 ** UNITS.index(unit))


class Lines:
    """The lines of a file by their names."""

    def __init__(self) -> None:
        self.names: List[str] = []
        self._exact: Dict[str, int] = {}
        self._plain: Dict[str, List[int]] = {}

    def add(self, name: str) -> None:
        self._exact.setdefault(name, len(self.names))
        self._plain.setdefault(plain_name(name), []).append(len(self.names))
        self.names.append(name)

    def find(self, name: str) -> Optional[int]:
        """The number of a line; None if there is none, or the name without blanks and brackets is
        that of several."""
        if name in self._exact:
            return self._exact[name]
        found = self._plain.get(plain_name(name), [])
        return found[0] if len(found) == 1 else None


# --- Readers ---


class Reader:
    """A capture's file.

    lines   its lines, in their order; the level of line n is bit `bit_of(n)`
    unit    seconds of a unit of its time
    start   the time of its first sample
    sample  seconds between two samples, 0 if the file does not say
    speed   the second processor's clock in MHz, if the file says it: then `vcd_of` wrote it
    unknown by how many bits a level's mark that it is neither 0 nor 1 is above it; 0 if all levels
    are known
    """

    unknown = 0

    def __init__(self, name: Name, progress: Optional[Progress]):
        self.name = name
        self.lines = Lines()
        self.unit = self.sample = Fraction(0)
        self.start = 0
        self.speed: Optional[int] = None
        self._progress = progress or (lambda done: None)

    def bit_of(self, number: int) -> int:
        return number

    def moments(self, watched: int, wanted: int) -> Iterator[Moment]:
        """The moments at which a watched bit changes; of the levels only requested bits are right."""
        raise NotImplementedError

    def blocks(self, watched: Watched, wanted: int) -> Iterator[Moments]:
        """The same moments, many at once."""
        moments = self.moments(watched.bits, wanted)
        while part := list(itertools.islice(moments, MOST_MOMENTS)):
            yield watched.among(part)

    def place(self, time: int) -> str:
        """Where the file has a moment."""
        raise NotImplementedError

    # Whole lines of the file, some at once, and the number of the first.
    def _blocks(self) -> Iterator[Tuple[int, bytes]]:
        number, left, done = 1, b"", 0
        with open_file(self.name) as file:
            while True:
                try:
                    block = file.read(BLOCK)
                except OSError:
                    raise Fault("cannot read %s" % self.name) from None
                done += len(block)
                self._progress(done)
                whole, feed, rest = (left + block).rpartition(b"\n") if block else (left, b"", b"")
                if len(rest) > MOST_LINE:
                    raise Fault(
                        "line %d has more than %d bytes"
                        % (number + whole.count(b"\n") + len(feed), MOST_LINE)
                    )
                if whole or feed:
                    yield number, whole + feed
                number, left = number + (whole + feed).count(b"\n"), rest
                if not block:
                    return


class Vcd(Reader):
    """Value changes, as sigrok, PulseView and simulators write them."""

    unknown = 40
    _everything = (1 << 88) - 1  # levels, which of them are unknown, and the active lines

    def __init__(self, name: Name, progress: Optional[Progress] = None):
        super().__init__(name, progress)
        self._marks: Dict[
            bytes, List[int]
        ] = {}  # by its mark the lines of a variable, the highest bit first
        self._rest = self._blocks()
        self._number, self._begin = 1, b""
        self._bits: Dict[int, int] = {}
        self._read_head()

    def _read_head(self) -> None:
        part: List[bytes] = []
        for number, block in self._rest:
            offset = 0
            for line in block.splitlines(keepends=True):
                for match in re.finditer(rb"\S+", line):
                    if match.group() != b"$end":
                        part.append(match.group())
                        if len(part) > MOST_LINE:
                            raise Fault("line %d: a part of the head has no $end" % number)
                        continue
                    if part:
                        self._take([word.decode("utf-8", "replace") for word in part], number)
                    if part[:1] == [b"$enddefinitions"]:
                        if not self.unit:
                            raise Fault("the file has no $timescale")
                        self._number, self._begin = number, block[offset + match.end() :].lstrip(
                            b" \t"
                        )
                        return
                    part = []
                number, offset = number + 1, offset + len(line)
        raise Fault("it is no VCD: no $enddefinitions is there")

    def _take(self, part: List[str], number: int) -> None:
        text = " ".join(part[1:])
        if part[0] == "$timescale":
            match = re.fullmatch(r"(1|10|100) ?(s|ms|us|ns|ps|fs)", text)
            if not match:
                raise Fault("line %d: the timescale %s is none" % (number, shown(text)))
            self.unit = _seconds_of(match.group(1), match.group(2))
        elif part[0] == "$var" and len(part) >= 5:
            self._declare(part[2], part[3].encode(), " ".join(part[4:]), number)
        elif part[0] == "$comment":
            match = re.search(r"beebtube speed ([34])", text)
            self.speed = int(match.group(1)) if match else self.speed
            match = re.search(r"\bat ([0-9.]+ [kMG]?Hz)", text)
            self.sample = 1 / hertz if match and (hertz := _hertz(match.group(1))) else self.sample

    def _declare(self, width: str, mark: bytes, name: str, number: int) -> None:
        if not re.fullmatch("[0-9]{1,4}", width) or not 1 <= int(width) <= 64:
            return
        first = len(self.lines.names)
        if first + int(width) > 512:
            raise Fault("line %d: more than 512 lines" % number)
        match = re.fullmatch(r"(.*?)\s*\[([0-9]{1,3}):([0-9]{1,3})\]", name)
        base, high, low = (
            (match.group(1), int(match.group(2)), int(match.group(3)))
            if match
            else (name, int(width) - 1, 0)
        )
        if int(width) == 1 and not match:
            self.lines.add(name)
        else:
            step = -1 if high >= low else 1
            for index in range(int(width)):
                self.lines.add("%s[%d]" % (base, high + step * index))
        self._marks.setdefault(mark, list(range(first, first + int(width))))

    def bit_of(self, number: int) -> int:
        return self._bits.setdefault(number, len(self._bits))

    def blocks(self, watched: Watched, wanted: int) -> Iterator[Moments]:
        """As `Reader` has it. The active lines are above the levels in one number. What a moment
        says is looked at once, and kept with what it changes."""
        self._table = {
            level + mark: change
            for mark, numbers in self._marks.items()
            if len(numbers) == 1
            for level, change in self._changes_of(numbers[0], watched).items()
        }
        self._watched, above = watched, 2 * self.unknown
        kept: Dict[bytes, Tuple[int, int]] = {}
        get = kept.get
        state = before = wanted << self.unknown
        time = active = 0
        for number, block in itertools.chain([(self._number, self._begin)], self._rest):
            # Line 0 of it is empty, so that each time follows a line feed.
            number, block = number - 1, b"\n" + block
            moments = iter(block.split(b"\n#"))
            changes = next(moments)
            if not changes.isspace():
                change = self._change_of(changes, block, number, moments)
                state = state & change[0] | change[1]
            times: List[int] = []
            levels: List[int] = []
            first, after = active, bytearray()
            for moment in moments:
                if state >> above != active:
                    active = state >> above
                    times.append(time)
                    levels.append(before)
                    after.append(active)
                before, earlier = state, time
                try:
                    at, changes = moment.split(None, 1)
                    time = int(at)
                except ValueError:
                    at, changes = moment.strip(), b""
                    time = int(at) if at.isdigit() else -1
                if time < earlier:
                    what = "is no time, or below the one before"
                    token = b"#" + b"".join(at.split(None, 1)[:1])
                    raise self._fault(block, number, moments, token, what)
                known = get(changes)
                if known is None:
                    known = self._change_of(changes, block, number, moments)
                    if len(kept) >= MOST_KEPT:
                        kept.clear()
                    kept[changes] = known
                state = state & known[0] | known[1]
            yield _moments(times, levels, first, bytes(after))
        yield Moments([time], [before], bytes([active]), bytes([state >> above]))

    def _change_of(
        self, changes: bytes, block: bytes, number: int, moments: Iterator[bytes]
    ) -> Tuple[int, int]:
        """Which bits stay, and which are set, by all changes of a moment."""
        state, keep = 0, self._everything
        tokens = iter(changes.split())
        for token in tokens:
            one = self._table.get(token) or self._other_change(token, tokens)
            if one is None:
                raise self._fault(block, number, moments, token, "is no change of a value")
            state, keep = state & one[0] | one[1], keep & one[0]
        return keep, state

    def _other_change(self, token: bytes, tokens: Iterator[bytes]) -> Optional[Tuple[int, int]]:
        none = self._everything, 0
        if token[0] in b"bB":
            return self._vector(token[1:], next(tokens, b""))
        if token[0] in b"rR":
            next(tokens, None)
        elif token == b"$comment":
            # What is in it changes nothing; its end may be far below.
            for word in tokens:
                if word == b"$end":
                    break
        elif token[0] != 36 and not (token[0] in b"01xXzZ" and len(token) > 1):
            return None
        return none

    def _fault(
        self, block: bytes, number: int, moments: Iterator[bytes], token: bytes, what: str
    ) -> Fault:
        rest = sum(moment.count(b"\n") + 1 for moment in moments)
        lines = block.split(b"\n")
        at = len(lines) - 1 - rest
        while at > 0 and token not in lines[at].split():
            at -= 1
        return Fault("line %d: %s %s" % (number + at, shown(token.decode("latin-1")), what))

    # By each level of a line, which bits stay and which are set. A line that is not requested changes
    # nothing.
    def _changes_of(self, number: int, watched: Watched) -> Dict[bytes, Tuple[int, int]]:
        bit = 1 << self._bits[number] if number in self._bits else 0
        low, high = (watched.active(level, bit) << 2 * self.unknown for level in (0, bit))
        keep = self._everything ^ (bit | bit << self.unknown | low | high)
        return {
            b"0": (keep, low),
            b"1": (keep, bit | high),
            **{level: (keep, bit << self.unknown) for level in (b"x", b"X", b"z", b"Z")},
        }

    def _vector(self, levels: bytes, mark: bytes) -> Tuple[int, int]:
        numbers = self._marks.get(mark, [])
        fill = levels[:1] if levels[:1] in (b"x", b"X", b"z", b"Z") else b"0"
        state, keep = 0, self._everything
        for number, level in zip(numbers, levels.rjust(len(numbers), fill)[-len(numbers) :]):
            change = self._changes_of(number, self._watched).get(bytes([level]), (keep, 0))
            state, keep = state & change[0] | change[1], keep & change[0]
        return keep, state

    def place(self, time: int) -> str:
        return "#%d" % time


def time_in(text: bytes) -> int:
    """A number in units of 10^-12; ValueError if it is none."""
    whole, _, part = text.partition(b".")
    if len(whole) < 16 and (
        part.isdigit() and whole.isdigit() or not part and whole.lstrip(b"-").isdigit()
    ):
        return int(whole + (part + b"000000000000")[:12])
    try:
        value = Decimal(text.decode("ascii"))
        if abs(value) > 10**15:
            raise ValueError
        return int(value * 10**12)
    except (InvalidOperation, UnicodeDecodeError, OverflowError):
        raise ValueError from None


class Table(Reader):
    """A table with a column for each line: samples as sigrok has them, or changes with their times
    as Saleae Logic 2 has them."""

    def __init__(self, name: Name, head: "Head", progress: Optional[Progress] = None):
        super().__init__(name, progress)
        self._head = head
        self._has_time = head.time_unit is not None
        for column in head.columns[self._has_time :]:
            self.lines.add(column)
        if self._has_time:
            assert head.time_unit is not None
            self.unit = head.time_unit / 10**12
        elif head.rate:
            self.unit = 1 / head.rate
        else:
            raise Fault("the table has no column of times, and does not say the sample rate")
        self.sample = 1 / head.rate if head.rate else Fraction(0)
        first = next(self._rows(), None)
        if self._has_time and first is not None:
            self.start = self._time_of(first[1].partition(b",")[0], first[0])

    def bit_of(self, number: int) -> int:
        return len(self.lines.names) - 1 - number

    def moments(self, watched: int, wanted: int) -> Iterator[Moment]:
        """As `Reader` has it. A row is a number in binary digits."""
        count, row, time = len(self.lines.names), -1, 0
        last, before = b"", -1
        for number, line in self._rows():
            row += 1
            at, _, levels = line.partition(b",") if self._has_time else (b"", b"", line)
            if levels == last:
                continue
            last = levels
            digits = levels.translate(None, b', \t\r\n"')
            if len(digits) != count or digits.strip(b"01"):
                raise Fault("line %d is no row of %d levels, 0 or 1" % (number, count))
            state, earlier = int(digits, 2), time
            time = self._time_of(at, number) if self._has_time else row
            if self._has_time and before >= 0 and time <= earlier:
                raise Fault(
                    "line %d: its time %s is not above that of the row before"
                    % (number, shown(at.decode("latin-1")))
                    + (
                        "; libsigrok 0.5.2 writes all times as 0: export all samples, without times"
                        if not time
                        else ""
                    )
                )
            if before >= 0 and (state ^ before) & watched:
                yield time, before, state
            before = state

    def _time_of(self, text: bytes, number: int) -> int:
        try:
            return time_in(text.strip(b' "'))
        except ValueError:
            raise Fault(
                "line %d: %s is no time in seconds" % (number, shown(text.decode("latin-1")))
            ) from None

    def _rows(self) -> Iterator[Tuple[int, bytes]]:
        for first, block in self._blocks():
            for number, line in enumerate(block.splitlines(), first):
                if number > self._head.line and line and line[0] not in b";#":
                    yield number, line

    def place(self, time: int) -> str:
        return "%.9f s" % float(time * self.unit) if self._has_time else "sample %d" % time


class Head(NamedTuple):
    """The head of a table: the names of its columns, the line that ends it, the unit of its first
    column if that has times, and the sample rate in Hz if it says one."""

    columns: List[str]
    line: int
    time_unit: Optional[Fraction]
    rate: Optional[Fraction]


LONG_UNITS = {
    "seconds": "s",
    "milliseconds": "ms",
    "microseconds": "us",
    "nanoseconds": "ns",
    "picoseconds": "ps",
}
_UNIT, _LONG = "|".join(UNITS + tuple(LONG_UNITS)), "|".join(LONG_UNITS)
TIME = re.compile(rf"time|time[\s_]+({_UNIT})|time[\s_]*[\[(]\s*({_UNIT})\s*[\])]|({_LONG})")


def time_unit_of(column: str) -> Optional[Fraction]:
    """Seconds of a unit of a column of times, `Time [s]`, `time_us`, `time (ns)`, `nanoseconds`;
    None if its name is of none."""
    name = column.strip().lower().replace("\u00b5", "u").replace("\u03bc", "u")
    match = TIME.fullmatch(name)
    if not match:
        return None
    unit = next(filter(None, match.groups()), "s")
    return _seconds_of("1", LONG_UNITS.get(unit, unit))


def head_of(lines: Iterator[Tuple[int, str]], fields: Callable[[str, int], List[str]]) -> Head:
    """The head of a table, whose lines before the names of columns are comments."""
    channels: List[str] = []
    rate: Optional[Fraction] = None
    for number, line in lines:
        match = re.match(r"[;#]\s*Channels \([0-9/]+\): (.*)", line)
        if match:
            channels = [name.strip() for name in match.group(1).split(",")]
        match = re.match(r"(?:META|[;#])\s*samplerate: (.*)", line, re.I)
        rate = _hertz(match.group(1).strip()) if match else rate
        if not line.strip() or line[0] in ";#" or line.startswith("META "):
            continue
        columns = fields(line, number)
        while columns and not columns[-1]:
            columns.pop()
        if channels and len(columns) - len(channels) in (0, 1):
            return _of_sigrok(columns, channels, number, rate, line)
        unit = time_unit_of(columns[0]) if columns else None
        return Head(columns, number, unit, rate)
    raise Fault("it is no table: its first line names the columns")


# sigrok's names of columns are units, unless it is asked for those of channels; its times have a
# unit that the rate decides.
def _of_sigrok(
    columns: List[str], channels: List[str], number: int, rate: Optional[Fraction], line: str
) -> Head:
    if len(columns) == len(channels):
        is_row = not line.translate(str.maketrans("", "", "01, \r\n"))
        return Head(channels, number - is_row, None, rate)
    unit = time_unit_of(columns[0]) if columns[0].lower() != "time" else None
    if unit is None:
        unit = Fraction(
            1,
            next(
                (
                    many
                    for many in (10**3, 10**6, 10**9, 10**12)
                    if (rate or 10**9) <= many
                ),
                10**15,
            ),
        )
    return Head([columns[0]] + channels, number, unit, rate)


class Session(Reader):
    """A file of sigrok's own, `.sr`: an archive of samples."""

    def __init__(self, name: Name, progress: Optional[Progress] = None):
        super().__init__(name, progress)
        try:
            with open_file(name) as file, zipfile.ZipFile(file) as archive, archive.open(
                "metadata"
            ) as part:
                text = part.read(BLOCK).decode("utf-8")
        except (*DAMAGED, KeyError, UnicodeDecodeError):
            raise Fault(
                "%s is no session of sigrok: an archive with a file `metadata`" % name
            ) from None
        metadata = configparser.ConfigParser(interpolation=None, strict=False)
        try:
            metadata.read_string(text)
            device = dict(metadata["device 1"])
            self._size = int(device["unitsize"])
            probes = {
                int(key[5:]): value
                for key, value in device.items()
                if re.fullmatch("probe[0-9]{1,3}", key)
            }
            self.unit = self.sample = 1 / (_hertz(device["samplerate"].strip()) or Fraction(0))
            self._files = device.get("capturefile", "logic-1")
        except (configparser.Error, KeyError, ValueError, AttributeError, ZeroDivisionError):
            raise Fault(
                "%s has no samples of logic, or does not say their names, their size and their rate"
                % name
            ) from None
        if not 1 <= self._size <= 64 or not probes:
            raise Fault("%s has no samples of logic" % name)
        for at in range(1, max(probes) + 1):
            self.lines.add(probes.get(at, ""))
        if len(self.lines.names) > 8 * self._size:
            raise Fault("%s names more lines than its samples have bits" % name)

    # The samples, in blocks of whole samples.
    def _samples(self) -> Iterator[bytes]:
        left = b""
        try:
            with open_file(self.name) as whole, zipfile.ZipFile(whole) as archive:
                parts = [
                    it
                    for it in archive.namelist()
                    if re.fullmatch(re.escape(self._files) + "(-[0-9]{1,9})?", it)
                ]
                for part in sorted(parts, key=lambda it: int(it[len(self._files) + 1 :] or 0)):
                    with archive.open(part) as file:
                        while block := file.read(BLOCK):
                            self._progress(whole.tell())
                            left += block
                            size = len(left) - len(left) % self._size
                            yield left[:size]
                            left = left[size:]
        except (*DAMAGED, EOFError):
            raise Fault("%s is damaged" % self.name) from None

    def blocks(self, watched: Watched, wanted: int) -> Iterator[Moments]:
        """As `Reader` has it. The active lines of a block are compared with those a sample later,
        as one number."""
        size, first = self._size, 0
        tables = [
            (at, bytes([watched.active(value << 8 * at, 255 << 8 * at) for value in range(256)]))
            for at in range(size)
            if watched.bits >> 8 * at & 255
        ]
        last = b""
        for block in self._samples():
            # The last sample of the block before comes first.
            whole = (last or block[:size]) + block
            count, active = len(whole) // size, 0
            for at, table in tables:
                active |= int.from_bytes(whole[at::size].translate(table), "little")
            lines = active.to_bytes(count, "little")
            changes = (active ^ active >> 8).to_bytes(count, "little")[:-1]
            yield Moments(
                list(itertools.compress(range(first, first + count), changes)),
                list(itertools.compress(self._numbers(whole), changes)),
                bytes(itertools.compress(lines, changes)),
                bytes(itertools.compress(lines[1:], changes)),
            )
            last, first = whole[-size:], first + len(block) // size

    # The samples of a block as numbers.
    def _numbers(self, block: bytes) -> Iterable[int]:
        size = self._size
        if size > 8:
            places = range(0, len(block), size)
            return (int.from_bytes(block[at : at + size], "little") for at in places)
        wide = 1 << (size - 1).bit_length()
        if wide > size:
            spaced = bytearray(len(block) // size * wide)
            for at in range(size):
                spaced[at::wide] = block[at::size]
            block = bytes(spaced)
        found = array({1: "B", 2: "H", 4: "I", 8: "Q"}[wide], block)
        if sys.byteorder == "big":
            found.byteswap()
        return found

    def place(self, time: int) -> str:
        return "sample %d" % time
