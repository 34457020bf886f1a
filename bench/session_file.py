"""Session files, written a second time from docs/COMMANDS.md: the bytes of a session, the session of
some bytes, and for other bytes the place of the first field that is wrong.
"""
import collections
import functools

MOST_TICKS = 1073741824
MOST_ENTRIES = 4194304
ABSENT = 0xFFFFFFFF
DISCS = ("--disc0", "--disc1")
# The parts in their order, each under the option that gives it, and the lengths that it may have.
PARTS = {
    "--os": (16384,),
    "--tube": (2048,),
    **{"--rom%d" % slot: (8192, 16384) for slot in range(16)},
    "--font": (960,),
    **{disc: range(409601) for disc in DISCS},
    "--keys": range(1048577),
}
NEEDED = ("--os", "--tube")
LARGEST_SSD = 204800
KINDS = {"R": 0x00, "W": 0x20, "X": 0x40}

# `what` is R, W or X, as in a trace.
Entry = collections.namedtuple("Entry", "tick side what register byte")
# `parts` has the bytes of each part that is there, and `dsd` the options of the discs that are a DSD.
Session = collections.namedtuple("Session", "clock ticks plugs parts dsd entries")


class BadField(Exception):
    """No session file: `at` is the place of the fault."""

    def __init__(self, at):
        super().__init__("%d" % at)
        self.at = at


def encode(session):
    """The bytes of a session, of one that is outside its limits too."""
    text = [b"BTUB\x01", bytes((session.clock,)), session.ticks.to_bytes(4, "big"), bytes((session.plugs,))]
    for option in PARTS:
        part = session.parts.get(option)
        text.append((ABSENT if part is None else len(part)).to_bytes(4, "big"))
        if part is not None:
            text += [bytes((option in session.dsd,))] if option in DISCS else []
            text.append(part)
    text.append(len(session.entries).to_bytes(4, "big"))
    text += [entry_bytes(entry) for entry in session.entries]
    return b"".join(text)


@functools.lru_cache(65536)
def entry_bytes(entry):
    what = (0x80 if entry.side == "P" else 0) | KINDS[entry.what] | entry.register
    return entry.tick.to_bytes(5, "big") + bytes((what, entry.byte))


class Reader:
    """Fields one after the other, with the place and length of each."""

    def __init__(self, text):
        self.text, self.at, self.places = text, 0, []

    def field(self, length, fits, of=bytes):
        """The next field, or what it says, if that fits."""
        begin, end = self.at, self.at + length
        if end > len(self.text):
            raise BadField(len(self.text))
        value = of(self.text[begin:end])
        if not fits(value):
            raise BadField(begin)
        self.at = end
        self.places.append((begin, length))
        return value


def number(field):
    return int.from_bytes(field, "big")


@functools.lru_cache(65536)
def entry_of(field):
    """The entry of a field, or nothing where it is none, and what rises from one entry to the next: twice its tick, one more for `P`."""
    what = {kind: name for name, kind in KINDS.items()}.get(field[5] & 0x78)
    entry = Entry(number(field[:5]), "P" if field[5] & 0x80 else "H", what, field[5] & 7, field[6])
    is_one = what and (what != "X" or entry[1:] == ("H", "X", 0, 0))
    return entry if is_one else None, 2 * entry.tick + (entry.side == "P")


def read_entries(reader, count, ticks):
    """The next entries, each a field of seven bytes, of a session that is `ticks` long."""
    begin, text, entries, before = reader.at, reader.text, [], -1
    for entry, here in map(entry_of, [text[at : at + 7] for at in range(begin, min(begin + 7 * count, len(text) - 6), 7)]):
        if entry is None or here <= before or here >= 2 * ticks:
            break
        entries.append(entry)
        before = here
    reader.at = begin + 7 * len(entries)
    reader.places += [(at, 7) for at in range(begin, reader.at, 7)]
    if len(entries) < count:
        raise BadField(reader.at if reader.at + 7 <= len(text) else len(text))
    return entries


def read(reader):
    """The session that the fields of a reader are; it goes as far as they fit."""
    reader.field(4, lambda value: value == b"BTUB")
    reader.field(1, lambda value: value == b"\x01")
    clock = reader.field(1, lambda value: value in (3, 4), number)
    ticks = reader.field(4, lambda value: value <= MOST_TICKS, number)
    plugs = reader.field(1, lambda value: value <= 8, number)
    parts, dsd = {}, set()
    for option, lengths in PARTS.items():
        length = reader.field(4, lambda value: value in lengths or (value == ABSENT and option not in NEEDED), number)
        if length == ABSENT:
            continue
        if option in DISCS and reader.field(1, lambda value: value == 1 or (value == 0 and length <= LARGEST_SSD), number):
            dsd.add(option)
        parts[option] = reader.field(length, lambda value: True)
    entries = read_entries(reader, reader.field(4, lambda value: value <= MOST_ENTRIES, number), ticks)
    if reader.at != len(reader.text):
        raise BadField(reader.at)
    return Session(clock, ticks, plugs, parts, dsd, entries)


def decode(text):
    """The session of these bytes; BadField is raised where they are none."""
    return read(Reader(text))


def places(text):
    """Place and length of each field, as far as they fit."""
    reader = Reader(text)
    try:
        read(reader)
    except BadField:
        pass
    return reader.places


@functools.lru_cache(65536)
def line_of(entry):
    return "%010X %s %s %d %02X\n" % entry


@functools.lru_cache(65536)
def entry_of_line(line):
    return Entry(int(line[:10], 16), line[11], line[13], int(line[15]), int(line[17:], 16))


def trace(clock, entries):
    """The text of a trace of these entries."""
    lines = ["T2\n"] if clock == 4 else []
    lines += map(line_of, entries)
    return "".join(lines).encode()


def entries_of(text):
    """The entries of the text of a trace."""
    return [entry_of_line(line) for line in text.decode().splitlines() if line != "T2"]


def saved(clock, ticks, plugs, parts, dsd, kept, tube):
    """The session that is saved of a run to `ticks` whose trace has the entries `kept`, of `tube` in all."""
    if len(kept) != tube:
        ticks = kept[-1].tick if kept else 0
    return Session(clock, ticks, plugs, parts, dsd, [entry for entry in kept if entry.tick < ticks])
