"""A list of runs, from a table (CSV) or a folder of discs: which words each run has, and which files it reads.

A run is a function of its files. So each is planned with names of its own for all that it reads and writes (`os`, `disc0.ssd`, `out`), in
which no name of the list stands, and has a key: the sum of these words, of the files' sums and of the program. Runs with one key are
one run.
"""
from __future__ import annotations

import csv
import hashlib
import io
import os
import re
import shlex
from typing import Dict, Iterator, List, NamedTuple, Optional, Sequence, Set, Tuple

from .archives import Folder, bare, folders_in, is_disc, place_in, read_disc
from .faults import Fault
from .files import IMAGE_CAP, SESSION_CAP, TEXT_CAP, TRACE_CAP, Sum, read_text, sum_of
from .program import version
from .script import BadScript, Event, Script, typed
from .sets import input_name, read_set
from .words import COMMANDS, OPTIONS, number_of, shown, told

SET = ".set"
# Commands whose words have TICKS and OUT.
RUNS = tuple(command for command, alone in COMMANDS.items() if "TICKS" in alone and "OUT" in alone)
CAPS = {"TRACE": TRACE_CAP, "STATE": SESSION_CAP}
NAMES = {"TRACE": "trace", "STATE": "session"}
TEXT = "--text"  # a text that is typed, in the place of --keys
VALUED = ("file", "output", "address", "number", "choice")
SHOOTERS = ("solo", "run", "replay host")
LONGEST_NAME = 255  # bytes of each part of a name between `/`: each is the name of a folder


# --- The words of a run ---


class Order:
    """The words of a run, taken apart.

    command  its command word; nothing where none was said
    alone    what stands alone, by what it is: SIDE, TRACE, STATE, TICKS
    options  the options and their values; None for what has no value, and for what is written, which has no name of the list
    """

    def __init__(self, command: str = "", alone: Optional[Dict[str, str]] = None, options: Optional[Dict[str, Optional[str]]] = None):
        self.command, self.alone, self.options = command, alone or {}, options or {}

    @property
    def taker(self) -> str:
        """The command, with its side where it has one."""
        return (self.command + " " + self.alone.get("SIDE", "")).rstrip()

    def over(self, below: "Order") -> "Order":
        """These words before those of a wider scope: of them stands what is not said here, and what the command takes."""
        command = self.command or below.command
        same = {kind: word for kind, word in below.alone.items() if kind == "TICKS" or below.command == command}
        order = Order(command, {**same, **self.alone})
        order.options = {option: value for option, value in below.options.items() if option not in OPTIONS or order.taker in OPTIONS[option].takers}
        order.options.update(self.options)
        return order

    def take(self, option: str, value: Optional[str], folder: str) -> None:
        """Adds an option; the name of a file is one from `folder` on. Fault where it stands twice."""
        if option in self.options:
            raise Fault("%s is given twice" % option)
        kind = _kind_of(option)
        if not kind and value is not None and "/" in value:
            raise Fault("%s is no option of beebtube" % shown(option))
        self.options[option] = None if kind == "output" or value is None else place_of(folder, value) if kind == "file" else value


def _kind_of(option: str) -> str:
    return "file" if option == TEXT else OPTIONS[option].kind if option in OPTIONS else ""


def place_of(folder: str, name: str) -> str:
    """A file's path, of a name from a folder on."""
    return name if os.path.isabs(name) else os.path.join(folder, name)


def has_value(option: str, behind: Sequence[str]) -> bool:
    """An option has a value: by the table, or where that does not have it, by what stands behind it."""
    if option in OPTIONS:
        return OPTIONS[option].kind in VALUED
    return bool(behind) and not behind[0].startswith("-")


def order_of(words: Sequence[str], folder: str) -> Order:
    """The words of a run, whose names are from `folder` on; the command, TICKS and OUT may lack. Fault where they are none."""
    order, loose, rest = Order(), [], list(words)  # type: Order, List[str], List[str]
    while rest:
        word = rest.pop(0)
        if not word.startswith("--"):
            loose.append(word)
            continue
        valued = has_value(word, rest)
        if valued and not rest:
            raise Fault("%s: it needs a value" % shown(word))
        order.take(word, rest.pop(0) if valued else None, folder)
    if loose:
        if loose[0] not in RUNS:
            raise Fault("%s: a run is one of %s" % (shown(loose[0]), ", ".join(RUNS)))
        kinds = COMMANDS[loose[0]]
        if len(loose) - 1 > len(kinds):
            raise Fault("%s: one argument too many" % shown(loose[len(kinds) + 1]))
        order.command = loose[0]
        order.alone = {kind: place_of(folder, word) if kind in NAMES else word for kind, word in zip(kinds, loose[1:]) if kind != "OUT"}
    return order


# --- Lists ---


class Entry(NamedTuple):
    """A run of a list: what it is called, its words, and what is wrong with its line; of a wrong one the words are none."""

    name: str
    order: Order
    fault: Optional[str] = None


def name_fault(name: str) -> Optional[str]:
    """What is wrong with the name of a run, which is that of a folder of files, too; None where nothing is."""
    parts = name.split("/")
    if not name or any(part in ("", ".", "..") for part in parts):
        return "%s: each part of a run's name between `/` is a name, and no `..`" % shown(name)
    if any(len(os.fsencode(part)) > LONGEST_NAME for part in parts) or "\0" in name:
        return "%s: a name has %d bytes at most between `/`" % (shown(name), LONGEST_NAME)
    return None


class Listing(NamedTuple):
    """The runs of a list, and what is to be said of files and folders that are none."""

    entries: List[Entry]
    notes: List[str]


def listing_of(name: str, common: Order, recursive: bool = False, texts: bool = False) -> Listing:
    """The runs of a table, or of a folder of discs.

    common     words that each run has where it says nothing else
    recursive  discs of folders in the folder are runs, too
    texts      NAME.txt beside a disc is typed, if there is no NAME.keys
    """
    if not os.path.isdir(name):
        return Listing(_of_table(name, common), [])
    found = Listing([], [])
    for folder in folders_in(name, recursive, found.notes):
        stems = {_stem(disc) for disc in folder.discs}
        sets = [it for it in folder.names if it.endswith(SET) and it != SET and it[: -len(SET)] not in stems]
        for it in sorted([*folder.discs, *sets, *folder.bad]):
            fault = folder.bad.get(it)
            found.entries.append(Entry(folder.begin + it, Order(), fault) if fault else _of_file(folder, it, common, texts))
    if not found.entries:
        raise Fault("%s has no run: no file whose name ends in .ssd, .dsd, .zip, .gz or %s" % (name, SET))
    return found


def _stem(name: str) -> str:
    return bare(name)[:-4]


# The run of a disc or of a set; `name` is from the folder on.
def _of_file(folder: Folder, name: str, common: Order, texts: bool) -> Entry:
    whole, stem, order = folder.begin + name, _stem(name), Order()
    fault = name_fault(whole)
    try:
        if is_disc(name):
            order.take("--disc0", name, folder.path)
        if stem + ".keys" in folder.names:
            order.take("--keys", stem + ".keys", folder.path)
        elif texts and is_disc(name) and stem + ".txt" in folder.names:
            order.take(TEXT, stem + ".txt", folder.path)
        return Entry(whole, order.over(_with_set(stem + SET if stem + SET in folder.names else "", folder.path, common)), fault)
    except Fault as wrong:
        return Entry(whole, Order(), fault or str(wrong))


# The common words below those of a set.
def _with_set(name: str, folder: str, common: Order) -> Order:
    if not name:
        return common
    order = Order()
    for option, value in read_set(place_of(folder, name)):
        order.take(option, value, "")
    return order.over(common)


def _rows(name: str) -> Iterator[Tuple[int, List[str]]]:
    reader = csv.reader(io.StringIO(read_text(name).lstrip("\ufeff"), newline=""))
    try:
        for cells in reader:
            if any(cell.strip() for cell in cells):
                yield reader.line_num, cells
    except csv.Error as error:
        raise Fault("%s, line %d: %s" % (name, reader.line_num, error)) from None


def _of_table(name: str, common: Order) -> List[Entry]:
    rows = _rows(name)
    number, heads = next(rows, (1, []))
    heads = [head.strip() for head in heads]
    if "name" not in heads:
        raise Fault("%s is no table of runs: its first line has the columns, and one of them is `name`" % name)
    for head in heads:
        if heads.count(head) > 1:
            raise Fault("%s: the column %s is given twice" % (name, shown(head)))
        if head not in ("name", "ticks", "set", "words") and not head.startswith("#") and "--" + head not in OPTIONS:
            raise Fault("%s: there is no column %s, but name, ticks, set, words, those with # in front, and the options without --"
                        % (name, shown(head)))
    found: List[Entry] = []
    taken: Set[str] = set()
    for number, cells in rows:
        entry = _of_row(number, dict(zip(heads, cells)), len(cells) > len(heads), os.path.dirname(name), common)
        if entry.name in taken:
            entry = Entry("%s (line %d)" % (entry.name, number), Order(), "two runs have the name %s" % entry.name)
        taken.add(entry.name)
        found.append(entry)
    if not found:
        raise Fault("%s has no run" % name)
    return found


def _of_row(number: int, cells: Dict[str, str], is_long: bool, folder: str, common: Order) -> Entry:
    cells = {head: cell.strip() for head, cell in cells.items() if cell.strip()}
    name = cells.get("name", "")
    fault = name_fault(name)
    if fault:
        return Entry("line %d" % number, Order(), fault)
    try:
        if is_long:
            raise Fault("line %d has more cells than columns" % number)
        words = order_of(_split(cells.get("words", "")), folder)
        return Entry(name, _named_by(cells, folder).over(words.over(_with_set(cells.get("set", ""), folder, common))))
    except Fault as wrong:
        return Entry(name, Order(), str(wrong))


def _split(words: str) -> List[str]:
    try:
        return shlex.split(words)
    except ValueError as error:
        raise Fault("its arguments are not valid: %s" % error) from None


# The words that cells name: of what is written and of what has no value they say `yes` or `no`.
def _named_by(cells: Dict[str, str], folder: str) -> Order:
    order = Order(alone={"TICKS": cells["ticks"]} if "ticks" in cells else None)
    for head, cell in cells.items():
        option = "--" + head
        if option not in OPTIONS:
            continue
        if OPTIONS[option].kind in VALUED and OPTIONS[option].kind != "output":
            order.take(option, cell, folder)
        elif cell not in ("yes", "no"):
            raise Fault("the column %s has `yes` or `no`, not %s" % (head, shown(cell)))
        elif cell == "yes":
            order.take(option, None, folder)
    return order


# --- Plans ---


class Input(NamedTuple):
    """A file that a run reads: its name there, its path here, its most bytes, the tick of a shot that is put into it as a script (a
    script of that shot alone where there is no path), and of a text that is typed the speed of the machine."""

    name: str
    path: Optional[str]
    most: int
    shot: Optional[int] = None
    speed: Optional[int] = None

    @property
    def is_made(self) -> bool:
        """The run reads other bytes than those of the file."""
        return self.path is None or self.path == os.devnull or self.shot is not None or self.speed is not None

    def data(self) -> bytes:
        """The bytes that the run reads; Fault where they cannot be had."""
        given = b"" if self.path is None or self.path == os.devnull else read_disc(self.path, self.most)
        if self.speed is not None:
            given = self._typed(given)
        return given if self.shot is None else _with_shot(given, self.shot)

    def _typed(self, text: bytes) -> bytes:
        try:
            return typed(text.decode("utf-8"), speed=self.speed or 3).text().encode()
        except (Fault, ValueError) as fault:
            raise Fault("%s: %s" % (told(self.path or ""), fault if isinstance(fault, Fault) else "it is no text")) from None


def _with_shot(script: bytes, tick: int) -> bytes:
    try:
        events = Script.parse(script).events
    except BadScript:
        return script
    if any(event.what == "shot" and event.tick <= tick for event in events):
        return script
    place = next((at for at, event in enumerate(events) if event.tick > tick), len(events))
    return Script(events[:place] + [Event(tick, "shot")] + events[place:]).text().encode()


class Sums:
    """The sums of inputs, each file of which is read once while it stays as it is."""

    def __init__(self) -> None:
        self._known: Dict[Tuple[object, ...], Sum] = {}

    def of(self, given: Input) -> Sum:
        if given.is_made or given.path is None:
            return Sum([given.data()])
        file, member = place_in(given.path)
        try:
            state = os.stat(file)
        except (OSError, ValueError):
            raise Fault("cannot read %s" % told(given.path)) from None
        mark = (given.path, state.st_size, state.st_mtime_ns, state.st_ino)
        if mark not in self._known:
            self._known[mark] = Sum([given.data()])
        return self._known[mark]


class Plan(NamedTuple):
    """A run as it is carried out: its words and inputs, with names of its own, the inputs' sums, and the key of all that."""

    words: List[str]
    inputs: List[Input]
    sums: List[Sum]
    key: str

    @property
    def ticks(self) -> int:
        kinds = COMMANDS[self.words[0]]
        return number_of(self.words[1 + kinds.index("TICKS")]) or 0


def plan_of(entry: Entry, program: str, shot: bool, sums: Sums) -> Plan:
    """The plan of a run. Fault where its words are none, or a file cannot be read.

    program  the sum of the program, of `program_sum`
    shot     a run whose script takes none takes one at its last tick
    """
    if entry.fault:
        raise Fault(entry.fault)
    words, inputs = _named(entry.order)
    if shot and entry.order.taker in SHOOTERS and number_of(entry.order.alone["TICKS"]):
        tick = int(entry.order.alone["TICKS"]) - 1
        script = next((it for it in inputs if it.name == "keys"), None)
        if script is None:
            words += ["--keys", "keys"]
            inputs.append(Input("keys", None, IMAGE_CAP, tick))
        else:
            inputs[inputs.index(script)] = script._replace(shot=tick)
    found = [sums.of(it) for it in inputs]
    for it in inputs:
        last = Script.parse(it.data()).events[-1:] if it.speed is not None else []
        if last and last[0].tick >= (number_of(entry.order.alone["TICKS"]) or 0):
            raise Fault("%s types up to tick %s: the run is too short" % (told(it.path or ""), "{:,}".format(last[0].tick)))
    return Plan(words, inputs, found, key_of(program, words, inputs, found))


def _named(order: Order) -> Tuple[List[str], List[Input]]:
    words, inputs = [order.command], []  # type: List[str], List[Input]
    for kind in COMMANDS[order.command]:
        if kind == "OUT":
            words.append("out")
        elif kind not in order.alone:
            raise Fault("it needs %s%s" % (kind, ": a column `ticks`, or --ticks" if kind == "TICKS" else " after %s" % order.command))
        elif kind in NAMES:
            words.append(NAMES[kind])
            inputs.append(Input(NAMES[kind], order.alone[kind], CAPS[kind]))
        else:
            words.append(order.alone[kind])
    known = [option for option in OPTIONS if option in order.options]
    for option in known + [option for option in order.options if option not in OPTIONS]:
        value = order.options[option]
        kind = _kind_of(option)
        if option == "--keys" and TEXT in order.options:
            continue
        if option == TEXT and value is not None:
            words += ["--keys", "keys"]
            inputs.append(Input("keys", value, TEXT_CAP, speed=4 if order.options.get("--speed") == "4" else 3))
            continue
        words.append(option)
        if kind == "file" and value is not None:
            inputs.append(Input(input_name(option, value), value, IMAGE_CAP))
            words.append(inputs[-1].name)
        elif kind == "output":
            words.append("out." + option[2:])
        elif value is not None:
            words.append(value)
    for word in words:
        if not word.isprintable():
            raise Fault("%s: an argument has a character that cannot be shown" % shown(word))
    return words, inputs


def words_sum(words: Sequence[str]) -> str:
    """The sum of the words of a plan."""
    return hashlib.sha256(shlex.join(words).encode("utf-8", "surrogateescape")).hexdigest()


def key_of(program: str, words: Sequence[str], inputs: Sequence[Input], sums: Sequence[Sum]) -> str:
    """The key of a run: the sum of a text with the program's, the words and the inputs'."""
    lines = ["beebtube run 1", "program " + program, "words " + words_sum(words)]
    lines += ["read %s %s" % (found, it.name) for it, found in zip(inputs, sums)]
    return hashlib.sha256("\n".join(lines).encode()).hexdigest()


def program_sum() -> str:
    """What a result depends on besides: the sum of the program's sources, or of the program that BEEBTUBE names."""
    given = os.environ.get("BEEBTUBE")
    return sum_of(os.path.realpath(given)).digits if given else version().sources


def words_for_job(order: Order) -> List[str]:
    """The words of a run with whole paths, as `order_of` takes them once its values are unpacked."""
    words = [order.command]
    for kind in COMMANDS[order.command]:
        if kind in order.alone:
            words.append(packed(os.path.abspath(order.alone[kind]) if kind in NAMES else order.alone[kind]))
    for option, value in order.options.items():
        words.append(option)
        kind = _kind_of(option)
        if kind == "output":
            words.append("out." + option[2:])
        elif value is not None:
            words.append(packed(os.path.abspath(value) if kind == "file" else value))
    return words


def packed(word: str) -> str:
    """A word as it stands in the command of a job: bytes that a shell, an engine or a list of lines may take for others are `%XX`, and
    so is a `-` that it begins with."""
    found = re.sub(rb"[^\w./@+,:=-]", lambda match: b"%%%02X" % match.group()[0], os.fsencode(word)).decode("ascii")
    return "%2D" + found[1:] if found.startswith("-") else found


def unpacked(word: str) -> str:
    """The word that was packed; Fault if it was not."""
    if re.search("%(?![0-9A-F]{2})", word):
        raise Fault("%s is no argument of a job" % shown(word))
    return os.fsdecode(re.sub(b"%([0-9A-F]{2})", lambda match: bytes([int(match.group(1), 16)]), os.fsencode(word)))


def words_of_list(order: Order) -> str:
    """The words of a run with the names of the list, as a person reads them."""
    words = [order.command] + [order.alone[kind] for kind in COMMANDS.get(order.command, ()) if kind in order.alone]
    for option, value in order.options.items():
        words += [option] if value is None else [option, value]
    return shlex.join(words)
