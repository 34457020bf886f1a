"""The tool `tools/suite`: what it is asked for, and a suite that runs."""
from __future__ import annotations

import argparse
import os
import re
import shlex
import sys
import tempfile
import time
from typing import TYPE_CHECKING, Dict, List, Optional, Sequence, Set, Tuple

from .collection import Entry, Order, Plan, Sums, listing_of, order_of, plan_of, program_sum
from .command import Usage, note
from .disc import note_of
from .faults import Fault, NoRoom
from .files import clear_left, look_at_place, own_folder, same_file, write_beside
from .jobs import job_of
from .reading import Reader, seconds, whole_number
from .results import PAGES, Fixed, Result, Store, Wanted, carry_out
from .table import GOOD, STATES, Row, Stored, gone_row, read_table, row_of, table_text
from .words import MOST_TICKS, number_of, printable, second_of, shown, told

if TYPE_CHECKING:
    from .workers import Forecast


def states(word: str) -> List[str]:
    for state in word.split(","):
        if state not in STATES:
            raise argparse.ArgumentTypeError("%s: a state is one of %s" % (shown(state), ", ".join(STATES)))
    return word.split(",")


def reader_of() -> Reader:
    reader = Reader()
    how = reader.add_mutually_exclusive_group()
    for name in ("--jobs", "--gather", "--clear"):
        how.add_argument(name, action="store_true")
    length = reader.add_mutually_exclusive_group()
    length.add_argument("--ticks", type=whole_number(0, MOST_TICKS))
    length.add_argument("--seconds", type=seconds)
    reader.add_argument("--recursive", action="store_true")
    reader.add_argument("--text", action="store_true")
    reader.add_argument("--both", action="store_true")
    reader.add_argument("--batch", type=whole_number(1, 999), default=1)
    reader.add_argument("--only", type=states, default=list(STATES), metavar="STATE")
    reader.add_argument("--shot", action="store_true")
    reader.add_argument("--against", metavar="FILE")
    reader.add_argument("--keep", metavar="DIR")
    reader.add_argument("--junit", metavar="FILE")
    reader.add_argument("--tap", metavar="FILE")
    reader.add_argument("--pages", choices=PAGES, default="plain")
    reader.add_argument("-j", type=whole_number(1, 999), default=len(os.sched_getaffinity(0)))
    reader.add_argument("rest", nargs="*")
    return reader


# What was asked for, and the words behind `--`.
def asked_of(words: List[str]) -> argparse.Namespace:
    at = words.index("--") if "--" in words else len(words)
    asked = reader_of().parse_args(words[:at])
    asked.words = words[at + 1 :]
    if len(asked.rest) != 2:
        raise Usage("it needs a list and the folder of results; arguments of ./beebtube follow --")
    return asked


# --- A list ---

# A Model B alone: a host beside an empty trace, and nothing where the Tube would be.
ALONE = Order("replay", {"SIDE": "host", "TRACE": os.devnull}, {"--no-tube": None})


class Suite:
    """The runs of a list, and what stands in the folder of results."""

    def __init__(self, asked: argparse.Namespace) -> None:
        self.asked = asked
        common = order_of(asked.words, "")
        self.list, self.store = asked.rest[0], Store(asked.rest[1])
        if not common.command:
            is_alone = os.path.isdir(self.list) and "--tube" not in common.options and not asked.both
            common = ALONE.over(common) if is_alone else Order("run").over(common)
        elif asked.both:
            raise Usage("--both is for arguments without a command")
        if asked.seconds is not None:
            asked.ticks = ticks_in(asked.seconds, common)
        if asked.ticks is not None:
            common.alone["TICKS"] = str(asked.ticks)
        self.entries, notes = listing_of(self.list, common, asked.recursive, asked.text)
        self.stored = Stored(read_table(asked.against), self.entries) if asked.against is not None else None
        self.wanted = Wanted(asked.pages, asked.keep)
        self.folder = os.path.join(self.list if os.path.isdir(self.list) else os.path.dirname(self.list), "")
        self.sum, self.sums = program_sum(), Sums()
        self.places = [os.path.join(self.store.folder, name) for name in ("results.csv", "index.html")]
        look_at_places(self.places)
        if asked.against is not None and same_file(asked.against, self.places[0]):
            raise Fault("%s is read too, and is not overwritten: the stored table has a name of its own" % shown(asked.against))
        discs = {entry.order.options.get(option) for entry in self.entries for option in ("--disc0", "--disc1")}
        for text in notes + sorted(filter(None, (note_of(disc) for disc in discs if disc is not None))):
            note(printable(text))

    def plan(self, entry: Entry) -> Tuple[Plan, Optional[Result]]:
        """The plan of a run, and its result where all that is wanted of it is there."""
        plan = plan_of(entry, self.sum, self.asked.shot, self.sums)
        result = self.store.load(plan.key)
        return plan, result if result is not None and self.store.has(result, entry.name, self.wanted) else None

    def row(self, entry: Entry, result: Optional[Result], fault: str) -> Row:
        """The row of a run. A fault names files from the list's folder on, which may move."""
        fault = re.sub(r"(?<![\w./])" + re.escape(told(self.folder)), "", fault)
        return row_of(entry, result, fault, self.stored)

    def say(self, row: Row) -> None:
        if row.state in self.asked.only:
            print(row.line(), flush=True)

    def write_table(self, rows: Sequence[Optional[Row]]) -> None:
        """Writes the table as it is while the suite runs: of rows that are not there yet it says that they are missing."""
        write_beside(self.places[0], table_text([row_of(entry, None, "", None) if row is None else row for entry, row in zip(self.entries, rows)]))

    def write_cases(self, rows: Sequence[Row]) -> None:
        """Writes the state of each run as build servers read it, where that was asked for."""
        from .testcases import TestCase, write_cases
        cases = [TestCase(row.name, row.state, row.is_good, row.line(), row.result.seconds if row.result is not None else None) for row in rows]
        reads = [name for name in (self.list, self.asked.against, *self.places) if name is not None]
        write_cases(os.path.basename(os.path.abspath(self.list)), cases, self.asked.junit, self.asked.tap, reads)

    def write(self, rows: List[Row]) -> int:
        """Writes table and page; gives the status."""
        from .sheet import sheet_of, write_against
        if self.stored is not None:
            gone = [gone_row(stored) for stored in self.stored.gone.values()]
            for row in gone:
                self.say(row)
            rows = rows + gone
        write_beside(self.places[0], table_text(rows))
        write_against(rows, self.store)
        shown_rows = [row for row in rows if row.state in self.asked.only]
        write_beside(self.places[1], sheet_of(os.path.basename(os.path.abspath(self.list)), shown_rows, self.store))
        self.write_cases(rows)
        counts = [(state, sum(row.state == state for row in rows)) for state in STATES]
        good = sum(row.is_good for row in rows)
        print("suite: %d of %d are good: %s" % (good, len(rows), ", ".join("%s %d" % (state, count) for state, count in counts if count)))
        return 0 if good == len(rows) else 1


def ticks_in(time_: float, common: Order) -> int:
    ticks = round(time_ * second_of(common.options.get("--speed")))
    if ticks > MOST_TICKS:
        raise Fault("--seconds %g: a run has %s ticks at most" % (time_, "{:,}".format(MOST_TICKS)))
    return ticks


def look_at_places(places: Sequence[str]) -> None:
    """A file of another kind is no place for what is written: its name came there by a mistake."""
    from .sheet import BEGIN
    for name, what, begin in zip(places, ("table", "page"), ("name,state,status,", BEGIN)):
        look_at_place(name, f"{what} of a suite", lambda data: data.startswith(begin.encode()))


# --- Running ---


class Lines:
    """The lines of the runs, in the list's order as they come; on a terminal with a line below them that tells how far all is."""

    def __init__(self, suite: Suite) -> None:
        self.suite, self.told = suite, 0
        self.ended = {}  # type: Dict[int, Tuple[Optional[Result], str]]
        self.rows = [None] * len(suite.entries)  # type: List[Optional[Row]]
        self.is_live = os.isatty(2)
        self.next = time.monotonic() + TABLE_EVERY

    def add(self, at: int, result: Optional[Result], fault: str) -> None:
        self.ended[at] = result, fault
        if at == self.told:
            self.clear()
        while self.told in self.ended:
            at, self.told = self.told, self.told + 1
            row = self.rows[at] = self.suite.row(self.suite.entries[at], *self.ended.pop(at))
            self.suite.say(row)

    def clear(self) -> None:
        if self.is_live:
            sys.stderr.write("\r\x1b[K")
            sys.stderr.flush()

    def tell(self, forecast: "Forecast", running: int) -> None:
        begun = time.monotonic()
        if begun > self.next:
            self.suite.write_table(self.rows)
            # A table of many runs takes a while: it takes a hundredth of the time at most.
            ended = time.monotonic()
            self.next = ended + max(TABLE_EVERY, 100 * (ended - begun))
        if not self.is_live:
            return
        found = [row.state for row in self.rows if row is not None]
        bad = ", ".join("%s %d" % (state, found.count(state)) for state in STATES if state in found and state not in GOOD)
        count = len(found) + len(self.ended)
        sys.stderr.write("\r\x1b[K%d of %d%s; %d run; %s" % (count, len(self.rows), ", " + bad if bad else "", running, forecast.told()))
        sys.stderr.flush()


class Running:
    """A suite that runs: what is not there is carried out, as many at once as wanted."""

    def __init__(self, suite: Suite, program: Fixed) -> None:
        def work(task: Tuple[Plan, str]) -> str:
            return carry_out(*task, program, suite.store, suite.wanted)[1]

        from .workers import Forecast, Workers
        self.suite, self.workers = suite, Workers(suite.asked.j, work)
        self.lines, self.forecast = Lines(suite), Forecast()
        # By the key of a run that goes on: the others that are the same run.
        self.waiting = {}  # type: Dict[str, List[Tuple[int, Entry]]]
        self.ran = 0
        self.full = ""  # what is said of a disk that is full

    def all(self) -> List[Row]:
        for entry in self.suite.entries:
            self.forecast.plans(ticks_of(entry))
        try:
            for at, entry in enumerate(self.suite.entries):
                while self.workers.is_full:
                    self.take()
                if self.full:
                    break
                self.begin(at, entry)
            while len(self.workers) and not self.full:
                self.take()
        finally:
            self.lines.clear()
            self.workers.stop()
        return self.rows()

    # The rows; of a suite that was stopped those that are not there yet are missing.
    def rows(self) -> List[Row]:
        for at, entry in enumerate(self.suite.entries):
            if self.lines.rows[at] is None and at not in self.lines.ended:
                self.lines.add(at, *self.there(entry))
        return [row for row in self.lines.rows if row is not None]

    # What is there of a run that is not begun.
    def there(self, entry: Entry) -> Tuple[Optional[Result], str]:
        try:
            return self.suite.plan(entry)[1], ""
        except Fault as fault:
            return None, str(fault)

    def begin(self, at: int, entry: Entry) -> None:
        suite = self.suite
        try:
            plan, result = suite.plan(entry)
        except Fault as fault:
            self.end(at, entry, None, str(fault))
            return
        if result is not None:
            self.end(at, entry, result, "")
        elif plan.key in self.waiting:
            self.waiting[plan.key].append((at, entry))
        else:
            self.waiting[plan.key] = []
            self.workers.start((plan, entry.name), (at, entry, plan))

    def take(self) -> None:
        self.lines.tell(self.forecast, len(self.workers))
        for done in self.workers.ended(1 if self.lines.is_live else TABLE_EVERY):
            at, entry, plan = done.mark
            others = self.waiting.pop(plan.key)
            self.forecast.ends(ticks_of(entry))
            result = None if done.fault else self.suite.store.load(plan.key)
            fault = done.fault or done.value or ("" if result is not None else "its result is damaged")
            self.ran += result is not None
            self.full = self.full or (done.fault if done.no_room else "")
            self.end(at, entry, result, fault, True)
            for other in others if not self.full else ():
                # The other runs of this key take the stored result, under names of their own.
                self.begin(*other)

    def end(self, at: int, entry: Entry, result: Optional[Result], fault: str, is_ran: bool = False) -> None:
        if not is_ran:
            self.forecast.drops(ticks_of(entry))
        self.lines.add(at, result, fault)


TABLE_EVERY = 10  # seconds


def ticks_of(entry: Entry) -> int:
    return number_of(entry.order.alone.get("TICKS", "")) or 1


def run(asked: argparse.Namespace) -> int:
    suite = Suite(asked)
    suite.store.make()
    for folder, files in ((tempfile.gettempdir(), False), (suite.store.folder, True), (suite.store.runs, True), (asked.keep, False)):
        if folder is not None:
            clear_left(folder, files)
    with own_folder():
        pass
    program = Fixed()  # it is built before, where it has to be
    if not os.path.lexists(suite.places[0]):
        suite.write_table([None] * len(suite.entries))
    running = Running(suite, program)
    rows = running.all()
    try:
        status = suite.write(rows)
    except NoRoom as fault:
        raise Fault(running.full or str(fault)) from None
    print("suite: run %d, there before %d; %s" % (running.ran, sum(row.result is not None for row in rows) - running.ran, printable(suite.places[1])))
    if running.full:
        raise Fault("stopped, since a disk is full: " + running.full)
    return status


# --- On other machines ---


def jobs(asked: argparse.Namespace) -> int:
    suite, status = Suite(asked), 0
    begun, found = set(), []  # type: Set[str], List[Tuple[str, Entry]]
    for entry in suite.entries:
        try:
            plan, result = suite.plan(entry)
        except Fault as fault:
            note(f"{told(entry.name)}: {printable(str(fault))}")
            status = 1
            continue
        if result is None and (plan.key not in begun or asked.keep is not None):
            begun.add(plan.key)
            found.append((plan.key, entry))
    for at in range(0, len(found), asked.batch):
        print(shlex.join(job_of(found[at : at + asked.batch], asked.rest[1], suite.wanted, asked.shot)))
    return status


def gather(asked: argparse.Namespace) -> int:
    suite, rows = Suite(asked), []  # type: Suite, List[Row]
    suite.store.make()
    for entry in suite.entries:
        try:
            plan = plan_of(entry, suite.sum, asked.shot, suite.sums)
            rows.append(suite.row(entry, suite.store.load(plan.key), ""))
        except Fault as fault:
            rows.append(suite.row(entry, None, str(fault)))
        suite.say(rows[-1])
    return suite.write(rows)


def clear(asked: argparse.Namespace) -> int:
    suite = Suite(asked)
    try:
        used = {plan_of(entry, suite.sum, asked.shot, suite.sums).key for entry in suite.entries}
    except Fault as fault:
        raise Fault("no result is removed, since a run of the list is wrong: %s" % fault) from None
    results, files = suite.store.clear(used)
    print("suite: removed %d results, %d files; %d results are of runs of %s" % (results, files, len(used), shown(suite.list)))
    return 0


def suite(words: List[str]) -> int:
    """The tool."""
    asked = asked_of(words)
    how = jobs if asked.jobs else gather if asked.gather else clear if asked.clear else run
    return how(asked)

