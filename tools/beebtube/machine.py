"""One side of a run: its states, the starts of its instructions, and the changes of its memory."""
from __future__ import annotations

import os
import re
import threading
from collections import OrderedDict
from typing import (
    TYPE_CHECKING, Callable, Dict, Iterator, List, NamedTuple, NoReturn, Optional, Sequence, Tuple,
    Union)

from .effects import may_write, written
from .faults import Fault, Refused
from .files import OUTPUT_CAP, read_file
from .listings import Change, Listing, Start
from .report import Registers
from .view import View

if TYPE_CHECKING:
    from .past import Past

# Ticks whose instructions are listed at once, around a moment and where many are gone through.
NEAR = 1 << 18
FAR = 1 << 21
# The same of the starts at one address, and of changes of one byte.
SOME = 1 << 23
WIDE = 1 << 27
OVERLAP = 256  # a listing begins so many ticks earlier: a change is seen from the start before it
FEW = 16  # addresses that are looked for in a listing one by one
MANY = 200000  # so many instructions are counted, and not gone through
CHOSEN = 1 << 17  # starts at chosen addresses, at most, to list them in place of all
KEPT = 1 << 29  # bytes of listings that are kept
LISTED = re.compile(rb"listed ([0-9]+) of ([0-9]+)\n")
Places = Union[int, Tuple[int, ...]]  # an address, or several


class State(NamedTuple):
    """The state of one side at a tick.

    memory  32,768 bytes of the host, 65,536 of the second processor
    held    the second processor is held by its reset line
    """

    registers: Registers
    memory: bytes
    held: bool = False


class Machine:
    """One side of a run.

    bound  starts below this tick can be listed: the last tick at hand, and the one after it
    view   what its processor reads
    """

    def __init__(self, past: "Past", side: str):
        self.past, self.side = past, side
        self.bound: int = past.held + 1
        self.view = View(self)
        self._counts: Dict[int, int] = {}
        self._states: "OrderedDict[int, State]" = OrderedDict()
        # The one that was used last comes last.
        self._lists: List[Tuple[Tuple[str, ...], Listing]] = []
        self._lock = threading.Lock()

    # --- States ---

    def state(self, tick: int) -> State:
        """Registers and memory once all ticks below this one are done."""
        if tick in self._states:
            return self._states[tick]
        past = self.past
        if tick > past.held:
            return past.beyond(tick)[self.side]
        out = past.fresh("state")
        words = ["replay", self.side, past.cut(tick), str(tick), out]
        past.program.done(words + past.options(self.side), past.folder)
        found = past.state_of(out, self.side)
        past.remove(out)
        self.note(tick, found)
        return found

    def note(self, tick: int, state: State) -> None:
        """Keeps the state at a tick."""
        self._states[tick] = state
        while len(self._states) > 64:
            self._states.popitem(last=False)

    def states_at(self, ticks: List[int]) -> List[State]:
        """The states at several ticks."""
        if ticks:
            self.past.cut(max(ticks))
        return list(self.past.pool.map(self.state, ticks))

    # --- Listings ---

    def follow(self, low: int, high: int, extra: Sequence[str] = (),
               keep: bool = True) -> Tuple[str, int]:
        """The file of a listing of the starts from a tick on and below another, and how many
        there are; without `keep` only their number."""
        past, out = self.past, self.past.fresh("list")
        place = os.path.join(past.folder, out + ".list")
        if not keep:
            os.symlink(os.devnull, place)
        words = past.options(self.side) + list(extra) + (["--from", str(low)] if low else [])
        high = min(high, self.bound)
        try:
            told = self._followed(high, out, words)
        except Refused as refused:
            # At the last tick there may be an access that is not at hand: no start is there.
            if refused.status != 8 or high <= past.held:
                raise
            self.bound = past.held
            told = self._followed(past.held, out, words)
        match = LISTED.fullmatch(told)
        if not match:
            raise Fault("`follow` did not report how many it listed")
        return place, int(match.group(2))

    def _followed(self, high: int, out: str, words: List[str]) -> bytes:
        past = self.past
        first = ["follow", self.side, past.cut(high), str(high), out]
        return past.program.done(first + words, past.folder).out

    def count(self, low: int, high: int) -> int:
        """How many starts there are from a tick on and below another."""
        self.past.progress(f"tick {low}")
        return self.follow(low, high, keep=False)[1]

    def listing_count(self, kind: str, address: int) -> int:
        """How many starts there are "at" an address, or after a change of the byte there,
        "watch"."""
        return self.follow(0, self.bound, [f"--{kind}", f"{address:04X}"], keep=False)[1]

    def chosen(self, wanted: Callable[[int], bool]) -> Tuple[str, ...]:
        """The words of `follow` that choose the starts at the addresses for which a test holds;
        none if there are too many of these starts."""
        if not self._counts:
            self.past.progress("the addresses of the run")
            place, _ = self.follow(0, self.bound, ["--points", self.past.points(()), "--counts"])
            for line in read_file(place[:-4] + "counts", OUTPUT_CAP).splitlines():
                at, count = line.split()[:2]
                self._counts[int(at, 16)] = int(count)
        places = tuple(filter(wanted, self._counts))
        if sum(self._counts[at] for at in places) > CHOSEN:
            return ()
        return "--points", self.past.points(places)

    def around(self, extra: Tuple[str, ...], tick: int, ticks: int = 0,
               backwards: bool = False) -> Listing:
        """A listing that has all starts of its kind at a tick and after it, or before it: of so
        many ticks, unless there is one already."""
        known = self._known(extra, tick)
        if known is not None:
            return known
        near = max(NEAR, min(FAR, tick // 32))  # a long replay is worth a long listing
        ticks = max(ticks, near)
        before, behind = (ticks, near // 2) if backwards else (near // 2, ticks)
        low, high = max(0, tick - before), min(self.past.held + 1, tick + behind)
        while True:
            self.past.progress(f"tick {low}")
            path, total = self.follow(max(0, low - OVERLAP), high, extra)
            listing = Listing(self.side, path, total, low, high)
            with self._lock:
                self._lists.append((extra, listing))
                size = sum(one.size for _, one in self._lists)
                while len(self._lists) > 32 or size > KEPT and len(self._lists) > 4:
                    size -= self._lists.pop(0)[1].size
            if tick < listing.covers:
                return listing
            low = listing.covers

    # A listing that there is already of starts around a tick.
    def _known(self, extra: Tuple[str, ...], tick: int) -> Optional[Listing]:
        with self._lock:
            for place in range(len(self._lists) - 1, -1, -1):
                kind, listing = self._lists[place]
                if kind == extra and listing.low <= tick < listing.covers:
                    self._lists.append(self._lists.pop(place))
                    return listing
        return None

    def listed_after(self, tick: int) -> Optional[Start]:
        """The first start after a tick if it is in the listing that has this tick."""
        listing = self._known((), tick)
        if listing is None:
            return None
        place = listing.place_of(tick + 1)
        return listing.start(place) if place < listing.size else None

    def parts(self, tick: int, backwards: bool = False,
              wanted: Optional[Callable[[int], bool]] = None) -> Iterator[Listing]:
        """Listings one after another: from a tick on, or back from below it. If few starts are at
        addresses for which a test holds, all listings but the first have only these."""
        extra: Tuple[str, ...] = ()
        ticks = NEAR
        if backwards and tick > self.past.held + 1:
            self.outside()
        while 0 < tick if backwards else tick < self.bound:
            listing = self.around(extra, tick - 1 if backwards else tick, ticks, backwards)
            yield listing
            tick = listing.low if backwards else listing.covers
            extra = self.chosen(wanted) if wanted else ()
            ticks = WIDE if extra else FAR if ticks == NEAR else SOME
        if not backwards:
            self._nothing()

    def outside(self) -> NoReturn:
        """The Fault of a tick whose instructions are not at hand."""
        raise Fault(f"the session holds the accesses to the Tube up to tick {self.past.held}: after"
                    " it there are no instructions, but `go`, `where`, `memory`, `stack`, `screen`"
                    " and `frame` show what is there")

    # Nothing was found up to the last tick whose instructions are at hand.
    def _nothing(self) -> None:
        if self.past.held < self.past.end:
            self.outside()

    # --- Forwards and backwards ---

    def following(self, tick: int, count: int = 1) -> Optional[Start]:
        """The `count`th start after a tick; None if the run ends before it."""
        found = self.at_hand(tick, count)
        if found is None:
            self._nothing()
        return found

    def at_hand(self, tick: int, count: int = 1) -> Optional[Start]:
        """The same; None too if the instructions at hand end before it."""
        low, left = tick + 1, count
        while low < self.bound:
            if left > MANY:
                low, left = self._counted(low, left, 1)
                continue
            listing = self.around((), low, FAR if left > 4096 else NEAR)
            place, found = listing.after(listing.place_of(low), left - 1)
            if place < listing.size:
                return listing.start(place)
            low, left = listing.covers, left - found
        return None

    def preceding(self, tick: int, count: int = 1) -> Optional[Start]:
        """The `count`th start before a tick; None if there are fewer."""
        if tick > self.past.held + 1:
            self.outside()
        high, left = min(tick, self.bound), count
        while high > 0:
            if left > MANY:
                high, left = self._counted(high, left, -1)
                continue
            listing = self.around((), high - 1, FAR if left > 4096 else NEAR, backwards=True)
            place, found = listing.before(listing.place_of(min(high, self.bound)), left)
            if found == left:
                return listing.start(place)
            high, left = listing.low, left - found
        return None

    # A tick that many starts after or before another, but not all; and how many are left there.
    def _counted(self, tick: int, count: int, way: int) -> Tuple[int, int]:
        last, each = (self.bound if way > 0 else 0), 12.0
        while count > MANY and tick != last:
            far = tick + way * max(1, int(0.98 * each * count))
            far = min(far, last) if way > 0 else max(far, last)
            found = self.count(min(tick, far), max(tick, far))
            each = abs(far - tick) / max(1, found)
            if found < count:
                tick, count = far, count - found
        return tick, count

    def current(self, tick: int) -> Optional[Start]:
        """The last start at a tick or before it; None before the first one."""
        return self.preceding(tick + 1)

    # --- Starts at an address, and changes of a byte ---

    # The words of `follow` that choose such starts.
    def _chosen(self, kind: str, places: Places) -> Tuple[str, ...]:
        if isinstance(places, int):
            return f"--{kind}", f"{places:04X}"
        return "--points", self.past.points(places)

    def next_of(self, kind: str, places: Places, tick: int) -> Optional[Start]:
        """The first start after a tick at an address or at one of several ("at"), or after a
        change of the byte at an address ("watch")."""
        near = self._near(kind, places, tick, False)
        if isinstance(near, Start):
            return near
        extra, low, ticks = self._chosen(kind, places), near, max(SOME, near)
        while low < self.bound:
            listing = self.around(extra, low, ticks)
            place = listing.place_of(low)
            if place < listing.size:
                return listing.start(place)
            low, ticks = listing.covers, WIDE
        self._nothing()
        return None

    def last_of(self, kind: str, places: Places, tick: int) -> Optional[Start]:
        """The last such start below a tick."""
        if tick > self.past.held + 1:
            self.outside()
        near = self._near(kind, places, tick, True)
        if isinstance(near, Start):
            return near
        extra, high = self._chosen(kind, places), min(near, self.bound)
        is_hot = kind == "watch" and isinstance(places, int) and self._is_hot(places, high)
        ticks = SOME if is_hot else max(SOME, high)
        while high > 0:
            listing = self.around(extra, high - 1, ticks, backwards=True)
            place, found = listing.before(listing.place_of(min(high, self.bound)), 1)
            if found:
                return listing.start(place)
            high, ticks = listing.low, WIDE
        return None

    # The next start at such an address, or the last one before, if it is in a listing of all
    # starts that there is already; otherwise where to search on.
    def _near(self, kind: str, places: Places, tick: int, back: bool) -> Union[Start, int]:
        many = (places,) if isinstance(places, int) else places
        listing = self._known((), tick - 1 if back else tick + 1)
        if listing is None or kind != "at" or len(many) > FEW:
            return tick if back else tick + 1
        place = listing.place_of(tick if back else tick + 1)
        forms = [b" %04X A=" % address for address in many]
        found = [at for at in (
            listing.data.rfind(form, listing.first, place) if back else
            listing.data.find(form, place) for form in forms) if at >= 0]
        if found:
            return listing.start((max if back else min)(found) - 10)
        return listing.low if back else listing.covers

    # An instruction around a tick writes to the address, and may change the byte often.
    def _is_hot(self, address: int, tick: int) -> bool:
        listing = self._known((), tick - 1)
        at = b"(?:00)?%02X" % address if address < 256 else b"%04X" % address
        form = re.compile(rb" (?:ST.|ASL|LSR|RO[LR]|INC|DEC|T[RS]B) &" + at + rb"\n")
        return listing is not None and form.search(listing.data, listing.first) is not None

    def every(self, kind: str, places: Places, high: int) -> List[Start]:
        """All such starts below a tick."""
        extra, low, found = self._chosen(kind, places), 0, []
        high = min(high, self.bound)
        while low < high:
            listing = self.around(extra, low, WIDE)
            found += [it for it in listing.starts(listing.place_of(low)) if it.tick < high]
            low = listing.covers
        return found

    def _byte(self, address: int, tick: int) -> int:
        return self.state(tick).memory[address]

    def last_change(self, address: int, tick: int) -> Optional[Change]:
        """The last change of a byte of the memory before a tick; None if there is none."""
        if tick > self.past.held + 1:
            self.outside()
        is_hidden = self.view.is_under_rom(address)
        self.past.together(lambda: self.current(tick), lambda: None if is_hidden else
                           self.last_of("watch", address, tick + 1))
        here = self.current(tick)
        if here is None:
            return None
        if here.tick < tick <= self.past.held and self.view.may_have_written(tick):
            # In the midst of an instruction, which may have done it already.
            old, new = (state.memory[address] for state in self.states_at([here.tick, tick]))
            if old != new:
                return Change(here, tick, old, new)
        if is_hidden:
            return self.view.last_change_under_rom(address, tick)
        return self._changed(address, self.last_of("watch", address, tick + 1))

    def since(self, address: int, tick: int) -> int:
        """A tick from which up to another a byte of the memory is the same, by its changes."""
        listing = self.around(self._chosen("watch", address), tick, WIDE, backwards=True)
        place, found = listing.before(listing.place_of(tick + 1), 1)
        return listing.tick_at(place) if found else listing.low

    # The change after which `watch` listed a start.
    def _changed(self, address: int, after: Optional[Start]) -> Optional[Change]:
        if after is None:
            return None
        # From the change before this one on, the byte is the same.
        tick, listing = after.tick, self.around(self._chosen("watch", address), after.tick)
        place, found = listing.before(listing.place_of(tick), 1)
        since = listing.tick_at(place) if found else listing.low
        self.past.together(lambda: self.preceding(tick), lambda: self.state(since))
        before = self.preceding(tick)
        if before is None:
            return None
        old = self._byte(address, min(since, before.tick))
        new = None if self.view.is_between(before, after) else written(before, old)
        if new is None or new == old:
            new = self._byte(address, tick)
        return Change(before, tick, old, new)

    def next_change(self, address: int, tick: int) -> Optional[Change]:
        """The next change of a byte of the memory after a tick; None if there is none."""
        is_hidden = self.view.is_under_rom(address)
        self.past.together(lambda: self.current(tick), lambda: None if is_hidden else
                           self.next_of("watch", address, tick))
        here, after = self.current(tick), self.following(tick)
        low = tick
        if here is not None and here.tick < tick and after is not None:
            if may_write(here) or self.view.is_between(here, after):
                # The instruction under way may have done it already, or do it still.
                old, new = (it.memory[address] for it in self.states_at([tick, after.tick]))
                if old != new:
                    return Change(here, after.tick, old, new)
            low = after.tick
        found = None
        if is_hidden:
            found = self.view.next_change_under_rom(address, low)
        elif low < self.past.held:
            found = self._changed(address, self.next_of("watch", address, low))
        if found is not None or tick >= self.past.held:
            return found
        # The last instruction of the run may have done it, and no start comes after it.
        last = self.current(self.past.held)
        if last is None or last.tick == self.past.held or (
                not self.view.may_have_written(self.past.held)):
            return None
        old, new = (it.memory[address] for it in
                    self.states_at([max(tick, last.tick), self.past.held]))
        return Change(last, self.past.held, old, new) if old != new else None
