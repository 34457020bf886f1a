"""What a Tube may answer, as far as it is known what is in it: which answers of a capture are
wrong, and in which order accesses came.

A capture may have one side alone, begin in the midst, or have an answer after which nobody knows
what the chip holds. `Known` is what is known of the chip; `Judge` goes through a capture's accesses
with it. Where two accesses of the two sides overlap, either may have come first: the order in which
they end is taken, unless only the other one explains the answers.
"""
from __future__ import annotations

from typing import Iterable, Iterator, List, NamedTuple, Optional, Set, Tuple, Union

from .bus import Captured

# The most bytes of registers 1 to 4 to the host, then of those to the second processor.
ROOM = (24, 1, 2, 1) + (1, 1, 2, 1)
HOST3, PARA3 = 2, 6
MOST_ORDERS = 8  # orders that are followed at once
MOST_HELD = 4096  # accesses that wait for an order to be decided

# What a register holds: its bytes, of which None is one that is not known; or the least and the
# most bytes that it may hold.
Held = Union[Tuple[Optional[int], ...], List[int]]


class Known:
    """What is known of the chip: which flags, how many bytes its registers hold, and which.

    sides   those whose accesses are seen; what the other one does may happen at any time
    is_new  the chip is known to be as after a reset
    """

    __slots__ = ("flags", "open", "held", "last", "_other")

    def __init__(self, sides: Iterable[str], is_new: bool):
        there = set(sides)
        self._other = "" if len(there) == 2 else "P" if "H" in there else "H"
        self.flags, self.open = 0, 0
        self.held: List[Held] = []
        self.last: List[Optional[int]] = []
        self._clear()
        if not is_new:
            self.open = 63
            self.held = [[0, room] for room in ROOM]
            self.last = [None] * 8

    def copy(self) -> "Known":
        """The same, to go on with by itself."""
        other = Known.__new__(Known)
        other.flags, other.open, other._other = self.flags, self.open, self._other
        other.held, other.last = list(self.held), list(self.last)
        return other

    def __eq__(self, other: object) -> bool:
        return isinstance(other, Known) and (self.flags, self.open, self.held, self.last) == (
            other.flags,
            other.open,
            other.held,
            other.last,
        )

    __hash__ = None  # type: ignore[assignment]

    def _clear(self) -> None:
        self.held = [()] * 8
        self.held[HOST3] = (0,)
        self.last = [0] * 8

    # What the side that is not seen may have done since the last access.
    def _let_pass(self) -> None:
        if self._other == "H":
            self.open = 63
            for at in range(4):
                low, high = self._count(at)
                self.held[at] = [0, max(high, 1) if at == HOST3 else high]
            for at in range(4, 8):
                self.held[at] = [0, ROOM[at]]
        else:
            for at in range(4):
                low, high = self._count(at)
                self.held[at] = [low, ROOM[at]]
            for at in range(4, 8):
                low, high = self._count(at)
                self.held[at] = [0, high]
        self.last = [None] * 8

    def _count(self, at: int) -> Tuple[int, int]:
        held = self.held[at]
        return (len(held), len(held)) if isinstance(held, tuple) else (held[0], held[1])

    # Both answers of a test that is true from `least` bytes on: 1, 0, or None if it is not known.
    def _is_at_least(self, at: int, least: int) -> Optional[int]:
        held = self.held[at]
        if isinstance(held, tuple):
            return 1 if len(held) >= least else 0
        return 1 if held[0] >= least else 0 if held[1] < least else None

    def _is_ready(self, at: int) -> Optional[int]:
        if at != HOST3 and at != PARA3:
            return self._is_at_least(at, 1)
        if self.open & 16:
            return None
        ready = self._is_at_least(at, 2 if self.flags & 16 else 1)
        if at == HOST3 or ready == 1:
            return ready
        empty = self._is_at_least(HOST3, 1)
        return 1 if empty == 0 else None if empty is None or ready is None else 0

    def _has_room(self, at: int) -> Optional[int]:
        least = ROOM[at]
        if at == HOST3 or at == PARA3:
            if self.open & 16:
                return None
            least = 2 if self.flags & 16 else 1
        full = self._is_at_least(at, least)
        return None if full is None else 1 - full

    def answer(self, side: str, register: int) -> Tuple[int, int]:
        """The answer of a read, as far as it is known: its bits, and which of them are known."""
        if self._other:
            self._let_pass()
        number = register >> 1
        at = number if side == "H" else 4 + number
        if register & 1:
            held = self.held[at]
            if isinstance(held, tuple):
                byte = held[0] if held else self.last[at]
                return (0, 0) if byte is None else (byte, 255)
            return 0, 0
        others = 4 ^ at
        value, mask = (self.flags & ~self.open, 63 & ~self.open) if number == 0 else (63, 63)
        ready, room = self._is_ready(at), self._has_room(others)
        if ready is not None:
            value, mask = value | 128 * ready, mask | 128
        if room is not None:
            value, mask = value | 64 * room, mask | 64
        return value, mask

    def put(self, side: str, way: str, register: int, byte: int) -> None:
        """Does an access; what a read answered, which `answer` allows, shows more of the chip."""
        if self._other and way != "R":
            self._let_pass()
        number = register >> 1
        at = number if side == "H" else 4 + number
        if way == "X":
            self.flags = self.open = 0
            self._clear()
        elif way == "R":
            if register & 1:
                held = self.held[at]
                if isinstance(held, tuple):
                    self.held[at] = held[1:]
                else:
                    self.held[at] = self._between(max(held[0] - 1, 0), max(held[1] - 1, 0))
                self.last[at] = byte
            else:
                self._learn(at, 4 ^ at, number, byte)
        elif register == 0 and side == "H":
            self._control(byte)
        elif register & 1:
            self._give(4 ^ at, byte)

    def _between(self, low: int, high: int) -> Held:
        return [low, high] if low < high else (None,) * low

    def _control(self, byte: int) -> None:
        marked = byte & 63
        self.open &= ~marked
        self.flags = self.flags | marked if byte & 128 else self.flags & ~marked
        if byte & 192 == 192:
            self._clear()

    def _give(self, at: int, byte: int) -> None:
        held = self.held[at]
        if at in (HOST3, PARA3) and self.open & 16:
            self.held[at] = [1, 2]
            return
        room = (2 if self.flags & 16 else 1) if at in (HOST3, PARA3) else ROOM[at]
        if room == 1:
            self.held[at] = (byte,)
        elif isinstance(held, tuple):
            if len(held) < room:
                self.held[at] = held + (byte,)
        else:
            self.held[at] = self._between(min(held[0] + 1, room), min(held[1] + 1, room))

    # A status shows the register that its reader takes from, and the one that it gives to.
    def _learn(self, at: int, others: int, number: int, byte: int) -> None:
        if number == 0:
            self.flags, self.open = self.flags & ~self.open | byte & self.open, 0
        if not isinstance(self.held[others], tuple) and not (number == 2 and self.open & 16):
            full = 2 if number == 2 and self.flags & 16 else 1 if number == 2 else ROOM[others]
            self._narrow(others, full, not byte & 64)
        if not isinstance(self.held[at], tuple) and not (number == 2 and self.open & 16):
            least = 2 if number == 2 and self.flags & 16 else 1
            if at != PARA3 or not byte & 128:
                self._narrow(at, least, bool(byte & 128))
        if at == PARA3 and not byte & 128 and not isinstance(self.held[HOST3], tuple):
            self._narrow(HOST3, 1, True)

    # The register holds `least` bytes or more, or fewer.
    def _narrow(self, at: int, least: int, is_it: bool) -> None:
        low, high = self._count(at)
        low, high = (max(low, least), high) if is_it else (low, min(high, least - 1))
        if low <= high:
            self.held[at] = self._between(low, high)

    def forget(self, side: str, register: int) -> None:
        """After a wrong answer: nothing is known of the registers that it shows, nor of the
        flags."""
        number = register >> 1
        at = number if side == "H" else 4 + number
        for place in [at] if register & 1 else [at, 4 ^ at] + ([HOST3] if at == PARA3 else []):
            self.held[place] = [0, ROOM[place]]
            self.last[place] = None
        if register == 0:
            self.open = 63


class Wrong(NamedTuple):
    """A wrong answer: which access of the trace it is, from 1 on, the access, and the answer that
    the chip might have given."""

    number: int
    access: Captured
    answer: int


def is_of_unused_bits(access: Captured, answer: int) -> bool:
    """A wrong answer differs in the unused bits of the status of registers 2 to 4 alone, which say
    nothing of the chip's state."""
    return access.register in (2, 4, 6) and not (access.byte ^ answer) & 192


class _Order:
    """An order of the accesses so far: what is known of the chip after it, the access that comes
    after the next one only, how many answers are wrong in it, how often it is not the captured one,
    and the accesses that are not given yet.
    """

    __slots__ = ("known", "put_off", "wrong", "turned", "held")

    def __init__(self, known: Known):
        self.known = known
        self.put_off: Optional[Captured] = None
        self.wrong = self.turned = 0
        self.held: List[Tuple[Captured, Optional[int]]] = []

    def copy(self) -> "_Order":
        other = _Order(self.known.copy())
        other.put_off, other.wrong, other.turned, other.held = (
            self.put_off,
            self.wrong,
            self.turned,
            list(self.held),
        )
        return other

    @property
    def rank(self) -> Tuple[int, int]:
        return self.wrong, self.turned


class Judge:
    """Goes through the accesses of a capture.

    wrong    the wrong answers
    answers  how many reads there were
    checked  how many of them the chip could have answered wrongly, as far as its state was known
    turned   how often an access came after one that ended later
    """

    def __init__(self, sides: Iterable[str], is_new: bool, skew: Optional[int]):
        self.wrong: List[Wrong] = []
        self.answers = self.checked = self.turned = 0
        self._skew = skew
        self._orders = [_Order(Known(sides, is_new))]
        self._given = 0
        # Status reads that are right and change nothing, as long as nothing else is done.
        self._polls: Set[Tuple[object, ...]] = set()

    def ordered(self, found: Iterable[Captured]) -> Iterator[Captured]:
        """The accesses in the order in which they came to the chip."""
        ahead: Optional[Captured] = None
        is_alone = True
        for following in found:
            if ahead is not None:
                if is_alone and not self._may_turn(ahead, following):
                    self._put_alone(ahead)
                    yield ahead
                else:
                    yield from self._take(ahead, following)
                    is_alone = len(self._orders) == 1 and self._orders[0].put_off is None
            ahead = following
        if ahead is not None:
            yield from self._take(ahead, None)
        yield from self._give(self._orders[0])

    # The order of two accesses matters, and may be the other one.
    def _may_turn(self, one: Captured, following: Optional[Captured]) -> bool:
        if (
            following is None
            or self._skew is None
            or following.begin > one.end + self._skew
            or one.side == following.side
        ):
            return False
        # Two polls of a register may be in any order, and so may two reads and two writes of bytes.
        return (
            one.register >> 1 == following.register >> 1
            and (one.way != following.way or one.register != following.register)
            or (one.way != "R" and one.register == 0)
            or (following.way != "R" and following.register == 0)
        )

    def _put_alone(self, one: Captured) -> None:
        self._given += 1
        if one[:4] in self._polls:
            self.answers, self.checked = self.answers + 1, self.checked + 1
            return
        mask, answer = self._put(self._orders[0].known, one)
        self.answers += one.way == "R"
        self.checked += mask != 0
        if mask == 255 and answer is None and one.register % 2 == 0:
            self._polls.add(one[:4])
        else:
            self._polls.clear()
        if answer is not None:
            self.wrong.append(Wrong(self._given, one, answer))

    def _take(self, one: Captured, following: Optional[Captured]) -> Iterator[Captured]:
        self._polls.clear()
        if one.way == "R":
            self.answers += 1
            self.checked += self._orders[0].known.copy().answer(one.side, one.register)[1] != 0
        may_turn = self._may_turn(one, following)
        self._orders = self._kept(
            [it for order in self._orders for it in self._ways_on(order, one, may_turn)]
        )
        settled = [order for order in self._orders if order.put_off is None]
        if settled and (len(self._orders) == 1 or len(settled[0].held) > MOST_HELD):
            self._orders = settled[:1]
            yield from self._give(settled[0])

    # Does an access; which bits of its answer could have been wrong, and the answer that the chip
    # might have given if it is.
    def _put(self, known: Known, one: Captured) -> Tuple[int, Optional[int]]:
        side, way, register, byte, _, _, _ = one
        wrong, mask = None, 0
        if way == "R":
            value, mask = known.answer(side, register)
            if (byte ^ value) & mask:
                wrong = value | byte & ~mask & 255
        known.put(side, way, register, byte)
        if wrong is not None and not is_of_unused_bits(one, wrong):
            known.forget(side, register)
        return mask, wrong

    def _ways_on(self, order: _Order, one: Captured, may_turn: bool) -> List[_Order]:
        ways = []
        if may_turn and order.put_off is None:
            later = order.copy()
            later.put_off = one
            later.turned += 1
            ways.append(later)
        for item in [one] if order.put_off is None else [one, order.put_off]:
            _, answer = self._put(order.known, item)
            order.wrong += answer is not None
            order.held.append((item, answer))
        order.put_off = None
        return ways + [order]

    # Of the orders those with the fewest wrong answers, and of the ones with the same knowledge the
    # first; one is always there that waits for nothing.
    def _kept(self, orders: List[_Order]) -> List[_Order]:
        orders.sort(key=lambda it: it.rank)
        kept: List[_Order] = []
        for order in orders:
            is_worse = (
                kept and order.wrong > kept[0].wrong and any(it.put_off is None for it in kept)
            )
            if not is_worse and not any(
                order.put_off is it.put_off and order.known == it.known for it in kept
            ):
                kept.append(order)
        return kept[:MOST_ORDERS]

    def _give(self, order: _Order) -> Iterator[Captured]:
        self.turned += order.turned
        held, order.held = order.held, []
        order.turned = order.wrong = 0
        for access, answer in held:
            self._given += 1
            if answer is not None:
                self.wrong.append(Wrong(self._given, access, answer))
            yield access
