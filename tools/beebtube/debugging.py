"""The commands of `tools/debug`: a moment of a run, what is there, and the ways to others."""
from __future__ import annotations

import re
import sys
from typing import Any, Callable, Dict, List, NamedTuple, Optional, TextIO, Tuple

from .accesses import words_of
from .conditions import Condition, condition, range_of
from .engine import FULL, SIDE, Engine
from .faults import Fault
from .files import write_beside
from .frame import look_at_picture
from .listings import Change, Start
from .machine import FAR
from .naming import Names
from .parting import Parting, next_parting, parting
from .past import Past
from .program import screen_of
from .report import Registers
from .trace import LENGTH, Access


class Word(NamedTuple):
    """A command: its arguments, what it does, and the method that does it. An argument in brackets
    may be left out, and `..` stands for any number."""

    form: str
    text: str
    method: Callable[..., None]


WORDS: Dict[str, Word] = {}
# Letters that begin several commands.
SHORT = {"s": "step", "b": "back", "n": "next", "r": "return", "g": "go", "u": "until",
         "a": "access", "c": "change", "w": "where", "h": "help", "l": "list", "m": "memory",
         "o": "other", "p": "para", "bt": "backtrace"}


def word(form: str, text: str) -> Callable[[Callable[..., None]], Callable[..., None]]:
    """Makes a method `do_NAME` the command NAME."""
    def noted(method: Callable[..., None]) -> Callable[..., None]:
        WORDS[method.__name__[3:]] = Word(form, text, method)
        return method
    return noted


def flags_of(registers: Registers) -> str:
    """The flags by their letters, `-` for each that is clear."""
    return "".join(letter if registers.p >> 7 - bit & 1 else "-"
                   for bit, letter in enumerate("NV1BDIZC"))


def registers_of(registers: Registers) -> str:
    """The registers as reports have them."""
    return "%04X A=%02X X=%02X Y=%02X S=%02X P=%02X" % registers[:6]


def said(access: Access) -> str:
    """An access in words, after its tick."""
    return f"{access.tick} {words_of(*access[1:])}"


class Debugger(Engine):
    """A moment of a run, from which commands lead to others.

    wrong  how many commands were wrong
    found  what the commands found, besides the lines that they print
    """

    def __init__(self, past: Past, names: Dict[str, Names], other: Optional[Past] = None,
                 out: Optional[TextIO] = None):
        super().__init__(past)
        self.names, self._other, self.out = names, other, out or sys.stdout
        self.wrong = 0
        self.ended = False
        self.found: List[Dict[str, Any]] = []
        self._before = ""
        self._marks: Dict[str, Tuple[Past, str, int]] = {}

    # --- Commands ---

    def do(self, line: str) -> None:
        """Carries out commands with `;` between them; an empty line repeats the one before. Fault
        at the first that is wrong."""
        for words in self.parts(line):
            self._one(words)

    def parts(self, line: str) -> List[List[str]]:
        """The words of each command of a line; an empty line has those of the one before."""
        if not line.strip():
            line = self._before
        self._before = line
        return [part.split() for part in line.split(";") if part.strip()]

    def try_to(self, line: str) -> None:
        """The same, but what is wrong goes to standard error, and the rest is carried out."""
        try:
            for words in self.parts(line):
                fault = self.try_one(words)
                if fault is not None:
                    self.out.flush()
                    sys.stderr.write(f"debug: {fault}\n")
                    sys.stderr.flush()
        finally:
            self.out.flush()

    def try_one(self, words: List[str]) -> Optional[Fault]:
        """Carries out a command; what is wrong with it."""
        try:
            self._one(words)
        except Fault as fault:
            self.wrong += 1
            return fault
        return None

    def _one(self, words: List[str]) -> None:
        if self.ended:
            return
        name = self._word(words[0])
        form, given = WORDS[name].form, words[1:]
        least = len(re.sub(r"(^| )(\.\. )?\[.*\]$", "", form).split())
        most = len(words) if " .. " in form else len(form.split())
        if not least <= len(given) <= most:
            raise Fault(f"{name} {form}: {WORDS[name].text}".replace(" :", ":"))
        WORDS[name].method(self, *given)

    @staticmethod
    def _word(name: str) -> str:
        name = SHORT.get(name, name)
        if name in WORDS:
            return name
        near = [it for it in WORDS if it.startswith(name)]
        if len(near) == 1:
            return near[0]
        raise Fault(f"{name[:40]}: " + (f"it may be {' or '.join(near)}" if near
                                        else "no such command; `help` lists them"))

    @staticmethod
    def _count(text: str, most: int) -> int:
        if not text.isascii() or not text.isdigit() or len(text) > 10 or not 1 <= int(text) <= most:
            raise Fault(f"{text[:40]}: it takes a number from 1 to {most:,}")
        return int(text)

    def _address(self, text: str) -> int:
        known = self.names[self.side].address(text)
        if known is not None:
            return known
        bare = text.lstrip("&$")
        if not re.fullmatch("[0-9A-Fa-f]{1,4}", bare):
            raise Fault(f"{text[:40]}: an address has up to four hexadecimal digits, and no label"
                        f" of {FULL[self.side]} is called that")
        return int(bare, 16)

    def _range(self, text: str) -> Tuple[int, int]:
        if self.names[self.side].address(text) is not None or ".." not in text:
            return self._address(text), self._address(text)
        return range_of(text, self._address)

    # The addresses and the condition of `AAAA .. [if CONDITION]`.
    def _places(self, given: Tuple[str, ...]) -> Tuple[List[int], Optional[Condition]]:
        words = list(given)
        at = words.index("if") if "if" in words else len(words)
        text = " ".join(words[at + 1 :])
        if not words or at < len(words) and not text:
            raise Fault("an address, or `if` and a condition")
        test = condition(text, self._address, self.byte) if text else None
        return [self._address(it) for it in words[:at]], test

    @staticmethod
    def _is_back(given: str) -> bool:
        if given not in ("", "back"):
            raise Fault(f"{given[:40]}: only `back` may follow")
        return given == "back"

    def forget(self) -> None:
        """An empty line does nothing until there are commands again."""
        self._before = ""

    # --- What is shown ---

    def _say(self, text: str, /, **found: Any) -> None:
        self.out.write(text + "\n")
        if found:
            self.found.append(found)

    def _text(self, side: str, address: int, text: str) -> str:
        names = self.names[side]
        text, name = names.text(text), names.of(address)
        return "%-18s; %s" % (text, name) if name else text

    # A moment of a side: its tick, registers and instruction, and what else is known of it.
    def _moment(self, tick: int, side: str, registers: Registers, text: str,
                what: str = "") -> None:
        line = f"{tick} {side} {registers_of(registers)} {self._text(side, registers.pc, text)}"
        more = {"what": what} if what else {}
        self._say(f"{line} ({what})" if what else line, tick=tick,
                  **self._found(side, registers, text), **more)

    def _found(self, side: str, registers: Registers, text: str) -> Dict[str, Any]:
        return {"side": side, **dict(zip(("pc", "a", "x", "y", "s", "p"), registers)),
                "text": text, "label": self.names[side].of(registers.pc)}

    def _show(self, start: Start, what: str = "") -> None:
        self._moment(start.tick, start.side, start.registers, start.text, what)

    def _show_here(self) -> None:
        view = self.machine.view
        self.past.look(self.tick, [self.side])
        self._moment(self.tick, self.side, view.registers(self.tick), view.text(self.tick))

    def _show_access(self, access: Access) -> None:
        self._say(said(access), tick=access.tick, side=SIDE[access.side], way=access.way,
                  address=access.register, byte=access.byte)

    @word("", "the tick, registers, instructions, last accesses, and the Tube")
    def do_where(self) -> None:
        past = self.past
        past.look(self.tick, past.sides)
        time = self.tick * 1e6 / past.second
        self._say(f"tick {self.tick} of {past.end}, {time:.3f} us; {self.side}")
        self._say("     " + self.beam_text())
        for side in past.sides:
            view = past.machines[side].view
            registers, told = view.registers(self.tick), view.text(self.tick)
            text = self._text(side, registers.pc, told)
            self._say(f"{side} {registers_of(registers)} {flags_of(registers)} {text}",
                      **self._found(side, registers, told))
            if past.has_tube:
                self._say("     " + self._last_access(side))
        if past.has_tube and self.tick <= past.held:
            self._say("tube " + past.traffic.tube(past.line_at(self.tick)).text())

    def beam_text(self) -> str:
        """Where the beam is, as far as that is found at once."""
        if self.tick > self.past.held:
            return f"where the beam is cannot be found after tick {self.past.held}"
        found = self.past.position(self.tick, at_once=True)
        if found is not None:
            return found.text()
        line = self.tick // (64 * self.past.second // 1000000) % 312
        return (f"line {line} of 312 by the clock, 64 us each from tick 0:"
                " `beam` counts it by the 6845")

    def _last_access(self, side: str) -> str:
        past = self.past
        if self.tick > past.held:
            return f"accesses to the Tube are at hand up to tick {past.held}"
        form = f" {side[0].upper()} ".encode()
        place = past.traffic.last([form], past.line_at(self.tick))
        if place < 0:
            return f"{FULL[side]} has not accessed the Tube"
        return past.traffic.words(place)

    # --- Ways ---

    @word("", "select the host for the commands that follow")
    def do_host(self) -> None:
        self.side = "host"

    @word("", "select the second processor")
    def do_para(self) -> None:
        self.need_tube()
        self.side = "para"

    @word("[N]", "N instructions on; 1 without a number")
    def do_step(self, number: str = "1") -> None:
        self._show(self.step(self._count(number, 1 << 30)))

    @word("[N]", "N instructions back")
    def do_back(self, number: str = "1") -> None:
        self._show(self.back(self._count(number, 1 << 30)))

    @word("", "an instruction on, past what a JSR or an interrupt does")
    def do_next(self) -> None:
        self._show(self.next())

    @word("", "the way back of next")
    def do_previous(self) -> None:
        self._show(self.previous())

    @word("", "to where the call or the interrupt comes back")
    def do_return(self) -> None:
        self._show(self.back_out())

    @word("", "back to the JSR of the call, or to what was interrupted")
    def do_caller(self) -> None:
        self._show(self.caller())

    @word("[N]", "the calls that are open, the innermost first; at most N, else 32")
    def do_backtrace(self, number: str = "32") -> None:
        if 0 < self.tick <= self.past.held:
            # One listing, and not first a short one.
            self.machine.around((), self.tick - 1, FAR, backwards=True)
        self._show_here()
        for _, frame in zip(range(self._count(number, 256)), self.frames()):
            self._show(frame.start, "" if frame.kind == "call" else f"{frame.kind} after it")

    @word("TICK", "to a tick, +N or -N from here, `end`, or a mark")
    def do_go(self, text: str) -> None:
        if text in self._marks:
            past, self.side, self.tick = self._marks[text]
            if past is not self.past:
                self.do_other()
                self.tick = self._marks[text][2]
        elif text != "end" and not re.fullmatch("[+-]?[0-9]{1,10}", text):
            raise Fault(f"{text[:40]}: a tick is a whole number, +N or -N from here, or `end`, and"
                        " no mark is called that")
        else:
            self.go(self.past.end if text == "end"
                    else int(text) + (self.tick if text[0] in "+-" else 0))
        self._show_here()

    @word("[NAME]", "marks this moment for `go NAME`; without a name shows the marks")
    def do_mark(self, name: str = "") -> None:
        if not name:
            for it, (past, side, tick) in self._marks.items():
                self._say(f"{it}: tick {tick}, {side}"
                          + ("" if past is self.past else f", of {past.name}"),
                          mark=it, tick=tick, side=side, run=past.name)
        elif name == "end" or not re.fullmatch("[A-Za-z_][A-Za-z0-9_]{0,39}", name):
            raise Fault(f"{name[:40]}: a mark begins with a letter and has letters and digits, and"
                        " is not `end`")
        else:
            self._marks[name] = self.past, self.side, self.tick

    @property
    def marks(self) -> List[str]:
        """The names of the moments that are marked."""
        return sorted(self._marks)

    @word("AAAA .. [if CONDITION]", "to the next instruction there, or where it holds")
    def do_until(self, *given: str) -> None:
        self._show(self.until(*self._places(given)))

    @word("AAAA .. [if CONDITION]", "to the last one before now")
    def do_before(self, *given: str) -> None:
        self._show(self.until(*self._places(given), back=True))

    @word("LABEL", "as until")
    def do_at(self, text: str) -> None:
        self.do_until(text)

    def _changed(self, at: int, change: Change) -> None:
        self._say(f"{at:04X}: {change.old:02X} to {change.new:02X}",
                  address=at, old=change.old, new=change.new)

    @word("AAAA[..BBBB]", "to where a byte has become another")
    def do_change(self, text: str) -> None:
        found = self.change(*self._range(text))
        self._changed(*found)
        self._show_here()

    @word("AAAA[..BBBB]", "back to the instruction that changed a byte last")
    def do_who(self, text: str) -> None:
        found = self.who(*self._range(text))
        self._changed(*found)
        self._show(found[1].start)

    @word("AAAA[..BBBB]", "to the next instruction that reads a byte")
    def do_readers(self, text: str) -> None:
        found = self.find_reader(*self._range(text))
        self._show(self._to(found, "no instruction reads it before the run ends"))

    @word("AAAA", "back along the way by which a byte came")
    def do_origin(self, text: str) -> None:
        for start, told in self.origin(self._address(text)):
            if start is None:
                self._say(told, what=told)
            else:
                self._show(start, told)

    @word("H|P R|W N [back]", "to an access to address N of the Tube, or r1 to r4, s1 to s4")
    def do_access(self, side: str, way: str, register: str, back: str = "") -> None:
        number = register if re.fullmatch("[0-7]", register) else ""
        if re.fullmatch("[rs][1-4]", register):
            number = str(2 * int(register[1]) - 2 + (register[0] == "r"))
        if side not in ("H", "P") or way not in ("R", "W") or not number:
            raise Fault("access H|P R|W N [back]: a side, a way, and an address from 0 to 7 or a"
                        " register, as in `access H R 1` or `access H R r1`")
        access = self.access(f" {side} {way} {number} ".encode(), self._is_back(back))
        self._show_access(access)
        self._show_start()

    def _show_start(self) -> None:
        start = self.machine.current(self.tick)
        if start is not None:
            self._show(start)

    @word("", "back to where the other side gave the byte that was taken last")
    def do_sender(self) -> None:
        for access in self.sender():
            self._show_access(access)
        self._show_start()

    @word("[back]", "to the next byte that is lost in a full register of the Tube")
    def do_lost(self, back: str = "") -> None:
        self._show_access(self.loss(self._is_back(back)))
        self._show_start()

    @word("[back]", "to the first instruction of the next interrupt")
    def do_interrupt(self, back: str = "") -> None:
        self._show(self.interrupt(self._is_back(back)))

    @word("[back]", "to the first instruction after the next reset or BREAK")
    def do_reset(self, back: str = "") -> None:
        self._show(self.reset(self._is_back(back)))

    @word("[back]", "to the host's first instruction after the next BREAK")
    def do_break(self, back: str = "") -> None:
        with self.on("host"):
            start = self.reset(self._is_back(back))
        self.side = "host"
        self._show(start)

    @word("[back]", "to where the second processor is next held by its reset line")
    def do_held(self, back: str = "") -> None:
        self.held(self._is_back(back))
        self._show_here()

    # --- What is there ---

    @word("AAAA [LEN]", "bytes of the memory, 64 without a length")
    def do_memory(self, text: str, length: str = "64") -> None:
        address = self._address(text)
        data = self.machine.view.bytes_at(self.tick, address, self._count(length, 65536))
        for at in range(0, len(data), 16):
            row = data[at : at + 16]
            letters = "".join(chr(byte) if 32 <= byte < 127 else "." for byte in row)
            self._say("%04X  %-47s  %s" % (address + at, row.hex(" ").upper(), letters),
                      address=address + at, bytes=row.hex())

    @word("[AAAA [N]]", "instructions, from the next one on without an address")
    def do_list(self, text: str = "", count: str = "8") -> None:
        address = self._address(text) if text else self.machine.view.registers(self.tick).pc
        view, number = self.machine.view, self._count(count, 4096)
        for at, told in view.list_at(self.tick, address, number):
            self._say("%04X %s" % (at, self._text(self.side, at, told)), address=at, text=told,
                      label=self.names[self.side].of(at))

    @word("", "what is on the stack, the top first")
    def do_stack(self) -> None:
        state = self.machine.state(self.tick)
        top = 0x101 + state.registers.s
        data = state.memory[top:0x200]
        self._say("S=%02X, %d bytes" % (state.registers.s, len(data)))
        for at in range(0, len(data), 16):
            row = data[at : at + 16]
            self._say("%04X  %s" % (top + at, row.hex(" ").upper()), address=top + at,
                      bytes=row.hex())

    @word("[N]", "accesses to the Tube, N before and N from now on; else 5")
    def do_tube(self, number: str = "5") -> None:
        self.need_tube()
        self.need_accesses()
        traffic, count = self.past.traffic, LENGTH * self._count(number, 1000)
        here = traffic.place(self.tick)
        for place in range(max(0, here - count), min(traffic.end, here + count), LENGTH):
            if place == here:
                self._say(f"now {self.tick}")
            self._show_access(traffic.access(place))

    @word("[AAAA]", "a page of teletext as text, from 7C00 without an address")
    def do_screen(self, text: str = "7C00") -> None:
        memory = self.past.machines["host"].state(self.tick).memory
        lines = screen_of(memory, self._address(text))
        while lines and not lines[-1]:
            lines.pop()
        for line in lines:
            self._say(line)

    @word("", "where the beam is, by the 6845; from then on `where` shows it")
    def do_beam(self) -> None:
        found = self.past.position(self.tick)
        assert found is not None
        self._say(found.text())

    @word("FILE.png", "writes the last whole frame of the screen as a picture")
    def do_frame(self, name: str) -> None:
        look_at_picture(name)
        write_beside(name, self.past.frame(self.tick).png())

    # --- Two runs, and the rest ---

    @word("", "with --against: goes over to the other run, at the same tick")
    def do_other(self) -> None:
        if self._other is None:
            raise Fault("there is one run alone: --against names another")
        self.past, self._other = self._other, self.past
        self.tick = min(self.tick, self.past.end)
        if not self.past.has_tube:
            self.side = "host"
        self._say(self.past.name)

    def compare(self) -> None:
        """Goes to where the two runs begin to differ, and shows both."""
        if self._other is None:
            return
        found = parting(self.past, self._other)
        if found is None:
            end = min(self.past.end, self._other.end)
            self._say(f"the same to tick {end}, where the shorter run ends")
            return
        sides = " and ".join(FULL[side] for side in found.sides)
        self._say(f"the same to tick {found.tick}; then {sides}")
        self._parted(self._other, found)

    @word("", "with --against: to where something more begins to differ")
    def do_differ(self) -> None:
        if self._other is None:
            raise Fault("there is one run alone: --against names another")
        found = next_parting(self.past, self._other, self.tick)
        if found is None:
            raise Fault("nothing more is seen to differ up to tick"
                        f" {min(self.past.end, self._other.end)}, where the shorter run ends")
        sides = " and ".join(FULL[side] for side in found.sides)
        self._say(f"nothing more differs to tick {found.tick}; then {sides}")
        self._parted(self._other, found)

    # To the moment at which two runs part: the moments before and after it in both, and the bytes
    # of memory that begin to differ.
    def _parted(self, other: Past, found: Parting) -> None:
        self.tick, self.side = found.tick, found.sides[0]
        for past in (self.past, other):
            self._say(f"- {past.name}")
            for tick in (found.tick, found.tick + 1):
                for side in found.sides:
                    view = past.machines[side].view
                    self._moment(tick, side, view.registers(tick), view.text(tick))
        for side in found.sides:
            one, two = (past.machines[side].state(found.tick + 1).memory
                        for past in (self.past, other))
            places = [at for on, at in found.items if on == side and isinstance(at, int)]
            for at in places[:8]:
                self._say(f"{side} memory {at:04X}: {one[at]:02X}, {two[at]:02X}", side=side,
                          address=at, byte=one[at], other=two[at])

    @word("[WORD]", "these commands, or one of them")
    def do_help(self, name: str = "") -> None:
        for it in [self._word(name)] if name else list(WORDS):
            self._say("%-30s %s" % ((it + " " + WORDS[it].form).strip(), WORDS[it].text))

    @word("", "ends")
    def do_quit(self) -> None:
        self.ended = True
