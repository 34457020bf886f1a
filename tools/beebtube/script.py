"""Key scripts: what is pressed when, and texts that are typed.

Ticks are of 1/6 microsecond, 6,000,000 a second; with `--speed 4` of 1/12, 12,000,000 a second.
"""
from __future__ import annotations

import re
from typing import Callable, Dict, Iterable, List, NamedTuple, Optional, Tuple, Union

from .faults import Fault
from .words import MOST_TICKS, number_of, second_of

MOST_SHOTS = 256
# The least times of a key for an operating system that looks at the keyboard each hundredth of a second.
LEAST = 0.02
# How long keys with BREAK are held: an operating system looks at them 50 milliseconds and more after it.
WITH_BREAK = 1.0

# The keys by their numbers, as docs/KEYS.md has them: a row a line, a column a word.
MATRIX = """
SHIFT CTRL link1 link2 link3 link4 link5 link6 link7 link8
Q 3 4 5 f4 8 f7 - ^ left
f0 W E T 7 I 9 0 _ down
1 2 D R 6 U O P [ up
CAPS_LOCK A X F Y J K @ : RETURN
SHIFT_LOCK S C G H N L ; ] DELETE
TAB Z SPACE V B M , . / COPY
ESCAPE f1 f2 f3 f5 f6 f8 f9 \\ right
"""
KEYS: Dict[str, int] = {
    name.replace("_", " ") if len(name) > 1 else name: 16 * row + column
    for row, line in enumerate(MATRIX.strip().splitlines())
    for column, name in enumerate(line.split())
}
BY_NAME = {name.upper(): number for name, number in KEYS.items()}
# What SHIFT makes of a key: the sign, and the key that has it.
SHIFTED = dict(zip("!\"#$%&'()=~{*+}<>?|£`", ["1", "2", "3", "4", "5", "6", "7", "8", "9", "-", "^",
                                              "[", ":", ";", "]", ",", ".", "/", "\\", "_", "_"]))
SHIFT, CTRL = KEYS["SHIFT"], KEYS["CTRL"]


class Event(NamedTuple):
    """A line of a script.

    tick    from 0 to 1,073,741,824
    what    "down" or "up" of a key, "shot", "break", or "adc", a level of the converter
    number  the key, 00 to 7F, or the converter's channel, 0 to 3; else 0
    level   of the converter, from 0 to 65,535; else 0
    """

    tick: int
    what: str
    number: int = 0
    level: int = 0

    def line(self) -> str:
        """The line, without its line feed."""
        if self.what in ("down", "up"):
            return "at %d %s %02X" % (self.tick, self.what, self.number)
        if self.what == "adc":
            return "at %d adc %d %04X" % (self.tick, self.number, self.level)
        return "at %d %s" % (self.tick, self.what)


class BadScript(Fault):
    """A line of a script that the program refuses, from 1 on, and why."""

    def __init__(self, number: int, why: str):
        self.number, self.why = number, why
        super().__init__("bad script %d: %s" % (number, why))

    def __reduce__(self) -> Tuple[type, Tuple[int, str]]:
        return type(self), (self.number, self.why)


class Script:
    """A key script. Adding events keeps their order; `text()` is what `--keys` takes."""

    def __init__(self, events: Iterable[Event] = ()):
        self.events: List[Event] = list(events)

    def text(self) -> str:
        """The lines of the script; nothing where it has no events."""
        return "".join(event.line() + "\n" for event in self.events)

    def __repr__(self) -> str:
        return f"{type(self).__name__}({len(self.events)} events)"

    def later(self, ticks: int) -> "Script":
        """A script of the same events, so many ticks later."""
        return Script(event._replace(tick=event.tick + ticks) for event in self.events)

    @property
    def shots(self) -> int:
        """How many shots it takes."""
        return sum(event.what == "shot" for event in self.events)

    @staticmethod
    def parse(text: Union[str, bytes]) -> "Script":
        """The script of a text; BadScript at the first line that the program refuses."""
        data = text.encode("utf-8", "surrogateescape") if isinstance(text, str) else bytes(text)
        script, before, shots = Script(), 0, 0
        lines = data.split(b"\n")
        for number, line in enumerate(lines, 1):
            is_last = number == len(lines)
            if is_last and not line:
                break
            event = event_of(line)
            if event is None:
                raise BadScript(number, line_fault(line))
            if is_last:
                raise BadScript(number, "the last line has no line feed")
            if event.tick < before:
                raise BadScript(number, "the tick %d is below the %d of the line before" % (event.tick, before))
            shots += event.what == "shot"
            if shots > MOST_SHOTS:
                raise BadScript(number, "a script has %d shots at most" % MOST_SHOTS)
            before = event.tick
            script.events.append(event)
        return script


_FORM = re.compile(rb"at (0|[1-9][0-9]{0,9}) (?:(down|up) ([0-7][0-9A-F])|(shot|break)|adc ([0-3]) ([0-9A-F]{4}))")


def event_of(line: bytes) -> Optional[Event]:
    """The event of a line without its line feed; None where it is outside the form."""
    match = _FORM.fullmatch(line)
    if not match or int(match.group(1)) > MOST_TICKS:
        return None
    tick = int(match.group(1))
    if match.group(2):
        return Event(tick, match.group(2).decode(), int(match.group(3), 16))
    if match.group(4):
        return Event(tick, match.group(4).decode())
    return Event(tick, "adc", int(match.group(5)), int(match.group(6), 16))


def line_fault(line: bytes) -> str:
    """What is wrong with a line that `event_of` does not take."""
    if not line:
        return "the line is empty"
    if line.endswith(b"\r"):
        return "the line ends with a carriage return: lines end with a line feed alone"
    if any(byte > 126 or byte < 32 for byte in line):
        return "the line has a byte that is no letter, digit or blank"
    if line != line.strip() or b"  " in line:
        return "words have one blank between them, and none at the ends"
    words = line.decode().split(" ")
    if words[0] != "at" or len(words) < 3:
        return "a line is `at T down KK`, `at T up KK`, `at T shot`, `at T break` or `at T adc C VVVV`"
    if number_of(words[1]) is None or int(words[1]) > MOST_TICKS:
        return "the tick %s is no whole number up to %s" % (words[1][:20], "{:,}".format(MOST_TICKS))
    wanted = {"down": 4, "up": 4, "shot": 3, "break": 3, "adc": 5}
    if words[2] not in wanted:
        meant = ", %s?" % words[2].lower() if words[2].lower() in wanted else "; there are %s" % ", ".join(wanted)
        return "no event is called %s%s" % (words[2][:20], meant)
    if len(words) != wanted[words[2]]:
        return "`%s` has %d words after it" % (words[2], wanted[words[2]] - 3)
    if words[2] == "adc":
        return "`adc` has a channel from 0 to 3 and a level of four upper-case hexadecimal digits"
    if re.fullmatch("[0-7][0-9A-F]", words[3].upper()):
        return "key numbers are upper case: %s" % words[3].upper()
    return "the key %s is no number of two upper-case hexadecimal digits from 00 to 7F" % words[3][:20]


class Typed(Script):
    """A script that types a text.

    keys    how many keys it presses
    ticks   how many ticks a run needs for it, at least
    hold, gap  how long a key is down, and none before the next, in seconds
    """

    keys = 0
    ticks = 0
    hold = gap = 0.0


def typed(text: str, start: float = 2.0, hold: float = 0.05, gap: float = 0.05, shift: bool = False, control: bool = False,
          caps: bool = False, shot: bool = False, speed: int = 3, fit: bool = False) -> Typed:
    """The script that types a text, in the language of `tools/type --help`.

    start    when the first key goes down, in seconds
    hold     how long a key is down, and `gap` how long none is before the next, in seconds
    shift    SHIFT is held during the whole text; `control` the same of CTRL
    caps     no SHIFT for letters from A to Z
    shot     a shot half a second after the last key
    speed    3 or 4: the ticks of a second are 6,000,000 or 12,000,000
    fit      keys are pressed faster if the text needs more ticks than a run has
    Fault where no key has a letter, no key has a name, there are too many shots, or a run is too short.
    """
    if speed not in (3, 4):
        raise Fault(f"speed {speed}: it is 3 or 4")
    for name, seconds in (("start", start), ("hold", hold), ("gap", gap)):
        if not seconds >= 0:
            raise Fault(f"{name} {seconds:g}: it is a number of seconds from 0 on")
    second = second_of(speed)

    def made(hold: float, gap: float) -> Typed:
        typist = _Typist(second, start, hold, gap, shift, control, caps)
        typist.type(text)
        return typist.end(shot)

    script = made(hold, gap)
    if script.ticks > MOST_TICKS and fit:
        script = _fitted(made, hold, gap, script)
    if script.ticks > MOST_TICKS:
        raise Fault("%s keys need %s ticks; a run has %s at most%s" % (
            "{:,}".format(script.keys), "{:,}".format(script.ticks), "{:,}".format(MOST_TICKS), "" if fit else ": --fit types faster"))
    if script.shots > MOST_SHOTS:
        raise Fault("%d shots: a script has %d at most" % (script.shots, MOST_SHOTS))
    return script


# The slowest pace at which a text fits into a run, to a thousandth of what was asked; the fastest one where none does.
def _fitted(made: Callable[[float, float], Typed], hold: float, gap: float, whole: Typed) -> Typed:
    least = min(1.0, max(LEAST / hold if hold else 0.0, LEAST / gap if gap else 0.0))
    low, high, found = 0, 1000, made(hold * least, gap * least)
    if found.ticks > MOST_TICKS:
        return found
    while high - low > 1:
        middle = (low + high) // 2
        part = least + (1 - least) * middle / 1000
        tried = made(hold * part, gap * part)
        if tried.ticks > MOST_TICKS:
            high = middle
        else:
            low, found = middle, tried
    return found


class _Typist:
    def __init__(self, second: int, start: float, hold: float, gap: float, shift: bool, control: bool, caps: bool):
        self.second, self.caps = second, caps
        self.script = Typed()
        self.script.hold, self.script.gap = hold, gap
        self.at = self.ticks(start)
        self.hold_ticks, self.gap_ticks = self.ticks(hold), self.ticks(gap)
        self.fixed = [SHIFT] * shift + [CTRL] * control
        self.held: List[int] = []  # keys that are down on and on

    def ticks(self, seconds: float) -> int:
        return round(seconds * self.second)

    def add(self, what: str, number: int = 0, level: int = 0) -> None:
        self.script.events.append(Event(self.at, what, number, level))

    # The keys that are held with others go down half a gap before the next key, and up half a gap after it.
    def keep_down(self, wanted: List[int]) -> None:
        for key in self.held:
            if key not in wanted:
                self.add("up", key)
        for key in wanted:
            if key not in self.held:
                self.add("down", key)
        self.held = list(wanted)

    def press(self, keys: List[Optional[int]], hold: Optional[int] = None) -> None:
        self.script.keys += 1
        others, last = [key for key in keys[:-1] if key is not None], keys[-1]
        wanted = self.fixed + [key for at, key in enumerate(others) if key not in self.fixed and key not in others[:at]]
        self.keep_down(wanted)
        self.at += self.gap_ticks // 2
        if last is None:
            self.add("break")
            least = self.ticks(WITH_BREAK) if wanted else 0
            self.at += hold if hold is not None else max(self.hold_ticks, least)
        else:
            # A key that is held on and on stays down.
            if last not in wanted:
                self.add("down", last)
            self.at += self.hold_ticks if hold is None else hold
            if last not in wanted:
                self.add("up", last)
        self.at += self.gap_ticks - self.gap_ticks // 2

    def type(self, text: str) -> None:
        braces = re.compile(r"\{(\{|[^{}\n]+)(\}?)")
        place = 0
        while place < len(text):
            match = braces.match(text, place)
            if text.startswith("{{", place):
                self.press(_keys_of_letter("{", self.caps))
                place += 2
            elif text[place] != "{":
                self.press(_keys_of_letter(text[place], self.caps))
                place += 1
            elif not match or not match.group(2):
                raise Fault("a { without its }: the key { is {{")
            else:
                self.done(match.group(1))
                place = match.end()

    def done(self, name: str) -> None:
        wait = re.fullmatch(r"WAIT ([0-9]{1,6}(?:\.[0-9]{1,6})?)", name)
        adc = re.fullmatch(r"ADC ([0-3]) ([0-9A-Fa-f]{4})", name)
        held = re.fullmatch(r"(.+) ([0-9]{1,6}(?:\.[0-9]{1,6})?)", name)
        if wait:
            self.at += self.ticks(float(wait.group(1)))
        elif name == "SHOT":
            self.add("shot")
        elif adc:
            self.add("adc", int(adc.group(1)), int(adc.group(2), 16))
        elif name.startswith("ADC"):
            raise Fault("{%s}: a channel from 0 to 3 and a level of four hexadecimal digits, as {ADC 0 8000}" % name)
        elif held:
            self.press(_keys_of_name(held.group(1)), self.ticks(float(held.group(2))))
        else:
            self.press(_keys_of_name(name))

    def end(self, shot: bool) -> Typed:
        self.keep_down([])
        if shot:
            self.at += self.ticks(0.5)
            self.add("shot")
        self.script.ticks = self.at + self.second // 10
        return self.script


# The numbers of the keys of one letter: SHIFT first where it is held.
def _keys_of_letter(letter: str, caps: bool) -> List[Optional[int]]:
    if letter in "\n\t ":
        return [KEYS[{"\n": "RETURN", "\t": "TAB", " ": "SPACE"}[letter]]]
    if letter in SHIFTED:
        return [SHIFT, KEYS[SHIFTED[letter]]]
    if letter.isascii() and letter.isalpha():
        held: List[Optional[int]] = [SHIFT] if letter.isupper() and not caps else []
        return held + [KEYS[letter.upper()]]
    if letter in KEYS:
        return [KEYS[letter]]
    raise Fault("no key has %r" % letter)


# The numbers of the keys of a name in braces; None for BREAK.
def _keys_of_name(name: str) -> List[Optional[int]]:
    keys: List[Optional[int]] = []
    for part in re.split(r"\+(?=.)", name):
        if part.upper() == "BREAK":
            keys.append(None)
        elif part.upper() in BY_NAME:
            keys.append(BY_NAME[part.upper()])
        else:
            raise Fault("no key is called %s" % part)
    if None in keys[:-1]:
        raise Fault("{%s}: BREAK comes last, after the keys that are held with it" % name)
    return keys


def key(name: str) -> int:
    """The number of a key of this name, `A`, `RETURN`, `f0`; Fault where there is none."""
    if name.upper() not in BY_NAME:
        raise Fault("no key is called %s" % name)
    return BY_NAME[name.upper()]


def pressed(*presses: Tuple[int, str, int]) -> Script:
    """A script of presses in their order, each the tick, the key's name, and for how many ticks it is down."""
    events = []
    for tick, name, ticks in presses:
        events += [Event(tick, "down", key(name)), Event(tick + ticks, "up", key(name))]
    return Script(sorted(events, key=lambda event: event.tick))
