"""`tools/play`, a machine with a disc, into which a text is typed; and `tools/type`, its keys alone."""
from __future__ import annotations

import os
import sys
from typing import Any, Callable, Dict, Iterator, List, Optional, Sequence, Tuple

from .command import Usage, note, read_standard_input
from .disc import note_of
from .faults import Fault, Refused
from .files import TEXT_CAP, is_plain, look_at_place, same_file, write_beside
from .frame import look_at_picture, picture_of
from .program import OWN, Program, Run
from .reading import Reader, seconds
from .sets import read_set, with_names, words_of
from .script import MOST_SHOTS, Event, Script, Typed, typed
from .words import OPTIONS, second_of

DEFAULT = "roms.set"
BOOT = "{SHIFT+BREAK}"
EVERY = 0.2  # seconds from one screen of a moving picture to the next
MOST_SCREENS = 250  # of a moving picture; with those of the text they are no more than a script's shots


def _is_disc(name: str) -> bool:
    return name == "-" or name.lower().endswith((".ssd", ".dsd"))


def sort_names(names: Sequence[str]) -> Tuple[str, str, Optional[str]]:
    """The set, the disc and the text that up to three words name."""
    rest = list(names)
    chosen = DEFAULT
    if not _is_disc(rest[0]):
        if len(rest) == 1 or not _is_disc(rest[1]):
            raise Fault("%s: a disc's name ends in .ssd or .dsd, and `-` is no disc: SET DISC TEXT" % (rest[1] if len(rest) > 1 else rest[0])[:60])
        chosen = rest.pop(0)
    elif not os.path.exists(chosen):
        if not os.path.exists(OWN):
            raise Fault("no set is named, and there is no %s here: `tools/words --make %s --os OS --rom15 BASIC ..` makes one" % (chosen, chosen))
        chosen = OWN
    if len(rest) > 2:
        raise Fault("%s: a text is one argument: put it in quotes" % rest[2][:60])
    return chosen, rest[0], rest[1] if len(rest) == 2 else None


class Player:
    """A machine of a set with a disc, and what is typed.

    ticks   how long it runs
    script  the keys and shots
    """

    def __init__(self, chosen: str, disc: str, text: Optional[str], both: bool, out: Optional[str]):
        words = [word for pair in read_set(chosen) for word in pair] if chosen == OWN else words_of(chosen)
        self.options: Dict[str, str] = dict(zip(words[::2], words[1::2]))
        self.chosen, self.disc, self.both = chosen, disc, both
        self.text = text if text is not None else BOOT if disc != "-" else ""
        if disc != "-":
            if "--disc0" in self.options:
                raise Fault("%s has a disc in drive 0: name `-` as the disc, or take it out of the set" % chosen)
            if not is_plain(disc):
                raise Fault("cannot read %s" % disc)
            self.options["--disc0"] = disc
        for option in ("--keys", "--at", "--watch", "--keep"):
            if option in self.options:
                raise Fault("%s has %s, which is not for this tool" % (chosen, option))
        for option in ("--os",) + ("--tube",) * both:
            if option not in self.options:
                raise Fault("%s has no %s: `tools/words --make %s %s ROM ..` makes a set" % (chosen, option, chosen, option))
        self.out = out if out is not None else "screen" if disc == "-" else os.path.basename(disc)[:-4] or "screen"
        self.script, self.ticks, self._moving, self._delay = Script(), 0, [], 0  # type: Script, int, List[int], int

    @property
    def second(self) -> int:
        """Ticks of a second."""
        return second_of(self.options.get("--speed"))

    def type(self, start: float, hold: float, gap: float, caps: bool, wait: float, movie: bool) -> None:
        """Makes the script: the text from `start` on, `wait` seconds more, and a shot; with `movie` a shot each fifth of a second."""
        last = self.text + ("{WAIT %.6f}" % wait if wait else "")
        made: Typed = typed(last, start, hold, gap, caps=caps, shot=True, speed=4 if self.second > 6000000 else 3)
        self.ticks, self.script = made.ticks, made
        if movie:
            self._add_screens(made)

    def _add_screens(self, made: Typed) -> None:
        room = min(MOST_SCREENS, MOST_SHOTS - made.shots)
        if room < 1:
            raise Fault("the text has %d shots: there is no room for a moving picture" % (made.shots - 1))
        every = max(EVERY, self.ticks / self.second / room)
        ticks = [round(every * self.second * number) for number in range(1, room + 1)]
        ticks = [tick for tick in ticks if tick < self.ticks]
        self._delay = round(1000 * every)
        # A shot of the text at the same tick comes first.
        events = sorted([(event.tick, 0, number, event) for number, event in enumerate(made.events)]
                        + [(tick, 1, number, Event(tick, "shot")) for number, tick in enumerate(ticks)])
        self.script = Script(event for _, _, _, event in events)
        shots = [kind for _, kind, _, event in events if event.what == "shot"]
        self._moving = [number for number, kind in enumerate(shots) if kind]

    def notes(self) -> Iterator[str]:
        """What the machine lacks."""
        if self.chosen == OWN:
            yield "no set is named: the machine has the ROMs of system/, which are the project's own"
        if note_of(self.disc):
            yield "%s is taken as a DSD, by its name" % self.disc
        if "--font" not in self.options:
            yield "no font: letters of teletext (mode 7) will be blank"
        if not any(option.startswith("--rom") for option in self.options):
            yield "no paged ROM: there is no language and no filing system but what the operating system has"
        if "--tube" in self.options and not self.both and self.chosen != OWN:
            yield "the set's --tube is left aside: --both has the second processor"

    def _names(self, stills: int) -> List[str]:
        return ["%s.%03d.png" % (self.out, number) for number in range(stills - 1)] + ["%s.png" % self.out]

    def play(self, sound: bool) -> Iterator[str]:
        """Runs the machine and writes the pictures, and the sound; gives the name of each file that was written."""
        stills = self.script.shots - len(self._moving)
        pictures = self._names(stills) + ["%s.movie.png" % self.out] * bool(self._moving)
        reads = [self.chosen] + [value for option, value in self.options.items() if OPTIONS[option].kind == "file"]
        for name in pictures:
            look_at_picture(name)
        if sound:
            look_at_place(self.out + ".wav", "sound", lambda begin: begin.startswith(b"RIFF"))
        for name in pictures + [self.out + ".wav"] * sound:
            if any(same_file(name, read) for read in reads):
                raise Fault("%s is read too, and is not overwritten" % name)
        options: Dict[str, Any] = {option[2:]: value for option, value in self.options.items() if self.both or option != "--tube"}
        program = Program()
        machine: Callable[..., Run] = program.host
        if self.both:
            machine = program.run
        try:
            with machine(self.ticks, keys=self.script, wav=sound, **options) as run:
                frames, heard = run.frames, run.wav if sound else b""
        except Refused as refused:
            why = [with_names(line, self.options) for line in refused.why]
            raise Refused(refused.status, refused.text, why) from None
        moving = [frames[number] for number in self._moving]
        still = [frame for number, frame in enumerate(frames) if number not in self._moving]
        for name, frame in zip(pictures, still):
            write_beside(name, picture_of([frame]), reads)
            yield name
        if moving:
            write_beside(pictures[-1], picture_of(moving, self._delay), reads)
            yield pictures[-1]
        if sound:
            write_beside(self.out + ".wav", heard, reads)
            yield self.out + ".wav"


# The times of keys.
def _reader() -> Reader:
    reader = Reader()
    for name, value in (("--start", 2.0), ("--hold", 0.05), ("--gap", 0.05)):
        reader.add_argument(name, type=seconds, default=value)
    reader.add_argument("--caps", action="store_true")
    return reader


def play(words: List[str]) -> None:
    """tools/play."""
    reader = _reader()
    reader.add_argument("--wait", type=seconds, default=3.0)
    for name in ("--both", "--movie", "--wav", "--ticks"):
        reader.add_argument(name, action="store_true")
    reader.add_argument("--out")
    reader.add_argument("names", nargs="+")
    asked = reader.parse_args(words)
    if len(asked.names) > 3:
        raise Usage("the arguments are a set, a disc and a text")
    player = Player(*sort_names(asked.names), asked.both, asked.out)
    player.type(asked.start, asked.hold, asked.gap, asked.caps, asked.wait, asked.movie)
    for text in player.notes():
        note(text)
    if asked.ticks:
        print(player.ticks)
        return
    for name in player.play(asked.wav):
        print(name)


def type_(words: List[str]) -> None:
    """tools/type."""
    reader = _reader()
    for name in ("--fit", "--shift", "--control", "--shot"):
        reader.add_argument(name, action="store_true")
    reader.add_argument("--speed", choices=("3", "4"), default="3")
    reader.add_argument("text", nargs="?")
    asked = reader.parse_args(words)
    text = asked.text
    if text is None:
        try:
            text = read_standard_input(TEXT_CAP).decode("utf-8")
        except UnicodeDecodeError as error:
            raise Fault(f"the text is not UTF-8 at byte {error.start}") from None
    script = typed(text, asked.start, asked.hold, asked.gap, asked.shift, asked.control, asked.caps,
                   asked.shot, int(asked.speed), asked.fit)
    sys.stdout.write(script.text())
    sys.stdout.flush()
    note(f"keys {script.keys}, shots {script.shots}; run {script.ticks} ticks or more")
