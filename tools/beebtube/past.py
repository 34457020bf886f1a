"""A run as something in which one goes back and forth: the state of each moment, and the starts of
instructions around it.

    past = Past.of_words(program, ["run", "2000", "x", "--os", "os", "--tube", "tube"])
    past.machines["host"].state(1000)         # once all ticks below 1,000 are done
    past.machines["host"].following(1000, 3)  # the third instruction that starts after 1,000

A run is a function of what it reads, so the program computes each of these again: `replay` gives
the state of one side at a tick, and `follow --from` the starts of its instructions from a tick on.
The files for that are in a folder of its own, which goes away.
"""
from __future__ import annotations

import concurrent.futures
import contextlib
import functools
import itertools
import os
import threading
import weakref
from collections import OrderedDict
from typing import Callable, Dict, List, Optional, Sequence, Tuple

from .beam import Beam, Position
from .faults import Fault, Refused
from .files import OUTPUT_CAP, SESSION_CAP, Name, is_plain, own_folder, read_file
from .frame import Frame
from .inputs import Fields, Inputs
from .machine import Machine, State
from .program import Program
from .report import parse as parse_report
from .trace import LENGTH
from .traffic import Traffic
from .words import Call, WrongWord

SIDES = ("host", "para")
LETTERS = {"host": "H", "para": "P"}
MOST_ACCESSES = 4194304
AT_ONCE = 60000000  # ticks that are gone through without being asked, to find the beam
BEAM = ((0xFE00, 0xFE07), (0xFE20, 0xFE2F))  # the 6845 and the video ULA


class Past:
    """A run with all its moments.

    sides    the machines that it has: "host" and "para", or the host alone, without a Tube
    end      the last tick that can be reached
    held     the tick up to which the accesses to the Tube are at hand: after it there are states,
             and no instructions
    second   ticks of a second
    trace    the accesses to the Tube, lines of 20 bytes; `traffic` finds them
    """

    def __init__(self, program: Program, inputs: Inputs, name: str,
                 progress: Optional[Callable[[str], None]] = None,
                 trace: bytes = b"", end: Optional[int] = None):
        stack = contextlib.ExitStack()
        self.folder: str = stack.enter_context(own_folder())
        self._close = weakref.finalize(self, stack.close)
        self.program, self.inputs, self.name = program, inputs, name
        self.progress = progress or (lambda _: None)
        self.sides: Tuple[str, ...] = SIDES if "tube" in inputs.images else ("host",)
        self.held = inputs.tick
        self.end = self.held if end is None else end
        self.speed = inputs.speed
        self.second = 12000000 if inputs.speed == 4 else 6000000
        self._numbers = itertools.count()
        for image, data in inputs.images.items():
            self._put(image + (".dsd" if image in inputs.double else ""), data)
        script = inputs.images.get("keys", b"").splitlines(keepends=True)
        self.script = [line for line in script if not line.rstrip().endswith(b" shot")]
        self._put("keys", b"".join(self.script))
        is_fast = trace.startswith(b"T2\n")
        self.head, self.trace = (trace[:3], trace[3:]) if is_fast else (b"", trace)
        self.traffic = Traffic(self.trace)
        self._resets: Dict[str, List[int]] = {}
        self._cut: Dict[int, str] = {}
        self._points: Dict[Tuple[int, ...], str] = {}
        self._lock = threading.Lock()
        self._beyond: "OrderedDict[int, Dict[str, State]]" = OrderedDict()
        self.pool = concurrent.futures.ThreadPoolExecutor(4)
        self.machines = {side: Machine(self, side) for side in self.sides}

    def __repr__(self) -> str:
        return f"<Past: {' and '.join(self.sides)}, {self.end:,} ticks>"

    @staticmethod
    def of_words(program: Program, words: Sequence[str],
                 progress: Optional[Callable[[str], None]] = None) -> "Past":
        """The past of a run by the arguments of `run` or `solo`, or after `host` by those of a
        host alone. Outputs that they name are not written. Refused as the program refuses."""
        if words[:1] == ["host"]:
            return Past._of_host(program, list(words[1:]), progress)
        call = Call(list(words))
        if call.command not in ("run", "solo"):
            raise WrongWord(f"{call.command}: a debugger begins with the arguments of `run` or "
                            "`solo`, with `host`, or with a session file")
        for _, read in call.reads():
            if os.path.exists(read) and not is_plain(read):
                raise Fault(f"{read} is no plain file: a run's files are read more than once")
        with own_folder() as folder:
            kept = [word for option, value in call.options.items()
                    if option not in ("--keep", "--wav", "--save") for word in (option, value)]
            place = os.path.join(folder, "out")
            program.done([call.command, call.alone["TICKS"], place, "--save", place + ".session",
                          "--keep", str(MOST_ACCESSES)] + kept)
            session = read_file(place + ".session", SESSION_CAP)
            trace = read_file(place + ".trace", OUTPUT_CAP)
            end = int(call.alone["TICKS"])
            past = Past(program, Fields(session), " ".join(words), progress, trace, end)
            past._note_end(place)
        return past

    @staticmethod
    def _of_host(program: Program, words: List[str],
                 progress: Optional[Callable[[str], None]]) -> "Past":
        given = [word for word in words if word != "--no-tube"]
        inputs = Inputs.of_host(Call(["replay", "host", os.devnull] + given))
        past = Past(program, inputs, " ".join(["host"] + words), progress)
        past.machines["host"].state(0)  # refused if a file or a word is wrong
        return past

    @staticmethod
    def of_session(program: Program, name: Name,
                   progress: Optional[Callable[[str], None]] = None) -> "Past":
        """The past of a saved session. The program brings both machines to its last moment, so
        that a damaged one is refused here."""
        session = read_file(name, SESSION_CAP)
        fields = Fields(session)
        with own_folder() as folder:
            with open(os.path.join(folder, "session"), "wb") as file:
                file.write(session)
            try:
                program.done(["resume", "session", str(fields.tick), "whole",
                              "--keep", str(MOST_ACCESSES)], folder)
            except Refused as refused:
                raise _explained(refused, os.fspath(name)) from None
            trace = read_file(os.path.join(folder, "whole.trace"), OUTPUT_CAP)
            past = Past(program, fields, os.fspath(name), progress, trace)
            past._note_end(os.path.join(folder, "whole"))
        return past

    # The last states are in the outputs of the run itself.
    def _note_end(self, out: str) -> None:
        states = {side: self.state_of(out, side) for side in SIDES}
        if self.end > self.held:
            self._beyond[self.end] = states
            return
        for side, state in states.items():
            self.machines[side].note(self.end, state)

    @property
    def has_tube(self) -> bool:
        """There is a second processor; else the host is alone."""
        return len(self.sides) > 1

    def close(self) -> None:
        """Removes the folder."""
        self.pool.shutdown()
        self._close()

    def __enter__(self) -> "Past":
        return self

    def __exit__(self, *_: object) -> None:
        self.close()

    def cycle(self, side: str) -> int:
        """How many ticks a cycle of a side has."""
        ticks = {"host": 3, "para": 2} if self.speed == 3 else {"host": 6, "para": 3}
        return ticks[side]

    def _put(self, name: str, data: bytes) -> None:
        with open(os.path.join(self.folder, name), "wb") as file:
            file.write(data)

    def fresh(self, word: str) -> str:
        """A name in the folder that nothing has yet."""
        return f"{word}{next(self._numbers)}"

    def line_at(self, tick: int) -> int:
        """Where the accesses to the Tube at a tick or later begin in the trace."""
        return self.traffic.place(tick)

    def resets(self, side: str) -> List[int]:
        """The ticks at which a side was reset after power-on: the host by BREAK, the second
        processor by BREAK or by the host; of "held" those from which the host held it reset, and
        of "freed" those from which it no longer did."""
        if not self._resets:
            breaks, resets, holds, ends = self.traffic.resets()
            if not self.has_tube:
                words = [line.split() for line in self.script]
                breaks = [int(word[1]) for word in words if word[2:] == [b"break"]]
            self._resets = {"host": breaks, "para": resets, "held": holds, "freed": ends}
        return self._resets[side]

    def cut(self, ticks: int) -> str:
        """A file of the trace up to a tick, or some way further: a replay of few ticks then reads
        few lines."""
        lines = len(self.trace) // LENGTH
        wanted = min(lines, -(-self.line_at(ticks) // LENGTH // 65536) * 65536)
        with self._lock:
            if wanted not in self._cut:
                name = self.fresh("trace")
                self._put(name, self.head + self.trace[: LENGTH * wanted])
                self._cut[wanted] = name
                while len(self._cut) > 8:
                    with contextlib.suppress(OSError):
                        os.unlink(os.path.join(self.folder, self._cut.pop(next(iter(self._cut)))))
            return self._cut[wanted]

    def points(self, addresses: Tuple[int, ...]) -> str:
        """A file of addresses, as `follow --points` takes it."""
        with self._lock:
            key = tuple(sorted(set(addresses)))
            if key not in self._points:
                self._points[key] = self.fresh("points")
                self._put(self._points[key], b"".join(b"%04X\n" % it for it in key))
            return self._points[key]

    def together(self, *calls: Callable[[], object]) -> None:
        """Replays side by side: what they find is there afterwards, and what they refuse is refused
        again. No call may use the pool."""
        def tried(call: Callable[[], object]) -> None:
            with contextlib.suppress(Fault):
                call()
        list(self.pool.map(tried, calls))

    def look(self, tick: int, sides: Sequence[str]) -> None:
        """Finds what the processors are at, side by side."""
        if tick <= self.held:
            self.together(*(functools.partial(self.machines[side].view.phase, tick)
                            for side in sides))

    def options(self, side: str, keys: str = "keys") -> List[str]:
        """The options of a replay of one side."""
        words = ["--speed", str(self.speed)]
        if side == "para":
            return words + ["--tube", "tube"]
        for image in self.inputs.images:
            if image not in ("tube", "keys"):
                words += ["--" + image, image + (".dsd" if image in self.inputs.double else "")]
        words += ["--plugs", str(self.inputs.plugs), "--keys", keys]
        return words if self.has_tube else words + ["--no-tube"]

    def frame(self, ticks: int) -> Frame:
        """What was on the screen: the last frame that was finished before a tick, a black one if
        there was none."""
        if ticks < 1:
            raise Fault("there is no frame before the first tick")
        below = [line for line in self.script if int(line.split()[1]) < ticks]
        script, out = b"".join(below) + b"at %d shot\n" % (ticks - 1), self.fresh("frame")
        if ticks > self.held:
            self._resume(ticks, out, script)
        else:
            keys = self.fresh("keys")
            self._put(keys, script)
            words = ["replay", "host", self.cut(ticks), str(ticks), out]
            self.program.done(words + self.options("host", keys), self.folder)
        return Frame.read(os.path.join(self.folder, out + ".000.ppm"))

    def states(self, tick: int) -> Dict[str, State]:
        """All sides at a tick."""
        if tick > self.held:
            return self.beyond(tick)
        self.cut(tick)
        found = self.pool.map(lambda side: self.machines[side].state(tick), self.sides)
        return dict(zip(self.sides, found))

    def beyond(self, tick: int) -> Dict[str, State]:
        """Both sides at a tick after those whose accesses are at hand: the run goes on to it."""
        if tick not in self._beyond:
            out = self.fresh("beyond")
            self._resume(tick, out, b"".join(self.script))
            self._beyond[tick] = {side: self.state_of(out, side) for side in SIDES}
            self.remove(out)
            while len(self._beyond) > 16:
                self._beyond.popitem(last=False)
        return self._beyond[tick]

    def _resume(self, tick: int, out: str, script: bytes) -> None:
        session = self.fresh("session")
        assert isinstance(self.inputs, Fields)
        self._put(session, self.inputs.with_keys(script))
        self.progress(f"from tick {self.held} to {tick}")
        self.program.done(["resume", session, str(tick), out, "--keep", "0"], self.folder)
        os.unlink(os.path.join(self.folder, session))

    def state_of(self, out: str, side: str) -> State:
        """What the outputs of a call have of a side."""
        place = os.path.join(self.folder, out)
        text = read_file(place + ".report")
        report = parse_report(text)
        registers = report.host if side == "host" else report.para
        if registers is None:
            raise Fault("a report without registers")
        held = side == "para" and b" held\n" in text
        return State(registers, read_file(f"{place}.{side}"), held)

    def remove(self, out: str) -> None:
        """Removes the outputs of a call."""
        plugs = (f"plug{number}" for number in range(8))
        for ending in ("report", "host", "para", "d0", "d1", "trace", *plugs):
            with contextlib.suppress(OSError):
                os.unlink(os.path.join(self.folder, f"{out}.{ending}"))

    def position(self, tick: int, at_once: bool = False) -> Optional[Position]:
        """Where the beam is once all ticks below this one are done, by what was written to the 6845
        and the video ULA. With `at_once` None if a search of the run would take too long."""
        if tick > self.held:
            raise Fault(f"where the beam is cannot be found after tick {self.held}")
        view = self.machines["host"].view
        if at_once and self.held > AT_ONCE:
            # The ROMs come first: they need no state.
            for moment in (None, tick):
                if not all(map(view.knows, view.storing(moment, *BEAM))):
                    return None
        addresses = view.storing(tick, *BEAM)
        beam = Beam(self.second // 1000000)
        for start in view.stores_at(addresses):
            if start.tick >= tick:
                break
            beam.store(start)
        return beam.at(tick)


# A session that the program refuses, with the reason.
def _explained(refused: Refused, name: str) -> Fault:
    word, _, rest = refused.text.partition(" ")
    if refused.status != 8:
        return refused
    what = {"wrong": f"its access {rest.split()[0]} has an answer that the Tube does not give",
            "differs": f"at its access {rest.split()[0]} the machine does something else"}
    return Fault(f"{name} is damaged, or from another program: {what.get(word, refused.text)}"
                 f" (status 8: {refused.text})")
