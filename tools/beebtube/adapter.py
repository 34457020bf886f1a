"""A debug adapter: the debugger's engine behind the Debug Adapter Protocol, for editors."""
from __future__ import annotations

import os
import re
import shlex
import subprocess
import sys
from typing import Any, BinaryIO, Callable, Dict, Iterator, List, NamedTuple, Optional, Set, Tuple

from .conditions import Condition, condition
from .console import past_of
from .debugging import Debugger
from .engine import FULL
from .faults import Fault
from .files import own_folder
from .listings import Start
from .naming import Names
from .naming import read as naming_read
from .past import SIDES, Past
from .program import TOP, Part, Program
from .shown import REQUESTS, SIDE_OF, THREADS, Shown, request
from .wire import Message, Wire

MOST_STEPS = 100000  # instructions without a line that a step goes through
HITS = re.compile(r"\s*(>=|>|=|==|%)?\s*([0-9]{1,9})\s*")
FILTERS = {"interrupt": "An interrupt begins", "reset": "A reset or BREAK",
           "lost": "A byte is lost in the Tube"}
CAPABILITIES = (
    "supportsConfigurationDoneRequest", "supportsFunctionBreakpoints",
    "supportsConditionalBreakpoints", "supportsHitConditionalBreakpoints",
    "supportsEvaluateForHovers", "supportsStepBack", "supportsGotoTargetsRequest",
    "supportsDataBreakpoints", "supportsReadMemoryRequest", "supportsDisassembleRequest",
    "supportsInstructionBreakpoints", "supportsSteppingGranularity", "supportsCancelRequest",
    "supportsTerminateRequest", "supportsLoadedSourcesRequest", "supportsCompletionsRequest",
    "supportsDataBreakpointBytes", "supportsDelayedStackTraceLoading",
    "supportsExceptionInfoRequest")


class Cancelled(Fault):
    """The client ended the request."""


class Stop(NamedTuple):
    """Where a run stops: the tick, the side, and why."""

    tick: int
    side: str
    reason: str
    text: str


class Break(NamedTuple):
    """A breakpoint: its side and address, and when it counts."""

    side: str
    address: int
    test: Optional[Condition]
    hits: str
    reason: str


class Adapter(Shown):
    """One client: it launches one run, and goes about in it."""

    def __init__(self, source: BinaryIO, target: BinaryIO):
        super().__init__()
        self.program = Program()
        self.breaks: Dict[str, List[Break]] = {}
        self.watched: List[Tuple[str, int, int, str]] = []
        self.filters: List[str] = []
        self._after: List[Message] = []
        self._why = ""
        self._is_cancelled = self._ended = False
        self._busy: Optional[int] = None
        self._unwanted: Set[Optional[int]] = set()
        self.wire = Wire(source, target, self._urgent)  # last: it may call `_urgent` at once

    # --- Messages ---

    def serve(self) -> None:
        """Answers the client until it ends or goes away."""
        try:
            while not self._ended:
                asked = self.wire.next()
                if asked is None:
                    break
                if asked.get("type") == "request":
                    self._answer(asked)
        finally:
            if self.past is not None:
                self.past.close()

    def _urgent(self, asked: Message) -> None:
        arguments = asked.get("arguments")
        wanted = arguments.get("requestId") if isinstance(arguments, dict) else None
        if asked["command"] == "cancel" and wanted != self._busy:
            if isinstance(wanted, int):
                self._unwanted.add(wanted)  # it may not have begun
        else:
            self._is_cancelled = True
            self.program.stop()

    def _progress(self, _: str) -> None:
        if self._is_cancelled:
            raise Cancelled("cancelled")

    def _answer(self, asked: Message) -> None:
        name, seq = str(asked.get("command")), asked.get("seq")
        seq = seq if isinstance(seq, int) else 0
        self._after, self._busy = [], seq
        self._is_cancelled = seq in self._unwanted
        told: Message = {"type": "response", "request_seq": seq, "command": name}
        try:
            if name not in REQUESTS:
                raise Fault(f"{name}: no such request")
            arguments = asked.get("arguments")
            self._progress("")
            body = REQUESTS[name](self, arguments if isinstance(arguments, dict) else {})
            told.update(success=True, **({} if body is None else {"body": body}))
        except Exception as error:  # noqa: BLE001 # a request that fails ends nothing
            text = str(error) if isinstance(error, Fault) else f"{type(error).__name__}: {error}"
            text = "cancelled" if self._is_cancelled else text
            shown = {"id": 1, "format": text.replace("{", "(").replace("}", ")"), "showUser": True}
            told.update(success=False, message=text, body={"error": shown})
        self._busy = None
        self.wire.send(**told)
        for event in self._after:
            self.wire.send(type="event", **event)

    def _event(self, event: str, **body: Any) -> None:
        self._after.append({"event": event, **({"body": body} if body else {})})

    def _stopped(self, reason: str, text: str = "", side: str = "") -> None:
        self._frames, self._why = [], text or reason
        body = {"reason": reason, "threadId": THREADS[side or self.debugger.side],
                "allThreadsStopped": True}
        self._event("stopped", **body, **({"text": text, "description": text} if text else {}))

    # --- Beginning and end ---

    @request("initialize")
    def _initialize(self, _: Message) -> Message:
        filters = [{"filter": name, "label": label} for name, label in FILTERS.items()]
        return {**dict.fromkeys(CAPABILITIES, True), "exceptionBreakpointFilters": filters,
                "supportedChecksumAlgorithms": []}

    @request("launch")
    def _launch(self, given: Message) -> None:
        if self.past is not None:
            raise Fault("there is a run already")
        folder = given.get("cwd") or "."
        with _inside(folder):
            self.past = self._run_of(given)
            names = {}
            for side in SIDES:
                labels = [naming_read(name) for name in _list(given, f"{side}Labels")]
                self._add_sources(side, given, labels)
                names[side] = Names(labels)
        self.past.progress = self._progress
        self._debugger = Debugger(self.past, names, out=self.out)
        wanted = str(given.get("side", "para" if "program" in given and not given.get("host")
                               else "host"))
        if wanted not in self.past.sides:
            raise Fault(f"{wanted}: the sides are {' and '.join(self.past.sides)}")
        self.debugger.side = wanted
        self._begin = given
        self._event("initialized")

    def _run_of(self, given: Message) -> Past:
        if "session" in given:
            return Past.of_session(self.program, str(given["session"]), self._progress)
        for word in ("run", "solo", "host"):
            if isinstance(given.get(word), (str, list)):
                return past_of(self.program, [word] + _list(given, word), self._progress)
        if not given.get("program"):
            raise Fault("launch needs `session`, `program`, or the arguments of `run`, `solo` or"
                        " `host`")
        with own_folder() as place:
            session = os.path.join(place, "session")
            words = [sys.executable, "-B", os.path.join(TOP, "tools", "execute"), "--save", session]
            if given.get("host"):
                words.append("--host")
            if given.get("both"):
                words += ["--both", str(given["both"])]
            words += _list(given, "options") + [str(given["program"])] + _list(given, "args")
            done = subprocess.run(words, stdin=subprocess.DEVNULL, stdout=subprocess.PIPE,
                                  stderr=subprocess.PIPE, check=False)
            if not os.path.exists(session):
                raise Fault(done.stderr.decode("utf-8", "replace").strip()
                            or "tools/execute left no session")
            for kind, text in (("stdout", done.stdout), ("stderr", done.stderr)):
                if text:
                    self._event("output", category=kind, output=text.decode("utf-8", "replace"))
            return Past.of_session(self.program, session, self._progress)

    def _add_sources(self, side: str, given: Message, labels: List[Any]) -> None:
        source = self.sources[side]
        part: Part = "6502" if side == "host" else "65c02"
        for name in _list(given, f"{side}Debug"):
            # The working folder is that of `launch` for its time alone.
            source.add_ld65(name, os.path.abspath(given.get("sourceFolder") or "."))
        for name in _list(given, f"{side}Source"):
            source.add_asm(self.program, part, name)
            labels.append(self.program.labels_of(part, name))

    @request("configurationDone")
    def _configured(self, _: Message) -> None:
        debugger, at = self.debugger, self._begin.get("at", "start")
        debugger.tick = 0
        if isinstance(at, int) or at == "end":
            debugger.go(debugger.past.end if at == "end" else at)
            self._stopped("entry")
            return
        main = self.sources[debugger.side].symbols.get("main")
        start = debugger.find([main]) if main is not None else debugger.machine.following(0)
        if start is not None:
            debugger.tick = start.tick
        if self._begin.get("stopOnEntry", True) or start is None:
            self._stopped("entry")
        else:
            debugger.tick = 0
            self._continue({})

    @request("disconnect", "terminate")
    def _end(self, _: Message) -> None:
        self._ended = True
        self._event("terminated")

    @request("cancel", "pause")
    def _cancel(self, _: Message) -> None:
        return None

    # --- Breakpoints ---

    def _break(self, given: Message, side: str, address: int, reason: str) -> Break:
        debugger = self.debugger
        text = given.get("condition")
        names = debugger.names[side]

        def address_of(word: str) -> int:
            found = names.address(word)
            found = self.sources[side].symbols.get(word) if found is None else found
            if found is None:
                raise Fault(f"{word}: no such label")
            return found
        test = condition(text, address_of, debugger.byte) if text else None
        hits = str(given.get("hitCondition") or "")
        if hits and not HITS.fullmatch(hits):
            raise Fault(f"{hits}: a hit condition is `3`, `>= 3` or `% 3`")
        return Break(side, address, test, hits, reason)

    def _set(self, group: str, given: List[Message],
             places: Callable[[Message], List[Tuple[str, int, Message]]], reason: str) -> Message:
        self.breaks[group] = []
        told: List[Message] = []
        for one in given:
            try:
                found = places(one)
                if not found:
                    raise Fault("there is no code")
                self.breaks[group] += [self._break(one, side, at, reason) for side, at, _ in found]
                told.append({"verified": True, **found[0][2]})
            except Fault as fault:
                told.append({"verified": False, "message": str(fault)})
        return {"breakpoints": told}

    @request("setBreakpoints")
    def _set_breakpoints(self, given: Message) -> Message:
        path = str((given.get("source") or {}).get("path", ""))

        def places(one: Message) -> List[Tuple[str, int, Message]]:
            found = []
            for side in self.debugger.past.sides:
                source = self.sources[side]
                for at in source.places(path, int(one["line"])):
                    line = source.lines[at][1]
                    told = {"line": line, "instructionReference": f"{side}:{at:04X}"}
                    found.append((side, at, told))
            return found
        return self._set(f"lines {path}", given.get("breakpoints") or [], places, "breakpoint")

    @request("setFunctionBreakpoints")
    def _set_functions(self, given: Message) -> Message:
        def places(one: Message) -> List[Tuple[str, int, Message]]:
            return [(*self._place(str(one["name"])), {})]
        return self._set("functions", given.get("breakpoints") or [], places, "function breakpoint")

    @request("setInstructionBreakpoints")
    def _set_instructions(self, given: Message) -> Message:
        def places(one: Message) -> List[Tuple[str, int, Message]]:
            side, at = self._place(str(one["instructionReference"]))
            at = at + int(one.get("offset", 0)) & 0xFFFF
            return [(side, at, {"instructionReference": f"{side}:{at:04X}"})]
        return self._set("instructions", given.get("breakpoints") or [], places,
                         "instruction breakpoint")

    @request("setExceptionBreakpoints")
    def _set_exceptions(self, given: Message) -> None:
        self.filters = [name for name in given.get("filters") or [] if name in FILTERS]

    @request("exceptionInfo")
    def _exception(self, _: Message) -> Message:
        name = next((it for it, text in FILTERS.items() if text == self._why), "none")
        return {"exceptionId": name, "description": self._why, "breakMode": "always"}

    @request("dataBreakpointInfo")
    def _data_info(self, given: Message) -> Message:
        try:
            low, high = self._bytes_of(str(given["name"]), given)
            side = self.debugger.side
            if side == "host" and high >= 0x8000:
                raise Fault("there is no memory of the host there")
        except Fault as fault:
            return {"dataId": None, "description": str(fault)}
        text = f"{low:04X}" if low == high else f"{low:04X}..{high:04X}"
        return {"dataId": f"{side}:{low:04X}:{high:04X}", "description": f"{text} of {FULL[side]}",
                "accessTypes": ["read", "write", "readWrite"], "canPersist": True}

    # The bytes of a variable, a label, an address, or a range.
    def _bytes_of(self, name: str, given: Message) -> Tuple[int, int]:
        if given.get("variablesReference") and int(given["variablesReference"]) % 8 == 2:
            for variable, at, size in self._locals(int(given["variablesReference"]) // 8):
                if variable == name:
                    return at, at + size - 1
        low, dots, high = name.partition("..")
        begin = self._place(low)[1]
        size = int(given.get("bytes") or self._size(name))
        return begin, self._place(high)[1] if dots else begin + size - 1

    @request("setDataBreakpoints")
    def _set_data(self, given: Message) -> Message:
        self.watched, told = [], []
        for one in given.get("breakpoints") or []:
            match = re.fullmatch("(host|para):([0-9A-F]{4}):([0-9A-F]{4})", str(one.get("dataId")))
            if match:
                self.watched.append((match.group(1), int(match.group(2), 16),
                                     int(match.group(3), 16), str(one.get("accessType", "write"))))
            told.append({"verified": bool(match)})
        return {"breakpoints": told}

    # --- Going on and back ---

    @request("continue")
    def _continue(self, _: Message) -> Message:
        self._run(False)
        return {"allThreadsContinued": True}

    @request("reverseContinue")
    def _reverse(self, _: Message) -> None:
        self._run(True)

    def _run(self, back: bool) -> None:
        debugger = self.debugger
        here = debugger.side, debugger.tick
        found: List[Stop] = []
        for search in self._searches(back):
            debugger.side, debugger.tick = here
            try:
                stop = search()
            except Fault as fault:
                if isinstance(fault, Cancelled) or self._is_cancelled:
                    debugger.side, debugger.tick = here
                    raise
                stop = None
            if stop is not None:
                found.append(stop)
        debugger.side, debugger.tick = here
        if not found:
            debugger.tick = 0 if back else debugger.past.held
            self._stopped("entry" if back else "pause", "the run's "
                          + ("first tick" if back else "last tick"))
            return
        stop = (max if back else min)(found, key=lambda it: it.tick)
        debugger.side, debugger.tick = stop.side, stop.tick
        self._stopped(stop.reason, stop.text, stop.side)

    # What finds the next stop, or the last one before: each begins at this tick.
    def _searches(self, back: bool) -> Iterator[Callable[[], Optional[Stop]]]:
        debugger = self.debugger
        for one in (it for group in self.breaks.values() for it in group):
            def at_break(one: Break = one) -> Optional[Stop]:
                debugger.side = one.side
                start = self._hit(one, back)
                return None if start is None else Stop(start.tick, one.side, one.reason, "")
            yield at_break
        for side, low, high, kind in self.watched:
            if kind != "read":
                def at_change(side: str = side, low: int = low, high: int = high) -> Optional[Stop]:
                    debugger.side = side
                    found = debugger.find_change(low, high, back)
                    if found is None:
                        return None
                    at, change = found
                    text = f"{at:04X}: {change.old:02X} to {change.new:02X}"
                    tick = change.start.tick if back else change.tick
                    return Stop(tick, side, "data breakpoint", text)
                yield at_change
            if kind != "write":
                def at_read(side: str = side, low: int = low, high: int = high) -> Optional[Stop]:
                    debugger.side = side
                    start = debugger.find_reader(low, high, back)
                    return None if start is None else Stop(start.tick, side, "data breakpoint",
                                                           f"{low:04X} is read")
                yield at_read
        for name in self.filters:
            for side in debugger.past.sides if name != "lost" else ("host",):
                def at_event(name: str = name, side: str = side) -> Optional[Stop]:
                    debugger.side = side
                    if name == "lost":
                        access = debugger.loss(back)
                        return Stop(access.tick, debugger.side, "exception", FILTERS[name])
                    way = debugger.interrupt if name == "interrupt" else debugger.reset
                    return Stop(way(back).tick, side, "exception", FILTERS[name])
                yield at_event

    # The next start at a breakpoint that counts, or the last one before.
    def _hit(self, one: Break, back: bool) -> Optional[Start]:
        debugger = self.debugger
        match = HITS.fullmatch(one.hits) if one.hits else None
        while True:
            start = debugger.find([one.address], one.test, back)
            if start is None or match is None:
                return start
            before = debugger.machine.every("at", one.address, start.tick)
            hits = 1 + sum(one.test is None or one.test(it) for it in before)
            way, number = match.group(1) or "=", int(match.group(2))
            if {"=": hits == number, "==": hits == number, ">": hits > number,
                    ">=": hits >= number, "%": number > 0 and hits % number == 0}[way]:
                return start
            debugger.tick = start.tick

    # --- Steps ---

    def _line(self, tick: int) -> Optional[Tuple[str, int]]:
        start = self.debugger.machine.current(tick)
        return None if start is None else self._line_at(self.debugger.side, start.registers.pc)

    # By instructions, or to another line.
    def _step(self, given: Message, way: Callable[[], Start]) -> None:
        debugger = self.debugger
        if "threadId" in given:
            debugger.side = SIDE_OF.get(given["threadId"], debugger.side)
        here = debugger.tick
        line = self._line(here)
        try:
            for _ in range(MOST_STEPS):
                self._progress("")
                start = way()
                at = self._line_at(debugger.side, start.registers.pc)
                is_one = given.get("granularity") == "instruction" or line is None
                if is_one or at not in (None, line):
                    break
        except Fault:
            if debugger.tick == here:
                raise
        self._stopped("step")

    @request("next")
    def _next(self, given: Message) -> None:
        self._step(given, lambda: self.debugger.next())

    @request("stepIn")
    def _step_in(self, given: Message) -> None:
        debugger = self.debugger

        # Into a call whose function has lines; past any other.
        def way() -> Start:
            start = debugger.machine.current(debugger.tick)
            if given.get("granularity") != "instruction" and start is not None and (
                    start.word == "JSR" and self.sources[debugger.side].lines):
                inside = debugger.machine.following(debugger.tick)
                if inside is not None and not self._leads_to_line(inside):
                    return debugger.next()
            return debugger.step()
        self._step(given, way)

    # The function that begins there has lines, or calls or jumps to one that has.
    def _leads_to_line(self, inside: Start) -> bool:
        return self._line_at(inside.side, inside.registers.pc) is not None

    @request("stepOut")
    def _step_out(self, given: Message) -> None:
        debugger = self.debugger
        debugger.side = SIDE_OF.get(given.get("threadId", 0), debugger.side)
        debugger.back_out()
        self._stopped("step")

    @request("stepBack")
    def _step_back(self, given: Message) -> None:
        debugger = self.debugger
        line = self._line(debugger.tick)
        self._step(given, lambda: debugger.previous())
        if given.get("granularity") == "instruction" or line is None:
            return
        # To the beginning of that line.
        line = self._line(debugger.tick)
        for _ in range(MOST_STEPS):
            before = debugger.calls.previous(debugger.tick)
            if before is None or self._line_at(debugger.side, before.registers.pc) != line:
                break
            debugger.tick = before.tick

    @request("gotoTargets")
    def _goto_targets(self, given: Message) -> Message:
        path = str((given.get("source") or {}).get("path", ""))
        debugger, targets = self.debugger, []
        for side in debugger.past.sides:
            debugger_side, debugger.side = debugger.side, side
            places = self.sources[side].places(path, int(given["line"]))
            for back, word in ((False, "next"), (True, "last before")):
                start = debugger.find(places, None, back) if places else None
                if start is not None:
                    targets.append({"id": 2 * start.tick + (side == "para"),
                                    "label": f"{word} time, tick {start.tick}",
                                    "line": int(given["line"])})
            debugger.side = debugger_side
        return {"targets": targets}

    @request("goto")
    def _goto(self, given: Message) -> None:
        target = int(given["targetId"])
        self.debugger.go(target // 2)
        self.debugger.side = SIDES[target % 2]
        self._stopped("goto")


def _list(given: Message, name: str) -> List[str]:
    found = given.get(name) or []
    return shlex.split(found) if isinstance(found, str) else [str(word) for word in found]


class _inside:
    """The working folder, for a while."""

    def __init__(self, folder: str):
        self.folder = folder

    def __enter__(self) -> None:
        self._before = os.getcwd()
        try:
            os.chdir(self.folder)
        except OSError:
            raise Fault(f"{self.folder}: not a folder that can be entered") from None

    def __exit__(self, *_: object) -> None:
        os.chdir(self._before)
