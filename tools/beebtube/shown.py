"""What a debug adapter shows of a moment: frames, variables, values, memory and disassembly."""
from __future__ import annotations

import base64
import io
import os
import re
from typing import Any, Callable, Dict, Iterator, List, Optional, Tuple

from .calls import Frame
from .console import completions
from .debugging import SHORT, WORDS, Debugger, flags_of
from .engine import FULL
from .faults import Fault
from .naming import length_of
from .past import SIDES, Past
from .source import PUSHES, Source
from .wire import Message

THREADS = {side: number for number, side in enumerate(SIDES, 1)}
SIDE_OF = {number: side for side, number in THREADS.items()}
MOST_FRAMES = 256
REMOVES = re.compile("incsp([1-8])")  # cc65's routines that remove so many bytes and return
REGISTERS = ("a", "x", "y", "s", "p", "pc")
Handler = Callable[[Any, Message], Optional[Message]]
REQUESTS: Dict[str, Handler] = {}


def request(*names: str) -> Callable[[Handler], Handler]:
    """Makes a method the answer to these requests."""
    def noted(method: Handler) -> Handler:
        REQUESTS.update(dict.fromkeys(names, method))
        return method
    return noted


def number_of(text: str) -> int:
    """A number of hexadecimal digits, with or without 0x."""
    try:
        return int(text, 16)
    except (TypeError, ValueError):
        raise Fault(f"{str(text)[:40]}: not an address") from None


class Shown:
    """A moment of a run, and what of it an editor may ask for.

    sources  the lines of each side
    """

    def __init__(self) -> None:
        self.past: Optional[Past] = None
        self._debugger: Optional[Debugger] = None
        self.out = io.StringIO()
        self.sources = {side: Source() for side in SIDES}
        self._frames: List[Tuple[str, int, Optional[Frame], int]] = []

    @property
    def debugger(self) -> Debugger:
        """The engine and its commands; Fault before `launch`."""
        if self._debugger is None:
            raise Fault("nothing is launched")
        return self._debugger

    def _stopped(self, reason: str, text: str = "", side: str = "") -> None:
        raise NotImplementedError

    def _line_at(self, side: str, address: int) -> Optional[Tuple[str, int]]:
        return self.sources[side].line_of(address)

    # `host:1234`, a label, a symbol of C, or an address of the selected side.
    def _place(self, text: str) -> Tuple[str, int]:
        side, colon, rest = text.partition(":")
        if not colon or side not in self.debugger.past.sides:
            side, rest = self.debugger.side, text
        found = self.debugger.names[side].address(rest)
        if found is None:
            found = self.sources[side].symbols.get(rest)
        return side, number_of(rest.lstrip("&$")) & 0xFFFF if found is None else found

    def _size(self, name: str) -> int:
        return 2 if name in self.sources[self.debugger.side].symbols else 1

    @request("threads")
    def _threads(self, _: Message) -> Message:
        return {"threads": [{"id": THREADS[side], "name": FULL[side]}
                            for side in self.debugger.past.sides]}

    @request("stackTrace")
    def _stack_trace(self, given: Message) -> Message:
        debugger = self.debugger
        side = SIDE_OF.get(given.get("threadId", 0), debugger.side)
        with debugger.on(side):
            registers = debugger.machine.view.registers(debugger.tick)
            places: List[Tuple[int, Optional[Frame], int]] = [(registers.pc, None, debugger.tick)]
            if debugger.tick <= debugger.past.held:
                current = debugger.machine.current(debugger.tick)
                if current is not None and current.registers == registers:
                    places[0] = (registers.pc, None, current.tick)
                for _, it in zip(range(MOST_FRAMES), debugger.frames()):
                    places.append((it.start.registers.pc, it, it.start.tick))
        first, told = int(given.get("startFrame") or 0), []
        for pc, frame, tick in places[first : first + int(given.get("levels") or MOST_FRAMES)]:
            self._frames.append((side, pc, frame, tick))
            told.append(self._frame(len(self._frames), side, pc, frame))
        return {"stackFrames": told, "totalFrames": len(places)}

    def _frame(self, number: int, side: str, pc: int, frame: Optional[Frame]) -> Message:
        function = self.sources[side].function_at(pc)
        name = function.name if function else self.debugger.names[side].of(pc) or f"{pc:04X}"
        name += "" if frame is None or frame.kind == "call" else f" ({frame.kind})"
        told: Message = {"id": number, "name": name, "line": 0, "column": 0,
                         "instructionPointerReference": f"{side}:{pc:04X}"}
        line = self._line_at(side, pc)
        if line is not None and os.path.exists(line[0]):
            path = os.path.abspath(line[0])
            told.update(line=line[1], column=1,
                        source={"name": os.path.basename(path), "path": path})
        else:
            begin = self._listed_from(side, pc)
            at = [at for at, _ in self._listing(side, begin)]
            told.update(line=at.index(pc) + 1 if pc in at else 1, column=1, source={
                "name": f"{side} {begin:04X}", "presentationHint": "deemphasize",
                "sourceReference": THREADS[side] << 16 | begin})
        return told

    # The disassembly that is the source of an address: from the label before it.
    def _listed_from(self, side: str, pc: int) -> int:
        near = self.debugger.names[side].labels.near(pc, 255)
        return pc if near is None else pc - near[1]

    def _listing(self, side: str, begin: int) -> List[Tuple[int, str]]:
        return self.debugger.past.machines[side].view.list_at(self.debugger.tick, begin, 128)

    @request("source")
    def _source(self, given: Message) -> Message:
        number = int(given.get("sourceReference") or (given.get("source") or {})["sourceReference"])
        side, names = SIDE_OF[number >> 16], self.debugger.names[SIDE_OF[number >> 16]]
        lines = [f"{at:04X}  {names.text(text):20} {names.of(at)}".rstrip()
                 for at, text in self._listing(side, number & 0xFFFF)]
        return {"content": "\n".join(lines) + "\n", "mimeType": "text/x-asm"}

    @request("loadedSources")
    def _loaded(self, _: Message) -> Message:
        files = sorted({file for source in self.sources.values() for file, _ in
                        source.lines.values() if os.path.exists(file)})
        return {"sources": [{"name": os.path.basename(file), "path": os.path.abspath(file)}
                            for file in files]}

    @request("scopes")
    def _scopes(self, given: Message) -> Message:
        number = int(given["frameId"])
        side, pc, _, _ = self._frames[number - 1]
        names = [(1, "Registers"), (4, "Run")]
        if self.sources[side].function_at(pc):
            names.insert(0, (2, "Locals"))
        if self.sources[side].symbols or self.debugger.names[side].labels.addresses:
            names.append((3, "Globals"))
        if self.debugger.past.has_tube:
            names.append((5, "Tube"))
        hints = {1: {"presentationHint": "registers"}, 2: {"presentationHint": "locals"}}
        return {"scopes": [{"name": name, "variablesReference": 8 * number + kind,
                            "expensive": kind == 3, **hints.get(kind, {})} for kind, name in names]}

    @request("variables")
    def _variables(self, given: Message) -> Message:
        number, kind = divmod(int(given["variablesReference"]), 8)
        if not 1 <= number <= len(self._frames):
            raise Fault("no such variables")
        told: List[Message] = []
        for name, value, place in self._told(number, kind):
            memory = {"memoryReference": place} if place else {}
            told.append({"name": name, "value": value, "variablesReference": 0, **memory})
        first = int(given.get("start") or 0)
        return {"variables": told[first : first + int(given.get("count") or len(told))]}

    def _told(self, number: int, kind: int) -> Iterator[Tuple[str, str, str]]:
        side, _, frame, _ = self._frames[number - 1]
        debugger, past = self.debugger, self.debugger.past
        machine = past.machines[side]
        state = machine.state(debugger.tick)
        if kind == 1:
            registers = state.registers if frame is None else frame.start.registers
            yield "PC", f"{registers.pc:04X}", f"{side}:{registers.pc:04X}"
            for name in "axysp":
                yield name.upper(), f"{getattr(registers, name):02X}", ""
            yield "flags", flags_of(registers), ""
        elif kind == 2:
            for name, at, size in self._locals(number):
                yield name, _value(state.memory[at : at + size]), f"{side}:{at:04X}"
        elif kind == 3:
            labels = debugger.names[side].labels.addresses
            functions = {it.begin for it in self.sources[side].functions}
            for name, at in sorted((self.sources[side].symbols or labels).items()):
                if at not in functions and at < len(state.memory):
                    yield name, _value(state.memory[at : at + 2]), f"{side}:{at:04X}"
        elif kind == 4:
            yield "tick", str(debugger.tick), ""
            yield "time", f"{debugger.tick * 1e6 / past.second:.3f} us", ""
            yield "next", machine.view.text(debugger.tick), ""
            if side == "host" and debugger.tick <= past.held:
                yield "paged ROM", str(machine.view.slot(debugger.tick)), ""
                yield "beam", debugger.beam_text(), ""
            elif debugger.tick <= past.held:
                yield "boot ROM", "in" if machine.view.rom_is_in(debugger.tick) else "out", ""
        elif kind == 5 and debugger.tick <= past.held:
            tube = past.traffic.tube(past.line_at(debugger.tick))
            yield "flags", "".join(name if tube.flags >> 5 - at & 1 else "-"
                                   for at, name in enumerate("PVMJIQ")), ""
            for (to, register), held in sorted(tube.held.items()):
                yield (f"register {register} to {FULL['host' if to == 'H' else 'para']}",
                       bytes(held).hex(" ").upper() or "empty", "")

    # The variables of a function of C: by the stack of C where the function began.
    def _locals(self, number: int) -> Iterator[Tuple[str, int, int]]:
        side, pc, _, tick = self._frames[number - 1]
        source, machine = self.sources[side], self.debugger.past.machines[side]
        function, names = source.function_at(pc), self.debugger.names[side]
        stack = names.address("sp") or names.address("c_sp") or source.symbols.get("sp") or 0
        if function is None or not function.variables:
            return
        entry = machine.last_of("at", function.begin, tick + 1)
        if entry is None:
            return
        memory = machine.state(entry.tick).memory
        base = memory[stack] | memory[stack + 1] << 8
        first = memory[function.begin + 1] | memory[function.begin + 2] << 8
        if memory[function.begin] == 0x20:  # a parameter in registers is pushed first
            base -= PUSHES.get((names.labels.names_at(first) or [""])[0], 0)
        # The debug file has no types of C: the size is what lies up to the next variable, or up to
        # the end of what the function removes from the stack when it returns.
        offsets = [at for at, _ in function.variables]
        last = 0
        if offsets[-1] >= 0:
            jump = memory[function.end - 2] | memory[function.end - 1] << 8
            removes = [REMOVES.fullmatch(it) for it in names.labels.names_at(jump)]
            sizes = [int(it.group(1)) + min(0, offsets[0]) for it in removes if it]
            last = sizes[0] if sizes and memory[function.end - 3] == 0x4C else offsets[-1] + 2
        for (at, name), end in zip(function.variables, offsets[1:] + [last]):
            yield name, base + at & 0xFFFF, max(1, min(4, end - at))

    @request("evaluate")
    def _evaluate(self, given: Message) -> Message:
        text, debugger = str(given["expression"]).strip(), self.debugger
        frame = int(given.get("frameId") or 0)
        side = self._frames[frame - 1][0] if 1 <= frame <= len(self._frames) else debugger.side
        first = text.split()[0] if text else ""
        is_command = given.get("context") in (None, "repl") and (first in WORDS or first in SHORT)
        if is_command and text.lower() not in REGISTERS:
            return {"result": self._command(text), "variablesReference": 0}
        with debugger.on(side):
            if text.lower() in REGISTERS:
                value = getattr(debugger.machine.view.registers(debugger.tick), text.lower())
                return {"result": f"{value:04X}" if text.lower() == "pc" else f"{value:02X}",
                        "variablesReference": 0}
            if frame and self.sources[side].function_at(self._frames[frame - 1][1]):
                for local, at, length in self._locals(frame):
                    if local == text:
                        return self._shown(side, at, length)
            name, _, size_ = text.partition(",")
            at = self._place(name.strip().strip("()"))[1]
            size = int(size_) if size_.strip().isdigit() else self._size(name)
            return self._shown(side, at, size)

    def _shown(self, side: str, at: int, size: int) -> Message:
        data = self.debugger.past.machines[side].view.bytes_at(self.debugger.tick, at, size)
        return {"result": _value(data), "variablesReference": 0,
                "memoryReference": f"{side}:{at:04X}"}

    # A command of the debugger in the terminal; it may lead to another moment.
    def _command(self, text: str) -> str:
        debugger = self.debugger
        here = debugger.side, debugger.tick
        self.out.seek(0)
        self.out.truncate()
        debugger.ended = False
        debugger.do(text)
        if (debugger.side, debugger.tick) != here:
            self._stopped("goto")
        return self.out.getvalue().rstrip("\n")

    @request("completions")
    def _completions(self, given: Message) -> Message:
        text = str(given["text"])[: max(0, int(given.get("column", 1)) - 1)]
        found = completions(self.debugger, text, re.split(r"[ \t;]", text)[-1])
        return {"targets": [{"label": word.strip()} for word in found[:200]]}

    @request("readMemory")
    def _read_memory(self, given: Message) -> Message:
        side, at = self._place(str(given["memoryReference"]))
        at += int(given.get("offset") or 0)
        count = int(given["count"])
        low, high = max(0, at), min(65536, at + count)
        view = self.debugger.past.machines[side].view
        data = view.bytes_at(self.debugger.tick, low, high - low) if high > low else b""
        return {"address": f"0x{low:04X}", "data": base64.b64encode(data).decode(),
                "unreadableBytes": max(0, count - len(data))}

    @request("disassemble")
    def _disassemble(self, given: Message) -> Message:
        side, at = self._place(str(given["memoryReference"]))
        at = at + int(given.get("offset") or 0) & 0xFFFF
        skip, count = int(given.get("instructionOffset") or 0), int(given["instructionCount"])
        view, names = self.debugger.past.machines[side].view, self.debugger.names[side]
        tick = self.debugger.tick
        before = self._before(view, tick, at, -skip) if skip < 0 else []
        found = before + view.list_at(tick, at, max(0, count + skip) + 1)
        found = (found[skip:] if skip > 0 else found)[:count]
        told = []
        for address, text in found:
            data = view.bytes_at(tick, max(address, 0), length_of(text)) if address >= 0 else b""
            one: Message = {"address": f"0x{max(address, 0):04X}", "instruction": names.text(text),
                            "instructionBytes": data.hex(" ").upper()}
            line = self._line_at(side, address)
            if names.labels.names_at(address):
                one["symbol"] = names.labels.names_at(address)[0]
            if line is not None and os.path.exists(line[0]):
                one.update(line=line[1], location={"name": os.path.basename(line[0]),
                                                   "path": os.path.abspath(line[0])})
            told.append(one)
        while len(told) < count:
            told.append({"address": "0xFFFF", "instruction": "-", "presentationHint": "invalid"})
        return {"instructions": told}

    # So many instructions before an address, of a disassembly that has one there.
    @staticmethod
    def _before(view: Any, tick: int, at: int, count: int) -> List[Tuple[int, str]]:
        for begin in range(max(0, at - 3 * count), at):
            found = [it for it in view.list_at(tick, begin, 3 * count + 3) if it[0] <= at]
            if found and found[-1][0] == at and len(found) > count or begin >= at - count:
                found = [it for it in found if it[0] < at]
                break
        else:
            found = []
        return [(-1, "-")] * (count - len(found)) + found[-count:]

    @request("beebtube/screen")
    def _screen(self, _: Message) -> Message:
        png = self.debugger.past.frame(self.debugger.tick).png()
        return {"data": base64.b64encode(png).decode(), "mimeType": "image/png"}


def _value(data: bytes) -> str:
    return f"{int.from_bytes(data, 'little')} ({data.hex(' ').upper()})"
