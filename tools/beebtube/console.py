"""The tool `tools/debug`: its options, and commands from a terminal or standard input."""
from __future__ import annotations

import contextlib
import functools
import io
import json
import os
import pydoc
import shlex
import shutil
import signal
import sys
import time
from typing import Any, Callable, Dict, Iterator, List, Optional, Sequence

from .command import Usage
from .debugging import WORDS, Debugger
from .faults import Fault
from .files import LONGEST
from .naming import Names
from .naming import read as naming_read
from .past import MOST_ACCESSES, SIDES, Past
from .program import Program

OPTIONS = ("-c", "--against", "--host-labels", "--para-labels")
MOST_HISTORY = 1000  # lines
# The commands after which a label may stand.
WITH_LABELS = ("until", "before", "at", "change", "who", "readers", "origin", "memory", "list",
               "screen")


class Asked:
    """The tool's arguments: those of the run or the session, and its own options."""

    def __init__(self, words: Sequence[str]):
        self.rest: List[str] = []
        self.options: Dict[str, List[str]] = {option: [] for option in OPTIONS}
        self.is_json = False
        left = list(words)
        while left:
            word = left.pop(0)
            if word == "--json":
                self.is_json = True
            elif word not in OPTIONS:
                self.rest.append(word)
            elif not left:
                raise Usage(f"{word}: it needs a value")
            else:
                self.options[word].append(left.pop(0))
        if not self.rest:
            raise Usage("it needs the arguments of `run` or `solo`, those of a host after `host`,"
                        " or a session file")
        if len(self.options["--against"]) > 1:
            raise Usage("--against: given twice")

    @property
    def is_asking(self) -> bool:
        """A person types the commands."""
        is_terminal = sys.stdin is not None and sys.stdin.isatty()
        return is_terminal and not self.options["-c"] and not self.is_json

    def lines(self) -> Iterator[str]:
        """The commands of a script: of -c, or of standard input."""
        yield from self.options["-c"] or (line for line in _given() if line.strip())


def past_of(program: Program, words: Sequence[str], progress: Callable[[str], None]) -> Past:
    """The past of the arguments of a run, or of a session file."""
    if len(words) == 1 and words[0] not in ("run", "solo", "host"):
        return Past.of_session(program, words[0], progress)
    return Past.of_words(program, words, progress)


class Progress:
    """How far a command is that takes longer than half a second, on one line of the terminal."""

    def __init__(self) -> None:
        self.begin()

    def begin(self) -> None:
        """A command begins."""
        self._from, self._shown = time.monotonic(), False

    def __call__(self, text: str) -> None:
        if sys.stderr.isatty() and time.monotonic() - self._from > 0.5:
            sys.stderr.write(f"\r{text:<40}")
            sys.stderr.flush()
            self._shown = True

    def end(self) -> None:
        """The line is cleared: something else is shown, or the command is done."""
        if self._shown:
            sys.stderr.write(f"\r{'':40}\r")
            sys.stderr.flush()
            self._shown = False


class Clearing:
    """Standard output, before which the line of a progress is cleared.

    is_paged  what is longer than the terminal is shown by a pager, once it is complete
    """

    def __init__(self, progress: Progress, is_paged: bool = False):
        self._progress, self._is_paged, self._waiting = progress, is_paged, ""

    def write(self, text: str) -> int:
        """Writes a text."""
        if self._is_paged:
            self._waiting += text
            return len(text)
        self._progress.end()
        return sys.stdout.write(text)

    def flush(self) -> None:
        """Writes what waits."""
        self._progress.end()
        text, self._waiting = self._waiting, ""
        if text.count("\n") >= shutil.get_terminal_size().lines:
            sys.stdout.flush()
            pydoc.pager(text)
        else:
            sys.stdout.write(text)
        sys.stdout.flush()


def limit_of(past: Past) -> str:
    """What of a run cannot be reached; nothing if all can."""
    if past.end <= past.held:
        return ""
    return (f"a session holds {MOST_ACCESSES:,} accesses to the Tube at most, which are those up to"
            f" tick {past.held}: after it, up to tick {past.end}, there are states, but no"
            " instructions")


def completions(debugger: Debugger, line: str, text: str) -> List[str]:
    """What may stand in place of the last word of a line: a command, or a label after a command
    that takes one."""
    words = line[: len(line) - len(text)].rsplit(";", 1)[-1].split()
    if not words:
        return [word + " " for word in WORDS if word.startswith(text)]
    with contextlib.suppress(Fault):
        if debugger._word(words[0]) in WITH_LABELS:
            names = debugger.names[debugger.side].labels.addresses
            return sorted(name for name in names if name.startswith(text))
        if debugger._word(words[0]) in ("go", "help"):
            words = list(WORDS) if debugger._word(words[0]) == "help" else debugger.marks
            return [word for word in words if word.startswith(text)]
    return []


@contextlib.contextmanager
def interrupts() -> Iterator[None]:
    """Here a Ctrl-C ends a command, not the tool."""
    before = signal.getsignal(signal.SIGINT)
    if before is not signal.SIG_IGN:
        signal.signal(signal.SIGINT, signal.default_int_handler)
    try:
        yield
    finally:
        signal.signal(signal.SIGINT, before)


@contextlib.contextmanager
def interruptible() -> Iterator[None]:
    """Here a Ctrl-C is noticed within 0.2 s. `input` waits in select(), and notices a signal only
    if it interrupts this call, not if it comes just before: so a timer interrupts it again."""
    signal.signal(signal.SIGALRM, lambda *_: None)
    signal.setitimer(signal.ITIMER_REAL, 0.2, 0.2)
    try:
        yield
    finally:
        signal.setitimer(signal.ITIMER_REAL, 0)


def ask(debugger: Debugger, progress: Progress) -> None:
    """Commands of a person, line by line, with a history."""
    with contextlib.suppress(ImportError):
        import readline
        readline.set_completer_delims(" \t;")
        readline.set_completer(lambda text, number: (
            completions(debugger, readline.get_line_buffer()[: readline.get_endidx()], text)
            + [""])[number] or None)
        readline.parse_and_bind("tab: complete")
    debugger.try_to("where")
    debugger.forget()
    with interrupts():
        while not debugger.ended:
            try:
                progress.end()
                with interruptible():
                    line = input(f"{debugger.side} {debugger.tick}> ")
                progress.begin()
                debugger.try_to(line)
            except EOFError:
                print()
                return
            except KeyboardInterrupt:
                print()


@contextlib.contextmanager
def history() -> Iterator[None]:
    """The lines of a person, which are there again the next time: in the folder of
    XDG_STATE_HOME, or in ~/.local/state."""
    try:
        import readline
    except ImportError:
        yield
        return
    state = os.environ.get("XDG_STATE_HOME", "")
    folder = os.path.join(state if os.path.isabs(state) else os.path.expanduser("~/.local/state"),
                          "beebtube")
    name, before = os.path.join(folder, "history"), 0
    with contextlib.suppress(OSError):
        readline.read_history_file(name)
        before = readline.get_current_history_length()
    try:
        yield
    finally:
        # What another debugger added meanwhile remains.
        with contextlib.suppress(OSError):
            os.makedirs(folder, mode=0o700, exist_ok=True)
            with open(name, "a", encoding="utf-8"):
                pass
            readline.set_history_length(MOST_HISTORY)
            readline.append_history_file(readline.get_current_history_length() - before, name)


def _words_in(text: str) -> List[str]:
    try:
        return shlex.split(text)
    except ValueError as error:
        raise Usage(f"--against: {error}") from None


def debug(words: Sequence[str]) -> int:
    """The tool: 0, or 1 if a command of a script was wrong."""
    asked, program, progress = Asked(words), Program(), Progress()
    names = {side: Names([naming_read(name) for name in asked.options[f"--{side}-labels"]])
             for side in SIDES}
    with contextlib.ExitStack() as stack:
        pasts = []
        for given in [asked.rest, *map(_words_in, asked.options["--against"])]:
            pasts.append(past_of(program, given, progress))
            stack.callback(pasts[-1].close)
        for past in pasts:
            if limit_of(past):
                sys.stderr.write(f"debug: {limit_of(past)}\n")
        out = Clearing(progress, asked.is_asking)
        other = pasts[1] if pasts[1:] else None
        debugger = Debugger(pasts[0], names, other, out=out)  # type: ignore[arg-type]
        status = _debugged(asked, debugger, progress)
    return status


# The lines of standard input, as they come.
def _given() -> Iterator[str]:
    if sys.stdin is None:
        raise Fault("cannot read -")
    sys.stdin.reconfigure(errors="surrogateescape")  # type: ignore[attr-defined]
    while True:
        try:
            line = sys.stdin.readline(LONGEST)
        except (OSError, ValueError):
            raise Fault("cannot read -") from None
        if not line:
            return
        if len(line) == LONGEST:
            raise Fault(f"a line of standard input has {LONGEST:,} letters or more")
        yield line


def _debugged(asked: Asked, debugger: Debugger, progress: Progress) -> int:
    if asked.is_json:
        return _as_json(asked, debugger, progress)
    debugger.compare()
    progress.end()
    if asked.is_asking:
        debugger.out.flush()
        with history():
            ask(debugger, progress)
        return 0
    for line in asked.lines():
        debugger.try_to(line)
    debugger.ended = False
    WORDS["where"].method(debugger)
    progress.end()
    return 1 if debugger.wrong else 0


def _as_json(asked: Asked, debugger: Debugger, progress: Progress) -> int:
    """Each command's answer as a line of JSON."""
    def answer(command: str, done: Callable[[], Optional[Fault]]) -> None:
        debugger.out, debugger.found = io.StringIO(), []
        fault = done()
        told: Dict[str, Any] = {
            "command": command, "run": debugger.past.name, "side": debugger.side,
            "tick": debugger.tick, "lines": debugger.out.getvalue().splitlines(),
            "found": debugger.found, "error": None if fault is None else str(fault)}
        progress.end()
        print(json.dumps(told), flush=True)

    if asked.options["--against"]:
        answer("--against", debugger.compare)
    for line in asked.lines():
        for words in debugger.parts(line):
            if not debugger.ended:
                answer(" ".join(words), functools.partial(debugger.try_one, words))
    debugger.ended = False
    answer("where", lambda: debugger.try_one(["where"]))
    return 1 if debugger.wrong else 0
