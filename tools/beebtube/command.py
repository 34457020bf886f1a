"""What every tool has in common: its help, and how it ends.

A tool is `main(function, __doc__)`, where the function takes the words and may return a status. It ends

  0         done
  1         the text of `Fault` is on standard error, after the tool's name
  2         its words are wrong (argparse, or `Usage`)
  70        a fault of the tool itself, reported in one line
  141       who read standard output went away (`| head`), which is not reported
  128 + n   ended by signal n, once what it made for itself is cleared away
"""
from __future__ import annotations

import errno
import gc
import io
import os
import signal
import sys
from typing import Callable, List, NoReturn, Optional, Sequence

from .faults import Fault
from .files import STOPS, too_long


class Usage(Fault):
    """The tool's words are wrong: its help follows the text."""


def tool_name() -> str:
    """The name by which the tool was called."""
    return os.path.basename(sys.argv[0]) or "beebtube"


# The first signal ends a tool, which then clears away what it made for itself; later ones are not heard.
def _stop(number: int, _frame: object) -> NoReturn:
    for it in STOPS:
        signal.signal(it, signal.SIG_IGN)
    raise SystemExit(128 + number)


# Files 0 to 2 that are closed are opened again, so that no file that is opened later takes their place. What is written to
# standard output then fails, as it does where it is closed.
def _hold_streams() -> None:
    for number, way in ((0, os.O_WRONLY), (1, os.O_RDONLY), (2, os.O_RDWR)):
        try:
            os.fstat(number)
        except OSError:
            opened = os.open(os.devnull, way)
            if opened != number:
                os.dup2(opened, number)
                os.close(opened)
    # Without a buffer (PYTHONUNBUFFERED) a text of which the system takes a part counts as written.
    if sys.stdout is None or isinstance(sys.stdout.buffer, io.RawIOBase):
        sys.stdout = open(1, "w", closefd=False, encoding="utf-8")
    if sys.stderr is None:
        sys.stderr = open(2, "w", closefd=False, encoding="utf-8")
    for stream in (sys.stdout, sys.stderr):
        if isinstance(stream, io.TextIOWrapper):
            stream.reconfigure(encoding="utf-8", errors="surrogateescape")


def read_standard_input(most: int) -> bytes:
    """The bytes of standard input, `most` at most; Fault where it is closed or has more."""
    try:
        data = b""
        while len(data) <= most:
            block = os.read(0, 1 << 16)
            if not block:
                return data
            data += block
    except OSError:
        raise Fault("cannot read -") from None
    raise too_long("-", most)


def tell(text: str) -> None:
    """Writes a line, or a few, to standard error. Nothing fails if it is closed or full."""
    try:
        sys.stderr.write(text + "\n")
        sys.stderr.flush()
    except (OSError, ValueError):
        _give_up(2)


def note(text: str) -> None:
    """Writes a text to standard error, each line after the tool's name."""
    for line in text.splitlines():
        tell(f"{tool_name()}: {line}")


# A stream goes nowhere from here on, so that nothing fails once more when Python ends.
def _give_up(number: int) -> None:
    nothing = os.open(os.devnull, os.O_WRONLY)
    os.dup2(nothing, number)
    os.close(nothing)


# The tool's own text. Python leaves it out under PYTHONOPTIMIZE=2; it is read from the tool's file then.
def _doc_of_tool() -> str:
    file = getattr(sys.modules["__main__"], "__file__", None)
    if not file:
        return ""
    import ast  # it takes a while to load
    with open(file, encoding="utf-8") as source:
        return ast.get_docstring(ast.parse(source.read()), clean=False) or ""


def main(function: Callable[[List[str]], Optional[int]], doc: Optional[str], words: Optional[Sequence[str]] = None) -> NoReturn:
    """Calls a tool with its words, and ends as the table above says; `--help` as the first word prints `doc`."""
    # The collector looks at nothing that was loaded, at the end neither: that takes an eighth of a short call.
    gc.freeze()
    gc.enable()
    for number in STOPS:
        if signal.getsignal(number) is not signal.SIG_IGN:
            signal.signal(number, _stop)
    _hold_streams()
    if doc is None:
        doc = sys.modules["__main__"].__doc__ = _doc_of_tool()
    given = list(sys.argv[1:] if words is None else words)
    name = tool_name()
    status: object = 0
    try:
        if given[:1] in (["--help"], ["-h"]):
            print(doc.strip())
        else:
            status = function(given) or 0
        sys.stdout.flush()
    except Usage as fault:
        tell("%s: %s\n\n%s" % (name, fault, doc.strip()))
        status = 2
    except Fault as fault:
        try:
            sys.stdout.flush()
        except (OSError, ValueError):
            pass
        tell("%s: %s" % (name, fault))
        status = 1
    except SystemExit as ended:
        status = ended.code
    except KeyboardInterrupt:
        status = 130
    except BrokenPipeError:
        status = 141
    except OSError as error:
        status = 141 if error.errno == errno.EPIPE else 1
        if status == 1:
            tell("%s: cannot write -" % name if error.filename is None else "%s: %s: %s" % (name, os.fsdecode(error.filename), error.strerror))
    except MemoryError:
        status = 1
        tell("%s: no memory" % name)
    except Exception as error:  # noqa: BLE001 # the last resort: a fault of the tool is reported in a line
        tell("%s: a fault of this tool: %s: %s" % (name, type(error).__name__, error))
        status = 70
    try:
        sys.stdout.flush()
    except (OSError, ValueError) as error:
        if not status:
            status = 141 if isinstance(error, BrokenPipeError) else 1
            if status == 1:
                tell("%s: cannot write -" % name)
        _give_up(1)
    # All is cleared away: from here on a signal ends Python without a traceback.
    for it in STOPS:
        if signal.getsignal(it) is _stop:
            signal.signal(it, signal.SIG_DFL)
    sys.exit(status if isinstance(status, int) else 1)
