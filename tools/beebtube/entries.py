"""The commands of an installed package: `beebtube`, and `beebtube-NAME` for each tool.

A tool's entry runs the script that a clone has in tools/; `beebtube-build` runs examples/c/build.
"""
from __future__ import annotations

import os
import runpy
import signal
import subprocess
import sys
from typing import Callable, NoReturn

from .command import tell
from .explain import explain
from .program import TOP, version

HELP = os.path.join(TOP, "docs", "help.txt")


def __getattr__(name: str) -> Callable[[], None]:
    place = os.path.join(TOP, "tools", name)
    if not os.path.isfile(place):
        raise AttributeError(name)

    def tool() -> None:
        runpy.run_path(place, run_name="__main__")
    return tool


def build() -> NoReturn:
    """Runs examples/c/build, which makes programs by cc65."""
    os.execvp("bash", ["bash", os.path.join(TOP, "examples", "c", "build")] + sys.argv[1:])


def program() -> NoReturn:
    """Runs the program, and says more if it refuses its words or its files, as ./beebtube does."""
    words = sys.argv[1:]
    if "--help" in words:
        with open(HELP, encoding="utf-8") as file:
            sys.stdout.write(file.read())
        sys.exit(0)
    found = version()
    if "--version" in words:
        kits = [f"kit {kit}" for kit in found.kits]
        told = [f"sources {found.sources}", *kits, f"program {found.program}", f"sum {found.sum}"]
        print(*told, sep="\n")
        sys.exit(0)
    # The child has Ctrl-C, too; this waits for its end.
    for number in (signal.SIGINT, signal.SIGQUIT):
        signal.signal(number, lambda *_: None)
    child = subprocess.Popen([found.program or "beebtube"] + words, stderr=subprocess.PIPE)
    for number in (signal.SIGTERM, signal.SIGHUP):
        signal.signal(number, lambda number, _: child.send_signal(number))
    text = child.communicate()[1].decode("utf-8", "surrogateescape").rstrip("\n")
    status = child.returncode
    if text:
        tell(text)
    for line in explain(status, text, words):
        tell("beebtube: " + line)
    if status < 0:
        signal.signal(-status, signal.SIG_DFL)
        os.kill(os.getpid(), -status)
    sys.exit(status)
