"""A plugin for pytest: the fixtures `beeb`, `golden`, `cycles` and `screen`.

pytest finds it in an installed package; for a clone it is `pytest -p beebtube.plugin` with
`PYTHONPATH=tools`. docs/PYTHON.md has examples. It needs pytest 7, which no other module needs.
"""
from __future__ import annotations

import contextlib
import fcntl
import json
import os
import re
import shutil
import subprocess
import sys
import zlib
from typing import Any, Callable, Dict, Iterator, List, Optional, Union

import pytest

from . import calling, execution
from .execution import Executed
from .faults import Fault
from .files import read_file, write_beside
from .frame import PICTURE_CAP, Frame
from .program import TOP, Program, Run, screen_of

KEEP = "beebtube-failed"  # the folder in which failed tests leave what they ran
CYCLES = "cycles.json"


def pytest_addoption(parser: Any) -> None:
    group = parser.getgroup("beebtube")
    group.addoption("--update-golden", action="store_true",
                    help="write the golden pictures and the tables of cycles again")
    group.addoption("--beebtube-failed", default=KEEP, metavar="FOLDER",
                    help=f"where failed tests leave what they ran ({KEEP})")


class Beeb:
    """The package with its runs noted, so that a failed test leaves them: `run`, `solo`, `resume`,
    `replay`, `host`, `execute`, `call`, `asm` and `build`."""

    def __init__(self) -> None:
        self.program = Program()
        self.made: List[Union[Run, Executed]] = []
        self.asm, self.labels_of, self.check, self.dis = (
            self.program.asm, self.program.labels_of, self.program.check, self.program.dis)
        # (with sessions, which a failed test leaves)
        self.run = self._noted(self.program.run, save=True)
        self.solo = self._noted(self.program.solo, save=True)
        self.resume = self._noted(self.program.resume, save=True)
        self.replay = self._noted(self.program.replay)
        self.host = self._noted(self.program.host)
        self.execute = self._noted(execution.execute)
        self.call, self.build = calling.call, execution.build

    def _noted(self, function: Callable[..., Any], **besides: Any) -> Callable[..., Any]:
        def call(*words: Any, **options: Any) -> Any:
            made = function(*words, **{**besides, **options})
            self.made.append(made)
            return made
        call.__doc__ = function.__doc__
        return call

    def leave(self, folder: str) -> None:
        """Leaves what was run in a folder: of each its outputs, session, page and last picture."""
        for number, made in enumerate(self.made):
            place = os.path.join(folder, f"run{number}")
            shutil.rmtree(place, ignore_errors=True)
            if isinstance(made, Run):
                shutil.copytree(made.folder, place)
                subprocess.run([sys.executable, os.path.join(TOP, "tools", "page"), "out"],
                               cwd=place, stdout=subprocess.DEVNULL, stderr=subprocess.DEVNULL)
                # (in place of the session that `resume` read)
                with contextlib.suppress(FileNotFoundError):
                    os.replace(os.path.join(place, "out.save"), os.path.join(place, "session"))
            else:
                os.makedirs(place)
                told = {"out": made.out, "err": made.err, "text": made.text.encode()}
                for name, data in told.items():
                    write_beside(os.path.join(place, name), data)
                with contextlib.suppress(Fault):
                    write_beside(os.path.join(place, "session"), made.session)
            if made.frames:
                write_beside(os.path.join(place, "last.png"), made.frames[-1].png())


class Golden:
    """Pictures that are compared with stored ones: `golden(frame, "name")` fails if a pixel differs
    from that of golden/name.png beside the test, and leaves name.png, name.golden.png and
    name.difference.png."""

    def __init__(self, folder: str, update: bool, left: str):
        self.folder, self.update, self.left = folder, update, left

    def path(self, name: str) -> str:
        return os.path.join(self.folder, name + ".png")

    def __call__(self, frame: Frame, name: str) -> None:
        place = self.path(name)
        if self.update:
            os.makedirs(os.path.dirname(place), exist_ok=True)
            if not os.path.exists(place) or self._stored(place) != frame:
                write_beside(place, frame.png())
            return
        if not os.path.exists(place):
            pytest.fail(f"there is no {place}: --update-golden writes it", pytrace=False)
        stored = self._stored(place)
        if stored != frame:
            os.makedirs(os.path.dirname(os.path.join(self.left, name)), exist_ok=True)
            pictures = {"": frame, ".golden": stored, ".difference": frame.difference(stored)}
            for ending, picture in pictures.items():
                write_beside(os.path.join(self.left, name + ending + ".png"), picture.png())
            pytest.fail(f"{name}: {difference_of(frame, stored)}; "
                        f"{self.left} has the pictures and the difference", pytrace=False)

    def _stored(self, place: str) -> Frame:
        return Frame.of_png(read_file(place, PICTURE_CAP), place)


class Cycles:
    """Cycles that are compared with a stored table: `cycles("name", count)` fails if cycles.json
    beside the test has another number, and `cycles("name", count, within=0.02)` if it differs by
    more than 2 %."""

    def __init__(self, place: str, update: bool):
        self.place, self.update = place, update

    def __call__(self, name: str, count: int, within: float = 0.0) -> None:
        table = self._table()
        if self.update:
            with _alone(os.path.dirname(self.place)):
                table = self._table()
                if table.get(name) != count:
                    table[name] = count
                    text = json.dumps(dict(sorted(table.items())), indent=1) + "\n"
                    write_beside(self.place, text)
            return
        if name not in table:
            pytest.fail(f"{self.place} has no {name}: --update-golden writes {count:,}",
                        pytrace=False)
        if abs(count - table[name]) > within * table[name]:
            pytest.fail(f"{name}: {count:,} cycles, and {table[name]:,} are stored "
                        f"({count - table[name]:+,})", pytrace=False)


    def _table(self) -> Dict[str, int]:
        if not os.path.exists(self.place):
            return {}
        with open(self.place, encoding="utf-8") as file:
            return dict(json.load(file))


# No other worker writes in the folder meanwhile.
@contextlib.contextmanager
def _alone(folder: str) -> Iterator[None]:
    number = os.open(folder, os.O_RDONLY)
    try:
        fcntl.flock(number, fcntl.LOCK_EX)
        yield
    finally:
        os.close(number)


class Screen:
    """A teletext page: `screen(run)` gives its 25 lines, and `screen.has(run, text)` says whether
    one has the text."""

    def __call__(self, made: Union[Run, Executed]) -> List[str]:
        return screen_of(made.memory["host"])

    def has(self, made: Union[Run, Executed], text: str) -> bool:
        return any(text in line for line in self(made))


def difference_of(one: Frame, other: Frame) -> str:
    """In which box two frames differ, in words."""
    box = one.box(other)
    if box is None:
        return "the frames are equal"
    left, top, right, bottom = box
    return f"{one.differing(other):,} pixels differ, from x {left} to {right} and y {top} to {bottom}"


def _folder_of(request: Any) -> str:
    name = re.sub(r"[^A-Za-z0-9_.-]+", "_", request.node.nodeid)
    if "[" in request.node.nodeid:
        # (parameters may be long, and differ only by what is `_` here)
        name = f"{name[:160]}-{zlib.crc32(request.node.nodeid.encode()):08x}"
    return os.path.abspath(os.path.join(request.config.getoption("--beebtube-failed"), name))


@pytest.fixture
def beeb(request: Any) -> Any:
    """The emulator; what a failed test ran stays in a folder that its report names."""
    request.node.beebtube_made = made = Beeb()
    yield made
    if getattr(request.node, "beebtube_failed", False) and made.made:
        made.leave(_folder_of(request))
    for run in made.made:
        run.close()


@pytest.hookimpl(hookwrapper=True)  # type: ignore[misc]
def pytest_runtest_makereport(item: Any, call: Any) -> Any:
    outcome = yield
    report = outcome.get_result()
    if report.when != "teardown" and report.failed:
        item.beebtube_failed = True
        made: Optional[Beeb] = getattr(item, "beebtube_made", None)
        if made is not None and made.made:
            folder = _folder_of(item._request)
            report.sections.append(("beebtube", f"{folder} has what the test ran"))


@pytest.fixture
def golden(request: Any) -> Golden:
    """Compares frames with stored pictures."""
    folder = os.path.join(os.path.dirname(str(request.node.path)), "golden")
    return Golden(folder, request.config.getoption("--update-golden"), _folder_of(request))


@pytest.fixture
def cycles(request: Any) -> Cycles:
    """Compares cycles with a stored table."""
    place = os.path.join(os.path.dirname(str(request.node.path)), CYCLES)
    return Cycles(place, request.config.getoption("--update-golden"))


@pytest.fixture
def screen() -> Screen:
    """Reads teletext pages."""
    return Screen()


def pytest_assertrepr_compare(
        config: Any, op: str, left: object, right: object) -> Optional[List[str]]:
    if op == "==" and isinstance(left, Frame) and isinstance(right, Frame):
        return [f"{left!r} == {right!r}", difference_of(left, right)]
    return None


__all__ = ["Beeb", "Cycles", "Golden", "Screen", "difference_of"]
