"""What comes of the runs of a list: each result under its key, carried out once.

A folder of results has `runs/KEY.json`, what a run came to, `runs/KEY.png`, its last frame, and `runs/KEY.html`, its page
(`KEY.whole.html` with the Tube); and, made of them, `results.csv` and `index.html`.
"""
from __future__ import annotations

import errno
import hashlib
import json
import os
import re
import resource
import time
from typing import Any, Dict, Iterable, List, NamedTuple, Optional, Sequence, Set, Tuple

from . import page
from .collection import Input, Plan, key_of
from .disc import Disc, file_name
from .explain import explain
from .faults import Fault, NoRoom
from .files import (OUTPUT_CAP, Sum, files_below, held, is_plain, make_folder, own_folder, read_text, sum_of, sync_folder, write_beside,
                    writing_fault)
from .frame import Frame, frames_in
from .manifest import HEAD, files_in, program_lines, run_lines
from .program import Ended, Program, version

FORM = "beebtube result 2"
AGAINST = "against.html"  # the ending of a page with the stored frame, too
PAGES = ("none", "plain", "whole")
ROOM = 134217728  # bytes: what the files of any one run fit into


class Result(NamedTuple):
    """What a run came to.

    words      its words, with names of its own
    reads      for each file that it read its name, sum and length; `wrote` likewise, its sum and length by the ending of `out`
    status     the program's, `text` what it said, and `why` what that means
    seconds    how long it took by the clock, and `processor` of a processor
    frame      the ending of its last frame; nothing where it has none
    manifest   the sum of the manifest that stands beside its files where they are kept
    title      of the disc in drive 0, and `files` the names in its catalogues, those of the other side behind `:2.`
    parts      for each file that was made of it (`png`, `html`, `whole.html`) its ending, sum and length
    """

    key: str
    words: List[str]
    reads: List[Tuple[str, str, int]]
    wrote: List[Tuple[str, str, int]]
    status: int
    text: str
    why: List[str]
    seconds: float
    processor: float
    ticks: int
    frame: str
    manifest: str
    title: str
    files: List[str]
    parts: List[Tuple[str, str, int]]

    @property
    def has_page(self) -> bool:
        """It has what a page is made of."""
        return self.status == 0 and any(name == "report" for name, _, _ in self.wrote)

    @property
    def said(self) -> str:
        return ": ".join([self.text] + self.why[:1]).replace("\n", " ") if self.status else ""


class Wanted(NamedTuple):
    """What is wanted of each run besides its result: which page, and the folder in which its files are kept."""

    pages: str = "plain"
    keep: Optional[str] = None


# --- The folder of results ---


class Store:
    """A folder of results."""

    def __init__(self, folder: str):
        self.folder = folder
        self.runs = os.path.join(folder, "runs")

    def make(self) -> None:
        """Makes the folder where it is not there; Fault where it cannot be written."""
        make_folder(self.runs)
        if not os.access(self.runs, os.W_OK | os.X_OK):
            raise Fault("cannot write %s: it is not to be written" % self.runs)

    def place(self, key: str, ending: str) -> str:
        return os.path.join(self.runs, "%s.%s" % (key, ending))

    def load(self, key: str) -> Optional[Result]:
        """The result under a key; None if there is none, or one that is damaged, which is made again."""
        try:
            text = read_text(self.place(key, "json"), plain=True)
            result = _result_of(json.loads(text))
        except (Fault, ValueError, TypeError, KeyError, RecursionError):
            return None
        return result if result.key == key else None

    def save(self, result: Result, parts: Dict[str, bytes]) -> Result:
        """Stores a result and the files that were made of it; gives it with what is known of these files. The result is on the disk
        then; a file that was made of it and is lost with the machine's power is found to be missing or damaged, and made again."""
        for ending, data in parts.items():
            write_beside(self.place(result.key, ending), data, follow=False)
        known = {ending: (ending, found.digits, found.length) for ending, found in ((ending, Sum([data])) for ending, data in parts.items())}
        old = self.load(result.key)
        if old is not None:
            known = {**{part[0]: part for part in old.parts}, **known}
        result = result._replace(parts=list(known.values()))
        told = {"form": FORM, **result._asdict()}
        write_beside(self.place(result.key, "json"), json.dumps({**told, "sum": _sum_of_told(told)}) + "\n", follow=False, sync=True)
        sync_folder(self.runs)
        return result

    def clear(self, used: Set[str]) -> Tuple[int, int]:
        """Removes the results under other keys than these, with the files that were made of them; how many results and files there
        were. A file that no result names stays."""
        results = files = 0
        for name in sorted(os.listdir(self.runs)) if os.path.isdir(self.runs) else ():
            key, ending = name.split(".", 1) if "." in name else (name, "")
            result = self.load(key) if ending == "json" and key not in used else None
            for part in [part for part, *_ in result.parts] + [AGAINST, "json"] if result is not None else ():
                if os.path.lexists(self.place(key, part)):
                    os.unlink(self.place(key, part))
                    files += 1
            results += result is not None
        return results, files

    def page(self, key: str) -> Optional[str]:
        """The name of a run's page below the folder, the whole one where it is there."""
        for ending in ("whole.html", "html"):
            if is_plain(self.place(key, ending)):
                return "runs/%s.%s" % (key, ending)
        return None

    def has(self, result: Result, name: str, wanted: Wanted) -> bool:
        """All that is wanted of a run is there, and is as it was written."""
        if wanted.keep is not None and not _is_kept(os.path.join(wanted.keep, name), result):
            return False
        if result.frame and not self._has_part(result, "png"):
            return False
        if wanted.pages == "none" or not result.has_page:
            return True
        return self._has_part(result, "whole.html") or wanted.pages == "plain" and self._has_part(result, "html")

    def _has_part(self, result: Result, ending: str) -> bool:
        place = self.place(result.key, ending)
        for part, digits, length in result.parts:
            if part == ending and is_plain(place) and os.path.getsize(place) == length:
                return sum_of(place).digits == digits
        return False


def _sum_of_told(told: Dict[str, Any]) -> str:
    return hashlib.sha256(json.dumps(told, sort_keys=True).encode()).hexdigest()


# A result of what its file has, each value of which is looked at: others may have made it.
def _result_of(told: Any) -> Result:
    def want(is_right: bool) -> None:
        if not is_right:
            raise ValueError

    want(isinstance(told, dict) and told.pop("sum", None) == _sum_of_told(told) and told.pop("form", None) == FORM and set(told) == set(Result._fields))
    for field in ("words", "why", "files"):
        want(isinstance(told[field], list) and all(isinstance(it, str) for it in told[field]))
    for field in ("reads", "wrote", "parts"):
        want(isinstance(told[field], list) and all(isinstance(it, list) and len(it) == 3 for it in told[field]))
        for name, digits, length in told[field]:
            want(isinstance(name, str) and " " not in name and bool(re.fullmatch("[0-9a-f]{64}", digits)) and type(length) is int)
        told[field] = [tuple(it) for it in told[field]]
    for field in ("key", "text", "frame", "manifest", "title"):
        want(isinstance(told[field], str))
    for field in ("seconds", "processor"):
        want(type(told[field]) in (int, float) and 0 <= told[field] < 1e9)
    want(type(told["status"]) is int and type(told["ticks"]) is int and bool(told["words"]))
    return Result(**told)


# --- Carrying out ---


class Fixed:
    """The program of a suite, which has to stay the same while it is called."""

    def __init__(self) -> None:
        self.program = Program()
        self.path = self.program.path
        self.mark = _mark_of(self.path)
        self.lines = program_lines()
        own = sum_of(self.path).digits
        if os.environ.get("BEEBTUBE"):
            self.sum = own
        else:
            self.sum = version().sources
            if version().sum != own:
                raise Fault("the program was changed meanwhile")

    def call(self, words: Sequence[str], folder: str) -> Ended:
        """Calls the program; Fault if it is another one before or after the call."""
        self._look()
        ended = self.program.call(words, folder)
        self._look()
        return ended

    def _look(self) -> None:
        if _mark_of(self.path) != self.mark:
            raise Fault("the program was changed meanwhile")


# What changes if somebody writes a file or puts another one in its place.
def _mark_of(name: str) -> Tuple[int, ...]:
    try:
        state = os.stat(name)
    except OSError as error:
        raise Fault("cannot run %s: %s" % (name, error.strerror)) from None
    return state.st_dev, state.st_ino, state.st_size, state.st_mtime_ns, state.st_ctime_ns


def carry_out(plan: Plan, name: str, program: Fixed, store: Store, wanted: Wanted) -> Tuple[Result, str]:
    """Carries out a run, and stores what comes of it; gives the result and a note, if there is something to say of its page.
    Fault where it was cut short, or where an input or the program was changed meanwhile: then nothing is stored."""
    kept = os.path.join(wanted.keep, name) if wanted.keep is not None else None
    if kept is not None and wanted.keep is not None:
        _look_at_kept(kept, plan.inputs)
        make_folder(wanted.keep)
    with own_folder(wanted.keep) as folder:
        sums = _put_inputs(plan, folder)
        if key_of(program.sum, plan.words, plan.inputs, sums) != plan.key:
            raise Fault("what it reads was changed meanwhile")
        began, before = time.monotonic(), _processor()
        ended = program.call(plan.words, folder)
        seconds, processor = time.monotonic() - began, _processor() - before
        if ended.is_cut_short:
            raise _cut_short(ended, folder)
        reads = [(it.name, found) for it, found in zip(plan.inputs, sums)]
        written = [file for file in files_below(folder) if file.startswith("out.")]
        wrote = [(file, sum_of(os.path.join(folder, file), OUTPUT_CAP)) for file in written]
        lines = [HEAD] + program.lines + run_lines(plan.words, reads, ended, wrote)
        manifest = "\n".join(lines).encode() + b"\n"
        write_beside(os.path.join(folder, "out.manifest"), manifest)
        frames = frames_in(folder)
        result = Result(plan.key, plan.words, _told(reads), [(file[4:], digits, length) for file, digits, length in _told(wrote)], ended.status, ended.text,
                        explain(ended.status, ended.text, plan.words, folder), round(seconds, 3), round(processor, 3), plan.ticks,
                        frames[-1][4:] if frames else "", Sum([manifest]).digits, *_on_disc(plan, folder), [])
        _look_at_old(store, result)
        parts, note = {}, ""
        if frames:
            parts["png"] = Frame.read(os.path.join(folder, frames[-1])).png()
        if result.has_page and wanted.pages != "none":
            try:
                parts["whole.html" if wanted.pages == "whole" else "html"] = _page(plan, folder, dict(wrote), wanted)
            except Fault as fault:
                note = "no page: %s" % str(fault).replace(folder + "/", "")
        if kept is not None:
            _keep(folder, kept, plan.inputs, result)
        return store.save(result, parts), note


# The title and the files of the disc in drive 0; nothing where there is none, or it has no catalogue.
def _on_disc(plan: Plan, folder: str) -> Tuple[str, List[str]]:
    title, files = "", []
    for name in (it.name for it in plan.inputs if it.name.startswith("disc0")):
        disc = Disc.read(os.path.join(folder, name))
        for side, catalogue in disc.catalogues().items():
            title = title or catalogue.title
            files += [":2." * side + file_name(file) for file in catalogue.files]
    return title, files


# What is wrong with a run that was cut short: with a full disk, the next one is cut short too.
def _cut_short(ended: Ended, folder: str) -> Fault:
    told = ended.text or ("signal %d" % -ended.status if ended.status < 0 else "status %d" % ended.status)
    if ended.status == 5:
        number = os.open(os.path.join(folder, "room"), os.O_WRONLY | os.O_CREAT)
        try:
            os.posix_fallocate(number, 0, ROOM)
        except OSError as error:
            if error.errno in (errno.ENOSPC, errno.EDQUOT):
                return NoRoom("it was cut short: %s: %s has no room" % (told, os.path.dirname(os.path.dirname(folder))))
        finally:
            os.close(number)
    return Fault("it was cut short: %s" % told)


def _told(sums: Iterable[Tuple[str, Sum]]) -> List[Tuple[str, str, int]]:
    return [(name, found.digits, found.length) for name, found in sums]


def _processor() -> float:
    used = resource.getrusage(resource.RUSAGE_CHILDREN)
    return used.ru_utime + used.ru_stime


def _put_inputs(plan: Plan, folder: str) -> List[Sum]:
    sums = []
    for it in plan.inputs:
        data = it.data()
        try:
            with open(os.path.join(folder, it.name), "wb") as file:
                file.write(data)
        except OSError as error:
            raise writing_fault(os.path.dirname(os.path.dirname(folder)), error) from None
        sums.append(Sum([data]))
    return sums


# A run that was done before gives the same again.
def _look_at_old(store: Store, result: Result) -> None:
    old = store.load(result.key)
    if old is not None and (old.wrote, old.status) != (result.wrote, result.status):
        names = [name for name, *_ in set(old.wrote) ^ set(result.wrote)]
        raise Fault("two runs of the same arguments and files differ: %s" % (" ".join(sorted(set(names))) or "status"))


def _page(plan: Plan, folder: str, wrote: Dict[str, Sum], wanted: Wanted) -> bytes:
    here = {it.name: os.path.join(folder, it.name) for it in plan.inputs}
    sums = {os.path.join(folder, file): found for file, found in [*wrote.items(), *((it.name, found) for it, found in zip(plan.inputs, plan.sums))]}
    discs = {int(it[4]): path for it, path in here.items() if it.startswith("disc")}
    wav = os.path.join(folder, "out.wav")
    # Several lines of a list may be one run: its page has no name of them.
    asked = page.Asked(os.path.join(folder, "out"), os.path.join(folder, "out.manifest"), wav if "out.wav" in wrote else None, here.get("keys"), discs,
                       1000000 if wanted.pages == "whole" else None, title="Run " + plan.key[:16], sums=sums)
    return page.page_of(asked)[0]


# --- Files that are kept ---

OWN_NAME = re.compile(r"os|tube|font|keys|trace|session|rom[0-9]{1,2}|disc[01]\.[sd]sd|out\..+")


# Fault if files of a run cannot be kept under a name, since it has others: those that the manifest there does not name, or those that
# the run reads.
def _look_at_kept(place: str, inputs: Iterable[Input]) -> None:
    if not os.path.lexists(place):
        return
    if os.path.islink(place) or not os.path.isdir(place):
        raise Fault("%s is there, and is no folder: it is not overwritten" % place)
    try:
        lines = read_text(os.path.join(place, "out.manifest"), plain=True).splitlines()
    except Fault:
        lines = []
    if lines[:1] != [HEAD]:
        raise Fault("%s is there, and no run was kept in it: it is not overwritten" % place)
    known = {name: told for _, name, told in files_in(lines) if OWN_NAME.fullmatch(name)}
    for name in _all_below(place):
        file = os.path.join(place, name)
        if name != "out.manifest" and (name not in known or not is_plain(file) or os.path.islink(file) or str(sum_of(file, None)) != known[name]):
            raise Fault("%s has %s, which is no file that a run left there: it is not overwritten" % (place, name))
    real = os.path.realpath(place) + "/"
    for it in inputs:
        if it.path is not None and os.path.realpath(it.path).startswith(real):
            raise Fault("%s has %s, which is read too: it is not overwritten" % (place, os.path.basename(it.path)))


def _all_below(folder: str) -> List[str]:
    found = []
    for at, folders, names in os.walk(folder):
        found += [os.path.relpath(os.path.join(at, name), folder) for name in folders + names]
    return sorted(found)


# Gives the folder of a run its name among those that are kept. What had the name is moved away first, and is removed with the rest of
# the own folder: so at each moment the old or the new one is whole.
def _keep(folder: str, place: str, inputs: Iterable[Input], result: Result) -> None:
    above = os.path.dirname(folder)
    try:
        os.makedirs(os.path.dirname(place), exist_ok=True)
        for turn in range(100):
            if _is_kept(place, result):
                return
            _look_at_kept(place, inputs)
            with held():
                if _move(folder, place, os.path.join(above, "old%d" % turn)):
                    return
    except OSError as error:
        raise writing_fault(place, error) from None
    raise Fault("cannot write %s: others write it all the time" % place)


# False if somebody else moved or made the place meanwhile.
def _move(folder: str, place: str, old: str) -> bool:
    try:
        if os.path.lexists(place):
            os.rename(place, old)
        os.rename(folder, place)
        return True
    except OSError as error:
        if error.errno in (errno.ENOENT, errno.ENOTEMPTY, errno.EEXIST):
            return False
        if os.path.lexists(old) and not os.path.lexists(place):
            os.rename(old, place)
        raise


def _is_kept(folder: str, result: Result) -> bool:
    name = os.path.join(folder, "out.manifest")
    if not is_plain(name) or sum_of(name).digits != result.manifest:
        return False
    wanted = [(file, length) for file, _, length in result.reads] + [("out." + file, length) for file, _, length in result.wrote]
    return all(is_plain(os.path.join(folder, file)) and os.path.getsize(os.path.join(folder, file)) == length for file, length in wanted)
