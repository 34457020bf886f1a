"""`tools/manifest`: makes the manifest of a run, and repeats runs that have one."""
from __future__ import annotations

import contextlib
import io
import os
import shlex
from typing import Dict, List, NamedTuple, Optional, Sequence, Set, Tuple

from .command import Usage, note
from .crate import CRATE, METADATA, Crate
from .differs import difference_of
from .disc import note_of
from .explain import explain
from .faults import Fault
from .files import (OUTPUT_CAP, TRACE_CAP, Sum, blocks_of, files_below, inside, is_plain,
                    look_at_place, make_folder, make_new_folder, own_folder, read_text, sum_of,
                    too_long, write_beside)
from .manifest import HEAD, program_lines, run_lines
from .program import Ended, Program
from .reading import Reader, whole_number
from .words import Call, WrongWord, printable, shown, told
from .workers import Workers


# The names of the files that the words read, in their order; none if they spell no command.
def _names_read(words: Sequence[str]) -> List[str]:
    try:
        call = Call(list(words))
    except WrongWord:
        if any("/" in word for word in words):
            raise
        return []
    for what, name in call.outputs():
        if "/" in name:
            raise Fault(f"{what} {shown(name)}: what is written is named without a folder")
    for what, name in call.reads():
        text = note_of(name) if what.startswith("--disc") else None
        if text:
            note(text)
    return list(dict.fromkeys(name for _, name in call.reads()))


# Copies a file that is read into the folder; one with a whole path is read where it is, and so is
# /dev/null, an empty trace.
def _copy_into(folder: str, name: str) -> Optional[str]:
    if name == os.devnull:
        return None
    if not os.path.exists(name):
        raise Fault(f"cannot read {shown(name)}")
    if not is_plain(name):
        raise Fault(f"{shown(name)} is no plain file")
    if os.path.getsize(name) > TRACE_CAP:
        raise too_long(shown(name), TRACE_CAP)
    if os.path.isabs(name):
        return None
    if os.path.normpath(name).split("/")[0] == "..":
        raise Fault(f"{shown(name)}: files are named below this folder, and what is read by a whole"
                    " path too")
    place = inside(folder, name)
    make_folder(os.path.dirname(place))
    write_beside(place, blocks_of(name, TRACE_CAP))
    # So that it is seen whether it is written, even with the same bytes.
    os.utime(place, (0, 0))
    return place


def _is_as_copied(place: str, was: int) -> bool:
    now = os.stat(place)
    return (now.st_mtime_ns, now.st_ino) == (0, was)


class Ran(NamedTuple):
    """A run in a folder: its lines, the names that it read, those of its copies, what it wrote, and
    how it ended."""

    lines: List[str]
    names: List[str]
    copies: Set[str]
    written: List[str]
    ended: Ended


def _run(words: Sequence[str], folder: str) -> Ran:
    for word in words:
        if not word.isprintable():
            raise Fault(f"{shown(word)}: an argument has a character that cannot be shown")
    names = _names_read(words)
    copies: Dict[str, int] = {}
    reads: List[Tuple[str, Sum]] = []
    for name in names:
        place = _copy_into(folder, name)
        reads.append((name, sum_of(name if place is None else place, TRACE_CAP)))
        if place is not None:
            copies[os.path.relpath(place, folder)] = os.stat(place).st_ino
    ended = Program().call(words, folder)
    written = [name for name in files_below(folder) if name not in copies
               or not _is_as_copied(os.path.join(folder, name), copies[name])]
    wrote = [(name, sum_of(os.path.join(folder, name))) for name in written]
    return Ran(run_lines(words, reads, ended, wrote), names, set(copies), written, ended)


# A run that ended for want of room or memory, or by a signal, says nothing of its words and files.
def _cut_short(ended: Ended, what: str) -> int:
    why = ended.text or f"signal {-ended.status}"
    note(f"the run was cut short, and is not {what}: {why}")
    return ended.status if ended.status > 0 else 128 - ended.status


def make(words: Sequence[str]) -> int:
    """Runs the program, leaves its files here, and prints the manifest; gives its status."""
    known = program_lines()
    with own_folder() as folder:
        ran = _run(words, folder)
        if ran.ended.is_cut_short:
            return _cut_short(ran.ended, "told")
        for name in ran.written:
            place = name + ".written" if name in ran.copies else name
            blocks = blocks_of(os.path.join(folder, name))
            write_beside(place, blocks, reads=ran.names, follow=False)
            if name in ran.copies:
                note(f"{name} was read, and stays; what was written is {place}")
    print("\n".join([HEAD] + known + ran.lines))
    ended = ran.ended
    for line in [ended.text] + explain(ended.status, ended.text, words) if ended.status else []:
        note(line)
    return ended.status


# What kind of file a name is that the words write: the ending of OUT's files, wav or save.
def _kind_of(words: Sequence[str], name: str) -> str:
    for what, given in Call(list(words)).outputs():
        if what != "OUT" and name == given:
            return what[2:]
        if what == "OUT" and name.startswith(given + "."):
            return name[len(given) + 1 :]
    return name


# Where the files that are here, with the sums of a manifest, part from those that were just written.
def _print_differences(
        words: Sequence[str], wanted: Sequence[str], got: Sequence[str], folder: str) -> None:
    written = {line.split(" ", 3)[-1] for line in got if line.startswith("wrote ")}
    for line in wanted:
        name = line.split(" ", 3)[-1]
        if not line.startswith("wrote ") or line in got or name not in written or "/" in name:
            continue
        if is_plain(name) and f"wrote {sum_of(name)} {name}" == line:
            lines = difference_of(_kind_of(words, name), name, os.path.join(folder, name))
            print(printable(name) + ": " + "\n".join(lines))


# The manifests of the runs that were kept below a folder.
def _manifests_below(folder: str) -> List[str]:
    names = sorted(os.path.relpath(os.path.join(at, "out.manifest"), folder)
                   for at, _, files in os.walk(folder) if "out.manifest" in files)
    if not names:
        raise Fault(f"{shown(folder)} has no run: no out.manifest")
    return names


def check_all(folder: str, count: int) -> int:
    """Repeats all runs that were kept below a folder, each in a process that works in the run's own
    folder."""
    names = [os.path.dirname(name) or "." for name in _manifests_below(folder)]
    top, bad, said = os.path.abspath(folder), 0, 0
    ended: Dict[str, Tuple[str, str]] = {}

    def work(name: str) -> Tuple[int, str]:
        os.chdir(os.path.join(top, name))
        with contextlib.redirect_stdout(io.StringIO()) as text:
            status = check("out.manifest")
        return status, text.getvalue()

    workers = Workers(count, work)
    try:
        for name in names + [""]:
            while workers.is_full or not name and len(workers):
                for done in workers.ended():
                    status, text = done.value or (2, done.fault)
                    ended[done.mark] = {0: "same", 1: "differs"}.get(status, "failed"), text
                    bad += status != 0
            if name:
                workers.start(name, name)
            while said < len(names) and names[said] in ended:
                state, text = ended.pop(names[said])
                lines = text.splitlines() if state != "same" else []
                print("\n  ".join([f"{state} {told(names[said])}"] + lines), flush=True)
                said += 1
    finally:
        workers.stop()
    print(f"manifest: {len(names) - bad} of {len(names)} are the same")
    return 1 if bad else 0


def write_crate(place: str, license_: Optional[str]) -> int:
    """Writes the metadata of a folder of runs, or of the run of a manifest into its folder."""
    folder = place if os.path.isdir(place) else os.path.dirname(place)
    crate = Crate(folder)
    for name in _manifests_below(folder) if folder == place else [os.path.basename(place)]:
        crate.add(name)
    where = os.path.join(folder, METADATA)
    look_at_place(where, "metadata of a crate", lambda begin: CRATE.encode() in begin, OUTPUT_CAP)
    write_beside(where, crate.text(license_), follow=False)
    print(f"manifest: {shown(where)}: runs {len(crate.runs)}, files {len(crate.files)}")
    return 0


def check(name: str, keep: Optional[str] = None) -> int:
    """Repeats the run of a manifest, and prints `same`, or what differs; gives the status."""
    wanted: List[str] = read_text(name).splitlines()
    if wanted[:1] != [HEAD]:
        raise Fault(f"{name} is no manifest")
    places = [place for place, line in enumerate(wanted) if line.startswith("words ")]
    if len(places) > 1:
        raise Fault(f"{name} has two lines `words`")
    try:
        words = shlex.split(wanted[places[0]][6:]) if places else []
    except ValueError as error:
        raise Fault(f"{name}: its arguments are not valid: {error}") from None
    if not words:
        raise Fault(f"{name} has no line `words`")
    made, wanted, known = wanted[1 : places[0]], wanted[places[0] :], program_lines()
    if keep is not None:
        make_new_folder(keep, "what is kept comes into")
    with own_folder() as folder:
        ran = _run(words, folder)
        if ran.ended.is_cut_short:
            return _cut_short(ran.ended, "compared")
        for it in ran.written if keep is not None else ():
            place = inside(keep or "", it)
            write_beside(place, blocks_of(os.path.join(folder, it)), follow=False)
        _print_programs(made, known)
        return _compare(words, wanted, ran.lines, folder)


def _print_programs(made: Sequence[str], known: Sequence[str]) -> None:
    for line in made:
        if line not in known:
            same = [it for it in known if it.split()[0] == (line.split() or [""])[0]]
            print(f"another program: {printable(line)}; here {', '.join(same or known)}")


# Prints what differs between a manifest and the run that was just made; gives the status.
def _compare(words: Sequence[str], wanted: List[str], got: List[str], folder: str) -> int:
    for what, lines, others in (("not", wanted, got), ("only", got, wanted)):
        for line in lines:
            if line not in others:
                print(f"{what} here: {printable(line)}")
    if wanted == got:
        counts = [sum(line.startswith(word) for line in got) for word in ("read ", "wrote ")]
        print("same: files read %d, written %d" % tuple(counts))
        return 0
    if sorted(wanted) == sorted(got):
        print("the lines have another order")
    _print_differences(words, wanted, got, folder)
    return 1


def manifest(words: List[str]) -> int:
    """The tool."""
    if words and not words[0].startswith("-"):
        return make(words)
    reader = Reader()
    what = reader.add_mutually_exclusive_group()
    what.add_argument("--check", action="store_true")
    what.add_argument("--crate", action="store_true")
    reader.add_argument("--keep")
    reader.add_argument("--license")
    reader.add_argument("-j", type=whole_number(1, 999))
    reader.add_argument("place")
    given = reader.parse_args(words)
    if not given.check and not given.crate:
        raise Usage("give the arguments of ./beebtube, or --check or --crate and a manifest")
    is_folder = given.check and os.path.isdir(given.place)
    if given.license is not None and not given.crate:
        raise Usage("--license goes with --crate")
    if given.keep is not None and (given.crate or is_folder):
        raise Usage("--keep goes with --check and a manifest")
    if given.j is not None and not is_folder:
        raise Usage("-j goes with --check and a folder")
    if given.crate:
        return write_crate(given.place, given.license)
    if is_folder:
        return check_all(given.place, given.j or len(os.sched_getaffinity(0)))
    return check(given.place, given.keep)
