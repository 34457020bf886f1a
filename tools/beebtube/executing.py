"""`tools/execute`: a program as a program of the shell. `execution.py` runs it."""
from __future__ import annotations

import argparse
import errno
import fcntl
import os
import stat
import sys
from typing import Callable, Dict, List, Optional, Tuple

from .command import Usage, note, read_standard_input
from .disc_program import DiscImage, DiscRunner, disc_of
from .execution import CPUS, DECK, KEPT, NOT_RUN, SLOT, Executed, Image, Runner
from .execution import images_of, labels_of, ticks_of
from .faults import Fault, Refused
from .files import same_file, write_beside
from .frame import look_at_picture
from .labels import Labels
from .program import Program, Side, Speed
from .reading import Reader
from .words import ADDRESS

FLAGS = ("--host", "--time", "--os", "--tube")
MOST_AT_HAND = DECK - 4 * SLOT


def _address(word: str) -> int:
    if not ADDRESS.fullmatch(word):
        raise argparse.ArgumentTypeError(
            f"{word}: an address has four upper-case hexadecimal digits, as 0800")
    return int(word, 16)


def _seconds(word: str) -> float:
    try:
        value = float(word)
    except ValueError:
        value = 0.0
    if not 0 < value <= 3600:
        raise argparse.ArgumentTypeError(
            f"{word}: the limit is a number of seconds of machine time above 0")
    return value


def _reader() -> Reader:
    reader = Reader()
    for option in ("--at", "--start", "--host-at", "--host-start"):
        reader.add_argument(option, type=_address)
    for option in FLAGS:
        reader.add_argument(option, action="store_true")
    for option in ("--both", "--keys", "--font", "--shots", "--labels", "--host-labels", "--save",
                   "--trace", "--listing", "--disc"):
        reader.add_argument(option)
    reader.add_argument("--cpu", type=str.lower, choices=[str(cpu) for cpu in CPUS])
    reader.add_argument("--speed", choices=("3", "4"), default="3")
    reader.add_argument("--limit", type=_seconds)
    reader.add_argument("program")
    return reader


# The files that are left.
def _kept(given: argparse.Namespace) -> List[str]:
    return [name for name in (given.save, given.trace, given.listing, given.disc)
            if name is not None]


# The words of the tool, and those of the program after its name.
def _parted(words: List[str]) -> Tuple[List[str], List[str]]:
    at = 0
    while at < len(words) and words[at].startswith("-") and words[at] != "--":
        at += 1 if words[at] in FLAGS or "=" in words[at] else 2
    at += 2 if words[at : at + 1] == ["--"] else 1
    return words[:at], words[at:]


def _fault_of(given: argparse.Namespace) -> Optional[str]:
    if given.tube and not given.os:
        return "--tube goes with --os: without it the second processor runs the program"
    if given.disc and not given.os:
        return "--disc goes with --os, whose programs have files"
    if given.os:
        for name in ("host", "both", "time", "save", "trace", "listing", "host_at", "host_start",
                     "host_labels"):
            if getattr(given, name) not in (None, False):
                return f"--{name.replace('_', '-')} does not go with --os"
        if given.speed == "4" and not given.tube:
            return "--speed is of the second processor: --os has it with --tube"
    if given.host and given.both:
        return "--host runs one program, and --both two"
    of_host = (given.host_at, given.host_start, given.host_labels)
    if not given.both and of_host != (None, None, None):
        return "--host-at, --host-start and --host-labels are of the program of --both"
    for name, at, start in (("--start", given.at, given.start),
                            ("--host-start", given.host_at, given.host_start)):
        if start is not None and at is None and not given.os:
            return f"{name} needs the address of a raw image, by {name.replace('start', 'at')}"
    if given.host and given.trace:
        return "--trace: without a Tube there is no list of its accesses; --listing is there"
    if given.host and given.speed == "4":
        return "--speed is of the second processor, and --host has none"
    if given.shots and not given.keys:
        return "--shots NAME leaves the pictures of the shots of a script, and --keys names none"
    kept = [os.path.realpath(name) for name in _kept(given)]
    if len(set(kept)) < len(kept):
        return "two of --save, --trace and --listing name one file"
    return None


# The bytes of standard input that are there without waiting: those of a file that has room in the
# deck, or none of an empty one. None if it is another thing, which is read once the program asks
# for a byte. The position in the file stays.
def _at_hand() -> Optional[bytes]:
    try:
        found, nothing = os.fstat(0), os.stat(os.devnull)
        if fcntl.fcntl(0, fcntl.F_GETFL) & os.O_ACCMODE == os.O_WRONLY:
            return None
        if found.st_rdev == nothing.st_rdev != 0:
            return b""
        if not stat.S_ISREG(found.st_mode):
            return None
        at, data = os.lseek(0, 0, os.SEEK_CUR), b""
        while len(data) <= MOST_AT_HAND:
            block = os.pread(0, 1 << 16, at + len(data))
            if not block:
                return data
            data += block
    except OSError:
        pass
    return None


def execute(words: List[str]) -> int:
    """The tool. A call that is wrong has the status 125, since 1 and 2 may be the program's."""
    try:
        return _execute(words)
    except Usage as fault:
        note(f"{fault} (--help lists the arguments)")
    except Refused as refused:
        text = refused.text or f"the emulator ended with {refused.status}"
        note("\n".join([text] + refused.why))
    except Fault as fault:
        note(str(fault))
    except MemoryError:
        note("no memory")
    except OSError as error:
        if error.errno == errno.EPIPE:
            raise
        note("cannot write -")
    return NOT_RUN


def _execute(words: List[str]) -> int:
    own, rest = _parted(words)
    given = _reader().parse_args(own)
    fault = _fault_of(given)
    if fault:
        raise Usage(fault)
    speed: Speed = 4 if given.speed == "4" else 3
    limit = ticks_of(given.limit, speed)
    images: List[Image]
    if given.os:
        side: Side = "para" if given.tube else "host"
        images = [DiscImage(given.program, side, given.at, given.start, given.cpu)]
    else:
        images = images_of(given.program, given.both, given.host, given.at, given.start,
                           given.host_at, given.host_start, given.cpu)
    names: Dict[Side, Labels] = {"host": labels_of(given.host_labels), "para": Labels({})}
    names[images[0].machine] = labels_of(given.labels)
    read = [name for name in (given.program, given.both, given.keys, given.font, given.labels,
                              given.host_labels) if name]
    for name in _kept(given):
        if os.path.isdir(name) or not os.path.isdir(os.path.dirname(name) or "."):
            what = "a folder" if os.path.isdir(name) else "in no folder"
            raise Fault(f"cannot write {name}: it is {what}")
        if any(same_file(name, it) for it in read):
            raise Fault(f"{name} is read too, and is not overwritten")
    arguments = [os.fsencode(word) for word in rest]
    kind = DiscRunner if given.os else Runner
    disc = disc_of(given.disc)
    runner = kind(Program(), images, arguments, speed, given.keys, given.font)
    try:
        if isinstance(runner, DiscRunner):
            runner.insert(disc)
        # (with --os keys of a script come in place of the input)
        at_hand = b"" if given.os and given.keys else _at_hand()
        runner.give(at_hand)
        left = runner.until(limit)
        if left.how == 6 and at_hand is None:
            runner.give(read_standard_input(DECK))
            left = runner.until(limit)
        elif at_hand:
            # What the program did not take is there for others.
            os.lseek(0, runner.taken(left), os.SEEK_CUR)
        image = runner.output("d0") if given.disc else b""
        done = Executed(runner, left, limit, names)
        _write(1, done.out)
        _write(2, done.err)
        if done.text:
            note(done.text)
        _leave(done, given, read)
        if given.disc and (image != disc.image or not os.path.exists(given.disc)):
            write_beside(given.disc, image, read)
    finally:
        runner.close()
    return done.status


# Leaves what the arguments name of the run.
def _leave(done: Executed, given: argparse.Namespace, read: List[str]) -> None:
    for number, frame in enumerate(done.frames if given.shots else []):
        name = f"{given.shots}.{number:03d}.png"
        look_at_picture(name)
        write_beside(name, frame.png(), read)
    if (given.save or given.trace) and len(done.trace) < 20 * done.accesses:
        note(f"the run has {done.accesses:,} accesses to the Tube, of which {KEPT:,} are kept")
    if given.trace:
        write_beside(given.trace, done.trace, read)
    if given.save:
        write_beside(given.save, done.session, read)
    if given.listing:
        write_beside(given.listing, done.listing, read)
    if given.time and given.both:
        _tell_time(f"{os.path.basename(given.both)}: ", lambda: done.host_cycles, 2)
        _tell_time(f"{os.path.basename(given.program)}: ", lambda: done.cycles, int(given.speed))
    elif given.time:
        _tell_time("", lambda: done.cycles, 2 if given.host else int(given.speed))


def _tell_time(name: str, cycles: Callable[[], int], clock: int) -> None:
    try:
        count = cycles()
        note(f"{name}{count:,} cycles, {count / clock / 1000000:.6f} seconds at {clock} MHz")
    except Fault as fault:
        note(f"{name}{fault}")


def _write(number: int, data: bytes) -> None:
    (sys.stdout if number == 1 else sys.stderr).flush()
    while data:
        data = data[os.write(number, data) :]
