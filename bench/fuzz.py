#!/usr/bin/env python3
"""fuzz.py [--seed S] [--from N] [--count N] [--seconds T] [-j N] [--only KIND] [--finds FOLDER]:
calls the program with made-up arguments and files, and reports where it differs from what the
pages promise. Input N of seed S is always the same, except with --only, which makes all inputs of
one kind. It may differ with another version of this script, of the examples or of the program,
whose runs the script changes. --count is 1,000 without --count and --seconds, the time for which
it goes on. -j is the number of processes. The files of an input are in memory (/dev/shm), or
below TMPDIR.

The script has its own short form of docs/COMMANDS.md: the arguments, the forms of traces and key
scripts, and the lengths of images. From these it knows which status, text and files a call must
give. session_file.py has the form of session files, and listing.py that of listings. Besides,
these hold:

 - no call ends by a signal or takes more than 20 seconds
 - with the statuses 1 to 4, 6 and 8 no file is written
 - `check` of a trace of `solo` prints `ok` and its number of accesses, both replays of it do the
   same, and `run` writes the same files
 - a saved session has the right bytes; `resume` takes it up below, at and above its moment, and
   once more from there
 - `resume` reports of the accesses what `check` and both replays report, and writes what `solo`
   writes (if `solo` makes just these accesses, only a share of the sessions is tried)
 - `follow` ends as the replay does, its lines agree with replays that end there, and its counts
   are those of the whole listing
 - `asm` of a text of `dis` gives its bytes
 - the same arguments twice give the same bytes

The program is loaded once and goes on in copies (calls.py). Only the second call with the same
arguments loads it again. Questions about an input go on in the copy of that input.

The script prints each input that differs with its number, makes it smaller, and puts it into a
folder of --finds (./finds), with its files and a script `again` that repeats the call. The status
is 1 if anything differs.
"""
import argparse
import collections
import functools
import gc
import multiprocessing
import os
import random
import re
import resource
import shutil
import sys
import tempfile
import time

sys.dont_write_bytecode = True
import calls  # noqa: E402
import listing  # noqa: E402
import session_file  # noqa: E402
from program import TOP, form_fault, program  # noqa: E402

MOST_TICKS = 1073741824
PAIRS = ("solo", "run")
LISTS = ("follow host", "follow para")
HOSTS = ("replay host", "follow host") + PAIRS
PARAS = ("replay para", "follow para") + PAIRS
MACHINES = ("replay host", "replay para") + LISTS + PAIRS
RUNS = PAIRS + ("resume",)
HEARD = ("replay host",) + RUNS
ALONE = ("replay host", "follow host")

# Each command: its arguments that are no options. `Words.word` says what they are.
COMMANDS = {
    "check": "trace",
    "asm": "part source out",
    "dis": "part image origin out",
    "replay": "side trace ticks out",
    "solo": "ticks out",
    "run": "ticks out",
    "resume": "state ticks out",
    "follow": "side trace ticks out",
    "gen": "seed",
}
# Each option: who takes it, and what its value is: a file that is read, an output, an address, a number or one of some words; a flag has none.
OPTIONS = {
    "--os": (HOSTS, "file"),
    "--tube": (PARAS, "file"),
    **{"--rom%d" % slot: (HOSTS, "file") for slot in range(16)},
    "--font": (HOSTS, "file"),
    "--disc0": (HOSTS, "file"),
    "--disc1": (HOSTS, "file"),
    "--keys": (HOSTS, "file"),
    "--points": (LISTS, "file"),
    "--plugs": (HOSTS, (0, 8)),
    "--keep": (RUNS, (0, 4194304)),
    "--speed": (MACHINES, ("3", "4")),
    "--wav": (HEARD, "output"),
    "--save": (RUNS, "output"),
    "--at": (LISTS, "address"),
    "--watch": (LISTS, "address"),
    "--from": (LISTS, (0, MOST_TICKS)),
    "--no-tube": (ALONE, "flag"),
    "--counts": (LISTS, "flag"),
}
CHOICES = ("--at", "--points", "--watch", "--from", "--counts")  # the options of `follow` that `replay` does not take
CAPS = {"trace": 100663296, "source": 4194304, "state": 33554432, "--points": 327680}
CAP = 1048576
NAMED = ("--wav", "--save")  # the options that name an output, in its order
NEEDED = {taker: tuple(option for option, takers in (("--os", HOSTS), ("--tube", PARAS)) if taker in takers) for taker in MACHINES + RUNS}


# --- What has to come: the words ---


NUMBER = re.compile(rb"0|[1-9][0-9]*")
ADDRESS = re.compile(rb"[0-9A-F]{4}")


def number(word, most):
    if NUMBER.fullmatch(word) and int(word) <= most:
        return int(word)
    return None


def is_name(word):
    return bool(word) and not word.startswith(b"-")


def is_address(word):
    return ADDRESS.fullmatch(word) is not None


def is_there(choices, pc):
    """Whether an address is chosen."""
    return choices.get("--at", pc) == pc and pc in choices.get("--points", (pc,))


class Words:
    """The command that some words spell, or `good` is false."""

    def __init__(self, words):
        self.good = False
        self.values = {}
        self.alone = {}
        if not words or any(not is_text(word) for word in words):
            return
        self.command = words[0].decode()
        if self.command not in COMMANDS:
            return
        kinds = COMMANDS[self.command].split()
        rest = words[1:]
        takes = self.command in ("replay", "follow", "solo", "run", "resume")
        if takes:
            alone, options = [], []
            while rest:
                if not rest[0].startswith(b"-"):
                    alone.append(rest.pop(0))
                elif OPTIONS.get(rest[0].decode(), (None, None))[1] == "flag":
                    options.append((rest.pop(0).decode(), b""))
                elif len(rest) > 1:
                    options.append((rest.pop(0).decode(), rest.pop(0)))
                else:
                    return
            rest = alone
        if len(rest) != len(kinds):
            return
        for kind, word in zip(kinds, rest):
            value = self.word(kind, word)
            if value is None:
                return
            self.alone[kind] = value
        self.taker = self.command + (" " + self.alone["side"].decode() if "side" in self.alone else "")
        if takes:
            for option, value in options:
                takers, form = OPTIONS.get(option, ((), None))
                if self.taker not in takers or option in self.values:
                    return
                if form in ("file", "output"):
                    fits = is_name(value)
                elif form == "address":
                    fits = is_address(value)
                elif form == "flag":
                    fits = True
                elif isinstance(form[0], int):
                    fits = number(value, form[1]) is not None and number(value, form[1]) >= form[0]
                else:
                    fits = value.decode() in form
                if not fits:
                    return
                self.values[option] = value
            if any(option not in self.values for option in NEEDED[self.taker]) or {"--at", "--points"} <= set(self.values):
                return
        self.good = True

    def word(self, kind, word):
        if kind in ("trace", "source", "image", "state", "out"):
            return word if is_name(word) else None
        if kind == "ticks":
            return number(word, MOST_TICKS)
        if kind == "seed":
            return number(word, 2**64 - 1)
        if kind == "origin":
            return int(word, 16) if is_address(word) else None
        return word if word in {"part": (b"6502", b"65c02"), "side": (b"host", b"para")}[kind] else None

    def reads(self):
        """What is read, in its order: what it is, and its name."""
        first = [(kind, self.alone[kind]) for kind in ("trace", "source", "image", "state") if kind in self.alone]
        return first + [(option, self.values[option]) for option in OPTIONS if OPTIONS[option][1] == "file" and option in self.values]

    def options(self, taker=None, without=()):
        """The options as words, but for these and those that a command does not take."""
        chosen = [(option, value) for option, value in self.values.items() if option not in without and (taker is None or taker in OPTIONS[option][0])]
        return [part for option, value in chosen for part in ([option.encode()] if OPTIONS[option][1] == "flag" else [option.encode(), value])]

    def number_of(self, option, without):
        return int(self.values.get(option, b"%d" % without))


def is_text(word):
    try:
        word.decode()
        return True
    except UnicodeDecodeError:
        return False


# --- What has to come: the files ---


def is_length(option, name, length):
    if option in ("--os", "--tube", "--font"):
        return length == {"--os": 16384, "--tube": 2048, "--font": 960}[option]
    if option.startswith("--rom"):
        return length in (8192, 16384)
    if option.startswith("--disc"):
        return length <= (409600 if name.endswith(b".dsd") else 204800)
    return True


TRACE_LINES = re.compile(rb"(?:[0-9A-F]{10} (?:[HP] [RW] [0-7] [0-9A-F]{2}|H X 0 00)\n)*")


@functools.lru_cache(64)
def trace_fault(text):
    """The first line outside the form or the order, if there is one, and whether the ticks are those of 4 MHz."""
    fast = text.startswith(b"T2\n")
    lines = text[3 if fast else 0 :]
    good = TRACE_LINES.match(lines).end()
    # Ticks have ten digits each, and H is before P.
    order = [lines[place : place + 12] for place in range(0, good, 20)]
    for place, (before, here) in enumerate(zip(order, order[1:]), 2):
        if here <= before:
            return place, fast
    return good // 20 + 1 if good < len(lines) else None, fast


SCRIPT_LINE = re.compile(rb"at (0|[1-9][0-9]*) (shot|break|(down|up) [0-7][0-9A-F]|adc [0-3] [0-9A-F]{4})")


def script_of(text):
    """The first line that is refused, if there is one, and the ticks of the shots."""
    lines = text.split(b"\n")
    last = lines.pop()
    before, shots = 0, []
    for place, line in enumerate(lines + ([None] if last else []), 1):
        found = line is not None and SCRIPT_LINE.fullmatch(line)
        if not found or int(found.group(1)) > MOST_TICKS or int(found.group(1)) < before:
            return place, shots
        before = int(found.group(1))
        if found.group(2) == b"shot":
            shots.append(before)
        if len(shots) > 256:
            return place, shots
    return None, shots


def points_of(text):
    """The addresses of a file, or the number of its first line that is outside the form or does not rise."""
    points = []
    for place, line in enumerate(re.findall(rb"[^\n]*\n|[^\n]+", text), 1):
        if not re.fullmatch(rb"[0-9A-F]{4}\n", line) or (points and int(line, 16) <= points[-1]):
            return place
        points.append(int(line, 16))
    return points


def content(name, cap):
    """The bytes of a file, of one that is longer than `cap` one more, or nothing where it cannot be read."""
    try:
        number = os.open(name, os.O_RDONLY)
    except OSError:
        return None
    try:
        return os.read(number, min(cap, os.fstat(number).st_size) + 1)
    except OSError:
        return None
    finally:
        os.close(number)


def put(name, text):
    number = os.open(name, os.O_WRONLY | os.O_CREAT | os.O_TRUNC)
    try:
        os.write(number, text)
        # What is written later has another time.
        os.utime(number, ns=(0, 0))
    finally:
        os.close(number)


def path_of(name):
    """A name, with no folders that can be left out."""
    return os.path.normpath(name) if b"/" in name else name


def can_write(name):
    folder, last = os.path.split(name)
    return bool(last) and len(last) <= 255 and len(name) < 4096 and (not folder or os.path.isdir(folder)) and not os.path.isdir(name)


class Expected:
    """What has to come: `may` are pairs of a status and a text, or None for a text that is not known here; `outputs` are the files of status 0, and
    `session` is what the machines of the words are made of."""

    def __init__(self, *may, outputs=(), session=None):
        self.may, self.outputs, self.session = list(may), list(outputs), session


def made_of(words, files):
    """What the machines of the words are made of, as a session that has no entries yet; or what is wrong with the state."""
    if words.command != "resume":
        dsd = {option for option in session_file.DISCS if words.values.get(option, b"").endswith(b".dsd")}
        return session_file.Session(words.number_of("--speed", 3), 0, words.number_of("--plugs", 0), {option: files[option] for option in session_file.PARTS if option in files}, dsd, [])
    try:
        return session_file.decode(files["state"])
    except session_file.BadField as found:
        return found


def expected(words, laid):
    """The right outcome of these arguments with these files."""
    if not words.good:
        return Expected((1, b"usage"))
    files = {}
    for what, name in words.reads():
        cap = CAPS.get(what, CAP)
        files[what] = laid[name] if name in laid else content(name, cap)
        if files[what] is None:
            return Expected((2, b"cannot read " + name))
        if len(files[what]) > cap:
            return Expected((2, b"too long " + name))
    if words.command == "dis" and words.alone["origin"] + len(files["image"]) > 65536:
        return Expected((3, b"bad image image %d" % len(files["image"])))
    for what, name in words.reads():
        if not is_length(what, name, len(files[what])):
            return Expected((3, b"bad image %s %d" % (what[2:].encode(), len(files[what]))))
    if "trace" in files:
        line, fast = trace_fault(files["trace"])
        if "--no-tube" in words.values:
            line = 1 if files["trace"] else None
        elif line is None and words.command != "check" and fast != (words.number_of("--speed", 3) == 4):
            line = 1
        if line is not None:
            return Expected((4, b"bad trace %d" % line))
    session = made_of(words, files)
    if isinstance(session, session_file.BadField):
        return Expected((4, b"bad state %d" % session.at))
    line, shots = script_of(session.parts.get("--keys", b""))
    if line is not None:
        return Expected((4, b"bad script %d" % line))
    points = points_of(files.get("--points", b""))
    if isinstance(points, int):
        return Expected((4, b"bad points %d" % points))
    may = []
    if words.command in ("check", "replay", "follow", "resume"):
        may.append((8, None))
    if words.command == "asm":
        may.append((4, None))
    outputs = outputs_of(words, session, shots)
    wrong = [name for name in outputs if not can_write(name)]
    if wrong:
        may.append((5, b"cannot write " + wrong[0]))
    else:
        may.append((0, None))
    return Expected(*may, outputs=outputs, session=session)


def ending(r, what):
    """How a line of a script goes on; some of these are refused."""
    if what == "adc":
        return " %d %04X" % (r.choice((0, 1, 2, 3, 3, 4)), r.choice((0, 0x8000, 0xFFFF, r.randrange(65536))))
    return " %02X" % r.randrange(130) if what in ("down", "up") else ""


def outputs_of(words, session, shots):
    """The files that are written, in their order."""
    if "out" not in words.alone:
        return []
    out = words.alone["out"]
    if words.command in ("asm", "dis"):
        return [out]
    if words.command == "follow":
        return [out + b".list"] + [out + b".counts"] * ("--counts" in words.values)
    ends = [b".report"]
    if words.taker != "replay para":
        ends.append(b".host")
    if words.taker != "replay host":
        ends.append(b".para")
    ends += [b".d%d" % drive for drive in (0, 1) if "--disc%d" % drive in session.parts]
    ends += [b".%03d.ppm" % shot for shot in range(sum(1 for tick in shots if tick < words.alone["ticks"]))]
    if words.command in RUNS:
        ends.append(b".trace")
    ends += [b".plug%d" % plug for plug in range(min(2, session.plugs))]
    return [out + end for end in ends] + [words.values[option] for option in NAMED if option in words.values]


# --- The call, and what came of it ---

Case = collections.namedtuple("Case", "kind words files more")


# Ticks of a cycle, of the host or the second processor, with the second processor at 3 or 4 MHz.
TICKS = {(True, 3): 3, (True, 4): 6, (False, 3): 2, (False, 4): 3}


class Judge:
    """Calls the program in a folder of its own. What differs is raised as a text."""

    def __init__(self, path, folder, library=None):
        self.folder = folder
        os.chdir(folder)
        self.program = calls.Calls(path, library)
        self.calls = 0
        self.laid = self.made_of = None
        self.besides = False
        self.known = collections.OrderedDict()

    def call(self, words, anew=False):
        self.calls += 1
        try:
            status, out, err = self.program.call(words, anew, self.besides)
        except calls.Hangs:
            raise Differs("hangs: more than %d seconds" % calls.LIMIT)
        if status < 0:
            raise Differs("crashes: signal %d" % -status)
        self.besides = True
        return status, out, err

    def good(self, words, what):
        status, out, err = self.call(words)
        if status != 0:
            raise Differs("%s: status %d, %r" % (what, status, (out + err)[:100]))
        return out

    def lay(self, files):
        """Lays these files, and a folder `dir`, into the folder, and nothing else."""
        os.chdir(self.folder)
        for name in os.listdir(b"."):
            try:
                os.unlink(name)
            except IsADirectoryError:
                if name != b"dir" or os.listdir(name):
                    shutil.rmtree(name)
        os.makedirs(b"dir", exist_ok=True)
        for name, text in files.items():
            put(name, text)
        self.laid, self.made_of, self.besides = {path_of(name) for name in files}, None, False

    def changed(self):
        """What was written, made or taken away since the files were laid."""
        found, missing = set(), set(self.laid)
        for folder in (b"", b"dir/"):
            for entry in os.scandir(folder or b"."):
                state = entry.stat(follow_symlinks=False)
                name = folder + entry.name
                missing.discard(name)
                if name != b"dir" and (state.st_mtime_ns != 0 or name not in self.laid):
                    found.add(name)
        return found | missing

    def judge(self, case):
        """The status, if all is as promised."""
        self.lay(case.files)
        words = Words(case.words)
        wanted = expected(words, case.files)
        may, outputs = wanted.may, wanted.outputs
        status, out, err = self.call(case.words)
        changed = self.changed()
        fault = form_fault(words.command if words.good else None, status, out, err)
        if fault:
            raise Differs("form: " + fault)
        if not any(status == number and (text is None or err == text + b"\n") for number, text in may):
            raise Differs("status: %d %r, wanted %r" % (status, (out + err)[:200], may))
        if status in (1, 2, 3, 4, 6, 8) and changed:
            raise Differs("files: status %d, and changed: %r" % (status, sorted(changed)[:9]))
        if status == 5:
            outputs = outputs[: 1 + [path_of(b"cannot write " + name) for name in outputs].index(path_of(err[:-1]))]
            if not changed <= {path_of(name) for name in outputs}:
                raise Differs("files: status 5, and changed: %r" % sorted(changed)[:9])
        if status == 0:
            if changed != {path_of(name) for name in outputs}:
                raise Differs("files: status 0 wrote %r, wanted %r" % (sorted(changed)[:20], outputs[:20]))
            self.look(case, words, out, wanted)
        if status in (0, 5, 8) and words.command == "resume":
            self.look_at_resume(case, words, status, out, wanted)
        if status in (0, 5, 8) and words.command == "follow":
            self.look_at_follow(words, status, out, outputs, case.files)
        if status == 8 and out.startswith(b"wrong") or status == 4 and err.startswith(b"bad source"):
            first = next(name for what, name in words.reads())
            lines = len(wanted.session.entries) if words.command == "resume" else content(first, CAPS["trace"]).count(b"\n")
            if int(re.search(rb" ([0-9]+)", out + err).group(1)) > lines + 1:
                raise Differs("lines: there are fewer, %r" % (out + err))
        if case.more and words.good:
            # What was an input and is an output too has other bytes now.
            inputs = {path_of(name) for what, name in words.reads()}
            if not changed & inputs:
                kept = {name: content(name, CAPS["trace"]) for name in outputs} if status == 0 else {}
                if (status, out, err) != self.call(case.words, anew=True):
                    raise Differs("twice: another status or text")
                if any(content(name, CAPS["trace"]) != text for name, text in kept.items()):
                    raise Differs("twice: other files")
        return status

    def look(self, case, words, out, wanted):
        """Looks at what status 0 left."""
        outputs = wanted.outputs
        lengths = {b".host": 32768, b".para": 65536, b".plug0": 65536, b".ppm": 491535}
        if words.command in ("asm", "dis"):
            self.both_ways(words)
        elif words.command == "check":
            lines = content(words.alone["trace"], CAPS["trace"])
            if int(out.split()[1]) != (len(lines) - (3 if lines.startswith(b"T2") else 0)) // 20:
                raise Differs("check: %r" % out)
        elif words.command in ("replay",) + RUNS and are_apart(outputs):
            for name in outputs:
                end = name[name.rindex(b".") :] if b"." in name and name not in [words.values.get(option) for option in NAMED] else None
                if end in lengths and os.path.getsize(name) != lengths[end]:
                    raise Differs("length: %r has %d bytes" % (name, os.path.getsize(name)))
            self.look_at_sound(words, wanted.session.clock)
            report = content(outputs[0], CAP)
            for part in self.parts(words, outputs):
                if not re.search(part, report, re.M):
                    raise Differs("report: lacks %r: %r" % (part, report))
            if words.command in RUNS:
                self.look_at_pair(case, words, wanted, report)

    def look_at_sound(self, words, clock):
        """The length of the sound file: a sample of two bytes each 32 microseconds."""
        if "--wav" in words.values:
            micro = 12 if clock == 4 else 6
            samples = (words.alone["ticks"] + 32 * micro - 1) // (32 * micro)
            if os.path.getsize(words.values["--wav"]) != 44 + 2 * samples:
                raise Differs("sound: %d bytes for %d samples" % (os.path.getsize(words.values["--wav"]), samples))

    def parts(self, words, outputs):
        yield rb"^ticks %d$" % words.alone["ticks"]
        yield rb"^tube [0-9]+$"
        if words.taker != "replay para":
            yield b"^host PC=[0-9A-F]{4} " + listing.REGISTERS
            yield rb"^frames %d$" % sum(1 for name in outputs if name.endswith(b".ppm"))
        if words.taker != "replay host":
            yield b"^para PC=[0-9A-F]{4} " + listing.REGISTERS

    def both_ways(self, words):
        """`asm` of what `dis` wrote gives its bytes: of the image of `dis`, or of the one that `asm` wrote."""
        part, out = words.alone["part"], words.alone["out"]
        if words.command == "dis":
            image, text = words.alone["image"], out
            if os.path.exists(image) and os.path.samefile(image, out):
                return
        else:
            image, text = out, b"again.text"
            if os.path.getsize(image) > 65536:
                raise Differs("asm: an image of %d bytes" % os.path.getsize(image))
            self.good([b"dis", part, image, b"0000", text], "dis of what asm wrote")
        self.good([b"asm", part, text, b"again.image"], "asm of what dis wrote")
        if content(b"again.image", CAP) != content(image, CAP):
            raise Differs("both ways: asm of what dis wrote gives other bytes")

    def look_at_pair(self, case, words, wanted, report):
        outputs = wanted.outputs
        numbers = dict(line.split() for line in report.splitlines() if line.split()[0] in (b"tube", b"kept", b"frames"))
        tube, kept = int(numbers[b"tube"]), int(numbers[b"kept"])
        out = words.alone["out"]
        if kept != min(tube, words.number_of("--keep", 1048576)):
            raise Differs("kept: %d of %d" % (kept, tube))
        said = self.good([b"check", out + b".trace"], "check of the trace")
        if said != b"ok %d\n" % kept:
            raise Differs("check of the trace: %r, kept %d" % (said, kept))
        if "--save" in words.values:
            self.look_at_saved(case, words, wanted.session, tube)
        inputs = {path_of(name) for what, name in words.reads()}
        if not case.more or words.command not in PAIRS or inputs & {path_of(name) for name in outputs}:
            return
        other = b"run" if words.command == "solo" else b"solo"
        again = [other if place == 0 else word for place, word in enumerate(case.words)]
        self.other(again, words, b"other", outputs, "run and solo")
        if kept == tube:
            for side, taken in ((b"host", b".host"), (b"para", b".para")):
                taker = "replay " + side.decode()
                options = words.options(taker)
                self.good([b"replay", side, out + b".trace", b"%d" % words.alone["ticks"], b"played"] + options, "replay of the trace")
                if content(b"played" + taken, CAP) != content(out + taken, CAP):
                    raise Differs("replay: another memory of %s" % taker)
                if words.alone["ticks"] <= 10000:
                    options = words.options("follow " + side.decode())
                    self.look_at_all([b"replay", side, out + b".trace", b"%d" % words.alone["ticks"], b"played"] + options, wanted.session.clock)

    def look_at_saved(self, case, words, session, tube):
        """The session file that a run wrote: its bytes, and for a share of runs what comes of it when it is taken up again below, at and above its
        moment, and of the session that is saved then."""
        ticks, kept = words.alone["ticks"], session_file.entries_of(content(words.alone["out"] + b".trace", CAPS["trace"]))
        saved = session_file.saved(session.clock, ticks, session.plugs, session.parts, session.dsd, kept, tube)
        if session_file.encode(saved) != content(words.values["--save"], CAPS["state"]):
            raise Differs("saved: the session has other bytes")
        if not case.more:
            return
        os.makedirs(b"back", exist_ok=True)
        shutil.copy(words.values["--save"], b"back/state")
        for state, upto in ((b"back/state", ticks // 2), (b"back/state", ticks), (b"back/first", ticks), (b"back/state", min(MOST_TICKS, ticks + 997))):
            wanted = self.files_of(b"made", [b"solo"] + self.made(session) + [b"--keep", b"4194304"], upto)
            found = self.files_of(b"back", [b"resume", state, b"--keep", b"4194304"], upto)
            if found != wanted:
                raise Differs("resumed: %d ticks from %d: other %r" % (upto, saved.ticks, different(found, wanted)))
            if state == b"back/state" and upto == ticks // 2:
                os.rename(b"back/o.save", b"back/first")

    def made(self, session, side=None):
        """Puts the parts of a session's machines into a folder of its own, once, and gives the options
        of a run of both, or of one side."""
        names = {option: b"made/" + option[2:].encode() + (b".dsd" if option in session.dsd else b"") for option in session.parts}
        if self.made_of is not session:
            os.makedirs(b"made", exist_ok=True)
            for option, text in session.parts.items():
                put(names[option], text)
            self.made_of = session
        options = [b"--speed", b"%d" % session.clock]
        if side != b"para":
            options += [b"--plugs", b"%d" % session.plugs]
        for option, name in names.items():
            if not side or (option == "--tube") == (side == b"para"):
                options += [option.encode(), name]
        return options

    def files_of(self, folder, words, ticks, named=NAMED):
        """The files that words write under a name in this folder."""
        ways = [b"%s=%s/o.%s" % (option.encode(), folder, option[2:].encode()) for option in named]
        for name in os.listdir(folder):
            if name.startswith(b"o."):
                os.unlink(folder + b"/" + name)
        first = 2 if words[0] == b"resume" else 1
        self.good(words[:first] + [b"%d" % ticks, folder + b"/o"] + words[first:] + [part for way in ways for part in way.split(b"=")], words[0].decode())
        return {name[1:]: content(folder + b"/" + name, CAPS["trace"]) for name in os.listdir(folder) if name.startswith(b"o.")}

    def first_refusal(self, session, ticks):
        """What is said of a session whose entries the chip or a machine does not give, by `check` and both replays; else nothing."""
        os.makedirs(b"made", exist_ok=True)
        for side, entries in ((None, session.entries), (b"host", None), (b"para", None)):
            until = min(ticks, session.ticks)
            if entries is None:
                entries = [entry for entry in session.entries if entry.tick < until]
            put(b"made/trace", session_file.trace(session.clock, entries))
            words = [b"check", b"made/trace"] if side is None else [b"replay", side, b"made/trace", b"%d" % until, b"made/o"] + self.made(session, side)
            status, out, err = self.call(words)
            if status == 8:
                return out
            if status != 0:
                raise Differs("%s of a session's entries: status %d" % (words[0].decode(), status))
        return None

    def look_at_resume(self, case, words, status, out, wanted):
        """A session that is taken up again: what `check`, both replays and `solo` say and write of it."""
        session, ticks = wanted.session, words.alone["ticks"]
        named = [option for option in NAMED if option in words.values]
        files = None
        if status == 0 and are_apart(wanted.outputs):
            keep = [b"--keep", b"%d" % words.number_of("--keep", 1048576)]
            files = self.files_of(b"made", [b"solo"] + self.made(session) + keep, ticks, named)
        # Where `solo` does what the session holds, and nothing else, there is nothing to refuse.
        if case.more or not files or not does(files, session, ticks):
            refusal = self.first_refusal(session, ticks)
            if (status, out) != (8, refusal) if refusal else status == 8:
                raise Differs("resume: status %d, %r, but %r" % (status, out, refusal))
        if files:
            ends = {name: b"." + option[2:].encode() for option in named for name in (words.values[option],)}
            found = {ends.get(name, name[len(words.alone["out"]) :]): content(name, CAPS["trace"]) for name in wanted.outputs}
            if found != files:
                raise Differs("resume and solo: they write another %r" % different(found, files))

    def look_at_follow(self, words, status, out, outputs, files):
        """A listing: the status of the replay, and the lines."""
        side = words.alone["side"]
        inputs = [name for what, name in words.reads()]
        if any(path_of(name) in [path_of(other) for other in outputs] for name in inputs):
            return
        options = words.options(without=CHOICES)
        played = [b"replay", side, words.alone["trace"], b"%d" % words.alone["ticks"], b"played"] + options
        # What was replayed and listed before, with the same words and files, is not once more: its listing is known.
        key = (*played, *(files.get(name) for name in inputs))
        if status != 0 or key not in self.known:
            again, said, _ = self.call(played)
            if status != again if status != 5 else again != 0:
                raise Differs("follow: status %d, but replay %d" % (status, again))
            if status == 8 and said != out:
                raise Differs("follow: %r, but replay %r" % (out, said))
            if status != 0:
                return
            self.known[key] = self.look_at_all(played, words.number_of("--speed", 3))
            if len(self.known) > 64:
                self.known.popitem(last=False)
        every = self.known[key]
        found = self.listed(out, content(outputs[0], 2**30))
        fault = listing.form_fault(found, words.alone["ticks"])
        if fault:
            raise Differs("listing: %s" % fault)
        choices = {option: int(words.values[option], 16) for option in ("--at", "--watch") if option in words.values}
        if "--from" in words.values:
            choices["--from"] = int(words.values["--from"])
        if "--points" in words.values:
            choices["--points"] = set(points_of(files[words.values["--points"]]))
        if "--counts" in words.values and len(every) < listing.MOST_LINES:
            counted = listing.counts_text(every, words.alone["ticks"], choices.get("--from", 0))
            if content(outputs[1], 2**30) != counted:
                raise Differs("counts: other than those of the listing")
        if choices:
            self.look_at_choice(words, found, every, choices, played)
        elif found != every:
            raise Differs("listing: another one the second time")

    def look_at_all(self, played, clock):
        """The listing of all starts of what is replayed with these words."""
        host = played[1] == b"host"
        whole = [b"follow" if place == 0 else b"whole" if place == 4 else word for place, word in enumerate(played)]
        every = self.listed(self.good(whole, "follow"), content(b"whole.list", 2**30))
        fault = listing.form_fault(every, int(played[3])) or listing.listing_fault(every, TICKS[host, clock], host)
        if fault:
            raise Differs("listing: %s" % fault)
        self.look_at_starts(every, played, host)
        return every

    def listed(self, said, text):
        lines = listing.lines_of(text)
        if isinstance(lines, str):
            raise Differs("listing: %s" % lines)
        chosen = int(said.split()[3])
        if said != b"listed %d of %d\n" % (min(chosen, listing.MOST_LINES), chosen) or len(lines) != min(chosen, listing.MOST_LINES):
            raise Differs("listing: %r of %d lines" % (said, len(lines)))
        return lines

    def at(self, played, tick):
        """The registers and the memory of a replay that ends in front of a tick."""
        self.good([b"%d" % tick if place == 3 else word for place, word in enumerate(played)], "replay to a start")
        side = played[1]
        registers = re.search(side + rb" PC=([0-9A-F]{4}) (" + listing.REGISTERS + b")", content(b"played.report", CAP))
        return int(registers.group(1), 16), registers.group(2), content(b"played." + side, CAP)

    def look_at_choice(self, words, found, every, choices, played):
        """The lines are those of all that are chosen: by their tick, by their address, and by a byte of memory that changed since the start before."""
        early = choices.get("--from", 0)
        if "--watch" not in choices:
            if found != tuple(line for line in every if line[0] >= early and is_there(choices, line[1].pc)):
                raise Differs("choice: other lines")
            return
        if any(tick < early or not is_there(choices, start.pc) for tick, start in found):
            raise Differs("choice: a line at another address or tick")
        if not set(found) <= set(every) or (every and every[0] in found):
            raise Differs("choice: lines that are not of the listing, or the first")
        known = choices["--watch"] < (0x8000 if words.alone["side"] == b"host" else 0xF800)
        places = {every.index(line) for line in found[:1]} | {len(every) // 2, len(every) - 1}
        for place in places if known else []:
            if place > 0 and every[place][0] >= early and is_there(choices, every[place][1].pc):
                before, here = (self.at(played, every[n][0])[2][choices["--watch"]] for n in (place - 1, place))
                if (before != here) != (every[place] in found):
                    raise Differs("choice: at %010X the byte was %02X and is %02X" % (every[place][0], before, here))

    def look_at_starts(self, every, played, host):
        """Some lines must agree with a replay that ends there: registers, and bytes of memory as they are
        disassembled. It looks at the first two, right after the reset, in one listing of eight."""
        for place in sorted({len(every) // 3, len(every) - 1} | (set() if len(every) % 8 else {0, 1})):
            if not 0 <= place < len(every):
                continue
            tick, start = every[place]
            pc, registers, memory = self.at(played, tick)
            if (pc, registers) != (start.pc, start.registers):
                raise Differs("start: at %010X a replay has PC=%04X %r, not %r" % (tick, pc, registers, start))
            if (pc + 2 < 0x8000) if host else (pc + 2 < 0xF800):
                put(b"bytes", memory[pc : pc + 3])
                self.good([b"dis", b"6502" if host else b"65c02", b"bytes", b"%04X" % pc, b"text"], "dis of what stands there")
                if content(b"text", CAP).split(b"\n")[1].decode() != start.text:
                    raise Differs("start: at %010X stands %r, not %r" % (tick, content(b"text", CAP), start.text))

    def other(self, again, words, name, outputs, what):
        """These words, with another name for the outputs, write the same files."""
        out = words.alone["out"]
        place = [place for place, word in enumerate(again) if word == out and not again[place - 1].startswith(b"-")]
        if len(place) != 1:
            return
        again[place[0]] = name
        # An output with a name of its own is written under a second name too.
        others = {}
        for option in NAMED:
            if option in words.values:
                others[words.values[option]] = again[again.index(option.encode()) + 1] = name + b"." + option[2:].encode()
        self.good(again, what)
        for file in outputs:
            if content(file, CAPS["trace"]) != content(others.get(file, name + file[len(out) :]), CAPS["trace"]):
                raise Differs("%s: they write another %r" % (what, file))


class Differs(Exception):
    pass


def are_apart(names):
    """No two of these are the same name."""
    return len({path_of(name) for name in names}) == len(names)


def does(files, session, ticks):
    """A run that wrote these files has the accesses of the session up to its moment, and no others."""
    said = session_file.trace(session.clock, session.entries)
    rest = files[b".trace"][len(said) :]
    is_whole = int(rest[:10], 16) >= session.ticks if rest else re.search(rb"^tube ([0-9]+)\nkept \1$", files[b".report"], re.M)
    return ticks >= session.ticks and files[b".trace"].startswith(said) and is_whole


def different(found, wanted):
    """The ends of the files that are not in both with the same bytes."""
    return sorted(end for end in set(found) | set(wanted) if found.get(end) != wanted.get(end))


# --- The inputs ---


class Chance(random.Random):
    """Makes small numbers in fewer steps; some are a little more often than others."""

    def choice(self, values):
        return values[int(self.random() * len(values))]

    def randrange(self, first, end=None):
        first, end = (0, first) if end is None else (first, end)
        return first + int(self.random() * (end - first)) if 0 < end - first < 2**40 else super().randrange(first, end)


def examples(*ends):
    found = {}
    for name in sorted(os.listdir(TOP + "/examples")):
        if name.endswith(ends):
            with open(TOP + "/examples/" + name, "rb") as file:
                found[name.encode()] = file.read()
    return found


BYTES = [bytes([n]) for n in (0, 9, 10, 13, 32, 45, 48, 57, 65, 70, 127, 128, 195, 255)]
TOKENS = {
    "trace": [b"T2\n", b"0000000000 H R 0 40\n", b"FFFFFFFFFF P W 7 FF\n", b"00000000C8 H X 0 00\n", b"0000000000 P X 0 00\n", b" H ", b" P ", b"X"],
    "keys": [b"at ", b"down ", b"up ", b"shot", b"break", b"adc ", b"adc 3 FFF0\n", b"adc 4 0000\n", b"at 0 shot\n", b"at 1073741824 shot\n", b"at 1073741825 break\n", b" 7F", b" 80", b"007"],
    "source": [b"org &FFFF\n", b"byte 0", b"word &FFFF,a", b"a:", b"<", b">", b"+65535", b"&10000", b"100000", b"(&70),Y", b"JMP (a)", b";", b"\t", b"ASL A"],
    "image": [b"\x00\xff", b"\x80\xfe", b"\xd0\x80", b"\x10\x7f", b"\x6c", b"\x02", b"\x20\x00\xc0"],
}
NAMES = [b"os", b"tube", b"rom", b"font", b"disc", b"two.dsd", b"keys", b"trace", b"source", b"image", b"missing", b"dir", b"dir/in", b"nowhere/out", b"a b",
         "é".encode(), b"\xff", b"", b"-", b"--", b".", b"..", b"out", b"dir/", b"os/", b"line\nfeed", b"n" * 255, b"n" * 256, b"d/" * 2100 + b"x", b"~", b"*"]
NUMBERS = [0, 1, 2, 7, 8, 9, 255, 256, 2000, 65535, 65536, 4194304, 4194305, 1073741824, 1073741825, 2**32, 2**63, 2**64 - 1, 2**64, 10**40]


def mutate(r, text, kind, most=20000):
    """Some changes of a text: of bytes, of digits, of lines, of parts, and with what its form has."""
    text = bytearray(text[:most])
    for _ in range(r.choice((1, 1, 1, 2, 3, 8))):
        at = r.randrange(len(text) + 1)
        end = min(len(text), at + r.choice((1, 1, 2, 5, 20, 100)))
        how = r.randrange(9)
        if how == 0 and text:
            at = r.randrange(len(text))
            text[at] ^= 1 << r.randrange(8)
        elif how == 1:
            del text[at:end]
        elif how == 2:
            text[at:at] = text[at:end]
        elif how == 3:
            text[at:at] = r.choice(TOKENS[kind])
        elif how == 4:
            text[at : at + 1] = r.choice(BYTES)
        elif how == 5:
            digits = [found.span() for found in re.finditer(rb"[0-9A-F]+", bytes(text[at : at + 200]))]
            if digits:
                first, last = r.choice(digits)
                digit = r.randrange(at + first, at + last)
                text[digit] = r.choice(b"0123456789ABCDEF")
        elif how == 6:
            lines = bytes(text).splitlines(keepends=True)
            if lines:
                one, other = r.randrange(len(lines)), r.randrange(len(lines))
                lines[one], lines[other] = lines[other], lines[one]
                text = bytearray(b"".join(lines))
        elif how == 7:
            lines = bytes(text).splitlines(keepends=True)
            if lines:
                lines.insert(r.randrange(len(lines) + 1), r.choice(lines))
                text = bytearray(b"".join(lines))
        else:
            del text[at:]
    return bytes(text)


def a_trace(r, base):
    if r.random() < 0.5:
        text = r.choice(base["traces"])
        if r.random() < 0.2:
            return text[: len(text) % 20 + 20 * r.randrange(200)]
        return mutate(r, text, "trace")
    lines, tick = [], r.choice((0, 1, 2**40 - 200, r.randrange(5000)))
    for _ in range(r.randrange(40)):
        side = r.choice("HP")
        tick = min(2**40 - 1, tick + r.choice((0, 1, 1, 2, 3, 40, 1000)))
        what = r.choice("RRRWWWWX")
        lines.append("%010X %s %s\n" % (tick, side, "X 0 00" if what == "X" else "%s %d %02X" % (what, r.randrange(8), r.choice((0, 0x40, 0xC0, r.randrange(256))))))
        tick += 1 if r.random() < 0.95 else 0
    text = (("T2\n" if r.random() < 0.2 else "") + "".join(lines)).encode()
    return mutate(r, text, "trace") if r.random() < 0.2 else text


def a_script(r, base, ticks):
    if r.random() < 0.3:
        return mutate(r, r.choice(base["scripts"]), "keys")
    lines, tick, shots = [], 0, r.choice((0, 0, 0, 0, 0, 1, 1, 2, 3))
    for _ in range(r.randrange(12)):
        tick += r.choice((0, 1, 7, r.randrange(max(1, ticks // 4)), r.randrange(3000)))
        what = r.choice(("down", "down", "up", "up", "break", "shot", "adc"))
        if what == "shot":
            shots -= 1
            if shots < 0:
                continue
        lines.append("at %d %s" % (tick, what + ending(r, what)))
    if r.random() < 0.1:
        lines += ["at %d shot" % max(tick, ticks + 1)] * r.choice((252, 256, 257, 300))
    text = ("\n".join(lines) + "\n").encode() if lines else b""
    return mutate(r, text, "keys") if r.random() < 0.15 else text


MNEMONICS = ("adc and asl bcc bcs beq bit bmi bne bpl brk bvc bvs clc cld cli clv cmp cpx cpy dec dex dey eor inc inx iny jmp jsr lda ldx ldy lsr nop ora pha "
             "php pla plp rol ror rti rts sbc sec sed sei sta stx sty tax tay tsx txa txs tya bra phx phy plx ply stz trb tsb wai stp").split()


def a_value(r):
    value = r.choice(("%d" % r.choice(NUMBERS[:14]), "&%X" % r.randrange(65536), "&%02X" % r.randrange(256), "&%04X" % r.randrange(256), "c", "b", "loop", "c+%d" % r.randrange(70000), "b + 1"))
    return r.choice(("", "", "", "", "<", ">")) + value


# Lines that most often have a form and a value within its range: B is a byte, W a word, L a label.
CAREFUL = ("LDA #B|lda B|STA B,X|LDX B,Y|LDA W,Y|JMP (W)|JSR L|JMP L|BNE L|BCC L|ASL A|ROR B|INC W,X|LDA (B),Y|STA (B,X)|byte B|byte B,B,<L,>L|word L,W|word L+B|RTS|"
           "LDA <L|LDA #>L|TXA|BIT W|CMP #<L|ADC L,X|EOR L").split("|")


def a_careful_source(r):
    lines = ["at:", "b: RTS", "loop:"]
    lines[r.randrange(4) : 0] = ["org &%04X" % r.choice((0, 0x70, 0x1900, 0xC000, 0xFF80))] if r.random() < 0.8 else []
    for _ in range(r.randrange(60)):
        line = r.choice(CAREFUL)
        for mark, values in (("B", lambda: r.choice(("&%02X", "%d")) % r.randrange(256)), ("W", lambda: "&%04X" % r.randrange(65536)), ("L", lambda: r.choice(("at", "b", "loop")))):
            if mark in line:
                line = re.sub(r"(?<![A-Z])%s(?![A-Z])" % mark, lambda found: values(), line)
        lines.insert(r.randrange(1 if lines[0].startswith("org") else 0, len(lines) + 1), r.choice(("", "\t", " ")) + line)
    return ("\n".join(lines) + "\n").encode()


def a_source(r, base):
    if r.random() < 0.4:
        text = a_careful_source(r)
        return mutate(r, text, "source") if r.random() < 0.2 else text
    if r.random() < 0.5:
        return mutate(r, r.choice(base["sources"]), "source")
    lines = ["org &%04X" % r.choice((0, 0x1900, 0xC000, 0xFFF0, r.randrange(65536)))] if r.random() < 0.7 else []
    labels = ["c", "b", "loop", "LDA", "X1", "a"]
    forms = ("", " A", " #%s", " %s", " %s", " %s,X", " %s,Y", " (%s)", " (%s,X)", " (%s),Y")
    for _ in range(r.randrange(30)):
        line = labels.pop(0) + ": " if labels and r.random() < 0.2 else ""
        how = r.randrange(12)
        if how == 0:
            line += "byte " + ",".join(a_value(r) for _ in range(r.randrange(1, 6)))
        elif how == 1:
            line += "word " + ", ".join(a_value(r) for _ in range(r.randrange(1, 4)))
        elif how == 2:
            line += "org " + r.choice(("&%04X" % r.randrange(65536), "%d" % r.choice(NUMBERS[:12])))
        else:
            name = r.choice(MNEMONICS)
            form = r.choice(forms)
            line += (name.upper() if r.random() < 0.5 else name) + (form % a_value(r) if "%" in form else form)
        lines.append(line + (" ; text" if r.random() < 0.1 else ""))
    text = ("\n".join(lines) + r.choice(("\n", ""))).encode()
    return mutate(r, text, "source") if r.random() < 0.2 else text


def an_image(r, base):
    how = r.randrange(4)
    if how == 0:
        return mutate(r, r.choice(base["images"]), "image")
    if how == 1:
        return bytes(r.randrange(256) for _ in range(r.choice((0, 1, 2, 3, 4, 5, 10, 100, 1000))))
    if how == 2:
        return r.randbytes(r.choice((256, 4096, 65535, 65536, 65537)) if r.random() < 0.05 else r.randrange(300))
    return bytes(r.choice((0x10, 0x80, 0xD0, 0x6C, 0x02, 0xFF, 0, r.randrange(256))) for _ in range(r.randrange(60)))


def a_program(r, low, registers, others, length, vectors):
    """A ROM with a made-up program: accesses to the Tube and to other devices, loops, and any bytes."""
    rom = bytearray(r.choice((0, 0xEA, 0xFF)) for _ in range(1)) * length
    code = bytearray()
    while len(code) < r.choice((20, 60, 150, 240)):
        how = r.randrange(16)
        register = r.choice(registers)
        word = register.to_bytes(2, "little")
        if how < 3:
            code += bytes((0xA9, r.randrange(256), 0x8D)) + word
        elif how < 5:
            code += b"\xad" + word + r.choice((b"", b"\x85\x70", b"\x9d\x00\x04\xe8"))
        elif how == 5:
            code += b"\x2c" + word + bytes((r.choice((0x10, 0x30, 0x50, 0x70)), 0xFB))
        elif how == 6:
            code += bytes((0xA9, r.randrange(256), 0x8D)) + r.choice(others).to_bytes(2, "little")
        elif how == 7:
            code += b"\xad" + r.choice(others).to_bytes(2, "little")
        elif how == 8:
            code += r.choice((b"\x58", b"\x78", b"\x48", b"\x68", b"\xe8", b"\xca", b"\x18", b"\xf8", b"\x08", b"\x28"))
        elif how == 9:
            code += bytes((0xA2, r.randrange(1, 40), 0xCA, 0xD0, 0xFD))
        elif how == 10:
            code += bytes((0x4C,)) + (low + r.randrange(len(code) + 1)).to_bytes(2, "little")
        elif how == 11:
            code += bytes((r.choice((0xD0, 0xF0, 0x90, 0xB0, 0x10, 0x30, 0x80)), r.choice((0x02, 0xF8, 0xFE, 0xF0))))
        elif how == 12:
            code += r.choice((b"\xa9\x40\x9d\x00\x7c", b"\xee\x71\x00", b"\x20" + (low + 0x200).to_bytes(2, "little"), b"\x40", b"\x60"))
        elif how == 13:
            code += r.randbytes(3) if r.random() < 0.3 else b"\xea"
        else:
            code += b"\xa9" + bytes((r.choice((0x81, 0x8F, 0xC0, 0x02, 0x04, 0x08, 0x10, 0x20, 0x40)),)) + b"\x8d" + registers[0].to_bytes(2, "little")
    code += b"\x4c" + low.to_bytes(2, "little")
    rom[0 : len(code)] = code
    rom[0x200:0x208] = r.choice((b"\x48\xad" + registers[1].to_bytes(2, "little") + b"\x68\x40\xea\xea", b"\x60\x40\x40\x40\x40\x40\x40\x40", b"\x40\x60\x60\x60\x60\x60\x60\x60"))
    for place, vector in zip(vectors, (low + 0x200, low, low + 0x200)):
        rom[place : place + 2] = vector.to_bytes(2, "little")
    return bytes(rom)


def an_os(r, base):
    how = r.random()
    if how < 0.3:
        return r.choice(base["oses"])
    if how < 0.35:
        return r.randbytes(16384)
    others = [0xFE00, 0xFE01, 0xFE20, 0xFE21, 0xFE30, 0xFE34, 0xFE80, 0xFE84, 0xFE85, 0xFE86, 0xFE87, 0xFC10, 0xFCFF, 0xFD00, 0xFDFF, 0xFEC0]
    others += [0xFE40 + n for n in range(16)] + [0xFE60 + n for n in range(16)] + [0xFC00 + r.randrange(768)]
    return a_program(r, 0xC000, [0xFEE0 + n for n in range(8)], others, 16384, (0x3FFA, 0x3FFC, 0x3FFE))


def a_tube(r, base):
    how = r.random()
    if how < 0.3:
        return r.choice(base["tubes"])
    if how < 0.35:
        return r.randbytes(2048)
    return a_program(r, 0xF800, [0xFEF8 + n for n in range(8)], [0xFEF0, 0x0100, 0xF900, 0x0070], 2048, (0x7FA, 0x7FC, 0x7FE))


def some_ticks(r):
    how = r.random()
    if how < 0.001:
        return r.randrange(3000000)
    return r.randrange(300000) if how < 0.02 else r.choice((0, 1, 2, 3, r.randrange(100), r.randrange(2000), r.randrange(8000), r.randrange(20000)))


def put_options(r, words, options):
    """The options come anywhere after the command's name, or after all arguments."""
    for option in options:
        place = len(words)
        if r.random() < 0.1:
            places = [n for n in range(1, len(words) + 1) if not words[n - 1].startswith(b"-")]
            place = r.choice(places)
        words[place:place] = [part if isinstance(part, bytes) else str(part).encode() for part in option]
    return words


def pair(r, base, command=b"solo"):
    """A run of both machines, with some of the options."""
    ticks = some_ticks(r)
    files = {b"os": an_os(r, base), b"tube": a_tube(r, base)}
    options = [(b"--os", b"os"), (b"--tube", b"tube")]
    if r.random() < 0.4:
        files[b"keys"] = a_script(r, base, ticks)
        options.append((b"--keys", b"keys"))
    for drive in (0, 1):
        if r.random() < 0.15:
            name = r.choice((b"disc", b"two.dsd"))
            files[name] = r.randbytes(r.choice((0, 1, 255, 256, 2560, 10000, 204800, 204801, 409600, 409601) if r.random() < 0.3 else (1024, 5000)))
            options.append((b"--disc%d" % drive, name))
    if r.random() < 0.15:
        files[b"rom"] = r.randbytes(r.choice((8192, 16384, 16384, 8191, 0)))
        options.append((b"--rom%d" % r.randrange(16), b"rom"))
    if r.random() < 0.1:
        files[b"font"] = r.randbytes(r.choice((960, 960, 960, 959)))
        options.append((b"--font", b"font"))
    if r.random() < 0.2:
        options.append((b"--plugs", r.randrange(10)))
    if r.random() < 0.2:
        options.append((b"--keep", r.choice((0, 1, 2, 5, r.randrange(200), 4194304, 4194305))))
    if r.random() < 0.3:
        options.append((b"--speed", r.choice((3, 4, 4, 4))))
    if r.random() < 0.2:
        options.append((b"--wav", r.choice((b"wave", b"wave", b"dir/wave", b"out.report", b"-"))))
    if r.random() < 0.3:
        options.append((b"--save", r.choice((b"saved", b"saved", b"saved", b"saved", b"dir/saved", b"os", b"out.trace", b"wave", b"nowhere/saved"))))
    r.shuffle(options)
    return put_options(r, [command, b"%d" % ticks, b"out"], options), files


def of_words(r, base):
    """Words of any command, changed."""
    # What `gen` makes takes long, and is of one form.
    command = r.choice([command for command in COMMANDS for _ in range(1 if command == "gen" else 4)])
    if command in PAIRS:
        words, files = pair(r, base, command.encode())
    elif command in ("replay", "follow", "resume"):
        words, files = {"replay": of_replay, "follow": of_follow, "resume": of_session}[command](r, base)
    else:
        values = {"part": b"6502", "source": b"source", "image": b"image", "trace": b"trace", "out": b"out", "origin": b"C000", "seed": b"1"}
        words = [command.encode()] + [values[kind] for kind in COMMANDS[command].split()]
        files = {b"source": a_source(r, base), b"image": an_image(r, base), b"trace": a_trace(r, base)}
    files[b"dir/in"] = b""
    for _ in range(r.choice((0, 1, 1, 1, 2, 3))):
        at = r.randrange(len(words)) if words else 0
        how = r.randrange(8)
        if how == 0:
            del words[at : at + 1]
        elif how == 1:
            words.insert(at, r.choice(words or [b""]))
        elif how < 4:
            words[at : at + 1] = [r.choice(NAMES)]
        elif how == 4:
            words[at : at + 1] = [r.choice((b"%d", b"0%d", b"+%d", b"%d ", b"-%d", b"%dx")) % r.choice(NUMBERS)]
        elif how == 5:
            words[at:at] = [r.choice(list(OPTIONS)).encode(), r.choice(NAMES + [b"3", b"4", b"1"])]
        elif how == 6 and words:
            word = bytearray(words[at])
            place = r.randrange(len(word) + 1)
            word[place : place + 1] = r.choice(BYTES[1:])
            words[at] = bytes(word)
        else:
            words[at : at + 1] = [r.choice(list(COMMANDS) + ["host", "para", "6502", "65c02", "65C02", "--help", "-h", "FFFF", "ffff"]).encode()]
    # A long run is no matter of the words.
    words = [word if number(word, MOST_TICKS) is None or int(word) < 3000000 else b"2000" if command != "gen" else word for word in words]
    return words, files


def of_replay(r, base, command=b"replay", whole=0.3):
    side = r.choice((b"host", b"para"))
    trace, os_rom, tube_rom, ticks, clock = r.choice(base["runs"])
    files = {b"os": os_rom, b"tube": tube_rom, b"trace": trace if r.random() < whole else mutate(r, trace, "trace") if r.random() < 0.7 else a_trace(r, base)}
    words = [command, side, b"trace", b"%d" % (ticks if r.random() < 0.6 else r.randrange(ticks + ticks // 8)), b"out"]
    options = [(b"--os", b"os")] if side == b"host" else [(b"--tube", b"tube")]
    if clock == 4 or r.random() < 0.05:
        options.append((b"--speed", clock if r.random() < 0.9 else r.choice((3, 4))))
    if side == b"host" and r.random() < 0.2:
        files[b"keys"] = a_script(r, base, ticks)
        options.append((b"--keys", b"keys"))
    if side == b"host" and r.random() < 0.25 or r.random() < 0.01:
        # A host by itself, mostly with an empty trace, and with an image that may have anything at FEE0.
        options.append((b"--no-tube",))
        if r.random() < 0.9:
            files[b"trace"] = b""
        if r.random() < 0.7:
            files[b"os"] = an_os(r, base)
    return put_options(r, words, options), files


def some_points(r, low):
    """A file of addresses, sometimes with a line that is outside the form or does not rise."""
    points = sorted(r.sample(range(low, low + 0x100), r.choice((0, 1, 5, 100, 200))) + r.sample(range(low), r.randrange(20)))
    lines = [b"%04X\n" % point for point in points]
    if lines and r.random() < 0.1:
        lines[r.randrange(len(lines))] = r.choice((b"", b"\n", b"%04x\n" % 0xABCD, b"C000", b"0C000\n", b"C000\r\n", lines[0], b"G000\n", b"\xff"))
    return b"".join(lines)


def of_follow(r, base):
    words, files = of_replay(r, base, b"follow", 0.8)
    low = 0xC000 if b"--os" in words else 0xF800
    options = []
    if r.random() < 0.3:
        options.append((b"--at", b"%04X" % r.choice((low, low + r.randrange(0x40), low + r.randrange(0x100), 0xFEF8, 0, r.randrange(65536)))))
    if r.random() < (0.02 if options else 0.3):
        options.append((b"--points", b"points"))
        files[b"points"] = some_points(r, low)
    if r.random() < 0.5:
        options.append((b"--counts",))
    if r.random() < 0.3:
        options.append((b"--watch", b"%04X" % r.choice((0x70, 0x71, 0x80, 0x100 + r.randrange(256), low, 0x7C00 + r.randrange(1000), 0xFC00, 0xFEF8, 0xFF00, 0xFFFF, r.randrange(65536)))))
    if r.random() < 0.3:
        ticks = int(words[3]) if words[3].isdigit() else 2000
        options.append((b"--from", r.choice((0, 21, ticks // 2, r.randrange(ticks + 1), max(0, ticks - r.randrange(100)), ticks, MOST_TICKS, MOST_TICKS + 1))))
    return put_options(r, words, options), files


def a_session(r, base):
    """A session, most often of a run of the examples, with some parts more; of others the entries differ from what its machines do."""
    trace, os_rom, tube_rom, ticks, clock = r.choice(base["runs"])
    ticks = r.choice((ticks, ticks, r.randrange(ticks + 1), r.randrange(200)))
    parts = {"--os": os_rom, "--tube": tube_rom}
    dsd = set()
    if r.random() < 0.2:
        parts["--rom%d" % r.randrange(16)] = r.randbytes(r.choice((8192, 16384)))
    if r.random() < 0.1:
        parts["--font"] = r.randbytes(960)
    for disc in session_file.DISCS:
        if r.random() < 0.15:
            parts[disc] = r.randbytes(r.choice((0, 1, 255, 256, 1024, 2560, 5000)))
            if r.random() < 0.05:
                parts[disc] += bytes(r.choice((204800, 204801, 409600)) - len(parts[disc]))
            if r.random() < 0.4 or len(parts[disc]) > session_file.LARGEST_SSD:
                dsd.add(disc)
    if r.random() < 0.3:
        parts["--keys"] = a_script(r, base, ticks)
    entries = [entry for entry in session_file.entries_of(trace) if entry.tick < ticks]
    session = session_file.Session(clock, ticks, r.choice((0, 0, 0, 1, 2, 3, 8)), parts, dsd, entries)
    while r.random() < 0.35:
        session = session_file.Session(*a_change(r, base, *session))
    return session


def a_change(r, base, clock, ticks, plugs, parts, dsd, entries):
    """Changes one thing of a session; what comes of it may be no session any more."""
    how, entries = r.randrange(10), list(entries)
    place = r.randrange(len(entries)) if entries else None
    if how == 0:
        ticks = min(2**32 - 1, max(0, r.choice((ticks + 1, ticks + r.randrange(3000), ticks - r.randrange(100), entries[-1].tick if entries else 0, MOST_TICKS, MOST_TICKS + 1))))
    elif how == 1 and entries:
        entries[place] = entries[place]._replace(byte=r.choice((0, entries[place].byte ^ 1 << r.randrange(8))))
    elif how == 2 and entries:
        entries[place] = entries[place]._replace(tick=max(0, entries[place].tick + r.choice((-1, 1, r.randrange(-30, 30)))))
    elif how == 3 and entries:
        entries[place] = entries[place]._replace(**r.choice(({"register": r.randrange(8)}, {"side": "P"}, {"side": "H"}, {"what": "X", "register": 0, "byte": 0}, {"what": "W"}, {"what": "R"})))
    elif how == 4 and entries:
        del entries[place : place + r.choice((1, 1, 2, len(entries)))]
    elif how == 5 and entries:
        entries.insert(place, entries[place])
    elif how == 6:
        entries.append(session_file.Entry(min(2**40 - 1, r.choice((ticks - 1 if ticks else 0, ticks, entries[-1].tick + 1 if entries else 0))), r.choice("HP"), "R", r.randrange(8), r.choice((0x40, 0x3F, r.randrange(256)))))
    elif how == 7:
        parts = {**parts, **r.choice(({"--os": an_os(r, base)}, {"--tube": a_tube(r, base)}, {"--keys": a_script(r, base, max(1, ticks))}, {"--font": r.randbytes(r.choice((0, 959, 960, 961)))}))}
    elif how == 8:
        plugs, clock = r.choice((plugs, 8, 9, 255)), r.choice((3, 4, clock, clock, 2, 5))
    else:
        parts = {option: part for option, part in parts.items() if r.random() < 0.8}
    return clock, ticks, plugs, parts, dsd, entries


def of_session(r, base):
    session = a_session(r, base)
    text = session_file.encode(session)
    how = r.random()
    if how < 0.15:
        # A field, mostly one of those before an image.
        small = [field for field in session_file.places(text) if 0 < field[1] < 8]
        begin, length = r.choice(small[:40] if r.random() < 0.6 else small)
        value = r.choice((0, 1, 3, 4, 255, 2 ** (8 * length) - 1, session_file.number(text[begin : begin + length]) + r.choice((-1, 1)), 8192, 16384, 204801, 409601, 1048577, 4194305, MOST_TICKS + 1))
        text = text[:begin] + (value % 2 ** (8 * length)).to_bytes(length, "big") + text[begin + length :]
    elif how < 0.2:
        begin, length = r.choice(session_file.places(text))
        text = text[: begin + r.choice((0, 0, 1, length - 1, length // 2))] if length else text
    elif how < 0.24:
        text += r.choice((b"\0", b"\xff", text[-7:], r.randbytes(r.randrange(1, 30))))
    elif how < 0.3:
        at = r.randrange(len(text))
        text = text[:at] + bytes((text[at] ^ 1 << r.randrange(8),)) + text[at + 1 :]
    elif how < 0.31:
        text = r.choice((b"", b"BTUB", b"BTUB\1", text[:11], b"BTUC" + text[4:], text * 2, b"T2\n" + text))
    ticks = max(0, r.choice((session.ticks, session.ticks - 1, session.ticks + 1, session.ticks + r.randrange(5000), r.randrange(min(session.ticks, 20000) + 1), 0, r.randrange(20000))))
    words = [b"resume", b"state", b"%d" % min(ticks, 3000000), b"out"]
    options = []
    if r.random() < 0.2:
        options.append((b"--keep", r.choice((0, 1, 2, 5, r.randrange(200), 4194304, 4194305))))
    if r.random() < 0.2:
        options.append((b"--wav", r.choice((b"wave", b"wave", b"dir/wave", b"state", b"out.host"))))
    if r.random() < 0.35:
        options.append((b"--save", r.choice((b"saved", b"saved", b"saved", b"state", b"wave", b"dir/saved", b"out.trace"))))
    if r.random() < 0.03:
        options.append((r.choice((b"--os", b"--plugs", b"--speed", b"--at", b"--from")), b"3"))
    return put_options(r, words, options), {b"state": text}


def of_check(r, base):
    return [b"check", b"trace"], {b"trace": a_trace(r, base)}


def of_source(r, base):
    return [b"asm", r.choice((b"6502", b"65c02")), b"source", b"out"], {b"source": a_source(r, base)}


def of_image(r, base):
    return [b"dis", r.choice((b"6502", b"65c02")), b"image", b"%04X" % r.choice((0, 0xC000, 0xFFF0, 0xFFFF, r.randrange(65536))), b"out"], {b"image": an_image(r, base)}


def of_seed(r, base):
    return [b"gen", b"%d" % r.choice(NUMBERS + [r.randrange(2**64)])], {}


def of_solo(r, base):
    return pair(r, base, r.choice((b"solo", b"solo", b"run")))


# Each kind of input: who makes it, how often, and the share of which more is asked (the same words twice; `run` beside `solo`, and both replays).
KINDS = {
    "words": (of_words, 100, 0.1),
    "check": (of_check, 50, 0.1),
    "replay": (of_replay, 40, 0.1),
    "source": (of_source, 50, 0.1),
    "image": (of_image, 50, 0.1),
    "pair": (of_solo, 80, 0.2),
    "session": (of_session, 75, 0.1),
    "follow": (of_follow, 50, 0.1),
    "seed": (of_seed, 1, 0.1),
}


def base_of(judge):
    """What inputs are made of: the examples, assembled, and runs of them."""
    sources = examples(".asm")
    base = {"traces": list(examples(".trace").values()), "scripts": list(examples(".keys").values()), "sources": list(sources.values()), "images": [], "oses": [], "tubes": [], "runs": []}
    judge.lay(sources)
    images = {}
    for name in sources:
        for part in (b"6502", b"65c02"):
            if judge.call([b"asm", part, name, b"image"])[0] == 0 and name[:-4] not in images:
                images[name[:-4]] = content(b"image", CAP)
    base["images"] = list(images.values())
    base["oses"] = [image for name, image in images.items() if name.endswith(b"-os") and len(image) == 16384]
    base["tubes"] = [image for name, image in images.items() if name.endswith(b"-tube") and len(image) == 2048]
    for name, ticks, clocks in ((b"letters", 2000, (3, 4)), (b"demo", 5000, (3, 4)), (b"type", 6000, (3, 4)), (b"keys", 6000, (3, 4)), (b"type", 20000, (4,)), (b"keys", 12000, (3,))):
        for clock in clocks:
            judge.lay({b"os": images[name + b"-os"], b"tube": images[name + b"-tube"]})
            judge.good([b"solo", b"%d" % ticks, b"out", b"--os", b"os", b"--tube", b"tube", b"--speed", b"%d" % clock], "solo of the examples")
            trace = content(b"out.trace", CAPS["trace"])
            base["runs"].append((trace, images[name + b"-os"], images[name + b"-tube"], ticks, clock))
            base["traces"].append(trace[:4000 - 4000 % 20 + (3 if clock == 4 else 0)])
    return base


def case_of(seed, place, base, only):
    r = Chance("%d %d" % (seed, place))
    kind = r.choices(list(KINDS), [weight for _, weight, _ in KINDS.values()])[0]
    kind = only or kind
    words, files = KINDS[kind][0](r, base)
    return Case(kind, words, files, r.random() < KINDS[kind][2])


# --- Findings ---


def difference(judge, case):
    try:
        judge.judge(case)
    except Differs as found:
        return str(found)
    return None


def smaller(judge, case, what, tries=300):
    """A case that is smaller and differs in the same way: fewer options, shorter files."""
    def same(other):
        nonlocal tries
        tries -= 1
        found = difference(judge, other)
        return found is not None and found.split(":")[0] == what.split(":")[0]

    place = 1
    while place + 1 < len(case.words) and tries > 0:
        other = case._replace(words=case.words[:place] + case.words[place + 2 :])
        if case.words[place].startswith(b"--") and same(other):
            case = other
        else:
            place += 1
    for name in list(case.files):
        other = case._replace(files={key: text for key, text in case.files.items() if key != name})
        if same(other):
            case = other
            continue
        size = len(case.files[name]) // 2
        while size > 0 and tries > 0:
            place = 0
            while place < len(case.files[name]) and tries > 0:
                text = case.files[name][:place] + case.files[name][place + size :]
                other = case._replace(files={**case.files, name: text})
                if same(other):
                    case = other
                else:
                    place += size
            size //= 2
    return case


def keep(folder, case, seed, place, what, path):
    folder = os.path.join(folder, "%d-%d" % (seed, place))
    os.makedirs(folder + "/dir", exist_ok=True)
    for name, text in case.files.items():
        with open(os.path.join(os.fsencode(folder), name), "wb") as file:
            file.write(text)
    quoted = b" ".join(b"'" + word.replace(b"'", b"'\\''") + b"'" for word in case.words)
    with open(folder + "/again", "wb") as file:
        file.write(b"#!/bin/bash\n# " + what.replace("\n", " ").encode() + b"\ncd \"$(dirname \"$0\")\" && ${BEEBTUBE:-" + path.encode() + b"} " + quoted + b"; echo \"status $?\"\n")
    os.chmod(folder + "/again", 0o755)
    return folder


worker = {}


def begin(path, work, library, base, options):
    worker.update(path=path, work=work, library=library, base=base, options=options)
    gc.set_threshold(100000, 50, 1000)


def work_on(places):
    if "judge" not in worker:
        # A fault here is reported; a process that does not begin would be begun again and again.
        worker["judge"] = Judge(worker["path"], tempfile.mkdtemp(dir=worker["work"]), worker["library"])
    judge, options = worker["judge"], worker["options"]
    counts, finds = collections.Counter(), []
    judge.calls = 0
    for place in places:
        if options.until and time.time() > options.until:
            break
        case = case_of(options.seed, place, worker["base"], options.only)
        try:
            counts[case.kind, judge.judge(case)] += 1
        except Differs as found:
            counts[case.kind, "differs"] += 1
            least = smaller(judge, case, str(found))
            what = difference(judge, least) or str(found) + " (not again)"
            folder = keep(options.finds, least, options.seed, place, what, worker["path"])
            finds.append("%d of seed %d (%s): %s\n  %s" % (place, options.seed, case.kind, what, folder))
    counts["calls"] = judge.calls
    return counts, finds


def main():
    parser = argparse.ArgumentParser(description=__doc__, formatter_class=argparse.RawDescriptionHelpFormatter)
    parser.add_argument("--seed", type=int, default=1)
    parser.add_argument("--from", type=int, default=0, dest="first")
    parser.add_argument("--count", type=int)
    parser.add_argument("--seconds", type=float)
    parser.add_argument("-j", type=int, default=1)
    parser.add_argument("--only", choices=KINDS)
    parser.add_argument("--finds", default="finds", type=os.path.abspath)
    options = parser.parse_args()
    resource.setrlimit(resource.RLIMIT_CORE, (0, 0))
    count = options.count or (10**9 if options.seconds else 1000)
    begun = time.time()
    options.until = begun + options.seconds if options.seconds else None
    counts = collections.Counter()
    # The files of inputs are in memory, if there is such a folder.
    with tempfile.TemporaryDirectory(dir="/dev/shm" if os.access("/dev/shm", os.W_OK) and not os.environ.get("TMPDIR") else None) as work:
        path = program()
        library = calls.library(work)
        base = base_of(Judge(path, tempfile.mkdtemp(dir=work), library))
        chunks = (range(first, min(first + 50, options.first + count)) for first in range(options.first, options.first + count, 50))
        with multiprocessing.Pool(options.j, begin, (path, work, library, base, options)) as pool:
            waiting = collections.deque()
            while True:
                while len(waiting) < 2 * options.j and (options.until is None or time.time() < options.until):
                    chunk = next(chunks, None)
                    if chunk is None:
                        break
                    waiting.append(pool.apply_async(work_on, (chunk,)))
                if not waiting:
                    break
                more, finds = waiting.popleft().get()
                counts.update(more)
                for found in finds:
                    print(found, flush=True)
    called = counts.pop("calls", 0)
    for kind in KINDS:
        row = sorted((str(status), n) for (name, status), n in counts.items() if name == kind)
        if row:
            print("%s: %s" % (kind, ", ".join("%d with %s" % (n, status if status == "differs" else "status " + status) for status, n in row)))
    differ = sum(n for (_, status), n in counts.items() if status == "differs")
    print("inputs %d, calls %d, seconds %.0f, differ %d" % (sum(counts.values()), called, time.time() - begun, differ))
    sys.exit(1 if differ else 0)


if __name__ == "__main__":
    main()
