#!/usr/bin/env python3
"""surroundings.py [--all] [--page]: tries the program with what folders and systems hold: files that
are missing, empty, unreadable or too long, things that are no files, full disks, outputs that
cannot be written, and more. Each case has its arguments, the exit status and text by the table of
docs/COMMANDS.md, and the files that must be on disk afterwards. Every other file must be
unchanged.

Then it saves a session over itself and ends the program at a hundred moments of it. Fifty times
SIGXFSZ ends it when the written file has reached a given length, and fifty times SIGKILL at times
spread over the run. It prints how often the session was the old one, the new one, and neither;
the last is a fault.

It prints a line for each case that differs, for each that is known to differ and for each that
was skipped, and the counts. --all prints every case, and --page the tables of
docs/FILES-CASES.md. The status is 1 if a case differs. As root it also calls the program as
another user (setpriv) and mounts a small disk; otherwise it skips those cases.
"""
import os
import re
import resource
import shutil
import signal
import socket
import stat
import subprocess
import sys
import tempfile
import time

sys.dont_write_bytecode = True
import session_file  # noqa: E402
from program import TOP, program  # noqa: E402

LIMIT = 60  # seconds of a call
WAITS = 2  # seconds after which a call that waits for others is ended
BIG = 20 * 10**9
EXAMPLES = TOP + "/examples/"

cases = []


class Case:
    """A call and what is wanted of it. `changed` has each file that is written, with its bytes, a test of them, or None for a file that may have
    any or may lack; `before` prepares the folder; `how` are words of subprocess.run, and `command` is put before the program. `known` is what is
    promised where the program is known to do something else, which is then what is wanted."""

    def __init__(self, group, title, words, status, err=b"", out=b"", changed=None, before=None, how=None, command=(), needs=None, memory=None, page=None, known=None):
        self.group, self.title, self.words, self.status = group, title, [encoded(word) for word in words], status
        self.err, self.out, self.changed = encoded(err), encoded(out), changed or {}
        self.before, self.how, self.command, self.needs = before, how, command, needs
        self.memory, self.page, self.known = memory, page, known


def encoded(text):
    return text if isinstance(text, bytes) else os.fsencode(text)


def add(*values, **more):
    cases.append(Case(*values, **more))


# --- What the cases are made of ---


def text_of(name):
    with open(name, "rb") as file:
        return file.read()


def put(name, text=b"", length=None, mode=None):
    """A file of these bytes, or of this many zeros, which take no room."""
    def prepare():
        with open(name, "wb") as file:
            file.write(text)
            if length is not None:
                file.truncate(length)
        if mode is not None:
            os.chmod(name, mode)
    return prepare


def both(*steps):
    def prepare():
        for step in steps:
            step()
    return prepare


def link(target, name):
    return lambda: os.symlink(target, name)


def fifo(name, command=None):
    """A FIFO, and a command at its other end if one is said."""
    def prepare():
        os.mkfifo(name)
        if command:
            helpers.append(subprocess.Popen(["sh", "-c", command], stderr=subprocess.DEVNULL))
    return prepare


def closed(*numbers):
    """Words of a call without these of its standard files."""
    return {"command": ("sh", "-c", "exec \"$@\" " + " ".join("%d>&-" % number for number in numbers), "sh")}


AS_OTHER = ("setpriv", "--reuid=65534", "--regid=65534", "--clear-groups")
helpers = []
SOLO = ("--os", "os", "--tube", "tube")
ENDS = (".report", ".host", ".para", ".trace")


def solo(out, *options):
    return ("solo", "2000", out) + SOLO + options


def outputs(out, like="good", ends=ENDS):
    """The files of a run, each as it was written in plain surroundings."""
    return {out + end: wanted[like + end] for end in ends}


def script_of(length):
    """A good key script of exactly this length."""
    long, short = b"at 0 down 00\n", b"at 0 up 00\n"
    for shorts in range(13):
        if (length - 11 * shorts) % 13 == 0:
            return short * shorts + long * ((length - 11 * shorts) // 13)


def tell_cases():
    group = "Inputs that are not plain files"
    add(group, "missing", ["check", "missing"], 2, "cannot read missing")
    add(group, "missing, of a run", solo("out", "--keys", "missing"), 2, "cannot read missing")
    add(group, "missing, and the operating system has a wrong length", solo("out", "--keys", "missing", "--rom0", "tube"), 2, "cannot read missing")
    add(group, "in a folder that is missing", ["check", "nowhere/trace"], 2, "cannot read nowhere/trace")
    add(group, "in a file, as if it were a folder", ["check", "os/trace"], 2, "cannot read os/trace")
    add(group, "a folder", ["check", "folder"], 2, "cannot read folder")
    add(group, "a folder as a disc", solo("out", "--disc0", "folder"), 2, "cannot read folder")
    add(group, "without leave to read", ["check", "secret"], 2, "cannot read secret", before=put("secret", mode=0o000), command=AS_OTHER, needs="another user")
    add(group, "in a folder without leave to search", ["check", "shut/trace"], 2, "cannot read shut/trace",
        before=both(lambda: os.mkdir("shut"), put("shut/trace"), lambda: os.chmod("shut", 0o600)), command=AS_OTHER, needs="another user")
    add(group, "a link to a file", ["check", "to-trace"], 0, out="ok 5\n", before=link("nmi.trace", "to-trace"))
    add(group, "a link to nothing", ["check", "lost"], 2, "cannot read lost", before=link("nothing", "lost"))
    add(group, "a link that goes round", ["check", "round"], 2, "cannot read round", before=both(link("other", "round"), link("round", "other")))
    add(group, "a link to itself", ["asm", "6502", "self", "image"], 2, "cannot read self", before=link("self", "self"))
    add(group, "a FIFO with a writer", ["check", "fifo"], 0, out="ok 5\n", before=fifo("fifo", "cat nmi.trace >fifo"))
    add(group, "a FIFO whose writer is slow", ["check", "fifo"], 0, out="ok 5\n", before=fifo("fifo", "{ head -c 33 nmi.trace; sleep 0.3; tail -c +34 nmi.trace; } >fifo"))
    add(group, "a FIFO whose writer never ends", ["asm", "6502", "fifo", "image"], 2, "too long fifo", before=fifo("fifo", "exec yes >fifo"))
    add(group, "a FIFO without a writer", ["check", "fifo"], None, before=fifo("fifo"), page="waits for a writer")
    add(group, "standard input, a pipe", ["check", "/dev/stdin"], 0, out="ok 5\n", how={"input": text_of(EXAMPLES + "nmi.trace")})
    add(group, "a device with nothing", ["check", "/dev/null"], 0, out="ok 0\n")
    add(group, "a device without an end", ["dis", "6502", "/dev/zero", "0000", "text"], 2, "too long /dev/zero")
    add(group, "a socket", ["check", "socket"], 2, "cannot read socket", before=a_socket)
    add(group, "a file whose length the system does not give", ["asm", "6502", "/proc/version", "image"], 4, "bad source 1")

    group = "Empty and long inputs"
    add(group, "an empty trace", ["check", "empty"], 0, out="ok 0\n")
    add(group, "an empty source", ["asm", "6502", "empty", "image"], 0, changed={"image": b""})
    add(group, "an empty image", ["dis", "6502", "empty", "C000", "text"], 0, changed={"text": b"org &C000\n"})
    add(group, "an empty operating system", ["solo", "2000", "out", "--os", "empty", "--tube", "tube"], 3, "bad image os 0")
    add(group, "an empty paged ROM", solo("out", "--rom15", "empty"), 3, "bad image rom15 0")
    add(group, "an empty font", solo("out", "--font", "empty"), 3, "bad image font 0")
    add(group, "an empty disc", solo("out", "--disc1", "empty"), 0, changed={**outputs("out"), "out.d1": b""})
    add(group, "an empty key script", solo("out", "--keys", "empty"), 0, changed=outputs("out"))
    add(group, "a trace of its cap", ["check", "long"], 4, "bad trace 1", before=put("long", length=100663296), memory=250)
    add(group, "one byte more", ["check", "long"], 2, "too long long", before=put("long", length=100663297), memory=250)
    add(group, "a good trace of its cap less 16 bytes", ["check", "long"], 0, out="ok 5033164\n",
        before=put("long", b"".join(b"%010X H R 0 40\n" % n for n in range(5033164))), memory=1200)
    add(group, "a source of its cap", ["asm", "6502", "long", "image"], 0, changed={"image": b"\x60"}, before=put("long", b"RTS\n" + b"\n" * (4194304 - 4)))
    add(group, "one byte more", ["asm", "6502", "long", "image"], 2, "too long long", before=put("long", b"RTS\n" + b"\n" * (4194305 - 4)))
    add(group, "an image of its cap", ["dis", "6502", "long", "0000", "text"], 3, "bad image image 1048576", before=put("long", length=1048576))
    add(group, "one byte more", ["dis", "6502", "long", "0000", "text"], 2, "too long long", before=put("long", length=1048577))
    add(group, "an image of all memory", ["dis", "6502", "long", "0000", "text"], 0, changed={"text": lambda text: text.count(b"\n") == 65537 and text.endswith(b"\nBRK\n")},
        before=put("long", length=65536))
    add(group, "one byte more", ["dis", "6502", "long", "0000", "text"], 3, "bad image image 65537", before=put("long", length=65537))
    add(group, "a key script of its cap", solo("out", "--keys", "long"), 0, changed=outputs("out"), before=put("long", script_of(1048576)))
    add(group, "one byte more", solo("out", "--keys", "long"), 2, "too long long", before=put("long", script_of(1048577)))
    for name, length in (("disc", 204800), ("disc.dsd", 409600)):
        add(group, "a disc of its kind's length, `%s`" % name, solo("out", "--disc0", name), 0, changed={**outputs("out"), "out.d0": b"\0" * length}, before=put(name, length=length))
        add(group, "one byte more", solo("out", "--disc0", name), 3, "bad image disc0 %d" % (length + 1), before=put(name, length=length + 1))
    add(group, "a disc of its cap", solo("out", "--disc0", "long"), 3, "bad image disc0 1048576", before=put("long", length=1048576))
    add(group, "one byte more", solo("out", "--disc0", "long"), 2, "too long long", before=put("long", length=1048577))
    add(group, "an operating system of one byte more", ["solo", "2000", "out", "--os", "long", "--tube", "tube"], 3, "bad image os 16385", before=put("long", length=16385))
    for title, words in (("a trace", ["check", "long"]), ("a source", ["asm", "6502", "long", "image"]), ("an image", ["dis", "6502", "long", "0000", "text"]),
                         ("a disc", solo("out", "--disc0", "long")), ("the trace of a replay", ["replay", "para", "long", "9", "out", "--tube", "tube"])):
        add(group, "20 GB of 00 as %s" % title, words, 2, "too long long", before=put("long", length=BIG), memory=250)

    group = "Names"
    add(group, "an empty name", ["check", ""], 1, "usage")
    add(group, "an empty name of an output", ["asm", "6502", "small.asm", ""], 1, "usage")
    add(group, "a name that is not UTF-8", ["check", b"\xff.trace"], 1, "usage", before=lambda: shutil.copy(b"nmi.trace", b"\xff.trace"))
    add(group, "an output's name that is not UTF-8", ["asm", "6502", "small.asm", b"\xc3"], 1, "usage")
    add(group, "a name beyond ASCII", ["asm", "6502", "small.asm", "é"], 0, changed={"é": "small"})
    add(group, "a name with a line feed", ["asm", "6502", "small.asm", "two\nlines"], 0, changed={"two\nlines": "small"})
    add(group, "a missing name with a line feed", ["check", "two\nlines"], 2, "cannot read two\nlines")
    add(group, "a name with blanks", ["asm", "6502", "small.asm", "a b "], 0, changed={"a b ": "small"})
    add(group, "a name that begins with `-`", ["asm", "6502", "small.asm", "-out"], 1, "usage")
    add(group, "the same after `./`", ["asm", "6502", "small.asm", "./-out"], 0, changed={"-out": "small"})
    add(group, "a name of 255 bytes", ["asm", "6502", "small.asm", "n" * 255], 0, changed={"n" * 255: "small"}, page="asm 6502 small.asm NAME")
    add(group, "one byte more", ["asm", "6502", "small.asm", "n" * 256], 5, "cannot write " + "n" * 256, page="asm 6502 small.asm NAME")
    add(group, "outputs whose names are too long", solo("n" * 249), 5, "cannot write " + "n" * 249 + ".report", page="solo 2000 NAME --os os --tube tube")
    add(group, "outputs of which the frame's name alone is too long", solo("n" * 248, "--keys", "shot"), 5, "cannot write " + "n" * 248 + ".000.ppm",
        changed={"n" * 248 + ".report": None, **outputs("n" * 248, ends=(".host", ".para"))}, before=put("shot", b"at 0 shot\n"), page="solo 2000 NAME --os os --tube tube --keys shot")
    add(group, "a path of 5,000 bytes", ["check", "./" * 2499 + "ab"], 2, "cannot read " + "./" * 2499 + "ab", page="check NAME")

    group = "Outputs that cannot be written"
    add(group, "in a folder that is missing", ["asm", "6502", "small.asm", "nowhere/image"], 5, "cannot write nowhere/image")
    add(group, "a folder", ["asm", "6502", "small.asm", "folder"], 5, "cannot write folder")
    add(group, "a folder in place of the third file", solo("out"), 5, "cannot write out.para", changed=outputs("out", ends=(".report", ".host")), before=lambda: os.mkdir("out.para"))
    add(group, "without leave to write", ["asm", "6502", "small.asm", "kept"], 5, "cannot write kept", before=put("kept", b"kept", mode=0o444), command=AS_OTHER, needs="another user")
    add(group, "in a folder without leave to write", solo("folder/out"), 5, "cannot write folder/out.report", command=AS_OTHER, needs="another user")
    add(group, "a program that runs", ["asm", "6502", "small.asm", "sleep"], 5, "cannot write sleep", before=a_program_that_runs)
    add(group, "a link to nothing, in a folder that is there", ["asm", "6502", "small.asm", "lost"], 0, changed={"nothing": "small"}, before=link("nothing", "lost"))
    add(group, "a link into a folder that is missing", ["asm", "6502", "small.asm", "lost"], 5, "cannot write lost", before=link("nowhere/nothing", "lost"))
    add(group, "a link that goes round", ["asm", "6502", "small.asm", "round"], 5, "cannot write round", before=both(link("other", "round"), link("round", "other")))
    add(group, "a device that is full", ["asm", "6502", "small.asm", "/dev/full"], 5, "cannot write /dev/full")
    add(group, "a device that is full, as the third file", solo("out"), 5, "cannot write out.para", changed=outputs("out", ends=(".report", ".host")), before=link("/dev/full", "out.para"))
    add(group, "a device that takes all", ["asm", "6502", "small.asm", "/dev/null"], 0)
    add(group, "a FIFO with a reader", ["asm", "6502", "small.asm", "fifo"], 0, changed={"read": "small"}, before=fifo("fifo", "cat fifo >read"))
    add(group, "a FIFO without a reader", ["asm", "6502", "small.asm", "fifo"], None, before=fifo("fifo"), page="waits for a reader")
    add(group, "a FIFO whose reader goes", solo("out", "--keys", "shot"), 5, "cannot write out.000.ppm", changed={**outputs("out", ends=(".host", ".para")), "out.report": None},
        before=both(put("shot", b"at 0 shot\n"), fifo("out.000.ppm", "head -c 1 out.000.ppm >/dev/null")))
    add(group, "a disk with room for two files of four", ["solo", "2000", "disk/out"] + list(SOLO), 5, "cannot write disk/out.para",
        changed=outputs("disk/out", ends=(".report", ".host")), before=a_disk, needs="a disk of its own")
    add(group, "a disk without any room", ["asm", "6502", "small.asm", "disk/image"], 5, "cannot write disk/image",
        before=both(a_disk, lambda: fill("disk/filled")), needs="a disk of its own")
    add(group, "a disk that is read only", ["asm", "6502", "small.asm", "disk/image"], 5, "cannot write disk/image",
        before=both(a_disk, lambda: subprocess.run(["mount", "-o", "remount,ro", "disk"], check=True)), needs="a disk of its own")
    over = outputs("out", ends=(".report", ".host"))
    add(group, "a file may have 40,000 bytes (`ulimit -f`), and the signal of that is ignored", solo("out"), 5, "cannot write out.para",
        changed=over, command=("bash", "-c", "ulimit -f 40; trap '' XFSZ; exec \"$@\"", "bash"))
    add(group, "the same, if the signal is not ignored", solo("out"), -signal.SIGXFSZ, changed={**over, "out.para.new0": lambda text: wanted["good.para"].startswith(text)}, command=("bash", "-c", "ulimit -f 40; exec \"$@\"", "bash"),
        known="5 `cannot write out.para`")
    add(group, "the working folder is gone", ["asm", "6502", "../small.asm", "image"], 5, "cannot write image", command=("sh", "-c", "mkdir gone && cd gone && rmdir ../gone && exec \"$@\"", "sh"))

    group = "Outputs that are there before"
    add(group, "longer files", solo("out"), 0, changed=outputs("out"), before=both(*(put("out" + end, b"\xaa" * 100000) for end in ENDS)))
    add(group, "an output over its source", ["asm", "6502", "small.asm", "small.asm"], 0, changed={"small.asm": "small"})
    add(group, "an output over its image", ["dis", "6502", "small", "C000", "small"], 0, changed={"small": b"org &C000\nLDA #&41\nSTA &0070\nBNE &C000\n"})
    add(group, "a disc that is `OUT.d0`", ["solo", "3000000", "out", "--os", "disc-os", "--tube", "loop", "--disc0", "out.d0"], 0,
        changed={**outputs("out", "copied"), "out.d0": "copied.d0"}, before=lambda: shutil.copy("some.ssd", "out.d0"))
    add(group, "the same with `run`", ["run", "3000000", "out", "--os", "disc-os", "--tube", "loop", "--disc0", "out.d0"], 0,
        changed={**outputs("out", "copied"), "out.d0": "copied.d0"}, before=lambda: shutil.copy("some.ssd", "out.d0"))
    add(group, "a disc that is `OUT.d0` by a link", ["solo", "3000000", "out", "--os", "disc-os", "--tube", "loop", "--disc0", "some.ssd"], 0,
        changed={**outputs("out", "copied"), "some.ssd": "copied.d0"}, before=link("some.ssd", "out.d0"))
    add(group, "one disc in both drives", ["solo", "3000000", "out", "--os", "disc-os", "--tube", "loop", "--disc0", "some.ssd", "--disc1", "some.ssd"], 0,
        changed={**outputs("out", "copied"), "out.d0": "copied.d0", "out.d1": "some.ssd"})
    add(group, "the disc of drive 0 is `OUT.d1`, that of drive 1 `OUT.d0`",
        ["solo", "3000000", "out", "--os", "disc-os", "--tube", "loop", "--disc0", "out.d1", "--disc1", "out.d0"], 0,
        changed={**outputs("out", "copied"), "out.d0": "copied.d0", "out.d1": b"other"}, before=both(lambda: shutil.copy("some.ssd", "out.d1"), put("out.d0", b"other")))
    add(group, "the trace of a replay is `OUT.host`", ["replay", "host", "out.host", "2000", "out", "--os", "os"], 0,
        changed={"out.report": None, "out.host": "good.host"}, before=lambda: shutil.copy("good.trace", "out.host"))
    add(group, "the key script is `OUT.report`", solo("out", "--keys", "out.report"), 0, changed=outputs("out"), before=put("out.report"))
    add(group, "an output that is also another's link", solo("out"), 0, changed={**{name: text for name, text in outputs("out").items() if name != "out.para"}, "out.host": "good.para"},
        before=link("out.host", "out.para"))

    group = "Standard output, standard error and standard input"
    add(group, "standard output closed", ["check", "nmi.trace"], 5, "cannot write -", **closed(1))
    add(group, "standard output closed, of `gen`", ["gen", "1"], 5, "cannot write -", **closed(1))
    add(group, "standard output closed, if nothing is printed", solo("out"), 0, changed=outputs("out"), **closed(1))
    add(group, "standard output a full device", ["check", "nmi.trace"], 5, "cannot write -", how={"stdout": "/dev/full"})
    add(group, "the same, a wrong trace", ["check", "wrong.trace"], 5, "cannot write -", how={"stdout": "/dev/full"})
    add(group, "the same, if nothing is printed", solo("out"), 0, changed=outputs("out"), how={"stdout": "/dev/full"})
    add(group, "standard output a pipe without a reader", ["check", "nmi.trace"], 5, "cannot write -", how={"stdout": "broken"})
    add(group, "standard error closed", ["check", "missing"], 2, **closed(2))
    add(group, "standard error a full device", ["check", "missing"], 2, how={"stderr": "/dev/full"})
    add(group, "standard error a pipe without a reader", ["check", "missing"], 2, how={"stderr": "broken"})
    add(group, "all three closed", solo("out"), 0, changed=outputs("out"), command=("sh", "-c", "exec \"$@\" <&- >&- 2>&-", "sh"))
    add(group, "all three closed, of `run`", ("run",) + solo("out")[1:], 0, changed=outputs("out"), command=("sh", "-c", "exec \"$@\" <&- >&- 2>&-", "sh"))
    add(group, "all three closed, an error", ["asm", "6502", "small.asm", "folder"], 5, command=("sh", "-c", "exec \"$@\" <&- >&- 2>&-", "sh"))

    group = "Threads"
    add(group, "no thread may be started (`ulimit -u 1`)", ("run",) + solo("out")[1:], 6, "no thread", command=AS_OTHER + ("prlimit", "--nproc=1"), needs="another user")
    add(group, "the same, of `solo`", ("solo",) + solo("open/out")[1:], 0, changed=outputs("open/out"), before=lambda: (os.mkdir("open"), os.chmod("open", 0o777)),
        command=AS_OTHER + ("prlimit", "--nproc=1"), needs="another user")


def tell_session_cases():
    group = "Session files that are read"
    back = outputs("out")
    add(group, "missing", resume("missing"), 2, "cannot read missing")
    add(group, "a folder", resume("folder"), 2, "cannot read folder")
    add(group, "without leave to read", resume("secret"), 2, "cannot read secret", before=put("secret", mode=0o000), command=AS_OTHER, needs="another user")
    add(group, "a link to a session", resume("to-state"), 0, changed=back, before=link("state", "to-state"))
    add(group, "a link that goes round", resume("round"), 2, "cannot read round", before=both(link("other", "round"), link("round", "other")))
    add(group, "a FIFO with a writer", resume("fifo"), 0, changed=back, before=fifo("fifo", "cat state >fifo"))
    add(group, "a FIFO whose writer is slow", resume("fifo"), 0, changed=back, before=fifo("fifo", "{ head -c 18000 state; sleep 0.3; tail -c +18001 state; } >fifo"))
    add(group, "a FIFO whose writer never ends", resume("fifo"), 2, "too long fifo", before=fifo("fifo", "exec yes >fifo"))
    add(group, "a FIFO without a writer", resume("fifo"), None, before=fifo("fifo"), page="waits for a writer")
    add(group, "standard input, a pipe", resume("/dev/stdin"), 0, changed=back, how={"input": wanted["state"]})
    add(group, "a device without an end", resume("/dev/zero"), 2, "too long /dev/zero", memory=250)
    add(group, "a device with nothing", resume("/dev/null"), 4, "bad state 0")
    add(group, "a socket", resume("socket"), 2, "cannot read socket", before=a_socket)
    add(group, "empty", resume("empty"), 4, "bad state 0")
    add(group, "a trace", resume("nmi.trace"), 4, "bad state 0")
    add(group, "one byte short", resume("short"), 4, "bad state 18877", before=put("short", wanted["state"][:-1]))
    add(group, "one byte more", resume("long"), 4, "bad state 18878", before=put("long", wanted["state"] + b"\0"))
    add(group, "of its cap, all 00", resume("long"), 4, "bad state 0", before=put("long", length=33554432), memory=250)
    add(group, "of its cap, a session and 00", resume("long"), 4, "bad state 18878", before=put("long", wanted["state"], length=33554432), memory=250)
    add(group, "one byte more", resume("long"), 2, "too long long", before=put("long", wanted["state"], length=33554433), memory=250)
    add(group, "20 GB of 00", resume("long"), 2, "too long long", before=put("long", length=BIG), memory=250)
    add(group, "as many accesses as it may have, which the host does not make", resume("most"), 8, out="differs 1 0000000024 H R 0 --\n", before=most_entries(0), memory=600)
    add(group, "the same, taken up at tick 0, above which the chip alone gives them", resume("most", ticks="0"), 0, changed=outputs("out", like="none"),
        before=most_entries(0), memory=600)
    add(group, "one access more", resume("most"), 4, "bad state 18531", before=most_entries(1))
    add(group, "another byte in its last access", resume("other"), 8, out="wrong 49 49\n", before=lambda: put("other", wanted["state"][:-1] + b"\x48")())

    group = "Session files that are written"
    saved = {**back, "saved": "state"}
    add(group, "as any output", solo("out", "--save", "saved"), 0, changed=saved)
    add(group, "with `run`", ("run",) + solo("out", "--save", "saved")[1:], 0, changed=saved)
    add(group, "over a longer file", solo("out", "--save", "saved"), 0, changed=saved, before=put("saved", b"\xaa" * 100000))
    add(group, "over the operating system", solo("out", "--save", "os"), 0, changed={**back, "os": "state"})
    add(group, "over the report", solo("out", "--save", "out.report"), 0, changed={**back, "out.report": "state"})
    add(group, "over the sound file", solo("out", "--wav", "saved", "--save", "saved"), 0, changed=saved)
    add(group, "over the session that is taken up", resume("state", "--save", "state"), 0, changed={**back, "state": "state"})
    add(group, "over the same by a link", resume("to-state", "--save", "to-state"), 0, changed={**back, "state": "state"}, before=link("state", "to-state"))
    add(group, "the session is `OUT.trace` of its own run", resume("out.trace"), 0, changed=back, before=lambda: shutil.copy("state", "out.trace"))
    add(group, "the session is `OUT.report`, and is saved there", resume("out.report", "--save", "out.report"), 0, changed={**back, "out.report": "state"}, before=lambda: shutil.copy("state", "out.report"))
    add(group, "in a folder that is missing", solo("out", "--save", "nowhere/saved"), 5, "cannot write nowhere/saved", changed=back)
    add(group, "a folder", solo("out", "--save", "folder"), 5, "cannot write folder", changed=back)
    add(group, "a folder, of `run`", ("run",) + solo("out", "--save", "folder")[1:], 5, "cannot write folder", changed=back)
    add(group, "a folder, of `resume`", resume("state", "--save", "folder"), 5, "cannot write folder", changed=back)
    add(group, "without leave to write", solo("open/out", "--save", "kept"), 5, "cannot write kept", changed=outputs("open/out"), before=both(an_open_folder, put("kept", b"kept", mode=0o444)),
        command=AS_OTHER, needs="another user")
    add(group, "a device that is full", solo("out", "--save", "/dev/full"), 5, "cannot write /dev/full", changed=back)
    add(group, "a disk without any room, the other files elsewhere", solo("out", "--save", "disk/saved"), 5, "cannot write disk/saved",
        changed=back, before=both(a_disk, lambda: fill("disk/fill")), needs="a disk of its own")
    add(group, "over the session that is taken up, on that disk, the other files elsewhere", resume("disk/state", "--save", "disk/state"), 5, "cannot write disk/state",
        changed=back, before=both(a_disk, lambda: put("disk/state", wanted["state"])(), lambda: fill("disk/fill")), needs="a disk of its own")
    add(group, "the same disk for the files of `resume`", resume("state", out="disk/out"), 5, "cannot write disk/out.para",
        changed=outputs("disk/out", ends=(".report", ".host")), before=a_disk, needs="a disk of its own")
    add(group, "a FIFO with a reader", solo("out", "--save", "fifo"), 0, changed={**back, "read": "state"}, before=fifo("fifo", "cat fifo >read"))
    add(group, "a FIFO whose reader goes", solo("out", "--save", "fifo", "--disc0", "large"), 5, "cannot write fifo", changed={**back, "out.d0": None},
        before=both(put("large", length=204800), fifo("fifo", "head -c 1 fifo >/dev/null")))
    add(group, "standard output closed, if nothing is printed", resume("state"), 0, changed=back, **closed(1))
    add(group, "standard output closed, if an access is wrong", resume("other"), 5, "cannot write -", before=lambda: put("other", wanted["state"][:-1] + b"\x48")(), **closed(1))
    add(group, "no thread may be started", resume("state", out="open/out"), 0, changed=outputs("open/out"), before=an_open_folder, command=AS_OTHER + ("prlimit", "--nproc=1"), needs="another user")

    group = "Listings"
    listed = {"out.list": "good.list"}
    told = "listed %d of %d\n" % ((wanted["good.list"].count(b"\n"),) * 2)
    add(group, "as any output", follow("good.trace"), 0, out=told, changed=listed)
    for title, how in (("closed", closed(1)), ("a full device", {"how": {"stdout": "/dev/full"}}), ("a pipe without a reader", {"how": {"stdout": "broken"}})):
        add(group, "standard output %s" % title, follow("good.trace"), 5, "cannot write -", changed=listed, **how)
    add(group, "standard output closed, if the host differs", follow("empty"), 5, "cannot write -", **closed(1))
    add(group, "the host differs", follow("empty"), 8, out="differs 1 0000000024 H R 0 --\n")
    add(group, "all three closed", follow("good.trace"), 5, changed=listed, command=("sh", "-c", "exec \"$@\" <&- >&- 2>&-", "sh"))
    add(group, "over its trace", follow("out.list"), 0, out=told, changed=listed, before=put("out.list", wanted["good.trace"]))
    add(group, "over a longer file", follow("good.trace"), 0, out=told, changed=listed, before=put("out.list", b"\xaa" * 100000))
    add(group, "a folder", follow("good.trace"), 5, "cannot write out.list", before=lambda: os.mkdir("out.list"))
    add(group, "in a folder that is missing", follow("good.trace", out="nowhere/out"), 5, "cannot write nowhere/out.list")
    add(group, "in a folder without leave to write", follow("good.trace", out="folder/out"), 5, "cannot write folder/out.list",
        command=AS_OTHER, needs="another user")
    add(group, "a device that is full", follow("good.trace"), 5, "cannot write out.list", before=link("/dev/full", "out.list"))
    add(group, "a disk without any room", follow("good.trace", out="disk/out"), 5, "cannot write disk/out.list",
        before=both(a_disk, lambda: fill("disk/fill")), needs="a disk of its own")
    add(group, "a FIFO with a reader", follow("good.trace"), 0, out=told, changed={"read": "good.list"}, before=fifo("out.list", "cat out.list >read"))
    add(group, "a name of 255 bytes", follow("good.trace", out="n" * 250), 0, out=told, changed={"n" * 250 + ".list": "good.list"},
        page="follow host good.trace 2000 NAME --os os")
    add(group, "one byte more", follow("good.trace", out="n" * 251), 5, "cannot write " + "n" * 251 + ".list",
        page="follow host good.trace 2000 NAME --os os")
    add(group, "more lines than it may have", ("follow", "para", "empty", "6291471", "out", "--tube", "loop"), 0, out="listed 1048576 of 1048577\n",
        changed={"out.list": lambda text: text.count(b"\n") == 1048576 and text.endswith(b"\n0000600008 F800 A=00 X=00 Y=00 S=FD P=24 JMP &F800\n")}, memory=600)
    add(group, "what is counted, over a longer file", follow("good.trace", "--counts"), 0, out=told, changed={**listed, "out.counts": is_counted},
        before=put("out.counts", b"\xaa" * 100000))
    add(group, "what is counted, if that is a folder", follow("good.trace", "--counts"), 5, "cannot write out.counts", changed=listed,
        before=lambda: os.mkdir("out.counts"))
    add(group, "all addresses", follow("good.trace", "--points", "points"), 0, out=told, changed=listed, before=put("points", ALL_POINTS))
    add(group, "one byte more", follow("good.trace", "--points", "points"), 2, "too long points", before=put("points", ALL_POINTS + b"0"))
    add(group, "no addresses", follow("good.trace", "--points", "empty"), 0, out="listed 0 of 0\n", changed={"out.list": b""})
    add(group, "addresses without a last line feed", follow("good.trace", "--points", "points"), 4, "bad points 2", before=put("points", b"C000\nC001"))
    add(group, "20 GB of 00 as the trace", follow("long"), 2, "too long long", before=put("long", length=BIG), memory=250)


def resume(state, *options, out="out", ticks="2000"):
    return ("resume", state, ticks, out) + options


ALL_POINTS = b"".join(b"%04X\n" % point for point in range(65536))


def is_counted(text):
    """The starts of 207 lines, and the ticks from the first of them to the end."""
    counts = [line.split() for line in text.split(b"\n")[:-1]]
    return [sum(int(count[place]) for count in counts) for place in (1, 2)] == [207, 2000 - 21]


def follow(trace, *options, out="out"):
    return ("follow", "host", trace, "2000", out, "--os", "os") + options


def an_open_folder():
    os.mkdir("open")
    os.chmod("open", 0o777)


def most_entries(more):
    """A session with as many accesses as it may have, and some more."""
    def prepare():
        count = session_file.MOST_ENTRIES + more
        head = wanted["state"][:18531]
        with open("most", "wb") as file:
            file.write(head[:6] + (3 * count).to_bytes(4, "big") + head[10:] + count.to_bytes(4, "big"))
            file.write(b"".join((3 * n).to_bytes(5, "big") + b"\0\x40" for n in range(count)))
    return prepare


def a_socket():
    held = socket.socket(socket.AF_UNIX)
    held.bind("socket")
    held.close()


def a_program_that_runs():
    shutil.copy(shutil.which("sleep"), "sleep")
    helpers.append(subprocess.Popen(["./sleep", "30"]))
    time.sleep(0.2)


def a_disk():
    os.mkdir("disk")
    subprocess.run(["mount", "-t", "tmpfs", "-o", "size=64k", "tmpfs", "disk"], check=True)


def fill(name):
    with open(name, "wb", buffering=0) as file:
        try:
            while True:
                file.write(b"\0" * 4096)
        except OSError:
            pass


# --- The folder ---

wanted = {}
plain = {}


def make_plain(path):
    """The files that each case finds, and those that it is compared with."""
    def call(*words):
        subprocess.run([path] + list(words), check=True, stdin=subprocess.DEVNULL, stdout=subprocess.DEVNULL)
    for name in ("small.asm", "nmi.trace", "wrong.trace"):
        shutil.copy(EXAMPLES + name, ".")
    for name, part in (("letters-os", "6502"), ("letters-tube", "65c02"), ("disc-os", "6502"), ("loop-tube", "65c02"), ("small", "6502")):
        call("asm", part, EXAMPLES + name + ".asm", {"letters-os": "os", "letters-tube": "tube", "loop-tube": "loop"}.get(name, name))
    with open("some.ssd", "wb") as file:
        file.write(b"".join(b"%d\n" % n for n in range(1, 401))[:1024])
    put("empty")()
    call("solo", "2000", "good", *SOLO)
    call("solo", "3000000", "copied", "--os", "disc-os", "--tube", "loop", "--disc0", "some.ssd")
    call("solo", "0", "none", *SOLO)
    call("follow", "host", "good.trace", "2000", "good", "--os", "os")
    put("state", session_file.encode(session_file.saved(3, 2000, 0, {"--os": text_of("os"), "--tube": text_of("tube")}, set(), session_file.entries_of(text_of("good.trace")), 49)))()
    for name in os.listdir("."):
        plain[name] = wanted[name] = text_of(name)


def fresh(folder):
    """An empty folder with the plain files, as each case finds it."""
    os.chdir(os.path.dirname(folder))
    if os.path.ismount(folder + "/disk"):
        subprocess.run(["umount", folder + "/disk"], check=True)
    shutil.rmtree(os.fsencode(folder), ignore_errors=True)
    os.mkdir(folder)
    os.chmod(folder, 0o755)
    os.chdir(folder)
    os.mkdir("folder")
    for name, text in plain.items():
        put(name, text, mode=0o644)()


def stand():
    """Each file of the folder, with what shows whether it was changed."""
    found = {}
    for folder, _, names in os.walk(b"."):
        for name in names:
            state = os.lstat(os.path.join(folder, name))
            if stat.S_ISREG(state.st_mode) or stat.S_ISLNK(state.st_mode):
                found[os.path.normpath(os.path.join(folder, name))] = (state.st_size, state.st_mtime_ns, state.st_ino, state.st_mode)
    return found


# --- A case ---


def shown_words(case):
    if case.page and not case.page.startswith("waits"):
        return case.page
    return b" ".join(case.words).decode(errors="backslashreplace").replace("\n", "\\n").replace("\x00", "")


def end_of(status, err):
    """A status and its text, as the page shows it."""
    if status is None:
        return "waits"
    if status < 0:
        return "signal " + signal.Signals(-status).name
    text = re.sub(r"n{200,}", "NAME", re.sub(r"(\./)+ab", "NAME", err.decode(errors="backslashreplace"))).strip("\n").replace("\n", "\\n")
    return "%d%s" % (status, " `%s`" % text if text else "")


def run(case, path):
    """What differs of a case, and how it ended."""
    if case.before:
        case.before()
    before = stand()
    how = {"stdin": subprocess.DEVNULL, **(case.how or {})}
    if "input" in how:
        del how["stdin"]
    opened = []
    for which in ("stdout", "stderr"):
        where = how.get(which)
        if where is None:
            how[which] = subprocess.PIPE
        elif where == "broken":
            reader, writer = os.pipe()
            os.close(reader)
            opened.append(writer)
            how[which] = writer
        else:
            opened.append(os.open(where, os.O_WRONLY))
            how[which] = opened[-1]
    most_before = resource.getrusage(resource.RUSAGE_CHILDREN).ru_maxrss
    begun = time.time()
    faults = []
    try:
        done = subprocess.run(list(case.command) + [path] + case.words, timeout=LIMIT if case.status is not None else WAITS, **how)
        status, out, err = done.returncode, done.stdout, done.stderr
    except subprocess.TimeoutExpired:
        status, out, err = None, b"", b""
    took = time.time() - begun
    most = resource.getrusage(resource.RUSAGE_CHILDREN).ru_maxrss / 1024
    for number in opened:
        os.close(number)
    for helper in helpers:
        # The process at the other end of a FIFO ends by itself; a program that runs does not.
        try:
            helper.wait(timeout=0.5)
        except subprocess.TimeoutExpired:
            helper.kill()
            helper.wait()
    del helpers[:]
    if status != case.status or (err or b"").rstrip(b"\n") != case.err.rstrip(b"\n") or (case.err and not err.endswith(b"\n")):
        faults.append("it ended with %s, wanted %s" % (end_of(status, err or b""), end_of(case.status, case.err)))
    if (out or b"") != case.out:
        faults.append("it said %r, wanted %r" % (out, case.out))
    if case.memory and most > case.memory and most > most_before / 1024:
        faults.append("it took %.0f MB" % most)
    after = stand()
    changed = {name for name in set(before) | set(after) if before.get(name) != after.get(name)}
    expected = {os.fsencode(name): text for name, text in case.changed.items()}
    for name in sorted(changed - set(expected)):
        faults.append("it changed %r" % name)
    for name, text in expected.items():
        if text is None:
            continue
        if name not in after:
            faults.append("%r is not there" % name)
            continue
        if name not in changed and text_of(name) != b"":
            faults.append("%r was not written" % name)
        found = text_of(name)
        if isinstance(text, str):
            text = wanted[text]
        if not (text(found) if callable(text) else text == found):
            faults.append("%r has other bytes" % name)
    return faults, status, err or b"", took


# --- Moments ---

MOMENTS = 50


class Moments:
    """What is left of a session that is saved over itself if the program is ended meanwhile."""

    def __init__(self, path, folder):
        self.path, self.folder = path, folder
        # A session that is longer than all other outputs: it has sixteen paged ROMs.
        put("rom", length=16384)()
        roms = [word for slot in range(16) for word in ("--rom%d" % slot, "rom")]
        self.call(["solo", "1000", "out", *SOLO, *roms, "--save", "long"])
        self.old = text_of("long")
        begun = time.time()
        self.call(["resume", "long", "2000", "out", "--save", "other"])
        self.took = time.time() - begun
        self.new = text_of("other")
        self.counts = {"as before": 0, "the new one": 0, "neither": 0}
        self.beside = set()
        self.known = set(os.listdir("."))

    def call(self, words):
        subprocess.run([self.path] + words, check=True, stdin=subprocess.DEVNULL)

    def begin(self, **how):
        put("long", self.old)()
        return subprocess.Popen([self.path, "resume", "long", "2000", "out", "--save", "long"], stdin=subprocess.DEVNULL, stderr=subprocess.DEVNULL, **how)

    def look(self):
        found = text_of("long") if os.path.exists("long") else None
        self.counts["as before" if found == self.old else "the new one" if found == self.new else "neither"] += 1
        for name in set(os.listdir(".")) - self.known:
            self.beside.add(name)
            os.unlink(name)

    def try_all(self):
        largest_other = 65536
        for moment in range(MOMENTS):
            limit = largest_other + 1 + (len(self.new) - largest_other - 2) * moment // MOMENTS

            def before(limit=limit):
                signal.signal(signal.SIGXFSZ, signal.SIG_DFL)
                resource.setrlimit(resource.RLIMIT_FSIZE, (limit, limit))
            self.begin(preexec_fn=before, restore_signals=False).wait()
            self.look()
        for moment in range(MOMENTS):
            child = self.begin()
            time.sleep(1.2 * self.took * moment / MOMENTS)
            child.kill()
            child.wait()
            self.look()

    def told(self):
        beside = ", ".join("`%s`" % name for name in sorted(self.beside)) or "nothing"
        return "%d moments: %s;\nbeside it was left: %s" % (2 * MOMENTS, ", ".join("%s %d" % (what, count) for what, count in self.counts.items()), beside)


def try_moments(path, work):
    fresh(work + "/at")
    moments = Moments(path, work)
    moments.try_all()
    return moments


def what_stands(case):
    if case.status is None:
        return "nothing"
    names = [os.fsencode(name).decode(errors="backslashreplace").replace("\n", "\\n") for name in case.changed]
    names = [re.sub(r"n{200,}", "NAME", name) for name in names]
    if not names:
        return "nothing"
    if case.status == 5:
        last = os.fsencode(list(case.changed)[-1]) == case.err[13:].rstrip(b"\n") and names.pop()
        return ", ".join(([", ".join("`%s`" % name for name in names) + " whole"] if names else []) + (["of `%s` a part" % last] if last else []))
    return ", ".join("`%s`" % name for name in names)


def has(what, other_user, disk):
    return {None: True, "another user": other_user, "a disk of its own": disk}[what]


def can_mount(folder):
    os.mkdir(folder)
    done = subprocess.run(["mount", "-t", "tmpfs", "-o", "size=64k", "tmpfs", folder], stderr=subprocess.DEVNULL).returncode == 0
    if done:
        subprocess.run(["umount", folder], check=True)
    return done


def main():
    if set(sys.argv[1:]) - {"--all", "--page"}:
        sys.exit(__doc__)
    show, page = "--all" in sys.argv, "--page" in sys.argv
    resource.setrlimit(resource.RLIMIT_CORE, (0, 0))
    shipped = program()
    work = tempfile.mkdtemp()
    counts = {"as wanted": 0, "differ": 0, "skipped": 0}
    try:
        # Another user has to find the program and the folder too.
        os.chmod(work, 0o755)
        path = shutil.copy(shipped, work + "/beebtube")
        os.chmod(path, 0o755)
        os.mkdir(work + "/plain")
        os.chdir(work + "/plain")
        make_plain(path)
        root = os.getuid() == 0
        other_user = root and shutil.which("setpriv") is not None and subprocess.run(AS_OTHER + ("true",)).returncode == 0
        disk = root and can_mount(work + "/mount")
        tell_cases()
        tell_session_cases()
        group = None
        for case in cases:
            if not has(case.needs, other_user, disk):
                counts["skipped"] += 1
                print("skipped, for want of %s: %s" % (case.needs, case.title))
                continue
            fresh(work + "/at")
            faults, status, err, took = run(case, path)
            counts["differ" if faults else "as wanted"] += 1
            if page:
                if case.group != group:
                    group = case.group
                    print("\n### %s\n\n| What | Arguments | Promised | Changed | Done |\n|---|---|---|---|---|" % group)
                promised = case.page if case.status is None else end_of(case.status, case.err) + (", `%s`" % case.out.decode().strip() if case.out else "")
                done = "; ".join(faults) if faults else "the same"
                if case.known and not faults:
                    promised, done = case.known, promised
                print("| %s | `%s` | %s | %s | %s |" % (case.title, shown_words(case), promised, what_stands(case), done))
            elif faults:
                print("differs: %s: %s (%s): %s" % (case.group, case.title, shown_words(case), "; ".join(faults)))
            elif case.known:
                print("known: %s: %s: %s, promised %s" % (case.group, case.title, end_of(status, err), case.known))
            elif show:
                print("as wanted: %s: %s: %s, %.1f s" % (case.group, case.title, end_of(status, err), took))
        moments = try_moments(path, work)
        counts["differ" if moments.counts["neither"] else "as wanted"] += 1
        if page:
            print("\n### Ended while it writes\n\nA session that is saved over itself, %s." % moments.told())
        elif moments.counts["neither"] or show:
            print("%s: a session that is saved over itself, %s" % ("differs" if moments.counts["neither"] else "as wanted", moments.told().replace("\n", " ")))
    finally:
        os.chdir("/")
        if os.path.ismount(work + "/at/disk"):
            subprocess.run(["umount", work + "/at/disk"])
        shutil.rmtree(os.fsencode(work), ignore_errors=True)
    if not page:
        print("cases %d: %s" % (sum(counts.values()), ", ".join("%d %s" % (count, what) for what, count in counts.items())))
    sys.exit(1 if counts["differ"] else 0)


if __name__ == "__main__":
    main()
