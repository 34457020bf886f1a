#!/usr/bin/env python3
"""fuzz_tools.py [--seed S] [--from N] [--count N] [-j N] [--only TOOL]

Calls the tools with random arguments and files in random surroundings, and reports each call that
does not do what docs/TOOLS.md promises. Call N of seed S is always the same, except for the moments
of signals. The count is 20,000 by default.

It changes, cuts, adds or draws bytes of files at random. Some files have 20 GB of zeros, and some
are pipes without a writer. Some names contain line feeds, ESC, quotes, bytes that are not UTF-8, or
begin with `-`. In some calls standard input, output or error is closed, full or has no reader. In
some calls no file may grow above 300 bytes, or the disk is full (if this process may mount one), or
the user has no rights (if this process is root). In some calls a signal comes while the tool works,
and in some eight equal calls run at once in one folder. After each call this checks:

- the tool ends within 60 CPU seconds, by no signal of its own, without a traceback or an internal
  error
- its status is the one that follows from the files and arguments as they were made
- a tool that ends with a status other than 0 prints a message, unless its output is closed
- a tool that ends with status 0 prints and writes the same as in plain surroundings, and the
  program agrees
- the tool changes no input, writes no file of another name, and leaves no temporary file and no
  process
- after a signal each file is the old one or the new one, and the next call in this folder succeeds

Each tool is compiled once and runs in a fork of this process. One call in twenty is a process of
its own. If a check fails, this prints the call with its number, and the exit status is 1."""
import argparse
import atexit
import codecs
import concurrent.futures.thread  # noqa: F401 # once for all copies
import ctypes
import gc
import importlib
import os
import random
import re
import resource
import shutil
import signal
import subprocess
import sys
import tempfile
import time
import traceback

sys.dont_write_bytecode = True
from made_calls import FIFO, SIGNALS, TOOLS, TOP, Generator, Plain, is_file, text_of  # noqa: E402
from beebtube import program as beebtube_program  # noqa: E402

# What a tool imports is here before a copy of this process loses its rights, and with them perhaps the sight of a module's file.
for module in sorted(os.listdir(os.path.join(TOP, "tools", "beebtube"))):
    if module.endswith(".py") and module not in ("__init__.py", "__main__.py", "plugin.py"):
        importlib.import_module("beebtube." + module[:-3])

LIMIT = 60
OTHER = 65534
# What a tool may end with: `manifest` has the program's statuses too, and `execute` any, of what it runs.
STATUSES = {**{name: (0, 1, 2, 141) for name in TOOLS}, "trace": (0, 1, 2, 8, 141), "profile": (0, 1, 2, 8, 141),
            "manifest": (0, 1, 2, 3, 4, 5, 6, 7, 8, 141), "execute": range(256)}
LEFT = re.compile(r"(at|tmp|outside)/(.*/)?[.]?beebtube-[a-z0-9_]{8}(/.*)?")


# --- Calling ---


class Sandbox:
    """The folders of a worker: `at`, in which a tool is called, `outside`, which nobody may change, and `tmp` for temporary files."""

    def __init__(self, base, codes, disk):
        self.base, self.codes, self.disk = base, codes, disk
        self.at, self.outside, self.tmp = (os.path.join(base, name) for name in ("at", "outside", "tmp"))
        self.mounted = False

    def clear(self):
        if self.mounted:
            subprocess.run(["umount", self.at], check=True)
            self.mounted = False

    def fresh(self, made, room=None):
        """Makes the folders again; `room` is how many pages the tool's folder has beside its files."""
        self.clear()
        for folder in (self.at, self.outside, self.tmp):
            if os.path.isdir(folder):
                os.chmod(folder, 0o777)
            shutil.rmtree(folder, ignore_errors=True)
            os.mkdir(folder)
            os.chmod(folder, 0o777)
        if room is not None and self.disk:
            size = sum(8192 + len(data) // 4096 * 4096 for data in made.files.values() if is_file(data)) + 4096 * (2 + room)
            how = "size=%d,mode=777" % size
            self.mounted = subprocess.run(["mount", "-t", "tmpfs", "-o", how, "tmpfs", self.at], stderr=subprocess.DEVNULL).returncode == 0
        for folder in ("below",) + tuple(made.folders):
            os.mkdir(os.path.join(self.at, folder))
            os.chmod(os.path.join(self.at, folder), 0o777)
        with open(self.outside + "/victim", "wb") as file:
            file.write(b"0000000024 H R 0 40\n")
        os.chmod(self.outside + "/victim", 0o666)
        os.mkfifo(self.at + "/fifo")
        for name, data in made.files.items():
            place = os.path.join(self.at, name)
            if data is FIFO:
                os.mkfifo(place)
                continue
            if isinstance(data, tuple):
                os.symlink(data[0], place)
                continue
            with open(place, "wb") as file:
                if isinstance(data, int):
                    file.truncate(data)
                else:
                    file.write(data)
            os.chmod(place, 0o666)

    def stand(self):
        """Each file of all folders, with what shows whether it was changed."""
        found = {}
        for top in (self.at, self.outside, self.tmp):
            for folder, folders, names in os.walk(top):
                for name in names + folders:
                    place = os.path.join(folder, name)
                    state = os.lstat(place)
                    if name in names:
                        found[os.path.relpath(place, self.base)] = (state.st_size, state.st_mtime_ns, state.st_ino, state.st_mode)
                    elif name not in ("below", "discs", "pics"):
                        found[os.path.relpath(place, self.base) + "/"] = None
        return found

    def run(self, made, around, anew, number=0, delay=0.0):
        """The status, or a signal's number below zero, or None where it did not end; standard output and standard error. With a
        number this signal comes after some seconds."""
        started = self.start(made, around, anew)
        if number:
            time.sleep(delay)
            os.kill(started[0], number)
        return self.end(*started)

    def start(self, made, around, anew):
        words = [word.replace("OUTSIDE", self.outside) for word in made.words]
        out, err = os.memfd_create("out"), os.memfd_create("err")
        reader, writer = os.pipe()
        os.close(reader)
        stdin = os.memfd_create("in")
        os.write(stdin, made.stdin)
        os.lseek(stdin, 0, 0)
        # What a signal does in this process it must not do in the copy.
        signal.pthread_sigmask(signal.SIG_BLOCK, SIGNALS)
        pid = os.fork()
        if pid == 0:
            try:
                for number in SIGNALS[:3]:
                    signal.signal(number, signal.SIG_DFL)
                resource.setrlimit(resource.RLIMIT_CPU, (LIMIT, LIMIT + 9))
                signal.pthread_sigmask(signal.SIG_UNBLOCK, SIGNALS)
                self.go_on(made.tool, words, around, anew, (stdin, out, err, writer))
            finally:
                os._exit(99)
        signal.pthread_sigmask(signal.SIG_UNBLOCK, SIGNALS)
        os.close(writer)
        os.close(stdin)
        return pid, out, err

    def end(self, pid, out, err):
        signal.signal(signal.SIGALRM, lambda number, frame: os.kill(pid, signal.SIGKILL))
        signal.alarm(10 * LIMIT)
        ended = os.waitstatus_to_exitcode(os.waitpid(pid, 0)[1])
        if signal.alarm(0) == 0 and ended == -signal.SIGKILL:
            ended = None
        texts = [os.pread(number, 1 << 24, 0) for number in (out, err)]
        os.close(out)
        os.close(err)
        return (ended,) + tuple(texts)

    def others(self, pids=()):
        """Waits for processes that a tool left; those that do not end within ten seconds, which are ended."""
        until = time.monotonic() + 10
        while True:
            try:
                if os.waitpid(-1, os.WNOHANG)[0] == 0:
                    if time.monotonic() > until:
                        break
                    time.sleep(0.02)
            except ChildProcessError:
                return []
        with open("/proc/self/task/%d/children" % os.getpid()) as file:
            left = [int(word) for word in file.read().split()]
        for pid in left:
            os.kill(pid, signal.SIGKILL)
        return left

    def go_on(self, tool, words, around, anew, files):
        stdin, out, err, broken = files
        os.chdir(self.at)
        os.environ["TMPDIR"] = self.disk if around == "disk" and self.disk else self.tmp
        if around == "full":
            out = os.open("/dev/full", os.O_WRONLY)
        for number, place in ((stdin, 0), (broken if around == "broken" else out, 1), (err, 2)):
            os.dup2(number, place)
        if around in ("closed", "all closed"):
            os.close(1)
        if around in ("deaf", "all closed"):
            os.close(2)
        if around == "all closed":
            os.close(0)
        if around == "short":
            resource.setrlimit(resource.RLIMIT_FSIZE, (300, 300))
        if around == "others folder":
            os.chmod(self.at, 0o555)
        if around in ("other", "others folder") and os.getuid() == 0:
            os.setgroups([])
            os.setgid(OTHER)
            os.setuid(OTHER)
        path = os.path.join(TOP, "tools", tool)
        try:
            encoded = [os.fsencode(word) for word in words]
            if any(b"\0" in word for word in encoded):
                os._exit(1)
            # The interpreter may lie where a user without rights has no way.
            if anew and os.access(sys.executable, os.X_OK):
                os.execv(sys.executable, [sys.executable, path] + encoded)
        except OSError:
            os._exit(98)
        for name, number, way in (("stdin", 0, "r"), ("stdout", 1, "w"), ("stderr", 2, "w")):
            try:
                os.fstat(number)
                setattr(sys, name, open(number, way, encoding="utf-8", closefd=False))
            except OSError:
                setattr(sys, name, None)
        sys.argv = [path] + words
        status = 0
        try:
            exec(self.codes[tool], {"__name__": "__main__", "__doc__": self.codes[tool].co_consts[0], "__file__": path})
            signal.signal(signal.SIGINT, signal.SIG_IGN)
        except SystemExit as ended:
            signal.signal(signal.SIGINT, signal.SIG_IGN)
            status = ended.code if isinstance(ended.code, int) else 0 if ended.code is None else 1
        except BaseException:
            os.write(2, traceback.format_exc().encode())
            status = 1
        for stream in (sys.stdout, sys.stderr):
            try:
                stream.flush()
            except (OSError, ValueError, AttributeError):
                status = status or 120
        # As an interpreter does that ends.
        atexit._run_exitfuncs()  # noqa: SLF001
        os._exit(status)


class Judge:
    def __init__(self, sandbox, generator, program):
        self.sandbox, self.generator, self.program = sandbox, generator, program

    def faults(self, made, anew):
        box = self.sandbox
        if made.tool == "dap" and made.words == ["--port", "0"]:
            return self.of_port(made)
        box.fresh(made)
        before, begun = box.stand(), time.monotonic()
        status, out, err = box.run(made, "plain", anew)
        took = time.monotonic() - begun
        faults = self.of_end(made, "plain", status, out, err) + self.of_files(made, before, box.stand()) + self.of_processes()
        written = self.written(made)
        if made.wanted is not None and status not in made.wanted:
            faults.append("the status is %s, not %s: %r" % (status, " or ".join(map(str, sorted(made.wanted))), err[-300:]))
        if status == 0 and made.good:
            try:
                said = made.good(made, box.at, out)
            except Exception as error:  # noqa: BLE001 # what cannot be looked at differs, too
                said = "%s: %s" % (type(error).__name__, error)
            faults += [said] if said else []
        if made.tool == "tube" and not faults and len(made.words) < 3 and made.words[:-1] in ([], ["--all"]) and status in (0, 1):
            faults += self.of_trace(made.words[-1], status, err)
        if made.around == "plain" or faults:
            return faults
        if made.around == "signal":
            return self.of_signal(made, (status, out, written), took)
        if made.around == "eight":
            return self.of_eight(made, (status, out, written))
        box.fresh(made, made.room if made.around == "here" else None)
        before = box.stand()
        after_status, after_out, after_err = box.run(made, made.around, anew)
        os.chmod(box.at, 0o777)
        faults = self.of_end(made, made.around, after_status, after_out, after_err) + self.of_files(made, before, box.stand()) + self.of_processes()
        if after_status == 0:
            if status != 0:
                faults.append("in plain surroundings the status is %s" % status)
            # (an adapter whose client cannot read ends like one whose client is gone)
            silent = ("closed", "full", "broken", "all closed") + ("short",) * (made.tool == "dap")
            if out and made.around in silent and made.tool != "dap":
                faults.append("status 0, and nobody heard what was said")
            elif out != after_out and made.tool != "suite" and made.around not in silent:
                faults.append("status 0, and another text")
            if written != self.written(made):
                faults.append("status 0, and other files")
            return faults
        return faults + self.of_halves(made, written)

    # Each file is what it was, or what it is to be.
    def of_halves(self, made, written):
        faults = []
        for name, data in self.written(made).items():
            old = made.files.get(name)
            if data != written.get(name) and data != old and not (isinstance(old, tuple) or isinstance(old, int)):
                faults.append("%s is neither the old nor the new file" % name)
        return faults

    # A call that ends differently if it was carried out before.
    def is_once(self, made):
        return bool(made.writes & set(made.files) or {"--extract", "--make", "--put", "--take"} & set(made.words) and made.tool == "catalogue" or made.tool == "manifest")

    def of_signal(self, made, plain, took):
        box, number = self.sandbox, made.signal
        box.fresh(made)
        before = box.stand()
        status, out, err = box.run(made, "plain", False, number, made.share * took)
        faults = [] if status in (plain[0], -number, 128 + number, 99) else ["signal %d: the status is %s" % (number, status)]
        if b"Traceback" in err or b"a fault of this tool" in err:
            faults.append("signal %d: it says %r" % (number, err[-900:]))
        faults += self.of_files(made, before, box.stand(), number == signal.SIGKILL) + self.of_processes() + self.of_halves(made, plain[2])
        if faults or self.is_once(made):
            return ["signal %d: %s" % (number, fault) for fault in faults]
        status, out, err = box.run(made, "plain", False)
        faults = self.of_end(made, "plain", status, out, err) + self.of_files(made, before, box.stand(), number == signal.SIGKILL)
        if status != plain[0] or out != plain[1] and made.tool != "suite" or self.written(made) != plain[2]:
            faults.append("the next call ends with %s: %r" % (status, err[-300:]))
        return ["after signal %d: %s" % (number, fault) for fault in faults]

    def of_eight(self, made, plain):
        box = self.sandbox
        box.fresh(made)
        before = box.stand()
        ended = [box.end(*it) for it in [box.start(made, "plain", False) for _ in range(8)]]
        faults = self.of_files(made, before, box.stand()) + self.of_processes()
        for status, out, err in ended:
            faults += self.of_end(made, "plain", status, out, err)
            if not self.is_once(made) and (status != plain[0] or out != plain[1] and made.tool != "suite"):
                faults.append("one of eight ends with %s: %r" % (status, err[-300:]))
        if not self.is_once(made) and self.written(made) != plain[2]:
            faults.append("eight at once write other files")
        return faults

    # It listens until a signal ends it.
    def of_port(self, made):
        box = self.sandbox
        box.fresh(made)
        before, started = box.stand(), box.start(made, "plain", False)
        until = time.monotonic() + 10 * LIMIT
        while not os.fstat(started[1]).st_size and time.monotonic() < until:
            time.sleep(0.01)
        os.kill(started[0], made.signal)
        status, out, err = box.end(*started)
        faults = [] if status in (-made.signal, 128 + made.signal) else ["signal %d: the status is %s" % (made.signal, status)]
        if not re.fullmatch(rb"[1-9][0-9]{0,4}\n", out) or err:
            faults.append("it says %r, %r" % (out, err[-600:]))
        return faults + self.of_files(made, before, box.stand()) + self.of_processes()

    def of_processes(self):
        return ["processes are left: %s" % left for left in [self.sandbox.others()] if left]

    def written(self, made):
        found = {}
        for name in made.writes:
            place = os.path.join(self.sandbox.at, name)
            if os.path.isfile(place) and not isinstance(made.files.get(name, b""), int):
                found[name] = text_of(place)
        return found

    def of_end(self, made, around, status, out, err):
        faults = []
        if status in (None, -signal.SIGXCPU):
            return ["it did not end within %d CPU seconds" % LIMIT]
        if status not in STATUSES[made.tool]:
            faults.append("the status is %d" % status)
        if b"Traceback" in err or b"a fault of this tool" in err or b"Exception ignored" in err:
            faults.append("it says %r" % err[-600:])
        deaf = around in ("deaf", "all closed") or status == 141
        if status != 0 and not err.strip() and not out.strip() and not deaf and (made.tool != "execute" or status in (124, 125, 132, 134, 153)):
            faults.append("status %d without a text" % status)
        return faults

    def of_files(self, made, before, after, is_killed=False):
        allowed = {os.path.normpath("at/" + name) for name in made.writes}
        names = {name for name in set(before) | set(after) if before.get(name) != after.get(name) or (name in before) != (name in after)}
        names = {name for name in names - allowed if not (name.startswith(made.below) or name.rstrip("/") + "/" in made.below)}
        return ["it changed %s" % name for name in sorted(names) if not (is_killed and LEFT.fullmatch(name.rstrip("/")))]

    def of_trace(self, name, status, err):
        place = os.path.join(self.sandbox.at, name)
        if not os.path.isfile(place):
            return [] if status == 0 else ["a pipe without a writer has bytes"]
        done = subprocess.run([self.program, "check", place], cwd=self.sandbox.at, stdin=subprocess.DEVNULL, stdout=subprocess.PIPE, stderr=subprocess.PIPE)
        told = done.stderr.decode("utf-8", "replace").strip().replace(self.sandbox.at + "/", "")
        if done.returncode in (0, 8):
            return [] if status == 0 else ["the program takes the trace: %r" % err]
        said = err.decode("utf-8", "replace").strip()
        if told.startswith("too long"):
            return [] if status == 1 else ["the program says %r" % told]
        return [] if status == 1 and said == "tube: " + told else ["the program says %r, the tool %r" % (told, said)]


# --- Workers ---


def small_disk(base):
    if os.getuid() != 0:
        return None
    folder = base + "/disk"
    os.mkdir(folder)
    if subprocess.run(["mount", "-t", "tmpfs", "-o", "size=64k,mode=777", "tmpfs", folder], stderr=subprocess.DEVNULL).returncode != 0:
        return None
    return folder


def work(asked, numbers, program, version):
    """Makes the calls of these numbers; gives how many differ."""
    signal.signal(signal.SIGTERM, lambda number, frame: sys.exit(2))
    os.environ["BEEBTUBE"] = program
    beebtube_program.version = lambda: version
    plain = Plain(program)
    generator = Generator(plain, program)
    # (a copy without rights may not see the encodings' modules)
    for name in ("ascii", "cp437", "utf-8-sig"):
        codecs.lookup(name)
    codes = {}
    for name in TOOLS:
        with open(os.path.join(TOP, "tools", name)) as file:
            codes[name] = compile(file.read(), name, "exec")
    # So that a copy shares what is there, in place of going through it.
    gc.collect()
    gc.freeze()
    gc.disable()
    # A process that a tool leaves is a child of this one.
    ctypes.CDLL(None).prctl(36, 1, 0, 0, 0)
    base = os.path.realpath(tempfile.mkdtemp(dir="/dev/shm" if os.access("/dev/shm", os.W_OK) else None))
    os.chmod(base, 0o755)
    disk, differ, done = small_disk(base), 0, 0
    try:
        box = Sandbox(base, codes, disk)
        judge = Judge(box, generator, program)
        for number in numbers:
            dice = random.Random("%d %d" % (asked.seed, number))
            made = generator.call(dice, asked.only)
            faults = judge.faults(made, dice.random() < 0.05)
            done += 1
            if done % 50 == 0:
                print("worker %d: %d calls" % (numbers.start - asked.begin, done), file=sys.stderr, flush=True)
            if faults:
                differ += 1
                print("call %d: %s %s (%s): %s" % (number, made.tool, " ".join(map(repr, made.words))[:300], made.around, "; ".join(faults)[:1200]), flush=True)
    finally:
        os.chdir("/")
        box.clear()
        if disk:
            subprocess.run(["umount", disk])
        shutil.rmtree(base, ignore_errors=True)
    return differ


def main():
    reader = argparse.ArgumentParser(description=__doc__, formatter_class=argparse.RawDescriptionHelpFormatter)
    for name, value in (("--seed", 1), ("--from", 0), ("--count", 20000), ("-j", 2)):
        reader.add_argument(name, type=int, default=value, dest=name.strip("-").replace("from", "begin"))
    reader.add_argument("--only", choices=TOOLS)
    asked = reader.parse_args()
    version, program = beebtube_program.version(), beebtube_program.Program().path
    begun, workers = time.time(), []
    signal.signal(signal.SIGTERM, lambda *_: [os.kill(pid, signal.SIGTERM) for pid in workers])
    for worker in range(asked.j):
        pid = os.fork()
        if pid == 0:
            status = 2
            try:
                status = 1 if work(asked, range(asked.begin + worker, asked.begin + asked.count, asked.j), program, version) else 0
            except Exception:
                traceback.print_exc()
            finally:
                sys.stdout.flush()
                os._exit(status)
        workers.append(pid)
    ends = [os.waitstatus_to_exitcode(os.waitpid(pid, 0)[1]) for pid in workers]
    if not {*ends} <= {0, 1}:
        sys.exit("it ended before all calls were made")
    print("calls %d of seed %d in %d seconds: %s" % (asked.count, asked.seed, time.time() - begun, "nothing differs" if not any(ends) else "some differ"))
    sys.exit(1 if any(ends) else 0)


if __name__ == "__main__":
    main()
