"""What the tools' tests share: folders, calls of tools, and a clone that only pretends."""
import os
import shutil
import signal
import subprocess
import sys
import tempfile
import time
import unittest

TOP = os.path.dirname(os.path.dirname(os.path.dirname(os.path.realpath(__file__))))
sys.path.insert(0, os.path.join(TOP, "tools"))

import beebtube  # noqa: E402
from beebtube.files import sum_of  # noqa: E402

# A program that was begun in the background of a script may take no heed of these, and nor would what it calls.
for number in (signal.SIGINT, signal.SIGHUP, signal.SIGQUIT, signal.SIGTERM):
    if signal.getsignal(number) == signal.SIG_IGN:
        signal.signal(number, signal.default_int_handler if number == signal.SIGINT else signal.SIG_DFL)

# However busy the machine is, the launcher waits for what is said besides.
os.environ.setdefault("BEEBTUBE_EXPLAIN", "60")

TOOLS = ("type", "png", "catalogue", "tube", "manifest", "words", "suite", "differs", "screen", "trace", "page", "debug", "labels", "play", "execute", "cover", "profile", "dap")
EXAMPLES = os.path.join(TOP, "examples")
IS_ROOT = os.getuid() == 0


class Done:
    def __init__(self, status, out, err):
        self.status, self.out, self.err = status, out, err


def text_of(name):
    with open(name, "rb") as file:
        return file.read()


def put(name, data=b"", length=None):
    with open(name, "wb") as file:
        file.write(data)
        if length is not None:
            file.truncate(length)
    return name


def call(words, folder, stdin=b"", env=None, limit=None, preexec=None, **how):
    """Calls a program in a folder; `limit` is the most bytes that a file may have, and `preexec` is done before."""
    def before():
        if preexec is not None:
            preexec()
        if limit is not None:
            import resource
            resource.setrlimit(resource.RLIMIT_FSIZE, (limit, limit))
    how.setdefault("stdout", subprocess.PIPE)
    how.setdefault("stderr", subprocess.PIPE)
    if "stdin" not in how and stdin is not None:
        how["input"] = stdin
    done = subprocess.run(words, cwd=folder, env={**os.environ, **(env or {})}, preexec_fn=before if limit is not None or preexec is not None else None, timeout=300, **how)
    return Done(done.returncode, (done.stdout or b"").decode("utf-8", "replace"), (done.stderr or b"").decode("utf-8", "replace"))


class Case(unittest.TestCase):
    """A test in a folder of its own, in which files of a small pair stand as the tests want them."""

    def setUp(self):
        self.folder = os.path.realpath(tempfile.mkdtemp(prefix="beebtube-test-"))
        self.addCleanup(shutil.rmtree, self.folder, ignore_errors=True)

    def at(self, name):
        return os.path.join(self.folder, name)

    def tool(self, name, *words, status=0, folder=None, **how):
        """Calls a tool; it ends with this status and without a traceback, and says why where the status is not 0."""
        done = call([os.path.join(TOP, "tools", name)] + list(words), folder or self.folder, **how)
        shown = "%s %s: %d\n%s%s" % (name, " ".join(words), done.status, done.out[-2000:], done.err[-2000:])
        self.assertNotIn("Traceback", done.err, shown)
        self.assertNotIn("a fault of this tool", done.err, shown)
        self.assertEqual(done.status, status, shown)
        if status not in (0, 141) and how.get("stderr", subprocess.PIPE) == subprocess.PIPE:
            self.assertTrue(done.err + done.out, shown)
        return done

    def launcher(self, *words, status=0, top=TOP, folder=None, **how):
        done = call([os.path.join(top, "beebtube")] + list(words), folder or self.folder, **how)
        self.assertEqual(done.status, status, "%s: %d\n%s%s" % (" ".join(words), done.status, done.out, done.err))
        return done

    def pair(self):
        """`os` and `tube`, two letters through the Tube."""
        for name, data in letters().items():
            put(self.at(name), data)

    def names(self):
        """All files of the folder, with their bytes."""
        return {name: text_of(self.at(name)) for name in os.listdir(self.folder) if os.path.isfile(self.at(name))}


_letters = {}


def letters():
    if not _letters:
        _letters["os"] = beebtube.asm("6502", os.path.join(EXAMPLES, "letters-os.asm"))
        _letters["tube"] = beebtube.asm("65c02", os.path.join(EXAMPLES, "letters-tube.asm"))
    return _letters


def pretend_clone(folder):
    """A clone that has two sources alone, whose shipped program is the program."""
    os.makedirs(os.path.join(folder, "crates", "beebtube", "src"))
    put(os.path.join(folder, "crates", "beebtube", "src", "main.rt"), b"main\n")
    put(os.path.join(folder, "crates.txt"), b"beebtube:\n")
    for name in ("beebtube", ".ci/sources"):
        os.makedirs(os.path.dirname(os.path.join(folder, name)), exist_ok=True)
        shutil.copy(os.path.join(TOP, name), os.path.join(folder, name))
    if os.path.exists(os.path.join(TOP, ".ci", "build")):
        shutil.copy(os.path.join(TOP, ".ci", "build"), os.path.join(folder, ".ci", "build"))
    for name in ("tools", "docs", "examples"):
        os.symlink(os.path.join(TOP, name), os.path.join(folder, name))
    os.mkdir(os.path.join(folder, "release"))
    shutil.copy(beebtube.Program().path, os.path.join(folder, "release", "beebtube"))
    sources = subprocess.run([os.path.join(folder, ".ci", "sources")], stdout=subprocess.PIPE, check=True).stdout
    put(os.path.join(folder, "release", "sources"), sources)
    put(os.path.join(folder, "release", "sum"), sum_of(os.path.join(folder, "release", "beebtube")).digits.encode() + b"\n")
    return folder


def wait_until(condition):
    """Waits until this gives something true, and gives it. Gives None after five minutes."""
    for _ in range(6000):
        found = condition()
        if found:
            return found
        time.sleep(0.05)
    return None


def is_alive(pid):
    try:
        with open("/proc/%d/stat" % pid) as file:
            return file.read().rsplit(")", 1)[1].split()[0] != "Z"
    except OSError:
        return False


def child_of(pid):
    """The number of the one process that another has started, or of one of several; None if there is none."""
    return next(iter(children_of(pid)), None)


def children_of(pid):
    """The numbers of the processes that another has started."""
    found = []
    for number in os.listdir("/proc"):
        if number.isdigit():
            try:
                with open("/proc/%s/stat" % number) as file:
                    fields = file.read().rsplit(")", 1)[1].split()
            except OSError:
                continue
            if int(fields[1]) == pid and fields[0] != "Z":
                found.append(int(number))
    return found


__all__ = ["Case", "Done", "EXAMPLES", "IS_ROOT", "TOOLS", "TOP", "beebtube", "call", "child_of", "children_of", "is_alive", "letters", "pretend_clone", "put",
           "signal", "text_of", "unittest", "wait_until"]
