#!/usr/bin/env python3
"""memory.py [COMMAND ..]: refuses the program memory, and looks at its messages and files. It calls
each command below (or those with this first argument) with its first request for memory refused,
then with its second, and so on up to its last. Then it refuses each request and all that follow
it. Then it gives less and less memory to the whole program (`ulimit -v`), until the system cannot
load it.

Each call must give the status and files that it gives with ample memory, or `no memory` with 7,
or, for `run`, `no thread` with 6. With 6 no file may change. With 7 the files before one are
whole, that one holds a part or its old contents, and those after it are unchanged. A library that
is loaded before the C library (LD_PRELOAD) refuses the requests; without a C compiler that part
is skipped. The status is 1 if anything differs.
"""
import collections
import os
import resource
import shutil
import signal
import subprocess
import sys
import tempfile

sys.dont_write_bytecode = True
from program import TOP, program  # noqa: E402

EXAMPLES = TOP + "/examples/"

# The library counts the requests for memory from the time that the program begins, and refuses number REFUSE, and with REFUSE_ON all after it. It
# writes a byte to the file of number REFUSED_TO if it did.
LIBRARY = r"""
#include <errno.h>
#include <stdlib.h>
#include <unistd.h>
extern void *__libc_malloc(size_t), *__libc_calloc(size_t, size_t), *__libc_realloc(void *, size_t);
static long count, at;
static int on, to, begun;
__attribute__((constructor)) static void begin(void) {
    at = atol(getenv("REFUSE"));
    on = getenv("REFUSE_ON") != 0;
    to = atoi(getenv("REFUSED_TO"));
    begun = 1;
}
static int refused(void) {
    if (!begun) return 0;
    long now = __atomic_add_fetch(&count, 1, __ATOMIC_SEQ_CST);
    if (now != at && !(on && now > at)) return 0;
    if (now == at && write(to, "x", 1) != 1) abort();
    errno = ENOMEM;
    return 1;
}
void *malloc(size_t n) { return refused() ? 0 : __libc_malloc(n); }
void *calloc(size_t n, size_t m) { return refused() ? 0 : __libc_calloc(n, m); }
void *realloc(void *p, size_t n) { return refused() ? 0 : __libc_realloc(p, n); }
"""

BOTH = "--os os --tube tube --keys keys --disc0 disc --font font --rom15 rom --plugs 2"
COMMANDS = [
    ("check", "check letters.trace"),
    ("asm", "asm 6502 source out"),
    ("dis", "dis 6502 rom 8000 out"),
    ("replay", "replay host letters.trace 2000 out --os os"),
    ("replay", "replay para letters.trace 2000 out --tube tube"),
    ("solo", "solo 2000 out --os os --tube tube"),
    ("run", "run 2000 out --os os --tube tube"),
    ("solo", "solo 2000 out " + BOTH),
    ("run", "run 2000 out " + BOTH),
    ("solo", "solo 2000 out --os os --tube tube --save save"),
    ("run", "run 2000 out --os os --tube tube --save save"),
    ("solo", "solo 2000 out --os os --tube tube --wav wav"),
    ("run", "run 2000 out --os os --tube tube --wav wav"),
    ("run", "run 2000 out " + BOTH + " --wav wav --save save"),
    ("resume", "resume state 2000 out"),
    ("resume", "resume state 1000 out"),
    ("resume", "resume state 3000 out --wav wav --save save"),
    ("resume", "resume full 2000 out --wav wav --save save"),
    ("follow", "follow host letters.trace 2000 out --os os"),
    ("follow", "follow para letters.trace 2000 out --tube tube --watch F000"),
    ("gen", "gen 1"),
]
# The order in which outputs are written.
ORDER = ("out", "out.list", "out.report", "out.host", "out.para", "out.d0", "out.000.ppm", "out.trace", "out.plug0", "out.plug1", "wav", "save")


def prepare(path):
    for name, part in (("letters-os", "6502"), ("letters-tube", "65c02"), ("font", "6502")):
        subprocess.run([path, "asm", part, EXAMPLES + name + ".asm", {"font": "font"}.get(name, name[8:])], check=True)
    shutil.copy(EXAMPLES + "letters.trace", ".")
    shutil.copy(EXAMPLES + "demo-os.asm", "source")
    for name, text in (("keys", b"at 100 down 25\nat 1000 shot\n"), ("disc", b"disc" * 1000), ("rom", bytes(range(256)) * 32)):
        with open(name, "wb") as file:
            file.write(text)
    for name, options in (("state", "--os os --tube tube"), ("full", BOTH)):
        subprocess.run([path, "solo", "2000", "out", *options.split(), "--save", name], check=True)


def lay():
    """Every output is there before, so that it shows what is changed."""
    for name in ORDER:
        with open(name, "wb") as file:
            file.write(b"before " + name.encode())


def stand():
    found = {}
    for name in ORDER:
        with open(name, "rb") as file:
            found[name] = file.read()
    return found


class Ended(collections.namedtuple("Ended", "status out err files")):
    pass


def call(words, path, env=None, command=(), fds=()):
    lay()
    done = subprocess.run(list(command) + [path] + words, stdin=subprocess.DEVNULL, stdout=subprocess.PIPE, stderr=subprocess.PIPE, env=env, pass_fds=fds, timeout=60)
    return Ended(done.returncode, done.stdout, done.stderr, stand())


def fault(words, good, ended):
    """What differs from what is wanted, or nothing."""
    if ended == good:
        return None
    if ended.status == 6 and words[0] == "run" and ended.err in (b"no thread\n", b"") and not ended.out:
        changed = [name for name in ORDER if ended.files[name] != b"before " + name.encode()]
        return "status 6, and changed: %s" % " ".join(changed) if changed else None
    if ended.status != 7 or ended.err not in (b"no memory\n", b"") or not good.out.startswith(ended.out):
        return "status %d, %r, %r" % (ended.status, ended.out, ended.err)
    ends = False
    for name in ORDER:
        found, before = ended.files[name], b"before " + name.encode()
        if good.files[name] == before:
            if found != before:
                return "status 7, and changed: " + name
        elif ends and found != before:
            return "status 7, and changed behind one that is not whole: " + name
        elif found != good.files[name]:
            ends = True
            if found != before and not good.files[name].startswith(found):
                return "status 7, and neither whole, nor a part, nor as before: " + name
    return None


class Told:
    """Counts how calls ended, and prints what differs."""

    def __init__(self):
        self.differ = 0

    def one(self, counts, words, good, ended, how):
        counts["status %d" % ended.status if ended.status >= 0 else "signal %d" % -ended.status] += 1
        if ended.status in (6, 7) and ended.err == b"":
            counts["of these without a text"] += 1
        found = fault(words, good, ended)
        if found:
            self.differ += 1
            print("differs: %s, %s: %s" % (" ".join(words), how, found))


def told_of(counts):
    return ", ".join("%d %s" % (count, name) for name, count in sorted(counts.items(), key=lambda one: (one[0].startswith("of"), one[0])))


def refuse_each(told, path, library, words, good, on):
    counts, number = collections.Counter(), 0
    while True:
        number += 1
        reader, writer = os.pipe()
        env = {**os.environ, "LD_PRELOAD": library, "REFUSE": str(number), "REFUSED_TO": str(writer)}
        if on:
            env["REFUSE_ON"] = "1"
        try:
            ended = call(words, path, env, fds=(writer,))
        finally:
            os.close(writer)
        refused = os.read(reader, 1)
        os.close(reader)
        if not refused:
            if ended != good:
                told.one(counts, words, good, ended, "nothing refused")
            break
        told.one(counts, words, good, ended, "request %d%s refused" % (number, " and all behind it" if on else ""))
    what = told_of(counts)
    print("%s: %d requests, %s: %s" % (" ".join(words), number - 1, "each and all behind it refused" if on else "each refused", what), flush=True)


def refuse_size(told, path, words, good):
    """Less and less memory for all, each time a sixteenth less, down to where the system cannot load the program, which ends with `usage` otherwise."""
    counts, size, least = collections.Counter(), 64 * 2**20, None
    while True:
        size -= size // 16
        limit = ("prlimit", "--as=%d" % size)
        loads = subprocess.run(limit + (path,), stdin=subprocess.DEVNULL, stdout=subprocess.DEVNULL, stderr=subprocess.DEVNULL).returncode
        if loads not in (1, 7):
            break
        least = size
        ended = call(words, path, command=limit)
        if ended.status == -signal.SIGSEGV:
            # The system ends the program, whose stack cannot grow any more: then its files have to be as they are where memory was refused.
            counts["by the system"] += 1
            ended = ended._replace(status=7)
        told.one(counts, words, good, ended, "%d bytes for all" % size)
    what = told_of(counts)
    print("%s: 64 MB down to %.1f MB for all: %s" % (" ".join(words), (least or 0) / 2**20, what), flush=True)


def main():
    resource.setrlimit(resource.RLIMIT_CORE, (0, 0))
    path = program()
    told = Told()
    wanted = set(sys.argv[1:])
    compiler = shutil.which("cc") or shutil.which("gcc") or shutil.which("clang")
    with tempfile.TemporaryDirectory() as work:
        os.chdir(work)
        prepare(path)
        if compiler:
            with open("refuse.c", "w") as file:
                file.write(LIBRARY)
            subprocess.run([compiler, "-O1", "-shared", "-fPIC", "-fno-builtin", "-o", "refuse.so", "refuse.c"], check=True)
        else:
            print("skipped, for want of a C compiler: each request refused")
        for name, text in COMMANDS:
            if wanted and name not in wanted:
                continue
            words = text.split()
            good = call(words, path)
            if good.status != 0:
                sys.exit("%s: status %d" % (text, good.status))
            if compiler:
                for on in (False, True):
                    refuse_each(told, path, work + "/refuse.so", words, good, on)
            refuse_size(told, path, words, good)
        os.chdir("/")
    print("differ %d" % told.differ)
    sys.exit(1 if told.differ else 0)


if __name__ == "__main__":
    main()
