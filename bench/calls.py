"""Calls the program again and again, and loads it only once. A library that is loaded before the C
library (LD_PRELOAD) stops the program before its `main`. For each call it goes on from there in a
copy (`fork`) with the call's arguments. A call `besides` goes on in the copy of the call before,
which begins its `main` once more. Without a C compiler, and if `anew` asks for it, the program
starts as a shell starts it.
"""
import fcntl
import os
import select
import shutil
import signal
import struct
import subprocess

LIMIT = 20  # seconds of a call
MOST_WORDS, MOST_BYTES = 256, 65536  # of a call that is made by a copy
TO, OF = 198, 199  # the files by which the library gets calls, and reports how they ended

# A call is the number of its arguments, their bytes, whether it needs a copy of its own, and the
# arguments with a zero after each; its end is the answer of `waitpid`. A copy reads the calls after
# its first one itself, and ends at one that needs another copy.
LIBRARY = r"""
#define _GNU_SOURCE
#include <dlfcn.h>
#include <malloc.h>
#include <setjmp.h>
#include <stdint.h>
#include <stdlib.h>
#include <string.h>
#include <sys/mman.h>
#include <sys/syscall.h>
#include <sys/wait.h>
#include <unistd.h>
typedef int main_of(int, char **, char **);
typedef int start_of(main_of *, int, char **, void (*)(void), void (*)(void), void (*)(void), void *);
static struct { uint32_t count, size, own; int waits, runs; char words[MOST_BYTES]; } *call;
static char *places[MOST_WORDS + 2];
static jmp_buf ended;
static volatile pid_t within;
static int is_read(void *to, size_t size) {
    while (size) {
        ssize_t n = read(TO, to, size);
        if (n <= 0) return 0;
        to = (char *)to + n, size -= n;
    }
    return 1;
}
static int is_next(void) { return is_read(call, 12) && is_read(call->words, call->size); }
static void tell(int status) {
    call->runs = 0;
    if (write(OF, &status, sizeof status) != sizeof status) abort();
}
void _exit(int status) {
    if (within && within == syscall(SYS_gettid)) longjmp(ended, 256 + (status & 255));
    for (;;) syscall(SYS_exit_group, status);
}
int __libc_start_main(main_of *main, int count, char **given, void (*init)(void), void (*fini)(void), void (*unload)(void), void *stack) {
    start_of *start = (start_of *)dlsym(RTLD_NEXT, "__libc_start_main");
    call = mmap(0, sizeof *call, PROT_READ | PROT_WRITE, MAP_SHARED | MAP_ANONYMOUS, -1, 0);
    while (call->waits || is_next()) {
        call->waits = 0, call->runs = 1;
        pid_t copy = fork();
        if (copy == 0) {
            do {
                char *at = call->words;
                places[0] = given[0];
                for (uint32_t n = 1; n <= call->count; n++) places[n] = at, at += strlen(at) + 1;
                places[call->count + 1] = 0;
                within = getpid(), call->runs = 1;
                alarm(LIMIT);
                int how = setjmp(ended);
                if (how == 0) exit(start(main, call->count + 1, places, init, fini, unload, stack));
                alarm(0);
                within = 0;
                // Large pieces of memory are mapped anew the second time too.
                mallopt(M_MMAP_THRESHOLD, 131072);
                tell((how - 256) << 8);
            } while (is_next() && !(call->waits = call->own));
            _exit(0);
        }
        int status;
        if (copy < 0 || waitpid(copy, &status, 0) != copy) abort();
        if (call->runs) tell(status);
    }
    _exit(0);
}
"""


def library(folder):
    """The path of the library, which is made in this folder, or nothing where there is no C compiler."""
    compiler = shutil.which("cc") or shutil.which("gcc") or shutil.which("clang")
    if not compiler:
        return None
    with open(folder + "/calls.c", "w") as file:
        file.write(LIBRARY)
    numbers = ["-D%s=%d" % (name, globals()[name]) for name in ("MOST_WORDS", "MOST_BYTES", "TO", "OF", "LIMIT")]
    subprocess.run([compiler, "-O1", "-shared", "-fPIC", "-o", folder + "/calls.so", *numbers, folder + "/calls.c"], check=True)
    return folder + "/calls.so"


class Hangs(Exception):
    pass


class Calls:
    """Calls the program of a path in the folder that is the current one when this is made."""

    def __init__(self, path, preload):
        self.path = path
        # The outputs go into files in memory, after what is there; nothing is there.
        self.said = [os.memfd_create(name) for name in ("out", "err")]
        for number in self.said:
            fcntl.fcntl(number, fcntl.F_SETFL, os.O_APPEND)
        self.nothing = os.open(os.devnull, os.O_RDONLY)
        self.to = self.of = None
        if preload:
            reader, self.to = os.pipe()
            self.of, writer = os.pipe()
            self.start([], {**os.environ, "LD_PRELOAD": preload}, [(reader, TO), (writer, OF)])
            os.close(reader)
            os.close(writer)
            try:
                self.copied([], False)
            except OSError:
                # The program is one that loads no library.
                self.to = None
            self.heard()

    def start(self, words, env, more=()):
        files = [(self.nothing, 0), (self.said[0], 1), (self.said[1], 2), *more]
        return os.posix_spawn(self.path, [self.path] + words, env, file_actions=[(os.POSIX_SPAWN_DUP2, *pair) for pair in files])

    def heard(self):
        """What was said on standard output and standard error since this was asked last."""
        texts = []
        for number in self.said:
            text = os.pread(number, 8192, 0)
            if len(text) == 8192:
                text = os.pread(number, 2**24, 0)
            if text:
                os.ftruncate(number, 0)
            texts.append(text)
        return texts

    def copied(self, words, besides):
        text = b"".join([word + b"\0" for word in words])
        os.write(self.to, struct.pack("=III", len(words), len(text), not besides) + text)
        status = os.read(self.of, 4)
        if len(status) != 4:
            raise BrokenPipeError()
        return int.from_bytes(status, "little")

    def anew(self, words):
        pid = self.start(words, os.environ)
        end = os.pidfd_open(pid)
        ended = select.select([end], [], [], LIMIT)[0]
        os.close(end)
        if not ended:
            os.kill(pid, signal.SIGALRM)
        return os.waitpid(pid, 0)[1]

    def call(self, words, anew=False, besides=False):
        """The exit status, or a signal's number below zero, and what was said."""
        if anew or self.to is None or len(words) > MOST_WORDS or sum(map(len, words)) + len(words) > MOST_BYTES:
            status = self.anew(words)
        else:
            status = self.copied(words, besides)
        status = os.waitstatus_to_exitcode(status)
        out, err = self.heard()
        if status == -signal.SIGALRM:
            raise Hangs()
        return status, out, err
