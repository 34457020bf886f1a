#!/usr/bin/env python3
"""Runs each C program of some folders by tools/execute and by cc65's own simulator, and compares
their standard output and exit status. It is no part of the gate, and needs cc65 (a package of
Debian).

  bench/programs.py [--jobs N] [--options O,Osir] [--ways WAY,WAY] FOLDER ..

cc65's own tests are in Debian's source package: `apt-get source cc65`, and there test/val and
test/ref.

Ways: `cl65 -t sim6502` and `-t sim65c02` compile each program for sim65, whose results are the
expected ones. Then it runs as
  sim65c02   that very file, for a 65C02, on the second processor
  sim6502    that very file, for a 6502, on the second processor
  host       that very file, for a 6502, on the host alone
  c65c02     made by examples/c/build for a 65C02, on the second processor
  c6502      made by examples/c/build for a 6502, on the second processor
  chost      made by examples/c/build --host, on the host alone
  os         made by examples/c/build --disc, with the operating system of system/, on the host
  ostube     that very file, on the second processor

A line reports each program that differs or is skipped: what cc65 refuses, what sim65 does not end
within 200,000,000 cycles (as cc65's own tests have it), what is larger than memory. The status is 0
if none differs.
"""
import argparse
import concurrent.futures
import os
import shutil
import subprocess
import sys
import tempfile

TOP = os.path.dirname(os.path.dirname(os.path.realpath(__file__)))
EXECUTE = [sys.executable, "-B", os.path.join(TOP, "tools", "execute")]
BUILD = os.path.join(TOP, "examples", "c", "build")
WAYS = {"sim65c02": ("sim65c02", []), "sim6502": ("sim6502", []), "host": ("sim6502", ["--host"]),
        "c65c02": ("sim65c02", []), "c6502": ("sim6502", []), "chost": ("sim6502", ["--host"]),
        "os": ("sim6502", ["--os"]), "ostube": ("sim6502", ["--os", "--tube"])}
CYCLES = "200000000"


class Passed(Exception):
    """The program is passed over, and why."""


def called(words, folder, name):
    try:
        done = subprocess.run(words, cwd=folder, stdin=subprocess.DEVNULL, stdout=subprocess.PIPE, stderr=subprocess.PIPE, timeout=1800)
    except subprocess.TimeoutExpired:
        raise Passed("%s did not end" % name) from None
    return done.returncode, done.stdout, done.stderr.decode("utf-8", "replace")


def first_line(text):
    lines = [line for line in text.splitlines() if "rror" in line] or text.splitlines() or [""]
    return lines[0].strip()[:160]


# What sim65 gives, by the target.
def wanted(source, target, option, folder):
    made = os.path.join(folder, target)
    words = ["cl65", "-t", target, option, "-I", os.path.dirname(source), "-o", made, os.path.basename(source)]
    status, _, err = called(words, folder, "cl65")
    if status != 0:
        raise Passed("cc65 refuses it: " + first_line(err))
    status, out, err = called(["sim65", "-x", CYCLES, made], folder, "sim65")
    if "Maximum number of cycles" in err or "Illegal opcode" in err:
        raise Passed("sim65: " + first_line(err))
    return made, status, out, err.encode()


class Case:
    """A program with an option, in a folder of its own."""

    def __init__(self, source, option, folder):
        self.source, self.option, self.folder, self.known = source, option, folder, {}
        os.mkdir(folder)
        # (a copy, since cl65 puts its objects beside the source)
        shutil.copy(source, folder)

    def wanted(self, target):
        if target not in self.known:
            try:
                self.known[target] = wanted(self.source, target, self.option, self.folder)
            except Passed as passed:
                self.known[target] = passed
        if isinstance(self.known[target], Passed):
            raise self.known[target]
        return self.known[target]

    def run(self, way):
        """Which of the three counts rises: 0 the same, 1 differing, 2 passed over; and the line that reports it."""
        name = "%s %s %s" % (os.path.basename(self.source), self.option, way)
        target, words = WAYS[way]
        try:
            made, status, out, err = self.wanted(target)
            if way[0] == "o":
                out += err              # the operating system has no standard error
            if way[0] in "co":
                made = os.path.join(self.folder, way)
                build = [BUILD] + (["--disc"] if way[0] == "o" else ["--host"] if way == "chost"
                    else ["--cpu", "65C02" if way == "c65c02" else "6502"])
                failed, _, err = called(build + [self.option, "-I", os.path.dirname(self.source), made, os.path.basename(self.source)], self.folder, "build")
                if failed:
                    raise Passed("build: " + first_line(err))
            got, written, err = called(EXECUTE + words + [made], self.folder, "execute")
            if got == 125:
                raise Passed(first_line(err))
        except Passed as passed:
            return 2, "passed over %s: %s" % (name, passed)
        if (got, written) == (status, out):
            return 0, ""
        what = "the same is written" if written == out else "%d bytes are written, and by sim65 %d" % (len(written), len(out))
        return 1, "differs %s: status %d, and by sim65 %d; %s; %s" % (name, got, status, what, first_line(err))

    def all(self, ways):
        return [(way,) + self.run(way) for way in ways]


def main():
    if {"-h", "--help"} & {*sys.argv}:
        sys.exit(__doc__.strip())
    asked = argparse.ArgumentParser(usage=__doc__, add_help=False)
    asked.add_argument("--jobs", type=int, default=1)
    asked.add_argument("--options", default="O")
    asked.add_argument("--ways", default=",".join(WAYS))
    asked.add_argument("folders", nargs="+")
    asked = asked.parse_args()
    options, ways = ["-" + word for word in asked.options.split(",")], asked.ways.split(",")
    sources = sorted(os.path.abspath(os.path.join(folder, name)) for folder in asked.folders for name in os.listdir(folder) if name.endswith(".c"))
    total = {way: [0, 0, 0] for way in ways}
    with tempfile.TemporaryDirectory() as work, concurrent.futures.ThreadPoolExecutor(asked.jobs) as workers:
        cases = [Case(source, option, os.path.join(work, str(number)))
                 for number, (source, option) in enumerate((source, option) for source in sources for option in options)]
        for results in workers.map(lambda case: case.all(ways), cases):
            for way, which, line in results:
                total[way][which] += 1
                if line:
                    print(line, flush=True)
    for way in ways:
        print("%-9s same %d, differing %d, passed over %d" % ((way,) + tuple(total[way])))
    print("programs %d, runs %d: same %d, differing %d, passed over %d" % (
        (len(sources), sum(map(sum, total.values()))) + tuple(sum(total[way][at] for way in ways) for at in range(3))))
    return 1 if sum(total[way][1] for way in ways) else 0


sys.exit(main())
