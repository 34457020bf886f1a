#!/usr/bin/env -S python3 -E
"""Measures the program of release/, and writes docs/SPEED.md and the README's line about speed.

  bench/speed.py --write           measures; writes bench/speed.csv, this version's row of
                                   bench/history.csv, and both pages
  bench/speed.py --counts PROGRAM  prints the instruction counts of any program
  bench/speed.py --history PROGRAM VERSION DATE
                                   writes the row of another release, by its program
  bench/speed.py make              makes both pages and the row from bench/speed.csv
  bench/speed.py check             status 1 if they are not made from bench/speed.csv, or if that
                                   is not of the program and the sources of release/

It needs valgrind. The counts are the same under any load; the times are not, so the page has the
load. Each run has a limit, so that a busy computer needs at most about ten minutes.
BEEBTUBE_RELEASE=FOLDER takes another folder in place of release/.
"""
import concurrent.futures
import csv
import hashlib
import io
import os
import platform
import re
import shutil
import signal
import statistics
import subprocess
import sys
import tempfile
import textwrap
import threading
import time

TOP = os.path.dirname(os.path.dirname(os.path.realpath(__file__)))
RELEASE = os.environ.get("BEEBTUBE_RELEASE") or TOP + "/release"
ROWS, HISTORY = TOP + "/bench/speed.csv", TOP + "/bench/history.csv"
PAGE, README = TOP + "/docs/SPEED.md", TOP + "/README.md"
SECOND = 6000000
LONGEST = 1073741824
ENDLESS = float("inf")
# The repeats of a time, the seconds after which it is not repeated, and those that one run may take.
REPEATS, ENOUGH, LIMIT = 7, 20, 60

# Source texts by the name of their binary: the processor and the file.
SOURCES = {
    "busy-tube": "bench/busy-tube", "busy-os": "bench/busy-os", "font": "examples/font",
    "demo-os": "examples/demo-os", "demo-tube": "examples/demo-tube",
    **{"dev-" + it: "bench/devices/%s-os" % it for it in (
        "disc timers handler screen screen40 teletext store read system poll").split()},
    **{it: "bench/pairs/" + it for it in (
        "talk-os talk-tube stream-tube slow-tube echo-os echo-tube polls-tube").split()},
}
DISC, FONT = "--disc0 disc", "--font font"
# Bus cycles: what runs, the key of the row, ticks of a bus cycle, and the arguments.
HOST = "replay host empty {} out --os "
CYCLES = (
    ("the second processor at 3 MHz, a busy program", "second", 2,
     "replay para empty {} out --tube busy-tube"),
    ("the second processor at 4 MHz", "second4", 3,
     "replay para empty4 {} out --speed 4 --tube busy-tube"),
    ("the host, a busy program", "host", 3, HOST + "busy-os"),
    ("with a disc that turns", "disc", 3, HOST + "dev-disc " + DISC),
    ("with both timers, which interrupt each millisecond", "timers", 3, HOST + "dev-timers"),
    ("with a timer's interrupt each 10 milliseconds", "handler", 3, HOST + "dev-handler"),
    ("with a screen of 80 characters", "screen", 3, HOST + "dev-screen"),
    ("with a screen of 40 characters", "screen40", 3, HOST + "dev-screen40"),
    ("with a page of teletext", "teletext", 3, HOST + "dev-teletext " + FONT),
    ("stores into the shown screen all the time", "store", 3, HOST + "dev-store"),
    ("a whole disc read by NMI, with a screen of 80 characters", "read", 3,
     HOST + "dev-read " + DISC),
    ("interrupts of vertical sync and the keyboard's reads, as an operating system makes them",
     "system", 3, HOST + "dev-system"),
    ("a 6522's flags polled in a loop, with a screen of 80 characters", "poll", 3,
     HOST + "dev-poll"),
)
CYCLE_TICKS = SECOND
# Tube accesses: the name of the pair, what it does, and both programs.
PAIRS = (
    ("demo", "the demonstration: bytes through the Tube", "demo-os", "demo-tube"),
    ("host-polls", "the host polls", "demo-os", "busy-tube"),
    ("second-polls", "the second processor polls", "busy-os", "polls-tube"),
    ("slow", "a byte now and then", "demo-os", "slow-tube"),
    ("stream", "bytes without pause", "demo-os", "stream-tube"),
    ("talk", "both send while the host draws", "talk-os", "talk-tube"),
    ("echo", "each byte goes back at once", "echo-os", "echo-tube"),
    ("busy", "no access: both machines compute", "busy-os", "busy-tube"),
)
PAIR_TICKS = SECOND // 2


def of_pair(command, name):
    _, _, host, tube = next(it for it in PAIRS if it[0] == name)
    return "%s {} out --os %s --tube %s" % (command, host, tube)


# Times: what runs, the key of the row, the ticks, and the arguments.
ALONE = "replay host /dev/null {} out --no-tube --os "
TIMES = (
    ("a Model B alone, a screen of 80 characters", "alone-screen", 10 * SECOND,
     ALONE + "dev-screen"),
    ("a Model B alone, a page of teletext", "alone-teletext", 10 * SECOND,
     ALONE + "dev-teletext " + FONT),
    ("both machines compute", "run-busy", 10 * SECOND, of_pair("run", "busy")),
    ("the demonstration: bytes through the Tube", "solo-demo", 5 * SECOND,
     of_pair("solo", "demo")),
    ("the demonstration", "run-demo", 5 * SECOND, of_pair("run", "demo")),
    ("bytes without pause, the slowest kind", "run-stream", SECOND // 5,
     of_pair("run", "stream")),
)
LONG = ("alone-screen", "run-busy", "solo-demo", "run-demo")


def text_of(file):
    with open(file, encoding="utf-8") as it:
        return it.read()


def write(file, text):
    with open(file + ".part", "w", encoding="utf-8") as it:
        it.write(text)
    os.rename(file + ".part", file)


def stop(why):
    sys.exit("speed: " + why)


# -- Measuring --


class Program:
    """A program in a folder that has all that the runs read."""

    def __init__(self, program, folder):
        if not shutil.which("valgrind"):
            stop("valgrind is not installed: it counts the instructions")
        self.program, self.folder = os.path.realpath(program), folder
        self.put("empty", b"")
        self.put("empty4", b"T2\n")
        self.put("disc", bytes(204800))
        for name, source in SOURCES.items():
            processor = "65c02" if name.endswith("-tube") else "6502"
            self.call(["asm", processor, "%s/%s.asm" % (TOP, source), name])

    def put(self, name, data):
        with open(os.path.join(self.folder, name), "wb") as it:
            it.write(data)

    def call(self, words, before=(), folder=None):
        """Calls the program and returns what it printed on standard error."""
        done = subprocess.run([*before, self.program, *words], cwd=folder or self.folder,
                              stdin=subprocess.DEVNULL, stdout=subprocess.PIPE,
                              stderr=subprocess.PIPE, text=True)
        if done.returncode:
            stop("status %d of %s\n%s" % (done.returncode, " ".join(words), done.stderr))
        return done.stderr

    def room(self):
        """A folder for one run, with the same files."""
        room = tempfile.mkdtemp(dir=self.folder)
        for it in ("empty", "empty4", "disc", *SOURCES):
            os.symlink(os.path.join(self.folder, it), os.path.join(room, it))
        return room

    def count(self, words, ticks):
        """The instructions and the indirect jumps of one run, and its report."""
        room = self.room()
        log = self.call(words.format(ticks).split(), (
            "valgrind", "--tool=cachegrind", "--branch-sim=yes", "--cache-sim=no",
            "--cachegrind-out-file=/dev/null"), room)
        report = text_of(room + "/out.report")
        shutil.rmtree(room)
        numbers = log.replace(",", "")
        instructions = re.search(r"I +refs: +(\d+)", numbers)
        jumps = re.search(r"Branches:.*\+ *(\d+) ind", numbers)
        if not instructions or not jumps:
            stop("valgrind printed no counts:\n" + log)
        return int(instructions.group(1)), int(jumps.group(1)), report

    def time(self, words, ticks):
        """The seconds of one run by the clock and of all its threads, without an end if the limit
        ended it."""
        room = self.room()
        began = time.monotonic()
        child = subprocess.Popen([self.program, *words.format(ticks).split()], cwd=room,
                                 stdin=subprocess.DEVNULL)
        timer = threading.Timer(LIMIT, child.kill)
        timer.start()
        _, status, used = os.wait4(child.pid, 0)
        took = time.monotonic() - began
        timer.cancel()
        child.returncode = os.waitstatus_to_exitcode(status)
        shutil.rmtree(room)
        if child.returncode == -signal.SIGKILL and took >= LIMIT:
            return ENDLESS, ENDLESS
        if child.returncode:
            stop("status %d of %s" % (child.returncode, words))
        return took, used.ru_utime + used.ru_stime


def counted(program):
    """The rows of counts: `cycle` and `access`."""

    def cycles(row):
        _, key, length, words = row
        none, all_of_them = program.count(words, 0), program.count(words, CYCLE_TICKS)
        return ("cycle", key, CYCLE_TICKS // length, all_of_them[0] - none[0],
                all_of_them[1] - none[1])

    def accesses(row):
        instructions, _, report = program.count(of_pair("solo", row[0]), PAIR_TICKS)
        return "access", row[0], re.search(r"(?m)^tube (\d+)$", report).group(1), instructions

    with concurrent.futures.ThreadPoolExecutor(os.cpu_count()) as pool:
        return [*pool.map(cycles, CYCLES), *pool.map(accesses, PAIRS)]


def timed(program):
    """The rows of times: `time` of each run in turn, and `longest`."""
    rows, spent = [], dict.fromkeys([it[1] for it in TIMES], 0.0)
    for _ in range(REPEATS):
        for _, key, ticks, words in TIMES:
            if spent[key] < ENOUGH:
                took = program.time(words, ticks)
                spent[key] += took[0]
                rows.append(("time", key, ticks, "%.4f" % took[0], "%.4f" % took[1]))
    for _, key, _, words in TIMES:
        if key in LONG:
            took = program.time(words, LONGEST)
            rows.append(("longest", key, LONGEST, "%.2f" % took[0], "%.2f" % took[1]))
    return rows


def load():
    return "%.1f" % os.getloadavg()[0]


def processor():
    names = re.findall(r"(?m)^model name\s*: (.*)$", text_of("/proc/cpuinfo"))
    return names[0] if names else platform.machine()


def sum_of(file):
    with open(file, "rb") as it:
        return hashlib.sha256(it.read()).hexdigest()


def measured(file, version, date, sources):
    """All rows of a program."""
    facts = {
        "version": version, "program": sum_of(file), "sources": sources, "date": date,
        "processor": processor(), "processors": os.cpu_count(), "kernel": platform.release(),
        "nice": os.nice(0), "load before": load(),
    }
    with tempfile.TemporaryDirectory(prefix="speed-") as folder:
        program = Program(file, folder)
        times = timed(program)
        facts["load after"] = load()
        counts = counted(program)
    facts["valgrind"] = subprocess.run(["valgrind", "--version"], stdout=subprocess.PIPE,
                                       text=True).stdout.strip()
    return [("fact", *it) for it in facts.items()] + times + counts


# -- The files of numbers --


def lines_of(rows):
    text = io.StringIO()
    csv.writer(text, lineterminator="\n").writerows(rows)
    return text.getvalue()


class Numbers:
    """The rows of one program, as numbers."""

    def __init__(self, rows):
        rows = [tuple(map(str, it)) for it in rows]
        self.facts = {it[1]: it[2] for it in rows if it[0] == "fact"}
        self.clock, self.used, self.longest, self.cycles, self.accesses = {}, {}, {}, {}, {}
        for kind, key, first, *rest in rows:
            if kind == "time":
                second = SECOND / int(first)
                self.clock.setdefault(key, []).append(float(rest[0]) * second)
                self.used.setdefault(key, []).append(float(rest[1]) * second)
            elif kind == "longest":
                self.longest[key] = float(rest[0]), float(rest[1])
            elif kind == "cycle":
                self.cycles[key] = int(rest[0]) / int(first), int(rest[1]) / int(first)
            elif kind == "access":
                self.accesses[key] = int(first), int(rest[0])

    def an_access(self, key):
        accesses, instructions = self.accesses[key]
        return instructions / accesses if accesses else None

    def history(self):
        """The cells of this program's row in bench/history.csv, by the names of the columns."""
        return {
            **{it: self.facts[it] for it in ("version", "date", "program")},
            **{"cycle " + it[1]: "%.1f" % self.cycles[it[1]][0] for it in CYCLES},
            **{"access " + it[0]: "%.0f" % self.an_access(it[0]) for it in PAIRS[:-1]},
            **{"time " + it[1]: "%.4f" % statistics.median(self.used[it[1]]) for it in TIMES},
        }


def add_to_history(numbers):
    """Writes this version's row in place of the one that it has, or below all others."""
    row = numbers.history()
    rows = []
    if os.path.exists(HISTORY):
        with open(HISTORY, encoding="utf-8", newline="") as it:
            rows = [it for it in csv.DictReader(it) if it["version"] != row["version"]]
    rows = sorted([*rows, row], key=lambda it: [int(part) for part in it["version"].split(".")])
    write(HISTORY, lines_of([list(row)] + [[it.get(name, "") for name in row] for it in rows]))


# -- The pages --


def seconds(number):
    """A number with two or three digits, without an exponent."""
    if number == ENDLESS:
        return "not ended"
    return "%.*f" % (4 if number < 0.1 else 3 if number < 1 else 2 if number < 10 else 1, number)


def spread(numbers):
    return [seconds(it) for it in (min(numbers), statistics.median(numbers), max(numbers))]


def table(head, rows):
    lines = ["| %s |\n" % " | ".join(map(str, it)) for it in (head, *rows)]
    return "".join([lines[0], "|---" * len(head) + "|\n", *lines[1:]])


def wrapped(text):
    return textwrap.fill(" ".join(text.split()), 100, break_long_words=False,
                         break_on_hyphens=False) + "\n"


def command_of(words):
    return "`%s`" % " ".join(words.split()[: 2 if words.startswith("replay") else 1])


def page_of(numbers):
    facts = numbers.facts
    expected = [[what, command_of(words), *spread(numbers.used[key]), *spread(numbers.clock[key]),
                 len(numbers.clock[key])] for what, key, _, words in TIMES]
    longest = [[what, command_of(words), *map(seconds, numbers.longest[key])]
               for what, key, _, words in TIMES if key in LONG]
    cycles = [[what, "%.1f" % numbers.cycles[key][0], "%.2f" % numbers.cycles[key][1]]
              for what, key, _, _ in CYCLES]
    accesses = []
    for key, what, _, _ in PAIRS:
        number, instructions = numbers.accesses[key]
        each = "%d" % numbers.an_access(key) if number else "-"
        accesses.append(["`%s`" % key, what, "{:,}".format(number), "{:,}".format(instructions),
                         each])
    one = next(it for it in TIMES if it[1] == "run-demo")
    return "".join((
        "# Speed\n\n",
        wrapped("""This page is for you if you ask how long a run takes. `bench/speed.py --write`
            measures one program in one session and writes all of this page. beebtube promises no
            time: another computer, or other work on yours, gives other times."""),
        "\n",
        table(["What was measured", ""], [
            ["version", "beebtube " + facts["version"]],
            ["program, SHA-256", "`%s`" % facts["program"]],
            ["sources", "`%s`" % facts["sources"]],
            ["date", facts["date"]],
            ["computer", "%s processors, %s" % (facts["processors"], facts["processor"])],
            ["kernel", "Linux " + facts["kernel"]],
            ["load average", "%s before the times, %s after them; niceness %s" % (
                facts["load before"], facts["load after"], facts["nice"])],
            ["counts", "cachegrind of " + facts["valgrind"]],
        ]),
        "\n",
        wrapped("""If the load before the times is above 0, other programs ran beside these runs.
            Then the times by the clock are longer than on an idle computer. CPU seconds change
            less, and the counts do not change."""),
        "\n## What to expect\n\n",
        wrapped("""Seconds for one second of machine time: the least, the median and the most of
            the runs. CPU seconds are those of all threads together. Each run writes all its files
            new, with a trace of up to 1,048,576 accesses."""),
        "\n",
        table(["What runs", "Command", "CPU: least", "median", "most", "Clock: least", "median",
               "most", "Runs"], expected),
        "\n",
        wrapped("""In a run of bytes without pause the two threads of `run` wait for each other at
            each byte. `solo` writes the same files, and has no such wait."""),
        "\n## The longest run\n\n",
        wrapped("""A run has at most 1,073,741,824 ticks, 179 s of machine time. Each of these was
            run once for so long; a run that needs more than %d s was ended.""" % LIMIT),
        "\n",
        table(["What runs", "Command", "Seconds by the clock", "CPU seconds"], longest),
        "\n## Instruction counts\n\n",
        wrapped("""Other work on the computer does not change these counts. The environment and
            another C library may change them a little."""),
        "\n",
        wrapped("""One bus cycle in a replay, without the start of the program, over %s ticks: all
            instructions, and jumps through a table or a register."""
                % "{:,}".format(CYCLE_TICKS)),
        "\n",
        table(["What runs", "Instructions", "Such jumps"], cycles),
        "\n",
        wrapped("""One Tube access of either machine in `solo`, with the trace, over %s ticks. The
            instructions are those of the whole run, the machines' own included."""
                % "{:,}".format(PAIR_TICKS)),
        "\n",
        table(["Pair", "What it does", "Accesses", "Instructions", "Each access"], accesses),
        "\n## Method\n\n",
        wrapped("""All programs are in `bench/devices`, `bench/pairs`, `bench` and `examples`;
            `bench/speed.py` names the source and the arguments of each row. The times are taken in
            turn: each row once, then each row again, up to %d times. A row whose runs took more
            than %d s together is not run again. The raw numbers are in `bench/speed.csv`, and
            `bench/history.csv` has a row for each release. For example, in a folder with the
            binaries of both programs:""" % (REPEATS, ENOUGH)),
        "\n",
        "    time beebtube %s\n" % one[3].format(one[2]),
        "    valgrind --tool=cachegrind --branch-sim=yes --cache-sim=no release/beebtube \\\n",
        "        %s\n\n" % of_pair("solo", "demo").format(PAIR_TICKS),
        wrapped("""`bench/speed.py --counts PROGRAM` prints the counts of any program.
            `bench/run.sh` compares `run`, `solo` and both replays for any pair. `bench/replay.sh`
            measures the replays with devices, `bench/session.sh` resumed runs, and `bench/check.sh`
            and `bench/asm.sh` the largest trace and source. `bench/cell.sh` measures the cell that
            both threads share."""),
    ))


def line_of(numbers):
    """The README's paragraph about speed."""
    middle = [seconds(statistics.median(numbers.used[it]))
              for it in ("alone-screen", "run-demo", "run-stream")]
    return wrapped("""A second of machine time takes %s CPU seconds for a Model B alone, and %s for
        two machines. With bytes without pause it takes %s
        ([measured %s](docs/SPEED.md#what-to-expect))."""
                   % (*middle, numbers.facts["date"]))


def pages(numbers):
    """Each page that is made, by its file."""
    readme, found = re.subn(r"(?s)(\n## Speed\n\n).*?(\n## )",
                            lambda it: it.group(1) + line_of(numbers) + it.group(2),
                            text_of(README))
    if found != 1:
        stop("README.md has no heading `Speed`")
    return {PAGE: page_of(numbers), README: readme}


def stored():
    with open(ROWS, encoding="utf-8", newline="") as it:
        return Numbers(csv.reader(it))


def check():
    numbers = stored()
    wrong = ["%s is not made from bench/speed.csv: bench/speed.py make" % os.path.relpath(it, TOP)
             for it, text in pages(numbers).items() if text_of(it) != text]
    for fact, file, what in (("program", "sum", "another program"),
                             ("sources", "sources", "other sources")):
        if numbers.facts[fact] != text_of("%s/%s" % (RELEASE, file)).split()[0]:
            wrong.append("bench/speed.csv is of %s than release/%s: bench/speed.py --write"
                         % (what, file))
    with open(HISTORY, encoding="utf-8", newline="") as it:
        if numbers.history() not in csv.DictReader(it):
            wrong.append("bench/history.csv lacks the row of bench/speed.csv")
    if wrong:
        stop("\nspeed: ".join(wrong))


def main(words):
    if words == ["--write"]:
        if sum_of(RELEASE + "/beebtube") != text_of(RELEASE + "/sum").strip():
            stop("release/beebtube does not have the checksum of release/sum")
        rows = measured(RELEASE + "/beebtube", text_of(TOP + "/VERSION").strip(), time.strftime("%Y-%m-%d"),
                        text_of(RELEASE + "/sources").split()[0])
        made = pages(Numbers(rows))
        write(ROWS, lines_of(rows))
        add_to_history(Numbers(rows))
        for file, text in made.items():
            write(file, text)
    elif len(words) == 2 and words[0] == "--counts":
        with tempfile.TemporaryDirectory(prefix="speed-") as folder:
            numbers = Numbers(counted(Program(words[1], folder)))
        for what, key, _, _ in CYCLES:
            print("%6.1f instructions and %.2f indirect jumps a bus cycle: %s"
                  % (*numbers.cycles[key], what))
        for key, what, _, _ in PAIRS[:-1]:
            print("%6.0f instructions an access: %s, %s" % (numbers.an_access(key), key, what))
    elif len(words) == 4 and words[0] == "--history":
        add_to_history(Numbers(measured(*words[1:], "")))
    elif words == ["make"]:
        add_to_history(stored())
        for file, text in pages(stored()).items():
            write(file, text)
    elif words == ["check"]:
        check()
    else:
        sys.exit(0 if words in (["--help"], ["-h"]) and not print(__doc__.strip())
                 else __doc__.strip())


if __name__ == "__main__":
    main(sys.argv[1:])
