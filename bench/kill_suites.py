#!/usr/bin/env python3
"""Kills suites at random moments and begins them again. Each must end with the table of an
undisturbed suite, and leave no other files.

bench/kill_suites.py [ROUNDS [SEED]]   50 rounds with seed 7 by default
"""
import csv
import os
import random
import signal
import subprocess
import sys
import tempfile
import time

TOP = os.path.dirname(os.path.dirname(os.path.realpath(__file__)))
TIMES = ("seconds", "processor")


def begin(folder, results, kept):
    words = [os.path.join(TOP, "tools", "suite"), "-j", "2", "--ticks", "100000", "--shot", "--keep", kept, "discs", results]
    return subprocess.Popen(words + ["--", "--os", "os", "--tube", "tube"], cwd=folder, stdout=subprocess.DEVNULL,
                            stderr=subprocess.DEVNULL, start_new_session=True, env={**os.environ, "TMPDIR": folder + "/own"})


def table(folder, results):
    with open(os.path.join(folder, results, "results.csv"), newline="", encoding="utf-8") as file:
        return [{name: cell for name, cell in row.items() if name not in TIMES} for row in csv.DictReader(file)]


# What has the name of a file or folder that is not finished; it is made old, so that the next suite may remove it.
def unfinished(folder, results):
    found = [os.path.join(at, name) for at, _, names in os.walk(os.path.join(folder, results)) for name in names if name[0] == "."]
    for name in found:
        os.utime(name, (0, 0))
    return found + os.listdir(folder + "/own")


def main(rounds=50, seed=7):
    dice, good, kills, left = random.Random(int(seed)), 0, 0, 0
    with tempfile.TemporaryDirectory(prefix="kill-suites-") as folder:
        for name in ("discs", "own"):
            os.mkdir(os.path.join(folder, name))
        for part, source, name in (("6502", "disc-os", "os"), ("65c02", "loop-tube", "tube")):
            subprocess.run([TOP + "/beebtube", "asm", part, "%s/examples/%s.asm" % (TOP, source), name], cwd=folder, check=True)
        for name, data in [("disc%d.ssd" % at, b"%d " % at * 200) for at in range(6)] + [("bad.ssd", bytes(204801)), ("a\n.ssd", b"odd")]:
            with open(os.path.join(folder, "discs", name), "wb") as file:
                file.write(data)
        began = time.monotonic()
        begin(folder, "whole", "whole-kept").wait()
        whole, wanted = time.monotonic() - began, table(folder, "whole")
        for number in range(int(rounds)):
            names = "results%d" % number, "kept%d" % number
            for _ in range(dice.choice((1, 1, 2, 3))):
                suite = begin(folder, *names)
                time.sleep(dice.uniform(0.1, whole))
                kills += suite.poll() is None
                try:
                    kill = os.killpg if dice.random() < 0.5 else os.kill
                    kill(suite.pid, signal.SIGKILL if kill is os.killpg else dice.choice((signal.SIGTERM, signal.SIGKILL, signal.SIGINT)))
                except ProcessLookupError:
                    pass
                suite.wait()
            unfinished(folder, names[0])
            begin(folder, *names).wait()
            same_names = sorted(os.listdir(os.path.join(folder, names[1]))) == sorted(os.listdir(os.path.join(folder, "whole-kept")))
            good += table(folder, names[0]) == wanted and same_names
            left += len(unfinished(folder, names[0]))
    print("%d of %s suites, killed %d times, have the table of an undisturbed one; unfinished files left: %d" % (good, rounds, kills, left))
    return 0 if good == int(rounds) and not left else 1


sys.exit(main(*sys.argv[1:]))
