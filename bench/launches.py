#!/usr/bin/env python3
"""launches.py [--seed S] [--count N] [-j LOOPS] [--busy N]

Calls ./beebtube from several loops at once, beside N busy loops, and compares each exit status with
the one that docs/COMMANDS.md has for this call. One call in ten is a run of three minutes, which a
signal ends at a random moment of its first 0.2 s: its status is this signal. The count is 1,000 by
default, with 8 loops and 8 busy loops.

If a status differs, or a call takes longer than five minutes, this prints the call, and its own
exit status is 1. SIGINT and SIGTERM end it after the calls that run.
"""
import argparse
import os
import random
import signal
import subprocess
import sys
import tempfile
import threading
import time

TOP = os.path.dirname(os.path.dirname(os.path.realpath(__file__)))
LAUNCHER, EXAMPLES = TOP + "/beebtube", TOP + "/examples"
PAIR = ["--os", "os", "--tube", "tube"]
LONG = ["solo", "1073741824", "o", *PAIR, "--keep", "0"]
# The arguments, the status, and how often they are drawn: an explanation costs ten other calls.
CALLS = (
    (["check", EXAMPLES + "/nmi.trace"], 0, 40),
    (["solo", "x", "o", *PAIR], 1, 3),
    (["check", "missing"], 2, 20),
    (["solo", "9", "o", "--os", "tube", "--tube", "tube"], 3, 3),
    (["check", EXAMPLES + "/order.trace"], 4, 3),
    (["asm", "6502", EXAMPLES + "/small.asm", "nowhere/o"], 5, 20),
    (["check", EXAMPLES + "/wrong.trace"], 8, 20),
)
SIGNALS = (signal.SIGTERM, signal.SIGINT, signal.SIGHUP, signal.SIGKILL)


def with_signals():
    """A shell without a terminal has these ignored in what it begins in the background."""
    for number in SIGNALS[:3]:
        signal.signal(number, signal.SIG_DFL)


def called(words, folder, number, moment):
    """The exit status; None after five minutes."""
    child = subprocess.Popen([LAUNCHER, *words], cwd=folder, stdin=subprocess.DEVNULL,
                             stdout=subprocess.DEVNULL, stderr=subprocess.DEVNULL,
                             preexec_fn=with_signals, start_new_session=True)
    try:
        if number:
            time.sleep(moment)
            child.send_signal(number)
        return child.wait(300)
    except subprocess.TimeoutExpired:
        return None
    finally:
        try:
            os.killpg(child.pid, signal.SIGKILL)
        except ProcessLookupError:
            pass
        child.wait()


def main():
    asked = argparse.ArgumentParser(usage=__doc__)
    for name, value in (("--seed", 1), ("--count", 1000), ("-j", 8), ("--busy", 8)):
        asked.add_argument(name, type=int, default=value)
    asked = asked.parse_args()
    wrong, done, lock, ending = [], [0], threading.Lock(), threading.Event()
    for number in SIGNALS[:2]:
        signal.signal(number, lambda *_: ending.set())

    def loop(at):
        dice = random.Random("%d %d" % (asked.seed, at))
        for _ in range(at, asked.count, asked.j):
            if ending.is_set():
                return
            if dice.random() < 0.1:
                number = dice.choice(SIGNALS)
                words, wanted = LONG, -number
            else:
                words, wanted, _ = dice.choices(CALLS, [it[2] for it in CALLS])[0]
                number = 0
            moment = dice.random() * 0.2
            status = called(words, folder, number, moment)
            with lock:
                done[0] += 1
                if status != wanted:
                    wrong.append(status)
                    print("status %s, not %d: %s after %.4f s"
                          % (status, wanted, " ".join(words), moment), flush=True)

    busy = [subprocess.Popen([sys.executable, "-c", "while True: pass"]) for _ in range(asked.busy)]
    try:
        with tempfile.TemporaryDirectory() as folder:
            for name, part in (("os", "6502"), ("tube", "65c02")):
                source = "%s/letters-%s.asm" % (EXAMPLES, name)
                subprocess.run([LAUNCHER, "asm", part, source, folder + "/" + name], check=True)
            began = time.monotonic()
            loops = [threading.Thread(target=loop, args=(it,)) for it in range(asked.j)]
            for it in loops:
                it.start()
            for it in loops:
                it.join()
            print("calls %d of seed %d in %d s: %d statuses are wrong"
                  % (done[0], asked.seed, time.monotonic() - began, len(wrong)))
    finally:
        for it in busy:
            it.kill()
            it.wait()
    return 1 if wrong else 0


if __name__ == "__main__":
    sys.exit(main())
