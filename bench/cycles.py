#!/usr/bin/env python3
"""Counts the cycles of small programs by tools/execute --time and by cc65's simulator, beside those
of the data sheets. It is no part of the gate, and needs cc65 (a package of Debian).

  bench/cycles.py

Each program is the same bytes at 0200 for both, except its last JMP. That goes to sim65's exit at
FFF9, or to the boot ROM's exit at F803, which takes three cycles more. The programs show what
sim65 2.19 counts differently: a taken branch across a page, JMP (abs) of a 65C02, and its last
JMP.
"""
import os
import re
import subprocess
import sys
import tempfile

if {"-h", "--help"} & {*sys.argv}:
    sys.exit(__doc__.strip())
TOP = os.path.dirname(os.path.dirname(os.path.realpath(__file__)))

# What the programs do, their bytes, and what they come to by the data sheets, on the 6502 and on the 65C02, with the LDA and the JMP
# at their end (5).
PROGRAMS = [
    ("two loops, 65,536 times", "A2 00 A0 00 C8 D0 FD E8 D0 F8", [2 + 256 * (2 + 256 * 5 - 1 + 2 + 3) - 1 + 5] * 2),
    ("a branch within its page", "A2 05 CA D0 FD", [2 + 5 * 5 - 1 + 5] * 2),
    # The BNE lies in the last two bytes of a page, so that its target and the byte after it lie in the next.
    ("a branch in the last bytes of a page, on", "4C FC 02" + " EA" * 249 + " A2 01 D0 01 EA", [3 + 2 + 3 + 5] * 2),
    ("a branch back into the page before", "4C 00 03" + " EA" * 250 + " 4C 06 03 A2 00 F0 F9", [3 + 2 + 4 + 3 + 3] * 2),  # (the LDA is passed over)
    ("JMP (abs), ten times", "A2 0A 6C 05 02 07 02 CA D0 F8", [2 + 10 * (jump + 2 + 3) - 1 + 5 for jump in (5, 6)]),
    ("decimal sums, ten times", "F8 A2 0A 69 01 CA D0 FB D8", [2 + 2 + 10 * (add + 2 + 3) - 1 + 2 + 5 for add in (2, 3)]),
]


def run(words, folder):
    done = subprocess.run(words, cwd=folder, stdin=subprocess.DEVNULL, stdout=subprocess.PIPE, stderr=subprocess.PIPE)
    found = re.search(r"([0-9,]+) cycles", (done.stdout + done.stderr).decode())
    return int(found.group(1).replace(",", "")) if found else None


def main():
    same = True
    with tempfile.TemporaryDirectory() as folder:
        for what, text, wanted in PROGRAMS:
            for cpu, name in ((0, "6502"), (1, "65C02")):
                data = bytes.fromhex(text) + b"\xa9\x00\x4c"
                with open(folder + "/sim", "wb") as file:
                    file.write(b"sim65\2" + bytes([cpu, 0, 0, 2, 0, 2]) + data + b"\xf9\xff")
                with open(folder + "/raw", "wb") as file:
                    file.write(data + (b"\x03\xf8" if cpu else b"\x03\xc0"))
                words = [sys.executable, "-B", TOP + "/tools/execute", "--time", "--at", "0200"] + ([] if cpu else ["--host"]) + ["raw"]
                ours, theirs = run(words, folder), run(["sim65", "-c", "sim"], folder)
                # (the boot ROM goes on by a JMP of its own, and the host's by the one after an RTS too)
                if cpu and ours is not None:
                    ours -= 3
                same = same and ours == wanted[cpu]
                print("%-42s %-5s here %s, data sheet %s, sim65 %s" % (what, name, ours, wanted[cpu], theirs))
    return 0 if same else 1


sys.exit(main())
