#!/usr/bin/env python3
"""system_tube_mame.py: runs the Tube's code of system/built in MAME and in the program.

A script of commands is begun with SHIFT from the disc in drive 0: programs start on the second
processor and on the host, files go to and from both memories, errors come back, and a language is
entered once more. The disc that is left is compared byte for byte, and so are both memories, but
for the cells that system_mame.py leaves out, the slots, and the second processor's stack and cells
EE to FF. The status is 1 if anything differs. It needs MAME (Debian package mame).
"""
import sys
import tempfile

sys.dont_write_bytecode = True
import system_mame  # noqa: E402
import beebtube  # noqa: E402
import test_system_dfs as dfs  # noqa: E402
import test_system_tube as tube  # noqa: E402
from beebtube.disc import LARGEST, Disc  # noqa: E402

SECONDS = 20
LINES = ("*CAT", "*PROG", "*RUN HOST", "*SAVE PARA 2000 +800", "*SAVE OS FFFFC000 +800",
    "*LOAD OS 5000", "*LOAD PARA FFFF5000", "*RUN NONE", "*DELETE OS", "*SAVE BACK 4F80 +900",
    "*GO 3000", "*MON", "S 2100 12 34", "*INFO *")


def disc():
    """A disc of the script: a program for each processor."""
    here = tube.program("        LDX #0\nloop:   TXA\n        STA &2000,X\n        INX\n"
        "        BNE loop\n        LDA #66\n        JSR &FFEE\n        JMP &FFE7\n")
    host = dfs.code("        LDA #65\n        JSR &FFEE\n        JSR &FFE7\n", 0x2800)
    made = dfs.disc_of(dfs.new(dfs.BOOT, "".join(line + "\r" for line in LINES).encode()),
        dfs.new("PROG", here, tube.AT, tube.AT), dfs.new("HOST", host, 0x32800, 0x32800),
        option=dfs.EXEC)
    return Disc(made.image.ljust(LARGEST[False], b"\0"))


def main():
    with tempfile.TemporaryDirectory(prefix="beebtube-mame-") as folder:
        left = system_mame.mame(folder, beebtube.pressed((0, "SHIFT", 3 * dfs.SECOND)), SECONDS,
            dfs.MON, [disc()], tube.TUBE)
    memory, second, image = left["memory"], left["second"], left["0.ssd"]
    run = tube.started(SECONDS, dfs.SHIFT + b"at 17000000 up 00\n", disc0=disc())
    slots = {at + 2 for at in range(0xD9F, 0xDF0, 3)} | set(range(0xDF0, 0xE00)) | {0x24A}
    cells = [at for at in range(0x8000) if at not in system_mame.SKIPPED | slots
        and memory[at] != run.host[at]]
    others = [at for at in range(0xF800) if not (0xEE <= at < 0x200)
        and second[at] != run.para[at]]
    sectors = [at // 256 for at in range(0, len(image), 256)
        if image[at : at + 256] != run.discs[0].image[at : at + 256].ljust(256, b"\0")]
    for name, found in (("memory", cells), ("second processor", others)):
        print("%s: %d cells differ %s" % (name, len(found),
            " ".join("%04X" % at for at in found[:20])))
    print("disc: %d sectors differ %s" % (len(sectors), sectors[:20]))
    return 1 if cells or others or sectors else 0


if __name__ == "__main__":
    sys.exit(main())
