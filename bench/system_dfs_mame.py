#!/usr/bin/env python3
"""system_dfs_mame.py: runs the disc filing system of system/built in MAME and in the program.

A script of commands is begun with SHIFT from the disc in drive 0, and changes both discs. The discs
that are left are compared byte for byte, and memory from 0000 to 7FFF but for the cells that
system_mame.py leaves out, the slots and NMI's holder. The status is 1 if anything differs. It needs
MAME (Debian package mame).
"""
import sys
import tempfile

sys.dont_write_bytecode = True
import system_mame  # noqa: E402
import beebtube  # noqa: E402
import test_system_dfs as dfs  # noqa: E402
from beebtube.disc import LARGEST, Disc, with_file  # noqa: E402

SECONDS = 25
LINES = ("*CAT", "*DRIVE 1", "*SAVE NEW C000 +300", "*SAVE OLD3 C100 +600", "*DELETE GONE",
    "*COMPACT", "*LOAD OLD2 3000", "*COPY 1 0 N*", "*INFO *", "*DRIVE 0", "*SAVE T 3000 +700")


def discs():
    """The disc of the script, and one of files, at their full lengths."""
    other = dfs.disc_of(title="One")
    for name, length in (("OLD0", 700), ("GONE", 256), ("OLD2", 2000), ("OLD3", 300),
            ("OLD5", 1500)):
        data = bytes(at * 7 + length & 255 for at in range(length))
        other = with_file(other, dfs.new(name, data, 0x3000, 0x3000))
    return [Disc(disc.image.ljust(LARGEST[False], b"\0")) for disc in (dfs.script(*LINES), other)]


def main():
    with tempfile.TemporaryDirectory(prefix="beebtube-mame-") as folder:
        left = system_mame.mame(folder, beebtube.pressed((0, "SHIFT", 3 * dfs.SECOND)), SECONDS,
            dfs.MON, discs())
    memory = left["memory"]
    first, second = discs()
    run = dfs.started(SECONDS, disc0=first, disc1=second)
    slots = {at + 2 for at in range(0xD9F, 0xDF0, 3)} | set(range(0xDF0, 0xE00))
    cells = [at for at in range(0x8000) if at not in system_mame.SKIPPED | slots
        and memory[at] != run.host[at]]
    print("memory: %d cells differ %s" % (len(cells), " ".join("%04X" % at for at in cells[:20])))
    same = not cells
    for drive in range(2):
        image = left["%d.ssd" % drive]
        sectors = [at // 256 for at in range(0, len(image), 256)
            if image[at : at + 256] != run.discs[drive].image[at : at + 256].ljust(256, b"\0")]
        print("disc %d: %d sectors differ %s" % (drive, len(sectors), sectors[:20]))
        same = same and not sectors
    return 0 if same else 1


if __name__ == "__main__":
    sys.exit(main())
