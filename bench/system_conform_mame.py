#!/usr/bin/env python3
"""system_conform_mame.py [NAME ..]: runs the programs of system/conform in MAME's `bbcb`.

Each runs from a disc, on the host alone and on the second processor, with the images of
system/built and the keys of the test, and prints what does not hold. A line for each has the end of
its screen. The status is 1 if it differs from what the test finds in the program. It needs MAME and
cc65 (Debian packages mame, cc65).
"""
import sys
import tempfile

sys.dont_write_bytecode = True
import system_mame  # noqa: E402
import beebtube  # noqa: E402
import test_system_c as conform  # noqa: E402
import test_system_dfs as dfs  # noqa: E402
import test_system_tube as tube  # noqa: E402
from beebtube.disc import LARGEST, Disc  # noqa: E402


def main(names):
    failed = 0
    for name, (host, second, seconds) in conform.CALLS.items():
        if names and name not in names:
            continue
        for tried, boot in ((host, None), (second, tube.TUBE)):
            with tempfile.TemporaryDirectory(prefix="beebtube-mame-") as folder:
                disc = conform.conformance(folder, name)
                disc = Disc(disc.image.ljust(LARGEST[False], b"\0"))
                memory = system_mame.mame(folder, conform.KEYS if name == "keys"
                    else beebtube.pressed((0, "SHIFT", 3 * dfs.SECOND)), seconds + 3, dfs.MON,
                    [disc], boot)["memory"]
            at = int.from_bytes(memory[0x350:0x352], "little")
            shown = [line for line in beebtube.screen_of(memory, at) if line]
            wanted = conform.told(name, tried)
            failed |= shown[-2:] != wanted
            print("%s: %s" % ("second processor" if boot else "host",
                " / ".join(shown[-2:-1] if shown[-2:] == wanted else shown)), flush=True)
    return failed


if __name__ == "__main__":
    sys.exit(main(sys.argv[1:]))
