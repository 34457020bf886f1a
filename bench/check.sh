#!/usr/bin/env bash
# Times `check` on the largest trace that the program writes, 4,194,304 lines of 20 bytes, beside
# `sha256sum` of the same file.
. "$(dirname "$0")/common.sh"

# Bytes both ways through registers 1 and 2, with the status reads around them.
python3 - <<'PY'
rounds = [
    ("H", "W", 1, 0x5A), ("P", "R", 0, 0xC0), ("P", "R", 1, 0x5A),
    ("P", "W", 1, 0x3C), ("H", "R", 0, 0xC0), ("H", "R", 1, 0x3C),
    ("P", "W", 3, 0x0F), ("H", "R", 3, 0x0F),
]
with open("largest.trace", "w", buffering=1 << 20) as out:
    for i in range(4194304):
        side, way, number, byte = rounds[i % 8]
        out.write("%010X %s %s %d %02X\n" % (3 * i, side, way, number, byte))
PY

against_sha256sum largest.trace check largest.trace
