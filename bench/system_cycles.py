#!/usr/bin/env python3
"""system_cycles.py: the cycles of calls of the system in system/built, by its own clock.

A program of a disc makes each call many times, on the host and on the second processor. TIME says
how many hundredths of a second of the host's 2 MHz they took. A row has the cycles of one call, or
of all the calls of OSWRCH that an output takes, with the program's own few.
"""
import sys

sys.dont_write_bytecode = True
import system_mame  # noqa: E402,F401
import test_system as system  # noqa: E402
import test_system_dfs as dfs  # noqa: E402
import test_system_tube as tube  # noqa: E402

LOOP = """
        org &2000
%s
        LDX #&00
        JSR time
        LDA #%d
        STA &70
        LDA #%d
        STA &71
loop:   JSR body
        DEC &70
        BNE loop
        DEC &71
        BNE loop
        LDX #&08
        JSR time
        LDA #&5A
        STA &2F20
halt:   JMP halt
time:   LDA #1
        LDY #&2F
        JMP &FFF1
body:
%s
        RTS
name:   byte 70, 13
"""
FILE = "        LDA #&40\n        LDX #<name\n        LDY #>name\n        JSR &FFCE\n" \
    "        STA &72\n"


def printed(codes):
    return "".join("        LDA #%d\n        JSR &FFEE\n" % code for code in codes)


def called(entry, a, x=0, y=0):
    registers = zip(("LDA", "LDX", "LDY"), (a, x, y))
    return "".join("        %s #%d\n" % pair for pair in registers) + "        JSR &%04X\n" % entry


def rows():
    """What, what comes before, the calls, how many times, and how many calls these are."""
    for mode in (0, 1, 2, 7):
        yield ("a letter in mode %d" % mode, printed([22, mode]),
            printed(b"\x1eABCDEFGHIJKLMNOPQRST"), 100, 21)
    for mode, line in ((0, 31), (7, 24)):
        yield ("a line feed that scrolls, mode %d" % mode, printed([22, mode, 31, 0, line]),
            printed([10]), 100, 1)
    for mode in (0, 7):
        yield "CLS in mode %d" % mode, printed([22, mode]), printed([12]), 20, 1
    line = system.plot(4, 0, 0) + system.plot(5, 396, 200)
    yield "a line of 100 points in mode 1", printed([22, 1]), printed(line), 100, 1
    triangle = system.plot(4, 0, 0) + system.plot(4, 396, 0) + system.plot(85, 0, 396)
    yield "a triangle of 100 lines in mode 1", printed([22, 1]), printed(triangle), 20, 1
    yield "OSBYTE 117", "", called(0xFFF4, 117), 5000, 1
    yield "OSBYTE 145", "", called(0xFFF4, 145), 5000, 1
    yield "OSWORD 1", "", called(0xFFF1, 1, 0x10, 0x2F), 5000, 1
    yield "OSBGET", FILE, "        LDY &72\n        JSR &FFD7\n", 5000, 1


def main():
    for name, before, calls, count, each in rows():
        source = LOOP % (before, count & 255, (count + 255) // 256, calls)
        image = system.beebtube.asm("6502", source.encode())
        disc = dfs.disc_of(dfs.new("PROG", image, 0x2000, 0x2000), dfs.new("F", bytes(6000)),
            dfs.new(dfs.BOOT, b"*PROG\r"), option=dfs.EXEC)
        told = []
        second = tube.started(12, dfs.SHIFT, disc0=disc)
        for memory in (dfs.started(12, disc0=disc).host, second.para):
            first, last = (int.from_bytes(memory[at : at + 5], "little") for at in (0x2F00, 0x2F08))
            told.append("%8d" % round((last - first) * 20_000 / count / each)
                if memory[0x2F20] == 0x5A else "no end")
        print("%-36s host %s, second processor %s" % (name, *told), flush=True)


if __name__ == "__main__":
    main()
