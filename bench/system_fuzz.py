#!/usr/bin/env python3
"""system_fuzz.py [KIND [FIRST [COUNT]]]: random runs of the images of system/built, by seeds.

KIND is `codes` (VDU codes in all modes), `commands` (lines for OSCLI), `keys` (a keyboard on which
anything is pressed), `tube` (the same with a second processor), `discs` (commands of the filing
system on discs whose catalogues may be damaged) or `cuts` (runs that end at a random moment while
files are saved, deleted and compacted); all of them without one. Each run must come to its end. The
first three must leave the memory that is no screen and no workspace as it was; after a cut each
file is as it was before or as it is to be. It says the seeds that do not; the status is 1 then.
Codes may need longer than the run if lines go far beyond the screen: `slow` says so.
"""
import os
import random
import sys

sys.dont_write_bytecode = True
TOP = os.path.dirname(os.path.dirname(os.path.realpath(__file__)))
for part in ("tools", os.path.join("tools", "tests")):
    sys.path.insert(0, os.path.join(TOP, part))
import beebtube  # noqa: E402
import test_system as system  # noqa: E402
import test_system_dfs as dfs  # noqa: E402
import test_system_tube as tube  # noqa: E402
from beebtube.disc import Disc, with_file, without_file  # noqa: E402

SECOND = system.SECOND
WORDS = ("FX 1", "FX 4,1", "FX 11,0", "FX 15", "FX 999", "FX x", "KEY", "HELP", "LOAD", "SAVE",
    "OPT",
         "TV", "MOTOR", "CAT", "EXEC", "SPOOL", "CODE", "LINE", "ROM", "TAPE", "RUN", "*", "/",
         "|", ".",
         "K.", "L.", "S.", "SP.", "E.", "H.", "M.", "O.")
PIECES = ("1", "12", "255", "300", ",", " ", "A", "FFFF", "|M", "|!", "||", '"', "|?", "+", "x",
    "12345678")
# Keys that make a program wait by right (CTRL+B and CTRL+N), and that call or change memory.
LEFT_OUT = (0x64, 0x55, 0x50, 0x43, 0x51, 0x53)

DONE = "        LDA #&5A\n        STA &2000\nhalt:   JMP halt\n"
LINES = """
        LDA #<broken
        STA &0202
        LDA #>broken
        STA &0203
        LDA #<lines
        STA &72
        LDA #>lines
        STA &73
next:   LDA &72
        CMP #<over
        BNE go
        LDA &73
        CMP #>over
        BEQ finish
go:     LDY #0
copy:   LDA (&72),Y
        STA &2600,Y
        INY
        CMP #13
        BNE copy
        TYA
        CLC
        ADC &72
        STA &72
        BCC same
        INC &73
same:   LDX #&00
        LDY #&26
        JSR &FFF7
        JMP next
broken: LDX #&F0
        TXS
        JMP next
finish: LDA #0
"""


def codes(chance):
    """Codes that draw, and change colours, windows and modes."""
    made = bytes([22, chance.randrange(8)])
    while len(made) < 2000:
        kind = chance.random()
        if kind < 0.2:
            made += bytes(chance.choice(b"ABCxyz 09") for _ in range(chance.randrange(20)))
        elif kind < 0.5:
            places = chance.randrange(-500, 2000), chance.randrange(-500, 1500)
            made += system.plot(chance.randrange(256), *places)
        elif kind < 0.6:
            made += bytes([18, chance.randrange(5), chance.randrange(256)])
        elif kind < 0.7:
            made += bytes([28] + [chance.randrange(45) for _ in range(4)])
        elif kind < 0.75:
            made += bytes([24]) + b"".join(system.word(chance.randrange(-100, 1400))
                for _ in range(4))
        elif kind < 0.8:
            made += bytes([chance.choice([5, 4, 26, 20, 12, 16, 30])])
        else:
            code = chance.choice([8, 9, 10, 11, 13, 127, 31, 17, 19, 29, 23, 22])
            count = {31: 2, 17: 1, 19: 5, 29: 4, 22: 1}.get(code, 0)
            made += bytes([code] + [chance.randrange(256) for _ in range(count)])
            if code == 23:
                made += bytes([chance.randrange(32, 256)] + [chance.randrange(256)
                    for _ in range(8)])
    return system.started(12, language=system.rom(made + b"\x1a\x04"))


def commands(chance):
    """Lines of commands with odd words after them; an error goes on with the next line."""
    data = b""
    for _ in range(60):
        rest = "".join(chance.choice(PIECES) for _ in range(chance.randrange(8)))
        data += (chance.choice(WORDS) + chance.choice(["", " ", ","]) + rest).encode() + b"\r"
    source = LINES + DONE + "lines:\n"
    for at in range(0, len(data), 16):
        source += "        byte %s\n" % ",".join(map(str, data[at : at + 16]))
    return system.started(5, language=system.rom(b"", source + "over:\n"))


def pressed(chance):
    """Keys that go down and up, and then ESCAPE and a line that sets a byte; and when it ends."""
    tick, held, lines = SECOND, set(), []
    all_keys = [16 * row + column for row in range(1, 8) for column in range(10)]
    usable = [key for key in all_keys if key not in LEFT_OUT and key != 0x18]
    while tick < 9 * SECOND:
        tick += chance.randrange(30_000, 500_000)
        if held and chance.random() < 0.55:
            key = chance.choice(sorted(held))
            held.discard(key)
            lines.append("at %d up %02X" % (tick, key))
        elif len(held) < 4:
            key = chance.choice(usable) if chance.random() < 0.8 else chance.choice([0, 1])
            if key not in held:
                held.add(key)
                lines.append("at %d down %02X" % (tick, key))
    lines += ["at %d up %02X" % (tick, key) for key in sorted(held)]
    end = beebtube.typed("{ESCAPE}{RETURN}S 2000 5A{RETURN}", start=tick / SECOND + 0.5)
    text = "\n".join(lines) + "\n" + end.text()
    return tick / SECOND + 3, text.encode()


def keys(chance):
    seconds, script = pressed(chance)
    return system.started(seconds, script)


def both(chance):
    seconds, script = pressed(chance)
    return tube.started(seconds + 1, script, disc0=some_disc(chance))


def some_disc(chance):
    """A disc of files of all lengths and addresses, some of them locked."""
    disc = dfs.disc_of(title="".join(chance.choice("AZ az09") for _ in range(chance.randrange(13))))
    for number in range(chance.choice((0, 3, 12, 25, 31))):
        disc = with_file(disc, dfs.new("F%d" % number, chance.randbytes(
            chance.choice((0, 1, 255, 256, 257, 1000, 5000))), chance.getrandbits(18),
            chance.getrandbits(18), chance.random() < 0.2, chance.choice("$AB")))
    return disc


def discs(chance):
    """Commands on two discs; a damaged catalogue may give errors, and nothing else."""
    made = []
    for _ in range(2):
        image = bytearray(some_disc(chance).image)
        for _ in range(chance.choice((0, 0, 1, 3, 20))):
            image[chance.randrange(512)] = chance.randrange(256)
        made.append(Disc(image))
    lines = []
    for _ in range(10):
        name = chance.choice(("F0", "F1", "A.F2", "B.F4", "F#", "*", ":1.$.F3", ":2.X", "", "A."))
        lines.append(chance.choice(("*CAT " + name[1:2], "*INFO " + name, "*DELETE " + name,
            "*ACCESS %s L" % name, "*ACCESS " + name, "*COMPACT %d" % chance.randrange(3),
            "*RENAME %s B.NEW" % name, "*TITLE " + name, "*DRIVE %d" % chance.randrange(4),
            "*SAVE %s C000 +%X" % (name, chance.choice((0, 1, 300, 9000))), "*TYPE " + name,
            "*DUMP " + name, "*COPY 0 1 " + name, "*OPT4,2", "*DIR " + name, "*SPOOL " + name,
            "*ENABLE", "*BACKUP 0 1", "*DESTROY " + name, "*EXEC " + name)))
    text = "".join(line + "{RETURN}{WAIT %.1f}" % chance.choice((0.3, 1, 2)) for line in lines)
    # ESCAPE does not end *COPY and *BACKUP, which take up to a minute and a half.
    wait = 90 if "*COPY" in text or "*BACKUP" in text else 4
    typed = beebtube.typed(text + "{WAIT %d}{ESCAPE}{WAIT 3}{ESCAPE}{WAIT 0.5}*SPOOL{RETURN}{WAIT 1}"
        "S 2000 5A{RETURN}{WAIT 3}{RETURN}S 2000 5A{RETURN}{WAIT 0.5}" % wait, start=1)
    return dfs.started(typed.ticks / SECOND, typed, disc0=made[0], disc1=made[1])


def cuts(chance):
    """A file that is lost is what the run gives instead of a machine."""
    disc = dfs.disc_of()
    for number in range(chance.choice((5, 12, 20, 29))):
        disc = with_file(disc, dfs.new("F%d" % number, chance.randbytes(
            chance.choice((0, 1, 255, 256, 257, 1000, 3000))), folder=chance.choice("$A")))
    for file in list(disc.catalogue().files):
        if chance.random() < 0.3:
            disc = without_file(disc, file.whole_name)
    wanted = {name: [data] for name, data in dfs.files_of(disc).items()}
    lines = []
    for number in range(4):
        name, length = chance.choice(sorted(wanted) + ["$.NEW"]), chance.choice((1, 256, 700, 2000))
        if chance.random() < 0.7:
            lines.append("*SAVE %s C%03X +%X" % (name, number, length))
            wanted.setdefault(name, [None]).append(system.OS[number : number + length])
        elif name in wanted:
            lines.append("*DELETE " + name)
            wanted[name].append(None)
    lines.insert(chance.randrange(len(lines) + 1), "*COMPACT")
    moment = chance.uniform(0.7, 15)
    _, after = dfs.done(lines, disc, moment)
    found = dfs.files_of(after)
    lost = [name for name, data in wanted.items() if found.get(name) not in data]
    return " ".join(["%.4f s" % moment] + lost + lines) if lost else None


KINDS = {"codes": codes, "commands": commands, "keys": keys, "tube": both, "discs": discs,
    "cuts": cuts}


def fault(kind, run):
    """What is wrong after a run; None where nothing is."""
    if kind == "cuts":
        return run
    memory = run.para if kind == "tube" else run.host
    is_done = memory[0x2000] == 0x5A
    if kind in ("tube", "discs"):
        return None if is_done else "no end"
    free = list(range(0x0D01, 0x0D9F)) + list(range(0x0E00, 0x2000))
    changed = ["%04X" % at for at in free if memory[at]]
    if changed or not is_done and (kind != "codes" or run.registers["host"].halted):
        return " ".join(changed[:8]) or "no end"
    return None if is_done else "slow"


def main(words):
    kinds = words[:1] or list(KINDS)
    first, count = (int(word) for word in (words[1:] + ["0", "20"][len(words[1:]) :]))
    failed = 0
    for kind in kinds:
        for seed in range(first, first + count):
            told = fault(kind, KINDS[kind](random.Random(seed)))
            if told:
                failed |= told != "slow"
                print("%s %d: %s" % (kind, seed, told), flush=True)
        print("%s: %d runs" % (kind, count), flush=True)
    return failed


if __name__ == "__main__":
    if len(sys.argv) > 4 or sys.argv[1:2] and sys.argv[1] not in KINDS:
        sys.exit(__doc__)
    sys.exit(main(sys.argv[1:]))
