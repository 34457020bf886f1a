"""Knows listings of `follow` without the machine: the form of their lines, and what may come between
two instructions that follow each other. For the first it knows how long it takes, where it goes,
and what it loads.
"""
import collections
import functools
import operator
import re

MOST_LINES = 1048576
REGISTERS = rb"A=[0-9A-F]{2} X=[0-9A-F]{2} Y=[0-9A-F]{2} S=[0-9A-F]{2} P=[0-9A-F]{2}"
TICKS = re.compile(rb"(?:[0-9A-F]{10} [^\n]*\n)*")
REST = re.compile(rb"([0-9A-F]{4}) (" + REGISTERS + rb") (\?|byte &[0-9A-F]{2}|[A-Z]{3}(?: [^ ]+)?)")
STORES = ("STA", "STX", "STY", "STZ")
CHANGES = ("ASL", "LSR", "ROL", "ROR", "INC", "DEC", "TSB", "TRB")
# The cycles of a form, at least: where it reads, stores and changes. A page that is crossed and decimal mode take one more each.
FORMS = {"#2": (2, 2, 2), "2": (3, 3, 5), "2,X": (4, 4, 6), "2,Y": (4, 4, 6), "4": (4, 4, 6), "4,X": (4, 5, 6), "4,Y": (4, 5, 7), "(2,X)": (6, 6, 8), "(2),Y": (5, 6, 8), "(2)": (5, 5, 5)}
BYTES = {"": 1, "A": 1, "#2": 2, "2": 2, "2,X": 2, "2,Y": 2, "(2,X)": 2, "(2),Y": 2, "(2)": 2, "4": 3, "4,X": 3, "4,Y": 3, "(4)": 3, "(4,X)": 3}
SEQUENCE = 7  # cycles of a reset or an interrupt

# A line is a tick, and what starts then.
Start = collections.namedtuple("Start", "pc registers text")


@functools.lru_cache(65536)
def start_of(text):
    """What follows a tick, or nothing if it is not in its form."""
    found = REST.fullmatch(text)
    return found and Start(int(found.group(1), 16), found.group(2), found.group(3).decode())


@functools.lru_cache(4)
def lines_of(text):
    """The lines of a listing, or what is not in their form as a text."""
    end = TICKS.match(text).end()
    if end < len(text):
        return "a line is %r" % text[end : end + 100]
    lines = text.split(b"\n")[:-1]
    starts = [start_of(line[11:]) for line in lines]
    if None in starts:
        return "a line is %r" % lines[starts.index(None)][:100]
    return tuple(zip([int(line[:10], 16) for line in lines], starts))


# The opcodes of the conditional branches, and the bit of P and its value where the condition holds.
BRANCHES = {"BPL": (0x10, 0x80, 0), "BMI": (0x30, 0x80, 0x80), "BVC": (0x50, 0x40, 0), "BVS": (0x70, 0x40, 0x40),
            "BCC": (0x90, 0x01, 0), "BCS": (0xB0, 0x01, 0x01), "BNE": (0xD0, 0x02, 0), "BEQ": (0xF0, 0x02, 0x02)}
CONDITIONS = {**{name: flag[1:] for name, flag in BRANCHES.items()}, **{"byte &%02X" % flag[0]: flag[1:] for flag in BRANCHES.values()}}


def counts_text(lines, ticks, early):
    """What `--counts` counts of the starts of a whole listing from tick `early` on, in a run of `ticks`."""
    found = {}
    for (tick, start), after in zip(lines, [tick for tick, _ in lines[1:]] + [ticks]):
        if tick < early:
            continue
        count = found.setdefault(start.pc, [0, 0])
        count[0] += 1
        count[1] += after - tick
        name = start.text if start.text.startswith("byte") else start.text.partition(" ")[0]
        if name in CONDITIONS:
            bit, value = CONDITIONS[name]
            if len(count) < 3:
                count.append(0)
            count[2] += int(start.registers[-2:], 16) & bit == value
    return b"".join(b"%04X %s\n" % (pc, b" ".join(b"%d" % number for number in count)) for pc, count in sorted(found.items()))


def form_fault(lines, ticks):
    """What is wrong with the ticks of lines, or nothing: they rise, and are below those of the run; no instruction starts before a reset is over."""
    found = [2 * SEQUENCE - 1] + [tick for tick, _ in lines] + [ticks]
    if not lines or all(map(operator.lt, found, found[1:])):
        return None
    return "a tick that does not rise, among %010X to %010X" % (found[1], found[-2])


@functools.lru_cache(65536)
def steps(text):
    """An instruction's form, its bytes, its fewest cycles, and where it may go: a list of places,
    `next` for the one after it, or nothing for any."""
    name, _, operand = text.partition(" ")
    form = re.sub(r"&([0-9A-F]+)", lambda found: str(len(found.group(1))), operand)
    if name in ("byte", "?") or form not in BYTES:
        return None
    place = int(operand.strip("#()&,XY").partition(")")[0].partition(",")[0], 16) if "&" in operand else None
    if name in ("RTS", "RTI", "BRK"):
        return form, 1, 7 if name == "BRK" else 6, None
    if name == "JMP":
        return form, 3, {"4": 3, "(4)": 5, "(4,X)": 6}[form], [place] if form == "4" else None
    if name == "JSR":
        return form, 3, 6, [place]
    if name[0] == "B" and name != "BIT":
        return form, 2, 3 if name == "BRA" else 2, [place] + (["next"] if name != "BRA" else [])
    if form in ("", "A"):
        return form, 1, {"PH": 3, "PL": 4}.get(name[:2], 2), ["next"]
    kind = 1 if name in STORES else 2 if name in CHANGES else 0
    return form, BYTES[form], FORMS[form][kind], ["next"]


def is_plain(form, text, host):
    """No access of the instruction is one that the host's bus stretches, by its text."""
    if not host:
        return True
    if form in ("4", "4,X", "4,Y"):
        return not 0xFB00 <= int(re.search("&([0-9A-F]{4})", text).group(1), 16) <= 0xFEFF
    return form in ("", "A", "#2", "2", "2,X", "2,Y")


@functools.lru_cache(65536)
def pair_fault(start, gap, after, cycle, host):
    """What cannot be of an instruction and the one that starts `gap` ticks later, or nothing. `cycle` are the ticks of a cycle."""
    pc, text = start.pc, start.text
    if gap % cycle:
        return "a start is within a cycle"
    known = steps(text)
    # The stack's contents may change during the instruction.
    if known is None or 0x00FD < pc < 0x0200:
        return None
    form, length, least, ways = known
    cycles = gap // cycle
    if cycles < least:
        return "it takes %d cycles" % cycles
    if cycles > least + 2:
        # A reset, an interrupt or stretched accesses come between them, or a start is missing.
        between = cycles >= least + SEQUENCE or not is_plain(form, text, host) or 0xFB00 <= pc <= 0xFEFF
        return None if between else "it takes %d cycles, or a start is missing" % cycles
    if ways and after.pc not in [(pc + length) % 65536 if way == "next" else way for way in ways]:
        return "it goes to %04X" % after.pc
    loads = re.fullmatch(r"LD([AXY]) #&([0-9A-F]{2})", text)
    if loads and (loads.group(1) + "=" + loads.group(2)).encode() not in after.registers:
        return "it loads something else"
    return None


def listing_fault(lines, cycle, host):
    """What is wrong with a listing of all starts, or nothing."""
    for (tick, start), (later, after) in zip(lines, lines[1:]):
        fault = pair_fault(start, later - tick, after, cycle, host)
        if fault:
            return "at %010X %04X %s: %s" % (tick, start.pc, start.text, fault)
    return None
