"""What is wrong, in a person's words, where the program says a word or a number.

The launcher calls this as `python3 explain.py STATUS TEXT WORD ..` and prints its lines after the program's own text.
"""
from __future__ import annotations

import io
import os
import re
import sys
from typing import Dict, List, Optional, Sequence, Tuple

if __package__:
    from .disc import LARGEST
    from .files import IMAGE_CAP, SESSION_CAP, SOURCE_CAP, Name, is_plain, open_file, read_file
    from .script import BadScript, Script
    from .words import Call, WrongWord
    from .words import shown as shown_word

LENGTHS: Dict[str, Tuple[str, Tuple[int, ...]]] = {
    "os": ("an operating system", (16384,)),
    "tube": ("a boot ROM", (2048,)),
    "font": ("a font", (960,)),
    "rom": ("a paged ROM", (8192, 16384)),
}


def explain(status: int, text: str, words: Sequence[str], folder: "Name" = ".") -> List[str]:
    """Lines that say what is wrong with a call, where there is more to say than the program does.

    status, text  what the program ended with, and said
    words         the words of the call
    folder        the folder in which it was called
    """
    try:
        if status == 1:
            return _of_words(words)
        call = Call(list(words))
        name = {what: os.path.join(os.fspath(folder), name) for what, name in call.reads()}
        if status == 3:
            return _of_image(text, call, name)
        # What came through a pipe is gone: opening it again would wait for another writer.
        if status == 4:
            return _of_text(text, call, {what: it for what, it in name.items() if is_plain(it)})
    except Exception:  # noqa: BLE001 # what is said besides is never worth a failure
        pass
    return []


def _of_words(words: Sequence[str]) -> List[str]:
    try:
        Call(list(words))
    except WrongWord as wrong:
        return [str(wrong)]
    return []


# --- Images ---


def _of_image(text: str, call: "Call", names: Dict[str, str]) -> List[str]:
    match = re.fullmatch(r"bad image ([a-z]+)([0-9]*) ([0-9]+)", text)
    if not match:
        return []
    kind, number, length = match.group(1), match.group(2), int(match.group(3))
    has = "{:,} bytes".format(length)
    if kind == "image":
        return ["the image has %s: from its origin on it passes the end of memory, at 65,536" % has]
    option = "--" + kind + number
    name = shown_word(call.options[option])
    if kind == "disc":
        double = names[option].endswith(".dsd")
        lines = ["%s %s has %s: %s has at most %s" % (option, name, has, "a DSD" if double else "an SSD", "{:,}".format(LARGEST[double]))]
        if not double and length <= LARGEST[True]:
            lines.append("a disc with both sides is a DSD, and its name ends in .dsd")
        return lines
    what, lengths = LENGTHS[kind]
    wanted = " or ".join("{:,}".format(length) for length in lengths)
    lines = ["%s %s has %s: %s has %s" % (option, name, has, what, wanted)]
    return lines + _how_to_cut(name, kind, length, lengths)


# Where the bytes of an image may be in a longer file.
def _how_to_cut(name: str, kind: str, length: int, lengths: Tuple[int, ...]) -> List[str]:
    whole = lengths[-1]
    if kind == "tube" and length == 4096:
        return ["use the last half of a boot ROM of 4,096 bytes: `tail -c 2048 %s`" % name]
    if length > whole and length % whole == 0:
        return ["it may be %d images one after the other: `head -c %d %s` is the first" % (length // whole, whole, name)]
    if whole < length <= whole + 512:
        return ["%d extra bytes may come first, then `tail -c %d %s` removes them, or last: `head -c %d %s`"
                % (length - whole, whole, name, whole, name)]
    return []


# --- Texts ---


def _line(data: bytes, number: int) -> bytes:
    return data.split(b"\n")[number - 1]


def _shown(line: bytes) -> str:
    text = line[:80].decode("latin-1")
    text = "".join(letter if " " <= letter <= "~" else "\\x%02x" % ord(letter) for letter in text)
    return "%s%s" % (text, " .." if len(line) > 80 else "")


def _of_text(text: str, call: "Call", names: Dict[str, str]) -> List[str]:
    match = re.fullmatch(r"bad (script|trace|source|state) ([0-9]+)", text)
    if not match:
        return []
    kind, number = match.group(1), int(match.group(2))
    if kind == "script":
        return _of_script(read_file(names["--keys"], IMAGE_CAP), number)
    if kind == "trace":
        return _of_trace(names["TRACE"], number, call.options.get("--speed", "3"), "--no-tube" in call.options)
    if kind == "source":
        return _of_source(read_file(names["SOURCE"], SOURCE_CAP), number, call.alone["PART"])
    return _of_state(read_file(names["STATE"], SESSION_CAP), number)


def _of_script(data: bytes, number: int) -> List[str]:
    lines = ["line %d of the script: %s" % (number, _shown(_line(data, number)))]
    try:
        Script.parse(data)
    except BadScript as bad:
        if bad.number == number:
            lines.append(bad.why)
    return lines


def _of_trace(name: str, number: int, speed: str, no_tube: bool) -> List[str]:
    # The line and the one before it, without holding the whole.
    before, line, at = b"", b"", 0
    with open_file(name) as file:
        fast = file.read(3) == b"T2\n"
        if not fast:
            file.seek(0)
        while at < number:
            before, line = line, file.readline(256)
            if not line:
                break
            at += 1
    if number == 1 and fast != (speed == "4") and (not line or _trace_fault(line, before, 1) is None):
        return ["the trace is of a second processor at %s MHz, and the arguments say %s: `--speed %s`"
                % (("4", speed, "4") if fast else ("3", speed, "3"))]
    lines = ["line %d of the trace%s: %s" % (number, ", not counting `T2`" if fast else "", _shown(line.rstrip(b"\n")))]
    fault = _trace_fault(line, before, number)
    if fault is None and number == 1 and not fast and line.startswith(b"T2"):
        fault = "`T2` is alone on its line"
    if fault is None and number == 1 and no_tube:
        fault = "with `--no-tube` a trace has no line"
    return lines + ([fault] if fault else [])


def _trace_fault(line: bytes, before: bytes, number: int) -> Optional[str]:
    form = re.compile(rb"[0-9A-F]{10} [HP] [RWX] [0-7] [0-9A-F]{2}")
    bare = line.rstrip(b"\n")
    if not bare:
        return "the line is empty"
    if bare.endswith(b"\r"):
        return "the line ends with a carriage return: lines end with a line feed alone"
    if form.fullmatch(bare):
        if bare[13:14] == b"X" and (bare[11:12], bare[15:]) != (b"H", b"0 00"):
            return "a BREAK is a line of the host: `H X 0 00`"
        if not line.endswith(b"\n"):
            return "the last line has no line feed"
        if number > 1 and form.fullmatch(before.rstrip(b"\n")):
            here, there = (2 * int(it[:10], 16) + (it[11:12] == b"P") for it in (bare, before))
            if int(bare[:10], 16) < int(before[:10], 16):
                return "its tick is below that of the line before: %s" % before[:10].decode()
            if here == there:
                return "the line before has the same tick and side: a side has one access a tick"
            if here < there:
                return "at one tick the host's line comes first"
        return None
    if form.fullmatch(bare.upper()):
        return "digits and letters are upper case: %s" % bare.upper().decode("latin-1")
    if b"  " in bare or b"\t" in bare or bare != bare.strip():
        return "words have one blank between them, and none at the ends"
    if form.match(bare):
        return "something follows the byte"
    words = bare.split(b" ")
    if len(words) == 5:
        if not re.fullmatch(rb"[0-9A-Fa-f]{10}", words[0]):
            return "the tick has ten upper-case hexadecimal digits"
        if words[1] not in (b"H", b"P"):
            return "the side is H (the host) or P (the second processor)"
        if words[2] not in (b"R", b"W", b"X"):
            return "the way is R, W or X"
        if not re.fullmatch(rb"[0-7]", words[3]):
            return "the address is from 0 to 7"
        return "the byte has two upper-case hexadecimal digits"
    return "a line is the tick in ten digits, H or P, R or W, the address, the byte: 0000000024 H R 0 40"


def _of_source(data: bytes, number: int, part: str) -> List[str]:
    line = _line(data, number)
    lines = ["line %d of the source: %s" % (number, _shown(line))]
    fault = _source_fault(data, line, number, part)
    return lines + ([fault] if fault else [])


MNEMONICS = frozenset("""ADC AND ASL BCC BCS BEQ BIT BMI BNE BPL BRK BVC BVS CLC CLD CLI CLV CMP CPX CPY DEC DEX DEY EOR INC INX INY JMP
JSR LDA LDX LDY LSR NOP ORA PHA PHP PLA PLP ROL ROR RTI RTS SBC SEC SED SEI STA STX STY TAX TAY TSX TXA TXS TYA""".split())
CMOS = frozenset("BRA PHX PHY PLX PLY STZ TRB TSB".split())
BRANCHES = frozenset("BCC BCS BEQ BMI BNE BPL BVC BVS BRA".split())
ELSEWHERE = {
    "EQUB": "byte", "EQUW": "word", "EQUS": "byte, the letters' numbers", "DB": "byte", "DW": "word", ".BYTE": "byte", ".WORD": "word",
    ".ORG": "org", "SKIP": "org with the address after it", "SKIPTO": "org", ".RES": "org with the address after it",
}
LABEL = re.compile(r"\s*([A-Za-z_][A-Za-z0-9_]*)\s*:")


def _source_fault(data: bytes, line: bytes, number: int, part: str) -> Optional[str]:
    code = line.split(b";")[0]
    if b"\r" in code:
        return "the line has a carriage return: save sources with line feeds alone"
    if any(byte > 126 or (byte < 32 and byte != 9) for byte in code):
        return "the line has a byte that is no letter, digit or sign"
    text = code.decode()
    label = LABEL.match(text)
    if label:
        name = label.group(1)
        if name.upper() in ("A", "X", "Y"):
            return "%s is no label: it is a register" % name
        earlier = [at for at, it in enumerate(data.split(b"\n")[: number - 1], 1)
                   if (LABEL.match(it.decode("latin-1")) or [None, None])[1] == name]
        if earlier:
            return "the label %s is already on line %d" % (name, earlier[0])
        text = text[label.end() :]
    words = text.split(None, 1)
    if not words:
        return None
    match = re.match(r"[A-Za-z0-9_.]+", words[0])
    first = match.group(0) if match else words[0]
    operand = text.strip()[len(first) :].strip()
    return _statement_fault(first, operand, part, data)


def _statement_fault(first: str, operand: str, part: str, data: bytes) -> Optional[str]:
    upper = first.upper()
    if upper in ELSEWHERE:
        return "there is no %s here: write `%s`" % (first, ELSEWHERE[upper])
    if first.startswith("."):
        return "a label ends with a colon: `%s:`" % first[1:]
    if re.search(r"[$][0-9A-Fa-f]", operand):
        return "a hexadecimal number begins with `&`: %s" % re.sub(r"[$]", "&", operand)
    if re.search(r"%[01]", operand):
        return "there are no binary numbers: decimal ones, or hexadecimal ones with `&`"
    if '"' in operand or "'" in operand:
        return "there are no texts in quotes: the numbers of the letters"
    if operand.startswith("=") or re.match(r"\w+\s*=", first + operand):
        return "there are no constants: the number at each place"
    if upper in CMOS and part == "6502":
        return "the 6502 has no %s: the 65c02 has it" % upper
    if upper not in MNEMONICS and upper not in CMOS and first.lower() not in ("org", "byte", "word"):
        return "no instruction is called %s; a label ends with a colon" % first[:40]
    if first.lower() == "org":
        return "`org` has a number of at most 65,535 that is not below the address that is reached"
    if part == "6502" and _is_cmos(upper, operand):
        return "the 6502 has no %s %s: the 65c02 has that form" % (upper, operand)
    return _operand_fault(upper, operand, data, first)


# A form of an instruction of both parts that the 65c02 alone has.
def _is_cmos(upper: str, operand: str) -> bool:
    bare = operand.replace(" ", "").upper()
    if upper in ("ADC", "AND", "CMP", "EOR", "LDA", "ORA", "SBC", "STA"):
        return re.fullmatch(r"\([^(),]+\)", bare) is not None
    if upper == "JMP":
        return bare.startswith("(") and bare.endswith(",X)")
    if upper == "BIT":
        return bare.startswith("#") or bare.endswith(",X")
    return upper in ("INC", "DEC") and bare == "A"


def _operand_fault(upper: str, operand: str, data: bytes, first: str) -> Optional[str]:
    labels = {match.group(1) for match in (LABEL.match(line.decode("latin-1")) for line in data.split(b"\n")) if match}
    bare = re.sub(r"&[0-9A-Fa-f]+", "", operand)
    used = [name for name in re.findall(r"[A-Za-z_][A-Za-z0-9_]*", bare) if name.upper() not in ("A", "X", "Y")]
    for name in used:
        if name not in labels:
            near = [known for known in labels if known.lower() == name.lower()]
            return "no line has the label %s%s" % (name, "; its case counts: %s" % near[0] if near else "")
    for number in re.findall(r"(?<![\w&])[0-9]+", operand):
        if int(number) > 65535:
            return "%s is above 65,535" % number
    numbers = [int(number[1:], 16) if number.startswith("&") else int(number) for number in re.findall(r"&[0-9A-Fa-f]+|[0-9]+", operand)]
    most = 255 if first.lower() == "byte" else 65535
    if first.lower() in ("byte", "word") and numbers and not used and max(numbers) <= most:
        return "the image passes the end of memory, at 65,536"
    if first.lower() == "byte" or operand.startswith("#"):
        return "a value does not fit: a byte is below 256, `<` and `>` take the low and the high one"
    if upper in BRANCHES:
        return "a branch goes at most 128 bytes back or 127 on from the next instruction"
    if upper in ("ASL", "LSR", "ROL", "ROR") and not operand:
        return "the accumulator is always written: `%s A`" % upper
    if re.search(r"\([A-Za-z_]", operand):
        return "a label is a word, and this form takes a byte: write `<` before the label"
    if "(" in operand:
        return "%s has no such form; a value in brackets has one or two hexadecimal digits" % upper
    if first.lower() == "word":
        return "a value does not fit: a word is below 65,536"
    return "%s has no such form, or the image passes the end of memory" % upper


def _of_state(data: bytes, at: int) -> List[str]:
    if not data.startswith(b"BTUB"):
        return ["it is no session file: one begins with the letters BTUB"]
    if at == len(data):
        return ["the session file has %s bytes, and ends inside a field: it was cut" % "{:,}".format(len(data))]
    if at == 4:
        return ["it is a session file of another form: byte 4 is %02X, not 01" % data[4]]
    return ["byte %s of %s is outside the form of a session file" % ("{:,}".format(at), "{:,}".format(len(data)))]


def _main(given: List[str]) -> None:
    for line in explain(int(given[0]), given[1], given[2:]):
        print("beebtube: " + line)


if __name__ == "__main__":
    # This is called as a script: the modules that it needs are loaded without the rest of the package.
    sys.dont_write_bytecode = True
    sys.modules["beebtube"] = package = type(sys)("beebtube")
    package.__path__ = [os.path.dirname(os.path.realpath(__file__))]
    from beebtube.explain import _main as _run

    if isinstance(sys.stdout, io.TextIOWrapper):
        sys.stdout.reconfigure(encoding="utf-8", errors="surrogateescape")
    try:
        _run(sys.argv[1:])
        sys.stdout.flush()
    except (BrokenPipeError, OSError, ValueError, MemoryError, RecursionError):
        os.dup2(os.open(os.devnull, os.O_WRONLY), 1)
