"""The words of the program: what a call reads and writes, and which of its words is wrong.

The table is that of docs/COMMANDS.md; docs/options.py compares it with the program's own.
"""
from __future__ import annotations

import re
from typing import Dict, List, NamedTuple, Optional, Tuple

from .faults import Fault

MOST_TICKS = 1073741824


def second_of(speed: object) -> int:
    """The ticks of a second with `--speed 3` or `--speed 4`."""
    return 12000000 if str(speed) == "4" else 6000000


PAIRS = ("solo", "run")
LISTS = ("follow host", "follow para")
HOSTS = ("replay host", "follow host") + PAIRS
PARAS = ("replay para", "follow para") + PAIRS
MACHINES = ("replay host", "replay para") + LISTS + PAIRS
RUNS = PAIRS + ("resume",)
HEARD = ("replay host",) + RUNS
HOST_ALONE = ("replay host", "follow host")

# Each command, and its words without an option.
COMMANDS: Dict[str, Tuple[str, ...]] = {
    "check": ("TRACE",),
    "asm": ("PART", "SOURCE", "OUT"),
    "dis": ("PART", "IMAGE", "ORIGIN", "OUT"),
    "replay": ("SIDE", "TRACE", "TICKS", "OUT"),
    "solo": ("TICKS", "OUT"),
    "run": ("TICKS", "OUT"),
    "resume": ("STATE", "TICKS", "OUT"),
    "follow": ("SIDE", "TRACE", "TICKS", "OUT"),
    "gen": ("SEED",),
}
CHOICES = {"PART": ("6502", "65c02"), "SIDE": ("host", "para")}
FILES_READ = ("TRACE", "SOURCE", "IMAGE", "STATE")


class Option(NamedTuple):
    """An option: the commands that take it, and its value: `file`, `output`, `address`, `number` within limits, or `choice`; a `flag` is one
    word, and its value is that word."""

    takers: Tuple[str, ...]
    kind: str
    least: int = 0
    most: int = 0
    choices: Tuple[str, ...] = ()


# In the order in which their files are read.
OPTIONS: Dict[str, Option] = {
    "--os": Option(HOSTS, "file"),
    "--tube": Option(PARAS, "file"),
    **{"--rom%d" % slot: Option(HOSTS, "file") for slot in range(16)},
    "--font": Option(HOSTS, "file"),
    "--disc0": Option(HOSTS, "file"),
    "--disc1": Option(HOSTS, "file"),
    "--keys": Option(HOSTS, "file"),
    "--points": Option(LISTS, "file"),
    "--plugs": Option(HOSTS, "number", 0, 8),
    "--keep": Option(RUNS, "number", 0, 4194304),
    "--speed": Option(MACHINES, "choice", choices=("3", "4")),
    "--wav": Option(HEARD, "output"),
    "--save": Option(RUNS, "output"),
    "--at": Option(LISTS, "address"),
    "--watch": Option(LISTS, "address"),
    "--from": Option(LISTS, "number", 0, MOST_TICKS),
    "--no-tube": Option(HOST_ALONE, "flag"),
    "--counts": Option(LISTS, "flag"),
}
NEEDED: Dict[str, Tuple[str, ...]] = {
    taker: tuple(option for option, takers in (("--os", HOSTS), ("--tube", PARAS)) if taker in takers)
    for taker in MACHINES + RUNS
}

NUMBER = re.compile(r"0|[1-9][0-9]*")
ADDRESS = re.compile(r"[0-9A-F]{4}")


class WrongWord(Fault):
    """The command line is not valid: which word is wrong, and what is meant."""


def number_of(word: str) -> Optional[int]:
    """The number of decimal digits without a zero in front; None for another word."""
    return int(word) if NUMBER.fullmatch(word) and len(word) < 30 else None


def printable(text: str) -> str:
    """A text of somebody else as one line on a screen: what cannot be shown is `?`."""
    return text if text.isprintable() else "".join(it if it.isprintable() else "?" for it in text)


def shown(word: str) -> str:
    """A word as a person reads it."""
    return printable(word[:60]) + ("..." if len(word) > 60 else "") or "an empty word"


def told(name: str) -> str:
    """A name of any letters and bytes as one line of text that no other name has: `\\x0a` is a line feed, `\\\\` is `\\`."""
    if name.isprintable() and "\\" not in name:
        return name
    return "".join(letter if letter.isprintable() and letter != "\\" else _code_of(letter) for letter in name)


def _code_of(letter: str) -> str:
    number = ord(letter)
    if letter == "\\":
        return 2 * letter
    if 0xDC80 <= number <= 0xDCFF:  # a byte that is no text
        return "\\x%02x" % (number - 0xDC00)
    return "\\x%02x" % number if number < 128 else "\\u%04x" % number if number < 65536 else "\\U%08x" % number


def counted(number: int, one: str, many: str = "") -> str:
    """A number of things in words: `1 byte`, `2 bytes`."""
    return f"{number:,} {one if number == 1 else many or one + 's'}"


def _near(word: str, known: List[str]) -> str:
    import difflib  # it takes a while to load
    found = difflib.get_close_matches(word, known, 1, 0.5)
    return ", %s?" % found[0] if found else ""


def _is_text(word: str) -> bool:
    try:
        word.encode("utf-8")
        return True
    except UnicodeEncodeError:
        return False


class Call:
    """A call of the program by its words. WrongWord if they are not valid.

    command  the command word
    taker    with the side where there is one: `replay host`
    alone    the words without an option, by what they are: TRACE, TICKS, OUT ..
    options  the options and their values
    """

    def __init__(self, words: List[str]):
        self.words = list(words)
        self.alone: Dict[str, str] = {}
        self.options: Dict[str, str] = {}
        for word in self.words:
            if not _is_text(word):
                raise WrongWord("%s: a word is in UTF-8" % shown(word))
        if not words:
            raise WrongWord("it needs a command: %s" % ", ".join(COMMANDS))
        self.command = self.words[0]
        if self.command not in COMMANDS:
            raise WrongWord("%s: no such command%s; there are %s"
                            % (shown(self.command), _near(self.command, list(COMMANDS)), ", ".join(COMMANDS)))
        self.taker = self.command
        options = self._sort(self.words[1:])
        for kind, word in self.alone.items():
            self._look_at(kind, word)
        if "SIDE" in self.alone:
            self.taker = "%s %s" % (self.command, self.alone["SIDE"])
        for option, value in options:
            self._take(option, value)
        for option in NEEDED.get(self.taker, ()):
            if option not in self.options:
                raise WrongWord("`%s` needs %s" % (self.taker, option))

    # Puts each word where it belongs; gives the options and their values.
    def _sort(self, rest: List[str]) -> List[Tuple[str, str]]:
        names, options, alone = COMMANDS[self.command], [], []
        takes = self.command in ("replay", "follow", "solo", "run", "resume")
        while rest:
            word = rest.pop(0)
            if not word.startswith("-") or not takes:
                alone.append(word)
                continue
            self._known(word)
            if OPTIONS[word].kind == "flag":
                options.append((word, word))
                continue
            if not rest:
                raise WrongWord("%s: it needs a value" % word)
            options.append((word, rest.pop(0)))
        form = " ".join((self.command,) + names)
        if len(alone) < len(names):
            raise WrongWord("it needs %s: %s" % (names[len(alone)], form))
        if len(alone) > len(names):
            raise WrongWord("%s: one argument too many: %s" % (shown(alone[len(names)]), form))
        self.alone = dict(zip(names, alone))
        return options

    @staticmethod
    def _known(word: str) -> None:
        if word in OPTIONS:
            return
        name, equals, value = word.partition("=")
        if equals and name in OPTIONS and OPTIONS[name].kind == "flag":
            raise WrongWord("%s: %s has no value" % (shown(word), name))
        if equals and name in OPTIONS:
            raise WrongWord("%s: write `%s %s`" % (shown(word), name, shown(value)))
        if word.startswith("--") or len(word) > 2:
            raise WrongWord("%s: no such option%s" % (shown(word), _near(name, list(OPTIONS))))
        raise WrongWord("%s: no such option; a name that begins with `-` is written ./%s" % (shown(word), shown(word)))

    def _look_at(self, kind: str, word: str) -> None:
        if kind in CHOICES and word not in CHOICES[kind]:
            raise WrongWord("%s: %s is %s" % (shown(word), kind, " or ".join(CHOICES[kind])))
        if kind == "TICKS" and (number_of(word) is None or int(word) > MOST_TICKS):
            raise WrongWord("%s: TICKS is a whole number up to %s, in decimal digits alone" % (shown(word), f"{MOST_TICKS:,}"))
        if kind == "SEED" and (number_of(word) is None or int(word) >= 2**64):
            raise WrongWord("%s: SEED is a whole number below 2^64, in decimal digits alone" % shown(word))
        if kind == "ORIGIN" and not ADDRESS.fullmatch(word):
            raise WrongWord("%s: %s" % (shown(word), _address_fault("ORIGIN", word)))
        if kind in FILES_READ + ("OUT",):
            self._look_at_name(kind, word)

    @staticmethod
    def _look_at_name(kind: str, word: str) -> None:
        if not word:
            raise WrongWord("%s: it needs the name of a file, and the argument is empty" % kind)
        if word.startswith("-"):
            raise WrongWord("%s: no name begins with `-` (%s); write ./%s" % (shown(word), kind, shown(word)))

    def _take(self, word: str, value: str) -> None:
        option = OPTIONS[word]
        if self.taker not in option.takers:
            raise WrongWord("%s: `%s` does not take it, but %s do" % (word, self.taker, ", ".join("`%s`" % it for it in option.takers)))
        if word in self.options:
            raise WrongWord("%s: it is given twice" % word)
        if option.kind in ("file", "output"):
            self._look_at_name(word, value)
        fault = value_fault(word, value)
        if fault:
            raise WrongWord("%s %s: %s" % (word, shown(value), fault))
        self.options[word] = value

    def reads(self) -> List[Tuple[str, str]]:
        """What is read, in its order: what it is (`TRACE`, `--os` ..), and its name."""
        first = [(kind, self.alone[kind]) for kind in FILES_READ if kind in self.alone]
        return first + [(word, self.options[word]) for word in OPTIONS if OPTIONS[word].kind == "file" and word in self.options]

    def outputs(self) -> List[Tuple[str, str]]:
        """The words that name what is written: `OUT`, `--wav`, `--save`, and each name."""
        first = [("OUT", self.alone["OUT"])] if "OUT" in self.alone else []
        return first + [(word, self.options[word]) for word in ("--wav", "--save") if word in self.options]


def value_fault(word: str, value: str) -> Optional[str]:
    """What is wrong with the value of an option that is no name of a file; None where nothing is."""
    option = OPTIONS[word]
    if option.kind == "address" and not ADDRESS.fullmatch(value):
        return _address_fault(word, value)
    if option.kind == "number" and not (number_of(value) is not None and option.least <= int(value) <= option.most):
        return f"it is a whole number, at most {option.most:,}"
    if option.kind == "choice" and value not in option.choices:
        return "it is %s" % " or ".join(option.choices)
    return None


def _address_fault(name: str, word: str) -> str:
    bare = word.lstrip("&$")
    bare = bare[2:] if bare[:2].lower() == "0x" else bare
    if re.fullmatch("[0-9A-Fa-f]{1,4}", bare):
        meant = bare.upper().rjust(4, "0")
        what = "upper case" if bare == word and len(word) == 4 else "four upper-case hexadecimal digits alone"
        return "%s needs %s: %s" % (name, what, meant)
    return "%s needs four upper-case hexadecimal digits, as C000" % name
