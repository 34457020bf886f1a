"""ROM sets and `tools/words`: a text file that names the files of a machine, as the words of a run.

A line is an option of beebtube, its value, and for a file its SHA-256 checksum, if given; a line that begins with `#` is a comment. Names
are from the set's folder on.
"""
from __future__ import annotations

import os
import re
from typing import Iterable, List, Mapping, Optional, Sequence, Tuple

from .command import Usage, note
from .disc import is_double, note_of
from .faults import Fault
from .files import IMAGE_CAP, TEXT_CAP, is_plain, look_at_place, read_text, sum_of, write_beside
from .words import OPTIONS, shown, value_fault

# What a shell leaves as it is where words are put between others: letters of any script, digits, and these.
PLAIN = re.compile(r"[\w./@%+,:=-]+")


def file_of(folder: str, option: str, value: str) -> Optional[str]:
    """The file of an option, as a path; None where the value is no file."""
    if OPTIONS[option].kind != "file":
        return None
    file = os.path.join(folder, value)
    if os.path.exists(file) and not is_plain(file):
        raise Fault("%s is no plain file" % file)
    return file


def fault_of(option: str, value: str, before: Iterable[str]) -> Optional[str]:
    """What is wrong with an option and its value after other options; None if nothing is."""
    if option not in OPTIONS:
        return "%s is no option of beebtube" % shown(option)
    if OPTIONS[option].kind == "output":
        return "%s names a file that is written, and a set has none" % option
    if OPTIONS[option].kind == "flag":
        return "%s has no value: give it after the set's arguments" % option
    if option in before:
        return "%s is given twice" % option
    fault = value_fault(option, value)
    if fault:
        return "%s %s: %s" % (option, shown(value), fault)
    if not PLAIN.fullmatch(value) or value.startswith("-"):
        return "the name %s has a sign that a shell takes for another" % shown(value)
    return None


def read_set(name: str) -> List[Tuple[str, str]]:
    """The options of a set and their values, files as paths; Fault where it is none, or a file lacks or has another sum."""
    folder, found = os.path.dirname(name), []  # type: str, List[Tuple[str, str]]
    for number, line in enumerate(read_text(name, plain=True).splitlines(), 1):
        parts = line.split()
        if line.startswith("#"):
            continue
        if not parts:
            raise Fault("%s, line %d: the line is empty" % (name, number))
        if len(parts) not in (2, 3) or not parts[0].startswith("--"):
            raise Fault("%s, line %d: an option, its value, and a sum if wanted" % (name, number))
        option, value = parts[:2]
        fault = fault_of(option, value, [it for it, _ in found])
        if fault:
            raise Fault("%s, line %d: %s" % (name, number, fault))
        file = file_of(folder, option, value)
        if file is None and len(parts) == 3:
            raise Fault("%s, line %d: %s has no file, and no sum" % (name, number, option))
        if file is not None:
            digits = sum_of(file, IMAGE_CAP).digits
            if len(parts) == 3 and parts[2] != digits:
                raise Fault("%s has the checksum %s, not %s" % (file, digits, shown(parts[2])))
        found.append((option, value if file is None else file))
    if not found:
        raise Fault("%s has no arguments" % name)
    return found


def input_name(option: str, value: str) -> str:
    """The name that a file of an option has for a run in a folder of its own."""
    return option[2:] + ("" if not option.startswith("--disc") else ".dsd" if is_double(value) else ".ssd")


def with_names(text: str, options: Mapping[str, Optional[str]]) -> str:
    """What was said of a run, in which its files have names of its own, with the names that its options have."""
    for option, value in options.items():
        if value is not None and option in OPTIONS and OPTIONS[option].kind == "file":
            text = text.replace("%s %s " % (option, input_name(option, value)), "%s %s " % (option, shown(value)))
    return text


def words_of(name: str) -> List[str]:
    """The words of a set, with what has to be said of the names of its discs."""
    folder = os.path.dirname(name)
    words: List[str] = []
    if folder and not PLAIN.fullmatch(folder):
        raise Fault("the folder %s has a sign that a shell takes for another" % shown(folder))
    for option, value in read_set(name):
        text = note_of(value) if option.startswith("--disc") else None
        if text:
            note(text)
        words += [option, value]
    return words


# The lines of a text are options, and comments.
def _is_set(data: bytes) -> bool:
    lines = [line.split() for line in data.decode("utf-8", "replace").splitlines() if not line.startswith("#")]
    return bool(lines) and all(line and line[0] in OPTIONS for line in lines)


def make_set(name: str, words: Sequence[str]) -> None:
    """Writes a set of options and their values, with the sums of its files."""
    if not words or len(words) % 2 or any(not option.startswith("--") for option in words[::2]):
        raise Fault("the arguments are options and their values, in turn")
    lines: List[str] = []
    files: List[str] = []
    for at in range(0, len(words), 2):
        option, value = words[at : at + 2]
        fault = fault_of(option, value, words[:at:2])
        if fault:
            raise Fault(fault)
        file = file_of(os.path.dirname(name), option, value)
        files += [] if file is None else [file]
        lines.append(" ".join([option, value] + ([] if file is None else [sum_of(file, IMAGE_CAP).digits])) + "\n")
    look_at_place(name, "set", _is_set, TEXT_CAP)
    write_beside(name, "".join(lines), reads=files)


def words(given: List[str]) -> None:
    """The tool."""
    if len(given) == 1 and not given[0].startswith("-"):
        print(*words_of(given[0]))
    elif len(given) == 2 and given[0] == "--check":
        words_of(given[1])
    elif len(given) > 1 and given[0] == "--make":
        make_set(given[1], given[2:])
    else:
        raise Usage("the arguments are a set, --check and a set, or --make, a set, and options with their values")
