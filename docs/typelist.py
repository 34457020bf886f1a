#!/usr/bin/env python3
"""Makes the list of public types at the end of docs/MAP.md from the sources: the name of each, its room, and the first sentence of its comment.

  docs/typelist.py make     writes it
  docs/typelist.py check    says which types it lacks or has otherwise than the sources do, and which rooms of the sheets'
                         words in docs/DEFINITIONS.md are not there, with status 1

A type is public where its crate's lib.rt lets it out: by `pub mod`, by `pub use`, or as it is there.
"""
import glob
import os
import re
import sys

TOP = os.path.dirname(os.path.dirname(os.path.realpath(__file__)))
PAGE = TOP + "/docs/MAP.md"
BEGIN = "## Public types\n\n<!-- made by docs/typelist.py -->\n"
TYPE = re.compile(r"^pub (?:struct|enum|trait|type) (\w+)")
HEAD = "| Type | Room | What it is |\n|---|---|---|\n"


def text_of(file):
    with open(file, encoding="utf-8") as it:
        return it.read()


def sentence(lines):
    """The first sentence of a comment."""
    text = " ".join(lines)
    ended = re.search(r"(?<!e\.g)(?<!i\.e)\.(?= |$)", text)
    return (text[: ended.start()] if ended else text.rstrip(".")).replace("|", "\\|")


def types_in(file):
    """The types of a file that are `pub`, each with the first sentence of its comment."""
    found, comment = {}, []
    for line in text_of(file).splitlines():
        if line.startswith("///"):
            comment.append(line[3:].strip())
        elif TYPE.match(line):
            found[TYPE.match(line)[1]] = sentence(comment)
            comment = []
        elif not line.startswith(("#[", "ghost ")) or not line.strip():
            comment = []
    return found


def let_out(crate):
    """The rows of a crate's public types: name, room, sentence."""
    top = crate + "/src/lib.rt"
    if not os.path.isfile(top):
        return []
    text = re.sub(r"//[^\n]*", "", text_of(top))
    modules = {*re.findall(r"^pub mod (\w+);", text, re.M)}
    again = {it for used in re.findall(r"^pub use ([^;]*);", text, re.M) for it in re.findall(r"\w+", used)}
    rows = []
    for file in sorted(glob.glob(crate + "/src/**/*.rt", recursive=True)):
        short = os.path.relpath(file, crate + "/src")
        is_open = short == "lib.rt" or short.split("/")[0].replace(".rt", "") in modules
        room = "%s, `src/%s`" % (os.path.basename(crate), short)
        rows += [(name, room, what) for name, what in types_in(file).items() if is_open or name in again]
    return rows


def made():
    rows = [row for crate in glob.glob(TOP + "/crates/*") for row in let_out(crate)]
    rows.sort(key=lambda row: (row[0].lower(), row[1]))
    return BEGIN + "\n" + HEAD + "".join("| `%s` | %s | %s |\n" % row for row in rows)


def lost_rooms():
    """The rooms of the sheets' words that are not there: 'CRATE, `PATH`, ..; CRATE, ..' in the last column."""
    table = re.search(r"\n## The sheets' words\n(.*?)\n## ", text_of(TOP + "/docs/DEFINITIONS.md"), re.S)[1]
    lost = []
    for cell in re.findall(r"(?m)^\|.*\| ([^|]*) \|$", table)[1:]:
        crate = ""
        for part in re.split(r"; |, ", cell):
            if part.startswith("`"):
                lost += [] if os.path.isfile("%s/crates/%s/%s" % (TOP, crate, part.strip("`"))) else ["%s/%s" % (crate, part.strip("`"))]
            else:
                crate = part
    return lost


def main():
    page = text_of(PAGE)
    before, mark, _ = page.partition(BEGIN)
    if sys.argv[1:] == ["make"]:
        with open(PAGE, "w", encoding="utf-8") as it:
            it.write((before if mark else before.rstrip("\n") + "\n\n") + made())
    elif sys.argv[1:] == ["check"]:
        wanted, got = made().splitlines(), page[len(before):].splitlines()
        for line in [it for it in wanted if it not in got]:
            print("types: docs/MAP.md lacks: " + line)
        for line in [it for it in got if it not in wanted]:
            print("types: docs/MAP.md has, and the sources have not: " + line)
        lost = lost_rooms()
        for room in lost:
            print("types: docs/DEFINITIONS.md names a room that is not there: " + room)
        if lost:
            sys.exit(1)
        if wanted != got:
            sys.exit("types: docs/typelist.py make writes the list anew")
    else:
        sys.exit(__doc__.strip())


main()
