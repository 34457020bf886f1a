#!/usr/bin/env python3
"""Makes the pages of beebtube's arguments from the program's own table of options,
crates/cmd_words/src/keys.rt: the man page docs/beebtube.1, the completion tools/completion.bash,
the text of --help docs/help.txt, and the list of options in docs/COMMANDS.md. It also compares the
table of tools/beebtube/words.py.

  docs/options.py make     writes them
  docs/options.py check    says which of them is not what it would write, with status 1

An option without a text here is refused, and so is a text without an option.
"""
import os
import re
import sys
import textwrap

TOP = os.path.dirname(os.path.dirname(os.path.realpath(__file__)))

# The commands that take options, by the names of the table's fields.
TAKERS = {"replay_host": "replay host", "replay_para": "replay para", "solo": "solo", "run": "run", "resume": "resume",
          "follow_host": "follow host", "follow_para": "follow para"}

# Each option: the name of its value, which a flag lacks, and what it is. The sixteen of paged ROMs are one.
TEXTS = {
    "--os": ("ROM", "the host's operating system, 16,384 bytes"),
    "--tube": ("ROM", "the second processor's boot ROM, 2,048 bytes"),
    "--romN": ("ROM", "a paged ROM in slot N, from 0 to 15, 8,192 or 16,384 bytes"),
    "--font": ("FONT", "the teletext chip's font, 960 bytes; without it the chip shows blanks for letters"),
    "--disc0": ("IMAGE", "the disc in drive 0: a DSD if the name ends in .dsd, else an SSD"),
    "--disc1": ("IMAGE", "the disc in drive 1"),
    "--keys": ("SCRIPT", "the key script: keys, shots, BREAK and the converter's levels"),
    "--points": ("FILE", "only instructions at the addresses of this file. A line has four upper-case hexadecimal digits, and addresses rise"),
    "--plugs": ("N", "the first N devices on the 1 MHz bus. The first is a RAM card, the second a printer's latch"),
    "--keep": ("K", "how many accesses to the Tube the trace has at most (1,048,576)"),
    "--speed": ("MHZ", "the second processor's clock (3)"),
    "--wav": ("FILE", "the output of the sound chip, as a sound file"),
    "--save": ("FILE", "the run as a session file, from which resume goes on"),
    "--at": ("AAAA", "only instructions at this address"),
    "--watch": ("AAAA", "only instructions before which the byte at this address changed"),
    "--from": ("TICK", "lists only starts at this tick or later. --watch compares with the preceding instruction even if that is "
                       "not listed"),
    "--no-tube": (None, "a Model B alone: nothing answers at FEE0 to FEFF. A read there gives FE, a write does nothing, and BREAK makes "
                        "no access. The trace must be empty (otherwise bad trace 1)"),
    "--counts": (None, "writes OUT.counts too. It has for each address how many instructions start there, their ticks, and how often "
                       "the condition of a branch holds"),
}

COMMANDS = [
    ("check TRACE", "checks whether the chip would give the answers of a Tube trace"),
    ("asm PART SOURCE OUT", "assembles a source text for PART, 6502 or 65c02"),
    ("dis PART IMAGE ORIGIN OUT", "writes a source text of an image whose first byte is at ORIGIN"),
    ("replay host TRACE TICKS OUT [OPTION ..]", "runs the BBC Micro alone against a trace"),
    ("replay para TRACE TICKS OUT [OPTION ..]", "runs the second processor alone against a trace"),
    ("solo TICKS OUT [OPTION ..]", "runs both machines on one thread"),
    ("run TICKS OUT [OPTION ..]", "runs both machines, each in a thread of its own"),
    ("resume STATE TICKS OUT [OPTION ..]", "goes on with the run that a session file holds"),
    ("follow host TRACE TICKS OUT [OPTION ..]", "lists the instructions that the BBC Micro carries out against a trace"),
    ("follow para TRACE TICKS OUT [OPTION ..]", "lists the instructions of the second processor"),
    ("gen SEED", "makes and runs a demonstration from a seed, a number below 2^64"),
]

EXAMPLES = [
    "examples/typing.sh                 # assembles os, tube and font",
    "./beebtube run 6000000 out --os os --tube tube --font font",
    "./beebtube replay host /dev/null 6000000 alone --no-tube --os os --font font",
]

LAUNCHED = [("--help", "prints this text"), ("--version", "prints which program runs, its checksum, and what proved it")]

OUTPUTS = [
    ("OUT.report", "the registers, and how many accesses and frames there were"),
    ("OUT.host, OUT.para", "the memories, 32,768 and 65,536 bytes"),
    ("OUT.d0, OUT.d1", "the discs, if drives have any"),
    ("OUT.000.ppm ..", "the frames that the shots of the key script took, 640 by 256"),
    ("OUT.trace", "the Tube trace, of solo, run and resume"),
    ("OUT.plug0, OUT.plug1", "what the plugged devices hold"),
    ("the FILE of --wav", "the sound: one channel of 16 bits, 31,250 samples a second"),
    ("the FILE of --save", "the session: all images, the script, and the stored accesses to the Tube"),
    ("OUT.list", "the listing, of follow: a line for each instruction, at most 1,048,576"),
    ("OUT.counts", "what --counts counts, of follow: a line for each address"),
]

STATUSES = [
    (0, "done"),
    (1, "usage: the command line is not valid"),
    (2, "a file could not be read, or is too long"),
    (3, "an image has a wrong length"),
    (4, "a trace, script, source, session or file of addresses has a line or a byte outside its form"),
    (5, "a file could not be written"),
    (6, "no thread could be started"),
    (7, "no memory"),
    (8, "wrong or differs: the trace is not what the chip or the machine does"),
]


class Option:
    def __init__(self, word, takers, form, detail):
        # A flag is an option whose only value is its own word.
        if detail == [word]:
            form, detail = "Flag", None
        self.word, self.takers, self.form = word, takers, form
        self.is_file = form in ("File", "Output")
        self.choices = detail if form == "OneOf" else []
        self.limits = detail if form == "Number" else None
        self.words = [word]

    # The least and the most, or the words, that the table has.
    def value_text(self):
        if self.choices:
            return " or ".join(self.choices)
        if self.limits:
            return "from {:,} to {:,}".format(*self.limits)
        return ""

    def text(self):
        value, text = TEXTS[self.word]
        return text + (". %s is %s" % (value, self.value_text()) if self.value_text() else "")

    # The words that name it among others.
    def shown(self):
        value = TEXTS[self.word][0]
        return self.word + (" " + value if value else "")


def table():
    with open(TOP + "/crates/cmd_words/src/keys.rt") as file:
        source = file.read()
    sets = {}
    for name, body in re.findall(r"const (\w+): CommandSet = CommandSet \{(.*?)\};", source, re.S):
        sets[name] = [field for field, yes in re.findall(r"(\w+): (true|false)", body) if yes == "true"]
    lists = {name: re.findall(r'"(.*?)"', body) for name, body in re.findall(r"const (\w+): &\[&str\] = &\[(.*?)\];", source)}
    numbers = dict(re.findall(r"const (\w+): u64 = ([0-9_]+);", source))
    body = source[source.index("fn table()") :]
    body = body[: body.index("\n}\n")]
    options = []
    for word, takers, form, rest in re.findall(r'row\(\s*"(--[\w-]+)",\s*(\w+),\s*Value::(\w+)(.*?)\)?,?\s*\)(?=,\n)', body, re.S):
        detail = None
        if form == "Number":
            detail = [int(numbers.get(number, number).replace("_", "")) for number in re.findall(r"(?:least|most): (\w+)", rest)]
        elif form == "OneOf":
            detail = lists[rest.strip("( )\n,")]
        option = Option(re.sub(r"^--rom[0-9]+$", "--romN", word), [TAKERS[field] for field in sets[takers]], form, detail)
        if options and options[-1].word == option.word:
            options[-1].words.append(word)
        else:
            option.words = [word]
            options.append(option)
    count = int(re.search(r"COUNT: usize = ([0-9]+);", source).group(1))
    found = sum(len(option.words) for option in options)
    if found != count:
        sys.exit("options: %d options of the table were read, not %d" % (found, count))
    if [option.word for option in options if option.word not in TEXTS] or set(TEXTS) - {option.word for option in options}:
        sys.exit("options: the texts here and the table have other options: %s"
                 % " ".join(sorted({option.word for option in options} ^ set(TEXTS))))
    return options


def wrapped(text, first, rest):
    return textwrap.wrap(text, 100, initial_indent=first, subsequent_indent=rest, break_long_words=False, break_on_hyphens=False)


def list_of(options):
    lines = []
    for option in options:
        takers = ", ".join("`%s`" % taker for taker in option.takers)
        lines += wrapped("`%s` (%s): %s." % (option.shown(), takers, option.text()), "- ", "  ")
    return "\n".join(lines)


def escaped(text):
    return text.replace("\\", "\\\\").replace("-", "\\-").replace("'", "\\(aq")


# A call in a page of `man`: names of values in italics, what is typed as it is in bold.
def call_of(words):
    return " ".join("\\f%s%s\\fR" % ("I" if re.match(r"[A-Z]", it) else "R" if it[0] in ".[" else "B", escaped(it))
                    for it in words.split())


def man_of(options):
    lines = [
        ".\\\" Made by docs/options.py.",
        ".TH BEEBTUBE 1",
        ".SH NAME",
        "beebtube \\- the BBC Micro Model B and the 6502 Second Processor, joined by the Tube",
        ".SH SYNOPSIS",
    ]
    for words, _ in COMMANDS:
        lines += [call_of("beebtube " + words), ".br"]
    lines += [
        ".SH DESCRIPTION",
        "beebtube emulates two computers at once. Its runs repeat byte for byte: if run ends with status 0, its",
        "files are those of the reference run of its inputs, however its threads were scheduled. This is proved.",
        "TICKS are of 1/6 microsecond, 6,000,000 a second, or with \\-\\-speed 4 of 1/12; at most 1,073,741,824.",
        "Options may come in any place after the command.",
        ".SH COMMANDS",
    ]
    for words, text in COMMANDS:
        lines += [".TP", call_of(words), escaped(text) + "."]
    for word, text in LAUNCHED:
        lines += [".TP", ".B " + escaped(word), escaped(text) + "; of the launcher alone."]
    lines.append(".SH OPTIONS")
    for option in options:
        value = TEXTS[option.word][0]
        lines += [".TP", (".BI %s \\ " + value if value else ".B %s") % escaped(option.word), escaped(option.text()) + ".",
                  "Taken by " + ", ".join(option.takers) + "."]
    lines.append(".SH FILES")
    for name, text in OUTPUTS:
        lines += [".TP", ".I " + escaped(name), escaped(text) + "."]
    lines.append(".SH EXIT STATUS")
    for number, text in STATUSES:
        lines += [".TP", ".B %d" % number, escaped(text) + "."]
    lines += [".SH EXAMPLES", ".nf", *["\\&" + escaped(it) for it in EXAMPLES], ".fi"]
    lines += [".SH SEE ALSO", "README.md, docs/COMMANDS.md, docs/KEYS.md, docs/ROMS.md, docs/TOOLS.md;",
              "the folder tools/, of which each tool has \\-\\-help."]
    return "\n".join(lines) + "\n"


def completion_of(options):
    lines = [
        "# Made by docs/options.py. For bash: source tools/completion.bash",
        "_beebtube() {",
        "    local word=${COMP_WORDS[COMP_CWORD]} before=${COMP_WORDS[COMP_CWORD - 1]} command=${COMP_WORDS[1]:-} words=",
        "    [[ $command != @(replay|follow) ]] || command=\"$command ${COMP_WORDS[2]:-}\"",
        "    COMPREPLY=()",
        "    if [ \"$COMP_CWORD\" -eq 1 ]; then",
        "        mapfile -t COMPREPLY < <(compgen -W '%s' -- \"$word\")" % " ".join([*dict.fromkeys(words.split()[0] for words, _ in COMMANDS), *(word for word, _ in LAUNCHED)]),
        "        return",
        "    fi",
        "    case $before in",
        "        replay | follow) words='host para' ;;",
        "        asm | dis) words='6502 65c02' ;;",
    ]
    for option in options:
        if option.choices:
            lines.append("        %s) words='%s' ;;" % (option.word, " ".join(option.choices)))
    plain = [option.word for option in options if option.form in ("Number", "FourDigits")]
    lines += [
        "        %s) return ;;" % " | ".join(plain),
        "    esac",
        "    if [ -z \"$words\" ] && [ \"${word:0:1}\" = - ]; then",
        "        case $command in",
    ]
    for taker in TAKERS.values():
        taken = [word for option in options if taker in option.takers for word in option.words]
        body = textwrap.wrap(" ".join(taken), 88)
        lines += ["            '%s') words='%s" % (taker, body[0])] + ["                " + line for line in body[1:]]
        lines[-1] += "' ;;"
    lines += [
        "        esac",
        "    fi",
        "    if [ -n \"$words\" ]; then",
        "        mapfile -t COMPREPLY < <(compgen -W \"$words\" -- \"$word\")",
        "    else",
        "        mapfile -t COMPREPLY < <(compgen -f -- \"$word\")",
        "    fi",
        "}",
        "complete -o filenames -F _beebtube beebtube ./beebtube",
    ]
    for tool in ("debug", "differs", "execute", "labels", "play", "suite"):
        lines += [
            "_beebtube_%s() {" % tool,
            "    local word=${COMP_WORDS[COMP_CWORD]}",
            "    if [ \"${word:0:1}\" = - ]; then",
            "        mapfile -t COMPREPLY < <(compgen -W '%s' -- \"$word\")" % " ".join(words_of_tool(tool)),
            "    else",
            "        mapfile -t COMPREPLY < <(compgen -f -- \"$word\")",
            "    fi",
            "}",
            "complete -o filenames -F _beebtube_%s %s tools/%s" % (tool, tool, tool),
        ]
    return "\n".join(lines) + "\n"


# The options of a tool, as its own text has them.
def words_of_tool(tool):
    with open(TOP + "/tools/" + tool) as file:
        text = file.read().split('"""')[1]
    return ["--help", *dict.fromkeys(re.findall(r"(?<= )(--?[a-z][a-z-]*)(?=[ ,:])", text))]


# What ./beebtube --help prints.
def help_of(options):
    lines = ["beebtube: the BBC Micro Model B and the 6502 Second Processor, joined by the Tube", "",
             "  ./beebtube COMMAND .. [OPTION ..]", ""]
    for words, text in COMMANDS:
        lines += ["  " + words] + wrapped(text, "      ", "      ")
    lines += [""] + ["  %-22s  %s" % ("./beebtube " + word, text) for word, text in LAUNCHED] + [""]
    for option in options:
        lines += ["  " + option.shown()] + wrapped(option.text(), "      ", "      ")
        lines += wrapped("taken by " + ", ".join(option.takers), "      ", "      ")
    lines += ["", "TICKS are of 1/6 microsecond, 6,000,000 a second, or with --speed 4 of 1/12; at most 1,073,741,824.",
              "OUT begins the names of what is written: OUT.report, OUT.host, OUT.para and more.", "", "Exit status:"]
    lines += ["  %d  %s" % status for status in STATUSES]
    lines += ["", "Examples:", *["  " + it for it in EXAMPLES]]
    lines += ["", "docs/COMMANDS.md has all of it, docs/TOOLS.md the tools; man docs/beebtube.1"]
    return "\n".join(lines) + "\n"


# What of the package's table of words is another than in the program's.
def faults_of_words(options):
    sys.dont_write_bytecode = True
    sys.path.insert(0, TOP + "/tools")
    from beebtube import words

    kinds = {"File": "file", "Output": "output", "Number": "number", "OneOf": "choice", "FourDigits": "address", "Flag": "flag"}
    wanted = {}
    for option in options:
        for word in option.words:
            least, most = option.limits or (0, 0)
            wanted[word] = (set(option.takers), kinds[option.form], least, most, list(option.choices))
    got = {word: (set(it.takers), it.kind, it.least, it.most, list(it.choices)) for word, it in words.OPTIONS.items()}
    commands = {form.split()[0] for form, _ in COMMANDS}
    return [word for word in sorted(set(wanted) | set(got)) if wanted.get(word) != got.get(word)] + sorted(commands ^ set(words.COMMANDS))


# The page with a new list between the two marks.
def page_of(text, options):
    return re.sub(r"(<!-- options, made by docs/options.py -->\n).*?(<!-- end -->)",
                  lambda found: found.group(1) + list_of(options) + "\n" + found.group(2), text, flags=re.S)


def main():
    how = sys.argv[1:]
    if how not in (["make"], ["check"]):
        sys.exit(__doc__.strip())
    options = table()
    with open(TOP + "/docs/COMMANDS.md") as file:
        page = file.read()
    files = {"docs/beebtube.1": man_of(options), "tools/completion.bash": completion_of(options), "docs/COMMANDS.md": page_of(page, options),
             "docs/help.txt": help_of(options)}
    same = True
    for word in faults_of_words(options):
        print("tools/beebtube/words.py has another %s than the program" % word)
        same = False
    for name, text in files.items():
        if how == ["make"]:
            with open(TOP + "/" + name, "w") as file:
                file.write(text)
        elif not os.path.exists(TOP + "/" + name) or open(TOP + "/" + name).read() != text:
            print("%s is not what docs/options.py makes" % name)
            same = False
    sys.exit(0 if same else 1)


main()
