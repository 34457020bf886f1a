"""What the scripts in Python share: the program, and the form of its message for each exit status.
BEEBTUBE=PROGRAM runs that program in place of the one that ./beebtube runs.
"""
import os
import re
import subprocess
import sys

TOP = os.path.dirname(os.path.dirname(os.path.realpath(__file__)))

# What is said on standard error with each exit status, and on standard output with those where it is not nothing (docs/COMMANDS.md).
ERRORS = {
    0: rb"",
    1: rb"usage\n",
    2: rb"(cannot read|too long) .+\n",
    3: rb"bad image (image|os|tube|rom([0-9]|1[0-5])|font|disc[01]) [0-9]+\n",
    4: rb"bad ((script|points|trace|source) [1-9][0-9]*|state (0|[1-9][0-9]*))\n",
    5: rb"cannot write .+\n",
    6: rb"no thread\n",
    7: rb"no memory\n",
    8: rb"",
}
DIFFERS = rb"(wrong [1-9][0-9]* [0-9A-F]{2}|differs [1-9][0-9]* ([0-9A-F]{10} [HP] [RWX] [0-7] ([0-9A-F]{2}|--)|-))\n"
SAYS = {
    (0, "check"): rb"ok (0|[1-9][0-9]*)\n",
    (0, "follow"): rb"listed (0|[1-9][0-9]*) of (0|[1-9][0-9]*)\n",
    (0, "gen"): rb"seed [0-9]+\nbytes 4096\nsum [0-9A-F]{4}\nticks 1000000\n",
    (8, "check"): rb"wrong [1-9][0-9]* [0-9A-F]{2}\n",
    **{(8, command): DIFFERS for command in ("replay", "follow", "resume")},
}


def program():
    """The path of the program, which is proved and built first where it has to be."""
    if os.environ.get("BEEBTUBE"):
        return os.path.realpath(os.environ["BEEBTUBE"])
    subprocess.run([TOP + "/beebtube"], stdin=subprocess.DEVNULL, stdout=subprocess.DEVNULL, stderr=subprocess.DEVNULL)
    now = subprocess.run([TOP + "/.ci/sources"], stdout=subprocess.PIPE).stdout
    for built, sources in (("/crates/beebtube/out/beebtube", "/crates/beebtube/out/beebtube.sources"), ("/release/beebtube", "/release/sources")):
        try:
            with open(TOP + sources, "rb") as file:
                if file.read() == now:
                    return TOP + built
        except OSError:
            pass
    sys.exit("there is no program of these sources")


def form_fault(command, status, out, err):
    """What is not in the form of the table of exit statuses, or nothing."""
    if status not in ERRORS:
        return "the status %d is not of the table" % status
    if not re.fullmatch(ERRORS[status], err, re.S):
        return "standard error is not that of status %d: %r" % (status, err[:200])
    if not re.fullmatch(SAYS.get((status, command), rb""), out, re.S):
        return "standard output is not that of status %d: %r" % (status, out[:200])
    return None
