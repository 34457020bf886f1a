"""The jobs of a suite, which other engines run: a command that `tools/suite --jobs` prints, and what it does.

An engine starts it for each run or few, so it loads no more than it needs.
"""
from __future__ import annotations

import json
import os
import sys
import tempfile
from typing import List, Sequence, Tuple

from .collection import Entry, Sums, name_fault, order_of, packed, plan_of, unpacked, words_for_job
from .command import Usage, note
from .faults import Fault, NoRoom
from .files import clear_left
from .program import Version, know, version
from .results import PAGES, Fixed, Store, Wanted, carry_out
from .table import Row, row_of
from .words import printable, shown, told

NEXT = "++"  # between the runs of a command


def job_of(runs: Sequence[Tuple[str, Entry]], results: str, wanted: Wanted, shot: bool) -> List[str]:
    """The command of runs with their keys. It names files by whole paths, and is one line, in which no shell finds more than words."""
    here = os.path.realpath(sys.argv[0])
    if not here.isprintable():
        raise Fault("%s: the path of the clone has a letter that cannot be shown" % shown(here))
    (key, entry), *others = runs
    words = [here, "--one=" + packed(os.path.abspath(results)), "--key=" + key, "--name=" + packed(entry.name)]
    if wanted.keep is not None:
        words.append("--keep=" + packed(os.path.abspath(wanted.keep)))
    words += ["--pages=" + wanted.pages] + ["--shot"] * shot
    if not os.environ.get("BEEBTUBE"):
        words.append("--program=" + packed(json.dumps(version())))
    words += ["--"] + words_for_job(entry.order)
    for key, entry in others:
        words += [NEXT, key, packed(entry.name)] + words_for_job(entry.order)
    return words


def job(words: List[str]) -> int:
    """Does what a command of `job_of` says; its status is 0 if each run has a result."""
    at = words.index("--") if "--" in words else len(words)
    given = {option: unpacked(value) for option, _, value in (word.partition("=") for word in words[:at])}
    keep, program, shot = given.pop("--keep", None), given.pop("--program", None), given.pop("--shot", None) == ""
    if set(given) != {"--one", "--key", "--name", "--pages"} or given["--pages"] not in PAGES:
        raise Usage("a job has --one, --key, --name, --pages and the arguments of its run")
    runs = [[given["--key"], given["--name"]]]
    for word in words[at + 1 :]:
        if word == NEXT:
            runs.append([])
        else:
            runs[-1].append(unpacked(word))
    if program is not None:
        _know_program(program)
    where, status = (Fixed(), Store(given["--one"]), Wanted(given["--pages"], keep)), 0
    where[1].make()
    clear_left(tempfile.gettempdir())
    for key, name, *words_of_run in runs:
        try:
            row = _carry_out(key, name, words_of_run, where, shot)
            print(row.line(), flush=True)
            status = max(status, int(not row.cells["status"] or row.state == "done" and not row.is_good))
        except Fault as fault:
            if isinstance(fault, NoRoom) or len(runs) == 1:
                raise
            note(f"{told(name)}: {printable(str(fault))}")
            status = 1
    return status


# Takes what the launcher printed when the job was made. `Fixed` looks at the program's own sum.
def _know_program(text: str) -> None:
    try:
        sources, kits, path, own = json.loads(text)
    except (TypeError, ValueError):
        raise Fault("%s is no program of a job" % shown(text)) from None
    if isinstance(path, str) and os.path.exists(path):
        know(Version(sources, kits, path, own))


def _carry_out(key: str, name: str, words: Sequence[str], where: Tuple[Fixed, Store, Wanted], shot: bool) -> Row:
    program, store, wanted = where
    entry = Entry(name, order_of(words, ""), name_fault(name))
    plan = plan_of(entry, program.sum, shot, Sums())
    if plan.key != key:
        raise Fault("%s: the program, or a file that it reads, differs from the one for which the job was made" % told(name))
    result, note = store.load(plan.key), ""
    if result is None or not store.has(result, name, wanted):
        result, note = carry_out(plan, name, program, store, wanted)
    return row_of(entry, result, note, None)
