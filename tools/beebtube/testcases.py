"""Results of tests in the two forms that build servers read: JUnit XML, and TAP.

    python3 -m beebtube.testcases NAME [--junit FILE] [--tap FILE] <LINES

reads the lines of examples/c/suite/check, `same NAME` or `differs NAME: TEXT`.
"""
from __future__ import annotations

import html
import json
import sys
from typing import Dict, Iterable, List, NamedTuple, Optional, Sequence

from .files import Name, write_beside
from .words import printable


class TestCase(NamedTuple):
    """A test: its name, what it came to in a word, whether it passed, and a line that says more."""

    name: str
    state: str
    passed: bool
    text: str = ""
    seconds: Optional[float] = None


def junit_of(title: str, cases: Sequence[TestCase]) -> str:
    """The results as JUnit XML."""
    def attributes(**given: object) -> str:
        told = {name: printable(str(value)) for name, value in given.items() if value is not None}
        return "".join(f' {name}="{html.escape(value)}"' for name, value in told.items())

    failed = sum(not case.passed for case in cases)
    lines = ['<?xml version="1.0" encoding="UTF-8"?>', "<testsuites>",
             f"<testsuite{attributes(name=title, tests=len(cases), failures=failed, errors=0)}>"]
    for case in cases:
        head = f"<testcase{attributes(classname=title, name=case.name, time=case.seconds)}"
        failure = f"<failure{attributes(type=case.state, message=case.text or case.state)}/>"
        lines.append(head + ("/>" if case.passed else f">{failure}</testcase>"))
    return "\n".join(lines + ["</testsuite>", "</testsuites>", ""])


def tap_of(cases: Sequence[TestCase]) -> str:
    """The results in the Test Anything Protocol, version 13."""
    lines = ["TAP version 13", f"1..{len(cases)}"]
    for number, case in enumerate(cases, 1):
        name = printable(case.name).replace("\\", "\\\\").replace("#", "\\#")
        lines.append(f"{'ok' if case.passed else 'not ok'} {number} - {name}")
        if not case.passed:
            # A text of JSON is one of YAML.
            lines += ["  ---", f"  severity: {case.state}", f"  message: {json.dumps(case.text)}", "  ..."]
    return "\n".join(lines + [""])


def write_cases(title: str, cases: Sequence[TestCase], junit: Optional[Name], tap: Optional[Name],
                reads: Iterable[Name] = ()) -> None:
    """Writes the results to the files that are named; Fault if one of them is read, too."""
    for place, text in ((junit, junit_of(title, cases)), (tap, tap_of(cases))):
        if place is not None:
            write_beside(place, text, reads)


def _of_lines(lines: Iterable[str]) -> List[TestCase]:
    cases = []
    for line in lines:
        state, _, rest = line.rstrip("\n").partition(" ")
        name, _, text = rest.partition(": ")
        if state in ("same", "differs"):
            cases.append(TestCase(name, state, state == "same", text))
    return cases


def tool(words: List[str]) -> None:
    """Writes the files for the lines of standard input."""
    given: Dict[str, str] = dict(zip(words[1::2], words[2::2]))
    sys.stdin.reconfigure(errors="replace")  # type: ignore[attr-defined]
    write_cases(words[0], _of_lines(sys.stdin), given.get("--junit"), given.get("--tap"))


if __name__ == "__main__":
    from .command import main
    main(tool, __doc__)
