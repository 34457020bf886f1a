"""What `check` says of a trace, with the line that it means and its words."""
from __future__ import annotations

import os
import re
from typing import List, Optional

from .faults import Fault
from .files import Name
from .program import Program
from .trace import Trace
from .tube import line_of


def said_of_check(name: Name, program: Optional[Program] = None) -> List[str]:
    """`ok N` alone; or `wrong N XX`, the line N of the trace, and the access in words. Fault where the trace is none."""
    ended = (program or Program()).call(["check", os.path.abspath(name)])
    match = re.fullmatch(r"wrong ([0-9]+) ([0-9A-F]{2})", ended.text)
    if ended.status == 0:
        return [ended.out.decode().rstrip("\n")]
    if ended.status != 8 or not match:
        raise Fault(ended.text or "check ended with the status %d" % ended.status)
    trace, wanted = Trace(name), int(match.group(1))
    for number, access in enumerate(trace, 1):
        if number == wanted:
            return [ended.text, "line %d: %s" % (number, access.line()), line_of(access, trace.second),
                    "%14s     the chip would answer %s" % ("", match.group(2))]
    raise Fault("the trace was changed meanwhile")
