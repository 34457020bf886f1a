"""The Tube of a run on its page: sums, a chart over time, and accesses in words."""
from __future__ import annotations

import sys
from array import array
from typing import Any, Dict, List, Tuple

from .columns import Columns, Waits, lanes_of, told
from .faults import Fault
from .markup import element, grouped, shown, small, table
from .report import Report

STRETCHES = 1200  # of the chart
SAMPLES = 256  # stretches of accesses, where the page has not all of them

_BARE = bytes(code & 63 for code in range(256))

_CHART = """<div class="tools" role="group" aria-label="The chart"><button type="button" id="zoom-in">Zoom in</button>
<button type="button" id="zoom-out">Zoom out</button><button type="button" id="zoom-all">Whole run</button>
<button type="button" id="move-left">Earlier</button><button type="button" id="move-right">Later</button>
<button type="button" id="access-back">Access before</button><button type="button" id="access-on">Access after</button></div>
<p id="chart-help">In the chart: the mouse tells the accesses at a place, its wheel with CTRL zooms; + and - zoom, 0 shows the whole,
left and right go from access to access, PAGE UP and PAGE DOWN move.</p>
<div id="chart" tabindex="0" role="group" aria-label="The Tube over time" aria-describedby="chart-help"></div>
<p id="chart-told" aria-live="polite"></p>
<pre id="accesses" tabindex="0" aria-label="Accesses around this place"></pre>"""


def tube_of(columns: Columns, report: Report, second: int, most: int) -> Tuple[List[str], Dict[str, Any]]:
    """The Tube over time: parts of a page, and the data for its script.

    second  ticks of a second
    most    how many accesses the page explains at most
    """
    waits = Waits(columns)
    lines = element("ul", "\n".join(element("li", shown(line)) for line in told(columns, waits)), id="tube-told")
    if not columns.codes:
        return [lines], {}
    ticks = max(report.ticks, columns.orders[-1] // 2 + 1)
    lanes = lanes_of(columns, waits, ticks, STRETCHES)
    said, accesses = _accesses(columns, report, most)
    data = {"lanes": [lane._asdict() for lane in lanes if any(lane.values)], "span": ticks, "accesses": accesses}
    sums = [[lane.name, "%.3f ms" % (1000 * sum(lane.values) / second) if lane.unit == "ticks" else "%s %s" % (grouped(sum(lane.values)), lane.unit)]
            for lane in lanes]
    sampled = "%s A bar of the chart is %.3f ms or more; the trace ends at %.3f s." % (
        said, 1000 * ticks / STRETCHES / second, columns.orders[-1] // 2 / second)
    numbers = element("details", "<summary>The chart in numbers</summary>" + table(["What", "In all"], sums, "What the chart shows"))
    return [lines, element("p", sampled, id="tube-sampled"), _CHART, numbers], data


# What is said of the accesses that the page explains, and these.
def _accesses(columns: Columns, report: Report, most: int) -> Tuple[str, Dict[str, Any]]:
    number = len(columns.codes)
    if number <= most:
        spans = [(0, number)]
    else:
        each = max(most // SAMPLES, 1)
        spans = [(at * (number - each) // max(SAMPLES - 1, 1), each) for at in range(min(SAMPLES, most))]
    orders, codes, values = array("I"), [], []
    for first, length in spans:
        orders.extend(columns.orders[first : first + length])
        codes.append(columns.codes[first : first + length].translate(_BARE))
        values.append(columns.values[first : first + length])
    before = array("I", [0]) + orders[:-1]
    steps = array("I", map(int.__sub__, orders, before))
    if steps.itemsize != 4:
        raise Fault("this Python has other numbers than those of 32 bits")
    if sys.byteorder == "big":
        steps.byteswap()
    data = {"number": len(orders), "spans": spans, "all": number, "steps": small(steps.tobytes()),
            "codes": small(b"".join(codes)), "values": small(b"".join(values))}
    if report.kept is not None and report.tube > number:
        begin = "The run had %s accesses, and its trace has the first %s. " % (grouped(report.tube), grouped(number))
    else:
        begin = ""
    if number <= most:
        return begin + "The page has all accesses of the trace.", data
    return begin + ("Sampled: the page has %s of the trace's %s accesses in words, in %s stretches that lie evenly. The sums and the chart "
                    "are of all of them." % (grouped(len(orders)), grouped(number), grouped(len(spans)))), data
