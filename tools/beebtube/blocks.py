"""A frame in a terminal: as blocks of one colour, or of two."""
from __future__ import annotations

from typing import List

from .faults import Fault
from .frame import HEIGHT, WIDTH, Frame

LEAST, MOST = 20, 320
# The blocks of four quarters: the upper left one counts 1, the upper right one 2, then 4 and 8.
QUARTERS = " ▘▝▀▖▌▞▛▗▚▐▜▄▙▟█"


# Widths of columns for so many of them, and how many rows of letters keep the frame's form: a letter is twice as high as wide, a
# frame has the form 4 by 3.
def _rows_of(columns: int) -> int:
    if not LEAST <= columns <= MOST:
        raise Fault("a terminal has from %d to %d columns here" % (LEAST, MOST))
    return max(1, columns * 3 // 8)


def _edges(length: int, parts: int) -> List[int]:
    return [length * part // parts for part in range(parts + 1)]


# The colour of each box of so many across and down: the commonest one but the ground, black, where anything else is there.
def _boxes(frame: Frame, across: int, down: int) -> List[List[int]]:
    columns, rows = _edges(WIDTH, across), _edges(HEIGHT, down)
    found = []
    for top, bottom in zip(rows, rows[1:]):
        lines = [frame.row(y) for y in range(top, max(bottom, top + 1))]
        row = []
        for left, right in zip(columns, columns[1:]):
            box = b"".join(line[left : max(right, left + 1)] for line in lines)
            counts = [box.count(colour) for colour in range(8)]
            lit = max(range(1, 8), key=lambda colour: counts[colour])
            row.append(lit if 3 * counts[lit] >= len(box) else 0)
        found.append(row)
    return found


def blocks_of(frame: Frame, columns: int = 80) -> List[str]:
    """Lines of blocks, each quarter of which is set if a third of the frame's pixels there are lit, in whatever colour; blanks at
    the ends of lines are left out.

    columns  how wide a line may be, 20 to 320; 160 and more show the letters of all modes
    """
    rows = _rows_of(columns)
    boxes = _boxes(frame, 2 * columns, 2 * rows)
    lines = []
    for upper, lower in zip(boxes[::2], boxes[1::2]):
        marks = [(bool(upper[at]) + 2 * bool(upper[at + 1]) + 4 * bool(lower[at]) + 8 * bool(lower[at + 1])) for at in range(0, len(upper), 2)]
        lines.append("".join(QUARTERS[mark] for mark in marks).rstrip())
    return lines


def coloured_blocks_of(frame: Frame, columns: int = 80) -> List[str]:
    """The same in the frame's colours, two to a letter, one above the other, by the signs that terminals take for colours."""
    rows = _rows_of(columns)
    boxes = _boxes(frame, columns, 2 * rows)
    lines = []
    for upper, lower in zip(boxes[::2], boxes[1::2]):
        line, before = [], (-1, -1)
        for pair in zip(upper, lower):
            line.append(("" if pair == before else "\x1b[3%d;4%dm" % pair) + "▀")
            before = pair
        lines.append("".join(line) + "\x1b[0m")
    return lines
