"""The contact sheet of a collection: a page with the last frame of each run, and a link to the run's own page.

It opens from a file, beside `runs/`, which has the frames and pages. It runs no script, and its policy lets it load nothing but
pictures of files. What is named or read is data: all of it is escaped, and files have the names of keys alone.
"""
from __future__ import annotations

import os
import re
from typing import Dict, List, Optional, Sequence

from .faults import Fault
from .files import OUTPUT_CAP, is_plain, read_file, write_beside
from .frame import PICTURE_CAP, Frame
from .markup import asset, element, grouped, shown
from .page import with_stored_frame
from .results import AGAINST, Store
from .table import ORDER, STATES, Row, sums_in

BEGIN = "<!DOCTYPE html>\n<!-- beebtube collection 1 -->\n"

def sheet_of(title: str, rows: Sequence[Row], store: Store) -> bytes:
    """The page of these runs; frames and pages are those that are in the folder of results."""
    style, style_sum = asset("page.css", "sheet.css")
    policy = "default-src 'none'; style-src %s; img-src 'self' file:; base-uri 'none'; form-action 'none'" % style_sum
    groups = [(state, name, [row for row in rows if row.state == state]) for state, name in ((state, STATES[state]) for state in ORDER)]
    groups = [group for group in groups if group[2]]
    links = "".join(element("li", '<a href="#%s">%s: %s</a>' % (state, name, grouped(len(found)))) for state, name, found in groups)
    body = "\n".join('<section id="%s" class="%s" aria-labelledby="%s-title"><h2 id="%s-title">%s: %s</h2>\n<ul class="sheet">\n%s\n</ul></section>'
                     % (state, state, state, state, name, grouped(len(found)), "\n".join(_card(row, store) for row in found))
                     for state, name, found in groups)
    parts = [
        BEGIN, '<html lang="en"><head><meta charset="utf-8">\n<meta http-equiv="Content-Security-Policy" content="%s">\n' % policy,
        '<meta name="viewport" content="width=device-width, initial-scale=1">\n', element("title", "%s: a collection of beebtube" % shown(title)),
        "\n<style>", style, "</style></head>\n<body>\n", '<a class="skip" href="#main">To the runs</a>\n<header><h1>%s</h1>\n' % shown(title),
        '<p>%s</p>\n<nav aria-label="Parts of this page"><ul>%s</ul></nav></header>\n' % (_summary(rows), links),
        '<main id="main" tabindex="-1">\n', body, "\n</main>\n</body></html>\n",
    ]
    return "".join(parts).encode()


def _summary(rows: Sequence[Row]) -> str:
    processor = sum(row.result.processor for row in rows if row.result is not None)
    return ('%s runs, which took %s s of a processor. <a href="results.csv">The table</a> has the sums of what they read and wrote.'
            % (grouped(len(rows)), "{:,.1f}".format(processor)))


def _card(row: Row, store: Store) -> str:
    name, result = shown(row.name), row.result
    page = _page(row, store)
    frame = _frame(store, result.key if result is not None and result.frame else "", "The last frame of " + row.name)
    head = element("h3", '<a href="%s">%s</a>' % (page, name) if page is not None else name)
    # The frame is a second way to the page, for the mouse alone.
    parts = ['<a href="%s" tabindex="-1" aria-hidden="true">%s</a>' % (page, frame) if page is not None else frame, head, element("p", _told(row))]
    if row.cells["title"] or row.cells["files"]:
        parts.append(element("p", shown("%s: files %d" % (row.cells["title"] or "no title", len(row.cells["files"].split())))))
    if row.cells["differs"]:
        parts += [_stored_frame(row, store, stored_box(row, store)), _differences(row)]
    if row.cells["words"]:
        parts.append('<p class="quiet">%s</p>' % element("code", shown(row.cells["words"])))
    return element("li", element("article", "".join(parts), class_="card"))


# The frame under a key; nothing under an empty one.
def _frame(store: Store, key: str, alt: str) -> str:
    if key and is_plain(store.place(key, "png")):
        return '<span class="frame"><img src="runs/%s.png" alt="%s" width="640" height="512" loading="lazy"></span>' % (key, shown(alt))
    return '<span class="frame none">No frame</span>'


# The last frame of the stored run, if it is another one, and where the pixels differ.
def _stored_frame(row: Row, store: Store, told: str) -> str:
    if not told:
        return ""
    frame = _frame(store, (row.stored or {})["key"], "The last frame of the stored run of " + row.name)
    return frame + element("p", "The stored frame; pixels differ in " + told)


def stored_box(row: Row, store: Store) -> str:
    """The box of the pixels in which a run's last frame and that of its stored run differ; nothing if they are equal, or are not
    both in the folder of results."""
    key = (row.stored or {}).get("key", "")
    if not row.cells["differs"] or not re.fullmatch("[0-9a-f]{64}", key) or row.result is None or not row.result.frame:
        return ""
    try:
        box = _frame_of(store, key).box(_frame_of(store, row.result.key))
    except Fault:
        return ""
    return "x %d to %d, y %d to %d" % (box[0], box[2], box[1], box[3]) if box is not None else ""


def _frame_of(store: Store, key: str) -> Frame:
    return Frame.of_png(read_file(store.place(key, "png"), PICTURE_CAP, plain=True))


def write_against(rows: Sequence[Row], store: Store) -> None:
    """Writes for each run whose last frame differs from the stored one its page with both frames, beside its page; removes those of
    earlier comparisons."""
    boxes = {row.result.key: (row, box) for row in rows for box in [stored_box(row, store)] if box and row.result is not None}
    for key in {row.result.key for row in rows if row.result is not None}:
        place, name = store.place(key, AGAINST), store.page(key)
        if key not in boxes or name is None:
            if os.path.lexists(place):
                os.unlink(place)
            continue
        (row, box), data = boxes[key], read_file(os.path.join(store.folder, name), OUTPUT_CAP, plain=True)
        own, old = (_frame_of(store, it) for it in (key, (row.stored or {})["key"]))
        write_beside(place, with_stored_frame(data, own, old, "Pixels differ in %s." % box), follow=False)


# The name of a run's page below the folder: of a run whose frame differs, the one with both frames.
def _page(row: Row, store: Store) -> Optional[str]:
    if row.result is None:
        return None
    if row.cells["differs"] and is_plain(store.place(row.result.key, AGAINST)):
        return "runs/%s.%s" % (row.result.key, AGAINST)
    return store.page(row.result.key)


def _told(row: Row) -> str:
    was = "it was %s" % row.cells["was"] if row.cells["was"] else ""
    said = " ".join(filter(None, (was, row.cells["status"] if row.state in ("failed", "failing") else "", row.cells["said"])))
    if row.result is not None:
        took = "%s ticks, %.2f s of a processor" % (grouped(row.result.ticks), row.result.processor)
        said = "; ".join(filter(None, (said, took)))
    return shown(": ".join(filter(None, (row.state.capitalize(), said))))


# What differs from the stored run, with both sums of each file.
def _differences(row: Row) -> str:
    lines: List[str] = []
    for what in row.cells["differs"].split():
        now, was = _sums(row.cells, what), _sums(row.stored or {}, what)
        lines.append(element("dt", shown(what)) + element("dd", element("code", "was %s" % shown(was))) + element("dd", element("code", "is %s" % shown(now))))
    return element("dl", "".join(lines))


def _sums(cells: Dict[str, str], what: str) -> str:
    kind, _, name = what.rpartition(":")
    if what == "status":
        return cells.get("status", "")
    if what == "words":
        return cells.get("words", "")
    return sums_in(cells.get("inputs" if kind else "outputs", "")).get(name, "not there")[:16]
