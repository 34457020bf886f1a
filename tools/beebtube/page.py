"""`tools/page`: a run as one page, a text of HTML that opens from a file, and needs no network and nothing from elsewhere.

What is named or read is data: every name is escaped, everything else is in one block of JSON that nothing runs, and the page's
policy lets it run the one script of `page.js` and use the one style of `page.css`, by their sums, and load nothing.
"""
from __future__ import annotations

import base64
import html
import json
import os
import sys
from array import array
from typing import TYPE_CHECKING, Any, Dict, List, NamedTuple, Optional, Tuple

from .disc import LARGEST, Disc
from .faults import Fault
from .files import IMAGE_CAP, TRACE_CAP, Sum, look_at_place, read_file, sum_of, write_beside
from .frame import Frame
from .instructions import INSTRUCTIONS
from .manifest import Manifest
from .markup import asset, element, grouped, shown, small, table
from .page_discs import side_of
from .program import screen_of
from .report import Registers
from .report import parse as parse_report
from .script import KEYS, Script
from .words import second_of

if TYPE_CHECKING:
    from .columns import Columns

BEGIN = "<!DOCTYPE html>\n<!-- beebtube page 1 -->\n"
ROWS = 2000  # the most rows of a table of keys
SOUND_CAP = 16777216
MOST_ACCESSES = TRACE_CAP // 20  # of a trace
RATE = 31250  # samples of a second
KEY_NAMES = {number: name for name, number in KEYS.items()}


class Asked(NamedTuple):
    """What a page is made of.

    out       the name with which a run's outputs begin
    manifest  the text of `tools/manifest`, if there is one
    wav       the sound
    keys      the key script, and `discs` the images before the run, by their drives: if no manifest has them
    trace     how many accesses the page has at most; None if the trace is not read at all
    against   the name with which another run's outputs begin, which are compared; None if there is none
    title     what the run is called, where that is not `out`
    sums      sums that are known, by the files' paths: these files are not read once more for them
    """

    out: str
    manifest: Optional[str]
    wav: Optional[str]
    keys: Optional[str]
    discs: Dict[int, str]
    trace: Optional[int]
    against: Optional[str] = None
    title: Optional[str] = None
    sums: Dict[str, Sum] = {}


# --- The page ---


class Page:
    """The parts of a page, and the files that were read for it."""

    def __init__(self, asked: Asked):
        self.asked = asked
        self.reads: List[str] = []
        self.sums: List[Tuple[str, Sum]] = []
        self.data: Dict[str, Any] = {}
        self.sections: List[Tuple[str, str, str]] = []
        self.manifest = Manifest(asked.manifest, asked.sums) if asked.manifest is not None else None
        if asked.manifest is not None:
            self.reads.append(asked.manifest)
        report = self._output("report", 4096)
        if report is None:
            raise Fault("cannot read %s.report: the page of a run is made of its outputs" % asked.out)
        self.report = parse_report(report)
        call = self.manifest.call if self.manifest is not None else None
        self.columns = self._columns()
        self.second = self.columns.second if self.columns is not None else second_of(call and call.options.get("--speed"))
        self.script = self._script()

    # The bytes of an output, which the page then lists with its checksum; None if there is none.
    def _output(self, ending: str, most: int = IMAGE_CAP) -> Optional[bytes]:
        name = "%s.%s" % (self.asked.out, ending)
        if not os.path.lexists(name):
            return None
        data = read_file(name, most)
        self.reads.append(name)
        self.sums.append((name, self.asked.sums.get(name) or Sum([data])))
        return data

    def _columns(self) -> Optional[Columns]:
        name = self.asked.out + ".trace"
        if self.asked.trace is None or not os.path.lexists(name):
            return None
        self.reads.append(name)
        from .columns import columns_of
        columns = columns_of(name)
        self.sums.append((name, sum_of(name, TRACE_CAP)))
        return columns

    def _input(self, given: Optional[str], option: str) -> Optional[str]:
        name = given if given is not None else self.manifest.of_option(option) if self.manifest is not None else None
        if name is not None:
            self.reads.append(name)
        return name

    def _script(self) -> Optional[Script]:
        name = self._input(self.asked.keys, "--keys")
        return None if name is None else Script.parse(read_file(name))

    def time(self, ticks: int) -> str:
        return "%.3f s" % (ticks / self.second)

    def add(self, mark: str, title: str, *parts: str) -> None:
        self.sections.append((mark, title, "\n".join(part for part in parts if part)))

    def make(self) -> bytes:
        """The page."""
        self.add_report()
        self.add_screens()
        self.add_sound()
        self.add_tube()
        self.add_memories()
        self.add_discs()
        self.add_script()
        self.add_against()
        self.add_words()
        self.sections.insert(0, self.sections.pop())
        self.data.update(second=self.second, ticks=self.report.ticks)
        title = self.asked.title if self.asked.title is not None else os.path.basename(self.asked.out)
        return _whole(title, self.sections, self.data)

    def add_words(self) -> None:
        known = dict((name, kind) for kind, name, _ in self.manifest.files) if self.manifest is not None else {}
        parts, rows = [], []
        if self.manifest is not None:
            parts.append(element("pre", "\n".join(shown(line) for line in self.manifest.lines), tabindex="0", id="words"))
            for kind, name, wanted in self.manifest.files:
                digits, length = wanted.split(" ")
                rows.append([shown(name), kind, grouped(int(length)), element("code", digits), self.manifest.found(name, wanted)])
        else:
            parts.append("<p>The words of the run are not told: there is no manifest beside it.</p>")
        places = {self.manifest.place(name) for name in known} if self.manifest is not None else set()
        others = [(name, found) for name, found in self.sums if name not in places]
        places = {os.path.realpath(name) for name in places} if others else set()
        for name, found in others:
            if os.path.realpath(name) not in places:
                rows.append([shown(name), "found", grouped(found.length), element("code", found.digits), "in no manifest" if self.manifest else "here"])
        parts.append(table(["File", "What", "Bytes", "Sum (SHA-256)", "Now"], rows, "Files of the run"))
        self.add("sums", "Words and sums", *parts)

    def add_report(self) -> None:
        report = self.report
        rows = [["Time", "%s ticks, %s" % (grouped(report.ticks), self.time(report.ticks))],
                ["Accesses to the Tube", grouped(report.tube)]]
        if report.kept is not None:
            rows.append(["Of these in the trace", grouped(report.kept)])
        if report.frames is not None:
            rows.append(["Shots", grouped(report.frames)])
        heads = ["PC", "A", "X", "Y", "S", "P", "State"]
        machines = [[name] + _registers(of) for name, of in (("Host", report.host), ("Second processor", report.para)) if of is not None]
        self.add("report", "Report", table(["What", "How much"], rows, "Counts"), table(["Machine"] + heads, machines, "Registers at the end"))

    # --- What is seen and heard ---

    def add_screens(self) -> None:
        number = self.report.frames or 0
        ticks = [event.tick for event in self.script.events if event.what == "shot" and event.tick < self.report.ticks] if self.script else []
        thumbs = []
        for at in range(number):
            pixmap = self._output("%03d.ppm" % at)
            if pixmap is None:
                raise Fault("cannot read %s.%03d.ppm: the report has %d shots" % (self.asked.out, at, number))
            frame = Frame(pixmap, "%s.%03d.ppm" % (self.asked.out, at))
            when = ", at %s" % self.time(ticks[at]) if len(ticks) == number else ""
            alt = "Screen of shot %d%s" % (at, when)
            source = "data:image/png;base64," + base64.b64encode(frame.png()).decode()
            image = '<img src="%s" alt="%s" width="640" height="512">' % (source, alt)
            thumbs.append(element("li", element("button", image, type="button", class_="thumb", id="thumb-%d" % at) + element("span", "%d%s" % (at, when))))
        if not thumbs:
            self.add("screens", "Screens", "<p>The run took no shots.</p>")
            return
        self.data["shots"] = ticks if len(ticks) == number else []
        self.add("screens", "Screens", _VIEWER % (number - 1), element("ol", "\n".join(thumbs), class_="thumbs", start="0"))

    def add_sound(self) -> None:
        name = self._input(self.asked.wav, "--wav")
        if name is None:
            self.add("sound", "Sound", "<p>No sound was handed to this page.</p>")
            return
        wav = read_file(name, SOUND_CAP)
        self.sums.append((name, Sum([wav])))
        samples = _samples(wav, name)
        self.data["wav"] = small(wav)
        told_of = "%s samples, %.3f s; the loudest is %d" % (grouped(len(samples)), len(samples) / RATE, max(samples, default=0))
        self.add("sound", "Sound", '<audio id="heard" controls aria-label="The sound of the run"></audio>',
                 element("figure", _waveform(samples, told_of) + element("figcaption", told_of)))

    def add_tube(self) -> None:
        if self.asked.trace is None:
            self.add("tube", "Tube", "<p>The trace was not read for this page.</p>")
        elif self.columns is None:
            self.add("tube", "Tube", "<p>The run wrote no trace.</p>")
        else:
            from .page_tube import tube_of
            parts, data = tube_of(self.columns, self.report, self.second, self.asked.trace)
            self.data.update(data)
            self.add("tube", "Tube", *parts)

    # --- Memories ---

    def add_memories(self) -> None:
        memories, parts = [], []
        for ending, name, part, lengths in (("host", "The host", "6502", (32768,)), ("para", "The second processor", "65c02", (65536,)),
                                            ("plug0", "The RAM card", "", (65536,))):
            data = self._output(ending)
            if data is None:
                continue
            if len(data) not in lengths:
                raise Fault("%s.%s is no memory: it has %s bytes" % (self.asked.out, ending, grouped(len(data))))
            used = len(data) - data.count(0)
            memories.append({"name": name, "part": part, "bytes": small(data)})
            parts.append(element("li", "%s: %s bytes, of which %s are written and not zero, %s zero"
                                 % (name, grouped(len(data)), grouped(used), grouped(len(data) - used))))
            if ending == "host":
                parts.append(element("li", "<details><summary>The host's memory from 7C00 on as a teletext page</summary>%s</details>"
                                     % element("pre", "\n".join(shown(line) for line in screen_of(data)), tabindex="0")))
        printed = self._output("plug1")
        if printed is not None:
            text = "".join(chr(byte) if 32 <= byte < 127 or byte == 10 else "" if byte == 13 else "?" for byte in printed)
            parts.append(element("li", "Printed: %s bytes%s" % (grouped(len(printed)), element("pre", html.escape(text), tabindex="0"))))
        if not memories:
            self.add("memories", "Memories", "<p>The run wrote no memory.</p>")
            return
        self.data["memories"] = memories
        self.data["instructions"] = INSTRUCTIONS
        options = "".join(element("option", memory["name"], value=str(at)) for at, memory in enumerate(memories))
        self.add("memories", "Memories", element("ul", "\n".join(parts)), _VIEW % options)

    # --- Discs and keys ---

    def add_discs(self) -> None:
        parts = []
        for drive in (0, 1):
            image = self._output("d%d" % drive)
            if image is None:
                continue
            name = self._input(self.asked.discs.get(drive), "--disc%d" % drive)
            before = Disc.read(name) if name is not None else None
            disc = Disc(image, before.double if before is not None else len(image) > LARGEST[False])
            parts.append(element("h3", "Drive %d" % drive))
            for side in (0, 1) if disc.double else (0,):
                parts.append(side_of(disc, before, side, "Drive %d, side %d" % (drive, side) if disc.double else "Drive %d" % drive))
        self.add("discs", "Discs", *(parts or ["<p>No disc was in a drive.</p>"]))

    def add_script(self) -> None:
        if self.script is None:
            self.add("script", "Keys", "<p>No key script was handed to this page.</p>")
            return
        presses = _presses(self.script, self.report.ticks)
        others = [event for event in self.script.events if event.what in ("break", "adc")]
        rows = [[shown(name), self.time(first), "held to the end" if last is None else self.time(last)] for first, last, name in presses[:ROWS]]
        parts = ["<p>%s keys, %s shots.</p>" % (grouped(len(presses)), grouped(self.script.shots))]
        if len(presses) > ROWS:
            parts.append("<p>The table has the first %s.</p>" % grouped(ROWS))
        parts.append(table(["Key", "Down at", "Up at"], rows, "Keys that were down"))
        if others:
            told_of = [[shown(event.what.upper() if event.what == "break" else "converter %d to %04X" % (event.number, event.level)), self.time(event.tick)]
                       for event in others[:ROWS]]
            parts.append(table(["What", "At"], told_of, "BREAK and the converter"))
        self.data["keys"] = [[first, self.report.ticks if last is None else last, name] for first, last, name in presses[:ROWS]]
        self.add("script", "Keys", *parts)


    # What differs from another run's outputs, in the words of `tools/differs`; frames are side by side.
    def add_against(self) -> None:
        if self.asked.against is None:
            return
        from .differs import Outputs, differences
        one, other = Outputs.of(self.asked.out), Outputs.of(self.asked.against)
        self.reads += list(other.names.values())
        parts = ["<p>This run is before the sign |, and %s after it.</p>" % shown(os.path.basename(self.asked.against))]
        for difference in differences(one, other):
            parts.append(element("h3", shown(difference.ending)))
            parts.append(element("pre", "\n".join(shown(line) for line in difference.lines), tabindex="0"))
            if difference.ending.endswith(".ppm") and difference.ending in one.names and difference.ending in other.names:
                frames = Frame.read(one.names[difference.ending]), Frame.read(other.names[difference.ending])
                parts.append(_beside(*frames, "Frame " + difference.ending[:-4], "of the other run"))
        if len(parts) == 1:
            parts.append("<p>Nothing differs: %d files are the same.</p>" % len(one.names))
        self.add("against", "Against %s" % shown(os.path.basename(self.asked.against)), *parts)


_VIEWER = """<figure class="viewer">
<button type="button" id="shot-large" aria-label="Enlarge this shot"><img id="shot" alt="" width="640" height="512"></button>
<figcaption id="shot-told" aria-live="polite"></figcaption>
<div class="tools" role="group" aria-label="Shots"><button type="button" id="shot-back">Back</button>
<button type="button" id="shot-play" aria-pressed="false">Play</button><button type="button" id="shot-on">On</button>
<label for="shot-at">Shot</label> <input type="range" id="shot-at" min="0" max="%d" value="0"></div></figure>
<dialog id="large" aria-label="A shot, enlarged"><button type="button" id="large-close">Close</button><img id="large-image" alt=""></dialog>"""

_VIEW = """<div class="tools" role="group" aria-label="A memory"><label for="memory">Memory</label> <select id="memory">%s</select>
<label for="address">Address</label> <input id="address" size="5" maxlength="4" value="0000" autocomplete="off">
<button type="button" id="page-back">Page before</button><button type="button" id="page-on">Page after</button></div>
<div class="tools" role="group" aria-label="Find"><label for="find">Bytes as <code>A9 00</code>, or text as <code>"HELLO"</code></label>
<input id="find" size="18" autocomplete="off"> <button type="button" id="find-next">Find next</button> <span id="found" aria-live="polite"></span></div>
<div class="memory"><figure><canvas id="map" width="256" height="256" role="img" aria-label="Map of the memory, a dot for each byte"></canvas>
<figcaption>A row for each 256 bytes: <span class="key zero"></span> zero, <span class="key letter"></span> letters,
<span class="key other"></span> other bytes. A click shows the bytes there.</figcaption></figure>
<div><h3 id="bytes-title">Bytes</h3><pre id="bytes" tabindex="0" aria-labelledby="bytes-title"></pre></div>
<div><h3 id="code-title">Disassembly</h3><pre id="code" tabindex="0" aria-labelledby="code-title"></pre></div></div>"""


# Two frames and where they differ, as pictures of the page.
def _beside(one: Frame, other: Frame, name: str, of_other: str) -> str:
    images = []
    for frame, what in zip((one, other, one.difference(other)), ("of this run", of_other, "with the pixels that differ in white")):
        source = "data:image/png;base64," + base64.b64encode(frame.png()).decode()
        images.append(element("li", '<img src="%s" alt="%s %s" width="640" height="512">' % (source, shown(name), what) + element("span", what)))
    return element("ol", "\n".join(images), class_="beside")


def with_stored_frame(page: bytes, own: Frame, stored: Frame, told: str) -> bytes:
    """A page that `page_of` made, with another section: the run's last frame and that of the stored run.

    told  a sentence about the pixels that differ
    """
    inner = element("h2", "Against the stored run", id="against-title") + element("p", shown(told))
    inner += _beside(own, stored, "The last frame", "of the stored run")
    section = element("section", inner, id="against", aria_labelledby="against-title")
    head, nav, rest = page.partition(b"</ul></nav>")
    body, main, end = rest.rpartition(b"\n</main>")
    link = element("li", element("a", "Against the stored run", href="#against")).encode()
    return b"".join((head, link, nav, body, b"\n", section.encode(), main, end))


def _registers(of: Registers) -> List[str]:
    return ["%04X" % of.pc] + ["%02X" % value for value in of[1:6]] + ["halted" if of.halted else "running"]


def _samples(wav: bytes, name: str) -> "array[int]":
    if wav[:4] != b"RIFF" or wav[8:16] != b"WAVEfmt " or wav[22:28] != b"\1\0" + RATE.to_bytes(4, "little") or wav[34:36] != b"\x10\0" or len(wav) % 2:
        raise Fault("%s is no sound of a run" % name)
    samples = array("h", wav[44:])
    if sys.byteorder == "big":
        samples.byteswap()
    return samples


def _waveform(samples: "array[int]", told_of: str) -> str:
    columns, path = 800, []
    for at in range(columns):
        part = samples[len(samples) * at // columns : max(len(samples) * (at + 1) // columns, len(samples) * at // columns + 1)]
        if part:
            path.append("M%d %.1fV%.1f" % (at, 100.5 - min(part) / 328, 99.5 - max(part) / 328))
    return ('<svg viewBox="0 0 800 101" preserveAspectRatio="none" class="wave" role="img" aria-label="Waveform: %s"><path d="%s"/></svg>' % (told_of, "".join(path)))


# The keys that were down: from when, to when (None to the end), and which.
def _presses(script: Script, ticks: int) -> List[Tuple[int, Optional[int], str]]:
    down: Dict[int, int] = {}
    found: List[Tuple[int, Optional[int], str]] = []
    for event in script.events:
        if event.tick >= ticks:
            break
        if event.what == "down":
            down.setdefault(event.number, event.tick)
        elif event.what == "up" and event.number in down:
            found.append((down.pop(event.number), event.tick, KEY_NAMES.get(event.number, "%02X" % event.number)))
    found += [(first, None, KEY_NAMES.get(number, "%02X" % number)) for number, first in down.items()]
    return sorted(found, key=lambda press: press[0])


# --- The whole ---


def _whole(title: str, sections: List[Tuple[str, str, str]], data: Dict[str, Any]) -> bytes:
    (style, style_sum), (script, script_sum) = asset("page.css"), asset("page.js")
    policy = ("default-src 'none'; script-src %s; style-src %s; img-src data:; media-src blob:; base-uri 'none'; form-action 'none'"
              % (script_sum, style_sum))
    links = "".join(element("li", '<a href="#%s">%s</a>' % (mark, name)) for mark, name, _ in sections)
    body = "\n".join('<section id="%s" aria-labelledby="%s-title"><h2 id="%s-title">%s</h2>\n%s\n</section>' % (mark, mark, mark, name, inner)
                     for mark, name, inner in sections)
    text = json.dumps(data, separators=(",", ":")).replace("<", "\\u003c")
    parts = [
        BEGIN, '<html lang="en"><head><meta charset="utf-8">\n<meta http-equiv="Content-Security-Policy" content="%s">\n' % policy,
        '<meta name="viewport" content="width=device-width, initial-scale=1">\n', element("title", "%s: a run of beebtube" % shown(title)),
        "\n<style>", style, "</style></head>\n<body>\n", '<a class="skip" href="#main">To the run</a>\n<header><h1>%s</h1>\n' % shown(title),
        '<nav aria-label="Parts of this page"><ul>%s</ul></nav></header>\n<main id="main" tabindex="-1">\n' % links,
        "<noscript><p>Without its script the page has no chart, sound and bytes of memories.</p></noscript>\n", body,
        '\n</main>\n<p id="fault" role="alert"></p>\n<script type="application/json" id="data">', text, "</script>\n<script>", script, "</script>\n</body></html>\n",
    ]
    return "".join(parts).encode()


def page_of(asked: Asked) -> Tuple[bytes, List[str]]:
    """The page of a run, and the files that were read for it; Fault where one of them is none."""
    page = Page(asked)
    return page.make(), page.reads


# How many accesses of a trace a page explains; None for `none`.
def _accesses(word: str) -> Optional[int]:
    from .reading import whole_number
    return None if word == "none" else whole_number(0, MOST_ACCESSES)(word)


def page(words: List[str]) -> None:
    """The tool."""
    from .reading import Reader  # it takes a while to load
    reader = Reader()
    reader.add_argument("out")
    for option in ("--manifest", "--wav", "--keys", "--disc0", "--disc1", "--against"):
        reader.add_argument(option, metavar="FILE")
    reader.add_argument("--trace", type=_accesses, default=1000000)
    asked = reader.parse_args(words)
    manifest = asked.manifest
    if manifest is None and os.path.lexists(asked.out + ".manifest"):
        manifest = asked.out + ".manifest"
    discs = {drive: name for drive, name in enumerate((asked.disc0, asked.disc1)) if name is not None}
    name = asked.out + ".html"
    look_at_place(name, "page", lambda begin: begin.startswith(BEGIN.encode()))
    data, reads = page_of(Asked(asked.out, manifest, asked.wav, asked.keys, discs, asked.trace, asked.against))
    write_beside(name, data, reads=reads)
