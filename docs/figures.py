#!/usr/bin/env python3
"""Draws the figures of docs/MAP.md: lag.svg, turns.svg and house.svg.

  docs/figures.py make     writes them
  docs/figures.py check    says which is another than these sources give, and which name in them the code has not, with status 1

What a figure says is in the lists below; the crates of the house and their layers are those of crates.txt.
"""
import glob
import os
import re
import sys

TOP = os.path.dirname(os.path.dirname(os.path.realpath(__file__)))

# -- What the figures say --

# The clocks of laziness, from the one that contracts see to those that lag most: the name, the crate and the field, how far
# it is on the axis from 0 to 100 and after or ahead of which place, what it is, and what moves it on. The access is at NOW,
# the devices are stepped up to NEXT.
NOW, NEXT = 92, 64
CLOCKS = [
    ("Board.closed", "host_bus", "closed", NOW, NOW, ["all ticks below it count as done:", "the tick that contracts see"], ["`close`, at each access and look:", "one number, up to `calm`"]),
    ("Board.next", "host_bus", "next", NEXT, NOW, ["how far the devices are stepped,", "in whole microseconds"], ["an access in SHEILA, a break, a look", "past `calm`, `settle`, `finish`"]),
    ("Devices.owed", "host_devices", "owed", 36, NEXT, ["the picture is a number of", "microseconds behind"], ["`draw`: a store that the picture may", "read, its registers, a shot"]),
    ("Via.quiet", "via6522", "quiet", 80, NEXT, ["the chip is kept as it is some steps", "later: they only count down"], ["`unwind`: a register, a line that", "changes, a timer that runs out"]),
    ("Fdc.past", "wd1770", "past", 46, NEXT, ["the controller is kept as it was", "some steps ago"], ["`pass`: a register, the latch, and", "where `quiet` of them are over"]),
]

# The turns of both threads: for each thread what it does, from and to a place on the axis from 0 to 100, with the function
# and its kind; then what goes from one to the other.
HOST = [
    (0, 13, "advance_to_ask", "looks and accesses below the other's bound: no exchange", "work"),
    (13, 30, "wait_until_admitted", "a step past it: learn, publish, spin, park", "wait"),
    (30, 62, "advance_to_ask", "up to the second processor's speculative horizon", "work"),
    (62, 71, "act", "an access that changes its lines", "act"),
    (71, 100, "advance_to_ask", "on, up to the new bound", "work"),
]
PARA = [
    (0, 12, "advance_to_ask", "below the host's horizon: as `drive`", "work"),
    (12, 22, "go_ahead", "sets a mark", "act"),
    (22, 48, "stride_to", "strides past the mark: speculative looks and status reads", "speculative"),
    (48, 70, "strides_on", "the next stride, while the host uses the first", "lost"),
    (70, 82, "roll_back", "back to the mark, on to the access", "act"),
    (82, 100, "advance_to_ask", "goes on from there", "work"),
]
# What goes from one to the other: from the host, from which place to which, how wide the text is, the function, what it says.
WORDS = [
    (False, 22, 30, 18, "publish_and_speculate", "all events, the mark as horizon, and the stride's end as speculative horizon"),
    (False, 48, 51, 14, "speculate", "the second stride, in one exchange"),
    (True, 66, 70, 28, "publish", "the access; the same exchange lowers the speculative horizon to its tick"),
]
KEYS = [("work", "on its own, no exchange"), ("speculative", "speculative, and the host passes it unchanged"), ("lost", "rolled back, done again"), ("wait", "waits until admitted"), ("act", "one step")]

# The way of one access: a store of the host to FEE1 in `solo`, from crate to crate, with the function there.
WAY = [
    ("cmd_pair", "solo_outcome"),
    ("tube_party", "go_on_from"),
    ("host_mach", "advance_seeing"),
    ("tube_machine", "access"),
    ("host_mach", "exchange"),
    ("tube_party", "act"),
    ("tube_chip", "apply"),
    ("tube_machine", "answer"),
]


# -- Drawing --

INK, DIM, LINE, PAPER, WAY_INK = "#222", "#666", "#999", "#fff", "#c0661a"
FILL = {"work": "#dbe9f6", "wait": "#eeeeee", "act": "#fde3c0", "speculative": "#dff0d8", "lost": "#f6d5d5", "way": "#fde3c0", "plain": "#f4f4f4"}


def fail(text):
    sys.exit("figures: " + text)


def escaped(text):
    return text.replace("&", "&amp;").replace("<", "&lt;").replace(">", "&gt;")


class Picture:
    def __init__(self, width, height, title):
        self.height = height
        self.parts = [
            '<svg xmlns="http://www.w3.org/2000/svg" viewBox="0 0 %d %d" width="%d" height="%d" font-family="DejaVu Sans, Verdana, sans-serif" font-size="12">' % (width, height, width, height),
            "<title>%s</title>" % escaped(title),
            '<defs><marker id="end" viewBox="0 0 8 8" refX="7" refY="4" markerWidth="7" markerHeight="7" orient="auto"><path d="M0 0 L8 4 L0 8 z" fill="%s"/></marker></defs>' % DIM,
            '<rect width="%d" height="%d" fill="%s"/>' % (width, height, PAPER),
        ]

    def box(self, x, y, width, height, fill, line=LINE):
        self.parts.append('<rect x="%g" y="%g" width="%g" height="%g" rx="3" fill="%s" stroke="%s"/>' % (x, y, width, height, fill, line))

    def text(self, x, y, text, colour=INK, size=12, anchor="start", bold=False):
        how = ' text-anchor="%s"' % anchor if anchor != "start" else ""
        how += ' font-weight="bold"' if bold else ""
        self.parts.append('<text x="%g" y="%g" fill="%s" font-size="%g"%s>%s</text>' % (x, y, colour, size, how, escaped(text.replace("`", ""))))

    def words(self, x, y, width, text, colour):
        """A text in lines of that width."""
        lines = [""]
        for word in text.split():
            if lines[-1] and 5.6 * (len(lines[-1]) + len(word) + 1) > width:
                lines.append("")
            lines[-1] += (" " if lines[-1] else "") + word
        for number, line in enumerate(lines):
            self.text(x, y + 12 * number, line, colour, 10)

    def line(self, x, y, to_x, to_y, colour=LINE, dashed=False, arrow=False):
        how = ' stroke-dasharray="4 3"' if dashed else ""
        how += ' marker-end="url(#end)"' if arrow else ""
        self.parts.append('<line x1="%g" y1="%g" x2="%g" y2="%g" stroke="%s"%s/>' % (x, y, to_x, to_y, colour, how))

    def way(self, begin, end):
        self.parts.append('<path d="M%g %g L%g %g" fill="none" stroke="%s" stroke-width="1.6" marker-end="url(#end)"/>' % (*begin, *end, WAY_INK))

    def number(self, begin, end, number):
        x, y = ((3 * begin[it] + 2 * end[it]) / 5 for it in (0, 1))
        self.parts.append('<circle cx="%g" cy="%g" r="8" fill="%s"/>' % (x, y, WAY_INK))
        self.text(x, y + 3.5, str(number), PAPER, 10, "middle", True)

    def whole(self):
        return "\n".join(self.parts + ["</svg>"]) + "\n"


def lag():
    left, wide, row = 150, 420, 62
    picture = Picture(860, 60 + row * len(CLOCKS), "The clocks of the host, and what moves each of them on")
    at = lambda place: left + wide * place / 100
    bottom = 48 + row * len(CLOCKS)
    picture.text(left, 22, "ticks", DIM)
    picture.line(left, 34, left + wide, 34, DIM, arrow=True)
    picture.text(at(NOW), 22, "the processor's access or look", DIM, 12, "end")
    picture.text(left + wide + 24, 22, "moved on by", DIM)
    for number, (name, _, _, place, of, what, by) in enumerate(CLOCKS):
        y = 48 + row * number
        picture.text(left - 12, y + 24, name, INK, 13, "end", True)
        picture.text(left - 12, y + 39, "" if of == NOW else "ahead" if place > of else "behind", DIM, 11, "end")
        picture.box(left, y + 6, wide * place / 100, 44, FILL["work"])
        if place != of:
            picture.line(at(of), y + 44, at(place) + (2 if place < of else -2), y + 44, INK, arrow=True)
        for x, texts in ((left + 8, what), (left + wide + 24, by)):
            for line, text in enumerate(texts):
                picture.text(x, y + 22 + 14 * line, text, INK, 11)
    picture.line(at(NOW), 28, at(NOW), bottom, DIM, dashed=True)
    picture.line(at(NEXT), 48 + row, at(NEXT), bottom, DIM, dashed=True)
    return picture.whole()


def turns():
    left, wide = 150, 930
    picture = Picture(1100, 390, "How both threads of run take turns")
    at = lambda place: left + wide * place / 100
    for label, file, y in (("host's thread", "`drive`", 96), ("second processor's", "`drive_ahead`", 286)):
        picture.text(left - 12, y - 2, label, INK, 12, "end", True)
        picture.text(left - 12, y + 15, file, DIM, 12, "end")
    for y, row in ((70, HOST), (260, PARA)):
        for begin, end, name, what, kind in row:
            picture.box(at(begin), y, at(end) - at(begin) - 3, 62, FILL[kind])
            picture.text(at(begin) + 6, y + 17, name, INK, 12, bold=True)
            picture.words(at(begin) + 6, y + 31, at(end) - at(begin) - 8, what, INK)
    for from_host, begin, end, room, name, what in WORDS:
        y, to_y = (134, 258) if from_host else (258, 134)
        picture.line(at(begin), y, at(end), to_y, DIM, arrow=True)
        picture.text(at(end) + 8, 170, name, INK, 12, bold=True)
        picture.words(at(end) + 8, 185, wide * room / 100, what, DIM)
    picture.line(left, 40, left + wide, 40, DIM, arrow=True)
    picture.text(left, 30, "time, as it passes for whoever waits; the ticks of each side go on along its row", DIM, 11)
    x = left
    for kind, what in KEYS:
        picture.box(x, 352, 14, 14, FILL[kind])
        picture.text(x + 20, 363, what, DIM, 10.5)
        x += 40 + 5.9 * len(what)
    return picture.whole()


def crates_by_layer():
    layers = []
    for line in read("crates.txt").splitlines()[1:]:
        if line.startswith("#"):
            layers.append((line[1:].strip(), []))
        elif ":" in line:
            layers[-1][1].append(line.split(":")[0].split()[0])
    return layers


def house():
    left, wide, high, gap, most = 20, 112, 22, 8, 8
    layers = list(reversed(crates_by_layer()))
    rows = sum((len(names) + most - 1) // most for _, names in layers)
    picture = Picture(left + most * (wide + gap) + 12, 70 + len(layers) * 26 + rows * (high + gap), "The crates by layer, and the way of one access")
    places, labels, y = {}, [], 24
    for label, names in layers:
        labels.append((label, y + 4))
        y += 12
        for number, name in enumerate(names):
            places[name] = left + number % most * (wide + gap), y + number // most * (high + gap)
        y += (len(names) + most - 1) // most * (high + gap) + 14
    # The ways lie under the crates that they pass, and those between the same two crates beside each other.
    ways = []
    for number, ((name, _), (next_name, _)) in enumerate(zip(WAY, WAY[1:])):
        (x, top), (to_x, to_top) = places[name], places[next_name]
        aside = wide / 2 + (-36, -12, 12, 36)[number % 4]
        ways.append(((x + aside, top + (high if to_top > top else 0)), (to_x + aside, to_top + (0 if to_top > top else high))))
    for way in ways:
        picture.way(*way)
    for label, y in labels:
        picture.text(left, y, label, DIM, 11)
    for name, (x, top) in places.items():
        picture.box(x, top, wide, high, FILL["way" if name in [it for it, _ in WAY] else "plain"])
        picture.text(x + wide / 2, top + 15, name, INK, 11, "middle")
    for number, way in enumerate(ways):
        picture.number(*way, number + 1)
    said = ["%d %s of %s" % (number, call, name) for number, (name, call) in enumerate(WAY) if number]
    text = "A store of the host to FEE1, in solo, from %s of %s: %s. A crate stands on some of those in its layer and in the layers below." % (WAY[0][1], WAY[0][0], ", ".join(said))
    picture.words(left, picture.height - 26, 940, text, INK)
    return picture.whole()


# -- All three --


def read(name):
    with open(TOP + "/" + name, encoding="utf-8") as file:
        return file.read()


def lost_names():
    """What the figures name and the code has not."""
    code = {os.path.basename(crate): "".join(read(os.path.relpath(it, TOP)) for it in glob.glob(crate + "/src/**/*.rt", recursive=True)) for crate in glob.glob(TOP + "/crates/*")}
    lost = ["the field %s of %s" % (field, crate) for _, crate, field, *_ in CLOCKS if not re.search(r"\b%s:" % field, code.get(crate, ""))]
    every = "".join(code.values())
    called = [row[2] for row in HOST + PARA] + [row[4] for row in WORDS] + ["drive", "drive_ahead"]
    called += re.findall(r"`(\w+)`", " ".join(" ".join(row[6]) for row in CLOCKS))
    lost += ["a function " + it for it in called if not re.search(r"\bfn %s\b|\b%s:" % (it, it), every)]
    lost += ["%s in %s" % (call, crate) for crate, call in WAY if not re.search(r"\bfn %s\b" % call, code.get(crate, ""))]
    return lost


def main():
    figures = {"lag.svg": lag, "turns.svg": turns, "house.svg": house}
    if sys.argv[1:] not in (["make"], ["check"]):
        sys.exit(__doc__.strip())
    lost = lost_names()
    if lost:
        fail("the code has not what a figure names: " + ", ".join(lost))
    for name, draw in figures.items():
        if sys.argv[1] == "make":
            with open(TOP + "/docs/" + name, "w", encoding="utf-8") as file:
                file.write(draw())
        elif not os.path.isfile(TOP + "/docs/" + name) or read("docs/" + name) != draw():
            fail("docs/%s is another than docs/figures.py draws" % name)


main()
