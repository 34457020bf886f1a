"""A protocol decoder for sigrok. It takes accesses as `tools/trace` does, and explains them as
`tools/tube --all` does, with the modules of the folder tools of this clone."""

import os
import sys
from fractions import Fraction

import sigrokdecode as srd

# A link to this folder leads to the clone, too.
TOOLS = os.path.dirname(os.path.dirname(os.path.dirname(os.path.realpath(__file__))))
sys.dont_write_bytecode = True
sys.path.append(TOOLS)
from beebtube.accesses import SIDES, is_status, letter_of, name_of, words_of  # noqa: E402
from beebtube.bus import ACTIVE_LOW, RESET, SIGNALS, Bus, Wanted  # noqa: E402
from beebtube.signals import Reader  # noqa: E402
from beebtube.trace import Access  # noqa: E402
from beebtube.tube import Tube  # noqa: E402
from beebtube.verdict import Judge  # noqa: E402

HOST, PARA, HELD, LOST, HOST_IRQ, PARA_IRQ, PARA_NMI, WRONG = range(8)
INTERRUPTS = {
    "host_irq": (HOST_IRQ, "IRQ"),
    "para_irq": (PARA_IRQ, "IRQ"),
    "para_nmi": (PARA_NMI, "NMI"),
}


def described(signal):
    """What a signal is."""
    names = {
        "CS": "select, active low",
        "RW": "1 is a read",
        "CLK": "clock: its fall ends an access",
    }
    names.update({"RD": "read strobe, active low", "WR": "write strobe, active low"})
    if signal == RESET:
        return "Reset, active low"
    what = names.get(signal[1:], {"A": "address", "D": "data"}.get(signal[1]))
    return "%s: %s" % (SIDES[signal[0]].capitalize(), what)


class Samples(Reader):
    """The channels of the decoder as a capture's lines."""

    def __init__(self, decoder, rate):
        super().__init__("the capture", None)
        self._decoder = decoder
        self._there = [at for at in range(len(SIGNALS)) if decoder.has_channel(at)]
        for at in self._there:
            self.lines.add(SIGNALS[at])
        self.unit = self.sample = 1 / Fraction(rate)

    def moments(self, watched, wanted):
        """As `Reader` has it: each sample at which a channel changes is looked at."""
        decoder, before = self._decoder, -1
        decoder.wait([{"skip": 0}])
        edges = [{at: "e"} for at in self._there]
        while True:
            pins = decoder.pins_now
            state = sum(1 << bit for bit, at in enumerate(self._there) if pins[at] == 1)
            if before >= 0 and (state ^ before) & watched:
                yield decoder.samplenum, before, state
            before = state
            try:
                decoder.wait(edges)
            except (EOFError, SystemError):
                # The samples end. libsigrokdecode 0.5 sets no exception then; Python does.
                return

    def place(self, time):
        return "sample %d" % time


class Decoder(srd.Decoder):
    api_version = 3
    id = "tube"
    name = "Tube"
    longname = "Acorn Tube"
    desc = "Accesses to the Tube of a BBC Micro and its second processor."
    license = "unlicensed"
    inputs = ["logic"]
    outputs = []
    tags = ["Retro computing"]
    channels = ()
    optional_channels = tuple(
        {"id": signal.lower(), "name": signal, "desc": described(signal)} for signal in SIGNALS
    )
    options = (
        {"id": "glitch", "desc": "Shorter pulses are ignored (ns)", "default": 20},
        {"id": "inverted", "desc": "Signals whose channel is inverted, as HCS,PCLK", "default": ""},
    )
    annotations = (
        ("host", "Access of the host"),
        ("para", "Access of the second processor"),
        ("held", "What the registers hold"),
        ("lost", "Byte that is lost"),
        ("host-irq", "IRQ of the host"),
        ("para-irq", "IRQ of the second processor"),
        ("para-nmi", "NMI of the second processor"),
        ("wrong", "Wrong answer"),
    )
    annotation_rows = (
        ("hosts", "Host", (HOST,)),
        ("paras", "Second processor", (PARA,)),
        ("registers", "Registers", (HELD,)),
        ("overruns", "Lost", (LOST,)),
        ("host-irqs", "Host IRQ", (HOST_IRQ,)),
        ("para-irqs", "Second processor IRQ", (PARA_IRQ,)),
        ("para-nmis", "Second processor NMI", (PARA_NMI,)),
        ("wrongs", "Wrong answers", (WRONG,)),
    )

    def __init__(self):
        self.reset()

    def reset(self):
        self.rate = 0
        self.tube = Tube()
        self.since = {}  # by interrupt since which sample it is asked for

    def start(self):
        self.out = self.register(srd.OUTPUT_ANN)

    def metadata(self, key, value):
        if key == srd.SRD_CONF_SAMPLERATE:
            self.rate = value

    def wait(self, conditions):
        """As sigrok's; `pins_now` keeps the channels' levels. A call from here is one that Python
        checks for an exception."""
        self.pins_now = super().wait(conditions)
        return self.pins_now

    def decode(self):
        inverted = {word.strip().upper() for word in self.options["inverted"].split(",")}
        names = {}
        for at, signal in enumerate(SIGNALS):
            if self.has_channel(at):
                is_low = signal[1:] in ACTIVE_LOW or signal == RESET
                names[signal] = Wanted(signal, is_low != (signal in inverted))
        reader = Samples(self, self.rate or 10**9)
        begin = None if RESET in names else 0
        bus = Bus(reader, names, begin, Fraction(self.options["glitch"], 10**9), 6000000)
        self.judge = Judge(bus.sides, begin is None, 1)
        held = 0
        for access in self.judge.ordered(bus.accesses()):
            self.put_held(held, access.end)
            held = access.end
            self.put_access(access)

    def put_access(self, access):
        """The rows of an access."""
        ann = HOST if access.side == "H" else PARA
        words = words_of(access.side, access.way, access.register, access.byte)
        short = "%s%d %02X" % (access.way, access.register, access.byte)
        self.put(access.begin, access.end, self.out, [ann, [words, short, short[:2]]])
        wrong = self.judge.wrong
        if wrong and wrong[-1].access is access:
            text = "the chip would answer %02X" % wrong[-1].answer
            self.put(access.begin, access.end, self.out, [WRONG, [text, "not %02X" % access.byte]])
        self.put_lost(access)
        for name, is_asked in self.tube.interrupts().items():
            if is_asked:
                self.since.setdefault(name, access.end)
            elif name in self.since:
                ann, text = INTERRUPTS[name]
                self.put(self.since.pop(name), access.end, self.out, [ann, [text]])

    # Does an access; a byte is lost if its register does not hold more bytes after it.
    def put_lost(self, access):
        to = "P" if access.side == "H" else "H"
        held = self.tube.held[to, access.register // 2 + 1]
        before = list(held)
        self.tube.put(Access(0, *access[:4]))
        if access.way == "W" and not is_status(access.register) and len(held) <= len(before):
            lost = before if held == [access.byte] else [access.byte]
            data = " ".join("%02X" % byte for byte in lost)
            text = "%s to %s: %s lost" % (name_of(access.register), SIDES[to], data)
            self.put(access.begin, access.end, self.out, [LOST, [text, "lost"]])

    # What the registers hold from an access to the next.
    def put_held(self, begin, end):
        parts = []
        for (side, number), held in self.tube.held.items():
            if held:
                data = " ".join("%02X%s" % (byte, letter_of(byte)) for byte in held)
                parts.append("%d to %s: %s" % (number, SIDES[side], data))
        if end > begin:
            self.put(begin, end, self.out, [HELD, ["; ".join(parts) or "empty", str(len(parts))]])
