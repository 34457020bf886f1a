"""Captures of every kind: their order, their verdict, and what is passed over."""
import os
import random
import shutil
import sys
import unittest

from common import TOP, Case, call, put, text_of

sys.path.insert(0, os.path.join(TOP, "bench"))
import captures  # noqa: E402
from test_trace import HEAD, HOST, IDLE, capture, made_up  # noqa: E402

from beebtube.bus import SIDE, Captured  # noqa: E402
from beebtube.capture import Capture, names_of  # noqa: E402
from beebtube.faults import Fault  # noqa: E402
from beebtube.signals import Vcd, time_unit_of  # noqa: E402
from beebtube.trace import Trace  # noqa: E402
from beebtube.tube import Tube  # noqa: E402
from beebtube.verdict import Judge, Known  # noqa: E402

BOTH = ["HA0", "HA1", "HA2"] + HOST[3:] + ["P" + signal[1:] for signal in HOST]
NS = HEAD.replace("1 us", "1 ns")


def captured(data, sides="HP"):
    return [
        Captured(it.side, it.way, it.register, it.byte, it.tick, it.tick, 1)
        for it in Trace(data)
        if it.side in sides
    ]


class Knowledge(unittest.TestCase):
    def test_it_answers_as_the_tube_does(self):
        for seed in range(4):
            tube, known = Tube(), Known("HP", True)
            for access in Trace(made_up(seed, 1500)):
                answer = tube.put(access)
                if access.way == "R":
                    self.assertEqual(known.answer(access.side, access.register), (answer, 255))
                known.put(access.side, access.way, access.register, access.byte)

    def test_what_is_not_known_is_never_wrong(self):
        """One side alone, a capture that begins later, and both: no right answer is called wrong,
        and some are looked at."""
        for seed in range(6):
            data = made_up(seed, 1500)
            for sides in ("H", "P", "HP"):
                for begin in (0, 700):
                    judge = Judge(sides, begin == 0, None)
                    list(judge.ordered(captured(data, sides)[begin:]))
                    self.assertEqual(judge.wrong, [], (seed, sides, begin))
                    self.assertGreaterEqual(
                        judge.checked, judge.answers // (1 if begin == 0 and len(sides) == 2 else 8)
                    )

    def test_one_side_alone_cannot_answer_all(self):
        reads = [
            (0, 0x00, 0x3F, False),
            (0, 0x40, 0x01, True),
            (2, 0x7F, 0x5F, True),
            (2, 0x3F, 0x40, False),
        ]
        for register, byte, other, is_wrong in reads:
            for value in (byte, other):
                judge = Judge("H", True, None)
                list(
                    judge.ordered(
                        [
                            Captured("H", "R", register, 0x40 if register == 0 else 0x7F, 1, 1, 1),
                            Captured("H", "R", register, value, 2, 2, 2),
                        ]
                    )
                )
                self.assertLessEqual(len(judge.wrong), 1)
                if value == other and is_wrong:
                    self.assertEqual([it.number for it in judge.wrong], [2], (register, value))

    def test_after_a_wrong_answer_it_goes_on(self):
        for seed in range(6):
            dice, accesses = random.Random(seed), captured(made_up(seed, 1200, breaks=False))
            reads = [at for at, it in enumerate(accesses) if it.way == "R"]
            places = sorted(dice.sample(reads[::40], 5))
            for at in places:
                accesses[at] = accesses[at]._replace(
                    byte=accesses[at].byte ^ 1 << dice.randrange(8)
                )
            judge = Judge("HP", True, None)
            list(judge.ordered(accesses))
            self.assertEqual(judge.wrong[0].number, places[0] + 1)
            self.assertLessEqual({it.number - 1 for it in judge.wrong}, set(places))


class Order(Case):
    def take(self, body, names=None, head=NS, signals=tuple(BOTH) + ("RST",), **how):
        put(self.at("c.vcd"), capture(body, signals=signals, head=head))
        self.capture = Capture(self.at("c.vcd"), None, None, names, **how)
        return b"".join(self.capture.trace()).decode()

    IDLE = IDLE + " " + " ".join("0P" + signal[1:] for signal in HOST[:11]) + " 1PRW 1PCS 0PCLK"

    def begin(self):
        return "#0 0RST %s\n#1000 1RST\n" % self.IDLE

    def test_the_second_processor_first_within_a_tick(self):
        """It gives 41 to register 1 right before the host reads the status."""
        body = (
            self.begin()
            + "#2000 0PCS 0PRW 1PA0 1PD0 1PD6 1PCLK\n#2101 0HCS 1HD7 1HD6 1HCLK\n"
            + "#2110 0PCLK 1PCS\n#2130 0HCLK\n#2200 1HCS\n"
        )
        self.assertEqual(self.take(body), "0000000006 P W 1 41\n0000000007 H R 0 C0\n")
        self.assertEqual(
            (
                self.capture.judge.wrong,
                self.capture.moved,
                self.capture.farthest,
                self.capture.judge.turned,
            ),
            ([], 1, 1, 0),
        )

    def test_edges_in_one_sample(self):
        """Either may have been first: the answer says which."""
        for answer, wanted in (
            ("1HD6", "0000000006 H R 0 40\n0000000006 P W 1 41\n"),
            ("1HD7 1HD6", "0000000006 P W 1 41\n0000000007 H R 0 C0\n"),
        ):
            body = (
                self.begin() + "#2000 0PCS 0PRW 1PA0 1PD0 1PD6 1PCLK 0HCS %s 1HCLK\n"
                "#2110 0PCLK 0HCLK 1PCS 1HCS\n" % answer
            )
            self.assertEqual(self.take(body), wanted)
            self.assertEqual(
                (self.capture.judge.wrong, self.capture.judge.turned), ([], len(answer) // 9)
            )

    def test_no_order_explains_it(self):
        body = (
            self.begin()
            + "#2000 0PCS 0PRW 1PA0 1PD0 1PD6 1PCLK 0HCS 1HCLK\n#2110 0PCLK 0HCLK 1PCS 1HCS\n"
        )
        self.take(body)
        self.assertEqual([(it.number, it.answer) for it in self.capture.judge.wrong], [(1, 0x40)])
        self.assertEqual(self.capture.place_of(self.capture.judge.wrong[0].access), "#2110")

    def test_a_tick_of_lists_has_the_host_first_and_a_time_the_order_of_its_lines(self):
        rows = "%s,P,W,1,41\n%s,H,R,0,%s\n"
        for column, time, answer, wanted in (
            ("tick", "6", "40", "0000000006 H R 0 40\n0000000006 P W 1 41\n"),
            ("time_ns", "1000", "C0", "0000000006 P W 1 41\n0000000007 H R 0 C0\n"),
        ):
            put(
                self.at("c.csv"),
                ((column + ",side,way,register,byte\n") + rows % (time, time, answer)).encode(),
            )
            capture = Capture(self.at("c.csv"))
            self.assertEqual(b"".join(capture.trace()).decode(), wanted)
            self.assertEqual(capture.judge.wrong, [])

    def test_glitches(self):
        access = "#2000 0HCS 1HD6 1HCLK\n%s#2200 0HCLK\n#2300 1HCS\n"
        wanted = "0000000007 H R 0 40\n"
        for glitch in (
            "",
            "#2100 0RST\n#2106 1RST\n",
            "#2100 0HCLK\n#2109 1HCLK\n",
            "#2190 1HCS\n#2195 0HCS\n",
        ):
            self.assertEqual(self.take(self.begin() + access % glitch), wanted, glitch)
            self.assertEqual((self.capture.glitches, self.capture.ringing), (int(bool(glitch)), 0))
        ringing = access % "" + "#2310 1HCLK\n"
        self.assertEqual(
            self.take(self.begin() + ringing.replace("#2300", "#2203 1HCLK\n#2207 0HCLK\n#2300")),
            wanted,
        )
        self.assertEqual((self.capture.glitches, self.capture.ringing), (0, 1))
        self.assertEqual(
            self.take(self.begin() + access % "#2100 0RST\n#2106 1RST\n", glitch=0),
            "0000000006 H X 0 00\n" + wanted,
        )
        # A glitch on the reset line takes away no access that ends in it.
        at_end = (access % "").replace("#2200 0HCLK", "#2195 0RST\n#2200 0HCLK\n#2203 1RST")
        self.assertEqual(self.take(self.begin() + at_end), wanted)
        self.assertEqual((self.capture.glitches, self.capture.ringing), (1, 0))
        # An edge within the same tick is one of the same access, however long the pulse is.
        self.assertEqual(
            self.take(self.begin() + access % "" + "#2340 1HCLK 0HCS\n#2345 0HCLK\n", glitch=0),
            wanted,
        )

    def test_a_reset_near_a_clock_edge(self):
        """Wherever the reset rises beside the clocks, the same accesses have the same answers."""
        for phase in range(0, 340, 40):
            body, tube, at = ["#0 0RST %s\n#%d 1RST\n" % (self.IDLE, 500 + phase)], Tube(), 1000
            events = []
            dice = random.Random(7)
            for number in range(60):
                events += [(1000 + 500 * number, "H"), (1000 + 333 * number, "P")]
            for at, side in sorted(events):
                way, register, byte = dice.choice("RW"), dice.choice((0, 1)), dice.randrange(128)
                answer = tube.put(
                    next(
                        iter(
                            Trace(
                                ("%010X %s %s %d %02X\n" % (at, side, way, register, byte)).encode()
                            )
                        )
                    )
                )
                byte = answer if way == "R" else byte
                bits = " ".join("%d%s%s" % (byte >> bit & 1, side, "D%d" % bit) for bit in range(8))
                body.append(
                    "#%d 0%sCS %d%sRW %d%sA0 %s 1%sCLK\n#%d 0%sCLK\n#%d 1%sCS\n"
                    % (
                        10 * at,
                        side,
                        way == "R",
                        side,
                        register,
                        side,
                        bits,
                        side,
                        10 * at + 1000,
                        side,
                        10 * at + 1001,
                        side,
                    )
                )
            text = "".join(body)
            moments = []
            for line in text.splitlines():
                time, _, rest = line.partition(" ")
                moments.append((int(time[1:]) // (10 if int(time[1:]) > 5000 else 1), rest))
            moments.sort(key=lambda it: it[0])
            self.take("".join("#%d %s\n" % it for it in moments))
            self.assertEqual(self.capture.judge.wrong, [], phase)
            self.assertEqual(self.capture.count, 120)


class Names(Case):
    def test_forms(self):
        self.assertEqual(
            names_of("HD=D[7:0], HCS = !nTUBE,time=when"),
            {**{"HD%d" % bit: "D[%d]" % bit for bit in range(8)}, "HCS": "!nTUBE", "time": "when"},
        )
        self.assertEqual(names_of("PA=!A[0:2]"), {"PA0": "!A[2]", "PA1": "!A[1]", "PA2": "!A[0]"})
        for text in ("", "HD=", "x=y", "HD=D[3:0]", "HCS=!", "HCLK"):
            self.assertRaises(Fault, names_of, text)

    def test_units_of_time(self):
        for name, unit in (
            ("time", 0),
            ("Time [s]", 0),
            ("time_us", 6),
            ("time (ms)", 3),
            ("Time[ns]", 9),
            ("nanoseconds", 9),
            ("Time [\u00b5s]", 6),
        ):
            self.assertEqual(1 / time_unit_of(name), 10**unit, name)
        for name in ("times", "byte", "s", "t", "data", ""):
            self.assertIsNone(time_unit_of(name), name)
        put(self.at("c.csv"), b"time_ns,side,way,register,byte\n2000,H,R,0,40\n")
        for names in (None, {"time": "time_ns"}, {"time_ns": "time_ns"}):
            self.assertEqual(
                b"".join(Capture(self.at("c.csv"), names=names).trace()), b"000000000C H R 0 40\n"
            )
        put(self.at("c.csv"), b"T,side,way,register,byte\n2,H,R,0,40\n")
        for column in ("time_us", "time_ms", "time"):
            wanted = {"time_us": 12, "time_ms": 12000, "time": 12000000}[column]
            self.assertEqual(
                b"".join(Capture(self.at("c.csv"), names={column: "T"}).trace()),
                b"%010X H R 0 40\n" % wanted,
            )

    def test_lines_of_other_names(self):
        body = (
            "#0 0RES b00000000 d b000 a 1RW 1CS 0CLK\n#10 1RES\n#16 0CS b1000000 d 1CLK\n#17 0CLK\n"
        )
        head = (
            "$timescale 1 us $end $var wire 8 d D [7:0] $end $var wire 3 a A $end "
            "$var wire 1 RW R / W $end $var wire 1 CS n TUBE $end "
            "$var wire 1 CLK 2 MHz $end $var wire 1 RES nRST $end $enddefinitions $end "
        )
        put(self.at("c.vcd"), (head + body).encode())
        names = names_of("HD=D[7:0],HA=A,HRW=R/W,HCS=!nTUBE,HCLK=2 MHz,RST=nRST")
        self.assertEqual(
            b"".join(Capture(self.at("c.vcd"), names=names).trace()), b"000000002A H R 0 40\n"
        )
        turned = body.replace("1CS", "xCS").replace("0CS", "1CS").replace("xCS", "0CS")
        put(self.at("c.vcd"), (head + turned).encode())
        self.assertEqual(
            b"".join(Capture(self.at("c.vcd"), names={**names, "HCS": "+nTUBE"}).trace()),
            b"000000002A H R 0 40\n",
        )
        with self.assertRaisesRegex(Fault, "HA0 and HA1 are the same line"):
            Capture(self.at("c.vcd"), names={**names, "HA1": "A[0]"})

    def test_a_side_has_a_clock_or_strobes(self):
        self.assertEqual(SIDE[-4:], ("RW", "CLK", "RD", "WR"))
        signals = ["P" + bit for bit in captures.BITS] + ["PCS", "PRD", "PWR", "RST"]
        idle = (
            "#0 0RST 1PCS 1PRD 1PWR " + " ".join("0" + it for it in signals[:11]) + "\n#1000 1RST\n"
        )
        put(
            self.at("c.vcd"),
            capture(
                idle + "#2000 0PCS 1PA1 0PRD\n#2200 1PRD\n#3000 1PA0 0PA1 1PD7 0PWR\n#3200 1PWR\n",
                signals=signals,
                head=NS,
            ),
        )
        self.assertEqual(
            b"".join(Capture(self.at("c.vcd")).trace()),
            b"0000000007 P R 2 00\n000000000D P W 1 80\n",
        )
        with self.assertRaisesRegex(Fault, "no signal PWR"):
            put(self.at("c.vcd"), capture(idle, signals=signals[:-2] + ["RST"], head=NS))
            Capture(self.at("c.vcd"))


class Kinds(Case):
    def test_each_kind_of_file(self):
        """A right capture of each kind and form of names has no wrong answer, and of one with a
        wrong one that is reported."""
        seeds = {}
        for seed in range(400):
            plan = captures.plan_of(random.Random(seed))
            seeds.setdefault((plan.kind,), seed)
            seeds.setdefault((plan.scheme,), seed)
        self.assertEqual(len(seeds), len(captures.KINDS) + len(captures.SCHEMES))
        for seed in sorted(set(seeds.values())):
            for is_wrong in (False, True):
                self.assertIsNone(
                    captures.fault_of(
                        captures.tried(self.folder, seed, is_wrong, 60000 * captures.NS)
                    ),
                    seed,
                )

    def test_progress_of_a_session_is_that_of_its_file(self):
        """The samples of a session are compressed, so they are more bytes than the file has."""
        plan = captures.Plan("sr", "plain", False, 3, "HP", 200000000)
        machine = captures.Machine(random.Random(1), plan, 2000000 * captures.NS)
        name, _ = captures.write(self.at("capture"), plan, machine)
        done = []
        list(Capture(name, progress=done.append).trace())
        self.assertGreater(len(done), 1)
        self.assertEqual(done, sorted(done))
        self.assertLessEqual(done[-1], os.path.getsize(name))

    def test_sessions_of_every_size(self):
        """Samples of 2 to 9 bytes give the same accesses."""
        plan = captures.Plan("sr", "plain", True, 3, "H", 100000000)
        machine = captures.Machine(random.Random(3), plan, 40000 * captures.NS)
        found, events = set(), machine.lines()
        signals = sorted({line for _, line, _ in events})
        changes = captures.sampled(events, plan.rate, signals, machine.length)
        for size in range(2, 10):
            labels = signals + ["unused %d" % at for at in range(8 * size - len(signals))]
            captures.write_sr(self.at("c.sr"), labels, changes, plan.rate, plan)
            found.add(b"".join(Capture(self.at("c.sr")).trace()))
        self.assertEqual(len(found), 1)
        self.assertGreater(found.pop().count(b"\n"), 10)

    def test_a_capture_begins_at_its_first_time(self):
        """Saleae's times begin below 0 if there is a trigger."""
        names = ["HA0", "HA1", "HA2"] + HOST[3:]
        rows = [
            ("-0.000002000", "0" * 11 + "110"),
            ("-0.000001000", "0" * 6 + "1" + "0" * 4 + "101"),
            ("0.000000000", "0" * 6 + "1" + "0" * 4 + "100"),
        ]
        put(
            self.at("c.csv"),
            "\n".join(
                ["Time [s]," + ",".join(names)]
                + ["%s,%s" % (time, ",".join(row)) for time, row in rows]
            ).encode(),
        )
        self.assertEqual(
            b"".join(Capture(self.at("c.csv"), begin=100).trace()), b"0000000070 H R 0 08\n"
        )

    def test_no_select_is_made_up_before_the_first_edge(self):
        """The first edge ends a cycle in which the Tube is not selected, at a time below 0."""
        rows = [("-0.000002", "111"), ("-0.000001", "110"), ("0.0", "111")]
        names = ["HA0", "HA1", "HA2"] + HOST[3:]
        lines = ["%s,%s" % (time, ",".join("0" * 11 + row)) for time, row in rows]
        put(self.at("c.csv"), "\n".join(["Time [s]," + ",".join(names)] + lines).encode())
        self.assertEqual(list(Capture(self.at("c.csv"), begin=100).trace()), [])

    def test_a_long_head(self):
        text = (
            "$comment\n"
            + ("x " * 16000 + "\n") * 3
            + "\n" * 20000
            + "$end $timescale 1 ns $end $enddefinitions $end\n"
        )
        put(self.at("c.vcd"), text.encode())
        self.assertEqual(Vcd(self.at("c.vcd")).lines.names, [])
        put(self.at("c.vcd"), text.replace("x ", "x y ").encode())
        with self.assertRaisesRegex(Fault, "has no .end"):
            Vcd(self.at("c.vcd"))

    def test_what_is_none(self):
        for ending, data in (
            ("sr", b""),
            ("sr", b"PK\3\4" + b"x" * 50),
            ("csv", b"Time [s],HA0\n0.0,2\n"),
            ("csv", b"HA0,HA1\n0,1\n"),
            ("csv", b"; Samplerate: 1 MHz\n"),
            ("csv", b"time,side,way,register,byte\n1e99,H,R,0,40\n"),
            ("vcd", b"$timescale 1 ns $end $enddefinitions $end #5"),
        ):
            put(self.at("c." + ending), data)
            with self.assertRaises(Fault, msg=data):
                list(Capture(self.at("c." + ending), begin=0).trace())


class Verdict(Case):
    HEAD = b"tick,side,way,register,byte\n"

    def take(self, data, *words, status):
        put(self.at("c.csv"), self.HEAD + data)
        return self.tool("trace", "c.csv", "o.trace", *words, status=status).out.splitlines()

    def test_statuses(self):
        self.assertEqual(self.take(b"6,H,R,0,40\n", status=0), ["accesses 1", "ok 1"])
        self.assertEqual(self.take(b"6,H,R,0,00\n", status=8)[1], "wrong 1 40")
        self.assertEqual(self.take(b"6,H,W,1,00\n", status=1), ["accesses 1"])
        self.assertEqual(self.take(b"6,H,R,0,00\n", "--at", "100", status=1), ["accesses 1"])
        self.assertEqual(
            self.take(b"6,H,R,2,3F\n", "--at", "100", status=0),
            ["accesses 1", "ok as far as can be seen: 1 of 1 answer checked"],
        )

    def test_all_wrong_answers(self):
        lines = self.take(
            b"6,H,R,0,00\n9,H,R,0,40\n12,H,R,2,7F\n15,H,R,2,7E\n16,P,R,4,3F\n", status=8
        )
        self.assertEqual(
            [line for line in lines if line.startswith("wrong")],
            ["wrong 1 40", "wrong 4 7F", "wrong answers: 2 of 4 checked"],
        )
        self.assertIn("line 4: 000000000F H R 2 7E, captured at line 5", lines)
        self.assertEqual(text_of(self.at("o.trace")).count(b"\n"), 5)

    def test_the_unused_bits_hide_nothing(self):
        """A machine whose unused bits are zeros: each read is wrong, and so is another bit."""
        rows = "".join("%d,H,R,2,40\n" % (6 * at) for at in range(1, 26)) + "300,H,R,2,00\n"
        lines = self.take(rows.encode(), status=8)
        self.assertEqual(lines.count("                   the chip would answer 7F"), 20)
        self.assertIn("wrong 25 7F: 0000000096 H R 2 40, captured at line 26", lines)
        self.assertEqual(
            lines[-2:],
            [
                "wrong answers: 26 of 26 checked",
                "in the unused bits of the status of registers 2 to 4 alone: 25",
            ],
        )

    def test_one_side(self):
        body = "#0 0RST %s\n#1000 1RST\n#2000 0HCS 1HD6 1HCLK\n#2200 0HCLK\n#2300 1HCS\n" % IDLE
        put(self.at("c.vcd"), capture(body, head=NS))
        self.assertEqual(
            self.tool("trace", "c.vcd", "o.trace").out.splitlines(),
            ["accesses 1", "of the host alone", "ok as far as can be seen: 1 of 1 answer checked"],
        )
        put(self.at("c.vcd"), capture(body.replace("1HD6", "1HD6 1HD0"), head=NS))
        self.assertEqual(
            self.tool("trace", "c.vcd", "o.trace", status=8).out.splitlines()[2], "wrong 1 40"
        )

    def test_hints(self):
        body = "#0 0RST %s\n#1000 1RST\n%s"
        for moves, wanted in (
            ("", "HCLK: no edge ends an access"),
            ("#2000 1HCLK\n#2200 0HCLK\n", "HCS is never active"),
        ):
            put(self.at("c.vcd"), capture(body % (IDLE, moves), head=NS))
            self.assertIn(wanted, self.tool("trace", "c.vcd", "o.trace", status=1).err)

    def test_nothing_moves_the_cursor(self):
        bad = "\x1b]0;x\x07"
        for name, text in (
            ("c.csv", "time,%s,way\n1,2,3\n"),
            ("c.csv", "tick,side,way,register,byte\n%s,H,R,0,0\n"),
            ("c.csv", "tick,side,way,register,byte\n1,H,%s,0,0\n"),
            ("c.vcd", "$timescale 1%s $end\n"),
            ("c.vcd", "$timescale 1 ns $end $var wire 1 ! %s $end $enddefinitions $end\n"),
            ("c.vcd", "$timescale 1 ns $end $enddefinitions $end\n#1 %s\n"),
        ):
            put(self.at(name), (text % bad).encode())
            for words in ([], ["--names", "HCS=" + bad], ["--names", bad + "=x"]):
                done = self.tool(
                    "trace",
                    name,
                    "o.trace",
                    *words,
                    status=2 if words[1:] and words[1].startswith(bad) else 1
                )
                self.assertNotIn("\x1b", done.out + done.err)


@unittest.skipUnless(shutil.which("sigrok-cli"), "sigrok-cli is not installed")
class Decoder(Case):
    """The decoder for sigrok."""

    def rows(self, name, signals, rows):
        words = ":".join("%s=%s" % (signal.lower(), signal) for signal in signals)
        env = {"SIGROKDECODE_DIR": os.path.join(TOP, "tools", "sigrok")}
        words = ["sigrok-cli", "-i", name, "-P", "tube:" + words, "-A", "tube=" + rows]
        done = call(words, self.folder, env=env)
        self.assertEqual((done.status, done.err), (0, ""))
        return [line.partition(": ")[2] for line in done.out.splitlines()]

    def test_its_rows_are_those_of_the_tool(self):
        for seed in range(5):
            plan = captures.Plan("sr", "plain", seed % 2 == 1, 3, "HP", 100000000)
            machine = captures.Machine(random.Random(seed), plan, 40000 * captures.NS)
            name, _ = captures.write(self.at("capture"), plan, machine)
            signals = sorted({line for _, line, _ in machine.lines() if line[0] in "HPR"})
            self.tool("trace", name, "t", status=0)
            lines = [line[19:] for line in self.tool("tube", "--all", "t").out.splitlines()]
            self.assertGreater(len(lines), 30)
            self.assertEqual(self.rows(name, signals, "host:para"), lines, seed)

    def test_registers_lost_bytes_and_interrupts(self):
        text = "0000000003 H W 0 81\n0000000006 P W 7 41\n000000000C P W 7 42\n"
        text += "000000000F H R 7 42\n0000000015 H R 0 C0\n"
        put(self.at("t"), text.encode())
        self.tool("trace", "t", "x.vcd")
        call(["sigrok-cli", "-I", "vcd", "-i", "x.vcd", "-O", "srzip", "-o", "x.sr"], self.folder)
        self.assertEqual(
            self.rows("x.sr", BOTH + ["RST"], "lost:host-irq:wrong"),
            ["register 4 to the host: 41 lost", "IRQ", "the chip would answer 41"],
        )
        self.assertIn(
            "3 to the host: 00; 4 to the host: 42 'B'", self.rows("x.sr", BOTH + ["RST"], "held")
        )


if __name__ == "__main__":
    unittest.main()
