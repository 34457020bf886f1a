"""Traces as a logic analyser has them, and back; the Tube's registers as the tools count them."""
import itertools
import os
import random
import shutil
import subprocess

from common import EXAMPLES, Case, beebtube, put, text_of, unittest

from beebtube.capture import Capture, csv_of, vcd_of
from beebtube.checking import said_of_check
from beebtube.faults import Fault
from beebtube.trace import Access, Trace
from beebtube.tube import Tube

WITH_ENDS = ("letters.trace", "nmi.trace", "power-on.trace", "reset.trace")


def made_up(seed, count, breaks=True, step=5):
    """Accesses at random, with the answers that the tools' Tube gives."""
    dice, tube, tick, lines = random.Random(seed), Tube(), 0, []
    while len(lines) < count:
        tick += dice.randrange(step)
        for side in "HP":
            if dice.random() < 0.4:
                continue
            way, register, byte = dice.choice("RRW"), dice.randrange(8), dice.randrange(256)
            if side == "H" and register == 0 and dice.random() < 0.7:
                byte = dice.choice((0x90, 0x10, 0x88, 0x8F, 0x1F))
            if side == "H" and breaks and dice.random() < 0.02:
                way, register, byte = "X", 0, 0
            answer = tube.put(Access(tick, side, way, register, byte))
            lines.append(Access(tick, side, way, register, answer if way == "R" else byte).line() + "\n")
        tick += 1
    return "".join(lines).encode()


class Registers(unittest.TestCase):
    def test_the_program_gives_the_same_answers(self):
        for seed in (1, 2):
            data = made_up(seed, 20000)
            self.assertEqual(beebtube.check(data), data.count(b"\n"))


class Back(Case):
    def read(self, name, speed=None):
        return b"".join(Capture(self.at(name), speed).trace())

    def same(self, data):
        for ending, make in (("vcd", vcd_of), ("csv", csv_of)):
            put(self.at("x." + ending), b"".join(make(Trace(data))))
            speed = 4 if ending == "csv" and data.startswith(b"T2") else None
            self.assertEqual(self.read("x." + ending, speed), data, ending)

    def test_examples(self):
        for name in WITH_ENDS:
            self.same(text_of(os.path.join(EXAMPLES, name)))

    def test_made_up(self):
        """Accesses at each tick, on both sides, with resets, at both speeds."""
        for seed, step in itertools.product((3, 4), (1, 2, 40)):
            data = made_up(seed, 600, breaks=step > 1, step=step)
            self.same(data)
            self.same(b"T2\n" + data)

    def test_nothing(self):
        self.same(b"")

    def test_a_late_tick(self):
        self.same(b"FFFFFFFFFE H R 0 40\n")

    @unittest.skipUnless(shutil.which("sigrok-cli"), "sigrok-cli is not installed")
    def test_sigrok_reads_it(self):
        data = text_of(os.path.join(EXAMPLES, "letters.trace"))
        put(self.at("x.vcd"), b"".join(vcd_of(Trace(data))))
        subprocess.run(["sigrok-cli", "-I", "vcd", "-i", "x.vcd", "-O", "vcd", "-o", "y.vcd"], cwd=self.folder, check=True, stderr=subprocess.DEVNULL)
        self.assertIn(b"libsigrok", text_of(self.at("y.vcd")))
        self.assertEqual(self.read("y.vcd"), data)

    @unittest.skipUnless(shutil.which("vcd2fst") and shutil.which("fst2vcd"), "GTKWave is not installed")
    def test_gtkwave_reads_it(self):
        data = text_of(os.path.join(EXAMPLES, "letters.trace"))
        put(self.at("x.vcd"), b"".join(vcd_of(Trace(data))))
        subprocess.run(["vcd2fst", "x.vcd", "x.fst"], cwd=self.folder, check=True, stdout=subprocess.DEVNULL, stderr=subprocess.DEVNULL)
        back = subprocess.run(["fst2vcd", "x.fst"], cwd=self.folder, check=True, stdout=subprocess.PIPE, stderr=subprocess.DEVNULL).stdout
        put(self.at("y.vcd"), back)
        self.assertEqual(self.read("y.vcd"), data)


HEAD = """$timescale 1 us $end
$scope module libsigrok $end
%s$upscope $end
$enddefinitions $end
"""
HOST = ["HA0", "HA1", "HA2"] + ["HD%d" % bit for bit in range(8)] + ["HRW", "HCS", "HCLK"]


def capture(body, signals=tuple(HOST) + ("RST",), head=HEAD):
    return (head % "".join("$var wire 1 %s %s $end\n" % (signal, signal) for signal in signals) + body).encode()


IDLE = " ".join("0" + signal for signal in HOST[:11]) + " 1HRW 1HCS 0HCLK"


class Captures(Case):
    def take(self, body, begin=None, names=None, **how):
        put(self.at("c.vcd"), capture(body, **how))
        self.capture = Capture(self.at("c.vcd"), None, begin, names)
        self.sides = self.capture.sides
        return b"".join(self.capture.trace()).decode()

    def test_a_capture_of_one_side(self):
        body = "#0 0RST %s\n#10 1RST\n#16 0HCS 1HD6 1HCLK\n#17 0HCLK\n#18 1HCS\n#20 0RST\n#21 1RST\n" % IDLE
        self.assertEqual(self.take(body), "000000002A H R 0 40\n000000003C H X 0 00\n")
        self.assertEqual(self.sides, ["H"])

    def test_a_value_is_that_before_the_clock_falls(self):
        body = "#0 0RST %s\n#10 1RST\n#16 0HCS 1HD6 1HCLK\n#17 0HCLK 0HD6 1HD0 1HCS\n" % IDLE
        self.assertEqual(self.take(body), "000000002A H R 0 40\n")

    def test_what_is_not_selected_is_none(self):
        self.assertEqual(self.take("#0 0RST %s\n#10 1RST\n#16 1HCLK\n#17 0HCLK\n" % IDLE), "")

    def test_a_capture_that_begins_later_than_a_reset(self):
        body = "#0 1RST %s\n#16 0HCS 1HD6 1HCLK\n#17 0HCLK\n" % IDLE
        with self.assertRaisesRegex(Fault, "later than a reset"):
            self.take(body)
        with self.assertRaisesRegex(Fault, "the time of the last reset is unknown"):
            self.take(body.replace("1RST", ""), signals=HOST)
        self.assertEqual(self.take(body, begin=6), "000000006C H R 0 40\n")
        self.assertEqual(self.take(body.replace("1RST", ""), begin=6, signals=HOST), "000000006C H R 0 40\n")

    def test_other_names(self):
        body = "#0 0RES %s\n#10 1RES\n#16 0HCS 1HD6 1HCLK\n#17 0HCLK\n" % IDLE
        self.assertEqual(self.take(body, names={"RST": "RES"}, signals=HOST + ["RES"]), "000000002A H R 0 40\n")
        with self.assertRaisesRegex(Fault, "no signal RST2"):
            self.take(body, names={"RST": "RST2"}, signals=HOST + ["RES"])

    def test_what_is_none_is_told_by_its_line(self):
        good = "#0 0RST %s\n#10 1RST\n" % IDLE
        line = capture("").count(b"\n") + 1
        for body, wanted in ((good + "#16 0HCS xHD3 1HCLK\n#17 0HCLK\n", "#17: HD3 has no value"),
                             (good + "#9\n", "line %d: #9 is no time" % (line + 2)), (good + "hello\n", "line %d: hello" % (line + 2)),
                             (good + "#-1\n", "line %d" % (line + 2))):
            with self.assertRaisesRegex(Fault, wanted):
                self.take(body)
        fast = HEAD.replace("1 us", "10 ns")
        body = good + "#11 0HCS 1HCLK\n#15 0HCLK\n#18 1HCLK\n#21 0HCLK\n"
        self.assertEqual(self.take(body, head=fast), "0000000000 H R 0 00\n")
        self.assertEqual(self.capture.ringing, 1)

    def test_signals_that_lack(self):
        for signals, wanted in ((HOST[:-1] + ["RST"], "no signal HCLK"), (["RST"], "signals of no side"), (HOST + ["RST", "PA0"], "no signal PA1")):
            with self.assertRaisesRegex(Fault, wanted):
                self.take("#0\n", signals=signals)

    def test_heads_that_are_none(self):
        for data in (b"", b"x", b"$timescale 3 ns $end $enddefinitions $end", b"$enddefinitions $end", b"\xff\xfe", b"$var wire 8 ! HA0 $end $enddefinitions $end", b"a" * 100000):
            put(self.at("c.vcd"), data)
            with self.assertRaises(Fault):
                Capture(self.at("c.vcd"), None, 0)


class Tables(Case):
    def take(self, text, begin=None, names=None):
        put(self.at("c.csv"), text.encode())
        self.capture = Capture(self.at("c.csv"), None, begin, names)
        return b"".join(self.capture.trace()).decode()

    def test_columns_by_name(self):
        wanted = "0000000006 H R 0 40\n000000000C H X 0 00\n000000000C P W 1 5A\n"
        for text in ("tick,side,way,register,byte\n6,H,R,0,40\n12,P,W,1,5A\n12,H,X,0,00\n",
                     "; of a logic analyser\nData,Address,R/W,Side,Time [s]\n0x40,FEE0,1,host,1e-6\n00,FEE0,X,host,0.000002\n5a,FEF9,0,parasite,0.000002\n",
                     "time_us;\n"):
            if ";\n" in text:
                with self.assertRaisesRegex(Fault, "does not say the sample rate"):
                    self.take(text)
            else:
                self.assertEqual(self.take(text), wanted)
        with self.assertRaisesRegex(Fault, "no column is called side"):
            self.take("time_us,way\n")
        self.assertEqual(self.take("T,side,way,register,D\n6,H,R,0,40\n", names={"tick": "T", "byte": "d"}), wanted[:20])
        self.assertEqual(self.take("tick,side,way,register,byte\n0,H,R,0,40\n", begin=6), wanted[:20])

    def test_what_is_none_is_told_by_its_line(self):
        head = "tick,side,way,register,byte\n6,H,R,0,40\n"
        for line, wanted in (("x,H,R,0,40", "x is no tick"), ("7,Z,R,0,40", "no side"), ("7,H,Q,0,40", "no way"), ("7,H,R,g,40", "no register"), ("7,H,R,0,400", "no byte"),
                             ("7,H,R", "has 3 columns"), ("6,H,R,0,40", "already"), ("5,H,R,0,40", "below"), ("9999999999999,H,R,0,40", "ticks up to")):
            with self.assertRaisesRegex(Fault, "line 3.*" + wanted):
                self.take(head + line + "\n")
        for text in ("", "; nothing\n", "side,way,register,byte\n"):
            with self.assertRaises(Fault):
                self.take(text)


class Tool(Case):
    def test_there_and_back(self):
        trace = os.path.join(EXAMPLES, "letters.trace")
        for ending in ("vcd", "csv", "VCD"):
            self.tool("trace", trace, "x." + ending)
            self.assertEqual(self.tool("trace", "x." + ending, "back.trace").out, "accesses 49\nok 49\n")
            self.assertEqual(text_of(self.at("back.trace")), text_of(trace))

    def test_what_check_refuses_is_told_with_its_line(self):
        put(self.at("c.csv"), b"tick,side,way,register,byte\n6,H,R,0,40\n9,H,R,1,77\n")
        self.assertEqual(self.tool("trace", "c.csv", "o.trace", status=8).out.splitlines(),
                         ["accesses 2", "wrong 2 00", "line 2: 0000000009 H R 1 77, captured at line 3", "         1.500 us  the host takes 77 'w' from register 1",
                          "                   the chip would answer 00"])

    def test_nothing_is_left_of_what_is_none(self):
        put(self.at("c.csv"), b"tick,side,way,register,byte\n6,H,R,0,40\n6,H,R,1,77\n")
        put(self.at("old.trace"), b"old")
        before = self.names()
        for words, status in ((["c.csv", "old.trace"], 1), (["c.csv", "d.csv"], 2), (["old.trace", "other"], 2), (["c.csv", "o", "--names", "x=y"], 2), (["c.csv", "o", "--at", "-1"], 2),
                              (["missing.vcd", "o"], 1), (["old.trace", "o.vcd"], 1), (["old.trace", "o.csv", "--at", "5"], 2), ([], 2)):
            self.tool("trace", *words, status=status)
            self.assertEqual(self.names(), before, words)

    def test_reads_of_an_empty_register_are_none(self):
        put(self.at("t"), b"0000000006 H R 1 00\n0000000009 H R 1 00\n000000000A P W 1 41\n000000000C H R 1 41\n000000000F H R 1 41\n")
        lines = self.tool("tube", "t").out.splitlines()
        self.assertIn("register 1 to the host: 1 bytes, at once", lines)
        self.assertIn("host reads register 1 while it is empty: 3", lines)
        self.assertEqual(lines[0], "accesses 5: the host 4, the second processor 1")

    def test_lost_bytes(self):
        """26 bytes to a register of 24; one in the place of another; and two of register 3, of one byte where V is not set."""
        lines = ["P W 1 %02X" % byte for byte in range(26)] + ["H W 3 41", "H W 3 42", "H W 0 90", "H W 5 1", "H W 5 2", "H W 5 3", "H W 0 10", "H W 5 4"]
        text = "".join("%010X %s\n" % (6 * at, line if len(line) == 8 else line[:-1] + "0" + line[-1]) for at, line in enumerate(lines, 1))
        put(self.at("t"), text.encode())
        out = self.tool("tube", "t").out.splitlines()
        self.assertEqual([line for line in out if "lost" in line],
                         ["register 1 to the host: 2 bytes lost, written while full", "register 2 to the second processor: 1 byte lost, written while full",
                          "register 3 to the second processor: 3 bytes lost, written while full"])
        self.assertFalse([line for line in self.tool("tube", os.path.join(EXAMPLES, "letters.trace")).out.splitlines() if "lost" in line])

    def test_what_the_tube_holds(self):
        put(self.at("t"), b"0000000006 H W 0 81\n000000000C P W 7 41\n0000000012 H R 7 41\n")
        self.assertEqual(self.tool("tube", "--at", "18", "t").out.splitlines(),
                         ["at 3.000 us, after access 2", "flags -----Q", "register 3 to the host holds 00", "register 4 to the host holds 41 'A'", "interrupts of the host",
                          "next          3.000 us  the host takes 41 'A' from register 4"])
        self.assertEqual(self.tool("tube", "--at", "19", "t").out.splitlines(), ["at 3.167 us, after access 3", "flags -----Q", "register 3 to the host holds 00", "interrupts none"])
        self.assertEqual(self.tool("tube", "--at", "0", "t").out.splitlines()[0], "at 0.000 us, after access 0")
        for words in (["--at", "t"], ["--at", "x", "t"], ["--at", "-1", "t"], ["--all"], []):
            self.tool("tube", *words, status=2)

    def test_a_trace_that_check_refuses_is_counted(self):
        lines = self.tool("tube", os.path.join(EXAMPLES, "wrong.trace")).out.splitlines()
        self.assertEqual(lines[0], "wrong 3 77")
        self.assertTrue(lines[1].startswith("line 3: "), lines)
        self.assertTrue(lines[4].startswith("accesses 3: "), lines)

    def test_said_of_check(self):
        self.assertEqual(said_of_check(os.path.join(EXAMPLES, "nmi.trace")), ["ok 5"])
        with self.assertRaisesRegex(Fault, "bad trace 2"):
            said_of_check(os.path.join(EXAMPLES, "order.trace"))


if __name__ == "__main__":
    unittest.main()
