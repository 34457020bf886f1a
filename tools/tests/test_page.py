"""What tools/page promises: the same sums as tools/tube, data that stays data, and nothing written over."""
import base64
import hashlib
import html.parser
import json
import os
import random
import re
import time
import zlib

from common import EXAMPLES, TOP, Case, beebtube, put, text_of, unittest
from beebtube.columns import Waits, columns_of, lanes_of, told
from beebtube.page import BEGIN

REPORT = b"ticks %d\nhost PC=C011 A=49 X=02 Y=00 S=FD P=27\npara PC=F815 A=49 X=FF Y=00 S=FD P=24\ntube %d\nkept %d\nframes 0\n"


class Reader(html.parser.HTMLParser):
    """The elements of a page with their attributes, the text outside of scripts and styles, and the texts of these."""

    def __init__(self, page):
        super().__init__()
        self.elements, self.text, self.inner, self.at = [], "", {"script": [], "style": []}, ""
        self.feed(page)

    def handle_starttag(self, tag, attributes):
        self.elements.append((tag, dict(attributes)))
        self.at = tag if tag in self.inner else ""
        if self.at:
            self.inner[tag].append("")

    def handle_endtag(self, tag):
        self.at = ""

    def handle_data(self, data):
        if self.at:
            self.inner[self.at][-1] += data
        else:
            self.text += data


def made_up(seed, number, places="01234567"):
    """A trace of made-up accesses."""
    dice, tick, lines = random.Random(seed), 0, []
    for _ in range(number):
        tick += dice.choice((1, 1, 2, 5, 100))
        line = "%010X %s %s %s %02X\n" % (tick, dice.choice("HP"), dice.choice("RRRW"), dice.choice(places), dice.choice((0, 64, 128, 192, 191, 15, 143)))
        lines.append("%010X H X 0 00\n" % tick if dice.random() < 0.004 else line)
    return "".join(lines).encode()


class Page(Case):
    def made(self, trace, ticks=1000000, name="run", words=(), more=0):
        number = trace.count(b"\n") - trace.startswith(b"T2")
        put(self.at(name + ".report"), REPORT % (ticks, number + more, number))
        put(self.at(name + ".trace"), trace)
        self.tool("page", name, *words)
        return self.page(name)

    def page(self, name="run"):
        return Reader(text_of(self.at(name + ".html")).decode())

    def data(self, page):
        return json.loads(page.inner["script"][0])

    def test_the_tube_is_told_as_tools_tube_tells_it(self):
        for seed in range(12):
            trace = made_up(seed, seed * 60, "01234567" if seed % 2 else "0167")
            put(self.at("trace"), (b"T2\n" if seed % 3 == 0 else b"") + trace)
            columns = columns_of(self.at("trace"))
            out = self.tool("tube", "trace").out
            self.assertEqual("\n".join(told(columns, Waits(columns))) + "\n", out[out.index("accesses ") :], seed)
            self.assertEqual([access.line() for access in beebtube.Trace(self.at("trace"))],
                             ["%010X %s %s %d %02X" % (order // 2, "P" if code & 8 else "H", "X" if code & 32 else "W" if code & 16 else "R", code & 7, value)
                              for order, code, value in zip(columns.orders, columns.codes, columns.values)])

    def test_a_bad_trace_is_told_as_the_program_tells_it(self):
        dice = random.Random(5)
        for _ in range(300):
            trace = bytearray(made_up(1, 20))
            trace[dice.randrange(len(trace))] = dice.choice(b"0123456789ABCDEFHPRWX \nax")
            del trace[dice.choice((len(trace), len(trace), dice.randrange(len(trace)))):]
            put(self.at("trace"), trace)
            try:
                wanted = beebtube.Trace(self.at("trace")).count()
            except beebtube.Fault as fault:
                with self.assertRaises(beebtube.Fault) as got:
                    columns_of(self.at("trace"))
                self.assertEqual(str(got.exception), str(fault))
            else:
                self.assertEqual(len(columns_of(self.at("trace")).codes), wanted)

    def test_the_chart_has_all_of_each_wait_byte_and_reset(self):
        put(self.at("trace"), made_up(7, 3000))
        columns = columns_of(self.at("trace"))
        waits, accesses = Waits(columns), list(beebtube.Trace(self.at("trace")))
        lanes = {lane.name: lane.values for lane in lanes_of(columns, waits, accesses[-1].tick + 1, 7)}
        for side, name in (("H", "the second processor"), ("P", "the host")):
            for register in range(4):
                given = sum((it.side, it.way, it.register) == (side, "W", 2 * register + 1) for it in accesses)
                self.assertEqual(sum(lanes["register %d to %s" % (register + 1, name)]), given)
        flags = asked = resets = 0
        for it in accesses:
            was = flags
            if it.way == "X":
                flags, resets = 0, resets + 1
            elif (it.side, it.way, it.register) == ("H", "W", 0):
                flags = flags | it.byte & 63 if it.byte & 128 else flags & ~it.byte
                resets += flags & ~was & 32 != 0
            asked += (it.side, it.way, it.register) == ("P", "W", 7) and flags & 1
        self.assertEqual((sum(lanes["interrupts asked of the host"]), sum(lanes["resets of the second processor"])), (asked, resets))
        self.assertGreater(asked * resets, 0)
        one = made_up(7, 0) + b"0000000006 H R 0 40\n0000000030 H R 0 40\n0000000042 H R 1 00\n"
        put(self.at("trace"), one)
        columns = columns_of(self.at("trace"))
        values = {lane.name: lane.values for lane in lanes_of(columns, Waits(columns), 80, 8)}["the host waits"]
        self.assertEqual(values, [4, 10, 10, 10, 10, 10, 6, 0])

    def test_a_page_of_a_run(self):
        self.pair()
        put(self.at("keys"), b"at 100 down 41\nat 300 shot\nat 500 up 41\n")
        put(self.at("disc.ssd"), beebtube.asm("6502", os.path.join(EXAMPLES, "disc.asm"))[:2560])
        text = self.tool("manifest", "run", "2000", "run", "--os", "os", "--tube", "tube", "--keys", "keys", "--disc0", "disc.ssd", "--wav", "run.wav").out
        put(self.at("run.manifest"), text.encode())
        self.tool("page", "run")
        page = self.page()
        data = self.data(page)
        for line in text.splitlines():
            if line.startswith(("words", "status", "kit", "sources")):
                self.assertIn(line, page.text)
            if line.startswith(("read", "wrote")):
                self.assertIn(line.split()[1], page.text)
        self.assertNotIn("another here", page.text)
        self.assertNotIn("not here", page.text)
        self.assertIn("Sectors that the run changed: none", page.text)
        self.assertEqual(data["keys"], [[100, 500, "A"]])
        self.assertEqual(zlib.decompress(base64.b64decode(data["wav"])), text_of(self.at("run.wav")))
        self.assertEqual([zlib.decompress(base64.b64decode(it["bytes"])) for it in data["memories"]], [text_of(self.at("run.host")), text_of(self.at("run.para"))])
        images = [it for tag, it in page.elements if tag == "img" and it.get("src", "").startswith("data:")]
        self.assertEqual([it["alt"] for it in images], ["Screen of shot 0, at 0.000 s"])
        self.assertEqual(base64.b64decode(images[0]["src"].split(",")[1]), beebtube.Frame.read(self.at("run.000.ppm")).png())
        self.assertEqual(text_of(self.at("run.html")), (self.tool("page", "run"), text_of(self.at("run.html")))[1])

    def test_what_a_run_changed_on_a_disc(self):
        for name in ("disc-os", "loop-tube", "disc"):
            put(self.at(name), beebtube.asm("65c02" if name == "loop-tube" else "6502", os.path.join(EXAMPLES, name + ".asm")))
        os.rename(self.at("disc"), self.at("some.dsd"))
        self.launcher("solo", "3000000", "run", "--os", "disc-os", "--tube", "loop-tube", "--disc0", "some.dsd")
        self.tool("page", "run")
        self.assertIn("What the run changed is not told", self.page().text)
        self.tool("page", "run", "--disc0", "some.dsd")
        self.assertIn("Sectors that the run changed: 39", self.page().text)
        self.assertIn("SIDE ONE", self.page().text)

    def test_a_script_or_disc_of_another_sum_is_not_taken(self):
        self.pair()
        put(self.at("keys"), b"at 100 down 41\n")
        put(self.at("run.manifest"), self.tool("manifest", "run", "2000", "run", "--os", "os", "--tube", "tube", "--keys", "keys").out.encode())
        put(self.at("keys"), b"at 100 down 42\n")
        self.tool("page", "run")
        self.assertIn("No key script was handed to this page.", self.page().text)
        self.assertIn("another here", self.page().text)

    def test_a_sound_that_no_sum_names_is_not_taken(self):
        self.pair()
        os.mkdir(self.at("private"))
        self.launcher("solo", "60000", "x", "--os", "os", "--tube", "tube", "--wav", "private/own.wav")
        text = self.tool("manifest", "run", "2000", "run", "--os", "os", "--tube", "tube").out
        put(self.at("run.manifest"), re.sub("(?m)^(words .*)$", r"\1 --wav %s" % self.at("private/own.wav"), text).encode())
        self.tool("page", "run")
        self.assertNotIn("wav", self.data(self.page()))
        self.assertIn("No sound was handed to this page.", self.page().text)

    def test_a_fifo_is_not_waited_for(self):
        put(self.at("run.report"), REPORT % (9, 0, 0))
        os.mkfifo(self.at("run.manifest"))
        self.assertIn("run.manifest is no manifest", self.tool("page", "run", status=1).err)

    def test_another_run_beside_it(self):
        self.pair()
        for name, ticks in (("run", "2000"), ("other", "2000"), ("third", "1000")):
            put(self.at("keys"), b"at 300 shot\n")
            self.launcher("solo", ticks, name, "--os", "os", "--tube", "tube", "--keys", "keys")
        self.tool("page", "run", "--against", "other")
        self.assertIn("Nothing differs: 5 files are the same.", self.page().text)
        frame = bytearray(text_of(self.at("third.000.ppm")))
        frame[-3:] = b"\xff\0\xff"
        put(self.at("third.000.ppm"), frame)
        self.tool("page", "run", "--against", "third")
        page = self.page()
        for line in self.tool("differs", "run", "third", status=1).out.splitlines():
            self.assertIn(line.split(": ", 1)[1] if re.match("[a-z0-9.]+: ", line) else line, page.text)
        alts = [it["alt"] for tag, it in page.elements if tag == "img"]
        self.assertEqual([alt for alt in alts if alt.startswith("Frame 000")],
                         ["Frame 000 of this run", "Frame 000 of the other run", "Frame 000 with the pixels that differ in white"])
        self.assertIn("no run wrote nothing", self.tool("page", "run", "--against", "nothing", status=1).err)

    def test_instructions_are_those_of_the_program(self):
        self.pair()
        self.launcher("solo", "2000", "run", "--os", "os", "--tube", "tube")
        self.tool("page", "run")
        forms = self.data(self.page())["instructions"]
        dice = random.Random(3)
        for part in ("6502", "65c02"):
            image, lines = b"", []
            for code in dice.sample(range(256), 256):
                form, first, second = forms[part][code], dice.randrange(256), dice.randrange(256)
                target = 0x4000 + len(image) + 2 + (first ^ 128) - 128
                lines.append(form.replace("{1}", "%02X" % first).replace("{2}", "%02X%02X" % (second, first)).replace("{r}", "%04X" % target))
                image += bytes([code, first, second][: 3 if "{2}" in form else 2 if "{" in form else 1])
            self.assertEqual(beebtube.dis(part, image, 0x4000).splitlines()[1:], lines)

    def test_names_and_contents_are_data(self):
        bad = "<img src=x onerror=alert(1)>\u202e"
        for name in ("host", "para"):
            put(self.at("%s.%s" % (bad, name)), b"</script><script>alert(1)</script>".ljust(32768 if name == "host" else 65536, b"\0"))
        lines = ["beebtube manifest 1", "words run 1 o </script><script>alert(1)</script>", "told <b onclick=alert(1)>", "read %064d 1 <script>" % 0]
        put(self.at(bad + ".manifest"), "\n".join(lines).encode())
        page = self.made(made_up(2, 50), name=bad)
        self.assertEqual([tag for tag, _ in page.elements if tag == "script"], ["script", "script"])
        self.assertEqual([it for _, it in page.elements if any(key.startswith("on") or key == "style" for key in it)], [])
        for text in lines[1:3] + ["<script>", bad[:-1] + "?"]:
            self.assertIn(text, page.text)
        links = [it[key] for _, it in page.elements for key in ("src", "href") if key in it]
        self.assertEqual([link for link in links if not link.startswith(("#", "data:image/png;base64,"))], [])

    def test_the_policy_lets_the_own_script_and_style_alone(self):
        page = self.made(made_up(2, 50))
        policy = next(it["content"] for tag, it in page.elements if it.get("http-equiv") == "Content-Security-Policy")
        for name, directive in (("script", "script-src"), ("style", "style-src")):
            digest = base64.b64encode(hashlib.sha256(page.inner[name][-1].encode()).digest()).decode()
            self.assertIn("%s 'sha256-%s';" % (directive, digest), policy)
            with open(os.path.join(TOP, "tools", "beebtube", "page." + ("js" if name == "script" else "css"))) as file:
                self.assertEqual(page.inner[name][-1], file.read())
        self.assertTrue(policy.startswith("default-src 'none';"))
        for word in ("unsafe", "http", "*"):
            self.assertNotIn(word, policy)
        self.assertIsNone(re.search(r"\beval\b|innerHTML|document\.write|Function\(|https?:(?!//www\.w3\.org/2000/svg)", page.inner["script"][-1]))

    def test_elements_have_names(self):
        self.pair()
        self.launcher("solo", "2000", "run", "--os", "os", "--tube", "tube")
        self.tool("page", "run")
        page = self.page()
        heads = [int(tag[1]) for tag, _ in page.elements if re.fullmatch("h[1-6]", tag)]
        self.assertEqual(heads[0], 1)
        self.assertTrue(all(after <= before + 1 for before, after in zip(heads, heads[1:])))
        marks = [it["id"] for _, it in page.elements if "id" in it]
        self.assertEqual(len(marks), len(set(marks)))
        for tag, it in page.elements:
            if tag == "img":
                self.assertIn("alt", it)
            if tag in ("input", "select"):
                self.assertIn({"for": it["id"]}, [other for name, other in page.elements if name == "label"])
            for key in ("for", "aria-labelledby", "aria-describedby"):
                self.assertIn(it.get(key, "main"), marks)
            if it.get("href", "").startswith("#"):
                self.assertIn(it["href"][1:], marks)

    def test_more_accesses_than_are_wanted_are_sampled_and_said(self):
        trace = made_up(3, 5000)
        accesses = [line for line in trace.splitlines()]
        for most in (0, 1, 255, 256, 1000, 4999, 5000):
            page = self.made(trace, words=("--trace", str(most)), more=9)
            self.assertIn("The run had 5,009 accesses, and its trace has the first 5,000.", page.text)
            self.assertEqual("Sampled: the page has" in page.text, most < 5000)
            kept = self.data(page)["accesses"]
            self.assertLessEqual(kept["number"], most)
            self.assertEqual(kept["number"], sum(length for _, length in kept["spans"]))
            steps, codes, values = (zlib.decompress(base64.b64decode(kept[name])) for name in ("steps", "codes", "values"))
            order, at = 0, 0
            for first, length in kept["spans"]:
                for index in range(first, first + length):
                    order += int.from_bytes(steps[4 * at : 4 * at + 4], "little")
                    line = b"%010X %s %s %d %02X" % (order // 2, b"HP"[order & 1 : (order & 1) + 1], b"RWX"[codes[at] >> 4 & 3 :][:1], codes[at] & 7, values[at])
                    self.assertEqual(line, accesses[index])
                    at += 1

    def test_what_is_no_run_is_refused(self):
        self.assertIn("cannot read run.report", self.tool("page", "run", status=1).err)
        put(self.at("run.report"), b"nothing\n")
        self.assertIn("no report", self.tool("page", "run", status=1).err)
        put(self.at("run.report"), REPORT % (9, 1, 1))
        for name, data, told_of in (("host", b"x", "is no memory"), ("trace", b"0 H\n", "bad trace 1"), ("para", b"", "is no memory"),
                                    ("trace", b"FFFFFFFFFF H R 0 40\n", "the last of a run"), ("manifest", b"x", "is no manifest"), ("d0", b"\0" * 2000000, "too long")):
            put(self.at("run." + name), data)
            self.assertIn(told_of, self.tool("page", "run", status=1).err)
            os.unlink(self.at("run." + name))
        put(self.at("run.report"), (REPORT % (9, 1, 1)).replace(b"frames 0", b"frames 2"))
        self.assertIn("cannot read run.000.ppm", self.tool("page", "run", status=1).err)
        put(self.at("run.report"), REPORT % (9, 1, 1))
        for words in (["--trace", "x"], ["--trace", "-1"], ["--trace", "5033165"], ["--nothing"], []):
            self.tool("page", *(["run"] + words if words else []), status=2)
        put(self.at("sound"), b"RIFFnothing")
        self.assertIn("is no sound", self.tool("page", "run", "--wav", "sound", status=1).err)
        self.assertFalse(os.path.exists(self.at("run.html")))

    def test_nothing_is_written_over(self):
        put(self.at("run.report"), REPORT % (9, 0, 0))
        for name in ("run.html",):
            put(self.at(name), b"<html>my own</html>")
            self.assertIn("is no page", self.tool("page", "run", status=1).err)
            self.assertEqual(text_of(self.at(name)), b"<html>my own</html>")
        put(self.at("run.html"), BEGIN.encode())
        self.assertIn("is read too", self.tool("page", "run", "--keys", "empty", "--disc0", "run.html", status=1).err
                      if put(self.at("empty")) and put(self.at("run.d0")) else "")
        os.unlink(self.at("run.html"))
        os.symlink("run.report", self.at("run.html"))
        self.tool("page", "run", status=1)
        self.assertEqual(text_of(self.at("run.report")), REPORT % (9, 0, 0))

    def test_a_long_trace_takes_seconds(self):
        lines = made_up(4, 20000)
        ends = [int(line[:10], 16) for line in lines.splitlines()]
        with open(self.at("run.trace"), "wb") as file:
            for turn in range(20):
                file.write(b"".join(b"%010X%s\n" % (tick + turn * (ends[-1] + 1), line[10:]) for tick, line in zip(ends, lines.splitlines())))
        put(self.at("run.report"), REPORT % (20 * ends[-1] + 20, 10000000, 400000))
        begin = time.process_time()
        columns = columns_of(self.at("run.trace"))
        lanes_of(columns, Waits(columns), 20 * ends[-1] + 20, 1200)
        self.assertEqual(len(columns.codes), 400000)
        self.assertLess(time.process_time() - begin, 20)


if __name__ == "__main__":
    unittest.main()
