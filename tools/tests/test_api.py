"""The package as a test calls it: its options, its errors, and what comes of a call."""
import ast
import inspect
import multiprocessing
import os
import pickle
import re
import shutil
import subprocess

from common import EXAMPLES, TOP, Case, beebtube, call, letters, put, text_of, unittest
from beebtube.script import BadScript

DRAWS = os.path.join(EXAMPLES, "screen-os.asm")


def refused(_):
    beebtube.run(9, os=b"", tube=b"")


class Errors(Case):
    def test_they_can_be_pickled(self):
        for fault in (beebtube.Refused(3, "bad image os 0", ["one", "two"]), BadScript(7, "why"), beebtube.Fault("text")):
            again = pickle.loads(pickle.dumps(fault))
            self.assertEqual((type(again), str(again), vars(again)), (type(fault), str(fault), vars(fault)))

    def test_they_come_out_of_a_pool(self):
        with multiprocessing.Pool(2) as pool:
            with self.assertRaises(beebtube.Refused) as caught:
                pool.map_async(refused, [0]).get(60)
        self.assertEqual((caught.exception.status, caught.exception.text), (3, "bad image os 0"))

    def test_they_name_the_callers_files(self):
        os.chdir(self.folder)
        self.addCleanup(os.chdir, TOP)
        put("own.rom", bytes(2 * 16384))
        put("own.ssd", bytes(204801))
        put("own.keys", b"at x\n")
        tube = letters()["tube"]

        def said(call, **how):
            with self.assertRaises(beebtube.Refused) as caught:
                call(**how)
            return str(caught.exception)
        text = said(lambda: beebtube.run(9, os="own.rom", tube=tube))
        self.assertEqual(text, "status 3: bad image os 32768\n--os own.rom has 32,768 bytes: an operating system has 16,384\n"
                         "it may be 2 images one after the other: `head -c 16384 own.rom` is the first")
        self.assertIn("cannot read sub/missing", said(lambda: beebtube.run(9, os="sub/missing", tube=tube)))
        self.assertIn("--disc0 own.ssd has 204,801 bytes", said(lambda: beebtube.host(9, os=letters()["os"], disc0="own.ssd")))
        self.assertIn("line 1 of the script: at x", said(lambda: beebtube.host(9, os=letters()["os"], keys="own.keys")))
        self.assertIn("cannot read missing", said(lambda: beebtube.asm("6502", "missing")))

    def test_what_is_no_option(self):
        pair = letters()
        for how in ({"disk0": b""}, {"rom16": b""}, {"wav": "out.wav"}, {"save": "session"}, {"font": 7}, {"keys": ["a"]}):
            with self.assertRaises(TypeError):
                beebtube.run(9, **pair, **how)
        with self.assertRaises(TypeError):
            beebtube.run(9, 5.0, **pair)
        with self.assertRaises(TypeError):
            beebtube.run(9, os=pair["os"])


    def test_no_value_is_ignored(self):
        # Each value is refused by a message that names it: none is taken for something else.
        image, given = b"\x60", {"at": 0x1900}
        pair = letters()
        for call, how, text in (
                (beebtube.execute, {"args": "abc"}, "args: a sequence"),
                (beebtube.execute, {"stdin": "text"}, "stdin: bytes"),
                (beebtube.execute, {"stdin": None}, "stdin: bytes"),
                (beebtube.execute, {"host_at": 0x1900}, "both"),
                (beebtube.execute, {"host_start": 0x1900}, "both"),
                (beebtube.execute, {"host_labels": beebtube.Labels({})}, "both"),
                (beebtube.execute, {"cpu": "z80"}, "cpu 'z80'"),
                (beebtube.call, {"cpu": "z80"}, "cpu 'z80'"),
                (beebtube.call, {"a": 256}, "a=256"),
                (beebtube.call, {"x": -1}, "x=-1"),
                (beebtube.call, {"y": 256}, "y=256"),
                (beebtube.call, {"p": 256}, "p=256"),
                (beebtube.call, {"start": 0x10000}, "start=65536"),
                (beebtube.call, {"memory": {0x70: 256}}, "memory at 0070=256")):
            with self.assertRaisesRegex((TypeError, beebtube.Fault), text):
                call(image, **{**given, **how})
        for how, text in (({"start": -1}, "start"), ({"hold": -1}, "hold"), ({"gap": -0.1}, "gap"),
                          ({"speed": 5}, "speed 5"), ({"start": float("nan")}, "start")):
            with self.assertRaisesRegex(beebtube.Fault, text):
                beebtube.typed("a", **how)
        with self.assertRaisesRegex(beebtube.Refused, "line 1 of the script: at x"):
            beebtube.execute(image, host=True, keys=beebtube.Source("at x\n"), **given)
        with self.assertRaisesRegex(TypeError, "a Run stays in its process"):
            pickle.dumps(beebtube.run(9, **pair))


class Calls(Case):
    def test_a_trace_keeps_its_run(self):
        pair = letters()
        wanted = beebtube.run(2000, **pair).para
        accesses = beebtube.run(2000, **pair).accesses
        self.assertEqual(beebtube.replay("para", accesses, 2000, tube=pair["tube"]).para, wanted)
        self.assertEqual(len(list(accesses)), beebtube.run(2000, **pair).report.tube)

    def test_what_is_asked_for_without_its_folder(self):
        done = beebtube.call(b"\x60", at=0x1900)
        again = pickle.loads(pickle.dumps(done))
        self.assertEqual(again.cycles, 6)
        done = beebtube.call(b"\x60", at=0x1900)
        done._runner.close()
        with self.assertRaisesRegex(beebtube.Fault, "the folder of the run is gone"):
            done.cycles

    def test_discs_are_compared_by_what_is_on_them(self):
        one, same = beebtube.Disc(bytes(512)), beebtube.Disc(bytes(512))
        self.assertEqual((one, hash(one)), (same, hash(same)))
        self.assertNotEqual(one, beebtube.Disc(bytes(512), double=True))
        self.assertNotEqual(one, beebtube.Disc(bytes(511)))

    def test_texts(self):
        source = beebtube.Source("org &C000\nstart: LDA #1\nRTS\n")
        self.assertEqual(beebtube.asm("6502", source), b"\xa9\x01\x60")
        self.assertEqual(beebtube.labels_of("6502", source)["start"], 0xC000)
        self.assertEqual(beebtube.check(beebtube.Source("0000000001 H R 0 40\n")), 1)
        self.assertEqual(repr(source[:3]), "'org'")

    def test_follow_from_a_tick(self):
        run = beebtube.run(2000, **letters())
        whole = beebtube.follow("para", run.accesses, 2000, tube=letters()["tube"]).listing
        part = beebtube.follow("para", run.accesses, 2000, tube=letters()["tube"], from_tick=1000).listing
        self.assertTrue(part and whole.endswith(part) and len(part) < len(whole))
        at = beebtube.follow("para", run.accesses, 2000, tube=letters()["tube"], at=0xF800).listing
        self.assertEqual({line[11:15] for line in at.splitlines()}, {"F800"})

    def test_sound_and_session(self):
        run = beebtube.run(2000, **letters(), wav=True, save=True)
        self.assertEqual((run.wav[:4], run.session[:4]), (b"RIFF", b"BTUB"))
        self.assertEqual(beebtube.resume(run.session, 4000).memory, beebtube.run(4000, **letters()).memory)
        with self.assertRaises(beebtube.Fault):
            beebtube.run(9, **letters()).wav

    def test_one_start_and_many_ends(self):
        # A session goes on with other keys, as the run of all keys does.
        image = beebtube.asm("6502", DRAWS)
        os = {"os": image, "tube": letters()["tube"]}
        first = beebtube.typed("7", start=0.1)
        booted = beebtube.solo(3000000, **os, keys=first, save=True).session
        for text in ("1", "2"):
            keys = beebtube.typed(text, start=0.6)
            whole = beebtube.Script(first.events + keys.events)
            self.assertEqual(beebtube.resume(booted, 6000000, keys=keys).host, beebtube.solo(6000000, **os, keys=whole).host)
        script = beebtube.Source(beebtube.typed("1", start=0.6).text())
        self.assertEqual(beebtube.resume(booted, 6000000, keys=script).host[0x70], 1)
        with self.assertRaisesRegex(beebtube.Fault, "before the session's 3,000,000"):
            beebtube.resume(booted, 6000000, keys=beebtube.typed("1", start=0.2))
        self.assertEqual(beebtube.typed("1", start=0.6).events, beebtube.typed("1", start=0.1).later(3000000).events)

    def test_how_they_are_shown(self):
        run = beebtube.run(2000, **letters())
        self.assertEqual(repr(run), "<Run: run 2000 out --os os --tube tube>")
        self.assertRegex(repr(run.registers["para"]), r"^Registers\(PC=F815 A=.. X=.. Y=.. S=.. P=..\)$")
        self.assertEqual(repr(beebtube.Disc(bytes(512))), "<Disc: SSD, 512 bytes>")
        self.assertEqual(repr(beebtube.Program("x"))[:9], "Program('")
        self.assertEqual(repr(run.accesses), "<Trace: out.trace, 3 MHz>")
        with beebtube.run(2000, **letters(), save=True).past() as past:
            self.assertEqual(repr(past), "<Past: host and para, 2,000 ticks>")

    def test_the_version(self):
        self.assertEqual(beebtube.__version__ + "\n", text_of(os.path.join(TOP, "VERSION")).decode())
        self.assertIn("\nversion: %s\n" % beebtube.__version__, text_of(os.path.join(TOP, "CITATION.cff")).decode())


class LabelsOfFiles(Case):
    def test_in_and_forms(self):
        for text in ("C000 start\nC002 loop\n", "al 00C000 .start\nal 00C002 .loop\n", "[{'start':49152L,'.loop':49154L}]"):
            labels = beebtube.Labels.parse(text)
            self.assertTrue("start" in labels and "loop" in labels and "stop" not in labels)
            self.assertEqual(list(labels), [(0xC000, "start"), (0xC002, "loop")])
        self.assertEqual(repr(labels), "Labels({'start': 49152, 'loop': 49154})")
        self.assertEqual([labels.place(at) for at in (0xC000, 0xC001, 0xBFFF, 0xE000)], ["start (C000)", "start+1 (C001)", "BFFF", "E000"])
        put(self.at("labels"), text.encode())
        self.assertEqual(beebtube.Labels.read(self.at("labels")).addresses, labels.addresses)
        with self.assertRaises(beebtube.Fault):
            beebtube.Labels.parse("no labels\n")

    def test_names_at(self):
        labels = beebtube.Labels({"a": 1, "b": 1, "c": 2, "d": 65535})
        self.assertEqual([labels.names_at(at) for at in (0, 1, 2, 65535)], [[], ["a", "b"], ["c"], ["d"]])


class Frames(Case):
    def frame(self, *spots):
        colours = bytearray(640 * 256)
        for x, y, colour in spots:
            colours[640 * y + x] = colour
        return beebtube.Frame.of_colours(bytes(colours))

    def test_pictures_and_differences(self):
        one, other = self.frame((3, 4, 7), (639, 255, 2)), self.frame((3, 4, 7), (10, 20, 1), (8, 30, 5), (639, 255, 2))
        for frame in (one, other):
            self.assertEqual(beebtube.Frame.of_png(frame.png()), frame)
            self.assertEqual(beebtube.Frame.of_png(frame.png()).pixmap, frame.pixmap)
        self.assertEqual((one.box(other), other.box(one), one.box(one)), ((8, 20, 10, 30), (8, 20, 10, 30), None))
        self.assertEqual(one.difference(other), self.frame((10, 20, 7), (8, 30, 7)))
        self.assertRegex(repr(one), "^<Frame: colours 027, crc [0-9A-F]{8}>$")
        with self.assertRaises(beebtube.Fault):
            beebtube.Frame.of_png(beebtube.picture_of([one, other], 100))


class Pasts(Case):
    def test_each_moment_is_that_of_the_run(self):
        self.pair()
        with beebtube.run(2000, os=self.at("os"), tube=self.at("tube"), save=True) as run:
            with run.past() as past:
                self.assertIsInstance(past, beebtube.Past)
                self.assertEqual((past.sides, past.end, past.second), (("host", "para"), 2000, 6000000))
                for side, state in past.states(2000).items():
                    self.assertEqual((state.registers, state.memory), (run.registers[side], run.memory[side]))
                for side in past.sides:
                    start = past.machines[side].following(1000)
                    self.assertEqual(past.machines[side].preceding(start.tick + 1), start)
                    self.assertEqual(past.machines[side].current(start.tick), start)
                folder = past.folder
            self.assertFalse(os.path.exists(folder))
        with beebtube.run(2000, os=self.at("os"), tube=self.at("tube")) as run:
            with self.assertRaises(beebtube.Fault):
                run.past()

    def test_a_model_b_alone(self):
        self.pair()
        words = ["host", "2000", "x", "--os", self.at("os")]
        with beebtube.Past.of_words(beebtube.Program(), words) as past, beebtube.host(2000, os=self.at("os")) as run:
            self.assertEqual(past.sides, ("host",))
            self.assertEqual(past.machines["host"].state(2000).memory, run.host)

    def test_each_public_name_is_there(self):
        self.assertEqual([name for name in beebtube.__all__ if getattr(beebtube, name, None) is None], [])
        with self.assertRaises(AttributeError):
            beebtube.Futures


class Page(Case):
    """docs/PYTHON.md has an entry for each public name, with its parameters and types."""

    def setUp(self):
        super().setUp()
        self.page = text_of(os.path.join(TOP, "docs", "PYTHON.md")).decode()
        entries = self.page.partition("\n## Each name\n")[2].partition("\n## ")[0].split("\n- ")[1:]
        whole = [" ".join(entry.split("\n\n")[0].split()) for entry in entries]
        self.entries = {re.match("`([A-Za-z_]+)", entry)[1]: entry for entry in whole}

    def test_each_name_has_an_entry(self):
        self.assertEqual(sorted(self.entries), sorted(beebtube.__all__))

    def test_parameters_and_types_are_true(self):
        for name, entry in self.entries.items():
            said = re.match("`([^`]+)`", entry)[1].replace("..", "").replace("(, ", "(")
            if "(" not in said:
                continue
            told = ast.parse("def %s: pass" % re.sub(r"(, )+\)", ")", said)).body[0]
            made = getattr(beebtube, name)
            there = inspect.signature(made)
            for it in ast.walk(told.args):
                if isinstance(it, ast.arg):
                    type_ = there.parameters[it.arg].annotation
                    type_ = getattr(type_, "__forward_arg__", type_)
                    self.assertEqual(ast.unparse(it.annotation), type_, said)
            if told.returns or not inspect.isclass(made):
                returns = there.return_annotation.strip("'")
                self.assertEqual(ast.unparse(told.returns), returns, said)

    def test_members_are_there(self):
        for name, entry in self.entries.items():
            made = getattr(beebtube, name)
            for member in re.findall(r"`\.([a-z_]+)", entry):
                is_there = hasattr(made, member) or f"self.{member}" in inspect.getsource(made)
                self.assertTrue(is_there, f"{name}.{member}")

    def test_each_parameter_is_on_the_page(self):
        text = re.sub("(?ms)^```.*?^```$", "", self.page)
        words = set(re.findall("[A-Za-z_0-9]+", " ".join(re.findall("`([^`]+)`", text))))
        for name in beebtube.__all__:
            if not inspect.isclass(getattr(beebtube, name)):
                own = set(inspect.signature(getattr(beebtube, name)).parameters) - words
                own -= {f"rom{number}" for number in range(16)}
                self.assertEqual(own, set(), name)


# Another version has other opinions, of needless comments too.
@unittest.skipUnless(shutil.which("mypy") and "mypy 1.0." in call(["mypy", "--version"], "/").out, "mypy 1.0 is not there")
class Types(Case):
    def test_the_package_the_tools_and_a_user_of_it(self):
        tools = os.path.join(TOP, "tools")
        scripts = [name for name in sorted(os.listdir(tools)) if os.path.isfile(os.path.join(tools, name)) and os.access(os.path.join(tools, name), os.X_OK)]
        self.assertIn("suite", scripts)
        words = ["mypy", "--strict", "--scripts-are-modules", "--cache-dir", self.at("cache"), "--python-version", "3.9",
                 "beebtube", self.at("user.py"), *scripts]
        put(self.at("user.py"), b"import beebtube\nrun: beebtube.Run = beebtube.run(9, os=b'', tube='x', keys=beebtube.typed('a'))\n"
            b"print(run.frames[0].png(), run.registers['host'].pc, beebtube.resume(run.session, 9, keys=beebtube.Script()))\n"
            b"past: beebtube.Past = run.past()\n")
        done = subprocess.run(words, cwd=tools, stdout=subprocess.PIPE, stderr=subprocess.STDOUT)
        self.assertEqual(done.returncode, 0, done.stdout.decode())


if __name__ == "__main__":
    unittest.main()
