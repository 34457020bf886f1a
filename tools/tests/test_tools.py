"""What the tools promise: that they never harm, and say what is wrong."""
import itertools
import os
import random
import stat
import subprocess

from common import EXAMPLES, IS_ROOT, TOOLS, TOP, Case, beebtube, call, letters, put, text_of, unittest, wait_until

from beebtube.files import sum_of

SMALL_DISK = os.environ.get("BEEBTUBE_SMALL_DISK")  # a folder on a file system of some 64 kB


class Manifest(Case):
    def make(self, *words, status=0):
        self.pair()
        done = self.tool("manifest", *words, status=status)
        put(self.at("text"), done.out.encode())
        return done

    def received(self, *lines):
        put(self.at("text"), "\n".join(("beebtube manifest 1",) + lines).encode() + b"\n")

    def kinds(self, done, name):
        """What a text says of a file."""
        return [line.split()[0] for line in done.out.splitlines() if line.endswith(" " + name) and not line.startswith("words")]

    def test_a_run_is_the_same_again(self):
        done = self.make("run", "2000", "letters", "--os", "os", "--tube", "tube")
        self.assertEqual([line for line in done.out.splitlines() if line.startswith(("kit", "words"))][-1], "words run 2000 letters --os os --tube tube")
        self.assertEqual(self.tool("manifest", "--check", "text").out, "same: files read 2, written 4\n")

    def test_received_words_do_not_write_over_a_file_here(self):
        source = text_of(os.path.join(EXAMPLES, "small.asm"))
        put(self.at("s.asm"), source)
        self.received("words asm 6502 s.asm s.asm")
        self.tool("manifest", "--check", "text", status=1)
        self.assertEqual(text_of(self.at("s.asm")), source)
        self.assertEqual(sorted(self.names()), ["s.asm", "text"])

    def test_received_words_do_not_write_through_a_link(self):
        source = text_of(os.path.join(EXAMPLES, "small.asm"))
        put(self.at("own"), source)
        os.symlink("own", self.at("s.asm"))
        self.received("words asm 6502 s.asm s.asm")
        self.tool("manifest", "--check", "text", status=1)
        self.assertEqual(text_of(self.at("own")), source)

    def test_received_words_name_no_folder_for_what_they_write(self):
        self.pair()
        put(self.at("s.asm"), text_of(os.path.join(EXAMPLES, "small.asm")))
        os.mkdir(self.at("below"))
        for words in ("asm 6502 s.asm %s/new", "asm 6502 s.asm below/new", "asm 6502 s.asm ../new", "solo 9 %s/new --os os --tube tube",
                      "solo 9 o --os os --tube tube --save %s/new", "solo 9 o --os os --tube tube --wav below/new", "asm nothing s.asm %s/new",
                      "solo 9 o --os os --tube tube --save ../../new"):
            words = words.replace("%s", self.folder)
            self.received("words " + words)
            self.tool("manifest", "--check", "text", status=1)
            self.tool("manifest", *words.split(), status=1)
            self.assertEqual([name for name in self.names() if "new" in name], [], words)
            self.assertEqual(os.listdir(self.at("below")), [])

    def test_a_file_that_is_read_and_written_is_both(self):
        self.pair()
        self.tool("manifest", "solo", "1000", "half", "--os", "os", "--tube", "tube", "--save", "session")
        session = text_of(self.at("session"))
        done = self.make("resume", "session", "2000", "letters", "--save", "session")
        self.assertEqual(self.kinds(done, "session"), ["read", "wrote"])
        self.assertEqual(text_of(self.at("session")), session)
        self.assertNotEqual(text_of(self.at("session.written")), session)
        self.tool("manifest", "--check", "text")

    def test_a_disc_that_is_the_output_too(self):
        put(self.at("o.d0"), bytes(range(256)) * 4)
        done = self.make("solo", "2000", "o", "--os", "os", "--tube", "tube", "--disc0", "o.d0")
        self.assertEqual(self.kinds(done, "o.d0"), ["read", "wrote"])
        self.tool("manifest", "--check", "text")

    def test_a_refused_call_ends_with_its_status(self):
        done = self.make("run", "9", "o", "--oss", "x", status=1)
        self.assertIn("told usage\n", done.out)
        self.assertIn("--oss: no such option, --os?", done.err)
        self.tool("manifest", "--check", "text")
        put(self.at("bad.trace"), b"x\n")
        done = self.make("check", "bad.trace", status=4)
        self.assertIn("told bad trace 1\n", done.out)
        self.assertEqual([line for line in done.out.splitlines() if line.startswith("told")], ["told bad trace 1"])
        self.make("check", os.path.join(EXAMPLES, "wrong.trace"), status=8)

    def test_a_run_that_is_cut_short_is_not_told(self):
        self.pair()
        done = self.tool("manifest", "solo", "9", "o", "--os", "os", "--tube", "tube", status=5, limit=40000)
        self.assertEqual(done.out, "")
        self.assertIn("cannot write o.para", done.err)
        self.assertEqual(sorted(self.names()), ["os", "tube"])

    def test_a_check_that_is_cut_short_compares_nothing(self):
        self.make("solo", "2000", "o", "--os", "os", "--tube", "tube")
        done = self.tool("manifest", "--check", "text", status=5, limit=40000)
        self.assertEqual((done.out, done.err), ("", "manifest: the run was cut short, and is not compared: cannot write o.para\n"))

    def test_the_program_that_ran_is_told(self):
        """A manifest of a program that BEEBTUBE names has that program's sum, and names no sources and no proof."""
        put(self.at("other"), b"#!/bin/sh\nexec %s \"$@\"\n" % os.fsencode(beebtube.Program().path))
        os.chmod(self.at("other"), 0o755)
        self.pair()
        done = self.tool("manifest", "solo", "2000", "o", "--os", "os", "--tube", "tube", env={"BEEBTUBE": self.at("other")})
        self.assertEqual([line for line in done.out.splitlines() if line.split()[0] in ("kit", "sources", "program")],
                         ["program " + sum_of(self.at("other")).digits])
        put(self.at("text"), done.out.encode())
        self.assertRegex(self.tool("manifest", "--check", "text").out, "^another program: program [0-9a-f]{64}; here kit .*, sources [0-9a-f]{64}\nsame: ")
        self.assertEqual(self.tool("manifest", "--check", "text", env={"BEEBTUBE": self.at("other")}).out, "same: files read 2, written 4\n")

    def test_a_model_b_alone(self):
        done = self.make("replay", "host", os.devnull, "2000", "o", "--os", "os", "--no-tube")
        self.assertEqual(self.kinds(done, os.devnull), ["read"])
        self.assertEqual(self.tool("manifest", "--check", "text").out, "same: files read 2, written 2\n")

    def test_a_link_is_not_followed_to_where_it_leads(self):
        put(self.at("s.asm"), text_of(os.path.join(EXAMPLES, "small.asm")))
        put(self.at("own"), b"own")
        os.symlink("own", self.at("link"))
        self.tool("manifest", "asm", "6502", "s.asm", "link")
        self.assertEqual((text_of(self.at("own")), len(text_of(self.at("link")))), (b"own", 7))

    def test_what_is_no_plain_file_is_refused(self):
        os.mkfifo(self.at("fifo"))
        os.mkdir(self.at("below"))
        for name in ("fifo", "/dev/stdin", "/dev/zero", "below", "missing"):
            self.make("check", name, status=1)
            self.received("words check " + name)
            self.tool("manifest", "--check", "text", status=1)

    def test_texts_that_are_none(self):
        for text in (b"", b"beebtube manifest 1\n", b"beebtube manifest 1\nwords 'a\n", b"beebtube manifest 1\nwords \n", b"\xff\xfe",
                     b"beebtube manifest 1\nwords check a\nwords check b\n", b"beebtube manifest 1\nwords check \x1b[31m\n", bytes(range(256))):
            put(self.at("text"), text)
            self.tool("manifest", "--check", "text", status=1)
        put(self.at("text"), b"beebtube manifest 1\n", length=20 * 10**9)
        self.tool("manifest", "--check", "text", status=1)

    def test_the_launcher_says_nothing_in_it(self):
        done = self.make("run", "9", "o", "--os", "tube", "--tube", "tube", status=3)
        self.assertNotIn("beebtube:", done.out)


class Words(Case):
    def test_a_set_that_cannot_be_made_leaves_no_file(self):
        os.mkfifo(self.at("fifo"))
        for words in (["--os", "missing"], ["--os"], ["os", "x"], ["--oss", "x"], [], ["--os", "fifo"], ["--os", "/dev/zero"]):
            self.tool("words", "--make", "set", *words, status=1)
            self.assertEqual(self.names(), {})

    def test_a_set_is_not_written_over_its_file(self):
        self.pair()
        os.symlink("os", self.at("link"))
        for name in ("os", "./os", "link"):
            self.tool("words", "--make", name, "--os", "os", status=1)
            self.assertEqual(text_of(self.at("os")), letters()["os"])
        for text in (b"# a text\nof somebody\n", b"-- a comment\nselect 1;\n", b"#!/bin/sh\n", b"--os", b"\xff"):
            put(self.at("text"), text)
            self.tool("words", "--make", "text", "--os", "os", status=0 if text == b"--os" else 1)
            self.assertEqual(text_of(self.at("text")) == text, text != b"--os")
        # Nor over another file that is no set.
        self.tool("words", "--make", "os", "--tube", "tube", status=1)
        self.assertEqual(text_of(self.at("os")), letters()["os"])

    def test_lines_that_are_none(self):
        self.pair()
        os.mkfifo(self.at("fifo"))
        for text in (b"", b"\n", b"# none\n", b"--os os\n\n--tube tube\n", b"--oss os\n", b"os os\n", b"--os os sum more\n", b"--save x\n", b"--wav x\n",
                     b"--os os\n--os os\n", b"--keep 9999999\n", b"--speed 5\n", b"--os o*\n", b"--os $(id)\n", b"--os `id`\n", b"--os a;b\n", b"\xff\xfe\n", b"--plugs -1\n",
                     b"--os os %s\n" % (b"0" * 64), b"--os /dev/zero\n", b"--keep 5 sum\n",
                     b"--at C0\n", b"--os fifo\n"):
            put(self.at("set"), text)
            self.tool("words", "set", status=1)
            self.tool("words", "--check", "set", status=1)

    def test_a_set(self):
        self.pair()
        self.tool("words", "--make", "set", "--os", "os", "--tube", "tube", "--speed", "4")
        self.assertEqual(self.tool("words", "set").out, "--os os --tube tube --speed 4\n")
        self.assertEqual(self.tool("words", "set", folder=TOP, status=1).err[:18], "words: cannot read")
        done = self.tool("words", self.at("set"), folder="/")
        self.assertEqual(done.out, "--os %s/os --tube %s/tube --speed 4\n" % (self.folder, self.folder))


class Files(Case):
    def disc(self):
        put(self.at("some.dsd"), beebtube.asm("6502", os.path.join(EXAMPLES, "disc.asm")))
        return text_of(self.at("some.dsd"))

    def frames(self):
        frame = beebtube.Frame(b"P6\n640 256\n255\n" + b"\xff\0\0" * (640 * 256))
        for number in range(3):
            put(self.at("out.%03d.ppm" % number), frame.pixmap)
        return frame

    def test_the_disc_is_not_written_over(self):
        image = self.disc()
        os.symlink("some.dsd", self.at("link"))
        os.link(self.at("some.dsd"), self.at("other"))
        for name in ("some.dsd", "./some.dsd", "link", self.at("some.dsd"), "other"):
            self.tool("catalogue", "some.dsd", "NOTES", name, status=1)
            self.assertEqual(text_of(self.at("some.dsd")), image)
        self.tool("catalogue", "some.dsd", "NOTES", "notes")
        self.assertEqual(text_of(self.at("notes"))[:7], b"Written")

    def test_no_frame_is_written_over(self):
        frame = self.frames()
        names = sorted(self.names())
        for words in (["--movie"] + names, names[:2], names[:1] * 2, ["--movie", "./" + names[0], names[0]]):
            self.tool("png", *words, status=1)
            self.assertEqual({text_of(self.at(name)) for name in names}, {frame.pixmap})
        self.tool("png", "--movie", "new.png", *names)
        self.tool("png", "--movie", "new.png", *names)
        self.tool("png", "--compare", "new.png", *names)

    def test_a_picture_that_cannot_be_whole_leaves_the_old_one(self):
        self.frames()
        put(self.at("old.png"), b"\x89PNG\r\n\x1a\n" + b"old")
        self.tool("png", "out.000.ppm", "old.png", status=1, limit=100)
        self.assertEqual(text_of(self.at("old.png"))[8:], b"old")
        self.assertEqual(sorted(self.names()), ["old.png", "out.000.ppm", "out.001.ppm", "out.002.ppm"])

    @unittest.skipUnless(SMALL_DISK, "no small disk is there")
    def test_a_full_disk_leaves_the_old_file(self):
        self.disc()
        place = os.path.join(SMALL_DISK, "old")
        put(place, b"old")
        with open(os.path.join(SMALL_DISK, "fill"), "wb", buffering=0) as file:
            try:
                while file.write(b"\0" * 4096):
                    pass
            except OSError:
                pass
        try:
            self.tool("catalogue", "some.dsd", "NOTES", place, status=1)
            self.assertEqual(text_of(place), b"old")
            self.assertEqual(sorted(os.listdir(SMALL_DISK)), ["fill", "old"])
        finally:
            os.unlink(os.path.join(SMALL_DISK, "fill"))
            os.unlink(place)

    def test_a_new_file_has_the_mode_of_others(self):
        self.disc()
        mask = os.umask(0)
        os.umask(mask)
        self.tool("catalogue", "some.dsd", "NOTES", "notes")
        self.assertEqual(stat.S_IMODE(os.stat(self.at("notes")).st_mode), 0o666 & ~mask)
        os.chmod(self.at("notes"), 0o640)
        self.tool("catalogue", "some.dsd", "NOTES", "notes")
        self.assertEqual(stat.S_IMODE(os.stat(self.at("notes")).st_mode), 0o640)

    def test_a_device_or_a_pipe_is_written_as_it_is(self):
        self.disc()
        self.assertEqual(self.tool("catalogue", "some.dsd", "NOTES", "/dev/stdout").out[:7], "Written")
        self.tool("catalogue", "some.dsd", "NOTES", "/dev/null")
        self.tool("catalogue", "some.dsd", "NOTES", "/dev/full", status=1)


class EveryTool(Case):
    """Each tool with what is no input for it."""

    def calls(self):
        """Calls of each tool that read the file `input`."""
        return [("tube", "input"), ("tube", "--all", "input"), ("catalogue", "input"), ("catalogue", "input", "X", "out"), ("words", "input"),
                ("words", "--check", "input"), ("words", "--make", "set", "--os", "input"), ("png", "input", "out.png"), ("png", "--compare", "input", "input"),
                ("png", "--movie", "out.png", "input"), ("manifest", "--check", "input"), ("manifest", "check", "input"), ("type", "{"), ("suite", "--ticks", "9", "input", "results"), ("suite", "--jobs", "input", "results"), ("suite", "--gather", "input", "results"),
                ("suite", "--against", "input", "discs", "results"),
                ("manifest", "asm", "6502", "input", "out"), ("catalogue", "--put", "input", "new.ssd", "input"), ("trace", "input", "out.vcd"),
                ("trace", "input", "out.csv")]

    def test_no_input_makes_one_fail_without_a_text(self):
        dice = random.Random(1)
        inputs = [b"", b"\0", b"\xff" * 1000, bytes(range(256)) * 300, b"\n" * 100, dice.randbytes(5000), b"beebtube manifest 1\n" + dice.randbytes(500),
                  b"P6\n640 256\n255\n", b"\x89PNG\r\n\x1a\n" + dice.randbytes(100), b"0000000000 H R 0 40\r\n", b"A" * 1000000]
        # Each call has four of them, each of them some calls.
        for number, words in itertools.product(range(4), self.calls()):
            data = inputs[dice.randrange(len(inputs))] if number else inputs[7]
            put(self.at("input"), data)
            done = call([os.path.join(TOP, "tools", words[0])] + list(words[1:]), self.folder)
            self.assertNotIn("Traceback", done.err)
            self.assertNotIn("a fault of this tool", done.err)
            self.assertIn(done.status, (0, 1, 2, 3, 4), (words, data[:20], done.err))
            self.assertTrue(done.status == 0 or done.err, words)

    def test_a_huge_file(self):
        put(self.at("input"), b"", length=20 * 10**9)
        for words in self.calls():
            before = os.times().children_user
            done = call([os.path.join(TOP, "tools", words[0])] + list(words[1:]), self.folder)
            self.assertNotIn("Traceback", done.err)
            self.assertIn(done.status, (1, 2), (words, done.err))
            self.assertTrue(done.err, words)
            self.assertLess(os.times().children_user - before, 20)

    def test_what_cannot_be_read(self):
        os.mkdir(self.at("input"))
        for words in self.calls():
            if words[0] not in ("suite", "type"):
                self.tool(*words, status=1)
        os.rmdir(self.at("input"))
        for words in self.calls():
            if words[0] != "type":
                self.tool(*words, status=1)

    @unittest.skipIf(IS_ROOT, "root may read and write everywhere")
    def test_without_leave(self):
        put(self.at("input"), b"x")
        os.chmod(self.at("input"), 0)
        for words in self.calls():
            if words[0] != "type":
                self.tool(*words, status=1)

    def good_calls(self):
        """Calls that have something to say on standard output."""
        self.pair()
        put(self.at("some.dsd"), beebtube.asm("6502", os.path.join(EXAMPLES, "disc.asm")))
        put(self.at("set"), b"--os os\n--tube tube\n")
        os.makedirs(self.at("discs"), exist_ok=True)
        put(self.at("discs/a.ssd"), b"a")
        trace = os.path.join(EXAMPLES, "letters.trace")
        return [("tube", trace), ("tube", "--all", trace), ("catalogue", "some.dsd"), ("words", "set"), ("type", "Hello"),
                ("manifest", "check", trace), ("suite", "--ticks", "2000", "discs", "results", "--", "--os", "os", "--tube", "tube"), ("type", "--help")]

    def test_standard_output_that_is_closed_or_full(self):
        for words in self.good_calls():
            self.tool(*words, status=1, stdout=os.open("/dev/full", os.O_WRONLY))
            path = os.path.join(TOP, "tools", words[0])
            done = call(["sh", "-c", 'exec "$@" >&-', "sh", path] + list(words[1:]), self.folder)
            self.assertNotIn("Traceback", done.err)
            self.assertEqual((done.status, words), (1, words))
            self.assertIn("cannot write -", done.err, words)

    def test_a_trace_from_a_pipe(self):
        for begin in (b"", b"T2\n"):
            data = begin + text_of(os.path.join(EXAMPLES, "letters.trace"))
            put(self.at("same.trace"), data)
            for words in ((), ("--all",)):
                self.assertEqual(self.tool("tube", *words, "/dev/stdin", stdin=data).out, self.tool("tube", *words, "same.trace").out)

    def test_a_reader_that_goes_away(self):
        put(self.at("long.trace"), b"".join(b"%010X H R 0 40\n" % tick for tick in range(20000)))
        done = call(["bash", "-c", 'set -o pipefail; "$1" --all long.trace | head -n 1', "bash", os.path.join(TOP, "tools", "tube")], self.folder)
        self.assertEqual((done.status, done.err), (141, ""))
        for words in self.good_calls():
            reader, writer = os.pipe()
            os.close(reader)
            try:
                self.tool(*words, status=141, stdout=writer)
            finally:
                os.close(writer)

    def test_all_three_closed(self):
        for words in self.good_calls():
            done = call(["sh", "-c", 'exec "$@" <&- >&- 2>&-', "sh", os.path.join(TOP, "tools", words[0])] + list(words[1:]), self.folder)
            self.assertEqual(done.status, 1, words)

    @unittest.skipIf(IS_ROOT, "root may write everywhere")
    def test_a_folder_that_cannot_be_written(self):
        self.good_calls()
        put(self.at("frame.ppm"), b"P6\n640 256\n255\n" + b"\0" * (640 * 256 * 3))
        before = self.names()
        os.chmod(self.folder, 0o555)
        try:
            for words in (("catalogue", "some.dsd", "NOTES", "notes"), ("png", "frame.ppm", "frame.png"), ("words", "--make", "new", "--os", "os"),
                          ("manifest", "solo", "9", "o", "--os", "os", "--tube", "tube"), ("png", "--movie", "os", "frame.ppm")):
                self.assertIn("writ", self.tool(*words, status=1).err)
            self.assertEqual(self.names(), before)
        finally:
            os.chmod(self.folder, 0o755)

    def test_words_that_are_wrong(self):
        for name in TOOLS:
            for words in (["--nothing"], ["--help", "x"][1:] * 9, ["--check"], ["--make"], ["--side", "7", "x"], ["--delay", "nan", "a", "b"], ["--start", "inf", "x"], ["\udcff"]):
                done = call([os.path.join(TOP, "tools", name)] + words, self.folder)
                self.assertNotIn("Traceback", done.err)
                self.assertNotIn("a fault of this tool", done.err)
            self.assertIn("tools/" + name, self.tool(name, "--help").out)

    def test_nothing_is_left_where_a_tool_is_ended(self):
        self.pair()
        os.mkdir(self.at("own"))
        done = subprocess.Popen([os.path.join(TOP, "tools", "manifest"), "solo", "1073741824", "o", "--os", "os", "--tube", "tube"], cwd=self.folder,
                                env={**os.environ, "TMPDIR": self.at("own")}, stdout=subprocess.DEVNULL, stderr=subprocess.DEVNULL)
        self.assertTrue(wait_until(lambda: os.listdir(self.at("own"))))
        done.terminate()
        self.assertEqual(done.wait(300), 143)
        self.assertEqual(os.listdir(self.at("own")), [])
        self.assertEqual(sorted(self.names()), ["os", "tube"])


class Type(Case):
    def lines(self, *words, **how):
        return self.tool("type", *words, **how).out.splitlines()

    def test_without_a_key_there_is_no_line(self):
        self.pair()
        put(self.at("none.keys"), self.tool("type", "").out.encode())
        self.assertEqual(text_of(self.at("none.keys")), b"")
        self.launcher("solo", "9", "o", "--os", "os", "--tube", "tube", "--keys", "none.keys")

    def test_keys_with_break_are_held_a_second(self):
        self.assertEqual(self.lines("{SHIFT+BREAK}"), ["at 12000000 down 00", "at 12150000 break", "at 18300000 up 00"])
        self.assertEqual(self.lines("{CTRL+BREAK 2}")[-1], "at 24300000 up 01")
        self.assertEqual(self.lines("{BREAK}"), ["at 12150000 break"])

    def test_the_first_key_comes_after_two_seconds(self):
        self.assertEqual(self.lines("a")[0], "at 12150000 down 41")
        self.assertEqual(self.lines("--start", "0.5", "a")[0], "at 3150000 down 41")

    def test_more_than_a_run_has(self):
        text = "A" * 1800
        self.assertIn("1,073,741,824 at most", self.tool("type", text, status=1).err)
        self.assertEqual(self.tool("type", text, status=1).out, "")
        fitted = self.lines("--fit", text)
        self.assertLessEqual(int(fitted[-1].split()[1]), 1073741824)
        self.assertGreater(int(fitted[-1].split()[1]), 1073741824 * 9 // 10)
        self.assertIn("at most", self.tool("type", "--fit", "--speed", "4", "A" * 9000, status=1).err)
        beebtube.Script.parse("\n".join(fitted) + "\n")

    def test_shift_that_is_held_stays_down(self):
        self.assertEqual(self.lines("--shift", "{SHIFT}a"), ["at 12000000 down 00", "at 12750000 down 41", "at 13050000 up 41", "at 13200000 up 00"])

    def test_held_keys_and_joysticks(self):
        self.assertEqual(self.lines("{RETURN 2}"), ["at 12150000 down 49", "at 24150000 up 49"])
        self.assertEqual(self.lines("{ADC 0 8000}{ADC 3 ffff}"), ["at 12000000 adc 0 8000", "at 12000000 adc 3 FFFF"])
        for text in ("{ADC 4 8000}", "{ADC 0 80}", "{ADC}", "{RETURN x}", "{BREAK+A}", "{", "{f10}", "é", "{WAIT -1}"):
            self.assertTrue(self.tool("type", text, status=1).err)

    def test_what_is_typed_is_a_script(self):
        self.pair()
        text = 'AZaz09 !"#$%&()*+,-./:;<=>?@[\\]^_`|~{{}{CTRL+SHIFT+f1}{SHIFT+BREAK}{WAIT 1}{SHOT}{ADC 1 0000}{CAPS LOCK 1}\n\t'
        put(self.at("all.keys"), self.tool("type", text).out.encode())
        self.launcher("solo", "9", "o", "--os", "os", "--tube", "tube", "--keys", "all.keys")
        self.assertEqual(beebtube.Script.parse(text_of(self.at("all.keys"))).text().encode(), text_of(self.at("all.keys")))

    def test_texts_from_standard_input(self):
        self.assertEqual(len(self.lines(stdin=b"ab")), 4)
        self.tool("type", stdin=b"\xff", status=1)
        self.tool("type", stdin=b"a" * 5000000, status=1)


if __name__ == "__main__":
    unittest.main()
