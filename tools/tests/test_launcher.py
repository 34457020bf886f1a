"""What ./beebtube says behind the program's text, which program it runs, and how it ends."""
import os
import random
import shutil
import subprocess
import time

from common import EXAMPLES, TOP, Case, beebtube, call, child_of, is_alive, letters, pretend_clone, put, signal, text_of, unittest, wait_until

from beebtube.explain import explain
from beebtube.files import files_below, sum_of


class Told(Case):
    def told(self, words, status, *lines):
        """The program ends with this status, and these lines are among those that the launcher adds."""
        ended = beebtube.Program().call(words.split(), self.folder)
        self.assertEqual(ended.status, status, words)
        got = explain(status, ended.text, words.split(), self.folder)
        for line in lines:
            self.assertIn(line, got, words)

    def test_the_launcher_adds_the_lines(self):
        self.pair()
        put(self.at("keys"), b"at 5 down 2a\n")
        put(self.at("two"), b"12")
        for words, status, lines in (
            ("run 9 o --oss x --tube y", 1, ["usage", "beebtube: --oss: no such option, --os?", "beebtube: ./beebtube --help lists all arguments"]),
            ("solo 9 o --os two --tube tube", 3, ["bad image os 2", "beebtube: --os two has 2 bytes: an operating system has 16,384"]),
            ("solo 9 o --os os --tube tube --keys keys", 4, ["bad script 1", "beebtube: line 1 of the script: at 5 down 2a", "beebtube: key numbers are upper case: 2A"]),
        ):
            done = self.launcher(*words.split(), status=status)
            self.assertEqual((done.out, done.err.splitlines()), ("", lines))

    def test_which_word_is_wrong(self):
        for words, line in (
            ("run 9 o --oss x --tube y", "--oss: no such option, --os?"),
            ("run 1e6 o --os x --tube y", "1e6: TICKS is a whole number up to 1,073,741,824, in decimal digits alone"),
            ("run 1073741825 o --os x --tube y", "1073741825: TICKS is a whole number up to 1,073,741,824, in decimal digits alone"),
            ("run 9 o --os x", "`run` needs --tube"),
            ("run 9 o --os x --tube y --keep 4194305", "--keep 4194305: it is a whole number, at most 4,194,304"),
            ("follow host t 9 o --os x --watch c000", "--watch c000: --watch needs upper case: C000"),
            ("follow host t 9 o --os x --at 70", "--at 70: --at needs four upper-case hexadecimal digits alone: 0070"),
            ("run 9 o --os=x --tube y", "--os=x: write `--os x`"),
            ("run 9 o --os x --os y --tube z", "--os: it is given twice"),
            ("run 9 o --os", "--os: it needs a value"),
            ("run 9 --os x --tube y", "it needs OUT: run TICKS OUT"),
            ("run 9 o p --os x --tube y", "p: one argument too many: run TICKS OUT"),
            ("run 9 o --os x --tube y --speed 5", "--speed 5: it is 3 or 4"),
            ("run 9 o --os x --tube y --at 0070", "--at: `run` does not take it, but `follow host`, `follow para` do"),
            ("replay both t 9 o --os x", "both: SIDE is host or para"),
            ("replay host t 9 o --os x --from 5", "--from: `replay host` does not take it, but `follow host`, `follow para` do"),
            ("follow host t 9 o --os x --from 1073741825", "--from 1073741825: it is a whole number, at most 1,073,741,824"),
            ("follow host t 9 o --os x --from", "--from: it needs a value"),
            ("run 9 o --os x --tube y --no-tube", "--no-tube: `run` does not take it, but `replay host`, `follow host` do"),
            ("replay para t 9 o --no-tube --tube y", "--no-tube: `replay para` does not take it, but `replay host`, `follow host` do"),
            ("replay host t 9 o --os x --no-tube --no-tube", "--no-tube: it is given twice"),
            ("replay host t 9 o --os --no-tube", "--no-tube: no name begins with `-` (--os); write ./--no-tube"),
            ("replay host t 9 o --os x --no-tube y", "y: one argument too many: replay SIDE TRACE TICKS OUT"),
            ("replay host t 9 o --os x --no-tube=1", "--no-tube=1: --no-tube has no value"),
            ("asm 6510 a b", "6510: PART is 6502 or 65c02"),
            ("dis 6502 a &C000 b", "&C000: ORIGIN needs four upper-case hexadecimal digits alone: C000"),
            ("gen -1", "-1: SEED is a whole number below 2^64, in decimal digits alone"),
            ("rum 9 o", "rum: no such command, run?; there are check, asm, dis, replay, solo, run, resume, follow, gen"),
            ("check -t", "-t: no name begins with `-` (TRACE); write ./-t"),
        ):
            self.told(words, 1, line)

    def test_what_the_tool_takes_for_words_the_program_does(self):
        """No words are called wrong that the program takes, and none right that it refuses."""
        for words in ("check /dev/null", "run 0 o --os a --tube b", "gen 18446744073709551615", "dis 65c02 a FFFF b", "resume s 9 o --keep 0 --wav w"):
            self.assertEqual(explain(1, "usage", words.split()), [], words)

    def test_words_by_chance(self):
        """A word is called wrong exactly where the program says `usage`."""
        dice = random.Random(48)
        pieces = ["check", "asm", "dis", "replay", "solo", "run", "resume", "follow", "gen", "host", "para", "6502", "65c02", "C000", "c000", "0", "9", "09", "1073741824",
                  "1073741825", "18446744073709551615", "18446744073709551616", "-1", "1e3", "x", "-", "--", "", "o", "é", "--os", "--tube", "--rom0", "--rom15", "--rom16", "--rom00",
                  "--font", "--disc0", "--disc2", "--keys", "--plugs", "--keep", "--speed", "3", "4", "8", "4194304", "4194305", "--wav", "--save", "--at", "--watch", "0070", "--oss",
                  "--from", "--no-tube"]
        for _ in range(600):
            words = self.good_words(dice)
            for _ in range(dice.choice((0, 0, 1, 1, 2))):
                how, at = dice.randrange(3), dice.randrange(len(words) + 1)
                if how == 0:
                    words.insert(at, dice.choice(pieces))
                elif how == 1:
                    words[at % len(words)] = dice.choice(pieces)
                else:
                    del words[at % len(words)]
                    words = words or ["x"]
            ended = beebtube.Program().call(words, self.folder)
            lines = explain(1, "usage", words, self.folder)
            self.assertEqual(bool(lines), ended.status == 1, (words, ended, lines))

    def good_words(self, dice):
        words = dice.choice(("check t", "asm 6502 s o", "dis 65c02 i C000 o", "replay host t 9 o --os a", "replay para t 9 o --tube b", "solo 9 o --os a --tube b",
                             "run 9 o --os a --tube b", "resume s 9 o", "follow host t 9 o --os a", "follow para t 9 o --tube b", "gen x")).split()
        for _ in range(dice.randrange(3) if len(words) > 3 else 0):
            words += dice.choice(("--font f", "--keys k", "--plugs 8", "--keep 0", "--speed 4", "--wav w", "--save v", "--at 0070", "--watch FFFF", "--disc1 d", "--rom9 r", "--from 5",
                                  "--no-tube")).split()
        return words

    def script(self, data, *lines):
        self.pair()
        put(self.at("keys"), data)
        return self.told("solo 9 o --os os --tube tube --keys keys", 4, *lines)

    def test_which_line_of_a_script(self):
        long = b"".join(b"at %d shot\n" % tick for tick in range(257))
        for data, line, why in (
            (b"at 5 down 00\r\n", "line 1 of the script: at 5 down 00\\x0d", "the line ends with a carriage return: lines end with a line feed alone"),
            (b"at 5 down 2a\n", "line 1 of the script: at 5 down 2a", "key numbers are upper case: 2A"),
            (b"at 5  down 00\n", "line 1 of the script: at 5  down 00", "words have one blank between them, and none at the ends"),
            (b"at 9 down 00\nat 5 up 00\n", "line 2 of the script: at 5 up 00", "the tick 5 is below the 9 of the line before"),
            (b"at 5 down 00\n\n", "line 2 of the script: ", "the line is empty"),
            (b"at 5 press 00\n", "line 1 of the script: at 5 press 00", "no event is called press; there are down, up, shot, break, adc"),
            (b"at 5 Down 00\n", "line 1 of the script: at 5 Down 00", "no event is called Down, down?"),
            (b"at 5 down 8F\n", "line 1 of the script: at 5 down 8F", "the key 8F is no number of two upper-case hexadecimal digits from 00 to 7F"),
            (b"at 05 shot\n", "line 1 of the script: at 05 shot", "the tick 05 is no whole number up to 1,073,741,824"),
            (b"at 5 shot", "line 1 of the script: at 5 shot", "the last line has no line feed"),
            (b"at 5 adc 4 8000\n", "line 1 of the script: at 5 adc 4 8000", "`adc` has a channel from 0 to 3 and a level of four upper-case hexadecimal digits"),
            (long, "line 257 of the script: at 256 shot", "a script has 256 shots at most"),
        ):
            self.script(data, line, why)

    def trace(self, data, *lines):
        put(self.at("trace"), data)
        return self.told("check trace", 4, *lines)

    def test_which_line_of_a_trace(self):
        good = b"0000000024 H R 0 40\n"
        for data, why in (
            (good + good, "the line before has the same tick and side: a side has one access a tick"),
            (good + b"0000000023 H R 0 40\n", "its tick is below that of the line before: 0000000024"),
            (good + good[:-1] + b"\r\n", "the line ends with a carriage return: lines end with a line feed alone"),
            (good + b"000000002a H R 0 40\n", "digits and letters are upper case: 000000002A H R 0 40"),
            (good + b"000000002A  H R 0 40\n", "words have one blank between them, and none at the ends"),
            (good + b"000000002A H R 0 40", "the last line has no line feed"),
            (good + b"\n", "the line is empty"),
            (good + b"000000002A P X 0 00\n", "a BREAK is a line of the host: `H X 0 00`"),
            (good + b"2A H R 0 40\n", "the tick has ten upper-case hexadecimal digits"),
            (good + b"000000002A H R 8 40\n", "the address is from 0 to 7"),
            (good + b"000000002A Q R 0 40\n", "the side is H (the host) or P (the second processor)"),
        ):
            self.trace(data, why)
            self.trace(b"T2\n" + data, "line 2 of the trace, not counting `T2`: " + data[20:].rstrip(b"\n").replace(b"\r", b"\\x0d").decode(), why)

    def source(self, data, *lines, part="6502"):
        put(self.at("s.asm"), data)
        return self.told("asm %s s.asm o" % part, 4, *lines)

    def test_which_line_of_a_source(self):
        for line, why in (
            (b"LDA $70", "a hexadecimal number begins with `&`: &70"),
            (b"RTS\r", "the line has a carriage return: save sources with line feeds alone"),
            (b"STZ &70", "the 6502 has no STZ: the 65c02 has it"),
            (b"LDA (&12)", "the 6502 has no LDA (&12): the 65c02 has that form"),
            (b"EQUB 1", "there is no EQUB here: write `byte`"),
            (b".loop", "a label ends with a colon: `loop:`"),
            (b"BEQ nowhere", "no line has the label nowhere"),
            (b"BEQ FIRST", "no line has the label FIRST; its case counts: first"),
            (b"ASL", "the accumulator is always written: `ASL A`"),
            (b"LDA #300", "a value does not fit: a byte is below 256, `<` and `>` take the low and the high one"),
            (b"first: RTS", "the label first is already on line 1"),
            (b"LDB #1", "no instruction is called LDB; a label ends with a colon"),
            (b'byte "A"', "there are no texts in quotes: the numbers of the letters"),
            (b"LDA %101", "there are no binary numbers: decimal ones, or hexadecimal ones with `&`"),
            (b"org 0", "`org` has a number of at most 65,535 that is not below the address that is reached"),
            (b"BEQ &1000", "a branch goes at most 128 bytes back or 127 on from the next instruction"),
        ):
            self.source(b"first: RTS\n" + line + b"\n", "line 2 of the source: " + line.replace(b"\r", b"\\x0d").decode(), why)
        self.source(b"org &FFFF\nword 1\n", "the image passes the end of memory, at 65,536")

    def test_lengths_of_images(self):
        self.pair()
        for option, length, lines in (
            ("--os", 8192, ["--os image has 8,192 bytes: an operating system has 16,384"]),
            ("--os", 32768, ["it may be 2 images one after the other: `head -c 16384 image` is the first"]),
            ("--os", 16386, ["--os image has 16,386 bytes: an operating system has 16,384",
                             "2 extra bytes may come first, then `tail -c 16384 image` removes them, or last: `head -c 16384 image`"]),
            ("--tube", 4096, ["--tube image has 4,096 bytes: a boot ROM has 2,048", "use the last half of a boot ROM of 4,096 bytes: `tail -c 2048 image`"]),
            ("--rom3", 2, ["--rom3 image has 2 bytes: a paged ROM has 8,192 or 16,384"]),
            ("--font", 768, ["--font image has 768 bytes: a font has 960"]),
            ("--disc0", 409600, ["--disc0 image has 409,600 bytes: an SSD has at most 204,800", "a disc with both sides is a DSD, and its name ends in .dsd"]),
        ):
            put(self.at("image"), length=length)
            words = {"--os": "os", "--tube": "tube"}
            words[option] = "image"
            self.told("solo 9 o " + " ".join("%s %s" % item for item in words.items()), 3, *lines)
        put(self.at("image"), length=2)
        self.told("dis 6502 image FFFF o", 3, "the image has 2 bytes: from its origin on it passes the end of memory, at 65,536")

    def test_session_files(self):
        for data, line in ((b"x", "it is no session file: one begins with the letters BTUB"), (b"BTUB\1", "the session file has 5 bytes, and ends inside a field: it was cut"),
                           (b"BTUB\1\7" + b"\0" * 50, "byte 5 of 56 is outside the form of a session file")):
            put(self.at("s"), data)
            self.told("resume s 9 o", 4, line)

    def test_the_clock_of_a_trace(self):
        self.pair()
        put(self.at("fast"), b"T2\n")
        self.told("replay para fast 9 o --tube tube", 4, "the trace is of a second processor at 4 MHz, and the arguments say 3: `--speed 4`")
        put(self.at("slow"), b"")
        self.told("replay para slow 9 o --tube tube --speed 4", 4, "the trace is of a second processor at 3 MHz, and the arguments say 4: `--speed 3`")

    def test_without_python(self):
        """The same program and status, and shorter lines."""
        os.mkdir(self.at("bin"))
        for name in os.listdir("/usr/bin"):
            if not name.startswith("python"):
                os.symlink("/usr/bin/" + name, self.at("bin/" + name))
        env = {"PATH": self.at("bin")}
        self.assertEqual(self.launcher("check", os.path.join(EXAMPLES, "nmi.trace"), env=env).out, "ok 5\n")
        self.assertEqual(self.launcher("run", "1e6", "o", status=1, env=env).err, "usage\nbeebtube: ./beebtube --help lists all arguments\n")
        self.assertEqual(self.launcher("check", os.path.join(EXAMPLES, "order.trace"), status=4, env=env).err, "bad trace 2\nbeebtube: docs/COMMANDS.md has the form\n")

    def test_help_and_version(self):
        done = self.launcher("--help")
        self.assertEqual((done.out, done.err), (text_of(os.path.join(TOP, "docs", "help.txt")).decode(), ""))
        self.assertEqual(self.launcher("run", "--help").out, done.out)
        done = self.launcher("--version")
        told = beebtube.version()
        self.assertIn("program %s\nsum %s\n" % (told.program, sum_of(told.program).digits), done.out)
        self.launcher("--help", status=1, stdout=os.open("/dev/full", os.O_WRONLY))

    def test_texts_of_the_program_stay(self):
        for words, status in (("check missing", 2), ("check %s/wrong.trace" % EXAMPLES, 8), ("check %s/nmi.trace" % EXAMPLES, 0), ("asm 6502 %s/small.asm nowhere/o" % EXAMPLES, 5)):
            direct = beebtube.Program().call(words.split(), self.folder)
            done = self.launcher(*words.split(), status=status)
            self.assertEqual((done.status, done.out, done.err), (direct.status, direct.out.decode(), direct.err.decode()))

    def test_closed_streams(self):
        path = os.path.join(TOP, "beebtube")
        for closed, words, status in (("<&-", ["check", os.path.join(EXAMPLES, "nmi.trace")], 0), (">&-", ["check", os.path.join(EXAMPLES, "nmi.trace")], 5),
                                      ("2>&-", ["check", "missing"], 2), ("<&- >&- 2>&-", ["check", "missing"], 2), ("2>/dev/full", ["run", "1e6", "o"], 1),
                                      ("<&- >&- 2>&-", ["asm", "6502", os.path.join(EXAMPLES, "small.asm"), "small"], 0)):
            done = call(["sh", "-c", 'exec "$@" ' + closed, "sh", path] + words, self.folder)
            self.assertEqual((closed, done.status), (closed, status), done.err)
        self.assertEqual(len(text_of(self.at("small"))), 7)

    def test_standard_input_is_the_program_s(self):
        self.assertEqual(self.launcher("check", "/dev/stdin", stdin=text_of(os.path.join(EXAMPLES, "nmi.trace"))).out, "ok 5\n")


    def test_a_pipe_is_not_opened_again(self):
        """What came through it is gone: the explanation is the shorter one."""
        os.mkfifo(self.at("f"))
        writer = subprocess.Popen(["sh", "-c", "echo bad >f"], cwd=self.folder)
        self.assertEqual(self.launcher("check", "f", status=4).err, "bad trace 1\nbeebtube: docs/COMMANDS.md has the form\n")
        self.assertEqual(writer.wait(300), 0)
        self.assertEqual(explain(4, "bad trace 1", ["check", "f"], self.folder), [])


class Ends(Case):
    def started(self):
        self.pair()
        def before():
            # Behind `&` a shell has these ignored.
            for number in (signal.SIGINT, signal.SIGQUIT):
                signal.signal(number, signal.SIG_DFL)
        child = subprocess.Popen([os.path.join(TOP, "beebtube"), "solo", "1073741824", "o", "--os", "os", "--tube", "tube", "--keep", "0"], cwd=self.folder,
                                 stdin=subprocess.DEVNULL, stdout=subprocess.DEVNULL, stderr=subprocess.PIPE, preexec_fn=before)
        while child.poll() is None:
            program = child_of(child.pid)
            # The launcher's own helpers are other programs.
            try:
                if program and os.readlink("/proc/%d/exe" % program) == os.path.realpath(beebtube.Program().path):
                    return child, program
            except OSError:
                pass
            time.sleep(0.05)
        self.fail("the program does not run")

    def test_signals_reach_the_program(self):
        for number in (signal.SIGTERM, signal.SIGINT, signal.SIGHUP, signal.SIGQUIT):
            child, program = self.started()
            child.send_signal(number)
            # A bash takes no heed of SIGQUIT itself: it ends with the number that a shell gives such an end.
            self.assertEqual((child.wait(300), child.stderr.read()), (131 if number == signal.SIGQUIT else -number, b""))
            self.assertFalse(is_alive(program))
            child.stderr.close()

    @unittest.skipUnless(shutil.which("setpriv"), "setpriv is not here")
    def test_where_the_launcher_is_killed_the_program_is(self):
        child, program = self.started()
        child.kill()
        self.assertEqual(child.wait(300), -9)
        child.stderr.close()
        self.assertTrue(wait_until(lambda: not is_alive(program)))

    @unittest.skipUnless(shutil.which("setpriv"), "setpriv is not here")
    def test_a_signal_that_is_lost_as_the_child_begins(self):
        """It goes on again. This setpriv takes no heed of signals before `go` is there, as a child of bash may not."""
        os.mkdir(self.at("bin"))
        put(self.at("bin/setpriv"), b"#!/bin/sh\ntrap '' HUP TERM\n: >begun\nuntil [ -e go ]; do sleep 0.05; done\ntrap - HUP TERM\nexec %s \"$@\"\n"
            % shutil.which("setpriv").encode())
        os.chmod(self.at("bin/setpriv"), 0o755)
        self.pair()
        for number in (signal.SIGHUP, signal.SIGTERM):
            child = subprocess.Popen([os.path.join(TOP, "beebtube"), "solo", "1073741824", "o", "--os", "os", "--tube", "tube", "--keep", "0"], cwd=self.folder,
                                     stdin=subprocess.DEVNULL, stdout=subprocess.DEVNULL, env={**os.environ, "PATH": self.at("bin") + ":" + os.environ["PATH"]})
            self.assertTrue(wait_until(lambda: os.path.exists(self.at("begun"))))
            child.send_signal(number)
            time.sleep(0.5)
            put(self.at("go"))
            try:
                self.assertEqual(child.wait(300), -number)
            finally:
                child.kill()
                child.wait()
            os.unlink(self.at("begun"))
            os.unlink(self.at("go"))

    def test_where_the_program_is_killed_the_launcher_is(self):
        child, program = self.started()
        os.kill(program, signal.SIGKILL)
        self.assertEqual(child.wait(300), -9)
        child.stderr.close()

    def test_a_file_above_the_system_s_limit(self):
        """The program replaces a file whole or not at all (`ulimit -f`)."""
        self.pair()
        words = [beebtube.Program().path, "solo", "2000", "out", "--os", "os", "--tube", "tube"]
        self.assertEqual(call(words, self.folder).status, 0)
        whole = self.names()
        for name in ("out.host", "out.para"):
            put(self.at(name), b"as before")
        # Python ignores SIGXFSZ, and so does the program then.
        done = call(words, self.folder, limit=40000, restore_signals=False)
        self.assertEqual((done.status, done.err.splitlines()[0]), (5, "cannot write out.para"))
        self.assertEqual(self.names(), {**whole, "out.para": b"as before"})


class Stubs(Case):
    """A clone that only pretends, whose program is a script, and whose prover and python3 are scripts too."""

    def clone(self, script):
        self.top = pretend_clone(self.at("clone"))
        program = self.script(os.path.join(self.top, "release", "beebtube"), script)
        put(os.path.join(self.top, "release", "sum"), sum_of(program).digits.encode() + b"\n")
        os.mkdir(self.at("bin"))

    def script(self, name, text):
        put(name, b"#!/bin/sh\n" + text)
        os.chmod(name, 0o755)
        return name

    def call(self, *words, **how):
        return self.launcher(*words, top=self.top, env={"PATH": self.at("bin") + ":" + os.environ["PATH"], "XDG_CACHE_HOME": self.at("cache")}, **how)

    def test_the_status_of_a_program_that_ended_before_its_text(self):
        """Standard error is held a little longer by a process that the program left."""
        self.clone(b'sleep 0.3 & echo "a text" >&2; exit "$1"\n')
        for status in (0, 2, 8):
            done = self.call(str(status), status=status)
            self.assertEqual((done.out, done.err), ("", "a text\n"))

    def test_a_python3_that_hangs(self):
        """The status comes, and the shorter lines."""
        self.clone(b'echo "bad trace 1" >&2; exit 4\n')
        self.script(self.at("bin/python3"), b"sleep 1000 & sleep 1000\n")
        done = call([os.path.join(self.top, "beebtube"), "check", "x"], self.folder, env={"PATH": self.at("bin") + ":" + os.environ["PATH"], "BEEBTUBE_EXPLAIN": "1"})
        self.assertEqual((done.status, done.err), (4, "bad trace 1\nbeebtube: docs/COMMANDS.md has the form\n"))

    def test_a_long_text(self):
        self.clone(b'head -c 300000 /dev/zero | tr "\\0" x >&2; exit 2\n')
        self.assertEqual(len(self.call(status=2).err), 300000)

    def building(self, rt):
        """The shipped program is of other sources: the next call builds."""
        self.clone(b"echo shipped\n")
        put(os.path.join(self.top, "release", "sources"), b"other\n")
        self.script(self.at("bin/rt"), rt)
        self.source = os.path.join(self.top, "crates", "beebtube", "src", "main.rt")

    def test_an_edit_during_the_build(self):
        """The program is that of the copy which was built; edited sources are built again."""
        rt = """mkdir -p out; echo "echo built of: $(cat src/main.rt)" >out/beebtube; chmod +x out/beebtube
            [ -e once ] || { echo edited >SOURCE; touch FOLDER/once; }
            """
        self.building(rt.replace("[ -e once", "[ -e FOLDER/once").replace("SOURCE", "FOLDER/clone/crates/beebtube/src/main.rt").replace("FOLDER", self.folder).encode())
        done = self.call()
        self.assertEqual(done.out, "built of: edited\n")
        self.assertIn("beebtube: the sources were edited during the build: it starts again\n", done.err)
        put(self.source, b"main\n")
        self.assertEqual(self.call().out, "built of: main\n")
        self.assertEqual(self.call().err, "")

    def test_a_build_that_is_ended(self):
        self.building(b'echo $$ >"%s"; exec sleep 1000\n' % self.at("pid").encode())
        for number in (signal.SIGTERM, signal.SIGINT, signal.SIGHUP, signal.SIGKILL):
            child = subprocess.Popen([os.path.join(self.top, "beebtube")], stdin=subprocess.DEVNULL, stdout=subprocess.DEVNULL, stderr=subprocess.DEVNULL, restore_signals=True,
                                     env={**os.environ, "PATH": self.at("bin") + ":" + os.environ["PATH"], "XDG_CACHE_HOME": self.at("cache")}, cwd=self.folder)
            self.assertTrue(wait_until(lambda: os.path.exists(self.at("pid")) and text_of(self.at("pid")).endswith(b"\n")))
            prover = int(text_of(self.at("pid")))
            child.send_signal(number)
            self.assertEqual(child.wait(300), -number)
            if number == signal.SIGKILL:
                self.assertTrue(wait_until(lambda: not is_alive(prover)))
                break
            self.assertFalse(is_alive(prover))
            os.unlink(self.at("pid"))
            self.assertEqual(os.listdir(self.at("cache/beebtube-build"))[0][-5:], ".lock")


class Chooses(Case):
    """Which program is run, in a clone that only pretends."""

    def clone(self):
        self.top = pretend_clone(self.at("clone"))
        self.env = {"HOME": self.at("home"), "PATH": os.environ["PATH"]}
        return self.top

    def call(self, *words, status=0, **env):
        return self.launcher(*words, status=status, top=self.top, env={**self.env, "XDG_CACHE_HOME": "", **env})

    def check(self, **env):
        return self.call("check", os.path.join(EXAMPLES, "nmi.trace"), **env)

    def refused(self):
        done = self.call("check", os.path.join(EXAMPLES, "nmi.trace"), status=70, PATH=self.without_rt())
        self.assertNotIn("ok", done.out)
        return done.err

    def without_rt(self):
        return ":".join(part for part in os.environ["PATH"].split(":") if not os.path.exists(os.path.join(part, "rt")))

    def test_a_shipped_program_that_is_another_is_refused(self):
        path = os.path.join(self.clone(), "release", "beebtube")
        self.check()
        data = text_of(path)
        put(path, data[:-1] + bytes([data[-1] ^ 1]))
        os.chmod(path, 0o755)
        self.assertIn("release/beebtube does not have the checksum of release/sum: it is not run", self.refused())
        put(path, data)
        self.assertEqual(self.check().out, "ok 5\n")
        os.unlink(os.path.join(self.top, "release", "sum"))
        self.refused()

    def test_a_changed_source_is_noticed(self):
        source = os.path.join(self.clone(), "crates", "beebtube", "src", "main.rt")
        self.check()
        self.check()
        times = os.stat(source)
        put(source, b"Main\n")
        os.utime(source, ns=(times.st_atime_ns, times.st_mtime_ns))
        self.refused()
        put(source, b"main\n")
        self.check()
        put(os.path.join(self.top, "crates", "beebtube", "src", "other.rt"), b"")
        self.refused()
        os.unlink(os.path.join(self.top, "crates", "beebtube", "src", "other.rt"))
        self.check()
        os.rename(source, source + "x")
        self.refused()

    def test_a_copied_clone_looks_at_its_own_sources(self):
        self.clone()
        self.check()
        subprocess.run(["cp", "-a", self.top, self.at("copy")], check=True)
        put(os.path.join(self.at("copy"), "crates", "beebtube", "src", "main.rt"), b"other\n")
        self.top = self.at("copy")
        self.refused()

    def test_nothing_is_noted(self):
        """A call leaves no file, whatever it found, and what one call could not do is no matter of the next."""
        self.clone()
        bare = self.at("bin")
        os.mkdir(bare)
        for name in ("bash", "env", "find", "git", "sort", "xargs", "setpriv"):
            os.symlink(shutil.which(name), os.path.join(bare, name))
        before = files_below(self.top)
        self.call("check", os.path.join(EXAMPLES, "nmi.trace"), status=70, PATH=bare)
        self.assertEqual((self.check().out, self.check().err), ("ok 5\n", ""))
        self.assertEqual(files_below(self.top), before)

    def test_a_moved_clone(self):
        """Whatever the times of its files are: here those of before the first call."""
        one = self.clone()
        shutil.copytree(one, self.at("two"), symlinks=True)
        put(os.path.join(self.at("two"), "release", "beebtube"), b"#!/bin/sh\necho damaged\n")
        self.check()
        os.rename(one, self.at("three"))
        os.rename(self.at("two"), one)
        self.assertIn("does not have the checksum", self.refused())

    def test_names_of_folders(self):
        """Nor does the folder of a clone matter otherwise."""
        self.clone()
        for name in ("back\\slash", "line\nfeed", "caf\u00e9", "not UTF-8: \udce9"):
            os.mkdir(self.at(name))
            shutil.copytree(self.top, self.at(name + "/clone"), symlinks=True)
            done = call([self.at(name + "/clone/beebtube"), "check", os.path.join(EXAMPLES, "nmi.trace")], self.folder)
            self.assertEqual((name, done.status, done.out, done.err), (name, 0, "ok 5\n", ""))
            self.assertEqual(call([self.at(name + "/clone/beebtube"), "check"], self.folder).status, 1)

    def in_git(self):
        """The clone, all of it known to git, with the list of its files in release/."""
        self.clone()
        shutil.copy(os.path.join(TOP, ".ci", "shipped"), os.path.join(self.top, ".ci"))
        self.git("init", "-q")
        self.git("add", "-A")
        shutil.copytree(os.path.join(self.top, "release"), self.at("out"))
        os.makedirs(os.path.join(self.top, "crates", "beebtube", "out"))
        shutil.copy(os.path.join(self.at("out"), "beebtube"), os.path.join(self.top, "crates", "beebtube", "out"))
        os.mkdir(self.at("kit"))
        put(self.at("kit/rt"), b"#!/bin/sh\necho a kit\n")
        os.chmod(self.at("kit/rt"), 0o755)
        done = call([os.path.join(self.top, ".ci", "shipped"), "--renew"], self.folder, env={"PATH": self.at("kit") + ":" + os.environ["PATH"]})
        self.assertEqual((done.status, done.err), (0, ""))
        shutil.rmtree(os.path.join(self.top, "crates", "beebtube", "out"))
        self.git("add", "-A")
        # Whoever sums the files says so.
        put(os.path.join(self.at("kit"), "find"), b"#!/bin/sh\necho summed >&2\nexec %s \"$@\"\n" % shutil.which("find").encode())
        os.chmod(os.path.join(self.at("kit"), "find"), 0o755)

    def git(self, *words):
        subprocess.run(["git", "-c", "user.name=x", "-c", "user.email=x@x", "-C", self.top] + list(words), check=True, stdout=subprocess.DEVNULL)

    def looked(self):
        """What the call says, without the toolchain."""
        done = call([os.path.join(self.top, "beebtube"), "check", os.path.join(EXAMPLES, "nmi.trace")], self.folder,
                    env={"PATH": self.at("kit") + ":" + self.without_rt()})
        return done.status, done.out, done.err

    @unittest.skipUnless(shutil.which("git"), "git is not there")
    def test_git_says_whether_a_file_changed(self):
        self.in_git()
        fast, summed = (0, "ok 5\n", ""), (0, "ok 5\n", "summed\n")
        source = os.path.join(self.top, "crates", "beebtube", "src", "main.rt")
        os.unlink(self.at("kit/rt"))
        self.assertEqual(self.looked(), fast)
        self.git("commit", "-q", "-m", "all")
        self.assertEqual(self.looked(), fast)
        os.utime(source)
        self.assertEqual(self.looked(), fast)
        for name in ("other.rt", "Other.antt"):
            other = os.path.join(os.path.dirname(source), name)
            put(other)
            self.assertEqual(self.looked()[:2], (70, ""))
            os.unlink(other)
        put(source, b"Main\n")
        self.assertEqual(self.looked()[:2], (70, ""))
        self.git("add", "-A")
        self.assertEqual(self.looked()[:2], (70, ""))
        self.git("commit", "-q", "-m", "other")
        self.assertEqual(self.looked()[:2], (70, ""))
        put(source, b"main\n")
        self.assertEqual(self.looked(), summed)
        self.git("add", "-A")
        self.assertEqual(self.looked(), fast)
        # The shipped program is one of these files.
        put(os.path.join(self.top, "release", "beebtube"), b"#!/bin/sh\necho damaged\n")
        for _ in range(2):
            self.assertEqual(self.looked()[:2], (70, ""))
            self.git("add", "-A")
        self.git("checkout", "-q", "HEAD", "release/beebtube")
        put(os.path.join(self.top, ".git", "index"), b"no index")
        self.assertEqual(self.looked(), summed)

    @unittest.skipUnless(shutil.which("git") and os.path.isdir(os.path.join(TOP, ".git")), "this is no clone")
    def test_this_clone_s_own_list(self):
        """release/listing is that of the files here, unless one of them was edited."""
        listing = ". .ci/sources && listing_of ."
        if subprocess.run([os.path.join(TOP, ".ci", "sources")], stdout=subprocess.PIPE).stdout == text_of(os.path.join(TOP, "release", "sources")):
            done = call(["bash", "-c", listing], TOP)
            self.assertEqual(done.out.encode(), text_of(os.path.join(TOP, "release", "listing")), ".ci/shipped --renew writes it")


if __name__ == "__main__":
    unittest.main()
