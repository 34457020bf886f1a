"""The gate's own scripts: what .ci/examples and .ci/test find, and what they leave."""
import hashlib
import importlib.util
import os
import shutil
import subprocess
import sys

from common import TOP, Case, call, pretend_clone, put, signal, text_of, unittest, wait_until

PAGE = """# A page

    $ echo right
    right
    $ echo wrong
    right

No example:

    $ false
    $ bash -c "exit 255"
    $ bash -c "ulimit -c 0; kill -SEGV \\$\\$"
    $ exit 7  # status 7
    $ ./beebtube check none
    cannot read none
    $ echo never  # with no-such-program and bash
    seen
    $ echo seen  # with bash
    seen
    $ sleep 1000 & echo $! >PID; echo at once
    at once
"""


@unittest.skipUnless(os.path.exists(os.path.join(TOP, ".ci", "examples")), "this is an archive")
class Gate(Case):
    def clone(self, script):
        top = pretend_clone(self.at("clone"))
        shutil.copy(os.path.join(TOP, ".ci", script), os.path.join(top, ".ci"))
        os.unlink(os.path.join(top, "docs"))
        os.mkdir(os.path.join(top, "docs"))
        os.mkdir(self.at("tmp"))
        return top

    def call(self, top, script, *words, status, **env):
        env = {"TMPDIR": self.at("tmp"), "XDG_CACHE_HOME": self.at("cache"), **env}
        done = call([os.path.join(top, ".ci", script), *words], self.folder, env=env)
        self.assertEqual(done.status, status, done.out + done.err)
        self.assertEqual(os.listdir(self.at("tmp")), [])
        return done

    def test_examples(self):
        top = self.clone("examples")
        os.mkdir(os.path.join(top, "docs/how"))
        put(os.path.join(top, "docs/how/PAGE.md"), PAGE.replace("PID", self.at("pid")).encode())
        done = self.call(top, "examples", "PAGE", status=1)
        os.kill(int(text_of(self.at("pid"))), signal.SIGKILL)
        lines = done.out.splitlines()
        self.assertEqual(lines[-1], "examples: 5 passed, 4 failed")
        self.assertIn("examples: docs/how/PAGE.md: passed over, since there is no no-such-program: echo never", lines)
        for command, wanted, got in (("echo wrong", "status 0\nright", "status 0\nwrong"), ("false", "status 0\n", "status 1\n"),
                                     ('bash -c "exit 255"', "status 0\n", "status 255\n")):
            self.assertIn("examples: docs/how/PAGE.md: %s\n  wanted: %s\n  got:    %s\n" % (command, wanted, got), done.out)
        self.assertIn("  got:    status 139", done.out)
        self.assertIn("no page or part", self.call(top, "examples", "docs/NONE.md", status=1).err)

    def ended(self, top, script, *words):
        """It is ended in the midst of an example that has written a file, which is gone afterwards."""
        put(os.path.join(top, "docs/PAGE.md"), b'# A page\n\n    $ echo >"$(mktemp)"; touch "%s"; sleep 1000\n' % self.at("begun").encode())
        for number in (signal.SIGTERM, signal.SIGINT):
            child = subprocess.Popen([os.path.join(top, ".ci", script), *words], stdout=subprocess.DEVNULL, stderr=subprocess.DEVNULL,
                                     cwd=self.folder, env={**os.environ, "TMPDIR": self.at("tmp"), "XDG_CACHE_HOME": self.at("cache")})
            self.assertTrue(wait_until(lambda: os.path.exists(self.at("begun"))))
            child.send_signal(number)
            self.assertEqual(child.wait(300), 128 + number)
            self.assertEqual(os.listdir(self.at("tmp")), [])
            os.unlink(self.at("begun"))

    def test_examples_that_are_ended(self):
        self.ended(self.clone("examples"), "examples", "PAGE")

    def stub(self, top, text):
        put(os.path.join(top, ".ci/examples"), b"#!/bin/sh\n" + text)
        os.chmod(os.path.join(top, ".ci/examples"), 0o755)

    def test_what_passed_is_noted(self):
        top = self.clone("test")
        self.stub(top, b'echo once >>"%s"; echo "examples: 5 passed, 0 failed"\n' % self.at("tried").encode())
        for tried in (1, 1):
            self.assertIn("5 passed, 0 failed", self.call(top, "test", "examples", status=0).out)
            self.assertEqual(len(text_of(self.at("tried")).split()), tried)
        # A note that was cut short is none.
        notes = [os.path.join(self.at("cache/beebtube-tests"), it) for it in os.listdir(self.at("cache/beebtube-tests"))]
        self.assertEqual(len(notes), 1)
        put(notes[0])
        self.call(top, "test", "examples", status=0)
        self.assertEqual(len(text_of(self.at("tried")).split()), 2)

    def test_what_was_edited_meanwhile_is_not_noted(self):
        """A page that is bad is put right while the examples run, and is bad again afterwards."""
        top = self.clone("test")
        page = os.path.join(top, "docs/PAGE.md")
        self.stub(top, b'grep -q bad "%s" || { echo "examples: 5 passed, 0 failed"; exit; }\n[ -e "%s" ] || { touch "%s"; echo good >"%s"; exec "$0"; }\n'
                       b'echo "examples: 0 passed, 1 failed"; exit 1\n' % tuple(it.encode() for it in (page, self.at("once"), self.at("once"), page)))
        put(page, b"bad\n")
        self.call(top, "test", "examples", status=0)
        put(page, b"bad\n")
        self.call(top, "test", "examples", status=1)

    def test_nobody_else_is_waited_for(self):
        """The examples leave a process that has their output open."""
        top = self.clone("test")
        self.stub(top, b'sleep 1000 & echo $! >"%s"; echo "examples: 5 passed, 0 failed"\n' % self.at("pid").encode())
        self.call(top, "test", "examples", status=0)
        os.kill(int(text_of(self.at("pid"))), signal.SIGKILL)

    def test_what_is_made_while_it_ends(self):
        """A thread may still make a folder after the first removal."""
        top = self.clone("test")
        shutil.copy(os.path.join(TOP, ".ci/examples"), os.path.join(top, ".ci"))
        put(os.path.join(top, "docs/PAGE.md"), b'# A page\n\n    $ touch "%s"; sleep 1000\n' % self.at("begun").encode())
        os.mkdir(self.at("site"))
        put(self.at("site/sitecustomize.py"), b"""import os, shutil
old, done = shutil.rmtree, []
def rmtree(path, *words, **how):
    old(path, *words, **how)
    if os.path.basename(path).startswith(("tests-", "examples-")) and not done:
        done.append(os.makedirs(path + "/late"))
shutil.rmtree = rmtree
""")
        for script, word in (("examples", "PAGE"), ("test", "examples")):
            if script == "test":
                self.stub(top, b'touch "%s"; sleep 1000\n' % self.at("begun").encode())
            child = subprocess.Popen([sys.executable, os.path.join(top, ".ci", script), word], stdout=subprocess.DEVNULL, stderr=subprocess.DEVNULL, cwd=self.folder,
                                     env={**os.environ, "TMPDIR": self.at("tmp"), "XDG_CACHE_HOME": self.at("cache"), "PYTHONPATH": self.at("site")})
            self.assertTrue(wait_until(lambda: os.path.exists(self.at("begun"))))
            child.terminate()
            self.assertEqual(child.wait(300), 128 + signal.SIGTERM)
            self.assertEqual(os.listdir(self.at("tmp")), [], script)
            os.unlink(self.at("begun"))

    def test_without_the_toolchain(self):
        """The program's stored output and the examples are tried, and what is left out is named."""
        top = self.clone("test")
        self.stub(top, b'echo "examples: 5 passed, 0 failed"\n')
        os.makedirs(os.path.join(top, "crates/cases/src"))
        put(os.path.join(top, "crates/cases/src/lib.rt"), b"#[test]\nfn a() {}\n")
        put(os.path.join(top, "crates.txt"), b"beebtube:\ncases: beebtube\n")
        put(os.path.join(top, "crates/beebtube/args"), b"gen\n1\n")
        put(os.path.join(top, "crates/beebtube/stdout"), b"seed 1\nbytes 4096\nsum 5D40\nticks 1000000\n")
        with open(os.path.join(top, "release/sources"), "wb") as file:
            subprocess.run([os.path.join(top, ".ci/sources")], stdout=file, check=True)
        path = ":".join(part for part in os.environ["PATH"].split(":") if not os.path.exists(os.path.join(part, "rt")))
        done = self.call(top, "test", status=0, PATH=path)
        self.assertIn("left out, since rt is not on the PATH: cases\n", done.out)
        self.assertTrue(done.out.endswith("\n6 passed, 0 failed\n"), done.out)
        put(os.path.join(top, "crates/beebtube/stdout"), b"seed 2\n")
        self.assertTrue(self.call(top, "test", status=1, PATH=path).out.endswith("\n5 passed, 1 failed\n"))
        self.assertIn("the toolchain is needed", self.call(top, "test", "cases", status=1, PATH=path).err)


    def test_times(self):
        """The table is made from both files, into which a run's log goes unchanged. A crate without a
        proof in the log keeps its row and its run. A change of a crate costs what it and the crates
        above it take."""
        top = self.clone("times")
        page, rows, runs = (os.path.join(top, it) for it in (
            "docs/GATE.md", "bench/gate.csv", "bench/gate_runs.csv"))
        os.mkdir(os.path.dirname(rows))
        put(rows, b"crate,proof,tests,edits,run\nlower,130,,,old\nbeebtube,10,,,old\n")
        put(os.path.join(top, "bench/wrong.edits"), b"lower a\nfile: src/lib.rt\n\nlower b\nfile: src/lib.rt\n")
        put(runs, b"run,minutes,processors,processor,note\nold,,,,not recorded\n")
        put(os.path.join(top, "crates.txt"), b"lower:\nbeebtube: lower\n")
        put(page, b"# The gate\n\n<!-- made by .ci/times from bench/gate.csv -->\n<!-- end of the table -->\n\nMore.\n")
        self.assertIn("docs/GATE.md", self.call(top, "times", "check", status=1).err)
        self.call(top, "times", "make", status=0)
        self.call(top, "times", "check", status=0)
        self.assertIn("| lower | 0 | 0 | 130 | none | none | 2 |\n| beebtube | 0 | 0 | 10 | none | none | 1 |\n", text_of(page).decode())
        self.assertIn("The rows are of the run of old: not recorded.\n", text_of(page).decode())
        before = text_of(rows), text_of(runs), text_of(page)
        put(self.at("log"), b"time: beebtube proof 21.2\n")
        self.assertIn("begun", self.call(top, "times", "--write", "log", status=1).err)
        self.assertEqual((text_of(rows), text_of(runs), text_of(page)), before)
        log = (b"time: begun 2026-12-02 10:00 on 4 processors, A, B\ntime: beebtube proof 21.2\nno time\n"
               b"time: lower edits 3\ntime: beebtube proof 1\ntime: ended after 7 minutes\n")
        put(self.at("log"), log)
        self.assertIn("lower", self.call(top, "times", "--write", "log", status=0).err)
        self.assertEqual(text_of(rows), b"crate,proof,tests,edits,run\nlower,130,,,old\nbeebtube,22.2,,,2026-12-02 10:00\n")
        self.assertEqual(text_of(runs).decode().splitlines()[1:], ["old,,,,not recorded", '2026-12-02 10:00,7,4,"A, B",'])
        self.assertIn("| lower | 0 | 0 | 130 | none | none | 3 |\n| beebtube | 0 | 0 | 22 | none | none | 1 |\n", text_of(page).decode())
        self.assertIn("is lower and beebtube, 152 seconds.", " ".join(text_of(page).decode().split()))
        self.assertIn("There are 2 crates and 0 test functions; `bench/wrong.edits` has 2 more edits.", " ".join(text_of(page).decode().split()))
        shown = " ".join(text_of(page).decode().split())
        self.assertIn("Those of beebtube are of the run of 2026-12-02 10:00 (UTC) on 4 processors (A, B), which took 7 minutes.", shown)
        self.assertTrue(text_of(page).endswith(b"<!-- end of the table -->\n\nMore.\n"))
        # A run that proves everything replaces all rows, and the runs that no row is of.
        put(self.at("log"), log.replace(b"no time", b"time: lower proof 31"))
        self.call(top, "times", "--write", "log", status=0)
        self.assertEqual(text_of(rows), b"crate,proof,tests,edits,run\nlower,31,,3,2026-12-02 10:00\nbeebtube,22.2,,,2026-12-02 10:00\n")
        self.assertEqual(text_of(runs).count(b"\n"), 2)

    def test_measurements_find_the_program(self):
        """The scripts of bench/ run the program that the launcher runs, also if nothing was built here."""
        script = os.path.join(TOP, "bench/common.sh")
        done = call(["bash", "-c", '. "$0" && echo "program $program"', script], self.folder)
        shown = call([os.path.join(TOP, "beebtube"), "--version"], self.folder)
        self.assertEqual((done.status, done.err), (0, ""))
        self.assertIn(done.out, shown.out)
        self.assertTrue(os.access(done.out[8:-1], os.X_OK), done.out)

    def test_times_beside(self):
        """A run's log says when and where it began, and how long it took."""
        top = self.clone("times")
        child = subprocess.Popen(["sleep", "1000"])
        beside = subprocess.Popen([os.path.join(top, ".ci/times"), "--beside", str(child.pid)], stdout=subprocess.PIPE, text=True)
        self.assertRegex(beside.stdout.readline(), r"^time: begun \d{4}-\d\d-\d\d \d\d:\d\d on \d+ processors, .+\n$")
        child.kill()
        child.wait()
        self.assertEqual(beside.communicate()[0], "time: ended after 0 minutes\n")
        self.assertEqual(beside.returncode, 0)


# A program that writes an empty binary, or a report; and a valgrind that counts 1,000 instructions
# for the start of a program and three more for each tick.
COUNTED = b"""#!/bin/sh
case $1 in
asm) : >"$4" ;;
*) echo 'tube 10' >out.report ;;
esac
"""
VALGRIND = b"""#!/bin/sh
[ "$1" != --version ] || exec echo valgrind-0
for it; do case $it in --*) ;; [0-9]*) ticks=${ticks:-$it} ;; esac; done
while [ "${1#--}" != "$1" ]; do shift; done
"$@" || exit
echo "==1== I   refs:      $((1000 + 3 * ticks))" >&2
echo "==1== Branches:      9,000  (8,000 cond + $((ticks / 100)) ind)" >&2
"""


@unittest.skipUnless(os.path.exists(os.path.join(TOP, "bench", "speed.py")), "this is an archive")
class Speed(Case):
    """bench/speed.py, with a program and a valgrind that only pretend."""

    def setUp(self):
        super().setUp()
        for name in ("bench", "docs", "release", "bin"):
            os.mkdir(self.at(name))
        shutil.copy(os.path.join(TOP, "bench/speed.py"), self.at("bench"))
        for name, data in (("release/beebtube", COUNTED), ("bin/valgrind", VALGRIND)):
            put(self.at(name), data)
            os.chmod(self.at(name), 0o755)
        put(self.at("VERSION"), b"1.10.0\n")
        put(self.at("README.md"), b"# It\n\n## Speed\n\nOld.\n\n## More\n\nMore.\n")
        put(self.at("release/sources"), b"feed  -\n")
        put(self.at("docs/SPEED.md"), b"Old.\n")
        put(self.at("bench/history.csv"), b"version,date,program\n1.9.0,2026-01-01,cafe\n1.10.0,2026-01-02,dead\n")
        self.sum()

    def sum(self):
        put(self.at("release/sum"), hashlib.sha256(text_of(self.at("release/beebtube"))).hexdigest().encode() + b"\n")

    def speed(self, *words, status, **env):
        env = {"BEEBTUBE_RELEASE": "", "PATH": self.at("bin") + ":" + os.environ["PATH"], **env}
        done = call([self.at("bench/speed.py"), *words], self.folder, env=env)
        self.assertEqual(done.status, status, done.out + done.err)
        return done

    def test_one_command_writes_all(self):
        self.speed("--write", status=0)
        page, readme = (text_of(self.at(name)).decode() for name in ("docs/SPEED.md", "README.md"))
        self.assertIn(text_of(self.at("release/sum")).decode().strip(), page)
        # 3 instructions a tick are 6 a bus cycle of 2 ticks, 9 of 3 ticks; the start is not counted.
        self.assertIn("| the second processor at 3 MHz, a busy program | 6.0 | 0.02 |\n", page)
        self.assertIn("| the host, a busy program | 9.0 | 0.03 |\n", page)
        self.assertIn("| `demo` | the demonstration: bytes through the Tube | 10 | 9,001,000 | 900100 |\n", page)
        self.assertTrue(readme.startswith("# It\n\n## Speed\n\nA second of machine time takes"), readme)
        self.assertTrue(readme.endswith("\n\n## More\n\nMore.\n"), readme)
        rows = text_of(self.at("bench/history.csv")).decode().splitlines()
        self.assertEqual([it.split(",")[0] for it in rows], ["version", "1.9.0", "1.10.0"])
        self.assertIn("cafe", rows[1])
        self.assertNotIn("dead", rows[2])
        self.speed("check", status=0)
        before = self.pages()
        self.speed("make", status=0)
        self.assertEqual(self.pages(), before)
        # What is not made from the numbers, or of another program, is reported.
        put(self.at("README.md"), readme.replace("A second", "A minute").encode())
        self.assertIn("README.md is not made from bench/speed.csv", self.speed("check", status=1).err)
        self.speed("make", status=0)
        put(self.at("release/beebtube"), COUNTED + b"#\n")
        self.assertIn("checksum of release/sum", self.speed("--write", status=1).err)
        self.assertEqual(self.pages(), before)
        self.sum()
        self.assertIn("bench/speed.csv is of another program than release/sum: bench/speed.py --write", self.speed("check", status=1).err)
        put(self.at("release/sources"), b"beef  -\n")
        self.assertIn("bench/speed.csv is of other sources than release/sources", self.speed("check", status=1).err)

    def test_the_release_of_another_folder(self):
        """A copy whose release/ has a program of edited sources is compared with the shipped one."""
        self.speed("--write", status=0)
        shutil.copytree(self.at("release"), self.at("shipped"))
        put(self.at("release/sum"), b"dead\n")
        self.speed("check", status=1)
        self.speed("check", status=0, BEEBTUBE_RELEASE=self.at("shipped"))

    def pages(self):
        return {name: text_of(self.at(name)) for name in ("README.md", "docs/SPEED.md", "bench/speed.csv", "bench/history.csv")}

    def test_a_run_above_the_limit(self):
        """Such a run is ended and has no time; one that another ends is a fault."""
        from unittest import mock

        spec = importlib.util.spec_from_file_location("speed", self.at("bench/speed.py"))
        speed = importlib.util.module_from_spec(spec)
        with mock.patch.dict(os.environ, PATH=self.at("bin") + ":" + os.environ["PATH"]):
            spec.loader.exec_module(speed)
            for end, limit in ((b"exec sleep 1000", 0.3), (b"kill -9 $$", 1000)):
                put(self.at("release/beebtube"), COUNTED.replace(b"echo 'tube 10' >out.report", end))
                speed.LIMIT = limit
                program = speed.Program(self.at("release/beebtube"), self.folder)
                if limit < 1:
                    self.assertEqual(program.time("run {} out", 1), (float("inf"), float("inf")))
                    self.assertEqual(speed.seconds(float("inf")), "not ended")
                else:
                    self.assertRaises(SystemExit, program.time, "run {} out", 1)

    def test_a_run_that_fails(self):
        put(self.at("release/beebtube"), COUNTED.replace(b"echo 'tube 10' >out.report", b"exit 7"))
        self.sum()
        self.assertIn("status 7 of", self.speed("--write", status=1).err)
        self.assertFalse(os.path.exists(self.at("bench/speed.csv")))
        self.assertEqual(text_of(self.at("docs/SPEED.md")), b"Old.\n")


class WrongEdits(unittest.TestCase):
    def test_each_applies(self):
        """The files of the crates have each text that an edit of bench/wrong.edits replaces."""
        for edit in text_of(os.path.join(TOP, "bench", "wrong.edits")).decode().split("\n\n")[1:]:
            head, *lines = edit.splitlines()
            for line in lines:
                key, _, text = line.partition(": ")
                if key == "file":
                    code = text_of(os.path.join(TOP, "crates", head.split()[0], text)).decode()
                elif key == "old":
                    self.assertIn(text, code, head)


if __name__ == "__main__":
    unittest.main()
