"""The plugin for pytest, in a project of a few tests."""
import os
import re
import shutil
import subprocess

from common import EXAMPLES, TOP, Case, beebtube, put, text_of, unittest


def python_with_pytest():
    """A Python that has pytest, or None."""
    for python in ("python3", "/usr/bin/python3"):
        if shutil.which(python) and subprocess.run([python, "-c", "import pytest, sys; sys.exit(pytest.version_tuple < (7,))"],
                                                   stdout=subprocess.DEVNULL, stderr=subprocess.DEVNULL).returncode == 0:
            return python
    return None


PYTHON = python_with_pytest()
TESTS = """
import beebtube

EXAMPLES = %r


def test_picture(beeb, golden):
    os = beeb.asm("6502", EXAMPLES + "/screen-os.asm")
    run = beeb.host(6_000_000, os=os, keys=beebtube.typed("%%s", start=0.1, shot=True))
    golden(run.frames[0], "bars")


def test_cycles(beeb, cycles):
    image = beeb.asm("6502", beebtube.Source("org &0900\\nLDA #1\\n%%sRTS\\n"))
    cycles("one", beeb.call(image, at=0x0900).cycles)
    cycles("two", 100 + %%d, within=0.05)


def test_screen(beeb, screen):
    done = beeb.execute(EXAMPLES + "/c/built/sieve")
    assert done.out == b"1028 primes\\n"
    assert not screen.has(done, "%%s")
""" % EXAMPLES
SAME, OTHER = ("2", "", 2, "no such text"), ("1", "NOP\\n", 9, "")


@unittest.skipUnless(PYTHON, "there is no pytest 7")
class Plugin(Case):
    def pytest(self, text, *words):
        put(self.at("test_it.py"), text.encode())
        return self.called(self.folder, *words, "test_it.py")

    def called(self, folder, *words):
        done = subprocess.run([PYTHON, "-m", "pytest", "-p", "beebtube.plugin", "-p", "no:cacheprovider", "-p", "no:xdist", *words],
                              cwd=folder, env={**os.environ, "PYTHONPATH": os.path.join(TOP, "tools"), "PYTHONDONTWRITEBYTECODE": "1", "COLUMNS": "200"},
                              stdout=subprocess.PIPE, stderr=subprocess.STDOUT, timeout=300)
        return done.returncode, done.stdout.decode()

    def test_golden_pictures_and_cycles(self):
        status, said = self.pytest(TESTS % SAME)
        self.assertEqual(status, 1, said)
        self.assertIn("bars.png: --update-golden writes it", said)
        self.assertIn("has no one: --update-golden writes 8", said)
        self.assertEqual(self.pytest(TESTS % SAME, "--update-golden")[0], 0)
        self.assertEqual(text_of(self.at("cycles.json")), b'{\n "one": 8,\n "two": 102\n}\n')
        shutil.rmtree(self.at("beebtube-failed"))
        status, said = self.pytest(TESTS % SAME)
        self.assertEqual((status, os.path.exists(self.at("beebtube-failed"))), (0, False), said)
        status, said = self.pytest(TESTS % OTHER)
        self.assertEqual(status, 1, said)
        self.assertRegex(said, r"bars: [0-9,]+ pixels differ, from x [0-9]+ to [0-9]+ and y [0-9]+ to [0-9]+; ")
        self.assertIn("one: 10 cycles, and 8 are stored (+2)", said)
        left = self.at("beebtube-failed/test_it.py_test_picture")
        self.assertIn(left + " has what the test ran", said)
        self.assertEqual(sorted(os.listdir(left)), ["bars.difference.png", "bars.golden.png", "bars.png", "run0"])
        self.assertTrue({"out.report", "out.html", "last.png"} <= set(os.listdir(os.path.join(left, "run0"))))
        self.assertEqual(text_of(os.path.join(left, "bars.golden.png")), text_of(self.at("golden/bars.png")))
        left = self.at("beebtube-failed/test_it.py_test_screen")
        self.assertEqual(sorted(os.listdir(left + "/run0")), ["err", "out", "session", "text"])

    def test_what_other_failures_leave(self):
        text = """
import beebtube, pytest

PAIR = {"os": %r + "/letters-os.asm", "tube": %r + "/letters-tube.asm"}
PAIR = {name: beebtube.asm(part, PAIR[name]) for name, part in (("os", "6502"), ("tube", "65c02"))}


@pytest.fixture
def started(beeb):
    run = beeb.run(2000, **PAIR)
    raise RuntimeError(run)


def test_setup(started):
    pass


def test_run(beeb):
    session = beeb.run(2000, **PAIR).session
    beeb.resume(session, 3000)
    assert False


@pytest.mark.parametrize("word", ["a/b", "a_b", "x" * 300])
def test_words(beeb, word):
    beeb.run(9, **PAIR)
    assert False


def test_folder(golden):
    golden(beebtube.Frame.of_colours(bytes([%%d]) * (640 * 256)), "folder/black")
""" % (EXAMPLES, EXAMPLES)
        status, said = self.pytest(text % 0, "--update-golden", "-k", "folder")
        self.assertEqual((status, os.listdir(self.at("golden/folder"))), (0, ["black.png"]), said)
        status, said = self.pytest(text % 1)
        self.assertIn("1 error", said)
        for test, runs in (("test_setup", ["run0"]), ("test_run", ["run0", "run1"])):
            left = self.at("beebtube-failed/test_it.py_" + test)
            self.assertIn(left + " has what the test ran", said)
            self.assertEqual(sorted(os.listdir(left)), runs)
        # Each test has a folder of its own.
        folders = re.findall("(/.*test_words.*) has what the test ran", said)
        self.assertEqual(len(set(folders)), 3, said)
        self.assertTrue(all(map(os.path.isdir, folders)), said)
        # The session is that of the run's end.
        with beebtube.Past.of_session(beebtube.Program(), left + "/run1/session") as past:
            self.assertEqual(past.end, 3000)
        left = self.at("beebtube-failed/test_it.py_test_folder/folder")
        pictures = ["black.difference.png", "black.golden.png", "black.png"]
        self.assertEqual(sorted(os.listdir(left)), pictures)

    @unittest.skipUnless(shutil.which("cc65"), "cc65 is not there")
    def test_the_project_of_the_examples(self):
        shutil.copytree(os.path.join(EXAMPLES, "project"), self.at("project"), ignore=shutil.ignore_patterns("__pycache__"))
        self.assertEqual(text_of(self.at("project/src/font.asm")), text_of(os.path.join(EXAMPLES, "font.asm")))
        status, said = self.called(self.at("project"), "tests")
        self.assertEqual(status, 0, said)
        self.assertIn(" 13 passed in ", said)

    def test_frames_in_an_assertion(self):
        text = """
from beebtube import Frame

def test_it():
    one, other = bytes(640 * 256), bytearray(640 * 256)
    other[640 * 5 + 9] = 3
    assert Frame.of_colours(one) == Frame.of_colours(bytes(other))
"""
        status, said = self.pytest(text)
        self.assertEqual(status, 1)
        self.assertTrue(re.search("1 pixels? differs?, from x 9 to 9 and y 5 to 5", said), said)


if __name__ == "__main__":
    unittest.main()
