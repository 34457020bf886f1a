"""How each tool starts: under Python's own variables, with Ctrl-C while it loads, and with a Python that is too old."""
import os
import signal
import subprocess
import sys

from common import TOOLS, TOP, Case, call, text_of, unittest

# All tools have the same head, so two of them are tried.
TRIED = ("execute", "tube")
HEAD = b"""
sys.path.insert(0, os.path.dirname(os.path.realpath(__file__)))
import start  # noqa: E402,F401
"""

# Runs a tool as a script, after some statements.
RUNS = "import os, signal, sys\nsys.argv = sys.argv[1:]\n%s\nimport runpy\nrunpy.run_path(sys.argv[0], run_name='__main__')\n"
# Presses Ctrl-C as the tool imports the package.
PRESSES = """
class Finder:
    def find_spec(self, name, path=None, target=None):
        if name == "beebtube":
            os.kill(os.getpid(), signal.SIGINT)
sys.meta_path.insert(0, Finder())
"""


class Starts(Case):
    def started(self, name, before, *words):
        tool = os.path.join(TOP, "tools", name)
        done = subprocess.run([sys.executable, "-c", RUNS % before, tool] + list(words), cwd=self.folder, stdin=subprocess.DEVNULL,
                              stdout=subprocess.PIPE, stderr=subprocess.PIPE, timeout=300)
        return done.returncode, done.stdout.decode(), done.stderr.decode()

    def test_a_signal_while_python_ends(self):
        for number in (signal.SIGINT, signal.SIGTERM, signal.SIGHUP):
            ends = "import atexit; atexit.register(os.kill, os.getpid(), %d)" % number
            status, out, err = self.started("tube", ends, "--help")
            self.assertEqual((status, err, out.splitlines()[0]), (-number, "", "Explains a Tube trace."))

    def test_all_tools_have_the_head(self):
        for name in TOOLS:
            text = text_of(os.path.join(TOP, "tools", name))
            self.assertEqual(text.count(HEAD), 1, name)
            self.assertNotIn(b"import beebtube", text[: text.index(HEAD)])
            self.assertNotIn(b"from beebtube", text[: text.index(HEAD)])

    def test_under_variables_of_python(self):
        for name in TRIED:
            wanted = self.tool(name, "--help").out
            self.assertGreater(len(wanted), 100)
            for variable, value in (("PYTHONSAFEPATH", "1"), ("PYTHONOPTIMIZE", "2")):
                done = call([sys.executable, os.path.join(TOP, "tools", name), "--help"], self.folder, env={variable: value})
                self.assertEqual((done.status, done.out, done.err), (0, wanted, ""), (name, variable))

    def test_wrong_words_under_optimisation(self):
        done = call([sys.executable, os.path.join(TOP, "tools", "words"), "--none"], self.folder, env={"PYTHONOPTIMIZE": "2"})
        self.assertEqual(done.status, 2)
        self.assertIn("tools/words", done.err)

    def test_interrupted_while_it_loads(self):
        for name in TRIED:
            self.assertEqual(self.started(name, PRESSES, "--help"), (-signal.SIGINT, "", ""), name)

    def test_an_interrupt_that_is_ignored_stays_ignored(self):
        status, out, err = self.started("words", "signal.signal(signal.SIGINT, signal.SIG_IGN)\n" + PRESSES, "--help")
        self.assertEqual((status, err), (0, ""))

    def test_an_older_python_is_reported(self):
        for name in TRIED:
            status, out, err = self.started(name, "sys.version_info = (3, 8, 18, 'final', 0)", "--help")
            self.assertEqual((status, out, err), (125 if name == "execute" else 1, "",
                                                  "%s: Python 3.9 or later is needed, and this is 3.8\n" % name))


if __name__ == "__main__":
    unittest.main()
