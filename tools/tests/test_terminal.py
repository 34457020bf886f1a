"""The debugger as a person uses it: in a terminal, which this test is the other side of."""
import importlib.util
import os
import pty
import re
import select
import sys
import time

from common import TOP, Case, put, signal, unittest

LIMIT = 300
DEBUG = os.path.join(TOP, "tools", "debug")
WORDS = ["solo", "2000", "x", "--os", "os", "--tube", "tube"]


class Terminal(Case):
    """A debugger in a pseudo-terminal."""

    def starts(self, words):
        self.pair()
        self.said, self.status = b"", None
        if importlib.util.find_spec("readline") is None:
            self.skipTest("this python has no readline: there are no histories")
        try:
            self.pid, self.master = pty.fork()
        except OSError as error:
            self.skipTest("there is no terminal to be had: %s" % error)
        if self.pid == 0:
            os.chdir(self.folder)
            os.environ["TERM"], os.environ["INPUTRC"], os.environ["HOME"] = "xterm", "/dev/null", self.folder
            try:
                os.execvp(words[0], words)
            finally:
                os._exit(99)
        self.addCleanup(self.end)

    def end(self):
        if self.status is None:
            os.kill(self.pid, signal.SIGKILL)
            os.waitpid(self.pid, 0)
        os.close(self.master)

    def read(self, seconds):
        if not select.select([self.master], [], [], seconds)[0]:
            return False
        try:
            block = os.read(self.master, 65536)
        except OSError:
            return False
        self.said += block
        return bool(block)

    def wait(self, prompt):
        """What was said until this prompt, without what moves the cursor."""
        until = time.time() + LIMIT
        while not self.plain().endswith(prompt):
            self.assertLess(time.time(), until, "%r, and not %r" % (self.plain()[-500:], prompt))
            self.read(1)
        text, self.said = self.plain(), b""
        return text

    def plain(self):
        text = self.said.decode("utf-8", "replace")
        return re.sub(r"\x1b\[[?0-9;]*[A-Za-z]", "", text).replace("\r\n", "\n")

    def types(self, keys, prompt):
        os.write(self.master, keys.encode())
        return self.wait(prompt)

    def leaves(self, keys):
        """Types, and waits for the end. Gives the status."""
        os.write(self.master, keys.encode())
        until = time.time() + LIMIT
        while self.read(1) or time.time() < until:
            pid, status = os.waitpid(self.pid, os.WNOHANG)
            if pid:
                self.status = os.waitstatus_to_exitcode(status)
                return self.status
        self.fail("it did not end")
        return None


class Sessions(Terminal):
    def setUp(self):
        super().setUp()
        self.starts([DEBUG, *WORDS])
        self.wait("host 2000> ")

    def test_a_session(self):
        """Words and their short forms, an empty line, the history, completion, help, wrong words, and the end."""
        self.assertIn("go 1503", self.types("go 1503\r", "host 1503> "))
        told = self.types("step 2\r", "host 1521> ")
        self.assertRegex(told, r"1521 host C[0-9A-F]{3} A=")
        # An empty line does the same once more.
        self.types("\r", "host 1539> ")
        # The arrow fetches the line before; twice, the one before that.
        self.assertIn("step 2", self.types("\x1b[A\r", "host 1557> "))
        self.types("back 3\r", "host 1530> ")
        self.assertIn("step 2", self.types("\x1b[A\x1b[A\r", "host 1548> "))
        # A line is edited: its begin, and a letter that is taken back.
        self.types("o 1503\x01g\r", "host 1503> ")
        self.types("go 15030\x7f\r", "host 1503> ")
        # A tabulator completes a word.
        self.assertIn("memory", self.types("mem\t70 2\r", "host 1503> "))
        self.assertIn("0070  48", self.types("m 70 2\r", "host 1503> "))
        # Short words.
        self.types("s\r", "host 1512> ")
        self.types("b\r", "host 1503> ")
        self.types("p\r", "para 1503> ")
        self.types("ho\r", "host 1503> ")
        self.assertIn("N instructions on", self.types("h step\r", "host 1503> "))
        self.assertIn("takes 49 'I'", self.types("w\r", "host 1503> "))
        # What is wrong ends nothing, and neither does what a person breaks off.
        self.assertIn("no such command", self.types("bogus\r", "host 1503> "))
        self.assertIn("a number from 1", self.types("step x\r", "host 1503> "))
        self.types("half a line\x03", "host 1503> ")
        self.types("step\r", "host 1512> ")
        self.assertEqual(self.leaves("quit\r"), 0)

    def test_an_empty_line_at_first_does_nothing(self):
        self.types("\r", "host 2000> ")
        self.types("b\r", "host 1998> ")

    def test_the_end_of_input(self):
        self.assertEqual(self.leaves("\x04"), 0)

    def test_other_words_of_a_terminal(self):
        """A file of another kind is not overwritten from here either, and a picture is."""
        put(self.at("mine"), b"mine")
        self.assertIn("is no picture", self.types("frame mine\r", "host 2000> "))
        self.types("frame new.png; go 7\r", "host 7> ")
        self.assertEqual(self.names()["new.png"][:4], b"\x89PNG")
        self.assertEqual(self.leaves("q\r"), 0)


class Interrupts(Terminal):
    @unittest.skipUnless(importlib.util.find_spec("ctypes"), "this python has no ctypes")
    def test_just_before_the_wait_for_keys(self):
        """Python's readline calls a hook between the prompt and its wait: here a C function sends the signal."""
        code = ("import ctypes, functools, readline, runpy, sys; sys.argv = sys.argv[1:];"
                "interrupts = map(getattr(ctypes.CDLL(None), 'raise'), [2]);"
                "readline.set_startup_hook(functools.partial(next, interrupts, None));"
                "runpy.run_path(sys.argv[0], run_name='__main__')")
        self.starts([sys.executable, "-c", code, DEBUG, *WORDS])
        self.wait("host 2000> \nhost 2000> ")
        self.assertEqual(self.leaves("quit\r"), 0)


if __name__ == "__main__":
    unittest.main()
