"""Files and folders of a tool's own: what is left of them where it is ended, and what is never waited for or followed."""
import os
import subprocess
import sys

from common import TOP, Case, beebtube, call, put, signal, text_of, unittest
from beebtube import files


class Ended(Case):
    # Calls a tool that gets a signal where a function of a module is called with such a prefix.
    def ended(self, module, function, words, more="", number="SIGTERM"):
        os.makedirs(self.at("site"), exist_ok=True)
        os.makedirs(self.at("own"), exist_ok=True)
        put(self.at("site/sitecustomize.py"), ("import os, signal, %s as module\nold, done = module.%s, []\ndef it(*words, **how):\n    found = old(*words, **how)\n"
            "    if not done%s:\n        done.append(1)\n        os.kill(os.getpid(), signal.%s)\n    return found\nmodule.%s = it\n" % (module, function, more, number, function)).encode())
        done = call([os.path.join(TOP, "tools", words[0]), *words[1:]], self.folder, env={"PYTHONPATH": self.at("site"), "TMPDIR": self.at("own")})
        self.assertEqual(done.status, 128 + getattr(signal, number), done.err)
        self.assertEqual(os.listdir(self.at("own")), [])
        self.assertEqual([name for name in os.listdir(self.folder) if name.startswith(".")], [])

    def test_nothing_is_left(self):
        self.pair()
        put(self.at("k"), b"at 0 shot\n")
        self.launcher("solo", "9", "f", "--os", "os", "--tube", "tube", "--keys", "k")
        for number in ("SIGTERM", "SIGHUP", "SIGINT"):
            self.ended("tempfile", "mkstemp", ["png", "f.000.ppm", "f.png"], " and how.get('prefix') == '.beebtube-'", number)
            self.ended("tempfile", "mkdtemp", ["manifest", "solo", "9", "o", "--os", "os", "--tube", "tube"], "", number)
            self.ended("os", "unlink", ["manifest", "solo", "9", "o", "--os", "os", "--tube", "tube"], " and (how.get('dir_fd') is not None or 'beebtube-' in str(words[0]))", number)

    def test_two_signals(self):
        """The second signal does not end what the first one began."""
        self.ended("os", "unlink", ["manifest", "gen", "1"], " and (how.get('dir_fd') is not None or 'beebtube-' in str(words[0])) and not os.kill(os.getpid(), signal.SIGTERM)", "SIGTERM")

    def test_a_signal_as_a_tool_begins_and_ends(self):
        """Python itself prints a traceback there."""
        script = """import os, signal, sys
from beebtube import command
def send(*words):
    setattr(*place, old)
    os.kill(os.getpid(), getattr(signal, sys.argv[2]))
    return old(*words)
place = {"begins": (command, "_hold_streams"), "ends": (signal, "getsignal")}[sys.argv[1]]
old = getattr(*place)
def tool(words):
    if sys.argv[1] == "ends":
        setattr(*place, send)
if sys.argv[1] == "begins":
    setattr(*place, send)
command.main(tool, "Help.", [])
"""
        for moment in ("begins", "ends"):
            for number in ("SIGTERM", "SIGHUP", "SIGINT"):
                done = call([sys.executable, "-c", script, moment, number], self.folder, env={"PYTHONPATH": os.path.join(TOP, "tools")})
                self.assertEqual((moment, done.status, done.err), (moment, 128 + getattr(signal, number), ""))


class Opened(Case):
    def test_pipes_and_devices(self):
        os.mkfifo(self.at("fifo"))
        put(self.at("file"), b"bytes")
        self.assertEqual(files.read_file(self.at("fifo")), b"")
        self.assertEqual(files.read_file(os.devnull), b"")
        self.assertEqual(files.read_file(self.at("file"), plain=True), b"bytes")
        for name in ("fifo", os.devnull, "."):
            with self.assertRaisesRegex(beebtube.Fault, "is no plain file"):
                files.read_file(os.path.join(self.folder, name), plain=True)
        # What a pipe gets later is read.
        script = "import sys; from beebtube.files import read_file; print(read_file(sys.argv[1]))"
        done = subprocess.run(["bash", "-c", 'python3 -c "$0" <(sleep 0.1; echo late)', script], env={**os.environ, "PYTHONPATH": os.path.join(TOP, "tools")}, stdout=subprocess.PIPE)
        self.assertEqual(done.stdout, b"b'late\\n'\n")

    @unittest.skipIf(os.getuid() != 0 or not os.path.exists("/proc/kmsg"), "only root may read /proc/kmsg")
    def test_a_file_that_has_no_bytes_yet(self):
        with self.assertRaisesRegex(beebtube.Fault, "cannot read /proc/kmsg"):
            for _ in files.blocks_of("/proc/kmsg"):
                pass

    def test_links_of_others_in_a_folder_of_all(self):
        """As the kernel's protection has it, whether it is on or not."""
        os.mkdir(self.at("all"))
        os.chmod(self.at("all"), 0o1777)
        put(self.at("own"), b"own")
        os.symlink(self.at("own"), self.at("all/link"))
        files.write_beside(self.at("all/link"), b"one")
        self.assertEqual(text_of(self.at("own")), b"one")
        if os.getuid() == 0:
            os.lchown(self.at("all/link"), 65534, 65534)
            with self.assertRaisesRegex(beebtube.Fault, "a link of another user|Permission denied"):
                files.write_beside(self.at("all/link"), b"two")
            self.assertEqual(text_of(self.at("own")), b"one")


if __name__ == "__main__":
    unittest.main()
