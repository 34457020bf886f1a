"""What is made of the program's output and compared with it: pictures, and the pages' own."""
import os
import re
import shutil
import struct
import zlib

from common import TOP, Case, beebtube, call, put, text_of, unittest

from beebtube.faults import Fault
from beebtube.frame import lines_in

HEADER = b"P6\n640 256\n255\n"


def parts_of(picture):
    place, found = 8, []
    while place < len(picture):
        size, kind = struct.unpack(">I4s", picture[place : place + 8])
        found.append((kind, picture[place + 8 : place + 8 + size]))
        place += 12 + size
    return found


def whole(parts):
    return b"\x89PNG\r\n\x1a\n" + b"".join(struct.pack(">I", len(data)) + kind + data + struct.pack(">I", zlib.crc32(kind + data)) for kind, data in parts)


class Compared(Case):
    def setUp(self):
        super().setUp()
        frame = beebtube.Frame(HEADER + b"\xff\0\0" * (640 * 256))
        self.picture = frame.png()
        self.parts = parts_of(self.picture)
        put(self.at("o.ppm"), frame.pixmap)

    def test_the_same(self):
        self.assertEqual(whole(self.parts), self.picture)
        self.assertEqual(len(lines_in(self.picture)), 1)
        self.assertEqual(lines_in(whole(self.parts[:1] + [(b"tEXt", b"x\0y")] + self.parts[1:])), lines_in(self.picture))

    def test_size_colours_sums_and_what_is_cut(self):
        def other(kind, change):
            return whole([(it, change(data) if it == kind else data) for it, data in self.parts])

        for picture, wanted in ((other(b"IHDR", lambda data: struct.pack(">I", 320) + data[4:]), "another size"), (other(b"PLTE", lambda data: b"\1" + data[1:]), "other colours"),
                                (other(b"PLTE", lambda data: data[:-3]), "other colours"), (self.picture[:-6] + b"x" + self.picture[-5:], "a part"),
                                (self.picture[:100] + bytes([self.picture[100] ^ 1]) + self.picture[101:], "another checksum"), (self.picture[:-1], "cut"), (self.picture[:60], "cut"),
                                (whole(self.parts[:-1]), "no picture that"), (whole(self.parts[1:]), "no picture that"), (whole([it for it in self.parts if it[0] != b"PLTE"]), "no picture that"),
                                (other(b"IDAT", lambda data: data[:-5]), "no picture that"), (b"GIF89a", "no picture")):
            with self.assertRaisesRegex(Fault, wanted):
                lines_in(picture)
        put(self.at("p.png"), other(b"PLTE", lambda data: b"\1" + data[1:]))
        self.assertIn("other colours", self.tool("png", "--compare", "p.png", "o.ppm", status=1).err)


class Scripts(Case):
    def clone(self):
        """The pages in a folder of their own, beside all else; their pictures may be changed."""
        for name in ("beebtube", "tools", "examples"):
            os.symlink(os.path.join(TOP, name), self.at(name))
        os.mkdir(self.at("docs"))
        for name in os.listdir(os.path.join(TOP, "docs")):
            if name.endswith((".png", ".sh")):
                shutil.copy(os.path.join(TOP, "docs", name), self.at("docs"))

    def docs(self):
        return {name: text_of(self.at("docs/" + name)) for name in os.listdir(self.at("docs"))}

    def test_what_differs_is_a_status(self):
        self.clone()
        shutil.copy(self.at("docs/mode2.png"), self.at("docs/mode5.png"))
        shutil.copy(self.at("docs/keys.png"), self.at("docs/scale.png"))
        before = self.docs()
        done = call([self.at("docs/pictures.sh"), "check"], self.folder)
        self.assertEqual(done.status, 1)
        self.assertEqual(re.findall(r"[a-z0-9]+\.png", done.err), ["mode5.png"], done.err)
        done = call([self.at("docs/waveform.sh"), "check"], self.folder)
        self.assertEqual((done.status, done.out), (1, "scale.png shows something else\n"))
        self.assertEqual(self.docs(), before)

    def test_help_changes_no_file(self):
        self.clone()
        before = self.docs()
        for script in ("docs/pictures.sh", "docs/waveform.sh", "examples/typing.sh"):
            done = call([self.at(script), "--help"], self.folder)
            self.assertEqual((done.status, done.err), (0, ""), script)
            self.assertTrue(done.out)
        for script in [".ci/run", ".ci/examples", ".ci/shipped"] + ["bench/" + it for it in os.listdir(os.path.join(TOP, "bench")) if it.endswith(".sh") and it != "common.sh"]:
            done = call([os.path.join(TOP, script), "--help"], self.folder)
            self.assertEqual((done.status, done.err), (0, ""), script)
            self.assertTrue(done.out, script)
        for script in ("docs/pictures.sh", "docs/waveform.sh"):
            self.assertEqual(call([self.at(script), "chekc"], self.folder).status, 2)
        for name in ("keys.py", "options.py"):
            done = call([os.path.join(TOP, "docs", name), "--help"], self.folder)
            self.assertIn("docs/" + name, done.out + done.err)
        for tool in sorted(os.listdir(os.path.join(TOP, "tools"))):
            if os.access(os.path.join(TOP, "tools", tool), os.X_OK) and os.path.isfile(os.path.join(TOP, "tools", tool)):
                self.assertIn("tools/" + tool, self.tool(tool, "--help").out)
        self.assertEqual(self.docs(), before)
        self.assertEqual(sorted(os.listdir(self.folder)), ["beebtube", "docs", "examples", "tools"])


class Temporary(Case):
    """Where there can be no folder for temporary files, nothing is done anywhere else."""

    def test_no_folder(self):
        os.mkdir(self.at("bin"))
        put(self.at("bin/chromium"), b"#!/bin/sh\nexit 0\n")
        os.chmod(self.at("bin/chromium"), 0o755)
        put(self.at("os"), b"own")
        env = {"TMPDIR": self.at("nowhere"), "PATH": self.at("bin") + ":" + os.environ["PATH"]}
        scripts = ["docs/browser.sh", "docs/pictures.sh", "docs/waveform.sh", "tools/tests/run", ".ci/examples"]
        for script in scripts + ["examples/c/suite/check"] * bool(shutil.which("cc65")):
            words = [] if script.startswith(("docs", "examples")) else ["test_nothing"]
            done = call([os.path.join(TOP, script)] + words, self.folder, env=env)
            self.assertEqual((script, done.status, sorted(os.listdir(self.folder)), text_of(self.at("os"))), (script, 1, ["bin", "os"], b"own"))


if __name__ == "__main__":
    unittest.main()
