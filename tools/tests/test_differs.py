"""Where two runs part: each kind of file, with a change of which the place is known."""
import os
import struct

from common import EXAMPLES, Case, beebtube, put, text_of, unittest

PIXMAP = b"P6\n640 256\n255\n" + b"\0" * (640 * 256 * 3)


_runs = {}


class Differs(Case):
    def runs(self):
        """`one` and `two`, the same run twice, with all files but the session."""
        if not _runs:
            self.pair()
            put(self.at("some.dsd"), beebtube.asm("6502", os.path.join(EXAMPLES, "disc.asm")))
            put(self.at("keys"), b"at 900 shot\n")
            self.launcher("solo", "2000", "one", "--os", "os", "--tube", "tube", "--disc0", "some.dsd", "--keys", "keys", "--wav", "one.wav", "--plugs", "2")
            _runs.update((name[4:], data) for name, data in self.names().items() if name.startswith("one."))
        for ending, data in _runs.items():
            put(self.at("one." + ending), data)
            put(self.at("two." + ending), data)

    def changed(self, ending, at, data):
        whole = bytearray(text_of(self.at("two." + ending)))
        whole[at : at + len(data)] = data
        put(self.at("two." + ending), bytes(whole))

    def told(self, *words, status=1):
        return self.tool("differs", *words, "one", "two", status=status).out.splitlines()

    def test_the_same(self):
        self.runs()
        before = self.names()
        self.assertEqual(self.told(status=0), ["same: files 9"])
        self.assertEqual(self.names(), before)

    def test_memories(self):
        self.runs()
        self.changed("host", 0x70, b"IJ")
        self.changed("host", 0x7FFF, b"\x01")
        self.changed("para", 0xFFFE, b"\x01")
        lines = self.told()
        self.assertEqual(lines[:3], ["host: 3 bytes in 2 ranges", "  0070 to 0071  48 49 | 49 4A", "  7FFF to 7FFF  00 | 01"])
        self.assertEqual(lines[3], "para: 1 byte in 1 range")
        self.assertTrue(lines[4].startswith("  FFFE to FFFE  "))

    def test_many_ranges_are_counted(self):
        self.runs()
        for at in range(0x1000, 0x1000 + 20 * 16, 16):
            self.changed("host", at, b"\xAA")
        lines = self.told()
        self.assertEqual(lines[0], "host: 20 bytes in 20 ranges")
        self.assertEqual(lines[-1], "  and 12 more, up to 1130")

    def test_a_plug(self):
        self.runs()
        self.changed("plug0", 0x1234, b"\xAA")
        self.assertEqual(self.told()[:1], ["plug0: 1 byte in 1 range"])

    def test_an_access(self):
        self.runs()
        self.changed("trace", 20 * 46 + 17, b"4A")
        lines = self.told()
        self.assertEqual(lines[0], "trace: access 47 differs")
        self.assertEqual([line.split()[0] for line in lines[1:]], ["both"] * 5 + ["first", "second"])
        self.assertIn("the host takes 48 'H' from register 1", lines[-2])
        self.assertIn("the host takes 4A 'J' from register 1", lines[-1])

    def test_an_access_less(self):
        self.runs()
        put(self.at("two.trace"), text_of(self.at("two.trace"))[:-20])
        self.assertEqual(self.told()[-1].split(None, 1), ["second", "nothing more"])

    def test_the_clock(self):
        self.runs()
        put(self.at("two.trace"), b"T2\n" + text_of(self.at("two.trace")))
        self.assertEqual(self.told(), ["trace: the second processor has 3 MHz | 4 MHz"])

    def test_a_report(self):
        self.runs()
        put(self.at("two.report"), text_of(self.at("two.report")).replace(b"A=49 X=02", b"A=50 X=02") + b"more\n")
        lines = self.told()
        self.assertEqual(lines[0], "report: 2 lines")
        self.assertIn("A=49 X=02", lines[1].split("|")[0])
        self.assertIn("A=50 X=02", lines[1].split("|")[1])
        self.assertEqual(lines[2], "  only the second has: more")

    def test_a_disc(self):
        self.runs()
        self.changed("d0", 0x205, b"X")
        self.changed("d0", 0xC01, b"X")
        self.assertEqual(self.told(), ["d0: 2 sectors", "  side 0, $.NOTES: sector 002", "  side 1, A.BACK: sector 002"])
        self.changed("d0", 4, b"X")
        self.assertIn("  side 0, the catalogue: sector 000", self.told())

    def test_a_disc_without_a_catalogue(self):
        self.runs()
        for out in ("one", "two"):
            put(self.at(out + ".d0"), b"\0" * 2560)
        self.changed("d0", 0x305, b"X")
        self.changed("d0", 0x405, b"X")
        self.assertEqual(self.told(), ["d0: 2 sectors", "  in no file of a catalogue: sectors 003 to 004"])

    def test_a_frame_and_its_picture(self):
        self.runs()
        for out in ("one", "two"):
            put(self.at(out + ".000.ppm"), PIXMAP)
        for x, y in ((10, 20), (12, 29)):
            self.changed("000.ppm", 15 + 3 * (640 * y + x), b"\xff\xff\xff")
        self.assertEqual(self.told("--pictures", "shown"), ["000.ppm: 2 pixels: columns 10 to 12, rows 20 to 29"])
        self.assertEqual(os.listdir(self.at("shown")), ["000.png"])
        # The second frame is just those two pixels, and so is the difference.
        self.tool("png", "--compare", "shown/000.png", "one.000.ppm", "two.000.ppm", "two.000.ppm")

    def test_a_frame_that_is_none(self):
        self.runs()
        put(self.at("two.000.ppm"), b"P6\n")
        self.assertIn("000.ppm: they differ; two.000.ppm is no frame", self.told("--pictures", "shown")[0])

    def test_a_sound(self):
        self.runs()
        length = len(text_of(self.at("one.wav")))
        self.assertGreater(length, 48)
        self.changed("wav", 44 + 2 * 1, struct.pack("<h", -5))
        self.assertEqual(self.told(), ["wav: sample 1, at 0.032 ms: %d | -5" % struct.unpack_from("<h", text_of(self.at("one.wav")), 46)])
        put(self.at("two.wav"), text_of(self.at("one.wav"))[:-2])
        self.assertIn("the same as far as both go", self.told()[0])

    def test_a_listing(self):
        self.pair()
        trace = os.path.join(EXAMPLES, "letters.trace")
        for out in ("one", "two"):
            self.launcher("follow", "host", trace, "2000", out, "--os", "os")
        lines = text_of(self.at("two.list")).split(b"\n")
        lines[9] = lines[9].replace(b"A=", b"B=")
        put(self.at("two.list"), b"\n".join(lines))
        self.assertEqual(self.told()[0], "list: line 10 differs")

    def test_what_one_lacks(self):
        self.runs()
        os.unlink(self.at("two.d0"))
        self.assertEqual(self.told(), ["d0: only one has it"])

    def test_what_is_no_run(self):
        self.runs()
        for words in (["one"], ["one", "nothing"], ["one", "nowhere/out"], ["one", "two", "three"], []):
            self.tool("differs", *words, status=1 if len(words) == 2 else 2)
        self.tool("differs", "one", ".", status=1)

    def test_files_that_are_none(self):
        """Whatever the files have, it ends with 1 and a line for each."""
        self.runs()
        for data in (b"", b"\0", b"\xff" * 1000, bytes(range(256)) * 9, b"P6\n640 256\n255\n", b"RIFF" * 20):
            for name in list(self.names()):
                if name.startswith("two."):
                    put(self.at(name), data)
            done = self.tool("differs", "--pictures", "shown", "one", "two", status=1)
            self.assertEqual(sum(not line.startswith("  ") for line in done.out.splitlines()), sum(data != old for old in _runs.values()), done.out)

    def test_frames_are_not_written_over(self):
        self.runs()
        self.changed("000.ppm", 15, b"\xff\xff\xff" if text_of(self.at("one.000.ppm"))[15:18] == b"\0\0\0" else b"\0\0\0")
        self.tool("differs", "--pictures", "one.report", "one", "two", status=1)
        self.assertTrue(text_of(self.at("one.report")).startswith(b"ticks"))


class Order(Case):
    """What passed in two traces, without times and polls."""

    TRACE = [(6, "H", "W", 0, 0x81), (12, "P", "W", 1, 0x41), (15, "H", "R", 0, 0xC1), (18, "H", "R", 1, 0x41), (30, "P", "W", 1, 0x42),
             (33, "H", "R", 1, 0x42), (40, "P", "W", 3, 0x43), (42, "H", "R", 3, 0x43), (60, "H", "X", 0, 0), (66, "P", "W", 1, 0x44),
             (69, "H", "R", 1, 0x44)]

    def put(self, name, accesses):
        lines = ["%010X %s %s %d %02X\n" % access for access in accesses]
        put(self.at(name), "".join(lines).encode())

    def told(self, other, *words, status=1):
        self.put("one", self.TRACE)
        self.put("two", other)
        return self.tool("differs", "--order", "one", "two", *words, status=status).out.splitlines()

    def test_times_and_polls_are_ignored(self):
        later = [(2 * access[0],) + access[1:] for access in self.TRACE] + [(500, "H", "R", 0, 0x40), (503, "H", "R", 1, 0x44)]
        later.insert(3, (31, "H", "R", 0, 0xC1))
        self.assertEqual(self.told(later, status=0), ["same: bytes and flags 5, resets 1"])
        self.assertEqual(self.told([(access[0] + 2,) + access[1:] for access in self.TRACE], "--within", "2", status=0),
                         ["same: bytes and flags 5, resets 1"])
        lines = self.told(later, "--within", "20")
        self.assertEqual(lines[0], "register 1 to the host, byte 2: 33 ticks later")

    def test_the_first_difference_has_its_context_and_the_next_follows(self):
        other = [access if access[4] not in (0x41, 0x43) else access[:4] + (access[4] + 0x20,) for access in self.TRACE]
        lines = self.told(other)
        self.assertEqual([line for line in lines if line[0] != " "],
                         ["register 1 to the host, byte 1: 41 'A' | 61 'a'", "register 2 to the host, byte 1: 43 'C' | 63 'c'",
                          "differences 2; 5 | 5 bytes and flags passed"])
        self.assertIn("  first           3.000 us  the host takes 41 'A' from register 1", lines)
        self.assertIn("  second          3.000 us  the host takes 61 'a' from register 1", lines)
        self.assertIn("  second          2.000 us  the second processor gives 61 'a' to register 1", lines)

    def test_what_is_missing(self):
        lines = self.told(self.TRACE[:4] + self.TRACE[6:])
        self.assertEqual([line for line in lines if line[0] != " "], ["register 1 to the host, byte 2: 42 'B' | nothing", "differences 1; 5 | 4 bytes and flags passed"])
        self.assertEqual(self.told(self.TRACE[:8])[0], "resets: 1 | 0")
        self.assertIn("flags, byte 1: 81 | nothing", self.told(self.TRACE[1:]))

    def test_a_run(self):
        self.pair()
        self.launcher("solo", "2000", "out", "--os", "os", "--tube", "tube")
        self.assertEqual(self.tool("differs", "--order", "out", "out.trace").out, "same: bytes and flags 2, resets 0\n")
        for words in (["--order", "out"], ["--within", "3", "out", "out"], ["--order", "--pictures", "x", "out", "out"], ["--order", "--within", "-1", "out", "out"]):
            self.tool("differs", *words, status=2)
        put(self.at("fast"), b"T2\n")
        self.tool("differs", "--order", "--within", "3", "out", "fast", status=1)

    def test_the_ticks_alone_differ(self):
        self.pair()
        for out, tick in (("one", 6), ("two", 4)):
            self.put(out + ".trace", [(tick, "H", "R", 0, 0x40)])
        self.assertIn("  the ticks alone differ here: --order compares without times", self.tool("differs", "one", "two", status=1).out.splitlines())


class Keep(Case):
    def setUp(self):
        super().setUp()
        self.pair()
        put(self.at("text"), self.tool("manifest", "run", "2000", "letters", "--os", "os", "--tube", "tube", "--wav", "heard").out.encode())

    def check(self, *words, status=0):
        return self.tool("manifest", "--check", *words, status=status).out

    def another(self):
        """The same text, of another run: its second letter is another."""
        self.tool("manifest", "--check", "text")
        image = text_of(self.at("tube"))
        put(self.at("tube"), image.replace(b"\xa9\x49", b"\xa9\x4a"))
        self.assertNotEqual(text_of(self.at("tube")), image)

    def test_what_was_written_is_kept(self):
        for words in (["text", "--keep", "kept"], ["--keep", "kept2", "text"]):
            self.assertEqual(self.check(*words), "same: files read 2, written 5\n")
            folder = [word for word in words if word.startswith("kept")][0]
            self.assertEqual(sorted(os.listdir(self.at(folder))), ["heard"] + ["letters." + it for it in ("host", "para", "report", "trace")])
            for name in os.listdir(self.at(folder)):
                self.assertEqual(text_of(self.at(os.path.join(folder, name))), text_of(self.at(name)))

    def test_it_says_where_they_part(self):
        self.another()
        lines = self.check("text", "--keep", "kept", status=1).splitlines()
        self.assertIn("letters.host: 1 byte in 1 range", lines)
        self.assertIn("  0071 to 0071  49 | 4A", lines)
        there = [line for line in lines if line.startswith("  second ")]
        self.assertIn("gives 4A 'J' to register 1", there[0])
        # `tools/differs` says the same of what was kept.
        told = self.tool("differs", "letters", "kept/letters", status=1).out.splitlines()
        self.assertTrue({line for line in told if line.startswith("  ")} <= set(lines))

    def test_without_keep_nothing_is_left(self):
        self.another()
        before = sorted(os.listdir(self.folder))
        self.assertIn("  0071 to 0071  49 | 4A", self.check("text", status=1).splitlines())
        self.assertEqual(sorted(os.listdir(self.folder)), before)

    def test_files_of_another_run_are_not_taken_for_its(self):
        self.another()
        put(self.at("letters.host"), b"own")
        self.assertNotIn("letters.host: ", [line[:14] for line in self.check("text", status=1).splitlines()])

    def test_a_folder_with_something_in_it_stays(self):
        os.mkdir(self.at("kept"))
        put(self.at("kept/own"), b"own")
        self.check("text", "--keep", "kept", status=1)
        self.assertEqual(os.listdir(self.at("kept")), ["own"])
        self.check("text", "--keep", "os", status=1)
        self.check("text", "--keep", "os/below", status=1)
        self.check("text", "--keep", status=2)


if __name__ == "__main__":
    unittest.main()
