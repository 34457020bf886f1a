"""Discs that are made and changed: what is put in is there, whatever was there before."""
import csv
import hashlib
import json
import os
import random
import zipfile

from common import EXAMPLES, Case, beebtube, put, text_of, unittest

from beebtube.disc import Disc, NewFile, empty_disc, note_of, parse_inf, split_name, text_of_inf, with_file, with_option, without_file
from beebtube.faults import Fault


def some(length, mark=7):
    return bytes((at * mark + at // 256) & 255 for at in range(length))


class Made(unittest.TestCase):
    def test_files_are_there_with_their_addresses(self):
        for double in (False, True):
            for side in range(1 + double):
                disc = empty_disc(double)
                made = [NewFile("$", "ONE", False, 0x31900, 0x38023, some(1)), NewFile("A", "TWO", True, 0x12345, 0x3FFFF, some(256)),
                        NewFile("$", "three", False, 0, 0, some(5000)), NewFile("$", "NONE", False, 1, 2, b"")]
                for file in made:
                    disc = with_file(disc, file, side)
                catalogue = disc.catalogue(side)
                self.assertEqual(catalogue.sectors, 800)
                self.assertEqual(sorted(it.whole_name for it in catalogue.files), ["$.NONE", "$.ONE", "$.three", "A.TWO"])
                for file in made:
                    found = catalogue.find(file.whole_name)
                    self.assertEqual(NewFile(*found[:5], data=catalogue.bytes_of(found)), file)
                self.assertEqual([it.sector for it in catalogue.files], sorted((it.sector for it in catalogue.files), reverse=True))
                if double:
                    self.assertEqual(disc.catalogue(1 - side).files, [])

    def test_made_up_changes(self):
        """Files that come and go: each has its bytes, no two share a sector, and what is full is told."""
        dice = random.Random(1)
        for double in (False, True):
            disc, wanted, refused = empty_disc(double, 40), {}, 0
            for _ in range(400):
                name = "F%d" % dice.randrange(40)
                try:
                    if wanted and dice.random() < 0.4:
                        disc = without_file(disc, name)
                        del wanted[name]
                    else:
                        file = NewFile("$", name, False, dice.randrange(1 << 18), dice.randrange(1 << 18), dice.randbytes(dice.randrange(12000)))
                        disc = with_file(disc, file)
                        wanted[name] = file
                except Fault:
                    refused += 1
                catalogue = disc.catalogue()
                self.assertEqual({it.name: NewFile(*it[:5], data=catalogue.bytes_of(it)) for it in catalogue.files}, wanted)
                taken = [sector for it in catalogue.files for sector in range(it.sector, it.sector + (it.length + 255) // 256)]
                self.assertEqual(len(taken), len(set(taken)))
                self.assertTrue(all(2 <= sector < 400 for sector in taken))
            self.assertGreater(refused, 20)

    def test_what_does_not_fit(self):
        disc = empty_disc(False)
        whole = NewFile("$", "ALL", False, 0, 0, bytes(798 * 256))
        self.assertEqual(len(with_file(disc, whole).image), 204800)
        for data in (bytes(798 * 256 + 1),):
            with self.assertRaisesRegex(Fault, "ALL: it needs 799 sectors, and the largest gap of the disc has 798"):
                with_file(disc, whole._replace(data=data))
        for number in range(31):
            disc = with_file(disc, NewFile("$", "F%d" % number, False, 0, 0, b"x"))
        with self.assertRaisesRegex(Fault, "at most 31"):
            with_file(disc, NewFile("$", "MORE", False, 0, 0, b"x"))
        with_file(disc, NewFile("$", "f3", False, 0, 0, b"y"))

    def test_locked_files_stay(self):
        disc = with_file(empty_disc(False), NewFile("$", "X", True, 0, 0, b"x"))
        for change in (lambda: with_file(disc, NewFile("$", "x", False, 0, 0, b"y")), lambda: without_file(disc, "X")):
            with self.assertRaisesRegex(Fault, "locked"):
                change()

    def test_the_cycle_counts_in_decimal(self):
        disc = empty_disc(False)
        cycles = []
        for _ in range(101):
            disc = with_file(disc, NewFile("$", "X", False, 0, 0, b"x"))
            cycles.append("%02X" % disc.catalogue().cycle)
        self.assertEqual(cycles, ["%02d" % (number % 100) for number in range(1, 102)])

    def test_titles_and_boot(self):
        disc = with_option(empty_disc(False), 2, "TWELVE SIGNS")
        self.assertEqual((disc.catalogue().title, disc.catalogue().option), ("TWELVE SIGNS", 2))
        for title in ("THIRTEEN SIGN", "é", "a\n"):
            with self.assertRaises(Fault):
                with_option(disc, 2, title)

    def test_the_example_is_as_it_was(self):
        """A file put in and taken out leaves all else of a disc that an assembler made."""
        image = beebtube.asm("6502", os.path.join(EXAMPLES, "disc.asm"))
        disc = Disc(image, True)
        changed = with_file(disc, NewFile("$", "NEW", False, 1, 2, some(600)))
        self.assertEqual(changed.catalogue(1).files, disc.catalogue(1).files)
        back = without_file(changed, "NEW")
        self.assertEqual(sorted(back.catalogue().files), sorted(disc.catalogue().files))
        for file in disc.catalogue().files:
            self.assertEqual(back.catalogue().bytes_of(file), disc.catalogue().bytes_of(file))


class Inf(unittest.TestCase):
    def test_forms(self):
        for text, wanted in (("$.HELLO 001900 008023", ("$", "HELLO", False, 0x1900, 0x8023)),
                             ("$.!BOOT   FFFF0000 FFFFFFFF 0000000C L CRC=1234\r\n", ("$", "!BOOT", True, 0x30000, 0x3FFFF)),
                             ("A.X ff1900 ff8023 100 Locked", ("A", "X", True, 0x31900, 0x38023)),
                             ('"$.HELLO" 1900 8023 CRC=40AE NEXT $.L', ("$", "HELLO", False, 0x1900, 0x8023)),
                             ("HELLO\t1900\t8023", ("$", "HELLO", False, 0x1900, 0x8023))):
            self.assertEqual(parse_inf(text), wanted)

    def test_what_is_none(self):
        for text in ("", "\n", "$.HELLO", "$.HELLO 1900", "$.HELLO x y", "$.TOOLONGX 0 0", "#.A 0 0", "$.A:B 0 0", "$. 0 0", "\xff 0 0"):
            with self.assertRaises(Fault):
                parse_inf(text)
        for name in ("", "A.", "..A", "EIGHTLET", "A B", "A.B.C"):
            with self.assertRaises(Fault):
                split_name(name)

    def test_to_a_text_and_back(self):
        for file in Disc(beebtube.asm("6502", os.path.join(EXAMPLES, "disc.asm")), True).catalogue().files:
            self.assertEqual(parse_inf(text_of_inf(file)), file[:5])


class Tool(Case):
    def test_make_put_take(self):
        put(self.at("!BOOT"), b"*RUN PROG\r")
        put(self.at("PROG"), some(700))
        put(self.at("PROG.inf"), b"$.CODE FF1900 FF1902 L\n")
        self.tool("catalogue", "--make", "new.ssd", "!BOOT", "PROG", "PROG.inf", "--title", "MINE")
        told = self.tool("catalogue", "new.ssd").out.splitlines()
        self.assertEqual(told[:2], ["title MINE", "cycle 02, sectors 800, at boot *EXEC of $.!BOOT"])
        self.assertEqual(told[3:], ["$.!BOOT      000000 000000 00000A  002", "$.CODE    L  FF1900 FF1902 0002BC  003"])
        self.tool("catalogue", "--inf", "new.ssd", "CODE", "out")
        self.assertEqual((text_of(self.at("out")), text_of(self.at("out.inf"))), (some(700), b"$.CODE FF1900 FF1902 0002BC L\n"))
        before = text_of(self.at("new.ssd"))
        self.tool("catalogue", "--take", "new.ssd", "less.ssd", "!BOOT")
        self.tool("catalogue", "--put", "less.ssd", "more.ssd", "out", "--boot", "none", status=1)  # out.inf says $.CODE, which is locked
        put(self.at("DATA"), b"x")
        self.tool("catalogue", "--put", "less.ssd", "more.ssd", "DATA", "--boot", "none")
        self.assertEqual(len(self.tool("catalogue", "more.ssd").out.splitlines()), 5)
        self.assertEqual(text_of(self.at("new.ssd")), before)

    def test_a_file_past_the_end_is_told_and_not_written(self):
        for double in (False, True):
            name = "a.dsd" if double else "a.ssd"
            disc = with_file(with_file(empty_disc(double), NewFile("$", "FIRST", False, 0x3FFFF, 0x30000, some(2500))), NewFile("$", "LAST", False, 0, 0, some(700)))
            whole = disc.catalogue().find("LAST").sector * 256 + 700 + (2560 if double else 0)  # of a DSD the second track of side 0 is the third
            for lacking in (0, 1, 300, 700, 701):
                put(self.at(name), disc.image[: whole - lacking])
                done = self.tool("catalogue", name, status=1 if lacking else 0)
                self.assertIn("$.FIRST      FFFFFF FF0000 0009C4", done.out)
                told = "catalogue: %s ends before $.LAST: %d of its 700 bytes are past the end\n" % (name, min(lacking, 700))
                self.assertEqual(done.err, told if lacking else "")
                done = self.tool("catalogue", name, "LAST", "out", status=1 if lacking else 0)
                self.assertEqual((done.err, os.path.exists(self.at("out"))), (told if lacking else "", not lacking))
                if not lacking:
                    self.assertEqual(text_of(self.at("out")), some(700))
                    os.unlink(self.at("out"))

    def watford(self, count):
        """A disc of so many files with a catalogue of Watford's DFS, each of which has its number as its one byte."""
        image = bytearray(bytes(256 * (4 + count)))
        image[0:8], image[0x106:0x108], image[0x200:0x208], image[0x306:0x308] = b"LONG    ", b"\3\x20", b"\xaa" * 8, b"\3\x20"
        for at in range(count):
            base, entry = (0, 8 + 8 * at) if at < 31 else (0x200, 8 + 8 * (at - 31))
            image[base + entry : base + entry + 8] = b"F%-6d$" % at
            image[base + 0x100 + entry : base + 0x108 + entry] = bytes([0, 0, 0, 0, 1, 0, 0, 4 + at])
            image[base + 0x105] += 8
            image[256 * (4 + at)] = at
        return bytes(image)

    def test_62_files(self):
        for count in (0, 5, 31, 32, 62):
            put(self.at("w.ssd"), self.watford(count))
            catalogue = Disc.read(self.at("w.ssd")).catalogue()
            self.assertEqual([(it.name, catalogue.bytes_of(it)) for it in catalogue.files], [("F%d" % at, bytes([at])) for at in range(count)])
            self.assertIn("files %d:" % count, self.tool("catalogue", "w.ssd").out)
        put(self.at("F"), b"x")
        self.assertIn("is read and not written", self.tool("catalogue", "--put", "w.ssd", "x.ssd", "F", status=1).err)
        # A file of another disc may begin so.
        disc = with_file(empty_disc(False), NewFile("$", "X", False, 0, 0, b"\xaa" * 600))
        self.assertEqual(len(disc.catalogue().files), 1)
        self.assertEqual(len(with_file(disc, NewFile("$", "Y", False, 0, 0, b"y")).catalogue().files), 2)

    def test_all_files_in_one_call(self):
        disc = with_file(empty_disc(True), NewFile("$", "A/%", True, 0x31900, 0x38023, some(700)))
        disc = with_file(disc, NewFile("B", "X", False, 1, 2, b""), 1)
        put(self.at("a.dsd"), disc.image)
        self.assertEqual(self.tool("catalogue", "--extract", "a.dsd", "out").out, "files 2\n")
        self.assertEqual((text_of(self.at("out/0/$.A%2F%25")), text_of(self.at("out/0/$.A%2F%25.inf"))), (some(700), b"$.A/% FF1900 FF8023 0002BC L\n"))
        self.assertEqual(sorted(os.listdir(self.at("out/1"))), ["B.X", "B.X.inf"])
        self.assertIn("is not empty", self.tool("catalogue", "--extract", "a.dsd", "out", status=1).err)
        # Back onto a disc they are what they were.
        self.tool("catalogue", "--make", "b.ssd", "out/0/$.A%2F%25")
        self.assertEqual(Disc.read(self.at("b.ssd")).catalogue().files[0][:6], disc.catalogue().files[0][:6])
        put(self.at("cut.dsd"), disc.image[:2560 + 100])
        done = self.tool("catalogue", "--extract", "cut.dsd", "cut", status=1)
        self.assertEqual(done.out, "files 1\n")

    def test_the_catalogues_of_a_folder(self):
        os.makedirs(self.at("d/below"))
        disc = with_option(with_file(empty_disc(False), NewFile("$", "=1+1", False, 0x31900, 0, some(300))), 3, "ONE")
        both = with_file(with_file(empty_disc(True), NewFile("A", "X", True, 0, 0, b"x")), NewFile("B", "Y", False, 0, 0, b"y"), 1)
        for name, data in (("a.ssd", disc.image), ("b.dsd", both.image), ("below/same.ssd", disc.image), ("e.ssd", empty_disc(False).image), ("n.ssd", bytes(512)), ("x.adl", b"")):
            put(self.at("d/" + name), data)
        with zipfile.ZipFile(self.at("d/z.zip"), "w") as archive:
            archive.writestr("in.ssd", disc.image)
        done = self.tool("catalogue", "--csv", "d", status=1)
        self.assertEqual(sorted(done.err.splitlines()), ["catalogue: below: a folder, which --recursive looks into", "catalogue: n.ssd: no catalogue of the DFS is there",
                                                         "catalogue: x.adl: a file that beebtube does not read"])
        rows = list(csv.DictReader(done.out.splitlines()))
        self.assertEqual([(it["disc"], it["side"], it["file"], it["locked"]) for it in rows],
                         [("a.ssd", "0", "$.=1+1", ""), ("b.dsd", "0", "A.X", "L"), ("b.dsd", "1", "B.Y", ""), ("e.ssd", "0", "", ""), ("n.ssd", "", "", ""), ("z.zip/in.ssd", "0", "$.=1+1", "")])
        self.assertEqual([rows[0][name] for name in ("form", "title", "boot", "load", "length", "sum")], ["ssd", "ONE", "exec", "FF1900", "300", hashlib.sha256(some(300)).hexdigest()])
        self.assertEqual([it["same_as"] for it in rows], [""] * 5 + ["a.ssd"])
        os.unlink(self.at("d/n.ssd"))
        found = json.loads(self.tool("catalogue", "--json", "--recursive", "d").out)
        self.assertEqual([(it["disc"], it["same_as"], sum(len(side["files"]) for side in it["sides"])) for it in found],
                         [("a.ssd", "", 1), ("b.dsd", "", 2), ("e.ssd", "", 0), ("z.zip/in.ssd", "a.ssd", 1), ("below/same.ssd", "a.ssd", 1)])
        self.assertEqual(found[0]["sum"], hashlib.sha256(disc.image).hexdigest())
        # A second side behind the first one.
        put(self.at("seq.dsd"), disc.image.ljust(204800, b"\0") + disc.image)
        done = self.tool("catalogue", "--json", "seq.dsd", status=1)
        self.assertEqual(json.loads(done.out)[0]["form"], "sequential")
        os.mkdir(self.at("none"))
        self.assertEqual(json.loads(self.tool("catalogue", "--json", "none").out), [])
        for words in (["--csv"], ["--csv", "d", "e"], ["--csv", "--json", "d"], ["--recursive", "d"], ["--extract", "a.dsd"]):
            self.tool("catalogue", *words, status=2)

    def test_a_name_that_begins_with_a_dash(self):
        self.assertIn("catalogue: -dash.ssd: no such option; a name that begins with `-` is written ./-dash.ssd\n", self.tool("catalogue", "-dash.ssd", status=2).err)

    def test_a_fifo_is_not_waited_for(self):
        put(self.at("TEXT"), b"x")
        os.mkfifo(self.at("TEXT.inf"))
        os.mkfifo(self.at("FILE"))
        for name in ("TEXT", "FILE"):
            self.assertIn("is no plain file", self.tool("catalogue", "--make", "a.ssd", name, status=1).err)

    def test_no_disc_is_written_over(self):
        put(self.at("F"), b"x")
        self.tool("catalogue", "--make", "a.dsd", "F", "--side", "1")
        before = self.names()
        for words in (["--make", "a.dsd", "F"], ["--put", "a.dsd", "a.dsd", "F"], ["--put", "a.dsd", "./a.dsd", "F"], ["--take", "a.dsd", "a.dsd", "F", "--side", "1"],
                      ["--put", "a.dsd", "b.ssd", "F"], ["--make", "F", "F"], ["--make", "b.ssd", "F", "missing"], ["--take", "a.dsd", "b.dsd", "F"],
                      ["--make", "b.ssd", "F", "--side", "1"], ["--make", "b.ssd", "F", "--title", "THIRTEEN SIGN"]):
            self.tool("catalogue", *words, status=1)
            self.assertEqual(self.names(), before, words)
        for words in (["--make"], ["--put", "a.dsd"], ["--put", "a.dsd", "b.dsd"], ["--make", "--put", "b.dsd"], ["a.dsd", "--boot", "run"], ["a.dsd", "--tracks", "40"], ["--make", "b.ssd", "F", "--boot", "x"]):
            self.tool("catalogue", *words, status=2)
            self.assertEqual(self.names(), before, words)

    def test_capitals(self):
        put(self.at("F"), b"x")
        done = self.tool("catalogue", "--make", "A.DSD", "F", "--side", "1")
        self.assertIn("takes A.DSD as an SSD", done.err)
        self.assertEqual(len(Disc.read(self.at("A.DSD")).catalogue(1).files), 1)
        self.assertIsNone(note_of("a.dsd"))
        self.assertIsNone(note_of("A.SSD"))
        # The program of a run from Python gets it as the DSD that it is.
        self.pair()
        with beebtube.solo(9, os=self.at("os"), tube=self.at("tube"), disc0=self.at("A.DSD")) as run:
            self.assertTrue(run.discs[0].double)
            self.assertEqual(len(run.discs[0].catalogue(1).files), 1)

    def test_capitals_for_other_tools(self):
        """An image that is too long for an SSD: the suite runs it as the DSD that it is, and what the program would take is said."""
        self.pair()
        os.mkdir(self.at("discs"))
        for name in ("A.DSD", "b.dsd"):
            put(self.at("discs/" + name), some(300000))
        done = self.tool("suite", "--ticks", "2000", "discs", "results", "--", "--os", "os", "--tube", "tube")
        self.assertEqual(done.err, "suite: beebtube takes discs/A.DSD as an SSD: with it the name of a DSD ends in .dsd\n")
        self.assertEqual(done.out, "done A.DSD\ndone b.dsd\nsuite: 2 of 2 are good: done 2\nsuite: run 1, there before 1; results/index.html\n")
        put(self.at("set"), b"--disc0 discs/A.DSD\n--disc1 discs/b.dsd\n")
        done = self.tool("words", "set")
        self.assertEqual((done.out, done.err), ("--disc0 discs/A.DSD --disc1 discs/b.dsd\n", "words: beebtube takes discs/A.DSD as an SSD: with it the name of a DSD ends in .dsd\n"))
        done = self.tool("manifest", "solo", "9", "o", "--os", "os", "--tube", "tube", "--disc0", "discs/A.DSD", status=3)
        self.assertIn("takes discs/A.DSD as an SSD", done.err)


if __name__ == "__main__":
    unittest.main()
