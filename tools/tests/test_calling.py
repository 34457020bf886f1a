"""Subroutines of machine code by themselves, and a project that has the clone in a folder."""
import os
import random
import shutil
import subprocess

from common import TOP, Case, beebtube, put, unittest


def asm(text, at=0x0900, cpu="6502"):
    return beebtube.asm(cpu, beebtube.Source("org &%04X\n%s\n" % (at, text)))


class Calling(Case):
    def test_sums_of_both_processors(self):
        dice = random.Random(1)
        for cpu in ("6502", "65c02"):
            image = asm("CLC\nADC &70\nSTA &3000\nINX\nDEY\nRTS", cpu=cpu)
            for _ in range(3):
                a, b, x, y = (dice.randrange(256) for _ in range(4))
                done = beebtube.call(image, at=0x0900, a=a, x=x, y=y, memory={0x70: b, 0x4000: b"abc"}, cpu=cpu)
                total = a + b
                self.assertEqual((done.a, done.x, done.y, done.s), (total % 256, (x + 1) % 256, (y - 1) % 256, 0xFF))
                self.assertEqual((done.carry, done.zero, done.negative), (total > 255, y == 1, (y - 1) % 256 > 127))
                self.assertEqual((done.memory[0x3000], done.memory[0x70], done.memory[0x4000:0x4003]), (total % 256, b, b"abc"))
            # CLC 2, ADC 3, STA 4, INX 2, DEY 2, RTS 6
            self.assertEqual(done.cycles, 19)

    def test_flags_before_and_a_start(self):
        image = asm("RTS\nother: LDA #0\nROL A\nPHP\nPLA\nRTS")
        done = beebtube.call(image, at=0x0900, start=0x0901, p=0x2D)
        self.assertEqual((done.a & 0x0C, done.decimal, done.overflow), (0x0C, True, False))
        self.assertEqual(beebtube.call(image, at=0x0900, a=9, p=0xC0).overflow, True)
        self.assertRegex(repr(beebtube.call(image, at=0x0900, a=9, x=1, p=0xC1)), r"^<Called: A=09 X=01 Y=00 NV-....C>$")

    def test_what_it_writes(self):
        for cpu in ("6502", "65c02"):
            self.assertEqual(beebtube.call(asm("LDA #72\nJSR &FFEE\nLDA #73\nJSR &FFEE\nRTS", cpu=cpu), at=0x0900, cpu=cpu).out, b"HI")

    def test_what_does_not_return(self):
        for text, told in (("BRK\nbyte 3,65,0", "0900 ended by a BRK at 0900, error 3: A"), ("l: JMP l", "within 0.2 seconds of machine time; it is at 0900"),
                           ("byte 2", "0900 stopped at 0900"), ("PLA\nPLA\nLDA #1\nJMP &C003", "ended the program")):
            with self.assertRaisesRegex(beebtube.Fault, told):
                beebtube.call(asm(text), at=0x0900, limit=0.2)

    def test_memory_that_is_there(self):
        for cpu, most in (("6502", 0x7FFF), ("65c02", 0xF7FF)):
            image = asm("LDA &%04X\nRTS" % most, cpu=cpu)
            self.assertEqual(beebtube.call(image, at=0x0900, memory={most: 7}, cpu=cpu).a, 7)
            for memory in ({most + 1: 1}, {0xFF: 1}, {-1: 1}):
                with self.assertRaisesRegex(beebtube.Fault, "outside the memory"):
                    beebtube.call(image, at=0x0900, memory=memory, cpu=cpu)
        with self.assertRaisesRegex(beebtube.Fault, "no free page"):
            beebtube.call(image, at=0x0900, memory={0x0200: bytes(0x7E00)})


# A Python that has pytest.
def python_with_pytest():
    for python in ("python3", "/usr/bin/python3"):
        if shutil.which(python) and subprocess.run([python, "-c", "import pytest"], stdout=subprocess.DEVNULL, stderr=subprocess.DEVNULL).returncode == 0:
            return python
    return None


@unittest.skipUnless(python_with_pytest(), "pytest is not there")
class Submodule(Case):
    def test_a_project_collects_its_own_tests(self):
        os.mkdir(self.at("beebtube"))
        shutil.copy(os.path.join(TOP, "conftest.py"), self.at("beebtube"))
        os.mkdir(self.at("beebtube/tests"))
        put(self.at("beebtube/tests/test_theirs.py"), b"def test_theirs():\n    pass\n")
        put(self.at("test_own.py"), b"def test_own():\n    pass\n")

        def collected(folder, *words):
            done = subprocess.run([python_with_pytest(), "-m", "pytest", "-p", "no:cacheprovider", "--collect-only", "-q", *words], cwd=folder,
                                  env={**os.environ, "PYTHONDONTWRITEBYTECODE": "1"}, stdout=subprocess.PIPE, stderr=subprocess.STDOUT)
            return [line.rpartition("::")[2] for line in done.stdout.decode().splitlines() if "::" in line]
        self.assertEqual(collected(self.folder), ["test_own"])
        self.assertEqual(collected(self.at("beebtube")), ["test_theirs"])


if __name__ == "__main__":
    unittest.main()
