"""Tests of a small pair: a host that reads two letters, and a second processor that sends them. In pytest's manner, and for
Python alone:

    pytest examples/pytest
    python3 -m unittest examples/pytest/test_letters.py
"""
import os
import sys
import unittest

TOP = os.path.dirname(os.path.dirname(os.path.dirname(os.path.realpath(__file__))))
sys.path.insert(0, os.path.join(TOP, "tools"))

import beebtube  # noqa: E402


class Letters(unittest.TestCase):
    @classmethod
    def setUpClass(cls):
        cls.host = beebtube.asm("6502", os.path.join(TOP, "examples", "letters-os.asm"))
        cls.tube = beebtube.asm("65c02", os.path.join(TOP, "examples", "letters-tube.asm"))
        cls.run_of_both = beebtube.run(2000, os=cls.host, tube=cls.tube, save=True)

    def test_host_keeps_both_letters(self):
        assert self.run_of_both.host[0x70:0x72] == b"HI"

    def test_second_processor_gives_them(self):
        given = [access.byte for access in self.run_of_both.accesses if access.side == "P" and access.way == "W" and access.register == 1]
        assert bytes(given) == b"HI"

    def test_both_stop_where_they_should(self):
        stop = beebtube.labels_of("65c02", os.path.join(TOP, "examples", "letters-tube.asm"))["stop"]
        assert self.run_of_both.registers["para"].pc == stop

    def test_chip_would_give_these_answers(self):
        assert beebtube.check(self.run_of_both.accesses) == self.run_of_both.report.tube

    def test_session_goes_on_to_the_same(self):
        later = beebtube.resume(self.run_of_both.session, 4000)
        assert later.host == beebtube.run(4000, os=self.host, tube=self.tube).host

    def test_boot_rom_of_another_length_is_refused(self):
        with self.assertRaises(beebtube.Refused) as caught:
            beebtube.run(2000, os=self.host, tube=self.tube[1:])
        assert (caught.exception.status, caught.exception.text) == (3, "bad image tube 2047")


if __name__ == "__main__":
    unittest.main()
