"""What a run reads: by the arguments of `replay host`, or from a session file."""
from __future__ import annotations

from typing import Dict, List

from .disc import is_double
from .faults import Fault
from .files import IMAGE_CAP, read_file
from .words import Call

IMAGES = ("os", "tube", *(f"rom{slot}" for slot in range(16)), "font", "disc0", "disc1", "keys")


class Inputs:
    """What a run reads.

    speed, tick, plugs  the clock in MHz, the tick at which it ends, how many devices are plugged
    images              the bytes of each image that is there, by its name in IMAGES
    double              the drives whose disc is a DSD
    """

    def __init__(self) -> None:
        self.speed, self.tick, self.plugs = 3, 0, 0
        self.images: Dict[str, bytes] = {}
        self.double: List[str] = []

    @staticmethod
    def of_host(call: Call) -> "Inputs":
        """Those of the arguments of `replay host`."""
        made = Inputs()
        made.speed = int(call.options.get("--speed", "3"))
        made.tick = int(call.alone["TICKS"])
        made.plugs = int(call.options.get("--plugs", "0"))
        for option, name in call.reads():
            if option.startswith("--"):
                made.images[option[2:]] = read_file(name, IMAGE_CAP)
                if option.startswith("--disc") and is_double(name):
                    made.double.append(option[2:])
        return made


class Fields(Inputs):
    """What a session file holds, in the form of docs/COMMANDS.md. Fault if it has another form.

    tick      the tick at which it was saved
    accesses  how many accesses to the Tube it has
    """

    def __init__(self, data: bytes):
        super().__init__()
        self._data, self._at = data, 0
        if self._take(5) != b"BTUB\x01":
            raise Fault("not a session file: one begins with the letters BTUB and a byte 01")
        self.speed, self.tick, self.plugs = self._take(1)[0], self._number(4), self._take(1)[0]
        begin = 0
        for name in IMAGES:
            begin, length = self._at, self._number(4)
            if length == 0xFFFFFFFF:
                continue
            if name.startswith("disc") and self._take(1) == b"\x01":
                self.double.append(name)
            self.images[name] = self._take(length)
        self._keys = (begin, self._at)
        self.accesses = self._number(4)

    def with_keys(self, script: bytes) -> bytes:
        """The session file with another key script."""
        begin, end = self._keys
        return self._data[:begin] + len(script).to_bytes(4, "big") + script + self._data[end:]

    def _take(self, length: int) -> bytes:
        self._at += length
        if self._at > len(self._data):
            raise Fault(f"the session file has {len(self._data):,} bytes, and ends inside a field")
        return self._data[self._at - length : self._at]

    def _number(self, length: int) -> int:
        return int.from_bytes(self._take(length), "big")
