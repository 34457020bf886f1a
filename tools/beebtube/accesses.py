"""Accesses to the Tube in words."""
from __future__ import annotations

SIDES = {"H": "the host", "P": "the second processor"}


def is_status(place: int) -> bool:
    """The address is a status, not a place for bytes."""
    return place % 2 == 0


def name_of(place: int) -> str:
    """The name of an address: registers 1 to 4 each have a status and a place for bytes."""
    return "register %d" % (place // 2 + 1)


def letter_of(byte: int) -> str:
    """A byte as a letter after it, if it is one."""
    return " '%c'" % byte if 32 <= byte < 127 else ""


def words_of(side: str, way: str, place: int, byte: int) -> str:
    """An access in words: its side, `H` or `P`, its way, `R`, `W` or `X`, the number of the address, and the byte."""
    who = SIDES[side]
    if way == "X":
        return "BREAK: the Tube and the second processor are reset"
    if is_status(place) and way == "R":
        told = ["a byte is there" if byte & 128 else "no byte", "room" if byte & 64 else "no room"]
        flags = ", flags " + "".join(name if byte >> 5 - at & 1 else "-" for at, name in enumerate("PVMJIQ")) if place == 0 else ""
        return "%s reads the status of %s: %s%s" % (who, name_of(place), ", ".join(told), flags)
    if place == 0 and side == "H":
        marked = "".join(name for bit, name in zip((64, 32, 16, 8, 4, 2, 1), "TPVMJIQ") if byte & bit) or "none"
        return "%s %s flags: %s" % (who, "sets" if byte & 128 else "clears", marked)
    if is_status(place):
        return "%s writes %02X to the address of the status of %s" % (who, byte, name_of(place))
    if way == "R":
        return "%s takes %02X%s from %s" % (who, byte, letter_of(byte), name_of(place))
    return "%s gives %02X%s to %s" % (who, byte, letter_of(byte), name_of(place))
