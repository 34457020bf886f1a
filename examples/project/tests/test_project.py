"""The project's tests: a library in C, a routine and a game in assembler, and a worker on the second processor."""
import os

import pytest

import beebtube

HERE = os.path.dirname(os.path.abspath(__file__))
SOURCES = os.path.join(os.path.dirname(HERE), "src")


def source(name):
    return os.path.join(SOURCES, name)


@pytest.fixture(scope="module")
def pack():
    return beebtube.build(source("pack.c"), source("rle.c"))


@pytest.mark.parametrize("text", [b"", b"a", b"aaaabbb", bytes(700), bytes(range(256)) * 4])
def test_what_is_packed_is_unpacked(beeb, pack, text):
    packed = beeb.execute(pack, stdin=text)
    assert packed.status == 0
    assert beeb.execute(pack, ["-d"], stdin=packed.out).out == text


def test_packing_costs_what_it_did(beeb, pack, cycles):
    cycles("pack 700 zeros", beeb.execute(pack, stdin=bytes(700)).cycles, within=0.02)


@pytest.mark.parametrize("a, x", [(0, 7), (1, 1), (12, 12), (255, 255), (200, 3)])
def test_scale(beeb, a, x):
    done = beeb.call(beeb.asm("6502", source("scale.asm")), at=0x1900, a=a, x=x)
    assert done.x + 256 * done.a == a * x


def test_the_game(beeb, golden, screen):
    keys = beebtube.typed("xxz{SHOT}{ESCAPE}", start=0.1)
    font = beeb.asm("6502", source("font.asm"))
    done = beeb.execute(beeb.asm("6502", source("game.asm")), host=True, at=0x1900, keys=keys, font=font, limit=5)
    assert done.status == 21
    assert screen.has(done, "STAR")
    golden(done.frames[0], "game")


def test_the_worker(beeb):
    sums = beeb.build(source("sums.c"), host=True)
    done = beeb.execute(beeb.build(source("worker.c")), ["abc", "hello"], both=sums)
    assert done.out == b"abc 294\nhello 532\n"
