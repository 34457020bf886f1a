import beebtube

SUM = beebtube.Source("org &1900\nCLC\nADC &70\nSTA &71\nRTS\n")


def test_letter():
    done = beebtube.execute("letter", at=0x0800)
    assert (done.out, done.status) == (b"A", 0)


def test_sum():
    image = beebtube.asm("6502", SUM)
    done = beebtube.call(image, at=0x1900, a=200, memory={0x70: 100})
    assert (done.memory[0x71], done.carry) == (44, True)
