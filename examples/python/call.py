import beebtube

source = beebtube.Source("org &1900\nCLC\nADC &70\nSTA &71\nRTS\n")
image = beebtube.asm("6502", source)
done = beebtube.call(image, at=0x1900, a=200, memory={0x70: 100})
print(done, done.a, done.carry, done.memory[0x71], done.cycles)
