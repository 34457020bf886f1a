import beebtube

os = beebtube.asm("6502", "examples/screen-os.asm")
tube = beebtube.asm("65c02", "examples/letters-tube.asm")
started = beebtube.solo(1_200_000, os=os, tube=tube, save=True).session
for digit in "024":
    keys = beebtube.typed(digit, start=0.1).later(1_200_000)
    print(digit, beebtube.resume(started, 4_000_000, keys=keys).host[0x70])
