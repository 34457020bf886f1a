import beebtube

os = beebtube.asm("6502", "examples/letters-os.asm")
tube = beebtube.asm("65c02", "examples/letters-tube.asm")
with beebtube.run(2000, os=os, tube=tube, save=True).past() as past:
    print(past.sides, past.end)
    start = past.machines["para"].following(0, 3)
    print(start.tick, f"{start.registers.pc:04X}", start.text)
    before, after = (past.machines["host"].state(tick) for tick in (0, past.end))
    changed = [at for at in range(0x100) if before.memory[at] != after.memory[at]]
    print([f"{at:04X}" for at in changed], past.frame(past.end))
