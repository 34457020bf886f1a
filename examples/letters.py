import beebtube

host = beebtube.asm("6502", "examples/letters-os.asm")
tube = beebtube.asm("65c02", "examples/letters-tube.asm")
run = beebtube.run(2000, os=host, tube=tube)
print(run.host[0x70:0x72], hex(run.registers["para"].pc), run.report.tube)
print([chr(it.byte) for it in run.accesses if it.is_host and it.register == 1])
try:
    beebtube.run(2000, os=host, tube=tube + tube)
except beebtube.Refused as refused:
    print(refused.status, refused.text, *refused.why, sep="\n")
