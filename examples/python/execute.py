import beebtube

done = beebtube.execute("examples/c/built/upper", stdin=b"some text\n")
print(done.status, done.out, done.cycles)
both = beebtube.execute("examples/c/built/answers", both="examples/c/built/asks-host")
print(both.out.splitlines()[2], both.host_cycles, both.cycles)
never = beebtube.asm("6502", beebtube.Source("org &0800\nhere: JMP here\n"))
labels = beebtube.Labels({"here": 0x0800})
ended = beebtube.execute(never, at=0x0800, host=True, limit=0.5, labels=labels)
print(ended.status, ended.text, hex(ended.ended_at))
