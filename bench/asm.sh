#!/usr/bin/env bash
# Times `asm` on a source text of 4,194,304 bytes, beside `sha256sum` of the same file. The text has
# 60,000 labels, 20,000 instructions that name them, and comments. Then it prints the peak memory
# for two texts of the same length with one line each: a comment, and a `byte` with more values than
# the memory has bytes, which `asm` refuses.
. "$(dirname "$0")/common.sh"

python3 - <<'PY'
size = 4194304
lines = []
for i in range(60000):
    if i % 3 == 0:
        lines.append("label_%05d: LDA label_%05d + 1,X ; %s" % (i, i * 7919 % 60000, "takes a byte of the table " * 2))
    else:
        lines.append("label_%05d:" % i)
text = "\n".join(lines) + "\n"
line = "; " + "a line of comment " * 4 + "\n"
text += line * ((size - len(text)) // len(line))
text += ";" * (size - len(text))
open("source", "w").write(text)
open("comment", "w").write(";" * size)
open("list", "w").write("byte 1" + ",1" * ((size - 6) // 2))
PY

against_sha256sum source asm 6502 source image

for file in comment list; do
    /usr/bin/time -f '%M' -o one "$program" asm 6502 "$file" image >said || true
    awk -v name="$file" -v memory="$(tail -n 1 one)" -v size="$(stat -c %s "$file")" 'BEGIN {
        printf "a line of %d bytes, %s: %d kB, %.2f times the file\n", size, name, memory, memory * 1024 / size
    }'
done
