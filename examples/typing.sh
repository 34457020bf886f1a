#!/usr/bin/env bash
# Assembles the ROMs of the typed text into a folder, which is this one if none is said: os, tube, font.
set -eu
top=$(cd "$(dirname "$(readlink -f "$0")")/.." && pwd)
folder=${1:-.}
if [ "$folder" = --help ]; then
    sed -n 's/^# //p' "$0"
    exit
fi
mkdir -p "$folder"
"$top/beebtube" asm 6502 "$top/examples/type-os.asm" "$folder/os"
"$top/beebtube" asm 65c02 "$top/examples/type-tube.asm" "$folder/tube"
"$top/beebtube" asm 6502 "$top/examples/font.asm" "$folder/font"
