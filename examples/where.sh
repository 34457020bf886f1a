#!/usr/bin/env bash
# Makes where.ssd in the current folder: a disc that shows its catalogue and runs where.asm, which
# prints the processor that runs it. `tools/play where.ssd` starts it on the host, and
# `tools/play --both where.ssd` on the second processor.
set -eu
top=$(cd "$(dirname "$(readlink -f "$0")")/.." && pwd)
work=$(mktemp -d) || exit 1
trap 'rm -rf "$work"' EXIT
"$top/beebtube" asm 6502 "$top/examples/where.asm" "$work/WHERE"
echo 'WHERE 002000 002000' >"$work/WHERE.inf"
printf '*CAT\r*WHERE\rR\r' >"$work/!BOOT"
"$top/tools/catalogue" --make where.ssd --title 'Either side' "$work/!BOOT" "$work/WHERE"
