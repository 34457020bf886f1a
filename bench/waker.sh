#!/usr/bin/env bash
# Has spin look at every interleaving of the two sides of waker.pml, for runs of LAST ticks (3; at 4
# there are four times as many states): no side sleeps for ever, and the other side admits each
# step. Then it tries four wrong protocols, in each of which spin must find a side that sleeps for
# ever:
#     bench/waker.sh [LAST]
# A line for each: how many states there are, and whether a side sleeps for ever. The exit status is
# 1 if a line is not as it must be, and 2 if spin or gcc is missing.
set -euo pipefail
if [ "${1:-}" = --help ]; then sed -n '2,/^[^#]/s/^# //p' "$0"; exit; fi
model=$(realpath "$(dirname "$0")")/waker.pml
last=${1:-3}
for tool in spin gcc; do
    command -v "$tool" >/dev/null || { echo "waker.sh: $tool is missing" >&2; exit 2; }
done
folder=$(mktemp -d)
trap 'rm -rf "$folder"' EXIT
cd "$folder"

status=0
check() { # NAME EXPECTED FLAG..
    local name=$1 expected=$2 found
    shift 2
    spin "-DLAST=$last" "$@" -a "$model" >/dev/null
    gcc -O2 -DSAFETY -DCOLLAPSE -o pan pan.c
    ./pan -m10000000 >text || true
    if grep -q 'errors: 0' text && ! grep -q 'max search depth too small\|out of memory' text; then
        found=never
    elif grep -q 'invalid end state' text; then
        found='for ever'
    else
        found='not known'
    fi
    printf '%-10s %9s states, sleeps %s\n' \
        "$name" "$(awk '/states, stored/ { print $1 }' text)" "$found"
    if [ "$found" != "$expected" ]; then
        echo "waker.sh: $name: expected $expected" >&2
        status=1
    fi
}

check protocol never
check no-signal 'for ever' -DNO_SIGNAL
check no-wake 'for ever' -DNO_WAKE
check no-cut 'for ever' -DNO_CUT
check no-retry 'for ever' -DNO_RETRY
exit "$status"
