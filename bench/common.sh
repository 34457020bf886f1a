# What the measurements share: the program, a working folder of their own, the pairs of programs that
# are timed, and a command timed beside sha256sum of its file. BEEBTUBE=PROGRAM runs that program in
# place of the one of this checkout; then nothing is proved or built.
set -eu
if [ "${1:-}" = --help ]; then sed -n '2,/^[^#]/s/^# //p' "$0"; exit; fi
top=$(cd "$(dirname "$0")/.." && pwd)
launcher="$top/beebtube"
if [ -n "${BEEBTUBE:-}" ]; then
    program=$(realpath "$BEEBTUBE")
    launcher=$program
else
    # (the first call builds the program if a source was edited)
    "$launcher" check /dev/null >/dev/null
    program=$("$launcher" --version | sed -n 's/^program //p')
fi
work=$(mktemp -d)
trap 'rm -rf "$work"' EXIT
cd "$work"

# The pairs for `run`: the name, the host's program, the second processor's, and a key script, or
# `disc` for an empty disc in drive 0. A number after the name is the microseconds between two
# interrupts of the host's timer, in place of the 1,000 of its program.
pairs='talk bench/pairs/talk-os bench/pairs/talk-tube
busy bench/busy-os bench/busy-tube
demo examples/demo-os examples/demo-tube
stream examples/demo-os bench/pairs/stream-tube
slow examples/demo-os bench/pairs/slow-tube
echo bench/pairs/echo-os bench/pairs/echo-tube
fetch bench/pairs/fetch-os bench/pairs/fetch-tube
host-polls examples/demo-os bench/busy-tube
second-polls bench/busy-os bench/pairs/polls-tube
keys examples/keys-os examples/keys-tube examples/hi.keys
timer bench/pairs/timer-os bench/pairs/interrupts-tube
irq-10000 bench/pairs/irq-os bench/pairs/interrupts-tube
irq-1000 bench/pairs/irq-os bench/pairs/interrupts-tube
irq-150 bench/pairs/irq-os bench/pairs/interrupts-tube
irq-50 bench/pairs/irq-os bench/pairs/interrupts-tube
nmi-1000 bench/pairs/nmi-os bench/pairs/interrupts-tube
nmi-50 bench/pairs/nmi-os bench/pairs/interrupts-tube
held bench/pairs/held-os bench/busy-tube
pushes bench/busy-os bench/pairs/pushes-tube
screen bench/pairs/screen-os bench/busy-tube
disc bench/pairs/disc-os bench/busy-tube disc'

# assemble_pair NAME: assembles the pair as NAME-os and NAME-tube, and leaves the arguments that run
# it in `words`, those for its keys or its disc in `more`
assemble_pair() {
    local name os tube input
    read -r name os tube input <<<"$(grep "^$1 " <<<"$pairs")"
    [ -n "$name" ] || { echo "no pair is called $1"; exit 1; }
    cp "$top/$os.asm" os.asm
    case $name in *-[0-9]*) sed -i "s/998/$((${name##*-} - 2))/" os.asm ;; esac
    "$launcher" asm 6502 os.asm "$name-os"
    "$launcher" asm 65c02 "$top/$tube.asm" "$name-tube"
    case $input in
        '') more='' ;;
        disc) head -c 204800 /dev/zero >disc && more='--disc0 disc' ;;
        *) cp "$top/$input" keys && more='--keys keys' ;;
    esac
    words="--os $name-os --tube $name-tube $more"
}

# move_thread PID NUMBER PROCESSORS: once the process has two threads, moves the first or the second
# (0 or 1) to these processors. A process that has ended keeps its folder until this shell waits for
# it, but no program.
move_thread() {
    local threads=()
    while [ "${#threads[@]}" -lt 2 ] && [ -e "/proc/$1/exe" ]; do
        threads=("/proc/$1/task/"*)
    done
    taskset -pc "$3" "$(basename "${threads[$2]:-}")" >/dev/null 2>&1 || true
}

median() { sort -n | sed -n 3p; }

# against_sha256sum FILE ARGUMENT..: runs the program with these arguments five times, and sha256sum
# of the file as often. Prints the median times, their ratio, and the peak memory.
against_sha256sum() {
    file=$1
    shift
    "$launcher" "$@"
    for _ in 1 2 3 4 5; do
        /usr/bin/time -f '%e %M' -o one "$program" "$@" >said
        cat one >>ours
        /usr/bin/time -f '%e' -o one sha256sum "$file" >said
        cat one >>theirs
    done
    awk -v name="$1" -v ours="$(cut -d' ' -f1 ours | median)" -v theirs="$(median <theirs)" \
        -v memory="$(cut -d' ' -f2 ours | sort -n | tail -n 1)" -v size="$(stat -c %s "$file")" 'BEGIN {
        printf "%s: %.2f s, sha256sum: %.2f s (medians of 5), a ratio of %.2f\n", name, ours, theirs, ours / theirs
        printf "memory: %.0f kB, %.2f times the file\n", memory, memory * 1024 / size
    }'
}
