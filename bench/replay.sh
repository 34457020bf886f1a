#!/usr/bin/env bash
# Times `replay` of each machine against an empty trace, five times each: a loop for 1,073,741,824
# ticks, about 179 s of machine time, and a busy program for 100,000,000. The host's busy program
# also runs with one device at work: both timers of the system's 6522 that request interrupts, a
# screen of 80 characters a line, a page of teletext, or a disc that turns while the controller
# looks for a sector. It prints how many times faster than the machine the fastest and the slowest
# run were, and by how many per cent each device makes the busy program slower.
. "$(dirname "$0")/common.sh"

: >empty.trace
"$launcher" asm 65c02 "$top/examples/loop-tube.asm" loop-tube
"$launcher" asm 65c02 "$top/bench/busy-tube.asm" busy-tube
"$launcher" asm 6502 "$top/bench/loop-os.asm" loop-os
"$launcher" asm 6502 "$top/bench/busy-os.asm" busy-os
"$launcher" asm 6502 "$top/examples/font.asm" font
head -c 204800 /dev/zero >disc

# busy_behind NAME HANDLERS: the busy program of the host after the lines of standard input, and before these lines
busy_behind() {
    {
        printf '        org &C000\nstart:  NOP\n'
        cat
        sed -e '1,/org/d' -e 's/^start:/again: /' -e '/org &FFFC/,$d' "$top/bench/busy-os.asm"
        printf '%s\n' "$2" '        org &FFFA' '        word nmi, start, irq'
    } >"$1.asm"
    "$launcher" asm 6502 "$1.asm" "$1"
}

none='nmi:    RTI
irq:    RTI'

# put BYTE ADDRESS ..: lines that store hexadecimal bytes
put() {
    while [ $# -gt 0 ]; do
        printf '        LDA #&%s\n        STA &%s\n' "$1" "$2"
        shift 2
    done
}

# screen CONTROL BYTE..: lines that set the video ULA's control byte and the registers of the 6845 from 0 on
screen() {
    local number=0 byte
    put "$1" FE20
    shift
    for byte; do
        put "$(printf '%02X' "$number")" FE00 "$byte" FE01
        number=$((number + 1))
    done
}

{
    put 40 FE4B E0 FE4E E6 FE44 E6 FE48 03 FE45 03 FE49
    echo '        CLI'
} | busy_behind timers-os 'nmi:    RTI
irq:    PHA
        LDA &FE44
        LDA #3
        STA &FE49
        PLA
        RTI'

"$launcher" asm 6502 "$top/bench/pairs/screen-os.asm" screen-os
"$launcher" asm 6502 "$top/bench/pairs/disc-os.asm" disc-os

# Its page has all codes.
{
    printf '%s\n' '        LDX #0' 'fill:   TXA' '        STA &7C00,X' '        STA &7D00,X' '        STA &7E00,X' '        STA &7F00,X' '        INX' '        BNE fill'
    screen 4B 3F 28 33 24 1E 02 19 1B 93 12 72 13 28 00
} | busy_behind teletext-os "$none"

# The side, the option and name of its program, the ticks of a run, those of a bus cycle, and more arguments.
while read -r side option name ticks cycle more; do
    for _ in 1 2 3 4 5; do
        /usr/bin/time -f '%e %M' -o one "$program" replay "$side" empty.trace "$ticks" out "--$option" "$name" $more
        cat one
    done | sort -n >times
    base=0
    [ ! -e without ] || base=$(head -n 1 without | cut -d' ' -f1)
    [ "$name" != busy-os ] || cp times without
    awk -v name="$name" -v ticks="$ticks" -v cycle="$cycle" -v base="$base" '
        function told(s) { return sprintf("%.2f s, %.0f times real time, %.1f ns a bus cycle", s, ticks / 6000000 / s, s * cycle * 1000000000 / ticks) }
        { time[NR] = $1; memory = $2 }
        END {
            printf "%s: %d ticks are %.1f s; fastest of 5: %s; slowest: %s; %d kB", name, ticks, ticks / 6000000, told(time[1]), told(time[NR]), memory
            if (base > 0) printf "; %.0f %% longer than without", 100 * (time[1] / base - 1)
            printf "\n"
        }' times
done <<'RUNS'
para tube loop-tube 1073741824 2
para tube busy-tube 100000000 2
host os loop-os 1073741824 3
host os busy-os 100000000 3
host os timers-os 100000000 3
host os screen-os 100000000 3
host os teletext-os 100000000 3 --font font
host os disc-os 100000000 3 --disc0 disc
RUNS
