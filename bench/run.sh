#!/usr/bin/env bash
# run.sh [--ticks N] [--on A,B] [--apart] [PAIR..]: times `solo`, both replays, `run` on two
# processors and `run` on one, in turn, five times each, for these pairs, or for all of common.sh. A
# run has N ticks (30,000,000, 5 s of machine time, by default). It prints the fastest, the middle
# and the slowest of each by the clock, and compares what each `run` writes with what `solo` wrote.
#
# A and B are the processors, by default the first and the last; all but `run` on two is on A.
# --apart puts each thread on one of them; otherwise the system chooses. Two threads that wait for
# each other need processors of their own: other work on the computer changes their times.
. "$(dirname "$0")/common.sh"

ticks=30000000
a=0
b=$(($(nproc) - 1))
on_two=on_both
while [ $# -gt 0 ]; do
    case $1 in
        --ticks) ticks=$2 && shift ;;
        --on) a=${2%,*} b=${2#*,} && shift ;;
        --apart) on_two=one_each ;;
        *) break ;;
    esac
    shift
done
[ $# -gt 0 ] || set -- $(cut -d' ' -f1 <<<"$pairs")

# The program on one processor, on both, and with a thread on each.
on_one() { taskset -c "$a" "$program" "$@"; }
on_both() { taskset -c "$a,$b" "$program" "$@"; }
one_each() {
    taskset -c "$a" "$program" "$@" &
    move_thread $! 1 "$b"
    wait $!
}

# timed FILE WORD..: adds the seconds on the wall and those in user mode of a command to the file
timed() {
    local file=$1 TIMEFORMAT='%3R %3U'
    shift
    { time "$@" >said 2>&1; } 2>>"$file" || { cat said; exit 1; }
}

compare() { # OUT
    for part in report host para trace; do
        cmp "solo.$part" "$1.$part"
    done
}

echo "processors $a and $b of $(nproc); fastest, middle and slowest of five"
for pair; do
    assemble_pair "$pair"
    rm -f times.*
    # The machine's state may change between runs, so all are run in turn. Replacing a file costs more than a new one.
    for _ in 1 2 3 4 5; do
        rm -f solo.* replayed* two.* one.*
        timed times.solo on_one solo "$ticks" solo $words --keep 4194304
        timed times.host on_one replay host solo.trace "$ticks" replayed --os "$pair-os" $more
        timed times.para on_one replay para solo.trace "$ticks" replayed --tube "$pair-tube"
        timed times.run "$on_two" run "$ticks" two $words --keep 4194304
        compare two
        timed times.one on_one run "$ticks" one $words --keep 4194304
        compare one
    done
    for name in solo host para run one; do
        sort -n "times.$name" | sed -n '1p;3p;5p' | tr '\n' ' '
        sort -n -k2 "times.$name" | sed -n '1p;3p;5p' | cut -d' ' -f2 | tr '\n' ' '
        echo
    done | awk -v pair="$pair" -v ticks="$ticks" -v accesses="$(sed -n 's/^tube //p' solo.report)" '
        # the three numbers of this form in `x`, and what they are
        function tell(form, what) { printf "  " form ", " form ", " form " %s", x[1], x[2], x[3], what }
        { for (i = 1; i <= 3; i++) { wall[NR, i] = $(2 * i - 1); user[NR, i] = $(6 + i) } }
        END {
            time = ticks / 6000000
            printf "%s: %.1f s of machine time, %d accesses\n", pair, time, accesses
            split("solo,replay host,replay para,run,run on one processor", name, ",")
            for (row = 1; row <= 5; row++) {
                printf "  %-20s", name[row]
                for (i = 1; i <= 3; i++) x[i] = wall[row, i]
                tell("%.3f", "s")
                for (i = 1; i <= 3; i++) x[i] = time / wall[row, i]
                tell("%.1f", "times real time")
                if (row == 1) {
                    for (i = 1; i <= 3; i++) x[i] = user[1, i] / (user[2, i] + user[3, i] + 0.0001)
                    tell("%.2f", "times both replays, in user mode")
                }
                if (row >= 4) {
                    for (i = 1; i <= 3; i++) x[i] = wall[row, i] / wall[1, i]
                    tell("%.2f", "times solo")
                    for (i = 1; i <= 3; i++) x[i] = wall[row, i] / (wall[2, i] > wall[3, i] ? wall[2, i] : wall[3, i])
                    tell("%.2f", "times the slower replay")
                }
                printf "\n"
            }
        }'
done
