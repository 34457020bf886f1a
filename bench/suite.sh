#!/usr/bin/env bash
# suite.sh [--runs N] [--seconds S] [--machine] [WORD ..]: measures what `tools/suite` takes around
# its runs. It makes N runs (200 by default) of the typed text: `solo`, a disc and a length of its
# own, a last frame, a page. Each takes about S CPU seconds (1 by default), or with --machine S
# seconds of machine time. WORD .. are further arguments of tools/suite.
#
# It prints the CPU seconds of all (the tool with all that it starts), those of the runs themselves
# by the table, and their ratio. It also prints the seconds by the clock beside the time of all runs
# on the processors of this computer, and what the same command takes once all results are there.
# The goal is a ratio of 1.1. Other work on the computer changes the clock and not the ratio.
. "$(dirname "$0")/common.sh"
runs=200 seconds=1 is_machine=
while [ $# -gt 0 ]; do
    case $1 in
        --runs) runs=$2 && shift ;;
        --seconds) seconds=$2 && shift ;;
        --machine) is_machine=yes ;;
        *) break ;;
    esac
    shift
done
"$top/examples/typing.sh" "$work"
"$top/tools/type" --start 0.1 --shot 'Hello, world!{RETURN}' >hello.keys 2>told

# The table of one or more runs of some ticks, or of some more.
list() { # COUNT TICKS
    local at
    echo 'name,ticks,disc0,words'
    for ((at = 1; at <= $1; at++)); do
        seq "$at" 60000 | head -c 204800 >"disc$at.ssd"
        echo "disc$at.ssd,$(($2 + at)),disc$at.ssd,solo"
    done
}
words=(--os os --tube tube --font font --keys hello.keys)
processor() { # RESULTS
    python3 -c 'import csv, sys
print(sum(float(row["processor"]) for row in csv.DictReader(open(sys.argv[1] + "/results.csv"))))' "$1"
}
if [ -n "$is_machine" ]; then
    ticks=$(awk -v seconds="$seconds" 'BEGIN { printf "%d", 6000000 * seconds }')
else
    list 1 60000000 >list.csv
    "$top/tools/suite" list.csv tried -- "${words[@]}" >said
    ticks=$(awk -v seconds="$seconds" -v took="$(processor tried)" 'BEGIN { ticks = 60000000 * seconds / took; printf "%d", (ticks < 1000000000 ? ticks : 1000000000) }')
fi
list "$runs" "$ticks" >list.csv
for time in first again; do
    /usr/bin/time -f '%U %S %e' -o "$time" "$top/tools/suite" "$@" list.csv results -- "${words[@]}" >said
    tail -n 1 said
done
awk -v all="$(cat first)" -v again="$(cat again)" -v runs="$(processor results)" -v count="$runs" -v ticks="$ticks" -v processors="$(nproc)" 'BEGIN {
    split(all, took); split(again, after)
    printf "%d runs of %d ticks and more, %.3f s of a processor each\n", count, ticks, runs / count
    printf "all %.1f s of a processor, the runs %.1f s: a ratio of %.3f (goal: 1.1), %.1f ms a run around it\n", took[1] + took[2], runs, (took[1] + took[2]) / runs,
        1000 * (took[1] + took[2] - runs) / count
    printf "by the clock %.1f s; the runs over %d processors %.1f s: a ratio of %.2f\n", took[3], processors, runs / processors, took[3] * processors / runs
    printf "once more, with all there: %.1f s of a processor, %.1f ms a run\n", after[1] + after[2], 1000 * (after[1] + after[2]) / count
}'
du -sk results | awk -v count="$runs" '{ printf "results: %.0f kB a run\n", $1 / count }'
