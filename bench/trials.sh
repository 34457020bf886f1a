#!/usr/bin/env bash
# trials.sh [N [SEED]]: makes N trials (1,000,000 by default) of each kind of crates/trials, on all
# processors. Random programs of the second processor and of the host, and single instructions of
# both at edges, run by whole instructions and cycle by cycle. Random acts on the host's bus run
# with devices that lag, and beside a bus that steps them at each tick. It prints how many trials
# were done, in how many seconds, and for each processor the first seed that differs. The status is
# 0 if none differs. The same seed (1 by default) makes the same trials.
#
# `rt run` in crates/trials proves the program and builds it, in crates/trials/out. TRIALS=PROGRAM
# runs one that was built by other means.
. "$(dirname "$0")/common.sh"

trials=$top/crates/trials/out/trials
if [ -n "${TRIALS:-}" ]; then
    cd "$OLDPWD"
    trials=$(realpath "$TRIALS")
    cd "$work"
elif [ -n "$(cd "$top/crates/trials" && rt run -- all 1 1 </dev/null >"$work/said" 2>&1 || echo failed)" ]; then
    tail -n 20 said
    exit 1
fi

count=${1:-1000000}
seed=${2:-1}
parts=$(nproc)
each=$(((count + parts - 1) / parts))
status=0
for kind in 65c02 6502 edges acts; do
    begun=$(date +%s)
    tasks=()
    for part in $(seq "$parts"); do
        "$trials" "$kind" $((seed + (part - 1) * each)) "$each" >"$kind.$part" &
        tasks+=($!)
    done
    failed=0
    for task in "${tasks[@]}"; do
        wait "$task" || failed=$((failed + 1))
    done
    if [ "$failed" = 0 ]; then
        echo "$kind: $((parts * each)) tried, 0 differ, $(($(date +%s) - begun)) s"
    else
        grep -hv ' tried, 0 differ$' "$kind".* || echo "$kind: $failed of $parts did not end"
        status=1
    fi
done
exit "$status"
