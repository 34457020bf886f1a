#!/usr/bin/env bash
# Times `resume` of the demonstration pair, saved at 1,000,000 ticks. It resumes to the saved tick,
# beside both replays of its trace, and to 10,000,000 ticks, beside `solo` of the same length, five
# times each and in turn. It prints the fastest of each in milliseconds.
. "$(dirname "$0")/common.sh"

"$launcher" asm 6502 "$top/examples/demo-os.asm" os
"$launcher" asm 65c02 "$top/examples/demo-tube.asm" tube
"$launcher" solo 1000000 saved --os os --tube tube --save session

# fastest WORDS..: the least milliseconds of five calls
fastest() {
    local least= before after
    for _ in 1 2 3 4 5; do
        before=$(date +%s%N)
        "$program" "$@"
        after=$(date +%s%N)
        if [ -z "$least" ] || [ $((after - before)) -lt "$least" ]; then
            least=$((after - before))
        fi
    done
    echo $((least / 1000000))
}

echo "resume 1000000: $(fastest resume session 1000000 out) ms"
echo "replay host 1000000: $(fastest replay host saved.trace 1000000 out --os os) ms"
echo "replay para 1000000: $(fastest replay para saved.trace 1000000 out --tube tube) ms"
echo "resume 10000000: $(fastest resume session 10000000 out) ms"
echo "solo 10000000: $(fastest solo 10000000 out --os os --tube tube) ms"
