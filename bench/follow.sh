#!/usr/bin/env bash
# Times `follow` of both sides of the demonstration pair against its trace of 1,000,000 ticks,
# beside the same `replay`, five times each. It lists all instructions, and those at an address that
# the program never reaches. It prints the fastest of each in milliseconds, and how many lines a
# listing has.
. "$(dirname "$0")/common.sh"

"$launcher" asm 6502 "$top/examples/demo-os.asm" os
"$launcher" asm 65c02 "$top/examples/demo-tube.asm" tube
"$launcher" solo 1000000 saved --os os --tube tube

# fastest WORDS..: the least milliseconds of five calls
fastest() {
    local least= before after
    for _ in 1 2 3 4 5; do
        before=$(date +%s%N)
        "$program" "$@" >said
        after=$(date +%s%N)
        if [ -z "$least" ] || [ $((after - before)) -lt "$least" ]; then
            least=$((after - before))
        fi
    done
    echo $((least / 1000000))
}

for side in 'host --os os' 'para --tube tube'; do
    read -r name option image <<<"$side"
    echo "replay $name: $(fastest replay "$name" saved.trace 1000000 out "$option" "$image") ms"
    echo "follow $name --at FFF0: $(fastest follow "$name" saved.trace 1000000 out "$option" "$image" --at FFF0) ms"
    echo "follow $name: $(fastest follow "$name" saved.trace 1000000 out "$option" "$image") ms, $(cat said)"
done
