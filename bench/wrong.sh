#!/usr/bin/env bash
# wrong.sh [CRATE..]: applies the edits of bench/wrong.edits one by one in a copy of this checkout,
# or those of these crates alone. It shows that the check of their crate refuses each because of its
# contract. The gate tries edits of its own (must-fail/, docs/GATE.md). These here are of the same
# kinds, and not in the gate since each costs a check. It prints which edits are not refused, and
# how many are. The status is 0 if all are refused.
. "$(dirname "$0")/common.sh"

mkdir copy
tar -C "$top" --exclude=out --exclude=must-fail -cf - crates crates.txt HANDLES | tar -C copy -xf -

# The table: blocks parted by an empty line, each a crate and a name, and then the lines of the edit.
awk -v wanted=" $* " '
    /^#/ { next }
    /^$/ { file = ""; next }
    file == "" {
        if (wanted != "  " && !index(wanted, " " $1 " ")) { file = "left-out"; next }
        if (!(($1) in seen)) { seen[$1]; print $1 }
        system("mkdir -p copy/crates/" $1 "/must-fail")
        file = "copy/crates/" $1 "/must-fail/" $2 ".edit"
        next
    }
    file != "left-out" { print >>file; close(file) }' "$top/bench/wrong.edits" >crates

refused=0 others=0
while read -r crate; do
    (cd copy && rt must-fail "$crate") >said 2>&1 </dev/null || true
    tried=$(find "copy/crates/$crate/must-fail" -name '*.edit' | wc -l)
    found=$(grep -c "^rt: must-fail $crate/.*: refused, as it must be" said || true)
    echo "$crate: $found of $tried refused"
    [ "$found" = "$tried" ] || grep "^rt: must-fail $crate/" said | grep -v 'refused, as it must be' || tail -n 5 said
    refused=$((refused + found)) others=$((others + tried - found))
done <crates
echo "$refused refused, $others not"
[ "$others" = 0 ]
