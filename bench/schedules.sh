#!/usr/bin/env bash
# schedules.sh [--tiny] [N [SEED]]: runs N random pairs of programs (1000 by default) by `run`, each
# beside `solo` with the same arguments. It does so without load, with both threads on one
# processor, and with loads that delay one thread or the other. The programs compute, poll,
# transfer, take interrupts of the Tube and of a timer, set its control flags, and reset the second
# processor on the way. It prints for each load how many runs were done, how many had interrupts and
# resets, how many accesses to the Tube they made, and how many differed in a byte of their files.
# The status is 0 if none differed. The same seed makes the same programs.
#
# --tiny proves, builds and runs a copy of this checkout whose second processor goes ahead by a few
# ticks at a time. So it is taken back, or waits, in the middle of everything. BEEBTUBE=PROGRAM (see
# common.sh) runs a program that was built by other means.
. "$(dirname "$0")/common.sh"

# Sets the number of this name in the copy's file of strides.
constant() { # NAME NUMBER
    grep -q "const $1: u64 = [0-9_]*;" "$strides" || { echo "no constant $1 in $strides"; exit 1; }
    sed -i "s/const $1: u64 = [0-9_]*;/const $1: u64 = $2;/" "$strides"
}

if [ "${1:-}" = --tiny ]; then
    shift
    [ -z "${BEEBTUBE:-}" ] || { echo '--tiny builds a program of its own: no BEEBTUBE beside it'; exit 1; }
    mkdir tiny
    tar -C "$top" --exclude=.git -cf - . | tar -C tiny -xf -
    strides=tiny/crates/session/src/stride.rt
    constant FIRST 3
    constant FEWEST 1
    # A span from one mark has several strides, if the program has such spans.
    if grep -q 'const SPAN' "$strides"; then
        constant MOST 9
        constant SPAN 40
    else
        constant MOST 40
    fi
    launcher=$work/tiny/beebtube
    program=$work/tiny/crates/beebtube/out/beebtube
fi

count=${1:-1000}
RANDOM=${2:-1}
last=$(($(nproc) - 1))

# below N: a random number below N, into `some`
below() { some=$(((RANDOM * 32768 + RANDOM) % $1)); }

# A loop that takes some time: `X` and `Y` are lost.
delay() {
    below 4
    local outer=$((some + 1))
    below 256
    echo "        LDY #$outer"
    echo "d$label:   LDX #$some"
    echo "e$label:   DEX"
    echo "        BNE e$label"
    echo "        DEY"
    echo "        BNE d$label"
}

# A transfer of some bytes by one of the four registers, whose status lies at base + 2 * register. It waits for room or for a byte by the
# status, or does not. Some programs stop in the middle of one.
transfer() { # BASE
    below 4
    local status=$(($1 + 2 * some))
    below 24
    local bytes=$((some + 1)) waits stops way
    below 4
    waits=$some
    below 12
    stops=$some
    below 2
    way=$some
    echo "        LDX #$bytes"
    echo "t$label:   INC &80"
    if [ "$waits" != 0 ]; then
        printf 'w%s:   BIT &%04X\n' "$label" "$status"
        if [ "$way" = 0 ]; then echo "        BVC w$label"; else echo "        BPL w$label"; fi
    fi
    if [ "$way" = 0 ]; then
        echo "        TXA"
        echo "        EOR &80"
        printf '        STA &%04X\n' $((status + 1))
    else
        printf '        LDA &%04X\n' $((status + 1))
        echo "        STA &0300,X"
    fi
    if [ "$stops" = 0 ]; then
        below "$bytes"
        echo "        CPX #$((some + 1))"
        echo "        BNE s$label"
        echo "h$label:   JMP h$label"
        echo "s$label:   NOP"
    fi
    echo "        DEX"
    echo "        BNE t$label"
}

# Status reads of one register, which wait for nothing.
polls() { # BASE
    below 4
    local status=$(($1 + 2 * some))
    below 256
    echo "        LDX #$some"
    printf 'p%s:   BIT &%04X\n' "$label" "$status"
    echo "        DEX"
    echo "        BNE p$label"
}

# The host sets some of the flags Q, I, J, M and V, or clears them. One time in eight it clears the registers too.
flags() { # BASE
    below 32
    local byte=$some
    below 2
    byte=$((byte + 128 * some))
    below 8
    [ "$some" != 0 ] || byte=$((byte + 64))
    printf '        LDA #%d\n        STA &%04X\n' "$byte" "$1"
}

# The host holds the second processor in reset for a while, and lets it go.
resets() { # BASE
    below 256
    printf '        LDA #&A0\n        STA &%04X\n' "$1"
    echo "        LDX #$some"
    echo "r$label:   DEX"
    echo "        BNE r$label"
    printf '        LDA #&20\n        STA &%04X\n' "$1"
}

# The host's timer asks for an interrupt again and again.
timer() {
    below 8
    echo '        LDA #&40'
    echo '        STA &FE4B'
    case $some in
        0) below 4000 ;;
        [1-3]) below 1000 ;;
        *) below 200 ;;
    esac
    printf '        LDA #<%d\n        STA &FE44\n        LDA #>%d\n        STA &FE45\n' $((some + 60)) $((some + 60))
    echo '        LDA #&C0'
    echo '        STA &FE4E'
}

# A handler, which takes a byte of a register, and sends one back or does not.
handler() { # LABEL BASE REGISTER COUNTER
    echo "$1:    PHA"
    [ "$2" != "$host" ] || echo '        LDA &FE44'
    printf '        LDA &%04X\n        INC &%s\n' $(($2 + 2 * $3 + 1)) "$4"
    below 4
    [ "$some" = 0 ] || printf '        STA &%04X\n' $(($2 + 2 * $3 + 1))
    printf '        PLA\n        RTI\n'
}

# A program of some parts in a circle, with handlers of interrupts.
program_of() { # ORG BASE
    printf '        org &%04X\n' "$1"
    echo 'begin:  LDX #255'
    echo '        TXS'
    if [ "$2" = "$host" ]; then
        below 4
        # mostly the second processor copies its program meanwhile, and is ready for interrupts
        [ "$some" = 0 ] || printf '        LDX #0\nmean:   NOP\n        DEX\n        BNE mean\n'
        below 3
        [ "$some" = 0 ] || timer
        below 4
        if [ "$some" != 0 ]; then
            # some of the flags Q, M and V, and both interrupts of the second processor
            below 32
            printf '        LDA #%d\n        STA &%04X\n' $((128 + (some | 6))) "$2"
        fi
    fi
    below 3
    [ "$some" = 0 ] || echo '        CLI'
    echo 'again:  CLD'
    below 5
    local parts=$((some + 1))
    for label in $(seq "$parts"); do
        below 12
        case $some in
            [0-2]) delay ;;
            [3-4]) polls "$2" ;;
            5) if [ "$2" = "$host" ]; then resets "$2"; else delay; fi ;;
            6) if [ "$2" = "$host" ]; then flags "$2"; else polls "$2"; fi ;;
            *) transfer "$2" ;;
        esac
    done
    echo '        JMP again'
    below 4
    handler irq "$2" "$some" 81
    handler nmi "$2" 2 82
    # The boot ROM goes with the first access to the Tube, so that the second processor runs from its RAM: all before this and the
    # vectors are copied. A part has at most 26 bytes, and the rest at most 40.
    if [ "$2" = "$host" ]; then
        echo 'start:  JMP begin'
    else
        printf 'start:  LDX #%d\ncode:   LDA &F7FF,X\n        STA &F7FF,X\n        DEX\n        BNE code\n' $((40 + 26 * parts))
        printf '        LDX #6\nvector: LDA &FFF9,X\n        STA &FFF9,X\n        DEX\n        BNE vector\n        JMP begin\n'
    fi
    echo '        org &FFFA'
    echo '        word nmi, start, irq'
}

# Whether the program counted an interrupt or an NMI in this memory.
interrupted() { # MEMORY
    [ "$(od -An -tx2 -j129 -N2 "$1")" != ' 0000' ]
}

# limited WORD..: a command in place of this shell, which ends where it works for a minute. (What waits for its threads has no such limit.)
limited() {
    ulimit -t 60
    exec "$@"
}

# work_with LOAD WORD..: the program with these arguments, while a load delays its threads.
work_with() {
    local load=$1
    shift
    case $load in
        none) (limited "$program" "$@") ;;
        one | one-loaded) (limited taskset -c 0 "$program" "$@") ;;
        half-loaded) (limited taskset -c "0,1" "$program" "$@") ;;
        loaded) (limited taskset -c "0,$last" "$program" "$@") ;;
        *)
            # both threads begin beside a spinner, and then one goes to another processor: the other alone is delayed
            (limited taskset -c 0 "$program" "$@") &
            case $load in
                host-delayed) move_thread $! 0 "1-$last" ;;
                *) move_thread $! 1 "1-$last" ;;
            esac
            wait $!
            ;;
    esac
}

# Spinners on the first processor and on the last, which go on only while a run has a load. They give way to the program mostly, since a
# thread that lets another have its processor waits for a spinner's whole turn.
nice -n 15 taskset -c 0 bash -c 'while :; do :; done' &
first_spinner=$!
nice -n 15 taskset -c "$last" bash -c 'while :; do :; done' &
last_spinner=$!
disown -a
kill -STOP "$first_spinner" "$last_spinner"
trap 'kill -KILL "$first_spinner" "$last_spinner"; rm -rf "$work"' EXIT

# The loads in turn, each with the spinners that go on and the ticks below which its longest runs are: the more each wait takes, the fewer.
loads=(none one one-loaded half-loaded loaded host-delayed second-delayed)
spinners=('' '' "$first_spinner" "$first_spinner" "$first_spinner $last_spinner" "$first_spinner" "$first_spinner")
longest=(100000 100000 40000 60000 60000 40000 40000)

host=$((0xFEE0))
para=$((0xFEF8))
"$launcher" check "$top/examples/nmi.trace" >said
differed=0
accesses=0
host_interrupted=0
second_interrupted=0
reset=0
done_runs=(0 0 0 0 0 0 0)
for number in $(seq "$count"); do
    program_of $((0xC000)) "$host" >os.asm
    program_of $((0xF800)) "$para" >tube.asm
    "$program" asm 6502 os.asm os
    "$program" asm 65c02 tube.asm tube
    turn=$((number % ${#loads[@]}))
    load=${loads[turn]}
    # one run in eight is very short, and ends about where the programs begin
    below 8
    if [ "$some" = 0 ]; then below 2000; else below "${longest[turn]}"; fi
    ticks=$some
    below 3
    if [ "$some" = 0 ]; then below 2000; keep=$some; else keep=1048576; fi
    words="--os os --tube tube --keep $keep"
    "$program" solo "$ticks" one $words
    same=yes
    [ -z "${spinners[turn]}" ] || kill -CONT ${spinners[turn]}
    work_with "$load" run "$ticks" two $words || same=no
    [ -z "${spinners[turn]}" ] || kill -STOP ${spinners[turn]}
    for part in report host para trace; do
        cmp -s "one.$part" "two.$part" || same=no
    done
    done_runs[turn]=$((done_runs[turn] + 1))
    accesses=$((accesses + $(sed -n 's/^tube //p' one.report)))
    ! interrupted one.host || host_interrupted=$((host_interrupted + 1))
    ! interrupted one.para || second_interrupted=$((second_interrupted + 1))
    ! grep -q ' H W 0 20$' one.trace || reset=$((reset + 1))
    if [ "$same" = no ]; then
        differed=$((differed + 1))
        echo "differs: number $number, load $load, $ticks ticks, keep $keep"
        tail -n +1 os.asm tube.asm
    fi
    rm -f one.* two.*
done
for turn in "${!loads[@]}"; do
    echo "${loads[turn]}: ${done_runs[turn]} runs"
done
echo "interrupts of the host in $host_interrupted, of the second processor in $second_interrupted, resets of it in $reset"
echo "$count runs done, $accesses accesses to the Tube, $differed differed"
[ "$differed" = 0 ]
