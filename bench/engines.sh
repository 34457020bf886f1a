#!/usr/bin/env bash
# engines.sh [--runs N] [--ticks N] [--small N] [--batch N] [--said] [ENGINE ..]: does one
# collection by `tools/suite` alone and by engines of other people, and compares the tables.
#
# The engines are `parallel` (GNU parallel over ssh, to two machines that are both this one),
# `slurm` (an array, with one controller and two nodes, all on this machine) and `snakemake`;
# without ENGINE all three. The script starts what an engine needs (sshd, munged, slurmctld, slurmd)
# in a folder of its own and on ports of its own, and ends it by its number. If an engine is not
# installed, the script says so and goes on. Debian's packages are parallel, openssh-server;
# slurm-wlm, munge; snakemake.
#
# The collection has N runs (16 by default) of the typed text, each with a length of its own. One
# more has a name with signs that are special for shells and pages, and one more is refused. A line
# for each engine has the CPU seconds of the runs themselves, of the tool around them (Python,
# checksums, frames, pages) and of the engine, and the seconds by the clock. --said prints the
# engine's output. The status is 1 if a table differs.
#
# With --small N the collection is a folder of N discs with a file of 256 bytes each. A run of such
# a disc has 100,000 ticks, 1/60 s of machine time, and a shot. With --batch N a job has N runs.
. "$(dirname "$0")/common.sh"
runs=16 ticks=12000000 is_heard='' small='' batch=1
while [ $# -gt 0 ]; do
    case $1 in
        --runs) runs=$2 && shift ;;
        --ticks) ticks=$2 && shift ;;
        --small) small=$2 && shift ;;
        --batch) batch=$2 && shift ;;
        --said) is_heard=yes ;;
        *) break ;;
    esac
    shift
done
[ $# -gt 0 ] || set -- parallel slurm snakemake
started=()
end() {
    local at
    # The last that was started is the first that is ended.
    for ((at = ${#started[@]} - 1; at >= 0; at--)); do
        kill "${started[at]}" 2>/dev/null || true
        wait "${started[at]}" 2>/dev/null || true
    done
    started=()
}
trap 'end; rm -rf "$work"' EXIT
failed=0

# --- The collection ---

one_by_one() {
    "$top/examples/typing.sh" "$work"
    "$top/tools/type" --start 0.1 --shot 'Hi!{RETURN}' >hi.keys 2>told
    echo 'name,ticks,disc0'
    for ((at = 1; at <= runs; at++)); do
        seq "$at" 400 | head -c 1024 >"disc $at.ssd"
        echo "disc $at,$((ticks + at)),disc $at.ssd"
    done
    echo "it's <b>&\$(id)\`id\`,$ticks,disc 1.ssd"
    head -c 204801 /dev/zero >long.ssd
    echo "long,$ticks,long.ssd"
}
# A disc has a catalogue with one file, which is different on each disc.
small_discs() {
    python3 -c 'import os, sys
for at in range(int(sys.argv[1])):
    head = b"D%07dFILE   $" % at + bytes(240)
    head += bytes(5) + b"\x08\3\x20" + b"\0\x19\0\x19\0\1\0\2" + bytes(240)
    with open("discs/disc%05d.ssd" % at, "wb") as disc:
        disc.write(head + b"%256d" % at)' "$1"
}
if [ -n "$small" ]; then
    mkdir discs && small_discs "$small"
    "$top/beebtube" asm 6502 "$top/examples/disc-os.asm" os
    runs=$((small - 2)) ticks=100000 list=discs more=(--ticks 100000 --shot) words=(--os os)
else
    one_by_one >list.csv
    list=list.csv more=() words=(--os os --tube tube --font font --keys hi.keys)
fi
bare() { # RESULTS: the table without what differs each time
    python3 -c 'import csv, sys
for row in csv.DictReader(open(sys.argv[1] + "/results.csv")):
    print({name: cell for name, cell in row.items() if name not in ("seconds", "processor")})' "$1"
}

# The sum of a column of a table, or of the lines of a file.
sum_of() { # RESULTS COLUMN
    python3 -c 'import csv, sys
print("%.2f" % sum(float(row[sys.argv[2]] or 0) for row in csv.DictReader(open(sys.argv[1] + "/results.csv"))))' "$1" "$2"
}
added() { awk '{ for (at = 1; at <= NF; at++) all += $at } END { printf "%.2f", all }' "$@"; }
jobs_took() { cat "times.$1"/* | cut -d' ' -f1,2 | added; } # ENGINE
# The CPU seconds that processes took, and their children that have ended.
taken() { # PID ..
    local pid
    for pid; do
        cut -d')' -f2- "/proc/$pid/stat" 2>/dev/null
    done | awk -v each="$(getconf CLK_TCK)" '{ all += $12 + $13 + $14 + $15 } END { printf "%.2f", all / each }'
}
tell() { # ENGINE RUNS JOBS ENGINE-SECONDS CLOCK
    awk -v name="$1" -v runs="$2" -v jobs="$3" -v engine="$4" -v clock="$5" -v count="$((runs + 2))" 'BEGIN {
        printf "%s: %d runs, %.2f s of a processor: the runs %.2f (%.0f %%), the tool %.2f (%.0f %%), the engine %.2f (%.0f %%); by the clock %.1f s\n", name,
            count, jobs + engine, runs, 100 * runs / (jobs + engine), jobs - runs, 100 * (jobs - runs) / (jobs + engine), engine, 100 * engine / (jobs + engine), clock
    }'
}

# The most memory that a process had, of lines with the processor's seconds before it; and the disk that a folder of results takes.
room() { # RESULTS FILE ..
    echo "$1: a process had at most $(cat "${@:2}" | cut -d' ' -f3 | sort -n | tail -n 1) kB of memory; the results have $(du -sk "$1" | cut -f1) kB on the disk"
}

TIMEFORMAT='%U %S %R'
echo "$(nproc) processors; $((runs + 2)) runs of $ticks ticks and more"
/usr/bin/time -q -f '%U %S %M %e' -o times "$top/tools/suite" "${more[@]}" "$list" alone -- "${words[@]}" >said || true
tail -n 2 said
room alone times
tell 'tools/suite alone' "$(sum_of alone processor)" "$(cut -d' ' -f1,2 times | added)" 0 "$(cut -d' ' -f4 times)"

# Each job as a command that leaves its CPU seconds in a file of its own, too.
make_jobs() { # ENGINE
    mkdir "times.$1"
    "$top/tools/suite" --jobs --batch "$batch" "${more[@]}" "$list" "$1" -- "${words[@]}" >"plain.$1"
    awk -v times="$work/times.$1" '{ printf "/usr/bin/time -f \"%%U %%S %%M\" -o %s/%d %s\n", times, NR, $0 }' "plain.$1" >"jobs.$1"
}

heard() { # FILE
    [ -z "$is_heard" ] || sed 's/^/    /' "$1"
}

gather() { # ENGINE
    "$top/tools/suite" --gather "${more[@]}" "$list" "$1" -- "${words[@]}" >gathered || true
    tail -n 1 gathered
    room "$1" "times.$1"/*
    if diff <(bare alone) <(bare "$1") >differs; then
        echo "$1: the table is that of tools/suite alone"
    else
        echo "$1: the table is another one"
        head -n 20 differs
        failed=1
    fi
}

lacks() { # ENGINE COMMAND ..
    local command
    for command in "${@:2}"; do
        if ! PATH=$PATH:/usr/sbin command -v "$command" >/dev/null; then
            echo "$1: $command is not installed: nothing was tried"
            return 0
        fi
    done
    return 1
}

# --- GNU parallel over ssh ---

by_parallel() {
    lacks parallel parallel ssh sshd ssh-keygen && return
    local port=$((20000 + $$ % 10000))
    ssh-keygen -q -t ed25519 -N '' -f host_key && ssh-keygen -q -t ed25519 -N '' -f own_key
    cat >sshd.conf <<CONF
Port $port
ListenAddress 127.0.0.1
HostKey $work/host_key
AuthorizedKeysFile $work/own_key.pub
PidFile none
StrictModes no
UsePAM no
PasswordAuthentication no
PermitRootLogin yes
SetEnv HOME=$work
CONF
    cat >ssh.conf <<CONF
Host first second
    HostName 127.0.0.1
    Port $port
    IdentityFile $work/own_key
    IdentitiesOnly yes
    StrictHostKeyChecking accept-new
    UserKnownHostsFile $work/known_hosts
    LogLevel ERROR
CONF
    [ "$(id -u)" != 0 ] || mkdir -p /run/sshd
    "$(PATH=$PATH:/usr/sbin command -v sshd)" -D -e -f "$work/sshd.conf" 2>sshd.log &
    started+=($!)
    for _ in {1..50}; do ssh -F ssh.conf first true 2>/dev/null && break || sleep 0.2; done
    ssh -F ssh.conf second true || { echo 'parallel: no machine answers' && cat sshd.log && failed=1 && return; }
    make_jobs parallel
    { time HOME=$work parallel --will-cite --ssh "ssh -F $work/ssh.conf" --sshlogin 2/first,2/second --joblog joblog <jobs.parallel >said || true; } 2>times
    heard said
    echo "parallel: jobs by machine: $(sed 1d joblog | cut -f2 | sort | uniq -c | awk '{ printf "%s%s %d", (NR == 1 ? "" : ", "), $2, $1 }')"
    gather parallel
    # What sshd took has its sessions, and with them the jobs.
    tell parallel "$(sum_of parallel processor)" "$(jobs_took parallel)" \
        "$({ tail -n 1 times | cut -d' ' -f1,2; taken "${started[@]}"; } | awk -v jobs="$(jobs_took parallel)" '{ all += $1 + $2 } END { print all - jobs }')" \
        "$(tail -n 1 times | cut -d' ' -f3)"
    end
}

# --- A Slurm array ---

by_slurm() {
    lacks slurm sbatch slurmctld slurmd munged && return
    local name port=$((30000 + $$ % 10000)) node
    name=$(hostname -s)
    mkdir -p controller node1 node2 munge && chmod 755 "$work" && chmod 700 munge
    head -c 1024 /dev/urandom >munge/key && chmod 400 munge/key
    cat >slurm.conf <<CONF
ClusterName=try
SlurmctldHost=$name(127.0.0.1)
SlurmUser=$(id -un)
SlurmdUser=$(id -un)
AuthType=auth/munge
CredType=cred/munge
AuthInfo=socket=$work/munge.socket
SlurmctldPort=$port
SlurmctldPidFile=$work/controller.pid
SlurmctldLogFile=$work/controller.log
SlurmdPidFile=$work/%n.pid
SlurmdLogFile=$work/%n.log
SlurmdSpoolDir=$work/%n
StateSaveLocation=$work/controller
ProctrackType=proctrack/linuxproc
TaskPlugin=task/none
JobAcctGatherType=jobacct_gather/none
SelectType=select/cons_tres
SelectTypeParameters=CR_CPU
SwitchType=switch/none
MpiDefault=none
ReturnToService=2
NodeName=node[1-2] NodeHostname=$name NodeAddr=127.0.0.1 Port=[$((port + 1))-$((port + 2))] CPUs=2 State=UNKNOWN
PartitionName=all Nodes=node[1-2] Default=YES MaxTime=INFINITE State=UP
CONF
    export SLURM_CONF=$work/slurm.conf PATH=$PATH:/usr/sbin
    munged --foreground --force --socket="$work/munge.socket" --key-file="$work/munge/key" --pid-file="$work/munge/pid" --log-file="$work/munge/log" \
        --seed-file="$work/munge/seed" >munged.out 2>&1 &
    started+=($!)
    for _ in {1..50}; do [ -S munge.socket ] && break || sleep 0.2; done
    slurmctld -D >controller.out 2>&1 &
    started+=($!)
    for node in node1 node2; do
        slurmd -D -N "$node" >"$node.out" 2>&1 &
        started+=($!)
    done
    for _ in {1..100}; do [ "$(sinfo -h -t idle -o %D 2>/dev/null)" = 2 ] && break || sleep 0.2; done
    sinfo >nodes || { echo 'slurm: no controller answers' && tail -n 5 ./*.out ./*.log && failed=1 && return; }
    heard nodes
    make_jobs slurm
    # Four tasks, each of which does every fourth line.
    { time sbatch --wait --array=0-3 --output="$work/task.%a" --wrap "
        echo \$SLURMD_NODENAME >>node.\$SLURM_ARRAY_TASK_ID; sed -n \"\$((SLURM_ARRAY_TASK_ID + 1))~4p\" jobs.slurm | sh" >said || true; } 2>times
    heard said
    echo "slurm: tasks by node: $(cat node.? | sort | uniq -c | awk '{ printf "%s%s %d", (NR == 1 ? "" : ", "), $2, $1 }')"
    gather slurm
    tell slurm "$(sum_of slurm processor)" "$(jobs_took slurm)" "$({ tail -n 1 times | cut -d' ' -f1,2; taken "${started[@]}"; } | added)" "$(tail -n 1 times | cut -d' ' -f3)"
    end
}

# --- Snakemake ---

by_snakemake() {
    lacks snakemake snakemake && return
    make_jobs snakemake
    { time HOME=$work snakemake --snakefile "$top/examples/Snakefile" --config jobs=jobs.snakemake --cores "$(nproc)" --keep-going --quiet >said 2>&1 || true; } 2>times
    heard said
    gather snakemake
    tell snakemake "$(sum_of snakemake processor)" "$(jobs_took snakemake)" \
        "$(tail -n 1 times | awk -v jobs="$(jobs_took snakemake)" '{ print $1 + $2 - jobs }')" "$(tail -n 1 times | cut -d' ' -f3)"
}

for engine; do
    case $engine in
        parallel | slurm | snakemake) "by_$engine" ;;
        *) echo "no engine is called $engine" && exit 2 ;;
    esac
done
exit "$failed"
