#!/usr/bin/env bash
# Times accesses through the cell that both sides share. One thread makes 4,000,000 accesses, by
# both sides in turn. Then each side makes 2,000,000 on a thread of its own, on two processors and
# on one; a side that is not admitted rests. Every access waits for the other side's horizon, and
# each try has one load. The script makes, proves and builds the timed program in a folder of its
# own, on the crates that it needs.
. "$(dirname "$0")/common.sh"

needed='digits beeb_bits tube_chip tube_trace tube_cell'
mkdir -p crates/cell_times/src
for name in $needed; do
    cp -r "$top/crates/$name" crates/
    grep "^$name:" "$top/crates.txt" >>crates.txt
done
echo 'cell_times: beeb_bits tube_chip tube_cell crossbeam_utils atomic_table' >>crates.txt
cp "$top/HANDLES" .
cat >crates/cell_times/src/main.rt <<'RATTLE'
//! Accesses through the cell: with the word `one` on one thread, else on two.
#![tactic(auto)]
ghost use Rattle.std.specs.Prelude.{◌≡◌, ◌+◌, ◌<◌, ◌≤◌, ◌^◌, [], IsTrue, IsFalse};
ghost use Rattle.beeb_bits.specs.declared.Side.TheVariants.{Host, Para};
ghost use Rattle.tube_cell.specs.Passes.{own_horizon};

use beeb_bits::{Side, Tick};
use crossbeam_utils::Backoff;
use std::env;
use std::process::ExitCode;
use std::sync::Wait;
use std::thread::join;
use tube_cell::{Pass, TubeCell};
use tube_chip::Op;

const ACCESSES: u64 = 2_000_000;

// The tries after which a side that is not admitted gives up.
const TRIES: u64 = 1_000_000_000;

// The own horizon past all ticks, so that the other side gets on.
fn end<R: Wait>(rt: &R, cell: &TubeCell, pass: &mut Pass)
    requires cell { pass.old.cell ≡ cell.now }
    requires published { pass.old.ahead ≡ [] }
    requires later { own_horizon pass.old ≤ 2 ^ 30 }
    ensures same { (pass.new.cell ≡ pass.old.cell) × (pass.new.side ≡ pass.old.side) × (pass.new.ahead ≡ []) }
{
    for _ in 0..TRIES {
        if cell.raise(rt, pass, Tick(1 << 30)) {
            return;
        }
    }
}

// A load, and then the status read at t where it is admitted.
fn attempt<R: Wait>(rt: &R, cell: &TubeCell, pass: &mut Pass, t: u64) -> bool
    requires cell { pass.old.cell ≡ cell.now }
    requires published { pass.old.ahead ≡ [] }
    requires later { (own_horizon pass.old ≤ t) × (t < 2 ^ 30) }
    ensures same { (pass.new.cell ≡ pass.old.cell) × (pass.new.side ≡ pass.old.side) × (pass.new.ahead ≡ []) }
    ensures done { IsTrue result → own_horizon pass.new ≤ t + 1 }
    ensures not_done { IsFalse result → own_horizon pass.new ≤ t }
{
    cell.learn(rt, pass);
    let other = cell.other(pass).0;
    let is_admitted = match pass.side() {
        Side::Host => t <= other,
        Side::Para => t < other,
    };
    is_admitted && cell.commit(rt, pass, Tick(t), Op::Read(0)).is_some()
}

// The status read at t once it is admitted.
fn access<R: Wait>(rt: &R, cell: &TubeCell, pass: &mut Pass, t: u64)
    requires cell { pass.old.cell ≡ cell.now }
    requires published { pass.old.ahead ≡ [] }
    requires later { (own_horizon pass.old ≤ t) × (t < 2 ^ 30) }
    ensures same { (pass.new.cell ≡ pass.old.cell) × (pass.new.side ≡ pass.old.side) × (pass.new.ahead ≡ []) }
    ensures later { own_horizon pass.new ≤ t + 1 }
{
    let backoff = Backoff::new();
    for _ in 0..TRIES {
        if attempt(rt, cell, pass, t) {
            return;
        }
        backoff.snooze();
    }
}

// Accesses of one side, one a tick.
fn work<R: Wait>(rt: &R, cell: &TubeCell, pass: Pass)
    requires cell { pass.cell ≡ cell.now }
    requires published { pass.ahead ≡ [] }
    requires later { own_horizon pass ≤ 0 }
{
    let mut pass = pass;
    for t in 0..ACCESSES {
        access(rt, cell, &mut pass, t);
    }
    end(rt, cell, &mut pass);
}

// Accesses of both sides in turn, before each of which the other side raises its horizon.
fn in_turn<R: Wait>(rt: &R, cell: &TubeCell, host: Pass, para: Pass)
    requires cells { (host.cell ≡ cell.now) × (para.cell ≡ cell.now) }
    requires published { (host.ahead ≡ []) × (para.ahead ≡ []) }
    requires later { (own_horizon host ≤ 0) × (own_horizon para ≤ 0) }
{
    let mut host = host;
    let mut para = para;
    for t in 0..ACCESSES {
        access(rt, cell, &mut host, t);
        access(rt, cell, &mut para, t);
    }
}

fn main(rt: HostRuntime) -> ExitCode {
    let Ok((cell, whole)) = TubeCell::make(rt.alloc()) else {
        return ExitCode::from(7);
    };
    let (host, para) = cell.split(&rt, whole);
    let is_alone = match env::args(&rt) {
        Ok(args) => args.count() > 1,
        Err(_) => return ExitCode::from(7),
    };
    if is_alone {
        in_turn(&rt, &cell, host, para);
    } else {
        let shared = &cell;
        join(
            &rt,
            move || -> ()
                requires cell { host.cell ≡ shared.now }
                requires published { host.ahead ≡ [] }
                requires later { own_horizon host ≤ 0 }
            { work(&rt, shared, host) },
            move || -> ()
                requires cell { para.cell ≡ shared.now }
                requires published { para.ahead ≡ [] }
                requires later { own_horizon para ≤ 0 }
            { work(&rt, shared, para) },
        );
    }
    ExitCode::from(0)
}
RATTLE

# What a loop keeps: the pass, and how far its horizon is.
invariant() { # FUNCTION INVARIANT
    mkdir -p "crates/cell_times/proofs/$1"
    cat >"crates/cell_times/proofs/$1/Invariants.antt" <<ANTT
use Rattle.std.proofs.Common.{◌≡◌, ◌≤◌, ◌+◌, ◌^◌, []}
use Rattle.tube_cell.specs.Passes.{own_horizon}
use Rattle.cell_times.proofs.$1.Given as goal

$2
ANTT
}
same='(l.pass.cell ≡ l.initial.pass.cell) × (l.pass.side ≡ l.initial.pass.side) × (l.pass.ahead ≡ [])'
invariant access "abbrev pub invariant-loop : goal.invariant-loop
invariant-loop g l = $same × (own_horizon l.pass ≤ l.t)"
invariant end "abbrev pub invariant-loop : goal.invariant-loop
invariant-loop g l = $same × (own_horizon l.pass ≤ 2 ^ 30)"
invariant work "abbrev pub invariant-loop-t : goal.invariant-loop-t
invariant-loop-t g l = $same × (own_horizon l.pass ≤ l.t)"
invariant in_turn "abbrev pub invariant-loop-t : goal.invariant-loop-t
invariant-loop-t g l =
    (l.host.cell ≡ l.initial.host.cell) × (l.host.side ≡ l.initial.host.side) × (l.host.ahead ≡ []) × (own_horizon l.host ≤ l.t)
    × (l.para.cell ≡ l.initial.para.cell) × (l.para.side ≡ l.initial.para.side) × (l.para.ahead ≡ []) × (own_horizon l.para ≤ l.t)"

for name in $needed; do
    (cd "crates/$name" && rt lib) >log 2>&1 || { tail -n 40 log; exit 1; }
done
(cd crates/cell_times && rt run -- one) >log 2>&1 || { tail -n 40 log; exit 1; }
timed=$work/crates/cell_times/out/cell_times

# fastest WORD..: the seconds of the fastest of five runs
fastest() {
    for _ in 1 2 3 4 5; do
        /usr/bin/time -f %e -o one "$@"
        cat one
    done | sort -n | head -n 1
}

tell() { # NAME SECONDS
    awk -v name="$1" -v seconds="$2" 'BEGIN { printf "%s: %.0f ns an access\n", name, seconds * 1e9 / 4000000 }'
}

tell 'one thread' "$(fastest "$timed" one)"
tell 'two threads, two processors' "$(fastest taskset -c 0,1 "$timed")"
tell 'two threads, one processor' "$(fastest taskset -c 0 "$timed")"
