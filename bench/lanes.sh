#!/bin/sh
# Builds the proved program that `bench/run lanes` measures, in a folder that is made anew:
#
#     bench/lanes.sh FOLDER
#
# It is the rounds of the trials of lanes, with a `main` that takes the time of one. Sources of this
# language may stand in the crates of the repository alone, and the gate need not prove this one: so
# the crates are copied to the folder, and the trials become a program there. `main` is below, and
# what it has to prove beyond what the trials prove.
set -eu
top=$(cd "$(dirname "$0")/.." && pwd)
to=$1
crate=$to/crates/plum_trials_lanes

rm -rf "$to/crates" "$to/crates.txt"
mkdir -p "$to/crates"
for name in plum_base plum_seq plum_filter plum_level plum_engine plum_geo plum_core plum_lanes plum_trials_lanes; do
    # With what was proved there, which is then not proved again.
    cp -a "$top/crates/$name" "$to/crates/"
    grep "^$name:" "$top/crates.txt" >>"$to/crates.txt"
done

rm -rf "$crate/src/rows.rt" "$crate/proofs/rows" "$crate/out"
sed '/^#\[cfg(test)\]/d; /^mod rows;/d' "$crate/src/lib.rt" >"$crate/src/main.rt"
rm "$crate/src/lib.rt"

cat >>"$crate/src/main.rt" <<'RT'

ghost use Rattle.plum_trials_lanes.specs.AtWork.{IsOpen};

use crate::given::packet_of;
use crate::handing::Opened;
use crate::rounds::Seen;
use std::alloc::Global;
use std::env;
use std::process::Abort;
use std::sync::Wait;
use std::test::Fail;
use std::thread::Threads;
use std::time::{Clock, Instant};

const STATIONS: u16 = 8;

/// One lane's entries, each taken before the next one is made.
fn by_turns<R: Wait>(
    rt: &R,
    alloc: Global,
    opened: &mut Opened,
    seen: &mut Seen,
    packets: u32,
) -> Result<(), Fail>
    requires { IsOpen opened.old.stations opened.old.lanes.items opened.old.gather }
    ensures { IsOpen opened.new.stations opened.new.lanes.items opened.new.gather }
{
    for n in 0..packets {
        for station in 0..STATIONS {
            opened.take(0, packet_of(alloc, station, n, 1, 10)?)?;
            opened.offer(rt, 0)?;
            if let Some(entry) = opened.next(rt) {
                seen.add(&entry);
            }
        }
    }
    Ok(())
}

/// The nanoseconds of one round.
fn measure<R: Abort + Clock + Threads + Wait + Sync>(
    rt: &R,
    alloc: Global,
    lanes: u16,
    entries: u32,
    bound: u32,
    threads: bool,
) -> Result<u128, Fail> {
    if lanes == 0 || lanes > 16 || bound == 0 || bound > 65_536 {
        return Err("lanes from 1 to 16, and a queue from 1 to 65,536")?;
    }
    let packets = entries / STATIONS as u32;
    let mut opened = Opened::new(rt, alloc, STATIONS, lanes, bound)?;
    let mut seen = Seen::new();
    let start = Instant::now(rt)?;
    if threads {
        opened.round(rt, alloc, &mut seen, 0, packets)?;
    } else {
        by_turns(rt, alloc, &mut opened, &mut seen, packets)?;
    }
    let took = start.elapsed(rt)?;
    if !seen.is_whole(STATIONS, packets) {
        return Err("each station's entries, in order and each once")?;
    }
    Ok(took.as_nanos())
}

fn main(rt: HostRuntime) -> Result<(), Fail> {
    let mut words = Vec::new(rt.alloc());
    for word in env::args(&rt)?.skip(1) {
        words.push(word)?;
    }
    let number = |i: usize| words.as_slice().get(i).and_then(|w| w.parse::<u32>().ok());
    let (Some(lanes), Some(entries), Some(bound)) = (number(0), number(1), number(2)) else {
        return Err("LANES ENTRIES BOUND threads|turns")?;
    };
    let threads = words.as_slice().get(3).is_some_and(|word| word.as_str() == "threads");
    let lanes = if lanes > 16 { 0 } else { lanes as u16 };
    let took = measure(&rt, rt.alloc(), lanes, entries, bound, threads)?;
    println!(rt; "{}.{:09}", took / 1_000_000_000, took % 1_000_000_000)?;
    Ok(())
}
RT

mkdir -p "$crate/proofs/by_turns"
cat >"$crate/proofs/by_turns/Invariants.antt" <<'ANTT'
use Rattle.plum_trials_lanes.specs.AtWork.{IsOpen}
use Rattle.plum_trials_lanes.proofs.by_turns.Given as goal

abbrev pub invariant-loop-n : goal.invariant-loop-n
invariant-loop-n g l = IsOpen l.opened.stations l.opened.lanes.items l.opened.gather

abbrev pub invariant-loop-station : goal.invariant-loop-station
invariant-loop-station g l = IsOpen l.opened.stations l.opened.lanes.items l.opened.gather
ANTT

cd "$crate"
# The build ends by running the program without words, which answers with its usage.
rt run >"$to/build.log" 2>&1 </dev/null || true
if [ ! -x out/plum_trials_lanes ]; then
    tail -n 20 "$to/build.log" >&2
    exit 1
fi
