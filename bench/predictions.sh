#!/bin/sh
# Builds the proved program that asks a pyramid, as PROGRAM, in the new folder FOLDER, from the crates
# of this repository:
#
#     bench/predictions.sh FOLDER PROGRAM
#
# It is proved as every crate is. It stands here as text, since it is no part of the gate.
set -eu

top=$(cd "$(dirname "$0")/.." && pwd)
folder=$1
program=$2
mkdir -p "$folder/crates/predictions/src"
mkdir -p "$folder/crates/predictions/proofs/sets" "$folder/crates/predictions/proofs/time_of_sets"
for name in plum_base plum_geo plum_pyramid; do
    # With what was proved there, which is then not proved again.
    cp -a "$top/crates/$name" "$folder/crates/"
    grep "^$name:" "$top/crates.txt" >>"$folder/crates.txt"
done
echo 'predictions: plum_base plum_geo plum_pyramid' >>"$folder/crates.txt"

cat >"$folder/crates/predictions/proofs/sets/Invariants.antt" <<'END'
use Rattle.std.proofs.Common.{◌≡◌, length}
use Rattle.predictions.proofs.sets.Given as goal

abbrev pub invariant-loop-s : goal.invariant-loop-s
invariant-loop-s l = length l.pyramid.stations ≡ l.stations
END

cat >"$folder/crates/predictions/proofs/time_of_sets/Invariants.antt" <<'END'
use Rattle.std.proofs.Common.{◌≡◌, length}
use Rattle.predictions.proofs.time_of_sets.Given as goal

abbrev pub invariant-rounds : goal.invariant-rounds
invariant-rounds l = length l.pyramid.stations ≡ l.stations
END

cat >"$folder/crates/predictions/src/main.rt" <<'END'
//! Predictions by the proved pyramid.
//!
//!     predictions STATIONS spread|disc
//!
//! It writes a line for each kind of call: the way, the kind, the least nanoseconds of a few rounds
//! of 100,000 calls, and a sum of the answers.
#![tactic(auto)]

ghost use Rattle.std.specs.Prelude.{◌≡◌, ◌<◌, ◌≤◌, length};

use plum_base::{NoMemory, Point, Sites, StationNo, StationSite, TargetSite, Tenths, lawful};
use plum_geo::none_or_on_scale;
use plum_pyramid::Pyramid;
use std::alloc::Global;
use std::env;
use std::io;
use std::process::ExitCode;
use std::time::Instant;

const TARGETS: usize = 1_000;
const PASSES: usize = 100;
const SETTINGS: usize = 100_000;
const ROUNDS: usize = 5;

/// A linear congruential generator, of which the high bits are used. The plain program has the same.
#[derive(Drop)]
struct Source(u64);

impl Source {
    fn below(&mut self, bound: u32) -> u32
        requires { 0 < bound }
        ensures { result < bound }
    {
        self.0 = self
            .0
            .wrapping_mul(6_364_136_223_846_793_005)
            .wrapping_add(1_442_695_040_888_963_407);
        ((self.0 >> 33) % u64::from(bound)) as u32
    }

    fn place(&mut self, spread: bool) -> Point {
        if spread {
            let x = self.below(4_194_304) as i32;
            let y = self.below(4_194_304) as i32;
            Point { x, y }
        } else {
            let x = 2_076_152 + self.below(42_000) as i32;
            let y = 2_076_152 + self.below(42_000) as i32;
            Point { x, y }
        }
    }

    fn value(&mut self) -> Option<Tenths> {
        let value = self.below(80) as i16;
        if value < 70 { Some(Tenths(value)) } else { None }
    }
}

#[derive(Clone, Copy)]
struct Setting {
    station: StationNo,
    value: Option<Tenths>,
}

fn sites_of(
    alloc: Global,
    source: &mut Source,
    count: u16,
    spread: bool,
) -> Result<Sites, NoMemory> {
    let mut stations = Vec::new(alloc);
    for n in 0..count {
        let at = source.place(spread);
        let factor = Tenths(source.below(21) as i16 - 10);
        let code = n;
        stations.push(StationSite { code, at, factor })?;
    }
    let targets: Vec<TargetSite> = Vec::new(alloc);
    if lawful(stations.as_slice(), targets.as_slice()) {
        Sites::new(alloc, stations, targets)
    } else {
        Err(NoMemory)
    }
}

fn targets_of(alloc: Global, source: &mut Source, spread: bool) -> Result<Vec<Point>, NoMemory> {
    let mut targets = Vec::new(alloc);
    for _ in 0..TARGETS {
        targets.push(source.place(spread))?;
    }
    Ok(targets)
}

fn settings_of(
    alloc: Global,
    source: &mut Source,
    stations: u16,
) -> Result<Vec<Setting>, NoMemory>
    requires { 0 < stations }
{
    let mut settings = Vec::new(alloc);
    for _ in 0..SETTINGS {
        let station = StationNo(source.below(u32::from(stations)) as u16);
        let value = source.value();
        settings.push(Setting { station, value })?;
    }
    Ok(settings)
}

fn sets(pyramid: &mut Pyramid, stations: usize, settings: &[Setting])
    requires { length pyramid.old.stations ≡ stations }
    ensures { length pyramid.new.stations ≡ stations }
{
    for s in settings {
        if (s.station.0 as usize) < stations && none_or_on_scale(s.value) {
            pyramid.set(s.station, s.value);
        }
    }
}

fn sum_of(pyramid: &Pyramid, targets: &[Point]) -> i64 {
    let mut sum: i64 = 0;
    for at in targets {
        if at.is_on_grid() {
            let best = match pyramid.best(*at) {
                None => 1_000,
                Some(t) => i64::from(t.0),
            };
            sum = sum.wrapping_add(best);
        }
    }
    sum
}

fn sums(pyramid: &Pyramid, targets: &[Point]) -> i64 {
    let mut sum: i64 = 0;
    for _ in 0..PASSES {
        sum = sum.wrapping_add(sum_of(pyramid, targets));
    }
    sum
}

/// The least time of a few rounds of sets, in nanoseconds.
fn time_of_sets(
    rt: &HostRuntime,
    pyramid: &mut Pyramid,
    stations: usize,
    settings: &[Setting],
) -> Result<u128, Failed>
    requires { length pyramid.old.stations ≡ stations }
{
    let mut least = u128::MAX;
    'rounds: for _ in 0..ROUNDS {
        let start = Instant::now(rt)?;
        sets(pyramid, stations, settings);
        least = least.min(start.elapsed(rt)?.as_nanos());
    }
    Ok(least)
}

/// The least time of a few rounds of predictions, in nanoseconds.
fn time_of_sums(rt: &HostRuntime, pyramid: &Pyramid, targets: &[Point]) -> Result<u128, Failed> {
    let mut least = u128::MAX;
    for _ in 0..ROUNDS {
        let start = Instant::now(rt)?;
        let _sum = sums(pyramid, targets);
        least = least.min(start.elapsed(rt)?.as_nanos());
    }
    Ok(least)
}

fn measure(rt: &HostRuntime, count: u16, spread: bool) -> Result<(), Failed>
    requires { 0 < count }
{
    let alloc = rt.alloc();
    let mut source = Source(1);
    let sites = sites_of(alloc, &mut source, count, spread)?;
    let targets = targets_of(alloc, &mut source, spread)?;
    let settings = settings_of(alloc, &mut source, count)?;
    let mut pyramid = Pyramid::new(alloc, &sites)?;
    let stations = sites.stations().len();
    let least = time_of_sets(rt, &mut pyramid, stations, settings.as_slice())?;
    println!(rt; "pyramid set {least} 0")?;
    let least = time_of_sums(rt, &pyramid, targets.as_slice())?;
    let sum = sums(&pyramid, targets.as_slice());
    println!(rt; "pyramid predict {least} {sum}")?;
    Ok(())
}

/// Something that the measurement needs was refused.
#[derive(Drop)]
struct Failed;

impl From<NoMemory> for Failed {
    fn from(_refusal: NoMemory) -> Failed {
        Failed
    }
}

impl From<io::Error> for Failed {
    fn from(_refusal: io::Error) -> Failed {
        Failed
    }
}

fn start(rt: &HostRuntime) -> Result<(), Failed> {
    let mut args = env::args(rt)?;
    let _program = args.next();
    let Some(word) = args.next() else {
        return Err(Failed);
    };
    let Some(places) = args.next() else {
        return Err(Failed);
    };
    match word.as_str().parse::<u16>() {
        Ok(count) if 0 < count => measure(rt, count, places.as_str() == "spread"),
        _ => Err(Failed),
    }
}

fn main(rt: HostRuntime) -> ExitCode {
    match start(&rt) {
        Ok(()) => ExitCode::SUCCESS,
        Err(Failed) => ExitCode::FAILURE,
    }
}
END

# The build ends by a run over one station.
(cd "$folder/crates/predictions" && rt run -- 1 disc)
cp "$folder/crates/predictions/out/predictions" "$program"
