//! Predictions in plain Rust, with the standard library alone: by a scan of all stations, by a list
//! of near stations kept for each target, and by a grid of squares of the radius.
//!
//!     predictions STATIONS spread|disc
//!
//! It writes a line for each way and for each kind of call: the way, the kind, the least nanoseconds
//! of a few rounds of 100,000 calls, and a sum of the answers, which all ways must share.

use std::env;
use std::hint::black_box;
use std::time::Instant;

const RADIUS: i64 = 30_000;
const GRID_END: i64 = 4_194_304;
const TARGETS: usize = 1_000;
const PASSES: usize = 100;
const CALLS: usize = TARGETS * PASSES;
const ROUNDS: usize = 5;

/// Stations in one disc lie in a square within it, round the middle of the grid.
const MIDDLE: i64 = 2_097_152;
const REACH: i64 = 21_000;

/// A linear congruential generator, of which the high bits are used. The proved program has the same.
struct Source(u64);

impl Source {
    fn below(&mut self, bound: i64) -> i64 {
        self.0 = self
            .0
            .wrapping_mul(6_364_136_223_846_793_005)
            .wrapping_add(1_442_695_040_888_963_407);
        ((self.0 >> 33) % bound as u64) as i64
    }

    fn place(&mut self, spread: bool) -> (i64, i64) {
        if spread {
            (self.below(GRID_END), self.below(GRID_END))
        } else {
            let x = MIDDLE - REACH + self.below(2 * REACH);
            (x, MIDDLE - REACH + self.below(2 * REACH))
        }
    }
}

#[derive(Clone, Copy)]
struct Station {
    at: (i64, i64),
    factor: i16,
}

fn near(a: (i64, i64), b: (i64, i64)) -> bool {
    let (dx, dy) = (a.0 - b.0, a.1 - b.1);
    dx * dx + dy * dy <= RADIUS * RADIUS
}

struct Case {
    stations: Vec<Station>,
    values: Vec<Option<i16>>,
    targets: Vec<(i64, i64)>,
    settings: Vec<(usize, Option<i16>)>,
}

impl Case {
    fn new(count: usize, spread: bool) -> Case {
        let mut source = Source(1);
        let stations = (0..count)
            .map(|_| Station {
                at: source.place(spread),
                factor: source.below(21) as i16 - 10,
            })
            .collect();
        let targets = (0..TARGETS).map(|_| source.place(spread)).collect();
        let settings = (0..CALLS)
            .map(|_| {
                let station = source.below(count as i64) as usize;
                let value = source.below(80) as i16;
                (station, (value < 70).then_some(value))
            })
            .collect();
        Case {
            stations,
            values: vec![None; count],
            targets,
            settings,
        }
    }

    fn said(&self, n: usize, at: (i64, i64)) -> Option<i16> {
        let station = &self.stations[n];
        let value = self.values[n]?;
        near(station.at, at).then(|| value - station.factor)
    }

    fn set_all(&mut self) {
        for i in 0..self.settings.len() {
            let (station, value) = self.settings[i];
            self.values[station] = black_box(value);
        }
    }
}

/// Writes the least time of a few rounds of predictions, and the sum of the answers of one.
fn predictions(way: &str, mut predict: impl FnMut(usize) -> Option<i16>) {
    let mut least = u128::MAX;
    let mut sum: i64 = 0;
    for _ in 0..ROUNDS {
        let start = Instant::now();
        sum = 0;
        for _ in 0..PASSES {
            for t in 0..TARGETS {
                sum += predict(black_box(t)).map_or(1_000, i64::from);
            }
        }
        least = least.min(start.elapsed().as_nanos());
    }
    println!("{way} predict {least} {sum}");
}

/// The stations of each square of the radius, row by row.
fn grid_of(stations: &[Station]) -> (usize, Vec<Vec<usize>>) {
    let width = (GRID_END / RADIUS + 1) as usize;
    let mut squares = vec![Vec::new(); width * width];
    for (n, station) in stations.iter().enumerate() {
        let (x, y) = station.at;
        squares[(y / RADIUS) as usize * width + (x / RADIUS) as usize].push(n);
    }
    (width, squares)
}

fn main() {
    let words: Vec<String> = env::args().collect();
    let count = words[1].parse().expect("how many stations");
    let mut case = Case::new(count, words[2] == "spread");

    let mut least = u128::MAX;
    for _ in 0..ROUNDS {
        let start = Instant::now();
        case.set_all();
        least = least.min(start.elapsed().as_nanos());
    }
    // One value is written, whatever it is that predictions go over.
    for way in ["scan", "lists", "grid"] {
        println!("{way} set {least} 0");
    }

    predictions("scan", |t| {
        let at = case.targets[t];
        (0..count).filter_map(|n| case.said(n, at)).max()
    });

    let lists: Vec<Vec<usize>> = case
        .targets
        .iter()
        .map(|&at| (0..count).filter(|&n| near(case.stations[n].at, at)).collect())
        .collect();
    predictions("lists", |t| {
        let said = |&n: &usize| Some(case.values[n]? - case.stations[n].factor);
        lists[t].iter().filter_map(said).max()
    });

    let (width, squares) = grid_of(&case.stations);
    predictions("grid", |t| {
        let at = case.targets[t];
        let around = |z: i64| {
            let here = (z / RADIUS) as usize;
            here.saturating_sub(1)..=(here + 1).min(width - 1)
        };
        around(at.1)
            .flat_map(|row| around(at.0).map(move |column| row * width + column))
            .flat_map(|square| squares[square].iter())
            .filter_map(|&n| case.said(n, at))
            .max()
    });
}
