//! Sessions that read a board under a lock while a publisher changes it, with the standard library alone.
//!
//! It is what the published board of the proved program is compared with: an `RwLock` over one board. The publisher
//! takes it for each piece of 64 entries, a session for each reading.

use std::env;
use std::sync::atomic::{AtomicBool, Ordering::SeqCst};
use std::sync::{Barrier, RwLock};
use std::thread;
use std::time::{Duration, Instant};

const STATIONS: i32 = 100;

/// How far apart stations and targets stand, in metres.
const APART: i32 = 5_000;

/// Within how many metres a station is near a target.
const NEAR: i64 = 30_000;

/// How many entries are published at once.
const PIECE: u32 = 64;

/// How many targets a session reads.
const TARGETS: i32 = 2;

#[derive(Clone, Copy)]
struct Entry {
    station: usize,
    value: Option<i16>,
}

/// What each station shows, and where it stands.
struct Board {
    places: Vec<(i32, i32)>,
    shown: Vec<Option<i16>>,
    count: u64,
}

impl Board {
    fn new() -> Board {
        Board {
            places: (0..STATIONS).map(|code| (code * APART, 0)).collect(),
            shown: vec![None; STATIONS as usize],
            count: 0,
        }
    }

    fn apply(&mut self, entry: &Entry) {
        self.shown[entry.station] = entry.value;
        self.count += 1;
    }

    /// The greatest of what stations near the place show.
    fn predict(&self, (x, y): (i32, i32)) -> Option<i16> {
        self.places
            .iter()
            .zip(&self.shown)
            .filter(|((sx, sy), _)| {
                let (dx, dy) = (i64::from(sx - x), i64::from(sy - y));
                dx * dx + dy * dy <= NEAR * NEAR
            })
            .filter_map(|(_, value)| *value)
            .max()
    }
}

/// What the n-th entry says.
fn entry_at(n: u32) -> Entry {
    Entry {
        station: (n % STATIONS as u32) as usize,
        value: (n % 7 != 3).then_some((n % 101) as i16),
    }
}

/// What the thread beside the sessions does.
#[derive(Clone, Copy)]
enum Beside {
    /// There is none.
    Nothing,
    /// It takes its share of the processors, and leaves the board alone.
    Counts,
    Publishes,
}

/// Counts until the end.
fn count(ended: &AtomicBool) -> u32 {
    let mut n = 0u32;
    while !ended.load(SeqCst) {
        n = std::hint::black_box(n.wrapping_add(1));
    }
    0
}

/// Publishes piece after piece until the end. How many entries there were.
fn publish(board: &RwLock<Board>, ended: &AtomicBool) -> u32 {
    let mut n = 0;
    let mut pending = Vec::with_capacity(PIECE as usize);
    while !ended.load(SeqCst) {
        for _ in 0..PIECE {
            pending.push(entry_at(n));
            n += 1;
        }
        let mut board = board.write().unwrap();
        for entry in pending.drain(..) {
            board.apply(&entry);
        }
    }
    n
}

/// Reads until the time is over: how many readings there were, and the longest.
fn read(board: &RwLock<Board>, area: i32, time: Duration) -> (u64, Duration) {
    let places: Vec<(i32, i32)> = (0..TARGETS).map(|t| ((TARGETS * area + t) * APART, 0)).collect();
    let mut answers = vec![None; places.len()];
    let mut last = 0;
    let (mut reads, mut longest) = (0, Duration::ZERO);
    let start = Instant::now();
    let mut before = start;
    while before - start < time {
        let board = board.read().unwrap();
        for (answer, place) in answers.iter_mut().zip(&places) {
            *answer = board.predict(*place);
        }
        assert!(board.count >= last);
        last = board.count;
        drop(board);
        let after = Instant::now();
        longest = longest.max(after - before);
        before = after;
        reads += 1;
    }
    std::hint::black_box(&answers);
    (reads, longest)
}

fn main() {
    let words: Vec<String> = env::args().skip(1).collect();
    let [sessions, seconds, beside] = words.as_slice() else {
        panic!("snap SESSIONS SECONDS nothing|counts|publishes");
    };
    let sessions: i32 = sessions.parse().unwrap();
    let time = Duration::from_secs(seconds.parse().unwrap());
    let beside = match beside.as_str() {
        "nothing" => Beside::Nothing,
        "counts" => Beside::Counts,
        "publishes" => Beside::Publishes,
        _ => panic!("{beside}"),
    };
    let mut first = Board::new();
    (0..STATIONS as u32).for_each(|n| first.apply(&entry_at(n)));
    let (board, ended) = (RwLock::new(first), AtomicBool::new(false));
    let together = Barrier::new(sessions as usize);
    let (published, read) = thread::scope(|scope| {
        let beside = scope.spawn(|| match beside {
            Beside::Nothing => 0,
            Beside::Counts => count(&ended),
            Beside::Publishes => publish(&board, &ended),
        });
        let readers: Vec<_> = (0..sessions)
            .map(|area| {
                let (board, together) = (&board, &together);
                scope.spawn(move || {
                    together.wait();
                    read(board, area, time)
                })
            })
            .collect();
        let read: Vec<_> = readers.into_iter().map(|reader| reader.join().unwrap()).collect();
        ended.store(true, SeqCst);
        (beside.join().unwrap(), read)
    });
    let reads: u64 = read.iter().map(|(reads, _)| reads).sum();
    let longest = read.iter().map(|(_, longest)| longest.as_nanos()).max().unwrap();
    println!("{reads} {longest} {published}");
}
