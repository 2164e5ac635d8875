//! Lanes and a gatherer in plain Rust, over several ways to hand entries from one to the other: what
//! `plum_lanes` is compared with.
//!
//!     lanes WAY LANES ENTRIES BOUND threads|turns
//!
//! The ways are `channel` (`std::sync::mpsc`), `mutex` (round a `VecDeque`), `ring` (the bounded
//! queue of crossbeam, written by hand) and `none` (each entry is dropped by its lane). With
//! `threads` each lane works on a thread of its own, and the gatherer beside them; with `turns` one
//! thread does it all, and takes each entry before it makes the next one. Eight stations share so
//! many lanes and send so many entries in all, through a queue of so many. It prints the seconds.

use std::cell::UnsafeCell;
use std::collections::VecDeque;
use std::mem::MaybeUninit;
use std::sync::Mutex;
use std::sync::atomic::{AtomicU64, AtomicUsize, Ordering, fence};
use std::sync::mpsc;
use std::time::Instant;
use std::{env, hint, thread};

const STATIONS: u16 = 8;

// ---- the work of a lane: keys, gain, filters, amplitude, level

#[derive(Clone, Copy)]
struct Sample {
    x: i32,
    y: i32,
    z: i32,
}

struct Packet {
    station: u16,
    key: (u16, u32),
    wave: Vec<Sample>,
}

/// An entry. The gatherer reads its station and its key, as the proved program's does.
#[allow(dead_code)]
struct Entry {
    station: u16,
    lane: u16,
    key: (u16, u32),
    fresh: bool,
    wave: Vec<Sample>,
    value: Option<i16>,
}

const LIMIT: i64 = 1 << 30;
const WINDOW: usize = 6000;
const THRESHOLDS: [u64; 4] = [0, 100, 400, 900];

/// A stage that passes its input through: b0 = 2, q = 1.
#[derive(Clone, Copy, Default)]
struct Stage {
    x: [i64; 2],
    y: [i64; 2],
}

const COEFFICIENTS: [i64; 5] = [2, 0, 0, 0, 0];

impl Stage {
    fn step(&mut self, x: i64) -> i64 {
        let [b0, b1, b2, a1, a2] = hint::black_box(COEFFICIENTS);
        let sum = b0 * x + b1 * self.x[0] + b2 * self.x[1] - a1 * self.y[0] - a2 * self.y[1];
        let y = (sum >> hint::black_box(1)).clamp(-LIMIT, LIMIT);
        self.x = [x, self.x[0]];
        self.y = [y, self.y[0]];
        y
    }
}

struct Station {
    last: Option<(u16, u32)>,
    stages: [Stage; 3],
    levels: VecDeque<u8>,
    counts: [u32; THRESHOLDS.len()],
}

impl Station {
    fn new() -> Station {
        Station {
            last: None,
            stages: [Stage::default(); 3],
            levels: VecDeque::with_capacity(WINDOW),
            counts: [0; THRESHOLDS.len()],
        }
    }

    fn reset(&mut self) {
        self.stages = [Stage::default(); 3];
        self.levels.clear();
        self.counts = [0; THRESHOLDS.len()];
    }

    fn absorb(&mut self, sample: Sample) {
        let components = [sample.x, sample.y, sample.z];
        let mut amplitude = 0;
        for (stage, component) in self.stages.iter_mut().zip(components) {
            let y = stage.step(i64::from(component).clamp(-LIMIT, LIMIT));
            amplitude += (y * y) as u64;
        }
        if self.levels.len() == WINDOW {
            let oldest = self.levels.pop_front().unwrap();
            self.counts[usize::from(oldest)] -= 1;
        }
        let level = THRESHOLDS.iter().rposition(|t| amplitude >= *t).unwrap();
        self.levels.push_back(level as u8);
        self.counts[level] += 1;
    }

    fn value(&self) -> Option<i16> {
        let mut reached = 0;
        for (level, count) in self.counts.iter().enumerate().rev() {
            reached += count;
            if reached >= 30 {
                return Some(20 + level as i16);
            }
        }
        None
    }

    /// The entry of a packet, where it is kept.
    fn take(&mut self, lane: u16, packet: Packet) -> Option<Entry> {
        if self.last.is_some_and(|last| packet.key <= last) {
            return None;
        }
        let (boot, number) = packet.key;
        let fresh = self.last.is_none_or(|last| last.0 != boot || last.1 + 1 != number);
        self.last = Some(packet.key);
        if fresh {
            self.reset();
        }
        for sample in &packet.wave {
            self.absorb(*sample);
        }
        Some(Entry {
            station: packet.station,
            lane,
            key: packet.key,
            fresh,
            wave: packet.wave,
            value: self.value(),
        })
    }
}

/// A lane's packets, one after another, and their entries.
struct Lane {
    number: u16,
    lanes: u16,
    stations: Vec<Station>,
}

impl Lane {
    fn new(number: u16, lanes: u16) -> Lane {
        let own = (0..STATIONS).filter(|station| station % lanes == number);
        Lane { number, lanes, stations: own.map(|_| Station::new()).collect() }
    }

    /// Hands the entries of so many packets of each station on.
    fn work(&mut self, packets: u32, mut send: impl FnMut(Entry)) {
        for n in 0..packets {
            for station in 0..STATIONS {
                if station % self.lanes != self.number {
                    continue;
                }
                let wave = vec![Sample { x: 10, y: 0, z: 0 }];
                let packet = Packet { station, key: (0, n), wave };
                let own = usize::from(station / self.lanes);
                if let Some(entry) = self.stations[own].take(self.number, packet) {
                    send(entry);
                }
            }
        }
    }
}

/// What is gathered: each station's entries, in order.
#[derive(Default)]
struct Seen {
    next: [u32; STATIONS as usize],
}

impl Seen {
    fn add(&mut self, entry: Entry) {
        let next = &mut self.next[usize::from(entry.station)];
        assert_eq!(entry.key.1, *next);
        *next += 1;
    }
}

// ---- the ways

trait Queue: Sync {
    fn push(&self, entry: Entry) -> Result<(), Entry>;
    fn pop(&self) -> Option<Entry>;
}

struct Locked {
    entries: Mutex<VecDeque<Entry>>,
    bound: usize,
}

impl Queue for Locked {
    fn push(&self, entry: Entry) -> Result<(), Entry> {
        let mut entries = self.entries.lock().unwrap();
        if entries.len() == self.bound {
            return Err(entry);
        }
        entries.push_back(entry);
        Ok(())
    }

    fn pop(&self) -> Option<Entry> {
        self.entries.lock().unwrap().pop_front()
    }
}

/// A slot: its stamp says at which lap it can be written, or read.
struct Slot {
    stamp: AtomicUsize,
    entry: UnsafeCell<MaybeUninit<Entry>>,
}

/// A word that has its cache lines for itself.
#[repr(align(128))]
struct Apart(AtomicUsize);

/// The bounded queue of crossbeam (`ArrayQueue`, version 0.3), with its orderings.
struct Ring {
    head: Apart,
    tail: Apart,
    slots: Box<[Slot]>,
    lap: usize,
}

// A slot is written by the one push that moved the tail over it, and read by the one pop that moved
// the head over it; the stamp orders the two.
unsafe impl Sync for Ring {}

impl Ring {
    fn new(bound: usize) -> Ring {
        let slot = |i| Slot {
            stamp: AtomicUsize::new(i),
            entry: UnsafeCell::new(MaybeUninit::uninit()),
        };
        Ring {
            head: Apart(AtomicUsize::new(0)),
            tail: Apart(AtomicUsize::new(0)),
            slots: (0..bound).map(slot).collect(),
            lap: (bound + 1).next_power_of_two(),
        }
    }

    /// The place after this one: the next slot, or the first one of the next lap.
    fn after(&self, at: usize) -> usize {
        let index = at & (self.lap - 1);
        if index + 1 < self.slots.len() { at + 1 } else { (at & !(self.lap - 1)) + self.lap }
    }
}

impl Queue for Ring {
    fn push(&self, entry: Entry) -> Result<(), Entry> {
        let mut tail = self.tail.0.load(Ordering::Relaxed);
        loop {
            let slot = &self.slots[tail & (self.lap - 1)];
            let stamp = slot.stamp.load(Ordering::Acquire);
            if stamp == tail {
                let next = self.after(tail);
                match self.tail.0.compare_exchange_weak(
                    tail,
                    next,
                    Ordering::SeqCst,
                    Ordering::Relaxed,
                ) {
                    Ok(_) => {
                        unsafe { (*slot.entry.get()).write(entry) };
                        slot.stamp.store(tail + 1, Ordering::Release);
                        return Ok(());
                    }
                    Err(now) => {
                        tail = now;
                        hint::spin_loop();
                    }
                }
            } else if stamp + self.lap == tail + 1 {
                fence(Ordering::SeqCst);
                if self.head.0.load(Ordering::Relaxed) + self.lap == tail {
                    return Err(entry);
                }
                hint::spin_loop();
                tail = self.tail.0.load(Ordering::Relaxed);
            } else {
                hint::spin_loop();
                tail = self.tail.0.load(Ordering::Relaxed);
            }
        }
    }

    fn pop(&self) -> Option<Entry> {
        let mut head = self.head.0.load(Ordering::Relaxed);
        loop {
            let slot = &self.slots[head & (self.lap - 1)];
            let stamp = slot.stamp.load(Ordering::Acquire);
            if stamp == head + 1 {
                let next = self.after(head);
                match self.head.0.compare_exchange_weak(
                    head,
                    next,
                    Ordering::SeqCst,
                    Ordering::Relaxed,
                ) {
                    Ok(_) => {
                        let entry = unsafe { (*slot.entry.get()).assume_init_read() };
                        slot.stamp.store(head + self.lap, Ordering::Release);
                        return Some(entry);
                    }
                    Err(now) => {
                        head = now;
                        hint::spin_loop();
                    }
                }
            } else if stamp == head {
                fence(Ordering::SeqCst);
                if self.tail.0.load(Ordering::Relaxed) == head {
                    return None;
                }
                hint::spin_loop();
                head = self.head.0.load(Ordering::Relaxed);
            } else {
                hint::spin_loop();
                head = self.head.0.load(Ordering::Relaxed);
            }
        }
    }
}

// ---- rounds

/// Offers an entry until the queue takes it.
fn send(queue: &impl Queue, entry: Entry) {
    let mut waiting = entry;
    while let Err(back) = queue.push(waiting) {
        waiting = back;
        thread::yield_now();
    }
}

/// The lanes work on threads, and this thread gathers until they have ended and nothing is left.
fn side_by_side(queue: &impl Queue, lanes: u16, packets: u32, seen: &mut Seen) {
    let ended = AtomicU64::new(0);
    thread::scope(|scope| {
        for number in 0..lanes {
            let ended = &ended;
            scope.spawn(move || {
                Lane::new(number, lanes).work(packets, |entry| send(queue, entry));
                ended.fetch_add(1, Ordering::SeqCst);
            });
        }
        loop {
            let all = ended.load(Ordering::SeqCst) >= u64::from(lanes);
            match queue.pop() {
                Some(entry) => seen.add(entry),
                None if all => return,
                None => thread::yield_now(),
            }
        }
    });
}

fn by_turns(queue: &impl Queue, packets: u32, seen: &mut Seen) {
    Lane::new(0, 1).work(packets, |entry| {
        send(queue, entry);
        seen.add(queue.pop().unwrap());
    });
}

fn over_a_queue(queue: &impl Queue, lanes: u16, packets: u32, threads: bool, seen: &mut Seen) {
    if threads {
        side_by_side(queue, lanes, packets, seen);
    } else {
        by_turns(queue, packets, seen);
    }
}

fn over_a_channel(bound: usize, lanes: u16, packets: u32, threads: bool, seen: &mut Seen) {
    let (sender, receiver) = mpsc::sync_channel(bound);
    if !threads {
        Lane::new(0, 1).work(packets, |entry| {
            sender.send(entry).unwrap();
            seen.add(receiver.recv().unwrap());
        });
        return;
    }
    thread::scope(|scope| {
        for number in 0..lanes {
            let sender = sender.clone();
            scope.spawn(move || {
                Lane::new(number, lanes).work(packets, |entry| sender.send(entry).unwrap());
            });
        }
        drop(sender);
        receiver.iter().for_each(|entry| seen.add(entry));
    });
}

/// Each lane drops its entries: its work alone.
fn without_a_queue(lanes: u16, packets: u32) {
    thread::scope(|scope| {
        for number in 0..lanes {
            scope.spawn(move || {
                Lane::new(number, lanes).work(packets, |entry| drop(hint::black_box(entry)));
            });
        }
    });
}

fn main() {
    let words: Vec<String> = env::args().skip(1).collect();
    let [way, lanes, entries, bound, form] = &words[..] else {
        panic!("lanes WAY LANES ENTRIES BOUND threads|turns");
    };
    let lanes: u16 = lanes.parse().unwrap();
    let packets = entries.parse::<u32>().unwrap() / u32::from(STATIONS);
    let bound: usize = bound.parse().unwrap();
    let threads = form == "threads";
    let mut seen = Seen::default();
    let start = Instant::now();
    match way.as_str() {
        "channel" => over_a_channel(bound, lanes, packets, threads, &mut seen),
        "mutex" => {
            let queue = Locked { entries: Mutex::new(VecDeque::with_capacity(bound)), bound };
            over_a_queue(&queue, lanes, packets, threads, &mut seen);
        }
        "ring" => over_a_queue(&Ring::new(bound), lanes, packets, threads, &mut seen),
        "none" => without_a_queue(lanes, packets),
        _ => panic!("{way} is no way"),
    }
    let seconds = start.elapsed().as_secs_f64();
    assert!(way == "none" || seen.next.iter().all(|next| *next == packets));
    println!("{seconds:.6}");
}
