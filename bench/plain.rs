//! Replays a capture as `plum replay` does, with the standard library alone and nothing proved, on one thread.
//!
//! It is what the proved program is compared with: the same work, and the same texts where a capture has one mark. Where
//! it has more, its readings are those of a run in which each session reads before the next segment is begun. It reads
//! the setup and the site files in the form in which `bench/run` and `drill-files` write them. What it cannot read ends
//! it with the status of such a file; why is not told, and what a file must keep besides is not tested.
//!
//!     plain replay SETUP STATIONS TARGETS CAPTURE JOURNAL
//!     plain drill SEED STATIONS SECONDS
//!     plain drill-files DIR SEED STATIONS SECONDS LANES
//!
//! `drill` replays made-up shaking and tells what is expected in the end. `drill-files` writes the files of such a
//! replay, `setup.toml`, `stations.csv`, `targets.csv` and `capture`, for any number of stations and seconds.

use std::collections::{HashMap, VecDeque};
use std::env;
use std::fmt;
use std::fs::{self, File};
use std::io::{self, BufReader, BufWriter, Read, Write};
use std::mem;
use std::path::Path;
use std::process::ExitCode;
use std::str::FromStr;

/// The body of a mark.
const MARK: &[u8] = b"MK";

/// How many bodies a segment holds. Marks are not counted.
const SEGMENT_BODIES: usize = 65_536;

/// How many records a capture has at most, marks included.
const MOST_RECORDS: u32 = 4_294_967_294;

/// The most stations and targets.
const MOST_STATIONS: usize = 4_096;
const MOST_TARGETS: usize = 8_192;

const STATION_HEADER: &str = "code,x,y,factor";
const TARGET_HEADER: &str = "name,area,x,y,factor";

const HEADER: usize = 14;
const SAMPLE: usize = 12;
const MOST_SAMPLES: u16 = 200;

/// How many samples a window holds, and how many of them must reach a threshold.
const WINDOW: usize = 6_000;
const ENOUGH: usize = 30;

/// The greatest number of a signal, before and behind each stage, in filtered units.
const GREATEST: i64 = 1 << 30;

/// Within how many metres a station is near a target.
const RADIUS: i64 = 30_000;

const USAGE: &str = "usage: replay SETUP STATIONS TARGETS CAPTURE JOURNAL; \
                     drill SEED STATIONS SECONDS; drill-files DIR SEED STATIONS SECONDS LANES";

/// Why a replay stopped.
enum Stop {
    Usage,
    Setup,
    Sites(&'static str),
    Read(io::Error),
    Write(io::Error),
    TooManyRecords,
}

impl Stop {
    fn status(&self) -> u8 {
        match self {
            Stop::Usage => 2,
            Stop::Setup => 3,
            Stop::Sites(_) => 4,
            Stop::Read(_) => 5,
            Stop::Write(_) => 6,
            Stop::TooManyRecords => 7,
        }
    }
}

impl fmt::Display for Stop {
    fn fmt(&self, f: &mut fmt::Formatter) -> fmt::Result {
        match self {
            Stop::Usage => write!(f, "{USAGE}"),
            Stop::Setup => write!(f, "setup"),
            Stop::Sites(file) => write!(f, "{file}"),
            Stop::Read(error) => write!(f, "read fault: {error}"),
            Stop::Write(error) => write!(f, "write fault: {error}"),
            Stop::TooManyRecords => write!(f, "limit records"),
        }
    }
}

/// A stage of second order. The coefficients are multiples of 2^-q. It rounds down, or to the nearest with halves up.
#[derive(Clone, Copy, Debug, Default)]
struct Stage {
    b0: i64,
    b1: i64,
    b2: i64,
    a1: i64,
    a2: i64,
    q: u32,
    nearest: bool,
}

/// From counts to filtered units: times the factor, and then shifted to the right.
#[derive(Debug, Default)]
struct Gain {
    factor: i64,
    shift: u32,
}

impl Gain {
    fn signal(&self, count: i32) -> i64 {
        ((i64::from(count) * self.factor) >> self.shift).clamp(-GREATEST, GREATEST)
    }
}

/// Two readings in a row that reach `raise` raise an alert, and `calm` in a row below `cancel` end it.
#[derive(Clone, Copy, Debug, Default)]
struct Rules {
    raise: Class,
    cancel: Class,
    calm: u32,
}

/// Level i stands for base + i tenths of intensity.
#[derive(Debug, Default)]
struct Setup {
    gain: Gain,
    stages: Vec<Stage>,
    base: i16,
    thresholds: Vec<u64>,
    rules: Rules,
}

#[derive(Clone, Copy)]
struct Point {
    x: i32,
    y: i32,
}

impl Point {
    fn is_near(self, other: Point) -> bool {
        let (dx, dy) = (i64::from(self.x - other.x), i64::from(self.y - other.y));
        dx * dx + dy * dy <= RADIUS * RADIUS
    }
}

struct StationSite {
    code: u16,
    at: Point,
    factor: i16,
}

struct TargetSite {
    name: String,
    area: String,
    at: Point,
    factor: i16,
}

/// An area, and its targets by number.
struct Area {
    name: String,
    targets: Vec<usize>,
}

struct Sites {
    stations: Vec<StationSite>,
    targets: Vec<TargetSite>,
    /// In the order in which they come first in the target file.
    areas: Vec<Area>,
    /// The number of each station, by its code.
    numbers: HashMap<u16, usize>,
}

#[derive(Clone, Copy, PartialEq, Eq, PartialOrd, Ord)]
struct Key {
    boot: u16,
    number: u32,
}

#[derive(Clone, Copy)]
struct Sample {
    x: i32,
    y: i32,
    z: i32,
}

struct Packet {
    /// The station's number.
    station: usize,
    key: Key,
    wave: Vec<Sample>,
}

/// Why a body is no packet.
enum Fault {
    Short,
    Magic,
    Version(u8),
    Flags(u8),
    Station(u16),
    Count(u16),
    Length { expected: usize, found: usize },
}

impl fmt::Display for Fault {
    fn fmt(&self, f: &mut fmt::Formatter) -> fmt::Result {
        match self {
            Fault::Short => write!(f, "P1"),
            Fault::Magic => write!(f, "P2"),
            Fault::Version(version) => write!(f, "P3 {version}"),
            Fault::Flags(flags) => write!(f, "P4 {flags}"),
            Fault::Station(code) => write!(f, "P5 {code}"),
            Fault::Count(count) => write!(f, "P6 {count}"),
            Fault::Length { expected, found } => write!(f, "P7 {expected} {found}"),
        }
    }
}

/// A body that is no packet, and the number of its record.
struct Refused {
    record: u32,
    fault: Fault,
}

/// The bodies between two marks, in the order of the capture each.
#[derive(Default)]
struct Segment {
    packets: Vec<Packet>,
    refused: Vec<Refused>,
}

impl Segment {
    fn push(&mut self, sites: &Sites, record: u32, body: &[u8]) {
        match decode(sites, body) {
            Ok(packet) => self.packets.push(packet),
            Err(fault) => self.refused.push(Refused { record, fault }),
        }
    }

    fn bodies(&self) -> usize {
        self.packets.len() + self.refused.len()
    }
}

/// A kept packet without its samples, and the station's intensity after it.
struct Note {
    station: usize,
    key: Key,
    fresh: bool,
    value: Option<Tenths>,
}

#[derive(Clone, Copy, Debug, Default, PartialEq, Eq, PartialOrd, Ord)]
enum Class {
    #[default]
    C0,
    C1,
    C2,
    C3,
    C4,
    C5Lower,
    C5Upper,
    C6Lower,
    C6Upper,
    C7,
}

const CLASSES: [Class; 10] = [
    Class::C0,
    Class::C1,
    Class::C2,
    Class::C3,
    Class::C4,
    Class::C5Lower,
    Class::C5Upper,
    Class::C6Lower,
    Class::C6Upper,
    Class::C7,
];

impl Class {
    fn text(self) -> &'static str {
        match self {
            Class::C0 => "0",
            Class::C1 => "1",
            Class::C2 => "2",
            Class::C3 => "3",
            Class::C4 => "4",
            Class::C5Lower => "5-",
            Class::C5Upper => "5+",
            Class::C6Lower => "6-",
            Class::C6Upper => "6+",
            Class::C7 => "7",
        }
    }
}

impl fmt::Display for Class {
    fn fmt(&self, f: &mut fmt::Formatter) -> fmt::Result {
        f.write_str(self.text())
    }
}

#[derive(Clone, Copy, PartialEq, Eq, PartialOrd, Ord)]
struct Tenths(i16);

impl fmt::Display for Tenths {
    fn fmt(&self, f: &mut fmt::Formatter) -> fmt::Result {
        let sign = if self.0 < 0 { "-" } else { "" };
        let magnitude = self.0.unsigned_abs();
        write!(f, "{sign}{}.{}", magnitude / 10, magnitude % 10)
    }
}

impl Tenths {
    fn class(self) -> Class {
        match self.0 {
            ..5 => Class::C0,
            5..15 => Class::C1,
            15..25 => Class::C2,
            25..35 => Class::C3,
            35..45 => Class::C4,
            45..50 => Class::C5Lower,
            50..55 => Class::C5Upper,
            55..60 => Class::C6Lower,
            60..65 => Class::C6Upper,
            _ => Class::C7,
        }
    }
}

/// What there is, or `-` for none.
struct Field<T>(Option<T>);

impl<T: fmt::Display> fmt::Display for Field<T> {
    fn fmt(&self, f: &mut fmt::Formatter) -> fmt::Result {
        match &self.0 {
            Some(value) => value.fmt(f),
            None => f.write_str("-"),
        }
    }
}

#[derive(Clone, Copy, Debug, PartialEq, Eq)]
enum Alert {
    Raise(Class),
    Upgrade(Class),
    Cancel,
}

impl fmt::Display for Alert {
    fn fmt(&self, f: &mut fmt::Formatter) -> fmt::Result {
        match self {
            Alert::Raise(class) => write!(f, "raise {class}"),
            Alert::Upgrade(class) => write!(f, "upgrade {class}"),
            Alert::Cancel => f.write_str("cancel"),
        }
    }
}

/// The text between quotes.
fn unquoted(value: &str) -> Option<&str> {
    value.strip_prefix('"')?.strip_suffix('"')
}

fn class_named(value: &str) -> Option<Class> {
    let text = unquoted(value)?;
    CLASSES.into_iter().find(|class| class.text() == text)
}

/// The numbers of an array on one line.
fn numbers(value: &str) -> Option<Vec<u64>> {
    let items = value.strip_prefix('[')?.strip_suffix(']')?;
    items
        .split(',')
        .map(|item| item.trim().parse().ok())
        .collect()
}

impl Stage {
    fn set(&mut self, key: &str, value: &str) -> Option<()> {
        match key {
            "b0" => self.b0 = value.parse().ok()?,
            "b1" => self.b1 = value.parse().ok()?,
            "b2" => self.b2 = value.parse().ok()?,
            "a1" => self.a1 = value.parse().ok()?,
            "a2" => self.a2 = value.parse().ok()?,
            "q" => self.q = value.parse().ok()?,
            "round" => self.nearest = unquoted(value)? == "nearest",
            _ => {}
        }
        Some(())
    }
}

impl Setup {
    fn set(&mut self, table: &str, key: &str, value: &str) -> Option<()> {
        match (table, key) {
            ("gain", "g") => self.gain.factor = value.parse().ok()?,
            ("gain", "h") => self.gain.shift = value.parse().ok()?,
            ("stage", _) => self.stages.last_mut()?.set(key, value)?,
            ("levels", "base") => self.base = value.parse().ok()?,
            ("levels", "thresholds") => self.thresholds = numbers(value)?,
            ("rules", "raise") => self.rules.raise = class_named(value)?,
            ("rules", "cancel") => self.rules.cancel = class_named(value)?,
            ("rules", "calm") => self.rules.calm = value.parse().ok()?,
            _ => {}
        }
        Some(())
    }

    /// The setup of a text with a key a line, and comments on lines of their own. Keys that it does not use are passed
    /// over.
    fn read(text: &str) -> Option<Setup> {
        let mut setup = Setup::default();
        let mut table = "";
        for line in text.lines() {
            if line.is_empty() || line.starts_with('#') {
                continue;
            }
            if line.starts_with('[') {
                table = line.trim_matches(['[', ']']);
                if table == "stage" {
                    setup.stages.push(Stage::default());
                }
                continue;
            }
            let (key, value) = line.split_once(" = ")?;
            setup.set(table, key, value)?;
        }
        Some(setup)
    }
}

/// So many fields of a row. None has quotes.
fn fields<const N: usize>(row: &str) -> Option<[&str; N]> {
    let mut parts = row.split(',');
    let mut found = [""; N];
    for field in &mut found {
        *field = parts.next()?;
    }
    parts.next().is_none().then_some(found)
}

/// What the rows of a text say, at most so many, below this header.
fn read_rows<T>(
    text: &str,
    header: &str,
    most: usize,
    read: fn(&str) -> Option<T>,
) -> Option<Vec<T>> {
    let mut lines = text.lines().filter(|line| !line.is_empty());
    if lines.next()? != header {
        return None;
    }
    let rows: Vec<T> = lines.take(most + 1).map(read).collect::<Option<_>>()?;
    (rows.len() <= most).then_some(rows)
}

fn point(x: &str, y: &str) -> Option<Point> {
    Some(Point {
        x: x.parse().ok()?,
        y: y.parse().ok()?,
    })
}

fn station_of(row: &str) -> Option<StationSite> {
    let [code, x, y, factor] = fields(row)?;
    Some(StationSite {
        code: code.parse().ok()?,
        at: point(x, y)?,
        factor: factor.parse().ok()?,
    })
}

fn target_of(row: &str) -> Option<TargetSite> {
    let [name, area, x, y, factor] = fields(row)?;
    Some(TargetSite {
        name: name.to_string(),
        area: area.to_string(),
        at: point(x, y)?,
        factor: factor.parse().ok()?,
    })
}

fn areas_of(targets: &[TargetSite]) -> Vec<Area> {
    let mut areas: Vec<Area> = Vec::new();
    for (number, target) in targets.iter().enumerate() {
        match areas.iter_mut().find(|area| area.name == target.area) {
            Some(area) => area.targets.push(number),
            None => areas.push(Area {
                name: target.area.clone(),
                targets: vec![number],
            }),
        }
    }
    areas
}

impl Sites {
    fn new(stations: Vec<StationSite>, targets: Vec<TargetSite>) -> Sites {
        let numbers = stations.iter().enumerate();
        Sites {
            numbers: numbers.map(|(number, site)| (site.code, number)).collect(),
            areas: areas_of(&targets),
            stations,
            targets,
        }
    }
}

fn read_setup(path: &str) -> Result<Setup, Stop> {
    let text = fs::read_to_string(path).map_err(Stop::Read)?;
    Setup::read(&text).ok_or(Stop::Setup)
}

fn stations_in(text: &str) -> Option<Vec<StationSite>> {
    read_rows(text, STATION_HEADER, MOST_STATIONS, station_of)
}

fn targets_in(text: &str) -> Option<Vec<TargetSite>> {
    read_rows(text, TARGET_HEADER, MOST_TARGETS, target_of)
}

fn read_stations(path: &str) -> Result<Vec<StationSite>, Stop> {
    let text = fs::read_to_string(path).map_err(Stop::Read)?;
    stations_in(&text).ok_or(Stop::Sites("stations"))
}

fn read_targets(path: &str) -> Result<Vec<TargetSite>, Stop> {
    let text = fs::read_to_string(path).map_err(Stop::Read)?;
    targets_in(&text).ok_or(Stop::Sites("targets"))
}

/// Reads a record, length and all. Tells whether it is whole: else the input ended.
fn read_record(input: &mut impl Read, record: &mut Vec<u8>) -> io::Result<bool> {
    record.clear();
    input.by_ref().take(2).read_to_end(record)?;
    let Some(length) = record.first_chunk() else {
        return Ok(false);
    };
    let length = u16::from_be_bytes(*length);
    let taken = input.by_ref().take(length.into()).read_to_end(record)?;
    Ok(taken == usize::from(length))
}

fn read_u16(bytes: &[u8], at: usize) -> u16 {
    u16::from_be_bytes(bytes[at..at + 2].try_into().unwrap())
}

fn read_u32(bytes: &[u8], at: usize) -> u32 {
    u32::from_be_bytes(bytes[at..at + 4].try_into().unwrap())
}

fn sample(bytes: &[u8]) -> Sample {
    Sample {
        x: read_u32(bytes, 0) as i32,
        y: read_u32(bytes, 4) as i32,
        z: read_u32(bytes, 8) as i32,
    }
}

/// The packet that a body is, or its first fault.
fn decode(sites: &Sites, body: &[u8]) -> Result<Packet, Fault> {
    if body.len() < HEADER {
        return Err(Fault::Short);
    }
    if !body.starts_with(b"PL") {
        return Err(Fault::Magic);
    }
    if body[2] != 1 {
        return Err(Fault::Version(body[2]));
    }
    if body[3] != 0 {
        return Err(Fault::Flags(body[3]));
    }
    let code = read_u16(body, 4);
    let Some(&station) = sites.numbers.get(&code) else {
        return Err(Fault::Station(code));
    };
    let count = read_u16(body, 12);
    if !(1..=MOST_SAMPLES).contains(&count) {
        return Err(Fault::Count(count));
    }
    let (expected, found) = (HEADER + SAMPLE * usize::from(count), body.len());
    if expected != found {
        return Err(Fault::Length { expected, found });
    }
    Ok(Packet {
        station,
        key: Key {
            boot: read_u16(body, 6),
            number: read_u32(body, 8),
        },
        wave: body[HEADER..].chunks_exact(SAMPLE).map(sample).collect(),
    })
}

/// A capture that is read segment by segment. A segment ends at a mark, where it is full, and at the end.
struct Capture<'a, I> {
    input: I,
    sites: &'a Sites,
    /// The record that was read last. At the end it is the tail.
    record: Vec<u8>,
    records: u32,
    ended: bool,
}

impl<'a, I: Read> Capture<'a, I> {
    fn new(input: I, sites: &'a Sites) -> Capture<'a, I> {
        Capture {
            input,
            sites,
            record: Vec::new(),
            records: 0,
            ended: false,
        }
    }

    /// The next segment, and none behind the last.
    fn next_segment(&mut self) -> Result<Option<Segment>, Stop> {
        if self.ended {
            return Ok(None);
        }
        let mut segment = Segment::default();
        while read_record(&mut self.input, &mut self.record).map_err(Stop::Read)? {
            if self.records == MOST_RECORDS {
                return Err(Stop::TooManyRecords);
            }
            self.records += 1;
            let body = &self.record[2..];
            if body == MARK {
                return Ok(Some(segment));
            }
            segment.push(self.sites, self.records, body);
            if segment.bodies() == SEGMENT_BODIES {
                return Ok(Some(segment));
            }
        }
        self.ended = true;
        Ok(Some(segment))
    }

    /// How many bytes stand behind the last whole record, once there is no next segment.
    fn tail(&self) -> usize {
        self.record.len()
    }
}

/// A stage at work, and the two numbers of its input and of its output before, newest first.
struct Biquad {
    stage: Stage,
    half: i64,
    x1: i64,
    x2: i64,
    y1: i64,
    y2: i64,
}

impl Biquad {
    fn new(stage: Stage) -> Biquad {
        Biquad {
            stage,
            half: if stage.nearest { 1 << (stage.q - 1) } else { 0 },
            x1: 0,
            x2: 0,
            y1: 0,
            y2: 0,
        }
    }

    fn step(&mut self, x: i64) -> i64 {
        let stage = &self.stage;
        let sum = stage.b0 * x + stage.b1 * self.x1 + stage.b2 * self.x2
            - stage.a1 * self.y1
            - stage.a2 * self.y2;
        let y = ((sum + self.half) >> stage.q).clamp(-GREATEST, GREATEST);
        (self.x1, self.x2) = (x, self.x1);
        (self.y1, self.y2) = (y, self.y1);
        y
    }
}

/// The stages of one component.
struct Filter(Vec<Biquad>);

impl Filter {
    fn new(stages: &[Stage]) -> Filter {
        Filter(stages.iter().map(|stage| Biquad::new(*stage)).collect())
    }

    fn step(&mut self, x: i64) -> i64 {
        self.0.iter_mut().fold(x, |x, stage| stage.step(x))
    }

    fn reset(&mut self) {
        for stage in &mut self.0 {
            *stage = Biquad::new(stage.stage);
        }
    }
}

/// The level of each sample of the last minute since the last gap, how many samples have each level,
/// and the greatest level that enough of them have or exceed.
struct Window<'a> {
    thresholds: &'a [u64],
    levels: VecDeque<u8>,
    counts: Vec<usize>,
    top: usize,
    reached: usize,
}

impl<'a> Window<'a> {
    fn new(thresholds: &'a [u64]) -> Window<'a> {
        Window {
            thresholds,
            levels: VecDeque::with_capacity(WINDOW),
            counts: vec![0; thresholds.len()],
            top: 0,
            reached: 0,
        }
    }

    fn clear(&mut self) {
        self.levels.clear();
        self.counts.fill(0);
        self.top = 0;
        self.reached = 0;
    }

    fn level(&self) -> Option<usize> {
        (self.levels.len() >= ENOUGH).then_some(self.top)
    }

    fn push(&mut self, amplitude: u64) {
        if self.levels.len() == WINDOW {
            let left = self.levels.pop_front().map_or(0, usize::from);
            self.counts[left] -= 1;
            self.reached -= usize::from(left >= self.top);
        }
        let came = self
            .thresholds
            .partition_point(|threshold| *threshold <= amplitude)
            - 1;
        self.levels.push_back(came as u8);
        self.counts[came] += 1;
        self.reached += usize::from(came >= self.top);
        while self.reached - self.counts[self.top] >= ENOUGH {
            self.reached -= self.counts[self.top];
            self.top += 1;
        }
        while self.reached < ENOUGH && self.top > 0 {
            self.top -= 1;
            self.reached += self.counts[self.top];
        }
    }
}

/// What works out a station's intensity: a filter for each component, and the window behind them.
struct Engine<'a> {
    setup: &'a Setup,
    filters: [Filter; 3],
    window: Window<'a>,
}

impl<'a> Engine<'a> {
    fn new(setup: &'a Setup) -> Engine<'a> {
        Engine {
            setup,
            filters: [(); 3].map(|()| Filter::new(&setup.stages)),
            window: Window::new(&setup.thresholds),
        }
    }

    fn squared_amplitude(&mut self, sample: &Sample) -> u64 {
        let [x, y, z] = &mut self.filters;
        [(x, sample.x), (y, sample.y), (z, sample.z)]
            .into_iter()
            .map(|(filter, count)| {
                let size = filter.step(self.setup.gain.signal(count)).unsigned_abs();
                size * size
            })
            .sum()
    }

    fn absorb(&mut self, fresh: bool, wave: &[Sample]) -> Option<Tenths> {
        if fresh {
            self.filters.iter_mut().for_each(Filter::reset);
            self.window.clear();
        }
        for sample in wave {
            let amplitude = self.squared_amplitude(sample);
            self.window.push(amplitude);
        }
        let level = self.window.level()?;
        Some(Tenths(self.setup.base + level as i16))
    }
}

/// A station: its last kept packet, and the run that this one ended.
struct Station<'a> {
    last: Option<Key>,
    engine: Engine<'a>,
}

impl<'a> Station<'a> {
    fn new(setup: &'a Setup) -> Station<'a> {
        Station {
            last: None,
            engine: Engine::new(setup),
        }
    }

    /// The note of a packet that is kept: none where it is a repeat.
    fn take(&mut self, Packet { station, key, wave }: Packet) -> Option<Note> {
        if self.last.is_some_and(|last| key <= last) {
            return None;
        }
        let continues = self.last.is_some_and(|last| {
            key.boot == last.boot && last.number.checked_add(1) == Some(key.number)
        });
        self.last = Some(key);
        let value = self.engine.absorb(!continues, &wave);
        Some(Note {
            station,
            key,
            fresh: !continues,
            value,
        })
    }
}

/// What the stations show, and which of them are near each target. They stand where they are, so that is worked out
/// once.
struct Board<'a> {
    sites: &'a Sites,
    values: Vec<Option<Tenths>>,
    near: Vec<Vec<u16>>,
}

impl<'a> Board<'a> {
    fn new(sites: &'a Sites) -> Board<'a> {
        let near_to = |target: &TargetSite| {
            let stations = (0..).zip(&sites.stations);
            stations
                .filter(|(_, site)| site.at.is_near(target.at))
                .map(|(number, _)| number)
                .collect()
        };
        Board {
            sites,
            values: vec![None; sites.stations.len()],
            near: sites.targets.iter().map(near_to).collect(),
        }
    }

    /// The greatest of what the stations near a target show, without their factors and with the target's.
    fn predict(&self, target: usize) -> Option<Tenths> {
        let said_by = |number: &u16| {
            let number = usize::from(*number);
            let Tenths(value) = self.values[number]?;
            Some(value - self.sites.stations[number].factor)
        };
        let best = self.near[target].iter().filter_map(said_by).max()?;
        Some(Tenths(best + self.sites.targets[target].factor))
    }
}

/// What stands in an area.
struct Desk {
    rules: Rules,
    alert: Option<Class>,
    /// Whether the last reading reached the raise class.
    reached: bool,
    /// How many readings in a row are below the cancel class, up to the last.
    calm: u32,
}

impl Desk {
    fn new(rules: Rules) -> Desk {
        Desk {
            rules,
            alert: None,
            reached: false,
            calm: 0,
        }
    }

    /// The alert that the next reading gives, if any. No class is below every class.
    fn next(&mut self, class: Option<Class>) -> Option<Alert> {
        let reaches = class >= Some(self.rules.raise);
        let reached_before = mem::replace(&mut self.reached, reaches);
        self.calm = if class < Some(self.rules.cancel) {
            self.calm.saturating_add(1)
        } else {
            0
        };
        match (self.alert, class) {
            (None, Some(class)) if reaches && reached_before => {
                self.alert = Some(class);
                Some(Alert::Raise(class))
            }
            (Some(alert), Some(class)) if class > alert => {
                self.alert = Some(class);
                Some(Alert::Upgrade(class))
            }
            (Some(_), _) if self.calm >= self.rules.calm => {
                self.alert = None;
                Some(Alert::Cancel)
            }
            _ => None,
        }
    }
}

/// The bodies of a segment, or of all, by what became of them.
#[derive(Clone, Copy, Default)]
struct Counts {
    kept: usize,
    repeats: usize,
    refused: usize,
}

impl Counts {
    fn add(&mut self, other: Counts) {
        self.kept += other.kept;
        self.repeats += other.repeats;
        self.refused += other.refused;
    }
}

impl fmt::Display for Counts {
    fn fmt(&self, f: &mut fmt::Formatter) -> fmt::Result {
        let Counts {
            kept,
            repeats,
            refused,
        } = self;
        write!(f, "{} {kept} {repeats} {refused}", kept + repeats + refused)
    }
}

/// A replay at work, and the two texts that it writes.
struct Replay<'a, J: Write, O: Write> {
    journal: J,
    output: O,
    sites: &'a Sites,
    stations: Vec<Station<'a>>,
    board: Board<'a>,
    desks: Vec<Desk>,
    segments: usize,
    counts: Counts,
}

impl<'a, J: Write, O: Write> Replay<'a, J, O> {
    fn new(setup: &'a Setup, sites: &'a Sites, journal: J, output: O) -> Replay<'a, J, O> {
        Replay {
            journal,
            output,
            sites,
            stations: sites.stations.iter().map(|_| Station::new(setup)).collect(),
            board: Board::new(sites),
            desks: sites.areas.iter().map(|_| Desk::new(setup.rules)).collect(),
            segments: 0,
            counts: Counts::default(),
        }
    }

    /// Replays one segment more, and tells what stands at its mark.
    fn work(&mut self, Segment { packets, refused }: Segment) -> io::Result<()> {
        self.segments += 1;
        let taken = packets.len();
        let mut kept = 0;
        for packet in packets {
            if let Some(note) = self.stations[packet.station].take(packet) {
                kept += 1;
                self.board.values[note.station] = note.value;
                self.write_note(self.counts.kept + kept, &note)?;
            }
        }
        let counts = Counts {
            kept,
            repeats: taken - kept,
            refused: refused.len(),
        };
        self.counts.add(counts);
        self.write_section(counts, &refused)
    }

    fn write_note(&mut self, n: usize, note: &Note) -> io::Result<()> {
        let Key { boot, number } = note.key;
        let run = if note.fresh { 'F' } else { 'C' };
        let code = self.sites.stations[note.station].code;
        let (segment, value) = (self.segments, Field(note.value));
        writeln!(
            self.journal,
            "E {n} {segment} {code} {boot} {number} {run} {value}"
        )
    }

    fn write_section(&mut self, counts: Counts, refused: &[Refused]) -> io::Result<()> {
        writeln!(self.output, "M {} {counts}", self.segments)?;
        for Refused { record, fault } in refused {
            writeln!(self.output, "X {record} {fault}")?;
        }
        let sites = self.sites;
        for (number, area) in sites.areas.iter().enumerate() {
            self.write_reading(number, area)?;
        }
        Ok(())
    }

    fn write_reading(&mut self, number: usize, area: &Area) -> io::Result<()> {
        let (m, out) = (self.segments, &mut self.output);
        writeln!(out, "R {m} {} {}", area.name, self.counts.kept)?;
        let mut greatest = None;
        for &target in &area.targets {
            let value = self.board.predict(target);
            let (name, class) = (&self.sites.targets[target].name, value.map(Tenths::class));
            writeln!(out, "P {m} {name} {} {}", Field(value), Field(class))?;
            greatest = greatest.max(class);
        }
        if let Some(alert) = self.desks[number].next(greatest) {
            writeln!(out, "A {m} {} {alert}", area.name)?;
        }
        Ok(())
    }

    fn totals(&self) -> String {
        format!("Z {} {}", self.segments, self.counts)
    }

    fn end(&mut self, tail: usize) -> io::Result<()> {
        writeln!(self.output, "T {tail}")?;
        writeln!(self.output, "{}", self.totals())?;
        self.journal.flush()?;
        self.output.flush()
    }

    /// Replays a whole capture, a segment at a time.
    fn work_all(&mut self, mut capture: Capture<'_, impl Read>) -> Result<(), Stop> {
        while let Some(segment) = capture.next_segment()? {
            self.work(segment).map_err(Stop::Write)?;
        }
        self.end(capture.tail()).map_err(Stop::Write)
    }
}

fn replay(paths: [&str; 5]) -> Result<(), Stop> {
    let [setup, stations, targets, capture, journal] = paths;
    let setup = read_setup(setup)?;
    let sites = Sites::new(read_stations(stations)?, read_targets(targets)?);
    let journal = BufWriter::new(File::create(journal).map_err(Stop::Write)?);
    let output = BufWriter::new(io::stdout().lock());
    let input = BufReader::new(File::open(capture).map_err(Stop::Read)?);
    Replay::new(&setup, &sites, journal, output).work_all(Capture::new(input, &sites))
}

/// A made-up shaking of so many stations for so many seconds, and the number from which it is drawn.
#[derive(Clone, Copy)]
struct Drill {
    seed: u64,
    stations: u16,
    seconds: u32,
}

const DRILL_BOOT: u16 = 1;
const DRILL_SAMPLES: u16 = 100;
const DRILL_TARGETS: u16 = 64;

/// The shaking grows for so many seconds.
const DRILL_GROWS: u32 = 60;

/// The stages: b0, b1, b2, a1, a2, as multiples of 2^-20, and the rounding. They are no filter of any standard.
const DRILL_STAGES: [([i64; 5], &str); 6] = [
    ([1_048_576, -1_048_576, 0, -1_043_333, 0], "nearest"),
    ([262_144, 0, 0, -786_432, 0], "nearest"),
    ([524_288, 524_288, 0, 0, 0], "floor"),
    ([1_048_576, -1_048_576, 0, -1_043_333, 0], "nearest"),
    ([524_288, 0, 0, -524_288, 0], "nearest"),
    ([1_048_576, 0, 0, 0, 0], "nearest"),
];

/// The linear congruential generator of 64 bits whose upper half is drawn.
struct Draws(u64);

impl Draws {
    fn draw(&mut self) -> u32 {
        self.0 = self
            .0
            .wrapping_mul(6_364_136_223_846_793_005)
            .wrapping_add(1_442_695_040_888_963_407);
        (self.0 >> 32) as u32
    }

    /// A number from the negative of the greatest up to it.
    fn component(&mut self, greatest: u32) -> i32 {
        (self.draw() % (2 * greatest + 1)) as i32 - greatest as i32
    }
}

fn drill_setup(lanes: u16) -> String {
    let stages: String = DRILL_STAGES
        .iter()
        .map(|([b0, b1, b2, a1, a2], round)| {
            format!(
                "\n[[stage]]\nb0 = {b0}\nb1 = {b1}\nb2 = {b2}\na1 = {a1}\na2 = {a2}\n\
                 q = 20\nround = \"{round}\"\n"
            )
        })
        .collect();
    let thresholds: Vec<u64> = (0..=50)
        .map(|i| if i == 0 { 0 } else { 1 << (i + 5) })
        .collect();
    format!(
        "lanes = {lanes}\nqueue = 256\n\n[gain]\ng = 1\nh = 0\n{stages}\n\
         [levels]\nbase = 0\nthresholds = {thresholds:?}\n\n\
         [rules]\nraise = \"4\"\ncancel = \"3\"\ncalm = 5\n"
    )
}

fn drill_stations(count: u16) -> String {
    let rows = (0..u32::from(count)).map(|i| {
        let (x, y) = (4_000 * (i % 20), 4_000 * (i / 20));
        format!("{},{x},{y},{}\n", i + 1, (i % 5) as i32 - 2)
    });
    format!("{STATION_HEADER}\n{}", rows.collect::<String>())
}

fn drill_targets() -> String {
    let rows = (0..DRILL_TARGETS).map(|j| {
        let (column, row) = (u32::from(j % 8), u32::from(j / 8));
        let (x, y) = (10_000 * column, 10_000 * row);
        format!("t{j:02},a{column},{x},{y},{}\n", i32::from(j % 3) - 1)
    });
    format!("{TARGET_HEADER}\n{}", rows.collect::<String>())
}

impl Drill {
    fn write_packet(
        &self,
        out: &mut impl Write,
        draws: &mut Draws,
        second: u32,
        code: u16,
    ) -> io::Result<()> {
        let greatest = 100 + 1_000 * second.min(DRILL_GROWS);
        let length = HEADER + SAMPLE * usize::from(DRILL_SAMPLES);
        let mut record = Vec::with_capacity(2 + length);
        record.extend((length as u16).to_be_bytes());
        record.extend(b"PL\x01\x00");
        record.extend(code.to_be_bytes());
        record.extend(DRILL_BOOT.to_be_bytes());
        record.extend(second.to_be_bytes());
        record.extend(DRILL_SAMPLES.to_be_bytes());
        for _ in 0..3 * DRILL_SAMPLES {
            record.extend(draws.component(greatest).to_be_bytes());
        }
        out.write_all(&record)
    }

    /// Each second a packet of each station, and then a mark.
    fn write_capture(&self, mut out: impl Write) -> io::Result<()> {
        let mut draws = Draws(self.seed);
        for second in 0..self.seconds {
            for code in 1..=self.stations {
                self.write_packet(&mut out, &mut draws, second, code)?;
            }
            out.write_all(&(MARK.len() as u16).to_be_bytes())?;
            out.write_all(MARK)?;
        }
        out.flush()
    }

    fn write_files(&self, folder: &Path, lanes: u16) -> io::Result<()> {
        fs::create_dir_all(folder)?;
        fs::write(folder.join("setup.toml"), drill_setup(lanes))?;
        fs::write(folder.join("stations.csv"), drill_stations(self.stations))?;
        fs::write(folder.join("targets.csv"), drill_targets())?;
        let capture = File::create(folder.join("capture"))?;
        self.write_capture(BufWriter::new(capture))
    }

    /// Replays the drill in memory, and tells its totals and what is predicted at the last mark.
    fn tell(&self) -> Result<(), Stop> {
        let setup = Setup::read(&drill_setup(1)).ok_or(Stop::Setup)?;
        let stations =
            stations_in(&drill_stations(self.stations)).ok_or(Stop::Sites("stations"))?;
        let targets = targets_in(&drill_targets()).ok_or(Stop::Sites("targets"))?;
        let sites = Sites::new(stations, targets);
        let mut bytes = Vec::new();
        self.write_capture(&mut bytes).map_err(Stop::Write)?;
        let (mut journal, mut output) = (Vec::new(), Vec::new());
        let mut replay = Replay::new(&setup, &sites, &mut journal, &mut output);
        replay.work_all(Capture::new(bytes.as_slice(), &sites))?;
        let (last, totals) = (format!("P {} ", replay.segments), replay.totals());
        let output = String::from_utf8_lossy(&output);
        let answers = output.lines().filter(|line| line.starts_with(&last));
        let summary: String = answers.map(|line| format!("{line}\n")).collect();
        let Drill {
            seed,
            stations,
            seconds,
        } = self;
        let mut out = io::stdout().lock();
        write!(
            out,
            "drill {seed} {stations} {seconds}\n{totals}\n{summary}"
        )
        .map_err(Stop::Write)
    }
}

fn is_path(word: &str) -> bool {
    !word.is_empty() && !word.starts_with('-')
}

/// A number of decimal digits, from one to another.
fn number<T: FromStr + PartialOrd>(word: &str, least: T, most: T) -> Result<T, Stop> {
    let digits = (1..=20).contains(&word.len()) && word.bytes().all(|b| b.is_ascii_digit());
    let found = word.parse().ok().filter(|n| (least..=most).contains(n));
    found.filter(|_| digits).ok_or(Stop::Usage)
}

fn run() -> Result<(), Stop> {
    let words: Vec<String> = env::args().skip(1).collect();
    let words: Vec<&str> = words.iter().map(String::as_str).collect();
    match *words.as_slice() {
        ["replay", ref paths @ ..] if paths.iter().all(|path| is_path(path)) => {
            replay(paths.try_into().map_err(|_| Stop::Usage)?)
        }
        ["drill", seed, stations, seconds] => {
            let drill = Drill {
                seed: number(seed, 0, u64::MAX)?,
                stations: number(stations, 1, 400)?,
                seconds: number(seconds, 1, 300)?,
            };
            drill.tell()
        }
        ["drill-files", folder, seed, stations, seconds, lanes] => {
            let drill = Drill {
                seed: number(seed, 0, u64::MAX)?,
                stations: number(stations, 1, MOST_STATIONS as u16)?,
                seconds: number(seconds, 1, u32::MAX)?,
            };
            let lanes = number(lanes, 1, 16)?;
            drill
                .write_files(Path::new(folder), lanes)
                .map_err(Stop::Write)
        }
        _ => Err(Stop::Usage),
    }
}

fn main() -> ExitCode {
    match run() {
        Ok(()) => ExitCode::SUCCESS,
        Err(stop) => {
            eprintln!("plain: {stop}");
            ExitCode::from(stop.status())
        }
    }
}

#[cfg(test)]
mod tests {
    use super::*;

    #[test]
    fn alerts_are_by_the_rules() {
        let rules = Rules {
            raise: Class::C4,
            cancel: Class::C3,
            calm: 2,
        };
        let mut desk = Desk::new(rules);
        let greatest = [
            Some(40),
            Some(47),
            Some(52),
            Some(20),
            None,
            Some(46),
            Some(46),
        ];
        let alerts = greatest.map(|tenths| desk.next(tenths.map(|t| Tenths(t).class())));
        let wanted = [
            None,
            Some(Alert::Raise(Class::C5Lower)),
            Some(Alert::Upgrade(Class::C5Upper)),
            None,
            Some(Alert::Cancel),
            None,
            Some(Alert::Raise(Class::C5Lower)),
        ];
        assert_eq!(alerts, wanted);
    }

    /// What a filter of one stage gives: b0, a1 and a division by two.
    fn outputs<const N: usize>(b0: i64, a1: i64, nearest: bool, inputs: [i64; N]) -> [i64; N] {
        let stage = Stage {
            b0,
            a1,
            q: 1,
            nearest,
            ..Stage::default()
        };
        let mut filter = Filter::new(&[stage]);
        inputs.map(|x| filter.step(x))
    }

    #[test]
    fn a_stage_adds_up_and_is_cut() {
        assert_eq!(outputs(2, -2, false, [5, 0, 0]), [5, 5, 5]);
        let inputs = [GREATEST, GREATEST, -1];
        assert_eq!(
            outputs(2, -2, false, inputs),
            [GREATEST, GREATEST, GREATEST - 1]
        );
    }

    #[test]
    fn halves_are_rounded_up_or_down() {
        assert_eq!(outputs(1, 0, false, [-1, 1]), [-1, 0]);
        assert_eq!(outputs(1, 0, true, [-1, 1]), [0, 1]);
    }
}
