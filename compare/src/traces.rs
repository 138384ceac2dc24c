//! Random traces, and the text that the programs print of them.

use std::collections::BTreeMap;
use std::io::{Read, Write};
use std::path::PathBuf;
use std::process::{Command, Stdio};
use std::thread;

use crate::arrivals;
use crate::cases::{damage_wire, end_inside};
use crate::input::hex;
use crate::positions;
use crate::random::Random;
use crate::scene;
use crate::tables;
use crate::wire::Wire;
use model::*;

/// The programs' names, and what each prints.
const PROGRAMS: [(&str, Output); 3] =
    [("replay", Output::Lines), ("records", Output::Records), ("totals", Output::Totals)];

/// Who replays: the programs, or the model where there is no library to compare with.
pub enum Replayer {
    Programs([PathBuf; 3]),
    Model(Model),
}

impl Replayer {
    fn printed(&self, trace: &[u8], which: usize) -> Result<String, String> {
        match self {
            Replayer::Model(model) => Ok(model.printed(trace, PROGRAMS[which].1)),
            Replayer::Programs(paths) => {
                let path = &paths[which];
                run(path, trace).map_err(|error| format!("{}: {error}\n", path.display()))
            }
        }
    }
}

/// Input and output at the same time, since neither has to fit into a pipe.
fn run(path: &PathBuf, trace: &[u8]) -> Result<String, String> {
    let mut child = Command::new(path)
        .stdin(Stdio::piped())
        .stdout(Stdio::piped())
        .stderr(Stdio::piped())
        .spawn()
        .map_err(|error| error.to_string())?;
    let mut input = child.stdin.take().ok_or("no standard input")?;
    let mut output = child.stdout.take().ok_or("no standard output")?;
    let mut said = child.stderr.take().ok_or("no standard error")?;
    let (mut text, mut failure) = (Vec::new(), Vec::new());
    let read = thread::scope(|scope| {
        // A program that stops early closes its input: that is no error here.
        scope.spawn(move || input.write_all(trace).ok());
        scope.spawn(|| said.read_to_end(&mut failure).ok());
        output.read_to_end(&mut text)
    });
    let status = child.wait().map_err(|error| error.to_string())?;
    read.map_err(|error| error.to_string())?;
    if status.code().is_none() {
        return Err(format!("ended by a signal: {status}"));
    }
    if !failure.is_empty() {
        // The programs have no exit status: this is how they tell that they failed.
        return Err(format!("on standard error: {}", String::from_utf8_lossy(&failure)));
    }
    Ok(String::from_utf8_lossy(&text).into_owned())
}

/// A trace as it is written, with the state that its events lead to so that they mean something.
struct Scribe<'a> {
    random: &'a mut Random,
    /// Begins more sequences than it ends.
    crowded: bool,
    /// Has more associations than there are rows; counts them.
    many: Option<u16>,
    /// A kind that the trace stops at.
    unknown: Option<u8>,
    trace: Vec<u8>,
    registry: Vec<u8>,
    table: Table,
    summary: Summary,
    store: Vec<u8>,
    report: Vec<u8>,
}

impl Scribe<'_> {
    fn register(&mut self, count: usize) {
        for entry in tables::entries(self.random, count) {
            let [high, low] = entry.context.to_be_bytes();
            self.registry.extend([entry.kind, high, low]);
        }
        if self.random.one_in(30) {
            // In the trace no registry record is refused, but the open is.
            let bad = self.random.pick(&[[1, 0, 0], [2, 0x40, 0], [1, 0xff, 0xff]]);
            self.registry.extend(bad);
        }
        self.trace.extend(&self.registry);
    }

    fn open(&mut self) {
        let timer = match self.random.one_in(12) {
            true => self.random.pick(&[0, 1_000_001, u32::MAX]),
            false => tables::timer(self.random),
        };
        let clock = tables::clock(self.random);
        self.trace.push(32);
        self.trace.extend(timer.to_be_bytes());
        self.trace.extend(clock.to_be_bytes());
        let summary = &mut self.summary;
        self.table = Model::PLAIN.opening(summary, &self.registry, timer, clock).table;
    }

    fn segment(&mut self) {
        let begun = match self.crowded && !self.random.one_in(8) {
            true => scene::begin(self.random, &self.table),
            false => None,
        };
        let mut scene = begun.unwrap_or_else(|| scene::scene(self.random, &self.table));
        if let Some(many) = self.many.as_mut().filter(|_| self.random.one_in(2)) {
            *many = (*many + 1) % 75;
            scene.association = *many;
            (scene.wire.new, scene.wire.remaining, scene.wire.reference) = (true, 0, None);
        }
        let (time, parameter) = (self.time(), &self.parameter(&mut scene.wire));
        self.trace.push(33);
        self.trace.extend(time.to_be_bytes());
        self.trace.extend(scene.association.to_be_bytes());
        self.trace.push(parameter.len() as u8);
        self.trace.extend(parameter);
        let rest = self.random.octets(PARAMETER - parameter.len());
        self.trace.extend(rest);
        let Scribe { table, summary, store, report, .. } = self;
        let arrival = Arrival { time, association: scene.association, parameter };
        *table = Model::PLAIN.arrival(*table, summary, store, report, arrival).table;
    }

    /// A segment's time: mostly the table's own or soon after it, seldom so late that something is
    /// due, and now and then before it.
    fn time(&mut self) -> u32 {
        let Table { clock, timer, .. } = self.table;
        let step = match self.random.weighted(&[60, 30, 3, 1, 1]) {
            0 => 0,
            1 => self.random.below(4) as u32,
            2 => timer / 2,
            3 => self.random.pick(&[timer, timer, timer.saturating_sub(1), (1 << 31) - 1]),
            _ => self.random.pick(&[1 << 31, u32::MAX]),
        };
        clock.wrapping_add(step)
    }

    /// Mostly good, as the wire is; else damaged, and now and then any octets.
    fn parameter(&mut self, wire: &mut Wire) -> Vec<u8> {
        if self.random.one_in(20) {
            let length = self.random.within(0..=255);
            return self.random.octets(length);
        }
        if !self.random.one_in(10) {
            return wire.octets();
        }
        // Often two at once, so that their order is seen.
        let refusals = [(); 2].map(|()| self.random.pick(&[5, 6, 7, 8, 9, 23]));
        let held = &refusals[..self.random.within(1..=2)];
        damage_wire(self.random, &self.table, wire, held);
        wire.fit();
        let mut parameter = wire.octets();
        if held.contains(&5) {
            parameter.truncate(end_inside(self.random, wire));
        }
        parameter
    }

    fn clock(&mut self) {
        let step = match self.random.below(12) {
            0 => self.random.pick(&[1 << 31, (1 << 31) - 1, u32::MAX]),
            1 => self.table.timer,
            2 => self.table.timer.saturating_sub(1),
            _ => self.random.below(8) as u32,
        };
        let time = self.table.clock.wrapping_add(step);
        self.trace.push(34);
        self.trace.extend(time.to_be_bytes());
        let Scribe { table, summary, report, .. } = self;
        *table = Model::PLAIN.clock(*table, summary, report, time).table;
    }

    fn release(&mut self) {
        let association = tables::association(self.random);
        self.trace.push(35);
        self.trace.extend(association.to_be_bytes());
        let Scribe { table, summary, report, .. } = self;
        *table = Model::PLAIN.release(*table, summary, report, association).table;
    }

    fn events(&mut self, count: usize) {
        for _ in 0..count {
            let weights = match (self.many, self.crowded) {
                (Some(_), _) => [1, 400, 16, 4],
                (None, true) => [1, 100, 4, 1],
                (None, false) => [1, 80, 12, 4],
            };
            match self.random.weighted(&weights) {
                0 => self.open(),
                1 => self.segment(),
                2 => self.clock(),
                _ => self.release(),
            }
        }
    }

    /// A whole record of a delivery or a loss, which is none of a trace's, before and since A3.
    fn record(&mut self) {
        let (kind, length) = self.random.pick(&[
            (16, OLD_RECORD),
            (17, OLD_RECORD),
            (DELIVERED, RECORD),
            (LOST, RECORD),
        ]);
        self.unknown = Some(kind);
        self.trace.push(kind);
        let body = self.random.octets(length - 1);
        self.trace.extend(body);
        self.events(3);
    }

    /// Something after which the trace is not replayed to its end, or just garbage.
    fn damage(&mut self) {
        match self.random.below(10) {
            0 => self.trace.truncate(self.random.within(0..=self.trace.len())),
            1 => {
                let any = self.random.octet();
                let kind = self.random.pick(&[0, 3, 15, 16, 17, 18, 19, 20, 31, 36, 255, any]);
                self.trace.push(kind);
                self.events(3);
            }
            2 => {
                let kind = self.random.within(1..=2) as u8;
                self.trace.extend([kind, 0, 3]);
                self.events(3);
            }
            3 => {
                let at = self.random.below(self.trace.len().max(1));
                let bit = 1 << self.random.below(8);
                self.trace.iter_mut().skip(at).take(1).for_each(|octet| *octet ^= bit);
            }
            4 => {
                let length = self.random.below(40);
                let garbage = self.random.octets(length);
                self.trace.extend(garbage);
            }
            5 => self.trace.extend([33, 0, 9]),
            _ => self.record(),
        }
    }
}

pub struct Trace {
    pub octets: Vec<u8>,
    /// The kind of a whole record at which it stops.
    pub unknown: Option<u8>,
}

pub fn trace(random: &mut Random) -> Trace {
    let (table, store, report) = (Table::default(), vec![0; STORE], vec![0; ARRIVAL]);
    let (trace, registry) = (Vec::new(), Vec::new());
    let crowded = random.one_in(4);
    let (many, unknown, summary) = (random.one_in(4).then_some(0), None, Summary::EMPTY);
    let mut scribe =
        Scribe { random, crowded, many, unknown, trace, registry, table, summary, store, report };
    if scribe.random.one_in(8) {
        // Before the first open: without 32, so that registry records may still follow.
        for _ in 0..3 {
            match scribe.random.below(3) {
                0 => scribe.segment(),
                1 => scribe.clock(),
                _ => scribe.release(),
            }
        }
    }
    let count = scribe.random.weighted(&[2, 4, 4, 4, 4, 4, 4, 4, 4, 2, 1, 1, 1]);
    scribe.register(count);
    scribe.open();
    let events = scribe.random.pick(&[5, 50, 150, 300]);
    scribe.events(events);
    if scribe.random.one_in(2) {
        scribe.damage();
    }
    Trace { octets: scribe.trace, unknown: scribe.unknown }
}

/// The model's texts and the other side's, line by line, in the order of `PROGRAMS`.
pub fn compare(model: &Model, other: &Replayer, trace: &[u8]) -> Result<[String; 3], String> {
    let one = |which| compare_one(model, other, trace, which);
    let texts = [one(0)?, one(1)?, one(2)?];
    let wrong = positions::misprinted(&texts[0], &texts[1]);
    if let Some(wrong) = wrong.or_else(|| arrivals::misprinted(&texts[1])) {
        return Err(format!("{wrong}trace: {}\n", hex(trace)));
    }
    let told: Vec<_> = openings(&texts[2]).into_iter().map(|(_, rows)| rows).collect();
    match told == added_up(&texts[1]) {
        true => Ok(texts),
        false => Err(format!(
            "totals are not what the records add up to\nrecords:\n{}totals:\n{}trace: {}\n",
            texts[1],
            texts[2],
            hex(trace)
        )),
    }
}

/// Associations with their totals.
pub type Rows = BTreeMap<u64, [u64; TOTALS.len()]>;

fn numbers(line: &str) -> Vec<u64> {
    line.split(' ').filter_map(|word| word.parse().ok()).collect()
}

/// What the totals program prints: each heading with its rows.
pub fn openings(totals: &str) -> Vec<(&str, Rows)> {
    let mut openings: Vec<(&str, Rows)> = Vec::new();
    for line in totals.lines().filter(|line| *line != "stop") {
        match (openings.last_mut(), numbers(line).as_slice()) {
            (Some((_, rows)), [who, totals @ ..]) if !line.starts_with("opening") => {
                rows.insert(*who, totals.try_into().unwrap_or_default());
            }
            _ => openings.push((line, Rows::new())),
        }
    }
    openings
}

/// The same from what the records program prints: what is delivered or lost, and what an opening
/// drops or is held at the end, was taken before.
fn added_up(records: &str) -> Vec<Rows> {
    let mut openings: Vec<Rows> = Vec::new();
    for line in records.lines() {
        let at = match line.split(' ').next() {
            Some("open") => {
                openings.push(Rows::new());
                continue;
            }
            Some("delivered") => Some(2),
            Some("lost") => Some(4),
            Some("dropped" | "held") => None,
            _ => continue,
        };
        // What is dropped was held until this opening.
        let back = if line.starts_with("dropped") { 2 } else { 1 };
        let numbers = numbers(&line.replace(" - ", " 0 "));
        let [who, _, _, _, _, segments, octets, ..] = numbers[..] else { continue };
        let Some(index) = openings.len().checked_sub(back) else { continue };
        let row = openings[index].entry(who).or_default();
        for column in std::iter::once(0).chain(at) {
            row[column] += segments;
            row[column + 1] += octets;
        }
    }
    openings
}

fn compare_one(
    model: &Model,
    other: &Replayer,
    trace: &[u8],
    which: usize,
) -> Result<String, String> {
    let (name, output) = PROGRAMS[which];
    let (left, right) = (model.printed(trace, output), other.printed(trace, which)?);
    if left == right {
        return Ok(right);
    }
    let same = left.lines().zip(right.lines()).take_while(|(left, right)| left == right).count();
    let line = |text: &str| text.lines().nth(same).unwrap_or("(no line)").to_string();
    Err(format!(
        "{name} differs at line {}\nmodel:   {}\nprogram: {}\ntrace: {}\nmodel's output ends in {:?}, program's in {:?}\n",
        same + 1,
        line(&left),
        line(&right),
        hex(trace),
        left.chars().next_back(),
        right.chars().next_back(),
    ))
}
