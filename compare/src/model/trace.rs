//! Replaying a trace of house octets, as text.

use std::fmt::Write;

use crate::cursor::Cursor;
use crate::{Arrival, Decision, Fault, Machine, Received, Summary, Swept, Table};
use crate::{ARRIVAL, DELIVERED, LOST, NOWHERE, OLD_RECORD, PARAMETER, RECORD, STORE};

/// Which program's text is printed.
#[derive(Clone, Copy, Debug, PartialEq, Eq)]
pub enum Output {
    /// The replay program's: a line for each event.
    Lines,
    /// The records program's: more on each line, and what the event did under it (`listing`).
    Records,
    /// The totals program's: the rows that each opening leads to.
    Totals,
}

/// One record of a trace.
enum Item<'a> {
    Register,
    Open { timer: u32, clock: u32 },
    Segment(Arrival<'a>),
    Clock(u32),
    Release(u16),
}

/// Why a trace ends before its octets do.
enum Stop {
    UnknownKind,
    Cut,
    RegistryAfterOpen,
}

/// What a call answered, as far as it is told.
struct Told {
    name: &'static str,
    refusal: u8,
    records: u8,
    decision: Decision,
    /// Of a segment alone, and so the next.
    position: Option<u16>,
    timeouts: Option<u8>,
}

/// A replay that is under way: table, summary, lent areas and the registry as read so far.
pub struct Replay<const B: bool> {
    pub(crate) model: Machine<B>,
    output: Output,
    registry: Vec<u8>,
    opened: bool,
    stopped: bool,
    pub(crate) events: u64,
    /// The last opening: its event and its refusal.
    pub(crate) opening: Option<(u64, u8)>,
    pub(crate) table: Table,
    pub(crate) summary: Summary,
    store: Vec<u8>,
    pub(crate) report: [u8; ARRIVAL],
}

impl<const B: bool> Machine<B> {
    /// The whole output of the replay program for this input.
    pub fn replay(&self, trace: &[u8]) -> String {
        self.printed(trace, Output::Lines)
    }

    /// The whole output of the program that prints this.
    pub fn printed(&self, trace: &[u8], output: Output) -> String {
        let mut replay = Replay::new(*self, output);
        let mut text = String::new();
        let used = replay.block(trace, &mut text);
        replay.end(trace.len() - used, &mut text);
        text
    }
}

/// The next record and all its octets.
fn item<'a>(cursor: &mut Cursor<'a>) -> Result<(&'a [u8], Item<'a>), Stop> {
    let whole = cursor.rest();
    let kind = cursor.octet().ok_or(Stop::Cut)?;
    let item = match kind {
        1 | 2 => cursor.take(2).map(|_| Item::Register),
        32 => open(cursor),
        33 => segment(cursor),
        34 => cursor.array().map(|time| Item::Clock(u32::from_be_bytes(time))),
        35 => cursor.array().map(|number| Item::Release(u16::from_be_bytes(number))),
        _ => return Err(Stop::UnknownKind),
    };
    let item = item.ok_or(Stop::Cut)?;
    Ok((&whole[..whole.len() - cursor.rest().len()], item))
}

fn open<'a>(cursor: &mut Cursor<'a>) -> Option<Item<'a>> {
    let (timer, clock) = (cursor.array()?, cursor.array()?);
    Some(Item::Open { timer: u32::from_be_bytes(timer), clock: u32::from_be_bytes(clock) })
}

fn segment<'a>(cursor: &mut Cursor<'a>) -> Option<Item<'a>> {
    let time = u32::from_be_bytes(cursor.array()?);
    let association = u16::from_be_bytes(cursor.array()?);
    let length = cursor.octet()?;
    let parameter = &cursor.take(PARAMETER)?[..usize::from(length)];
    Some(Item::Segment(Arrival { time, association, parameter }))
}

/// For `Fault::RecordsPassed`: passes over whole records of deliveries and losses.
fn pass_records(cursor: &mut Cursor) {
    let length = |kind: u8| match kind {
        16 | 17 => Some(OLD_RECORD),
        DELIVERED | LOST => Some(RECORD),
        _ => None,
    };
    while let Some(length) = cursor.rest().first().and_then(|kind| length(*kind)) {
        if cursor.take(length).is_none() {
            return;
        }
    }
}

/// For the faults of reading a time.
fn mistimed(fault: Fault, arrival: Arrival) -> Arrival {
    let Arrival { time, association, .. } = arrival;
    let (high, low) = ((time >> 16) as u16, time << 16);
    match fault {
        Fault::TimeLate => {
            Arrival { time: low | u32::from(association), association: high, ..arrival }
        }
        Fault::TimeLittleEndian => Arrival { time: time.swap_bytes(), ..arrival },
        _ => arrival,
    }
}

/// What is told of an event that is no segment.
fn plainly_told(name: &'static str, refusal: u8, records: u8) -> Told {
    let decision = Decision::default();
    Told { name, refusal, records, decision, position: None, timeouts: None }
}

fn swept_told(name: &'static str, swept: &Swept) -> Told {
    plainly_told(name, swept.refusal, swept.records)
}

impl<const B: bool> Replay<B> {
    pub fn new(model: Machine<B>, output: Output) -> Self {
        Replay {
            model,
            output,
            registry: Vec::new(),
            opened: false,
            stopped: false,
            events: 0,
            opening: None,
            table: Table::default(),
            summary: Summary::EMPTY,
            store: vec![0; STORE],
            report: [0; ARRIVAL],
        }
    }

    /// Replays the whole records at the front, adds their lines to the text and answers how many
    /// octets they have. What is left may be the front of a record.
    pub fn block(&mut self, trace: &[u8], text: &mut String) -> usize {
        let mut cursor = Cursor::new(trace);
        let mut left = trace.len();
        while !self.stopped {
            if self.model.broken(Fault::RecordsPassed) {
                pass_records(&mut cursor);
            }
            match item(&mut cursor).and_then(|(octets, item)| self.step(octets, item, text)) {
                Ok(()) => left = cursor.rest().len(),
                Err(Stop::Cut) => break,
                Err(_) => {
                    self.stopped = true;
                    self.last(true, text);
                }
            }
        }
        trace.len() - left
    }

    /// The input has ended, and so many octets are left of it.
    pub fn end(&self, left: usize, text: &mut String) {
        if !self.stopped {
            self.last(left > 0 && !self.model.broken(Fault::CutSilent), text);
        }
    }

    /// What comes after the last event's lines.
    fn last(&self, stop: bool, text: &mut String) {
        match self.output {
            Output::Lines => {}
            Output::Records => self.held(text),
            Output::Totals => self.rows(text),
        }
        if stop {
            let placed = self.model.broken(Fault::PositionOnStop);
            text.push_str(if placed { "stop -\n" } else { "stop\n" });
        }
    }

    /// A record of the trace: all but a registry record are events.
    fn step(&mut self, octets: &[u8], item: Item, text: &mut String) -> Result<(), Stop> {
        if let Item::Register = item {
            if self.opened && !self.model.broken(Fault::RegistryAfterOpen) {
                return Err(Stop::RegistryAfterOpen);
            }
            self.registry.extend_from_slice(octets);
            return Ok(());
        }
        let mut dropped = String::new();
        if let Item::Open { .. } = item {
            match self.output {
                Output::Lines => {}
                Output::Records => self.dropped(&mut dropped),
                Output::Totals if self.model.broken(Fault::LastOpeningOnly) => {}
                Output::Totals => self.rows(text),
            }
        }
        self.events += 1;
        let told = self.event(item);
        self.tell(&told, &dropped, text);
        Ok(())
    }

    /// What is printed after an event.
    fn tell(&self, told: &Told, dropped: &str, text: &mut String) {
        match self.output {
            Output::Lines => {
                self.line(told, text);
                self.position(told, text);
                text.push('\n');
            }
            Output::Records => {
                let last = self.model.broken(Fault::PositionLast);
                self.line(told, text);
                if !last {
                    self.position(told, text);
                }
                self.told(told.refusal, &told.decision, self.timeouts(told), text);
                if last {
                    self.position(told, text);
                }
                text.push('\n');
                self.records(usize::from(told.records), text);
                text.push_str(dropped);
            }
            Output::Totals => {}
        }
    }

    /// Makes the event's call.
    fn event(&mut self, item: Item) -> Told {
        let Replay { model, table, summary, report, .. } = self;
        match item {
            Item::Register => unreachable!("it is no event"),
            Item::Open { timer, clock } => {
                let opened = model.opening(summary, &self.registry, timer, clock);
                *table = opened.table;
                (self.opened, self.opening) = (true, Some((self.events, opened.refusal)));
                plainly_told("open", opened.refusal, 0)
            }
            Item::Segment(arrival) => self.segment(arrival),
            Item::Clock(time) => {
                let swept = model.clock(*table, summary, report, time);
                *table = swept.table;
                swept_told("clock", &swept)
            }
            Item::Release(association) => {
                let swept = model.release(*table, summary, report, association);
                *table = swept.table;
                swept_told("release", &swept)
            }
        }
    }

    fn segment(&mut self, arrival: Arrival) -> Told {
        let Replay { model, table, summary, store, report, .. } = self;
        let arrival = model.fault().map_or(arrival, |fault| mistimed(fault, arrival));
        let got = model.arrival(*table, summary, store, report, arrival);
        *table = got.table;
        let Received { decision, refusal, mut records, position, timeouts, .. } = got;
        if refusal != 0 && model.broken(Fault::RefusedUntold) {
            records = 0;
        }
        let (position, timeouts) = (Some(position), Some(timeouts));
        Told { name: "segment", refusal, records, decision, position, timeouts }
    }

    /// The replay program's line without the position and the end.
    fn line(&self, told: &Told, text: &mut String) {
        let Told { name, refusal, records, .. } = told;
        let [delivered, lost] = self.octets(usize::from(*records));
        write!(text, "{name} {refusal} {records} {delivered} {lost}").expect("a string takes it");
    }

    /// The last field of the replay program's line, if it is a segment's.
    fn position(&self, told: &Told, text: &mut String) {
        let position = match self.model.fault() {
            Some(Fault::PositionUntold) => None,
            Some(Fault::PositionEverywhere) => told.position.or(Some(NOWHERE)),
            _ => told.position,
        };
        let written = match position {
            None => Ok(()),
            Some(NOWHERE) if !self.model.broken(Fault::PositionNumber) => write!(text, " -"),
            Some(position) => write!(text, " {position}"),
        };
        written.expect("a string takes it");
    }

    /// How many of an event's records are the clock's, if it is told.
    fn timeouts(&self, told: &Told) -> Option<u8> {
        match self.model.fault() {
            Some(Fault::TimeoutsUntold) => None,
            Some(Fault::TimeoutsEverywhere) => told.timeouts.or(Some(0)),
            _ => told.timeouts,
        }
    }

    /// Octets delivered and octets lost, by the records that this call made.
    fn octets(&self, records: usize) -> [u32; 2] {
        let most = if self.model.broken(Fault::FirstRecordOnly) { 1 } else { records };
        let made = self.report.chunks_exact(RECORD).take(records.min(most));
        let octets = |record: &[u8]| u32::from(u16::from_be_bytes([record[9], record[10]]));
        [DELIVERED, LOST]
            .map(|kind| made.clone().filter(|record| record[0] == kind).map(octets).sum())
    }
}
