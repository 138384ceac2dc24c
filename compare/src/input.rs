//! The inputs of one call, its answers, and both as text.

use std::fmt;
use std::mem::size_of;

use crate::summaries;
use model::*;

pub enum Input {
    Opening {
        summary: Box<Summary>,
        registry: Vec<u8>,
        timer: u32,
        clock: u32,
    },
    /// `store` and `report` are lengths, here and below: what the areas hold is never looked at.
    Arrival {
        table: Table,
        summary: Box<Summary>,
        store: usize,
        report: usize,
        time: u32,
        association: u16,
        parameter: Vec<u8>,
    },
    Clock {
        table: Table,
        summary: Box<Summary>,
        report: usize,
        time: u32,
    },
    Release {
        table: Table,
        summary: Box<Summary>,
        report: usize,
        association: u16,
    },
    Delivery {
        decision: Decision,
        parameter: Vec<u8>,
        store: usize,
    },
    Sending {
        table: Table,
        request: Request,
        origin: Vec<u8>,
        destination: Vec<u8>,
        data: Vec<u8>,
        area: usize,
    },
}

pub const CALLS: [&str; 6] = ["opening", "arrival", "clock", "release", "delivery", "sending"];

#[derive(Clone, Copy, PartialEq, Eq)]
pub enum Answer {
    Opened(Opened),
    /// With the part that delivery gives for it.
    Received(Received, Part),
    Swept(Swept),
    Part(Part),
    Sent(Sent),
}

impl Input {
    /// Index into `CALLS`.
    pub fn call(&self) -> usize {
        match self {
            Input::Opening { .. } => 0,
            Input::Arrival { .. } => 1,
            Input::Clock { .. } => 2,
            Input::Release { .. } => 3,
            Input::Delivery { .. } => 4,
            Input::Sending { .. } => 5,
        }
    }

    pub fn table(&self) -> Option<&Table> {
        match self {
            Input::Opening { .. } | Input::Delivery { .. } => None,
            Input::Arrival { table, .. }
            | Input::Clock { table, .. }
            | Input::Release { table, .. }
            | Input::Sending { table, .. } => Some(table),
        }
    }

    pub fn summary(&self) -> Option<&Summary> {
        match self {
            Input::Delivery { .. } | Input::Sending { .. } => None,
            Input::Opening { summary, .. }
            | Input::Arrival { summary, .. }
            | Input::Clock { summary, .. }
            | Input::Release { summary, .. } => Some(summary),
        }
    }
}

impl Answer {
    pub fn refusal(&self) -> u8 {
        match self {
            Answer::Opened(opened) => opened.refusal,
            Answer::Received(received, _) => received.refusal,
            Answer::Swept(swept) => swept.refusal,
            Answer::Part(_) => 0,
            Answer::Sent(sent) => sent.refusal,
        }
    }

    pub fn table(&self) -> Option<&Table> {
        match self {
            Answer::Opened(opened) => Some(&opened.table),
            Answer::Received(received, _) => Some(&received.table),
            Answer::Swept(swept) => Some(&swept.table),
            Answer::Part(_) | Answer::Sent(_) => None,
        }
    }
}

pub fn hex(octets: &[u8]) -> String {
    octets.iter().map(|octet| format!("{octet:02x}")).collect()
}

/// A table's octets in memory, with the padding written as 0.
pub fn table_octets(table: &Table) -> Vec<u8> {
    let mut octets = Vec::with_capacity(size_of::<Table>());
    for place in &table.places {
        octets.extend(place.key.association.to_le_bytes());
        octets.extend(place.key.context.to_le_bytes());
        for address in [&place.key.origin, &place.key.destination] {
            octets.extend(address.octets);
            octets.push(address.length);
        }
        octets.extend([place.key.reference, 0]);
        octets.extend(place.octets.to_le_bytes());
        octets.extend([0, 0]);
        octets.extend(place.start.to_le_bytes());
        octets.extend([place.mark, place.instruction, place.remaining, place.segments]);
    }
    for entry in &table.registry {
        octets.extend(entry.context.to_le_bytes());
        octets.extend([entry.kind, 0]);
    }
    octets.extend(table.timer.to_le_bytes());
    octets.extend(table.clock.to_le_bytes());
    octets
}

pub fn table_hex(table: &Table) -> String {
    hex(&table_octets(table))
}

impl fmt::Display for Input {
    fn fmt(&self, f: &mut fmt::Formatter) -> fmt::Result {
        writeln!(f, "call: {}", CALLS[self.call()])?;
        if let Some(table) = self.table() {
            writeln!(f, "table (octets in memory): {}", table_hex(table))?;
        }
        if let Some(summary) = self.summary() {
            write!(f, "{}", summaries::text(summary))?;
        }
        match self {
            Input::Opening { registry, timer, clock, .. } => {
                writeln!(f, "registry: {}\ntimer: {timer}\nclock: {clock}", hex(registry))
            }
            Input::Arrival { store, report, time, association, parameter, .. } => {
                writeln!(f, "store length: {store}\nreport length: {report}\ntime: {time}")?;
                writeln!(f, "association: {association}\nparameter: {}", hex(parameter))
            }
            Input::Clock { report, time, .. } => {
                writeln!(f, "report length: {report}\ntime: {time}")
            }
            Input::Release { report, association, .. } => {
                writeln!(f, "report length: {report}\nassociation: {association}")
            }
            Input::Delivery { decision, parameter, store } => {
                writeln!(f, "{decision:?}\nparameter: {}\nstore length: {store}", hex(parameter))
            }
            Input::Sending { request, origin, destination, data, area, .. } => {
                writeln!(f, "{request:?}\norigin: {}", hex(origin))?;
                writeln!(f, "destination: {}\ndata: {}", hex(destination), hex(data))?;
                writeln!(f, "area length: {area}")
            }
        }
    }
}

impl fmt::Display for Answer {
    fn fmt(&self, f: &mut fmt::Formatter) -> fmt::Result {
        match self {
            Answer::Opened(opened) => write!(f, "refusal {}", opened.refusal),
            Answer::Received(received, part) => {
                let Received { refusal, records, decision, position, timeouts, .. } = received;
                write!(f, "refusal {refusal}, position {position}, records {records}, ")?;
                write!(f, "the clock's {timeouts}, {decision:?}, {part:?}")
            }
            Answer::Swept(Swept { refusal, records, .. }) => {
                write!(f, "refusal {refusal}, records {records}")
            }
            Answer::Part(part) => write!(f, "{part:?}"),
            Answer::Sent(sent) => write!(f, "{sent:?}"),
        }?;
        match self.table() {
            Some(table) => write!(f, ", table {}", table_hex(table)),
            None => Ok(()),
        }
    }
}
