//! What the records program prints beside the replay program's lines, and what the totals program
//! prints.

use std::fmt::Write;

use crate::record::{Covered, Record};
use crate::{Decision, Fault, Replay};
use crate::{ADDRESS, DELIVERED, DESTINATION_AT, ORIGIN_AT, RECORD, UNSEGMENTED};

impl<const B: bool> Replay<B> {
    /// The rest of an event's line: its number, how many of its records are the clock's where that
    /// is told, and what was decided.
    pub(crate) fn told(
        &self,
        refusal: u8,
        decision: &Decision,
        timeouts: Option<u8>,
        text: &mut String,
    ) {
        let decided = match (refusal, decision.kind) {
            (0, 1) => format!("saved {}", decision.place),
            (0, 2 | 3) => "delivered".to_string(),
            (0, 4) => "lost".to_string(),
            (0, _) => "-".to_string(),
            _ => format!("refused {refusal}"),
        };
        let event = self.events;
        let written = match timeouts {
            None => write!(text, " {event} {decided}"),
            Some(timeouts) if self.model.broken(Fault::TimeoutsLast) => {
                write!(text, " {event} {decided} {timeouts}")
            }
            Some(timeouts) => write!(text, " {event} {timeouts} {decided}"),
        };
        written.expect("a string takes it");
    }

    /// The records that this call made.
    pub(crate) fn records(&self, count: usize, text: &mut String) {
        for record in self.report.chunks_exact(RECORD).take(count) {
            self.covered(if record[0] == DELIVERED { "delivered" } else { "lost" }, record, text);
        }
    }

    /// What an opening is about to drop.
    pub(crate) fn dropped(&self, text: &mut String) {
        if !self.model.broken(Fault::DroppedUntold) {
            self.open("dropped", text);
        }
    }

    /// What is open when nothing more comes.
    pub(crate) fn held(&self, text: &mut String) {
        if !self.model.broken(Fault::HeldUntold) {
            self.open("held", text);
        }
    }

    /// A line for each open sequence, as if it had a record.
    fn open(&self, name: &str, text: &mut String) {
        for place in self.table.places.iter().filter(|place| place.is_open()) {
            let record = Record { cause: 0, covered: Covered::saved(place) };
            self.covered(name, &self.model.octets(&record), text);
        }
    }

    /// The name and a record's fields.
    fn covered(&self, name: &str, record: &[u8], text: &mut String) {
        let two = |at: usize| u16::from_be_bytes([record[at], record[at + 1]]);
        let [association, context, octets] = [1, 3, 9].map(two);
        let [instruction, cause, segments] = [record[6], record[7], record[8]];
        let reference = match record[5] {
            UNSEGMENTED if !self.model.broken(Fault::ReferenceAlways) => "-".to_string(),
            reference => reference.to_string(),
        };
        write!(
            text,
            "{name} {association} {context} {reference} {instruction} {cause} {segments} {octets}"
        )
        .expect("a string takes it");
        self.addresses(record, text);
        text.push('\n');
    }

    /// A record's origin and destination.
    fn addresses(&self, record: &[u8], text: &mut String) {
        let origin = self.address(&record[ORIGIN_AT..], Fault::OriginNoLength);
        let destination = self.address(&record[DESTINATION_AT..], Fault::DestinationWhole);
        let written = match self.model.fault() {
            Some(Fault::DestinationUntold) => write!(text, " {origin}"),
            Some(Fault::DestinationAsOrigin) => write!(text, " {origin} {origin}"),
            _ => write!(text, " {origin} {destination}"),
        };
        written.expect("a string takes it");
    }

    /// An address in hex, from its length octet on.
    fn address(&self, octets: &[u8], whole: Fault) -> String {
        let length = match octets[0] {
            0 => return "-".to_string(),
            _ if self.model.broken(whole) => ADDRESS,
            length => length.into(),
        };
        octets[1..][..length].iter().map(|octet| format!("{octet:02X}")).collect()
    }

    /// The last opening with its used rows, and nothing where there was none.
    pub(crate) fn rows(&self, text: &mut String) {
        let Some((event, refusal)) = self.opening else { return };
        if refusal != 0 && self.model.broken(Fault::RefusedOpeningUntold) {
            return;
        }
        writeln!(text, "opening {event} {refusal}").expect("a string takes it");
        for (row, association) in self.summary.used() {
            write!(text, "{association}").expect("a string takes it");
            for column in &self.summary.totals {
                write!(text, " {}", column[row]).expect("a string takes it");
            }
            text.push('\n');
        }
    }
}
