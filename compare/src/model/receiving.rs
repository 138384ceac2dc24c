//! Receiving a segment: the lines of document 01, what each does, and then doing it. The call that
//! has it is an arrival (`arrival`), and the table is the one that the clock's work has left.

use crate::record::{Covered, Record};
use crate::refusal::Refused;
use crate::segment::{Segment, Turn};
use crate::sound::{without_destination, OPEN};
use crate::summary::{bill, Bill, Seats};
use crate::{Address, Arrival, Decision, Fault, Key, Machine, Place, Received, Refusal};
use crate::{Summary, Table, NOWHERE, PARAMETER, PLACES, STRETCH};

/// The receiving line that applies, with the place it concerns.
#[derive(Clone, Copy, Debug)]
pub(crate) enum Line {
    Unsegmented,
    /// Line 1, with the open sequence of the key.
    TooMany(Option<usize>),
    /// Line 2.
    Restart(usize),
    /// Line 3.
    Begin(usize),
    /// Line 4.
    Orphan,
    /// Line 5.
    OutOfTurn(usize),
    /// Line 6.
    TooLong(usize),
    /// Line 7 with none remaining.
    Finish(usize),
    /// Line 7 with more to come.
    Continue(usize),
}

/// Everything an accepted segment changes.
struct Effect {
    decision: Decision,
    record: Option<Record>,
    place: Option<(usize, Place)>,
    /// Where in the store the information goes.
    write: Option<usize>,
}

/// A segment that is not refused.
pub(crate) struct Taken<'a> {
    segment: Segment<'a>,
    pub(crate) line: Line,
    /// The association's row, and what the segment adds to it.
    row: usize,
    bill: Bill,
}

impl<const B: bool> Machine<B> {
    /// The segment's refusals, 4 to 10 and 21 to 23, and what it leads to where there is none.
    /// `lost` is what the clock's work adds to the row of the association.
    pub(crate) fn judge<'a>(
        &self,
        table: &Table,
        summary: &Summary,
        seats: &Seats,
        lost: &Bill,
        arrival: Arrival<'a>,
    ) -> Result<Taken<'a>, Refused> {
        let Arrival { association, parameter, .. } = arrival;
        let long = Refusal::LongParameter.unless(parameter.len() <= PARAMETER);
        long.map_err(|refusal| self.placed(Fault::LongPlaced, refusal, PARAMETER))?;
        let segment = self.read(table, association, parameter)?;
        if self.broken(Fault::RowBeforeFull) {
            self.seat(seats, summary, association)?;
        }
        if self.broken(Fault::TotalBeforeFull) {
            self.account(seats, summary, association, &[1, 0, 0, 0, 0, 0])?;
        }
        let line = self.line(table, &segment);
        let line =
            line.map_err(|refusal| self.placed(Fault::FullPlaced, refusal, segment.start))?;
        let bill = self.bill_of(table, &segment, line);
        let lost = if self.broken(Fault::SumsApart) { &[0; 6] } else { lost };
        let both = std::array::from_fn(|column| bill[column] + lost[column]);
        let row = self.account(seats, summary, association, &both)?;
        Ok(Taken { segment, line, row, bill })
    }

    /// Does what a segment leads to, in the answer too. Its record goes to the front of this report.
    pub(crate) fn take(
        &self,
        taken: Taken,
        answer: &mut Received,
        summary: &mut Summary,
        store: &mut [u8],
        report: &mut [u8],
    ) {
        let Taken { segment, line, row, bill } = taken;
        summary.add(row, segment.key.association, &bill);
        let effect = self.effect(&answer.table, &segment, line);
        self.carry_out(effect, &segment, answer, store, report);
    }

    /// The answer of a refusal. Only a fault writes anything else.
    pub(crate) fn turn_away(
        &self,
        refused: Refused,
        answer: &mut Received,
        summary: &mut Summary,
        report: &mut [u8],
        association: u16,
    ) {
        let Refused { refusal, position } = refused;
        if self.broken(Fault::RefusedReport) {
            report.iter_mut().take(1).for_each(|octet| *octet = refusal.number());
        }
        if self.broken(Fault::RefusedCounted) && refusal != Refusal::Unsound {
            count_refused(summary, association);
        }
        (answer.refusal, answer.position) = (refusal.number(), self.told_position(position));
    }

    /// A refusal that is at no octet: only a fault says one.
    fn placed(&self, fault: Fault, refusal: Refusal, position: usize) -> Refused {
        match self.broken(fault) {
            true => refusal.at(position),
            false => refusal.into(),
        }
    }

    /// A position as it is answered: only a fault has another number for none.
    fn told_position(&self, position: u16) -> u16 {
        match self.fault() {
            Some(Fault::NowhereZero) if position == NOWHERE => 0,
            Some(Fault::NowhereOctet) if position == NOWHERE => 255,
            _ => position,
        }
    }

    /// Refusals 21 and 22, and else the row.
    fn account(
        &self,
        seats: &Seats,
        summary: &Summary,
        association: u16,
        bill: &Bill,
    ) -> Result<usize, Refusal> {
        let row = self.seat(seats, summary, association)?;
        Refusal::LargeTotal.unless(self.payable(summary, row, bill))?;
        Ok(row)
    }

    /// The segment is taken, whatever the line. What ends is delivered or lost.
    fn bill_of(&self, table: &Table, segment: &Segment, line: Line) -> Bill {
        let this = [1, segment.information.len() as u64];
        let saved = |index: usize| {
            let place = &table.places[index];
            [place.segments.into(), place.octets.into()]
        };
        let and_this = |[segments, octets]: [u64; 2]| [segments + this[0], octets + this[1]];
        let (delivered, lost) = match line {
            Line::Begin(_) | Line::Continue(_) => ([0, 0], [0, 0]),
            Line::Unsegmented => (this, [0, 0]),
            Line::Finish(index) => (and_this(saved(index)), [0, 0]),
            Line::TooMany(None) | Line::Orphan => ([0, 0], this),
            Line::Restart(index) if self.broken(Fault::RestartBillsNew) => {
                ([0, 0], and_this(saved(index)))
            }
            Line::Restart(index) => ([0, 0], saved(index)),
            Line::TooMany(Some(index)) | Line::OutOfTurn(index) | Line::TooLong(index) => {
                ([0, 0], and_this(saved(index)))
            }
        };
        let at_once = matches!(line, Line::TooMany(None) | Line::Orphan);
        match self.fault() {
            Some(Fault::AtOnceUnbilled) if at_once => [0; 6],
            Some(Fault::ParameterBilled) => {
                bill([1, this[1] + segment.start as u64], delivered, lost)
            }
            _ => bill(this, delivered, lost),
        }
    }

    fn line(&self, table: &Table, segment: &Segment) -> Result<Line, Refusal> {
        let open = self.find(table, &segment.key);
        Ok(match (segment.turn, open) {
            (Turn::Alone, _) => Line::Unsegmented,
            (Turn::First(10..), Some(index)) if self.broken(Fault::RestartBeforeRemaining) => {
                Line::Restart(index)
            }
            (Turn::First(10..) | Turn::Later(10..), _) => Line::TooMany(open),
            (Turn::First(_), Some(index)) => {
                if self.broken(Fault::FullRefusesRestart) {
                    self.free(table)?;
                }
                Line::Restart(index)
            }
            (Turn::First(_), None) => Line::Begin(self.free(table)?),
            (Turn::Later(_), None) => Line::Orphan,
            (Turn::Later(remaining), Some(index)) => {
                self.later_line(table, index, remaining, segment.information.len())
            }
        })
    }

    /// Lines 5 to 7. Remaining is at most 9 here.
    fn later_line(&self, table: &Table, index: usize, remaining: u8, length: usize) -> Line {
        let place = &table.places[index];
        let most = if self.broken(Fault::LongByOne) { STRETCH - 1 } else { STRETCH };
        let in_turn = match self.fault() {
            Some(Fault::RemainingAtMost) => remaining < place.remaining,
            _ => remaining + 1 == place.remaining,
        };
        if !in_turn {
            Line::OutOfTurn(index)
        } else if usize::from(place.octets) + length > most {
            Line::TooLong(index)
        } else if remaining == 0 {
            Line::Finish(index)
        } else {
            Line::Continue(index)
        }
    }

    /// The open sequence of a key.
    pub(crate) fn find(&self, table: &Table, key: &Key) -> Option<usize> {
        table.places.iter().position(|place| place.is_open() && self.same(&place.key, key))
    }

    fn same(&self, a: &Key, b: &Key) -> bool {
        match self.fault() {
            Some(fault) => seen(fault, a) == seen(fault, b),
            None => a == b,
        }
    }

    pub(crate) fn free(&self, table: &Table) -> Result<usize, Refusal> {
        let mut places = table.places.iter();
        let free = match self.fault() {
            Some(Fault::HighestFree) => places.rposition(|place| !place.is_open()),
            _ => places.position(|place| !place.is_open()),
        };
        free.ok_or(Refusal::Full)
    }

    fn effect(&self, table: &Table, segment: &Segment, line: Line) -> Effect {
        match line {
            Line::Unsegmented => self.alone(segment),
            Line::TooMany(None) => lost(4, None, self.this(segment), None),
            Line::TooMany(Some(index)) => self.broken_off(4, table, index, segment),
            Line::Restart(index) => self.restart(table, index, segment),
            Line::Begin(index) => saved(index, first(table, segment), index * STRETCH),
            Line::Orphan => lost(1, None, self.this(segment), None),
            Line::OutOfTurn(index) => self.broken_off(2, table, index, segment),
            Line::TooLong(index) => self.broken_off(5, table, index, segment),
            Line::Finish(index) => self.finish(table, index, segment),
            Line::Continue(index) => {
                saved(index, self.longer(table, index, segment), self.end(table, index))
            }
        }
    }

    fn carry_out(
        &self,
        effect: Effect,
        segment: &Segment,
        answer: &mut Received,
        store: &mut [u8],
        report: &mut [u8],
    ) {
        if let Some((index, place)) = effect.place {
            answer.table.places[index] = place;
        }
        if let Some(start) = effect.write {
            store[start..][..segment.information.len()].copy_from_slice(segment.information);
        }
        // The report has been judged; only with an old length there is no room.
        if let (Some(record), Some(slot)) = (&effect.record, report.first_chunk_mut()) {
            *slot = self.octets(record);
        }
        answer.decision = effect.decision;
        answer.records = effect.record.iter().count() as u8;
        answer.position = match self.broken(Fault::AcceptedPlaced) {
            true => segment.start as u16,
            false => self.told_position(NOWHERE),
        };
    }

    /// A segment that was never saved: the record has its own addresses.
    fn this(&self, segment: &Segment) -> Covered {
        let mut covered = Covered::this(segment);
        if self.broken(Fault::DestinationOfSaved) {
            covered.key = without_destination(&covered.key);
        }
        covered
    }

    fn alone(&self, segment: &Segment) -> Effect {
        let Segment { start, information, .. } = *segment;
        let decision =
            Decision { kind: 2, start, length: information.len(), ..Decision::default() };
        let record = Record { cause: 0, covered: self.this(segment) };
        Effect { decision, record: Some(record), place: None, write: None }
    }

    /// What was saved is lost; the new first segment takes its place.
    fn restart(&self, table: &Table, index: usize, segment: &Segment) -> Effect {
        let covered = Covered::saved(&table.places[index]);
        let place = match self.fault() {
            Some(Fault::RestartDropsNew) => Place::default(),
            _ => first(table, segment),
        };
        Effect { write: Some(index * STRETCH), ..lost(3, Some(index), covered, Some(place)) }
    }

    /// A loss that covers what was saved and this segment, and frees the place.
    fn broken_off(&self, cause: u8, table: &Table, index: usize, segment: &Segment) -> Effect {
        let place = &table.places[index];
        let mut covered = Covered::saved(place).and(segment);
        if self.broken(Fault::LossForgetsBreaker) {
            covered = Covered::saved(place);
        }
        if self.broken(Fault::LossBreakerInstruction) {
            covered.instruction = segment.instruction;
        }
        lost(cause, Some(index), covered, Some(self.freed(place)))
    }

    fn finish(&self, table: &Table, index: usize, segment: &Segment) -> Effect {
        let place = &table.places[index];
        let covered = Covered::saved(place).and(segment);
        let decision = Decision {
            kind: 3,
            place: index,
            length: covered.octets.into(),
            ..Decision::default()
        };
        let write = (!self.broken(Fault::LastNotStored)).then(|| self.end(table, index));
        Effect {
            decision,
            record: Some(Record { cause: 0, covered }),
            place: Some((index, self.freed(place))),
            write,
        }
    }

    /// The place with this segment saved after the others.
    fn longer(&self, table: &Table, index: usize, segment: &Segment) -> Place {
        let place = &table.places[index];
        let start = if self.broken(Fault::TimerRestarted) { table.clock } else { place.start };
        Place {
            octets: place.octets + segment.information.len() as u16,
            segments: place.segments + 1,
            remaining: segment.turn.remaining(),
            start,
            ..*place
        }
    }

    /// Where in the store the next segment of an open place goes.
    fn end(&self, table: &Table, index: usize) -> usize {
        match self.fault() {
            Some(Fault::StoreAtStart) => index * STRETCH,
            _ => index * STRETCH + usize::from(table.places[index].octets),
        }
    }

    pub(crate) fn freed(&self, place: &Place) -> Place {
        match self.fault() {
            Some(Fault::FreeMarkOnly) => Place { mark: 0, ..*place },
            _ => Place::default(),
        }
    }
}

fn saved(index: usize, place: Place, write: usize) -> Effect {
    let decision = Decision { kind: 1, place: index, ..Decision::default() };
    Effect { decision, record: None, place: Some((index, place)), write: Some(write) }
}

fn lost(cause: u8, index: Option<usize>, covered: Covered, after: Option<Place>) -> Effect {
    let decision =
        Decision { kind: 4, cause, place: index.unwrap_or(PLACES), ..Decision::default() };
    Effect {
        decision,
        record: Some(Record { cause, covered }),
        place: index.zip(after),
        write: None,
    }
}

/// A place that this segment begins: the table's time is its start.
fn first(table: &Table, segment: &Segment) -> Place {
    Place {
        key: segment.key,
        octets: segment.information.len() as u16,
        start: table.clock,
        mark: OPEN,
        instruction: segment.instruction,
        remaining: segment.turn.remaining(),
        segments: 1,
    }
}

/// A key as a fault of comparing sees it.
fn seen(fault: Fault, key: &Key) -> Key {
    let mut seen = *key;
    match fault {
        Fault::AddressNumber => seen.origin = number(&key.origin),
        Fault::AddressNoLength => seen.origin.length = 0,
        Fault::DestinationNumber => seen.destination = number(&key.destination),
        Fault::DestinationNoLength => seen.destination.length = 0,
        Fault::DestinationIgnored => seen = without_destination(key),
        _ => {}
    }
    seen
}

/// An address without its leading zeros.
fn number(address: &Address) -> Address {
    let counting = address.counting();
    let zeros = counting.iter().take_while(|octet| **octet == 0).count();
    Address::of(&counting[zeros..])
}

/// For `Fault::RefusedCounted`.
fn count_refused(summary: &mut Summary, association: u16) {
    let row = summary.used().find(|(_, other)| *other == u64::from(association));
    if let Some((row, _)) = row {
        summary.add(row, association, &[1, 0, 0, 0, 0, 0]);
    }
}
