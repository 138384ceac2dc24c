//! An arrival, document 02's A6: the clock's work first, then the segment's, in one call.

use crate::receiving::{Line, Taken};
use crate::refusal::Refused;
use crate::sound::age;
use crate::summary::Seats;
use crate::sweep::Ending;
use crate::{Arrival, Decision, Fault, Machine, Received, Refusal, Summary, Table};
use crate::{ARRIVAL, PARAMETER, RECORD, STORE, SWEEP};

impl<const B: bool> Machine<B> {
    /// Nothing that was lent is written before both parts are judged.
    pub fn arrival(
        &self,
        table: Table,
        summary: &mut Summary,
        store: &mut [u8],
        report: &mut [u8],
        arrival: Arrival,
    ) -> Received {
        let (mut answer, association) = (Received::of(table), arrival.association);
        if self.goes_astray(&mut answer, summary, store, report, arrival) {
            return answer;
        }
        let (mut seats, lengths) = (Seats::EMPTY, [store.len(), report.len()]);
        match self.judged(&table, &mut answer.table, summary, &mut seats, lengths, arrival) {
            Err(refused) => {
                answer.table = table;
                self.turn_away(refused, &mut answer, summary, report, association);
            }
            Ok((ending, segment)) => {
                self.bill(&table, summary, &seats, &ending);
                self.record(&table, report, 6, &ending);
                // Behind them. Only with an area of an old length there is no room.
                let own = report.get_mut(RECORD * ending.count..).unwrap_or_default();
                match segment {
                    Ok(taken) => self.take(taken, &mut answer, summary, store, own),
                    Err(refused) => self.turn_away(refused, &mut answer, summary, own, association),
                }
                answer.timeouts = ending.count as u8;
                answer.records += answer.timeouts;
                self.spoil(&mut answer, &table, report);
            }
        }
        answer
    }

    /// Both parts. A refusal that undoes all is an `Err`; else the clock's work stands, with what it
    /// ends, and beside it is what becomes of the segment. `clocked`, which is the table too, gets
    /// what that work leaves: there the segment is judged.
    fn judged<'a>(
        &self,
        table: &Table,
        clocked: &mut Table,
        summary: &Summary,
        seats: &mut Seats,
        lengths: [usize; 2],
        arrival: Arrival<'a>,
    ) -> Result<(Ending, Result<Taken<'a>, Refused>), Refused> {
        let ending = self.timed(table, summary, seats, lengths, arrival)?;
        clocked.clock = arrival.time;
        self.clear(clocked, &ending);
        let lost = ending.lost_by(arrival.association, table);
        let segment = self.judge(clocked, summary, seats, &lost, arrival);
        match segment.and_then(|taken| self.replaced(taken, table)) {
            Err(refused) if self.undoes(refused) => Err(refused),
            segment => Ok((ending, segment)),
        }
    }

    /// What comes before the segment: refusals 1, 2, 3 and 13 and the clock's 22; else what the
    /// clock's work ends.
    fn timed(
        &self,
        table: &Table,
        summary: &Summary,
        seats: &mut Seats,
        [store, report]: [usize; 2],
        arrival: Arrival,
    ) -> Result<Ending, Refused> {
        self.sound(table)?;
        self.take_seats(seats, summary, &table.places)?;
        if self.broken(Fault::StepFirst) {
            self.ahead(age(arrival.time, table.clock))?;
        }
        Refusal::ShortStore.unless(store >= STORE)?;
        let least = match self.fault() {
            Some(Fault::OldReport) => RECORD,
            Some(Fault::SweepReport) => SWEEP,
            _ => ARRIVAL,
        };
        Refusal::ShortReport.unless(report >= least)?;
        let due = self.due(table, summary, seats, arrival.time);
        if self.broken(Fault::ClockTotalLate) && matches!(due, Err(Refusal::LargeTotal)) {
            Refusal::LongParameter.unless(arrival.parameter.len() <= PARAMETER)?;
            self.read(table, arrival.association, arrival.parameter)?;
        }
        Ok(self.kept(due?, table, arrival))
    }

    /// Whether a refusal of the segment undoes the clock's work too.
    fn undoes(&self, refused: Refused) -> bool {
        match self.fault() {
            Some(Fault::ClockKept) => false,
            Some(Fault::ClockUndone) => true,
            _ => refused.refusal == Refusal::LargeTotal,
        }
    }
}

/// What only the faults need.
impl<const B: bool> Machine<B> {
    /// An arrival that is not made of its two parts in their order; false if it is.
    fn goes_astray(
        &self,
        answer: &mut Received,
        summary: &mut Summary,
        store: &mut [u8],
        report: &mut [u8],
        arrival: Arrival,
    ) -> bool {
        let table = answer.table;
        let now = Arrival { time: table.clock, ..arrival };
        let clock = |summary: &Summary| {
            Self::PLAIN.clock(table, &mut { *summary }, &mut [0; SWEEP], arrival.time).refusal
        };
        let astray = match self.fault() {
            Some(Fault::SegmentFirst) => report.len() >= ARRIVAL,
            Some(Fault::StepPassed) => clock(summary) == 13,
            Some(Fault::ClockTotalPassed) => clock(summary) == 22,
            _ => return false,
        };
        if astray {
            *answer = Self::PLAIN.arrival(table, summary, store, report, now);
        }
        if astray && self.broken(Fault::SegmentFirst) {
            let rest = &mut report[RECORD * usize::from(answer.records)..];
            let then = Self::PLAIN.clock(answer.table, summary, rest, arrival.time);
            (answer.table, answer.timeouts) = (then.table, then.records);
            answer.records += then.records;
        }
        astray
    }

    /// For the faults that do not end all that is due.
    fn kept(&self, mut ending: Ending, table: &Table, arrival: Arrival) -> Ending {
        match self.fault() {
            Some(Fault::TimeOnly) => ending.count = 0,
            Some(Fault::OwnKept) => {
                let segment = self.read(table, arrival.association, arrival.parameter);
                let own = segment.ok().and_then(|segment| self.find(table, &segment.key));
                own.iter().for_each(|own| ending.spare(*own));
            }
            _ => {}
        }
        ending
    }

    /// For the faults that look for a place in the table as it came.
    fn replaced<'a>(&self, mut taken: Taken<'a>, table: &Table) -> Result<Taken<'a>, Refused> {
        match (self.fault(), taken.line) {
            (Some(Fault::FullBefore), Line::Begin(_)) => drop(self.free(table)?),
            (Some(Fault::FreedPassedOver), Line::Begin(lowest)) => {
                taken.line = Line::Begin(self.free(table).unwrap_or(lowest));
            }
            _ => {}
        }
        Ok(taken)
    }

    /// For the faults of what is answered.
    fn spoil(&self, answer: &mut Received, before: &Table, report: &mut [u8]) {
        let Received { records, timeouts, refusal, .. } = *answer;
        match self.fault() {
            Some(Fault::OldStart) => {
                let Decision { kind, cause, place, .. } = answer.decision;
                let place = answer.table.places.get_mut(place).filter(|p| p.segments == 1);
                let begun = place.filter(|_| matches!((kind, cause), (1, _) | (4, 3)));
                begun.into_iter().for_each(|place| place.start = before.clock);
            }
            Some(Fault::OwnRecordFirst) if records > timeouts => {
                report[..RECORD * usize::from(records)].rotate_right(RECORD);
            }
            Some(Fault::TimeoutsAll) => answer.timeouts = records,
            Some(Fault::TimeoutsUntoldRefused) if refusal != 0 => answer.timeouts = 0,
            Some(Fault::RecordsOwnOnly) => answer.records -= timeouts,
            _ => {}
        }
    }
}
