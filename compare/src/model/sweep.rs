//! What ends many sequences at once: the clock's work, which a clock call has and an arrival, and a
//! release.

use crate::record::{Covered, Record};
use crate::sound::age;
use crate::summary::{bill, Bill, Seats};
use crate::{Fault, Machine, Place, Refusal, Summary, Swept, Table};
use crate::{OLD_SWEEP, PLACES, RECORD, ROWS, SWEEP};

const HALF: u32 = 1 << 31;

/// The open places that a call ends, in place order.
pub(crate) struct Ending {
    indices: [u8; PLACES],
    pub(crate) count: usize,
}

impl Ending {
    fn of(places: &[Place; PLACES], meant: impl Fn(&Place) -> bool) -> Ending {
        let mut ending = Ending { indices: [0; PLACES], count: 0 };
        for (index, place) in places.iter().enumerate() {
            if place.is_open() && meant(place) {
                ending.indices[ending.count] = index as u8;
                ending.count += 1;
            }
        }
        ending
    }

    fn indices(&self) -> impl Iterator<Item = usize> + '_ {
        self.indices[..self.count].iter().map(|index| usize::from(*index))
    }

    /// What an association loses by it.
    pub(crate) fn lost_by(&self, association: u16, table: &Table) -> Bill {
        let places = self.indices().map(|index| &table.places[index]);
        let own = places.filter(|place| place.key.association == association).map(saved);
        lost(own.fold([0, 0], |sum, one| [sum[0] + one[0], sum[1] + one[1]]))
    }

    /// For `Fault::OwnKept`.
    pub(crate) fn spare(&mut self, spared: usize) {
        let kept: Vec<usize> = self.indices().filter(|index| *index != spared).collect();
        self.count = kept.len();
        self.indices.iter_mut().zip(kept).for_each(|(index, kept)| *index = kept as u8);
    }
}

/// Segments and octets saved in a place.
fn saved(place: &Place) -> [u64; 2] {
    [place.segments.into(), place.octets.into()]
}

fn lost(amount: [u64; 2]) -> Bill {
    bill([0, 0], [0, 0], amount)
}

fn refused(table: Table, refusal: Refusal) -> Swept {
    Swept { table, refusal: refusal.number(), records: 0 }
}

impl<const B: bool> Machine<B> {
    pub fn clock(
        &self,
        table: Table,
        summary: &mut Summary,
        report: &mut [u8],
        time: u32,
    ) -> Swept {
        let mut seats = Seats::EMPTY;
        let ready = self.ready(&table, summary, &mut seats, report.len());
        match ready.and_then(|()| self.due(&table, summary, &seats, time)) {
            Err(refusal) => refused(table, refusal),
            Ok(ending) => {
                self.bill(&table, summary, &seats, &ending);
                self.sweep(Table { clock: time, ..table }, report, 6, &ending)
            }
        }
    }

    /// The refusals of the clock's work, 13 and 22, and what it ends.
    pub(crate) fn due(
        &self,
        table: &Table,
        summary: &Summary,
        seats: &Seats,
        time: u32,
    ) -> Result<Ending, Refusal> {
        let due = |place: &Place| self.expired(time, place.start, table.timer);
        let ending = Ending::of(&table.places, due);
        if self.broken(Fault::TotalBeforeStep) {
            self.billable(table, summary, seats, &ending)?;
        }
        self.ahead(age(time, table.clock))?;
        self.billable(table, summary, seats, &ending)?;
        Ok(ending)
    }

    pub(crate) fn ahead(&self, step: u32) -> Result<(), Refusal> {
        Refusal::ClockStep.unless(step < HALF || self.broken(Fault::ClockHalf) && step == HALF)
    }

    fn expired(&self, time: u32, start: u32, timer: u32) -> bool {
        match self.fault() {
            Some(Fault::AgePlain) => time.saturating_sub(start) >= timer,
            Some(Fault::TimerLate) => age(time, start) > timer,
            _ => age(time, start) >= timer,
        }
    }

    pub fn release(
        &self,
        table: Table,
        summary: &mut Summary,
        report: &mut [u8],
        association: u16,
    ) -> Swept {
        let mut seats = Seats::EMPTY;
        match self.released(&table, summary, &mut seats, report.len(), association) {
            Err(refusal) => refused(table, refusal),
            Ok(ending) => {
                if !self.broken(Fault::ReleaseUnbilled) {
                    self.bill(&table, summary, &seats, &ending);
                }
                self.sweep(table, report, 7, &ending)
            }
        }
    }

    /// The release's refusals, and what it ends.
    fn released(
        &self,
        table: &Table,
        summary: &Summary,
        seats: &mut Seats,
        report: usize,
        association: u16,
    ) -> Result<Ending, Refusal> {
        self.ready(table, summary, seats, report)?;
        let all = self.broken(Fault::ReleaseAll);
        let meant = |place: &Place| all || place.key.association == association;
        let ending = Ending::of(&table.places, meant);
        self.billable(table, summary, seats, &ending)?;
        Ok(ending)
    }

    fn ready(
        &self,
        table: &Table,
        summary: &Summary,
        seats: &mut Seats,
        report: usize,
    ) -> Result<(), Refusal> {
        self.sound(table)?;
        self.take_seats(seats, summary, &table.places)?;
        let least = if self.broken(Fault::OldSweep) { OLD_SWEEP } else { SWEEP };
        Refusal::ShortReport.unless(report >= least)
    }

    /// Refusal 22: the losses of one association count by their sum.
    fn billable(
        &self,
        table: &Table,
        summary: &Summary,
        seats: &Seats,
        ending: &Ending,
    ) -> Result<(), Refusal> {
        if ending.count == 0 {
            return Ok(());
        }
        let mut sums = [[0; 2]; ROWS];
        let good = ending.indices().all(|index| {
            let row = usize::from(seats.of_places[index]) % ROWS;
            let one = saved(&table.places[index]);
            let sum = &mut sums[row];
            *sum = match self.broken(Fault::LossesAlone) {
                true => one,
                false => [sum[0] + one[0], sum[1] + one[1]],
            };
            self.payable(summary, row, &lost(*sum))
        });
        Refusal::LargeTotal.unless(good)
    }

    pub(crate) fn bill(
        &self,
        table: &Table,
        summary: &mut Summary,
        seats: &Seats,
        ending: &Ending,
    ) {
        for index in ending.indices() {
            let (row, place) = (usize::from(seats.of_places[index]) % ROWS, &table.places[index]);
            summary.add(row, place.key.association, &lost(saved(place)));
        }
    }

    fn sweep(&self, mut table: Table, report: &mut [u8], cause: u8, ending: &Ending) -> Swept {
        self.record(&table, report, cause, ending);
        self.clear(&mut table, ending);
        Swept { table, refusal: 0, records: ending.count as u8 }
    }

    /// Each place that ends gives one loss. The report holds one for each.
    pub(crate) fn record(&self, table: &Table, report: &mut [u8], cause: u8, ending: &Ending) {
        for (index, slot) in ending.indices().zip(report.chunks_exact_mut(RECORD)) {
            let covered = Covered::saved(&table.places[index]);
            slot.copy_from_slice(&self.octets(&Record { cause, covered }));
        }
    }

    /// And is free.
    pub(crate) fn clear(&self, table: &mut Table, ending: &Ending) {
        for index in ending.indices() {
            table.places[index] = self.freed(&table.places[index]);
        }
    }
}
