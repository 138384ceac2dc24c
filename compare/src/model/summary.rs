//! The summary of document 02's A1: when it is sound, which row an association has, and what a
//! call adds to it.

use crate::{Fault, Machine, Place, Refusal, Summary, PLACES, ROWS, TOTALS, TOTAL_MOST};

/// What a call adds to one row, in the order of `TOTALS`.
pub type Bill = [u64; TOTALS.len()];

/// From segments and octets taken, delivered and lost.
pub fn bill(taken: [u64; 2], delivered: [u64; 2], lost: [u64; 2]) -> Bill {
    [taken[0], taken[1], delivered[0], delivered[1], lost[0], lost[1]]
}

/// The used rows of a sound summary, to be found by their associations. There are four times as
/// many slots as rows, each with a row's number plus 1, or 0. A row whose slot is taken has the
/// next one that is not.
pub struct Seats {
    slots: [u8; 4 * ROWS],
    /// The row of each open place; 0 for a free one.
    pub of_places: [u8; PLACES],
}

/// The slot where the search for an association begins. Neighbours do not share one.
fn home(association: u64) -> u8 {
    ((association as u16).wrapping_mul(0x9E37) >> 8) as u8
}

impl Seats {
    pub const EMPTY: Seats = Seats { slots: [0; 4 * ROWS], of_places: [0; PLACES] };

    /// The row of an association, or else the slot in which it would be.
    fn search(&self, summary: &Summary, association: u64) -> Result<usize, u8> {
        let mut slot = home(association);
        loop {
            let row = match self.slots[usize::from(slot)] {
                0 => return Err(slot),
                next => usize::from(next - 1) % ROWS,
            };
            if summary.association[row] == association {
                return Ok(row);
            }
            slot = slot.wrapping_add(1);
        }
    }
}

impl<const B: bool> Machine<B> {
    /// Refusal 1, as far as it is the summary's. The seats were empty and are taken now.
    pub(crate) fn take_seats(
        &self,
        seats: &mut Seats,
        summary: &Summary,
        places: &[Place; PLACES],
    ) -> Result<(), Refusal> {
        let used = self.rows_sound(summary).ok_or(Refusal::Unsound)?;
        for (row, association) in summary.used().take(used) {
            match seats.search(summary, association) {
                Err(slot) => seats.slots[usize::from(slot)] = row as u8 + 1,
                Ok(_) => Refusal::Unsound.unless(self.broken(Fault::TwiceUnchecked))?,
            }
        }
        for (place, own) in places.iter().zip(0..PLACES).filter(|(place, _)| place.is_open()) {
            match seats.search(summary, place.key.association.into()) {
                Ok(row) => seats.of_places[own] = row as u8,
                Err(_) => Refusal::Unsound.unless(self.broken(Fault::PlacesUnchecked))?,
            }
        }
        Ok(())
    }

    /// What is asked of each row alone, and how many are used. All are looked at without a branch.
    fn rows_sound(&self, summary: &Summary) -> Option<usize> {
        let Summary { mark, association, totals } = summary;
        let (mut marks, mut associations, mut dirt, mut used) = (0, 0, 0, 0_u64);
        for row in 0..ROWS {
            let bits = totals.iter().fold(0, |bits, column| bits | column[row]);
            let bits = if self.broken(Fault::UnusedUnchecked) { 0 } else { bits };
            marks |= mark[row];
            associations |= association[row];
            // All ones where the mark is 0, and none where it is 1.
            dirt |= mark[row].wrapping_sub(1) & (association[row] | bits);
            used = used.wrapping_add(mark[row]);
        }
        (marks <= 1 && associations <= 65_535 && dirt == 0).then_some(used as usize)
    }

    /// The row that a taken segment counts in: its association's, or else the lowest unused one.
    pub(crate) fn seat(
        &self,
        seats: &Seats,
        summary: &Summary,
        association: u16,
    ) -> Result<usize, Refusal> {
        let own = seats.search(summary, association.into()).ok();
        let mut marks = summary.mark.iter();
        let row = match self.fault() {
            Some(Fault::SecondRow) => marks.position(|mark| *mark == 0).or(own),
            Some(Fault::HighestRow) => own.or_else(|| marks.rposition(|mark| *mark == 0)),
            _ => own.or_else(|| marks.position(|mark| *mark == 0)),
        };
        row.ok_or(Refusal::NoRow)
    }

    /// Whether the totals of a row can take a bill. Those to which it adds nothing are not asked.
    pub(crate) fn payable(&self, summary: &Summary, row: usize, bill: &Bill) -> bool {
        let most = TOTAL_MOST - u64::from(self.broken(Fault::MostExcluded));
        let looked_at = self.broken(Fault::LargeLookedAt);
        // What is added is far below 2^63.
        let fits = |(added, column): (&u64, &[u64; ROWS])| {
            *added == 0 && !looked_at || column[row] <= most - added
        };
        bill.iter().zip(&summary.totals).all(fits)
    }
}

impl Summary {
    /// The used rows with their associations.
    pub(crate) fn used(&self) -> impl Iterator<Item = (usize, u64)> + '_ {
        let rows = self.mark.iter().zip(&self.association).enumerate();
        rows.filter(|(_, (mark, _))| **mark != 0).map(|(row, (_, association))| (row, *association))
    }

    pub(crate) fn add(&mut self, row: usize, association: u16, bill: &Bill) {
        self.mark[row] = 1;
        self.association[row] = association.into();
        for (column, added) in self.totals.iter_mut().zip(bill) {
            column[row] = column[row].wrapping_add(*added);
        }
    }
}
