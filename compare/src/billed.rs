//! What a call has to do to the summary, whatever both sides say: from its records, and from what
//! the table holds before and after it.

use crate::arrivals::{Arrived, Reached};
use crate::input::{Answer, Input};
use crate::summaries::{self, Gain};
use model::*;

/// What is wrong with the summary that both sides left, if anything is.
pub fn wrong(
    input: &Input,
    answer: &Answer,
    arrived: Option<&Arrived>,
    after: &Summary,
    report: &[u8],
) -> Option<String> {
    let before = *input.summary()?;
    let expected = match arrived {
        Some(arrived) => arrival(before, arrived, report),
        None => expected(before, input, answer, report),
    };
    if expected == *after {
        return None;
    }
    let (expected, after) = (summaries::text(&expected), summaries::text(after));
    Some(format!("both leave this {after}but it should be this {expected}"))
}

/// After a call that is no arrival.
fn expected(before: Summary, input: &Input, answer: &Answer, report: &[u8]) -> Summary {
    match (input, answer) {
        (Input::Opening { .. }, _) => Summary::EMPTY,
        (_, Answer::Swept(swept)) if swept.refusal == 0 => {
            lost(before, &summaries::gains(report, swept.records))
        }
        _ => before,
    }
}

/// What the clock's work loses, if it stands, and then the segment, if it is taken.
fn arrival(before: Summary, arrived: &Arrived, report: &[u8]) -> Summary {
    let Received { timeouts, table, .. } = arrived.received;
    let clocked = match arrived.reached() {
        Reached::Nothing | Reached::Undone => return before,
        Reached::Clock | Reached::Both => lost(before, &summaries::gains(report, *timeouts)),
    };
    if arrived.reached() == Reached::Clock {
        return clocked;
    }
    let ended = summaries::gains(arrived.own(report), arrived.own_records());
    let ended = summaries::sum(&ended.into_iter().map(|(_, gain)| gain).collect::<Vec<_>>());
    taken(clocked, arrived.arrival.association, ended, [held(arrived.met()), held(table)])
}

/// Segments and octets of the open sequences.
fn held(table: &Table) -> [u64; 2] {
    let open = table.places.iter().filter(|place| place.mark == 1);
    let amounts = open.map(|place| [u64::from(place.segments), u64::from(place.octets)]);
    amounts.fold([0, 0], |sum, one| [sum[0] + one[0], sum[1] + one[1]])
}

/// One segment is taken. Its octets are held now, or have ended by it.
fn taken(mut summary: Summary, who: u16, ended: Gain, [before, after]: [[u64; 2]; 2]) -> Summary {
    let octets = (ended[3] + ended[5] + after[1]).wrapping_sub(before[1]);
    let gain = summaries::sum(&[ended, [1, octets, 0, 0, 0, 0]]);
    let unused = || summary.mark.iter().position(|mark| *mark == 0);
    if let Some(row) = summaries::row_of(&summary, who).or_else(unused) {
        (summary.mark[row], summary.association[row]) = (1, who.into());
        add(&mut summary, row, &gain);
    }
    summary
}

fn lost(mut summary: Summary, gains: &[(u16, Gain)]) -> Summary {
    for (who, gain) in gains {
        if let Some(row) = summaries::row_of(&summary, *who) {
            add(&mut summary, row, gain);
        }
    }
    summary
}

fn add(summary: &mut Summary, row: usize, gain: &Gain) {
    for (column, gain) in summary.totals.iter_mut().zip(gain) {
        column[row] = column[row].wrapping_add(*gain);
    }
}
