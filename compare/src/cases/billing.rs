//! Summaries on which 21 and 22 hold, or just do not hold. What a call adds is seen by a trial
//! with no numbers in the way: from its records, and from the segment itself.

use super::{State, CLOCK_22};
use crate::arrivals;
use crate::random::Random;
use crate::summaries::{self, Gain};
use crate::wire::Wire;
use model::*;

/// What was done to the totals beside an arrival.
pub struct Limits {
    /// They were set to what it adds.
    pub edge: bool,
    /// They pass 2^63 only by several things together.
    pub together: bool,
}

/// For an arrival whose segment is not damaged yet. What cannot hold is taken off the list.
pub fn arrival(
    random: &mut Random,
    state: &mut State,
    held: &mut Vec<u8>,
    time: u32,
    association: &mut u16,
    wire: &Wire,
) -> Limits {
    let edge = held.is_empty() && random.one_in(12);
    if held.is_empty() && !edge {
        return Limits { edge, together: false };
    }
    if held.contains(&21) {
        *association = summaries::stranger(random, &state.table);
        summaries::crowd_out(random, &mut state.summary, *association);
    }
    let together = clock_part(random, state, held, time);
    let together = segment_part(random, state, held, (time, *association, wire)) || together;
    Limits { edge, together }
}

/// What an arrival's clock adds can be taken, or not where its 22 is to hold. Whether only losses
/// together pass 2^63.
fn clock_part(random: &mut Random, state: &mut State, held: &mut Vec<u8>, time: u32) -> bool {
    let over = held.contains(&CLOCK_22);
    if over && held.iter().any(|number| matches!(number, 1 | 13)) {
        fill(random, &mut state.summary);
        return false;
    }
    let gains = arrivals::clocked(&state.table, time).map_or(vec![], |clocked| clocked.gains());
    if gains.is_empty() || !all_seated(&state.summary, &gains) {
        held.retain(|number| *number != CLOCK_22);
        return false;
    }
    limit(random, &mut state.summary, &gains, over)
}

/// And what its segment adds. Whether that passes 2^63 only with what the clock adds.
fn segment_part(
    random: &mut Random,
    state: &mut State,
    held: &mut Vec<u8>,
    (time, association, wire): (u32, u16, &Wire),
) -> bool {
    if !held.is_empty() && !held.iter().any(|number| matches!(number, 21 | 22)) {
        return false;
    }
    let (refusal, gain) = trial(&state.table, time, association, wire);
    let possible = refusal == 0 || held.contains(&refusal);
    if possible && held.contains(&21) {
        return false;
    }
    let row = match possible {
        true => row(random, state, association),
        false => None,
    };
    let Some(row) = row else {
        held.retain(|number| !matches!(number, 21 | 22));
        return false;
    };
    let (summary, over) = (&mut state.summary, held.contains(&22));
    let clocked = arrivals::clocked(&state.table, time);
    let lost = clocked.map_or([0; 6], |clocked| clocked.lost_by(association));
    if held.contains(&CLOCK_22) {
        // The clock adds nothing here.
        summary.totals[0][row] = TOTAL_MOST;
        return false;
    }
    let together = over && random.one_in(2) && only_with(random, summary, row, [&lost, &gain]);
    if !together {
        summaries::limit_after(random, summary, row, [&lost, &gain], over);
    }
    together
}

/// Sets a row's totals so that they can take each of two gains, and not both. False if they could.
fn only_with(random: &mut Random, summary: &mut Summary, row: usize, gains: [&Gain; 2]) -> bool {
    let possible = summaries::together(random, summary, row, &gains.map(|gain| *gain));
    for at in (0..4).filter(|_| possible) {
        let total = &mut summary.totals[at][row];
        *total = (*total).min(TOTAL_MOST - gains[1][at]);
    }
    possible
}

/// The association's row; where a rule is broken, none is made, for that might mend it.
fn row(random: &mut Random, state: &mut State, association: u16) -> Option<usize> {
    match state.rule {
        Some(_) => summaries::row_of(&state.summary, association),
        None => Some(summaries::seat(random, &mut state.summary, &state.table, association)),
    }
}

/// The refusal, and what the segment adds if there is none, or if it comes from the table alone.
fn trial(table: &Table, time: u32, association: u16, wire: &Wire) -> (u8, Gain) {
    let mut fitted = wire.clone();
    fitted.fit();
    let parameter = &fitted.octets();
    let (mut store, mut report) = (vec![0; STORE], [0; ARRIVAL]);
    let summary = &mut summaries::seated(table);
    let arrival = Arrival { time, association, parameter };
    let got = Model::PLAIN.arrival(*table, summary, &mut store, &mut report, arrival);
    let mut gain = [1, fitted.information.len() as u64, 0, 0, 0, 0];
    let own = &report[RECORD * usize::from(got.timeouts)..];
    for (_, by_record) in summaries::gains(own, got.records - got.timeouts) {
        gain = summaries::sum(&[gain, by_record]);
    }
    (got.refusal, gain)
}

fn all_seated(summary: &Summary, gains: &[(u16, Gain)]) -> bool {
    gains.iter().all(|(who, _)| summaries::row_of(summary, *who).is_some())
}

/// For a clock or a release, which is tried by `call`. Whether totals were set to what it adds,
/// and whether it is refused only because several losses are judged together.
pub fn sweep(
    random: &mut Random,
    state: &mut State,
    held: &mut Vec<u8>,
    call: impl Fn(&mut Summary, &mut [u8]) -> Swept,
) -> (bool, bool) {
    let edge = held.is_empty() && random.one_in(6);
    if !edge && !held.contains(&22) {
        return (false, false);
    }
    let mut report = [0; SWEEP];
    let swept = call(&mut summaries::seated(&state.table), &mut report);
    let gains = summaries::gains(&report, swept.records);
    if swept.refusal != 0 && held.contains(&swept.refusal) {
        fill(random, &mut state.summary);
        return (false, false);
    }
    // Without a loss, or with a row that a broken rule has taken away, there is nothing to pass.
    if gains.is_empty() || !all_seated(&state.summary, &gains) {
        held.retain(|number| *number != 22);
        return (edge, false);
    }
    (edge, limit(random, &mut state.summary, &gains, held.contains(&22)))
}

/// Every used row's totals: nothing can be added to them.
fn fill(random: &mut Random, summary: &mut Summary) {
    for row in (0..ROWS).filter(|row| summary.mark[*row] == 1).collect::<Vec<_>>() {
        summaries::limit(random, summary, row, &[1; TOTALS.len()], true);
        summary.totals[4][row] = TOTAL_MOST;
    }
}

/// The totals of all that lose something: they can take it, but for one of them if it is to be so.
fn limit(random: &mut Random, summary: &mut Summary, gains: &[(u16, Gain)], over: bool) -> bool {
    let (worst, _) = random.pick(gains);
    let mut done: Vec<u16> = Vec::new();
    let mut together = false;
    for (who, _) in gains {
        if done.contains(who) {
            continue;
        }
        done.push(*who);
        let own = gains.iter().filter(|(other, _)| other == who);
        let own: Vec<Gain> = own.map(|(_, gain)| *gain).collect();
        let row = summaries::row_of(summary, *who).expect("it was looked for");
        let over = over && *who == worst;
        if over && random.one_in(2) && summaries::together(random, summary, row, &own) {
            together = true;
        } else {
            summaries::limit(random, summary, row, &summaries::sum(&own), over);
        }
    }
    together
}
