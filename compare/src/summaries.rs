//! Summaries beside a table: sound ones, ones with a rule broken alone, and numbers at their limit.

use crate::random::Random;
use crate::tables;
use model::*;

/// What one association gains in a call, in the order of `TOTALS`. Written apart from both sides.
pub type Gain = [u64; TOTALS.len()];

/// The rules of a summary's soundness, each of which is broken alone.
pub const RULES: [&str; 12] = [
    "mark of a used row is over 1",
    "mark of an unused row is over 1",
    "association of a used row is over 65,535",
    "unused row has an association",
    "unused row has segments taken",
    "unused row has octets taken",
    "unused row has segments delivered",
    "unused row has octets delivered",
    "unused row has segments lost",
    "unused row has octets lost",
    "association has two rows",
    "open place's association has no row",
];

/// The associations that have to have a row.
pub fn needed(table: &Table) -> Vec<u16> {
    let open = table.places.iter().filter(|place| place.mark != 0);
    let mut needed: Vec<u16> = open.map(|place| place.key.association).collect();
    needed.sort();
    needed.dedup();
    needed
}

pub fn row_of(summary: &Summary, association: u16) -> Option<usize> {
    (0..ROWS)
        .find(|row| summary.mark[*row] == 1 && summary.association[*row] == u64::from(association))
}

fn rows(summary: &Summary, mark: u64) -> Vec<usize> {
    (0..ROWS).filter(|row| summary.mark[*row] == mark).collect()
}

/// A number past its limit, at it or just below it.
pub fn large(random: &mut Random) -> u64 {
    let small = random.below(2_100) as u64;
    random.pick(&[
        TOTAL_MOST - 1 - small,
        TOTAL_MOST - 1,
        TOTAL_MOST,
        TOTAL_MOST + 1 + small,
        u64::MAX - small,
        u64::MAX,
    ])
}

/// Mostly a small number, and one in `seldom` times a large one.
fn number(random: &mut Random, seldom: usize) -> u64 {
    match random.below(4) {
        _ if random.one_in(seldom) => large(random),
        0 => 0,
        1 => random.below(10) as u64,
        2 => random.next() >> 32,
        _ => random.next() >> random.within(2..=63),
    }
}

fn use_row(random: &mut Random, summary: &mut Summary, row: usize, who: u16, seldom: usize) {
    (summary.mark[row], summary.association[row]) = (1, who.into());
    for column in &mut summary.totals {
        column[row] = number(random, seldom);
    }
}

/// Rows from the first on, as a history gives them, or in any order with others between them.
fn order(random: &mut Random) -> impl Iterator<Item = usize> {
    let (first, step) = match random.one_in(2) {
        true => (0, 1),
        false => (random.below(ROWS), 2 * random.below(ROWS / 2) + 1),
    };
    (0..ROWS).map(move |k| (first + k * step) % ROWS)
}

/// One that is sound beside the table, with this many used rows, or more where they are needed.
fn with(random: &mut Random, table: &Table, count: usize, seldom: usize) -> Summary {
    let mut who = needed(table);
    while who.len() < count {
        let one = match random.below(3) {
            0 => tables::association(random),
            1 => random.below(100) as u16,
            _ => random.next() as u16,
        };
        if !who.contains(&one) {
            who.push(one);
        }
    }
    let mut summary = Summary::EMPTY;
    for (association, row) in who.into_iter().zip(order(random)) {
        use_row(random, &mut summary, row, association, seldom);
    }
    summary
}

pub fn sound(random: &mut Random, table: &Table) -> Summary {
    let any = random.within(0..=ROWS);
    let count = random.pick(&[0, 5, 16, any, any, 62, 63, 64]);
    with(random, table, count, 80)
}

/// With unused rows, and no total that a few calls could bring to its limit.
pub fn roomy(random: &mut Random, table: &Table) -> Summary {
    let count = random.within(0..=40);
    let mut summary = with(random, table, count, usize::MAX);
    summary.totals.iter_mut().flatten().for_each(|total| *total >>= 2);
    summary
}

/// No numbers yet, and a row for each association that has to have one.
pub fn seated(table: &Table) -> Summary {
    let mut summary = Summary::EMPTY;
    for (row, association) in needed(table).into_iter().enumerate() {
        (summary.mark[row], summary.association[row]) = (1, association.into());
    }
    summary
}

/// A row for the association: its own, or one that no open place needs.
pub fn seat(random: &mut Random, summary: &mut Summary, table: &Table, who: u16) -> usize {
    if let Some(row) = row_of(summary, who) {
        return row;
    }
    let needed = needed(table);
    let spare = |row: &usize| {
        summary.mark[*row] == 0 || !needed.iter().any(|n| summary.association[*row] == (*n).into())
    };
    let spare: Vec<usize> = (0..ROWS).filter(spare).collect();
    let row = random.pick(&spare);
    use_row(random, summary, row, who, usize::MAX);
    row
}

/// An association that no open place has.
pub fn stranger(random: &mut Random, table: &Table) -> u16 {
    let needed = needed(table);
    loop {
        let (known, any) = (tables::association(random), random.next() as u16);
        let who = random.pick(&[known, any, 0]);
        if !needed.contains(&who) {
            return who;
        }
    }
}

/// All rows used, and none by this association. The table has no open place of it.
pub fn crowd_out(random: &mut Random, summary: &mut Summary, who: u16) {
    let mut next = random.next() as u16;
    for row in 0..ROWS {
        if summary.mark[row] == 1 && summary.association[row] != u64::from(who) {
            continue;
        }
        while next == who || row_of(summary, next).is_some() {
            next = next.wrapping_add(1);
        }
        use_row(random, summary, row, next, 8);
    }
}

/// Sets a row's totals around what it is to gain: each can take it, if need be just so, but one or
/// more cannot where `over` is asked for. A total that gains nothing is any.
pub fn limit(random: &mut Random, summary: &mut Summary, row: usize, gain: &Gain, over: bool) {
    limit_after(random, summary, row, [&[0; TOTALS.len()], gain], over);
}

/// The same with two gains, of which the totals can take the first one in any case.
pub fn limit_after(
    random: &mut Random,
    summary: &mut Summary,
    row: usize,
    [first, gain]: [&Gain; 2],
    over: bool,
) {
    let gaining: Vec<usize> = (0..gain.len()).filter(|at| gain[*at] > 0).collect();
    let worst = over.then(|| random.pick(&gaining));
    for (at, column) in summary.totals.iter_mut().enumerate() {
        let most = TOTAL_MOST - first[at] - gain[at];
        let past = random.pick(&[most + 1, most + 1, TOTAL_MOST, TOTAL_MOST + 1, u64::MAX]);
        let total = match gain[at] {
            0 => large(random),
            _ if Some(at) == worst || over && random.one_in(6) => past,
            _ => random.pick(&[most, most, most - 1, column[row].min(most)]),
        };
        column[row] = match first[at] {
            0 => total,
            first => total.min(TOTAL_MOST - first),
        };
    }
}

/// Sets a total so that it can take each of these losses alone and not all of them. False if every
/// sum is that of one loss.
pub fn together(random: &mut Random, summary: &mut Summary, row: usize, losses: &[Gain]) -> bool {
    let sum = |at: usize| losses.iter().map(|gain| gain[at]).sum::<u64>();
    let several = |at: &usize| losses.iter().all(|gain| gain[*at] < sum(*at));
    let columns: Vec<usize> = [4, 5].into_iter().filter(several).collect();
    if columns.is_empty() {
        return false;
    }
    let column = random.pick(&columns);
    for at in [4, 5] {
        let most = TOTAL_MOST - sum(at);
        let total = &mut summary.totals[at][row];
        *total = if at == column { most + 1 } else { (*total).min(most) };
    }
    true
}

/// The summary with one rule broken. The table has an open place, and a row is unused.
pub fn break_rule(random: &mut Random, summary: &mut Summary, table: &Table, rule: usize) {
    let (used, unused) = (rows(summary, 1), rows(summary, 0));
    let (used, unused) = (random.pick(&used), random.pick(&unused));
    let bit = 1 << random.below(64);
    let over = random.pick(&[2, 3, 1 << 32, (1 << 32) + 1, 1 << 63, u64::MAX]);
    match rule {
        0 => summary.mark[used] = over,
        1 => summary.mark[unused] = over,
        2 => summary.association[used] |= 1 << random.within(16..=63),
        3 => summary.association[unused] = random.pick(&[1, 9, 65_535, 65_536, bit]),
        4..=9 => summary.totals[rule - 4][unused] = random.pick(&[1, 1 << 32, 1 << 63, bit]),
        10 => {
            let who = summary.association[used] as u16;
            use_row(random, summary, unused, who, 8);
        }
        _ => lose_row(random, summary, table),
    }
}

/// Takes the row from an open place's association: it becomes another's, or unused.
fn lose_row(random: &mut Random, summary: &mut Summary, table: &Table) {
    let who = random.pick(&needed(table));
    let Some(row) = row_of(summary, who) else { return };
    let others = std::iter::repeat_with(|| random.next() as u16);
    let other = others.take(100).find(|one| row_of(summary, *one).is_none());
    match other.filter(|_| row % 2 == 0) {
        Some(other) => summary.association[row] = other.into(),
        None => {
            (summary.mark[row], summary.association[row]) = (0, 0);
            summary.totals.iter_mut().for_each(|column| column[row] = 0);
        }
    }
}

/// Any numbers, as before an opening.
pub fn any(random: &mut Random) -> Summary {
    let mut summary = Summary::EMPTY;
    let columns = [&mut summary.mark, &mut summary.association];
    for number in columns.into_iter().chain(&mut summary.totals).flatten() {
        *number = random.next();
    }
    summary
}

/// A sound one with one bit turned, or any numbers.
pub fn damaged(random: &mut Random, table: &Table) -> Summary {
    if random.one_in(8) {
        return any(random);
    }
    let mut summary = sound(random, table);
    let (row, bit) = (random.below(ROWS), 1 << random.below(64));
    match random.below(8) {
        0 => summary.mark[row] ^= bit,
        1 => summary.association[row] ^= 1 << random.within(0..=20),
        at => summary.totals[at - 2][row] ^= bit,
    }
    summary
}

/// What the records of a report say: an association, and what it gains by one record.
pub fn gains(report: &[u8], records: u8) -> Vec<(u16, Gain)> {
    let two = |record: &[u8], at: usize| u16::from_be_bytes([record[at], record[at + 1]]);
    let gain = |record: &[u8]| {
        let mut gain = Gain::default();
        let at = if record[0] == DELIVERED { 2 } else { 4 };
        (gain[at], gain[at + 1]) = (record[8].into(), two(record, 9).into());
        (two(record, 1), gain)
    };
    report.chunks(RECORD).take(records.into()).map(gain).collect()
}

pub fn sum(gains: &[Gain]) -> Gain {
    std::array::from_fn(|at| gains.iter().map(|gain| gain[at]).sum())
}

/// The rows that are not all zero, for a reader.
pub fn text(summary: &Summary) -> String {
    let mut text = String::from("summary (rows not all zero: mark, association, totals):\n");
    for row in 0..ROWS {
        let numbers = numbers(summary, row);
        if numbers != [0; 8] {
            text += &format!("  row {row}: {numbers:?}\n");
        }
    }
    text
}

/// A row's eight numbers.
pub fn numbers(summary: &Summary, row: usize) -> [u64; 8] {
    let Summary { mark, association, totals } = summary;
    std::array::from_fn(|at| match at {
        0 => mark[row],
        1 => association[row],
        _ => totals[at - 2][row],
    })
}
