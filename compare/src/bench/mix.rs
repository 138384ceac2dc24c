//! A mix of segments as a gateway meets them: short and long, whole and cut, a few of them lost.

use std::hint::black_box;
use std::ops::Range;

use super::areas::{self, Areas};
use super::rounds::Work;
use crate::random::Random;
use crate::side::Side;
use crate::wire::Wire;
use model::*;

pub const SEGMENTS_OF_MIX: usize = 500;

/// Two neighbours of the other sequences' associations, and two of its own.
const ASSOCIATIONS: [u16; 4] = [1, 2, 20, 21];

/// One after the other in one area, as they would lie in a receiver's buffers.
#[derive(Default)]
pub struct Segments {
    octets: Vec<u8>,
    each: Vec<(u16, Range<usize>)>,
}

impl Segments {
    pub fn push(&mut self, association: u16, parameter: &[u8]) {
        let start = self.octets.len();
        self.octets.extend(parameter);
        self.each.push((association, start..self.octets.len()));
    }

    pub fn len(&self) -> usize {
        self.each.len()
    }

    pub fn iter(&self) -> impl Iterator<Item = (u16, &[u8])> {
        self.each.iter().map(|(association, range)| (*association, &self.octets[range.clone()]))
    }
}

/// The mix, received by a table in which other sequences stay open all the while.
pub struct Mix {
    segments: Segments,
    table: Table,
    areas: Areas,
}

impl Mix {
    pub fn new(others: usize) -> Self {
        let (table, summary) = areas::table(others, |k| k as u16 % 3);
        let summary = areas::seated(summary, ASSOCIATIONS);
        Mix { segments: segments(), table, areas: Areas::with(summary) }
    }
}

impl Work for Mix {
    fn calls(&self) -> usize {
        self.segments.len()
    }

    fn go<S: Side>(&mut self, side: &S) {
        receive(side, self.table, &self.segments, &mut self.areas);
    }
}

/// Each call gets the table that the call before it gave, and the summary as it left it. No time
/// passes: an arrival has the table's own.
pub fn receive<S: Side>(side: &S, mut table: Table, segments: &Segments, areas: &mut Areas) {
    for (association, parameter) in segments.iter() {
        let Areas { summary, store, report } = black_box(&mut *areas);
        let (time, parameter) = (table.clock, black_box(parameter));
        let arrival = Arrival { time, association, parameter };
        let got = side.arrival(*black_box(&table), summary, store, report, arrival);
        table = black_box(&got).table;
    }
}

/// The same every time. It leaves no sequence of its own open, so it can be gone through again;
/// and it has one open at most, so that it fits beside fifteen others.
pub fn segments() -> Segments {
    let mut random = Random::new(765);
    let mut segments = Segments::default();
    let mut turn = 0;
    while segments.len() < SEGMENTS_OF_MIX {
        let association = random.pick(&ASSOCIATIONS);
        let wire = fields(&mut random);
        let parts = match random.weighted(&[60, 38, 2]) {
            0 => vec![Wire { reference: None, remaining: 0, ..wire }],
            1 => sequence(&mut random, &wire),
            _ => {
                turn += 1;
                loss(&mut random, &wire, turn % 5 + 1)
            }
        };
        parts.iter().for_each(|part| segments.push(association, &part.octets()));
    }
    segments
}

/// The first segment of any sequence; its information fits into any parameter.
fn fields(random: &mut Random) -> Wire {
    let with = random.one_in(2);
    let contexts = if with { areas::CONTEXTS_2000 } else { areas::CONTEXTS_1998 };
    let mut address = |most| {
        let length = random.within(4..=most);
        random.octets(length)
    };
    let addresses = with.then(|| [address(9), address(9)]);
    fitted(Wire {
        context: random.pick(&contexts),
        instruction: random.below(4) as u8,
        new: true,
        remaining: 1,
        reference: Some(random.below(64) as u8),
        addresses,
        information: information(random),
        ..Wire::default()
    })
}

fn fitted(mut wire: Wire) -> Wire {
    wire.fit();
    wire
}

/// Of 0 to 250 octets: often short, sometimes all that a message holds.
fn information(random: &mut Random) -> Vec<u8> {
    let most = random.pick(&[0, 20, 60, 120, 180, 250]);
    let length = if random.one_in(4) { most } else { random.within(0..=most) };
    random.octets(length)
}

/// From first to last: two to ten segments, full ones but for the last.
fn sequence(random: &mut Random, first: &Wire) -> Vec<Wire> {
    let count = random.pick(&[2, 2, 2, 3, 3, 4, 5, 10]);
    // Ten full segments would be over 2,048 octets.
    let full = random.within(30..=200);
    let mut parts: Vec<Wire> = (1..=count).map(|k| part(random, first, count - k, full)).collect();
    let last = random.within(1..=full);
    parts[count - 1].information.truncate(last);
    parts[0].new = true;
    parts
}

fn part(random: &mut Random, first: &Wire, remaining: usize, octets: usize) -> Wire {
    let information = random.octets(octets);
    fitted(Wire { new: false, remaining: remaining as u8, information, ..first.clone() })
}

/// A sequence that is lost by this cause, 1 to 5.
fn loss(random: &mut Random, first: &Wire, cause: usize) -> Vec<Wire> {
    let mut parts = sequence(random, first);
    match cause {
        1 => drop(parts.drain(..parts.len() - 1)),
        2 => parts[1].remaining += 1,
        3 => parts.insert(0, parts[0].clone()),
        4 => parts[1].remaining = 40,
        _ => {
            let first = Wire { context: 3, addresses: None, ..first.clone() };
            parts = (0..9).map(|k| part(random, &first, 9 - k, 250)).collect();
            parts[0].new = true;
        }
    }
    // What follows a loss by cause 2 or 4 would only be lost once more.
    if cause == 2 || cause == 4 {
        parts.truncate(2);
    }
    parts
}

#[cfg(test)]
mod tests {
    use super::*;

    /// Kinds of decisions, and causes, each with how often the mix meets it.
    fn met(mix: &mut Mix) -> ([usize; 5], [usize; 6], Table) {
        let (mut kinds, mut causes, mut table) = ([0; 5], [0; 6], mix.table);
        let Areas { summary, store, report } = &mut mix.areas;
        for (association, parameter) in mix.segments.iter() {
            let arrival = Arrival { time: table.clock, association, parameter };
            let got = Unbroken::PLAIN.arrival(table, summary, store, report, arrival);
            kinds[usize::from(got.decision.kind)] += 1;
            causes[usize::from(got.decision.cause)] += 1;
            table = got.table;
        }
        (kinds, causes, table)
    }

    #[test]
    fn the_mix_has_all_that_it_should() {
        for others in [0, 4, 15] {
            let mut mix = Mix::new(others);
            let ([refused, saved, alone, joined, lost], causes, after) = met(&mut mix);
            assert_eq!((refused, after), (0, mix.table));
            assert_eq!(refused + saved + alone + joined + lost, mix.calls());
            assert!(
                alone * 4 > mix.calls() && saved * 4 > mix.calls() && joined * 10 > mix.calls()
            );
            assert!(
                lost * 20 < mix.calls() && causes[1..].iter().all(|met| *met > 0),
                "{causes:?}"
            );
        }
    }
}
