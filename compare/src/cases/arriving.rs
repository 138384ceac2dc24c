//! Cases of arrivals.

use super::{billing, choose, steps, Case, State, World, CLOCK_22};
use crate::arrivals::{self, Clocked};
use crate::input::Input;
use crate::pair::LONGEST_REPORT;
use crate::random::Random;
use crate::scene::{self, Scene};
use crate::wire::{Field, Wire};
use crate::{summaries, tables};
use model::*;

/// The order of an arrival's refusals. Those of reading come by the octets.
pub const ORDER: [u8; 15] = [1, 2, 3, 13, CLOCK_22, 4, 5, 6, 23, 7, 8, 9, 10, 21, 22];

/// Pairs that cannot hold at once: a parameter over 255 cannot end inside its fields, what the clock
/// ends leaves room, and who has no row has no total either.
pub const NEVER: [(u8, u8); 3] = [(4, 5), (CLOCK_22, 10), (21, 22)];

impl World {
    pub(super) fn arrival(&mut self) -> Case {
        let mut held = choose(&mut self.random, &ORDER);
        for (first, second) in NEVER {
            if held.contains(&first) {
                held.retain(|number| *number != second);
            }
        }
        let full = held.is_empty() && self.random.one_in(16);
        let mut state = if full { self.full() } else { self.state(&held) };
        let (random, table) = (&mut self.random, state.table);
        let step = match full {
            true => steps::due(random, &table),
            false => steps::arrival(random, &table, &held),
        };
        let time = table.clock.wrapping_add(step);
        let concerned = concerned(random, &table, time);
        let Scene { mut association, mut wire } = fitting(random, &concerned, &mut held);
        let limits = billing::arrival(random, &mut state, &mut held, time, &mut association, &wire);
        damage_wire(random, &table, &mut wire, &held);
        let plain = held.is_empty() && !limits.edge;
        let parameter = parameter(random, &mut wire, &held, plain);
        let (store, report) = rooms(random, &held);
        let State { summary, rule, .. } = state;
        let summary = Box::new(summary);
        let input = Input::Arrival { table, summary, store, report, time, association, parameter };
        Case { input, held, rule, edge: limits.edge, together: limits.together }
    }

    /// A full table, and a summary that is sound beside it.
    fn full(&mut self) -> State {
        let random = &mut self.random;
        let count = random.within(1..=8);
        let table = tables::sound_with(random, count, PLACES);
        State { table, summary: summaries::sound(random, &table), rule: None }
    }
}

/// The sequences that a segment is to concern: those that its arrival's clock leaves open, and now
/// and then those that it ends.
fn concerned(random: &mut Random, table: &Table, time: u32) -> Table {
    let Some(Clocked { table: left, ended }) = arrivals::clocked(table, time) else {
        return *table;
    };
    if ended.is_empty() || !random.one_in(3) {
        return left;
    }
    let mut due = Table { places: Default::default(), ..left };
    due.places.iter_mut().zip(ended).for_each(|(place, ended)| *place = ended);
    due
}

/// The octets; where nothing is expected of them, now and then any.
fn parameter(random: &mut Random, wire: &mut Wire, held: &[u8], plain: bool) -> Vec<u8> {
    wire.fit();
    let mut parameter = wire.octets();
    if held.contains(&5) {
        parameter.truncate(end_inside(random, wire));
    }
    if held.contains(&4) {
        let length = random.pick(&[256, 256, 257, 300]);
        parameter.resize(length, random.octet());
    }
    if plain && random.one_in(10) {
        noise(random, &mut parameter);
    }
    parameter
}

/// Lengths of the store and of the report.
fn rooms(random: &mut Random, held: &[u8]) -> (usize, usize) {
    let store = match held.contains(&2) {
        true => random.pick(&[32_767, 32_767, 2_048, 0]),
        false => random.pick(&[32_768, 32_768, 32_769, 36_864]),
    };
    let any = random.below(ARRIVAL);
    let report = match held.contains(&3) {
        true => random.pick(&[ARRIVAL - 1, ARRIVAL - 1, SWEEP, RECORD, any, 0]),
        false => random.pick(&[ARRIVAL, ARRIVAL, ARRIVAL + 1, LONGEST_REPORT]),
    };
    (store, report)
}

/// A scene on which what has to hold can hold; what cannot is taken off the list.
fn fitting(random: &mut Random, table: &Table, held: &mut Vec<u8>) -> Scene {
    let fits = |wire: &Wire| {
        // Where 8 has to hold, the context will be another.
        let short = held.contains(&8) || wire.context <= 127;
        (!held.contains(&9) || wire.addresses.is_some()) && (!held.contains(&23) || short)
    };
    for _ in 0..12 {
        let scene = match held.contains(&10) {
            true => scene::begin(random, table),
            false => Some(scene::scene(random, table)),
        };
        match scene {
            Some(scene) if fits(&scene.wire) => return scene,
            _ => {}
        }
    }
    held.retain(|number| !matches!(number, 9 | 10 | 23));
    scene::scene(random, table)
}

/// Where a parameter ends inside its fields: often before or right after its addresses begin.
pub fn end_inside(random: &mut Random, wire: &Wire) -> usize {
    let header = wire.header().len();
    let most = if random.one_in(2) { header.min(6) } else { header };
    random.below(most)
}

/// Refusals 6 to 9 and 23. A context over 127 stays as it is where only 23 is asked for.
pub fn damage_wire(random: &mut Random, table: &Table, wire: &mut Wire, held: &[u8]) {
    let only_read = held.iter().all(|number| matches!(number, 5..=9 | 23));
    if !held.is_empty() && only_read && random.one_in(3) {
        // Its addresses stand one octet sooner.
        (wire.new, wire.remaining, wire.reference) = (true, 0, None);
    }
    wire.padded = held.contains(&23);
    if held.contains(&8) {
        let most = if wire.padded { 127 } else { *CONTEXTS.end() };
        let contexts = std::iter::repeat_with(|| tables::unregistered(random, table));
        wire.context = contexts.take(100).find(|context| *context <= most).unwrap_or(0);
    }
    if held.contains(&7) {
        let reference = tables::reference(random);
        (wire.new, wire.remaining, wire.reference) = match random.below(3) {
            0 => (true, 0, Some(reference)),
            1 => (true, random.within(1..=63) as u8, None),
            _ => (false, random.below(64) as u8, None),
        };
    }
    if held.contains(&6) {
        let mut fields = vec![Field::Octet2];
        if wire.two_octets() {
            fields.push(Field::Octet1a);
        }
        if wire.reference.is_some() {
            fields.push(Field::Octet3a);
        }
        wire.open = Some(random.pick(&fields));
    }
    if held.contains(&9) {
        wire.length = Some((random.below(2), random.pick(&[21, 21, 22, 64, 128, 255])));
    }
}

/// Damage of which nothing is expected.
fn noise(random: &mut Random, parameter: &mut Vec<u8>) {
    match random.below(4) {
        0 => {
            let length = random.within(0..=255);
            *parameter = random.octets(length);
        }
        1 => parameter.truncate(random.within(0..=parameter.len())),
        2 => {
            let length = random.within(0..=255);
            parameter.resize(length, 0);
        }
        _ => {
            let end = parameter.len().min(8);
            let at = random.below(end.max(1));
            parameter.iter_mut().skip(at).take(1).for_each(|octet| *octet ^= 1 << random.below(8));
        }
    }
}
