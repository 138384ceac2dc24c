//! Cases: inputs for one call, most of them on a live table that has gone through many calls.

mod arriving;
mod billing;
mod sending;
mod steps;

use crate::input::{Answer, Input};
use crate::pair::LONGEST_REPORT;
use crate::random::Random;
use crate::summaries;
use crate::tables;
use crate::unsound::{self, RULES};
use model::*;

pub use arriving::{damage_wire, end_inside, NEVER, ORDER};

/// 22 as the condition of an arrival's clock. The segment's is 22, and so is the answer to either.
pub const CLOCK_22: u8 = 122;

/// The number by which a condition is refused.
fn number(condition: u8) -> u8 {
    match condition {
        CLOCK_22 => 22,
        number => number,
    }
}

pub struct Case {
    pub input: Input,
    /// Refusals whose conditions were made to hold, in the order of the documents.
    pub held: Vec<u8>,
    /// The rule of soundness that was broken: the table's, then the summary's.
    pub rule: Option<usize>,
    /// Totals were set so that they just take what the call adds: it is not refused by 22.
    pub edge: bool,
    /// What one association loses by several places, or by the clock and by its segment, passes
    /// 2^63 together, and none of it alone.
    pub together: bool,
}

/// A table with a summary beside it, and the rule that one of them breaks.
struct State {
    table: Table,
    summary: Summary,
    rule: Option<usize>,
}

impl Case {
    fn new(input: Input) -> Case {
        Case { input, held: vec![], rule: None, edge: false, together: false }
    }

    /// Whether the answer is one of those the case was made for. The octets of a parameter decide
    /// which of 5 to 9 and 23 comes first; where 23 is among them, `contexts` knows which it is.
    pub fn expects(&self, refusal: u8) -> bool {
        match self.held.first() {
            None => !self.edge || refusal != 22,
            Some(5..=9 | 23) if self.input.call() == 1 => {
                matches!(refusal, 5..=9 | 23) && self.held.contains(&refusal)
            }
            Some(first) => number(*first) == refusal,
        }
    }
}

/// None, one, two or three of a call's refusals, in their order.
fn choose(random: &mut Random, order: &[u8]) -> Vec<u8> {
    let count = random.weighted(&[66, 12, 16, 6]);
    let mut held: Vec<usize> = Vec::new();
    while held.len() < count.min(order.len()) {
        let one = random.below(order.len());
        if !held.contains(&one) {
            held.push(one);
        }
    }
    held.sort();
    held.into_iter().map(|i| order[i]).collect()
}

pub struct World {
    pub random: Random,
    table: Table,
    summary: Summary,
}

impl World {
    pub fn new(mut random: Random) -> World {
        let table = tables::sound(&mut random);
        let summary = summaries::sound(&mut random, &table);
        World { random, table, summary }
    }

    pub fn case(&mut self) -> Case {
        if self.random.one_in(200) {
            self.table = tables::sound(&mut self.random);
            self.summary = summaries::sound(&mut self.random, &self.table);
        }
        match self.random.weighted(&[4, 60, 10, 5, 5, 16]) {
            0 => self.opening(),
            1 => self.arrival(),
            2 => self.clock(),
            3 => self.release(),
            4 => self.delivery(),
            _ => self.sending(),
        }
    }

    /// Goes on with the table that was answered, and the summary as the call left it: also where an
    /// arrival at the live table is refused, for its clock's work stands. After most calls at an edge
    /// it does not: little more would be taken; nor after refusals that were asked for.
    pub fn absorb(&mut self, case: &Case, answer: &Answer, summary: &Summary) {
        let seldom = matches!(case.input, Input::Opening { .. }) || case.edge;
        let stands = match answer {
            Answer::Received(Received { refusal: 4..=10 | 21 | 23, .. }, _) => {
                case.held.is_empty() && case.input.table() == Some(&self.table)
            }
            _ => answer.refusal() == 0,
        };
        if let Some(table) = answer.table().filter(|_| stands) {
            if !seldom || self.random.one_in(10) {
                (self.table, self.summary) = (*table, *summary);
            }
        }
    }

    /// A table as below, and a summary that is sound beside it, or sometimes any. Where 1 has to
    /// hold, it is now and then by the summary; it needs an unused row for that.
    fn state(&mut self, held: &[u8]) -> State {
        let free = !held.contains(&10) && !held.contains(&21);
        if held.contains(&1) && free && self.random.one_in(3) {
            return self.broken_summary();
        }
        let (table, rule) = self.table(held);
        let random = &mut self.random;
        let summary = match held.is_empty() && random.one_in(16) {
            true => summaries::damaged(random, &table),
            false if table == self.table => self.summary,
            false => summaries::sound(random, &table),
        };
        State { table, summary, rule }
    }

    fn broken_summary(&mut self) -> State {
        let random = &mut self.random;
        let (count, open) = (random.within(1..=8), random.within(1..=16));
        let table = tables::sound_with(random, count, open);
        let mut summary = summaries::roomy(random, &table);
        let rule = random.below(summaries::RULES.len());
        summaries::break_rule(random, &mut summary, &table, rule);
        State { table, summary, rule: Some(RULES.len() + rule) }
    }

    /// A table on which 1 holds, or 10 may hold, or the live one, or sometimes any.
    fn table(&mut self, held: &[u8]) -> (Table, Option<usize>) {
        let random = &mut self.random;
        if held.contains(&10) {
            let count = random.within(1..=8);
            let mut table = tables::sound_with(random, count, PLACES);
            if held.contains(&1) {
                table.places[random.below(PLACES)].instruction = 4;
            }
            return (table, None);
        }
        if held.contains(&1) {
            let rule = random.below(RULES.len());
            return (unsound::unsound(random, rule), Some(rule));
        }
        let table = match random.below(16) {
            0 => tables::sound(random),
            1 if held.is_empty() => unsound::damaged(random),
            _ => self.table,
        };
        // With no context registered 8 would hold whenever something else has to.
        match held.is_empty() || table.registry.iter().any(|entry| entry.kind != 0) {
            true => (table, None),
            false => (tables::sound_with(random, 3, 8), None),
        }
    }

    fn opening(&mut self) -> Case {
        let random = &mut self.random;
        let held = choose(random, &[12, 11]);
        let count = random.within(0..=8);
        let mut entries = tables::entries(random, count);
        let cut = random.one_in(if held.contains(&11) { 5 } else { 100 });
        if held.contains(&11) && !cut {
            damage_entries(random, &mut entries);
        }
        let octets = |entry: &Entry| [entry.kind, (entry.context >> 8) as u8, entry.context as u8];
        let mut registry: Vec<u8> = entries.iter().flat_map(octets).collect();
        if cut {
            let length = random.within(1..=2);
            registry.extend(random.octets(length));
        }
        let timer = match held.contains(&12) {
            true => random.pick(&[0, 1_000_001, u32::MAX]),
            false => tables::timer(random),
        };
        let summary = match random.one_in(2) {
            true => summaries::any(random),
            false => self.summary,
        };
        let (summary, clock) = (Box::new(summary), tables::clock(random));
        let input = Input::Opening { summary, registry, timer, clock };
        Case { held, ..Case::new(input) }
    }

    fn clock(&mut self) -> Case {
        let mut held = choose(&mut self.random, &[1, 3, 13, 22]);
        let mut state = self.state(&held);
        let (random, table) = (&mut self.random, state.table);
        let step = if held.contains(&13) {
            steps::bad(random)
        } else if held.contains(&22) {
            steps::due(random, &table)
        } else {
            steps::good(random, &table)
        };
        let time = table.clock.wrapping_add(step);
        let (edge, together) = billing::sweep(random, &mut state, &mut held, |summary, report| {
            Model::PLAIN.clock(table, summary, report, time)
        });
        let report = sweep_room(random, &held);
        let State { summary, rule, .. } = state;
        let input = Input::Clock { table, summary: Box::new(summary), report, time };
        Case { input, held, rule, edge, together }
    }

    fn release(&mut self) -> Case {
        let mut held = choose(&mut self.random, &[1, 3, 22]);
        let mut state = self.state(&held);
        let (random, table) = (&mut self.random, state.table);
        let open = summaries::needed(&table);
        let association = match random.below(3) {
            _ if held.contains(&22) && !open.is_empty() => random.pick(&open),
            0 => table.places[random.below(PLACES)].key.association,
            _ => tables::association(random),
        };
        let (edge, together) = billing::sweep(random, &mut state, &mut held, |summary, report| {
            Model::PLAIN.release(table, summary, report, association)
        });
        let report = sweep_room(random, &held);
        let State { summary, rule, .. } = state;
        let input = Input::Release { table, summary: Box::new(summary), report, association };
        Case { input, held, rule, edge, together }
    }

    /// A decision that was made up.
    fn delivery(&mut self) -> Case {
        let random = &mut self.random;
        let length = random.pick(&[0, 1, 5, 40, 254, 255, 256, 300]);
        let parameter = random.octets(length);
        let store: usize =
            random.pick(&[0, 1, 2_047, 2_048, 2_049, 32_767, 32_768, 32_769, 36_864]);
        let wild = [0, 1, usize::MAX, usize::MAX - 1, 1 << 63, 1 << 32, 1 << 53, (1 << 53) - 1];
        let near = |random: &mut Random, n: usize| (n + random.below(3)).saturating_sub(1);
        let start = match random.below(4) {
            0 => random.pick(&wild),
            1 => near(random, parameter.len()),
            _ => random.within(0..=parameter.len()),
        };
        let place = match random.below(8) {
            0 => random.pick(&wild),
            1 => random.within(14..=18),
            _ => random.below(16),
        };
        let any = random.octet();
        let kind = random.pick(&[0, 1, 2, 2, 2, 3, 3, 3, 3, 4, 5, any]);
        let left = match kind {
            2 => parameter.len().saturating_sub(start),
            _ => store.saturating_sub(place.saturating_mul(STRETCH)).min(2 * STRETCH),
        };
        let length = match random.below(6) {
            0 => random.pick(&wild),
            1 | 2 => near(random, left),
            3 => near(random, STRETCH),
            _ => random.within(0..=left),
        };
        let cause = random.pick(&[0, 3, 255]);
        let decision = Decision { place, start, length, kind, cause };
        Case::new(Input::Delivery { decision, parameter, store })
    }
}

/// One of the ways in which a registry is refused; a cut record is the caller's.
fn damage_entries(random: &mut Random, entries: &mut Vec<Entry>) {
    let kind = random.within(1..=2) as u8;
    let context = tables::context(random);
    entries.truncate(ENTRIES - 1);
    let bad = match random.below(5) {
        0 => Entry { context, kind: random.pick(&[0, 3, 16, 17, 18, 19, 32, 255]) },
        1 => Entry { context: 0, kind },
        2 => Entry { context: random.pick(&[16_384, 32_771, u16::MAX]), kind },
        3 if !entries.is_empty() => Entry { kind, ..random.pick(entries) },
        _ => {
            let count = random.within(9..=12);
            *entries = tables::entries(random, count);
            return;
        }
    };
    entries.insert(random.within(0..=entries.len()), bad);
}

fn sweep_room(random: &mut Random, held: &[u8]) -> usize {
    match held.contains(&3) {
        true => random.pick(&[SWEEP - 1, SWEEP - 1, SWEEP - RECORD, OLD_SWEEP, RECORD, 0]),
        false => random.pick(&[SWEEP, SWEEP, SWEEP + 1, LONGEST_REPORT]),
    }
}
