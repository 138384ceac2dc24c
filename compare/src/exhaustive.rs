//! Short ranges gone through from end to end, where chance might miss one value.

use std::collections::BTreeMap;

use crate::input::Input;
use crate::pair::Pair;
use crate::positions::{self, Blame};
use crate::random::Random;
use model::*;

/// The destinations of the sequences of context 4: nothing else tells these apart.
const DESTINATIONS: [(usize, &[u8]); 3] = [(7, &[7]), (12, &[7, 0]), (14, &[0, 7])];

/// What short parameters are made of: contexts in one octet and in two, registered, padded and
/// neither; each kind of octet 3; octets with extension 0 and 1; lengths up to 20 and over.
const ALPHABET: [u8; 16] = [
    0x00, 0x03, 0x05, 0x14, 0x15, 0x40, 0x41, 0x7F, 0x80, 0x81, 0x82, 0x83, 0x84, 0xC0, 0xC1, 0xFF,
];

/// The octets before the addresses, of contexts 4 and 256.
const HEADS: [&[u8]; 4] = [
    &[0x84, 0x80, 0xC0],
    &[0x84, 0x80, 0x41, 0x85],
    &[0x00, 0x82, 0x80, 0xC0],
    &[0x00, 0x82, 0x80, 0x41, 0x85],
];

/// Contexts 3 of 1998, 4 of 2000 and 128 of 1998, and open sequences of each.
fn table() -> Table {
    let mut table = Table { timer: 100, clock: 5, ..Table::default() };
    table.registry[0] = Entry { context: 3, kind: 1 };
    table.registry[2] = Entry { context: 128, kind: 1 };
    table.registry[5] = Entry { context: 4, kind: 2 };
    let place = Place {
        key: Key { association: 9, context: 3, reference: 5, ..Key::default() },
        octets: 1_000,
        start: 0u32.wrapping_sub(20),
        mark: 1,
        instruction: 2,
        remaining: 4,
        segments: 3,
    };
    table.places[2] = place;
    table.places[11] = place;
    table.places[11].key.context = 128;
    for (index, destination) in DESTINATIONS {
        let (origin, destination) = (Address::of(&[0, 7]), Address::of(destination));
        let key = Key { context: 4, origin, destination, ..place.key };
        table.places[index] = Place { key, ..place };
    }
    table
}

/// T is 40. Sequence k is in place 5k modulo 16 and 2k ticks old, so that places and ages are in
/// different orders.
fn aged(clock: u32, open: u8) -> Table {
    let mut table = Table { timer: 40, clock, places: Default::default(), ..table() };
    for k in 0..open {
        let key = Key {
            association: [9, 0, 65_535][usize::from(k) % 3],
            context: 3,
            reference: k,
            ..Key::default()
        };
        let start = clock.wrapping_sub(2 * u32::from(k));
        let place = Place { key, octets: 10, start, mark: 1, remaining: 2, ..Place::default() };
        table.places[5 * usize::from(k) % PLACES] =
            Place { segments: 1, instruction: k % 4, ..place };
    }
    table
}

/// The same with a context of 2000 in two octets too: 256.
fn long_table() -> Table {
    let mut table = table();
    table.registry[7] = Entry { context: 256, kind: 2 };
    table
}

/// Association 9 has a row, and two others have: unused rows lie before and between them.
fn summary() -> Box<Summary> {
    let mut summary = Summary::EMPTY;
    for (row, association) in [(3, 9), (31, 0), (62, 65_535)] {
        (summary.mark[row], summary.association[row]) = (1, association);
        summary.totals.iter_mut().for_each(|column| column[row] = 1_000 + association);
    }
    Box::new(summary)
}

/// This many used rows, from the first on: association 9's and those from 100 on.
fn crowded(count: usize) -> Box<Summary> {
    let mut summary = Summary::EMPTY;
    for row in 0..count {
        summary.mark[row] = 1;
        summary.association[row] = if row == 0 { 9 } else { 100 + row as u64 };
    }
    Box::new(summary)
}

pub struct Exhaustive<'p, 'a> {
    pair: &'p mut Pair<'a>,
    random: &'p mut Random,
    pub calls: u64,
    /// How often a header was refused by each number.
    pub refusals: [u64; 256],
    /// How often each octet was at fault.
    pub blames: BTreeMap<Blame, u64>,
}

impl<'p, 'a> Exhaustive<'p, 'a> {
    pub fn new(pair: &'p mut Pair<'a>, random: &'p mut Random) -> Self {
        let blames = BTreeMap::new();
        Exhaustive { pair, random, calls: 0, refusals: [0; 256], blames }
    }

    pub fn go(&mut self) -> Result<(), String> {
        self.headers(&[0x83, 0x80, 0x03, 0x85, 0xAA, 0xBB])?;
        self.headers(&[0x84, 0x80, 0x03, 0x85, 0x02, 0x00, 0x07, 0x01, 0x07, 0xAA])?;
        self.headers(&[0x00, 0x81, 0x80, 0x03, 0x85, 0xAA, 0xBB])?;
        // A destination's length and first octet, which decides what the next ones are; and two
        // octets of a destination.
        self.neighbours(&[0x84, 0x80, 0x03, 0x85, 2, 0, 7, 1, 7, 0, 7, 0xAA], 7)?;
        self.neighbours(&[0x84, 0x80, 0x03, 0x85, 2, 0, 7, 2, 0, 7, 0xAA], 7)?;
        self.neighbours(&[0x84, 0x80, 0x03, 0x85, 2, 0, 7, 2, 0, 7, 0xAA], 8)?;
        self.parameters(&mut vec![], 4)?;
        HEADS.iter().try_for_each(|head| self.parameters(&mut head.to_vec(), 3))?;
        HEADS.iter().try_for_each(|head| self.addresses(head))?;
        self.contexts()?;
        self.counts()?;
        self.fields()?;
        self.destinations()?;
        self.rooms()?;
        self.bits()?;
        self.rows()?;
        self.steps()?;
        self.reports()
    }

    /// The refusal.
    fn run(&mut self, input: Input) -> Result<u8, String> {
        self.calls += 1;
        let answer = self.pair.run(&input, self.random)?;
        self.pair.judge(&input, &answer)?;
        Ok(answer.refusal())
    }

    /// At the table's own time.
    fn segment(
        &mut self,
        table: Table,
        summary: Box<Summary>,
        association: u16,
        parameter: Vec<u8>,
    ) -> Result<u8, String> {
        let (store, report, time) = (STORE, ARRIVAL, table.clock);
        let blame = positions::blame(&table, &parameter);
        let input = Input::Arrival { table, summary, store, report, time, association, parameter };
        let refusal = self.run(input)?;
        if let Some(blame) = blame {
            *self.blames.entry(blame).or_default() += 1;
        }
        Ok(refusal)
    }

    fn release(&mut self, table: Table, summary: Box<Summary>) -> Result<u8, String> {
        self.run(Input::Release { table, summary, report: SWEEP, association: 9 })
    }

    /// Every value of every two neighbouring octets of a good header.
    fn headers(&mut self, good: &[u8]) -> Result<(), String> {
        (0..good.len().min(6) - 1).try_for_each(|at| self.neighbours(good, at))
    }

    fn neighbours(&mut self, good: &[u8], at: usize) -> Result<(), String> {
        let table = table();
        for value in 0..=u16::MAX {
            let mut parameter = good.to_vec();
            parameter[at..at + 2].copy_from_slice(&value.to_be_bytes());
            let refusal = self.segment(table, summary(), 9, parameter)?;
            self.refusals[usize::from(refusal)] += 1;
        }
        Ok(())
    }

    /// Every parameter that begins so and goes on with at most so many octets of the alphabet.
    fn parameters(&mut self, front: &mut Vec<u8>, most: usize) -> Result<(), String> {
        self.segment(long_table(), summary(), 9, front.clone())?;
        if most == 0 {
            return Ok(());
        }
        for octet in ALPHABET {
            front.push(octet);
            self.parameters(front, most - 1)?;
            front.pop();
        }
        Ok(())
    }

    /// Addresses of every two lengths up to one too many, cut at every octet.
    fn addresses(&mut self, head: &[u8]) -> Result<(), String> {
        let lengths = (0..=ADDRESS + 1).flat_map(|i| (0..=ADDRESS + 1).map(move |j| [i, j]));
        for [origin, destination] in lengths {
            let mut whole = head.to_vec();
            for length in [origin, destination] {
                whole.push(length as u8);
                whole.resize(whole.len() + length, 7);
            }
            for end in head.len()..=whole.len() {
                self.segment(long_table(), summary(), 9, whole[..end].to_vec())?;
            }
        }
        Ok(())
    }

    /// Every context, registered, in two octets; in one too, where it has room there.
    fn contexts(&mut self) -> Result<(), String> {
        let opened = Table { timer: 100, ..Table::default() };
        for context in CONTEXTS {
            let mut table = opened;
            table.registry[4] = Entry { context, kind: 1 };
            let (low, high) = (context as u8 & 0x7f, (context >> 7) as u8);
            self.segment(table, summary(), 9, vec![low, 0x80 | high, 0x80, 0xC0, 0xAA])?;
            if high == 0 {
                self.segment(table, summary(), 9, vec![0x80 | low, 0x80, 0xC0, 0xAA])?;
            }
        }
        Ok(())
    }

    /// Every count of segments with every number remaining.
    fn counts(&mut self) -> Result<(), String> {
        for value in 0..=u16::MAX {
            let mut table = table();
            [table.places[7].segments, table.places[7].remaining] = value.to_be_bytes();
            self.release(table, summary())?;
        }
        Ok(())
    }

    /// Every value of a place's and an entry's other octets, and of the numbers of 16 bits.
    fn fields(&mut self) -> Result<(), String> {
        for value in 0..=u16::MAX {
            for field in 0..10 {
                let mut table = table();
                let octet = value as u8;
                let place = &mut table.places[2 + 5 * usize::from(value >> 8 & 1)];
                match field {
                    0 => place.octets = value,
                    1 => place.key.context = value,
                    2 => table.registry[5].context = value,
                    3 => table.registry[6].context = value,
                    _ if value >= 512 => continue,
                    4 => place.key.reference = octet,
                    5 => place.key.origin.length = octet,
                    6 => place.mark = octet,
                    7 => place.instruction = octet,
                    8 => table.registry[5].kind = octet,
                    _ => table.registry[6].kind = octet,
                }
                let summary = summary();
                self.run(Input::Clock { table, summary, report: SWEEP, time: 60 })?;
            }
        }
        Ok(())
    }

    /// Every value of each octet of a destination, as the last one that counts, the first one that
    /// does not, and among others; every length, with each octet alone not zero. In an open place
    /// of 1998, in one of 2000 and in a free one.
    fn destinations(&mut self) -> Result<(), String> {
        for (index, at) in [2, 7, 0].into_iter().flat_map(|i| (0..ADDRESS).map(move |at| (i, at))) {
            for value in 0..=255 {
                let mut octets = [0; ADDRESS];
                octets[at] = value;
                for length in [at as u8 + 1, at as u8, ADDRESS as u8] {
                    self.destination(index, Address { octets, length })?;
                }
                octets[at] = 7;
                self.destination(index, Address { octets, length: value })?;
            }
        }
        Ok(())
    }

    /// All the open sequences end, so that a destination that is good is also recorded.
    fn destination(&mut self, index: usize, destination: Address) -> Result<u8, String> {
        let mut table = table();
        table.places[index].key.destination = destination;
        self.release(table, summary())
    }

    /// Every two rooms, for data of some lengths.
    fn rooms(&mut self) -> Result<(), String> {
        let data = self.random.octets(STRETCH);
        for n in [0, 1, 2, 5, 90, 252, 2_048] {
            for (room1, room) in
                (0..=256).flat_map(|room1| (0..=256).map(move |room| (room1, room)))
            {
                let number = (room1 + room) % 11;
                let request =
                    Request { context: 3, instruction: 1, reference: 5, room1, room, number };
                let (origin, destination, data) = (vec![], vec![], data[..n].to_vec());
                let area = if number == 3 { room } else { 255 };
                let table = table();
                self.run(Input::Sending { table, request, origin, destination, data, area })?;
            }
        }
        Ok(())
    }

    /// Every bit of every number of a summary, turned.
    fn bits(&mut self) -> Result<(), String> {
        for (row, column) in (0..ROWS).flat_map(|row| (0..2 + TOTALS.len()).map(move |c| (row, c)))
        {
            for bit in 0..64 {
                let mut summary = summary();
                let column = match column {
                    0 => &mut summary.mark,
                    1 => &mut summary.association,
                    _ => &mut summary.totals[column - 2],
                };
                column[row] ^= 1 << bit;
                self.release(table(), summary)?;
            }
        }
        Ok(())
    }

    /// Every two rows with one association; every count of used rows before an association's first
    /// segment and beside a later one; every association.
    fn rows(&mut self) -> Result<(), String> {
        for (first, second) in (0..ROWS).flat_map(|i| (0..i).map(move |j| (i, j))) {
            let mut summary = crowded(ROWS);
            summary.association[first] = summary.association[second];
            self.release(table(), summary)?;
        }
        for count in 1..=ROWS {
            for association in [0, 9, 101, 100 + count as u16 - 1, 100 + count as u16] {
                let parameter = vec![0x83, 0x80, 0xC0, 0xAA, 0xBB];
                self.segment(table(), crowded(count), association, parameter)?;
            }
        }
        for association in 0..=u16::MAX {
            let parameter = vec![0x83, 0x80, 0x41, 0x85, 0xAA];
            self.segment(table(), crowded(20), association, parameter)?;
        }
        Ok(())
    }

    /// Every step up to more than T and back by as much, and those around 2^31, each with segments
    /// of each sequence and of none; from clocks that turn on the way and from one that does not.
    fn steps(&mut self) -> Result<(), String> {
        let near = (0..=45).flat_map(|step: u32| [step, step.wrapping_neg()]);
        let far = [(1 << 31) - 1, 1 << 31, (1 << 31) + 1];
        let steps: Vec<u32> = near.chain(far).collect();
        for clock in [5, u32::MAX - 20, (1 << 31) - 10] {
            for (step, open) in steps.iter().flat_map(|step| [(*step, 15), (*step, 16)]) {
                self.step(aged(clock, open), clock.wrapping_add(step))?;
            }
        }
        Ok(())
    }

    fn step(&mut self, table: Table, time: u32) -> Result<(), String> {
        let (store, report) = (STORE, ARRIVAL);
        // Unsegmented, cut and not registered; then the last, the next, another first one and one
        // with too many remaining of each sequence and of one that is not open.
        let mut parameters = vec![vec![0x83, 0x80, 0xC0], vec![0x83], vec![0x85]];
        for octet3 in [0x00, 0x01, 0x41, 0x0A] {
            let references = 0x80..=0x80 + PLACES as u8;
            parameters.extend(references.map(|octet3a| vec![0x83, 0x81, octet3, octet3a, 0xAA]));
        }
        for (parameter, association) in
            parameters.into_iter().flat_map(|p| [9, 0, 65_535].map(|who| (p.clone(), who)))
        {
            let summary = summary();
            self.run(Input::Arrival {
                table,
                summary,
                store,
                report,
                time,
                association,
                parameter,
            })?;
        }
        Ok(())
    }

    /// Every length of an arrival's report up to more than enough, with nothing due and with all.
    fn reports(&mut self) -> Result<(), String> {
        for (report, step) in (0..=ARRIVAL + 9).flat_map(|report| [(report, 0), (report, 40)]) {
            let (table, store, association) = (aged(5, 16), STORE, 9);
            let (summary, time, parameter) = (summary(), 5 + step, vec![0x83, 0x80, 0xC0, 0xAA]);
            let refusal = self.run(Input::Arrival {
                table,
                summary,
                store,
                report,
                time,
                association,
                parameter,
            })?;
            if (refusal == 0) != (report >= 901) {
                return Err(format!("both answer {refusal} with a report of {report}\n"));
            }
        }
        Ok(())
    }
}
