//! Sound tables, with values at their limits, and what they are made of.

use crate::random::Random;
use model::*;

const CONTEXT_POOL: [u16; 12] = [1, 2, 3, 4, 126, 127, 128, 129, 255, 256, 16_382, 16_383];
const ASSOCIATIONS: [u16; 5] = [9, 10, 0x0900, 0, 0xFFFF];
const REFERENCES: [u8; 6] = [0, 5, 6, 85, 126, 127];

/// Mostly one of a few, so that one association has several sequences.
pub fn association(random: &mut Random) -> u16 {
    match random.one_in(10) {
        true => random.below(100) as u16,
        false => random.pick(&ASSOCIATIONS),
    }
}

pub fn reference(random: &mut Random) -> u8 {
    random.pick(&REFERENCES)
}

/// Addresses that differ only in a length or a leading zero, and some others.
pub fn address(random: &mut Random) -> Vec<u8> {
    let mut ends = [vec![0; 20], vec![0; 20], vec![7; 20], vec![0; 19]];
    ends[1][19] = 7;
    ends[3][0] = 7;
    match random.below(10) {
        0 => vec![],
        1 => vec![0],
        2 | 3 => vec![7],
        4 => vec![0, 7],
        5 => vec![7, 0],
        6 => vec![0, 0, 7],
        7 | 8 => random.pick(&ends),
        _ => {
            let length = random.within(0..=20);
            random.octets(length)
        }
    }
}

/// A context in range, often at a limit of its layout.
pub fn context(random: &mut Random) -> u16 {
    if random.one_in(8) {
        random.within(1..=16_383) as u16
    } else {
        random.pick(&CONTEXT_POOL)
    }
}

/// One that the table has not registered; 0 and numbers over 16,383 too.
pub fn unregistered(random: &mut Random, table: &Table) -> u16 {
    loop {
        let context = match random.below(8) {
            0 => 0,
            1 => 16_384 + random.below(49_152) as u16,
            _ => context(random),
        };
        if !table.registry.iter().any(|entry| entry.kind != 0 && entry.context == context) {
            return context;
        }
    }
}

pub fn entries(random: &mut Random, count: usize) -> Vec<Entry> {
    let mut entries: Vec<Entry> = Vec::new();
    while entries.len() < count {
        let context = context(random);
        if entries.iter().all(|entry| entry.context != context) {
            entries.push(Entry { context, kind: random.within(1..=2) as u8 });
        }
    }
    entries
}

pub fn timer(random: &mut Random) -> u32 {
    match random.below(6) {
        0 => random.pick(&[1, 2, 999_999, 1_000_000]),
        1 => random.within(1..=1_000_000) as u32,
        _ => random.within(20..=200) as u32,
    }
}

pub fn clock(random: &mut Random) -> u32 {
    let any = any_u32(random);
    let near = random.pick(&[0, u32::MAX, 1 << 31, any]);
    near.wrapping_add(random.below(200) as u32).wrapping_sub(100)
}

pub fn any_u32(random: &mut Random) -> u32 {
    random.next() as u32
}

/// The kind of a registered context, and 0 of another.
pub fn kind(table: &Table, context: u16) -> u8 {
    table.registry.iter().find(|entry| entry.context == context).map_or(0, |entry| entry.kind)
}

/// A key of a registered context, now and then nearly that of an open place. The table has at
/// least one context.
pub fn key(random: &mut Random, table: &Table) -> Key {
    if let Some(key) = near_key(random, table).filter(|_| random.one_in(4)) {
        return key;
    }
    let used: Vec<Entry> = table.registry.iter().filter(|entry| entry.kind != 0).copied().collect();
    let entry = random.pick(&used);
    let [origin, destination] = [(); 2].map(|()| match entry.kind {
        2 => Address::of(&address(random)),
        _ => Address::default(),
    });
    Key {
        association: association(random),
        context: entry.context,
        origin,
        destination,
        reference: reference(random),
    }
}

/// The key of an open place with one thing changed: mostly the destination, where it has one.
pub fn near_key(random: &mut Random, table: &Table) -> Option<Key> {
    let open: Vec<Key> =
        table.places.iter().filter(|place| place.mark == 1).map(|place| place.key).collect();
    let mut key = (!open.is_empty()).then(|| random.pick(&open))?;
    let addressed = kind(table, key.context) == 2;
    match random.below(8) {
        0..=4 if addressed => key.destination = near(random, &key.destination),
        5 if addressed => key.origin = near(random, &key.origin),
        6 if addressed => (key.origin, key.destination) = (key.destination, key.origin),
        0..=3 => key.association = association(random),
        _ => key.reference = reference(random),
    }
    Some(key)
}

/// Another address that is easily taken for this one.
pub fn near(random: &mut Random, of: &Address) -> Address {
    loop {
        let mut octets = of.counting().to_vec();
        match random.below(7) {
            // The same number.
            0 => octets.insert(0, 0),
            1 if octets.first() == Some(&0) => drop(octets.remove(0)),
            // The same octets, filled up.
            2 => octets.push(0),
            3 if octets.last() == Some(&0) => drop(octets.pop()),
            // The same length.
            4 | 5 if !octets.is_empty() => {
                octets[random.below(of.counting().len())] ^= 1 << random.below(8)
            }
            _ => octets = address(random),
        }
        if octets.len() <= ADDRESS && octets != of.counting() {
            return Address::of(&octets);
        }
    }
}

pub fn open_place(random: &mut Random, table: &Table, key: Key) -> Place {
    let remaining = random.within(1..=9);
    let octets = match random.below(5) {
        0 => random.pick(&[0, 1, 2_047, 2_048]),
        1 => random.within(0..=2_048),
        2 => random.below(300),
        _ => random.within(1_793..=2_048),
    };
    let oldest = table.timer as usize - 1;
    let age = match random.below(4) {
        0 => oldest,
        1 => 0,
        _ => random.within(0..=oldest),
    };
    Place {
        key,
        octets: octets as u16,
        start: table.clock.wrapping_sub(age as u32),
        mark: 1,
        instruction: random.below(4) as u8,
        remaining: remaining as u8,
        segments: random.within(1..=10 - remaining) as u8,
    }
}

/// A sound table with this many open places, at any of the sixteen.
pub fn sound_with(random: &mut Random, count: usize, open: usize) -> Table {
    let mut table = Table { timer: timer(random), clock: clock(random), ..Table::default() };
    for entry in entries(random, count) {
        let start = random.below(ENTRIES);
        let free = (0..ENTRIES).map(|i| (start + i) % ENTRIES);
        let free = free.into_iter().find(|i| table.registry[*i].kind == 0);
        table.registry[free.expect("at most eight entries")] = entry;
    }
    let first = random.below(PLACES);
    let mut opened = 0;
    while opened < open {
        let key = key(random, &table);
        if table.places.iter().all(|place| place.mark == 0 || place.key != key) {
            let index = (first + opened * 5) % PLACES;
            table.places[index] = open_place(random, &table, key);
            opened += 1;
        }
    }
    table
}

pub fn sound(random: &mut Random) -> Table {
    let count = random.within(0..=8);
    let open = match random.below(5) {
        _ if count == 0 => 0,
        0 => 16,
        1 => 0,
        2 => 15,
        _ => random.within(0..=16),
    };
    sound_with(random, count, open)
}
