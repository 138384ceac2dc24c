//! Tables that are not sound: each rule of document 01's "Sound means" broken alone, and any bits.

use crate::random::Random;
use crate::tables::{any_u32, kind, open_place, sound, sound_with, unregistered};
use model::*;

/// The kind of an open place's context.
fn open_kind(table: &Table, place: &Place) -> u8 {
    match place.mark {
        1 => kind(table, place.key.context),
        _ => 0,
    }
}

/// One with something of everything: both kinds, used and unused entries, open and free places.
fn rich(random: &mut Random) -> Table {
    loop {
        let (count, open) = (random.within(2..=7), random.within(3..=15));
        let table = sound_with(random, count, open);
        let has = |kind: u8| table.places.iter().any(|place| open_kind(&table, place) == kind);
        if has(1) && has(2) {
            return table;
        }
    }
}

/// The rules of soundness, each of which is broken alone.
pub const RULES: [&str; 28] = [
    "T is 0",
    "T is over 1,000,000",
    "registered context is 0",
    "registered context is over 16,383",
    "kind of an entry is over 2",
    "context registered twice",
    "unused entry is not all zero",
    "mark of an open place is over 1",
    "mark of a free place is over 1",
    "free place is not all zero",
    "free place has a destination",
    "open place's context is not registered",
    "reference is over 127",
    "instruction is over 3",
    "remaining is 0",
    "remaining is over 9",
    "no segment",
    "segments plus remaining is over 10",
    "octets over 2,048",
    "origin over 20",
    "origin not zero filled",
    "origin with a context of 1998",
    "destination over 20",
    "destination not zero filled",
    "destination with a context of 1998",
    "age is T or more",
    "start is after the clock",
    "two open places share a key",
];

/// A sound table with one rule broken.
pub fn unsound(random: &mut Random, rule: usize) -> Table {
    let mut table = rich(random);
    match rule {
        0..=6 => break_head(random, &mut table, rule),
        7..=18 => break_place(random, &mut table, rule),
        19..=24 => break_address(random, &mut table, rule - 19),
        _ => break_key(random, &mut table, rule),
    }
    table
}

/// One of the numbers that a condition holds for.
fn some(random: &mut Random, holds: impl Fn(usize) -> bool) -> usize {
    let numbers: Vec<usize> = (0..PLACES).filter(|i| holds(*i)).collect();
    random.pick(&numbers)
}

fn break_head(random: &mut Random, table: &mut Table, rule: usize) {
    let used = some(random, |i| i < ENTRIES && table.registry[i].kind != 0);
    let unused = some(random, |i| i < ENTRIES && table.registry[i].kind == 0);
    let entry = table.registry[used];
    match rule {
        // An open place would be of age T.
        0 => (table.timer, table.places) = (0, Default::default()),
        1 => table.timer = random.pick(&[1_000_001, u32::MAX]),
        2 => table.registry[unused].kind = random.within(1..=2) as u8,
        3 => {
            let context = random.pick(&[16_384, 32_768 + 3, u16::MAX]);
            table.registry[unused] = Entry { context, kind: random.within(1..=2) as u8 };
        }
        4 => {
            let context = unregistered(random, table);
            table.registry[unused] = Entry { context, kind: random.within(3..=255) as u8 };
        }
        5 => table.registry[unused] = Entry { kind: random.within(1..=2) as u8, ..entry },
        _ => table.registry[unused].context = random.pick(&[1, entry.context, u16::MAX]),
    }
}

fn break_place(random: &mut Random, table: &mut Table, rule: usize) {
    let open = some(random, |i| table.places[i].mark == 1);
    let free = some(random, |i| table.places[i].mark == 0);
    let (beyond, context) = (random.within(128..=255) as u8, unregistered(random, table));
    let place = &mut table.places[open];
    match rule {
        7 => place.mark = random.within(2..=255) as u8,
        8 => table.places[free].mark = random.within(2..=255) as u8,
        9 => dirty(random, &mut table.places[free]),
        10 => dirty_address(random, &mut table.places[free].key.destination),
        11 => place.key.context = context,
        12 => place.key.reference = beyond,
        13 => place.instruction = random.within(4..=255) as u8,
        14 => place.remaining = 0,
        15 => (place.remaining, place.segments) = (random.within(10..=255) as u8, 1),
        16 => place.segments = 0,
        17 => {
            let most = 10 - place.remaining;
            place.segments = random.pick(&[most + 1, 10, 255 - place.remaining, 255]).max(most + 1);
        }
        _ => place.octets = random.pick(&[2_049, 4_096, u16::MAX]),
    }
}

/// One field of a free place that is not zero.
fn dirty(random: &mut Random, place: &mut Place) {
    let octet = random.within(1..=255) as u8;
    match random.below(10) {
        0 | 1 => dirty_address(random, &mut place.key.origin),
        2 => place.key.association = random.pick(&[1, 256]),
        3 => place.key.context = random.pick(&[1, 256]),
        4 => place.key.reference = octet,
        5 => place.octets = random.pick(&[1, 256]),
        6 => place.start = 1 << random.below(32),
        7 => place.instruction = octet,
        8 => place.remaining = octet,
        _ => place.segments = octet,
    }
}

/// The length or one octet that is not zero.
fn dirty_address(random: &mut Random, address: &mut Address) {
    let octet = random.within(1..=255) as u8;
    match random.below(3) {
        0 => address.length = octet,
        _ => address.octets[random.below(ADDRESS)] = octet,
    }
}

/// The three rules of an open place's address: of its origin, then of its destination.
fn break_address(random: &mut Random, table: &mut Table, rule: usize) {
    let old = some(random, |i| open_kind(table, &table.places[i]) == 1);
    let new = some(random, |i| open_kind(table, &table.places[i]) == 2);
    let index = match rule % 3 {
        0 => new,
        1 => random.pick(&[old, new]),
        _ => old,
    };
    let over = random.within(21..=255) as u8;
    let key = &mut table.places[index].key;
    let address = if rule < 3 { &mut key.origin } else { &mut key.destination };
    match rule % 3 {
        0 => address.length = random.pick(&[21, over]),
        1 => {
            address.length = address.length.min(19);
            let length = usize::from(address.length);
            address.octets[length..].fill(0);
            address.octets[random.within(length..=19)] = random.within(1..=255) as u8;
        }
        _ => {
            address.length = random.within(1..=20) as u8;
            address.octets[0] = random.pick(&[0, 7]);
        }
    }
}

fn break_key(random: &mut Random, table: &mut Table, rule: usize) {
    let any = some(random, |i| table.places[i].mark == 1);
    let (timer, clock) = (table.timer, table.clock);
    match rule {
        25 => {
            let age = random.pick(&[timer, timer + 1, 1 << 31, u32::MAX - 200]);
            table.places[any].start = clock.wrapping_sub(age);
        }
        26 => table.places[any].start = clock.wrapping_add(random.within(1..=9) as u32),
        _ => {
            let free = some(random, |i| table.places[i].mark == 0);
            let key = table.places[any].key;
            table.places[free] = open_place(random, table, key);
        }
    }
}

/// Any bits, or a sound table with one bit turned.
pub fn damaged(random: &mut Random) -> Table {
    let mut table = sound(random);
    if random.one_in(4) {
        for place in &mut table.places {
            *place = any_place(random);
        }
        return table;
    }
    let bit = 1u8 << random.below(8);
    match random.below(6) {
        0 => table.timer ^= 1 << random.below(32),
        1 => table.clock ^= 1 << random.below(32),
        2 => table.registry[random.below(ENTRIES)].kind ^= bit,
        3 => table.registry[random.below(ENTRIES)].context ^= 1 << random.below(16),
        _ => turn(random, &mut table.places, bit),
    }
    table
}

fn any_place(random: &mut Random) -> Place {
    let mut address =
        || Address { octets: [(); ADDRESS].map(|()| random.octet()), length: random.octet() };
    let (origin, destination) = (address(), address());
    let (association, context) = (random.next() as u16, random.next() as u16);
    let [reference, mark, instruction, remaining, segments, ..] = random.next().to_le_bytes();
    let key = Key { association, context, origin, destination, reference };
    let (octets, start) = (random.next() as u16, any_u32(random));
    Place { key, octets, start, mark, instruction, remaining, segments }
}

fn turn(random: &mut Random, places: &mut [Place; PLACES], bit: u8) {
    let place = &mut places[random.below(PLACES)];
    let address = match random.one_in(2) {
        true => &mut place.key.origin,
        false => &mut place.key.destination,
    };
    match random.below(12) {
        0 | 1 => address.octets[random.below(ADDRESS)] ^= bit,
        2 => address.length ^= bit,
        3 => place.key.association ^= u16::from(bit) << random.pick(&[0, 8]),
        4 => place.key.context ^= u16::from(bit) << random.pick(&[0, 8]),
        5 => place.octets ^= u16::from(bit) << random.pick(&[0, 8]),
        6 => place.start ^= 1 << random.below(32),
        7 => place.mark ^= bit,
        8 => place.instruction ^= bit,
        9 => place.remaining ^= bit,
        10 => place.segments ^= bit,
        _ => place.key.reference ^= bit,
    }
}
