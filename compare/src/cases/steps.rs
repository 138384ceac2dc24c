//! Steps of the clock, for a clock call and for an arrival.

use super::CLOCK_22;
use crate::random::Random;
use model::*;

/// A step that is refused: 2^31 or more, often back.
pub fn bad(random: &mut Random) -> u32 {
    let back = random.within(1..=1_000) as u32;
    random.pick(&[1 << 31, (1 << 31) + 1, u32::MAX, 0u32.wrapping_sub(back)])
}

/// A clock step below 2^31, often to the tick at which a sequence expires.
pub fn good(random: &mut Random, table: &Table) -> u32 {
    let timer = table.timer;
    let place = table.places[random.below(PLACES)];
    let left = timer.wrapping_sub(table.clock.wrapping_sub(place.start)) & (u32::MAX >> 1);
    match random.weighted(&[45, 12, 12, 6, 2, 2, 8]) {
        0 => random.below(4) as u32,
        1 => left,
        2 => left.saturating_sub(1),
        3 => random.pick(&[timer, timer.saturating_sub(1), timer.saturating_add(1)]) % (1 << 31),
        4 => (1 << 31) - 1,
        5 => random.next() as u32 >> 1,
        _ => random.below(timer.max(2) as usize / 2) as u32,
    }
}

/// A clock step at which a sequence expires, if one is open.
pub fn due(random: &mut Random, table: &Table) -> u32 {
    let open: Vec<&Place> = table.places.iter().filter(|place| place.mark == 1).collect();
    match random.below(3) {
        0 => (1 << 31) - 1,
        1 => table.timer,
        _ if open.is_empty() => 0,
        _ => {
            let age = table.clock.wrapping_sub(random.pick(&open).start);
            table.timer.wrapping_sub(age) & (u32::MAX >> 1)
        }
    }
}

/// The ticks that are left to the oldest sequence, or to one that would begin now.
fn left(table: &Table) -> u32 {
    let open = table.places.iter().filter(|place| place.mark == 1);
    let ages = open.map(|place| table.clock.wrapping_sub(place.start));
    table.timer.saturating_sub(ages.max().unwrap_or(0))
}

/// A step at which no sequence expires, often just so.
pub fn idle(random: &mut Random, table: &Table) -> u32 {
    let most = left(table).saturating_sub(1);
    let any = random.within(0..=most as usize) as u32;
    random.pick(&[most, any, any, most.min(1)])
}

/// That of an arrival on which these refusals are to hold. Where none is, most of what is open is
/// kept, so that it comes to something.
pub fn arrival(random: &mut Random, table: &Table, held: &[u8]) -> u32 {
    let weights = match held {
        _ if held.contains(&13) => return bad(random),
        _ if held.contains(&CLOCK_22) => return due(random, table),
        // After a loss there is room.
        _ if held.contains(&10) => [2, 0, 3, 0, 0, 0],
        [] => [50, 25, 8, 10, 6, 1],
        _ => [3, 0, 3, 3, 0, 4],
    };
    match random.weighted(&weights) {
        0 => 0,
        1 => random.below(4) as u32,
        2 => idle(random, table),
        3 => left(table),
        4 => good(random, table),
        _ => due(random, table),
    }
}
