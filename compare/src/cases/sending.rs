//! Cases of sending.

use super::{choose, Case, World};
use crate::input::Input;
use crate::random::Random;
use crate::tables;
use model::*;

/// The rooms of a sending, the count they lead to, and the length of a segment.
struct Rooms {
    room1: usize,
    room: usize,
    count: usize,
}

/// Rooms that are good for `n` octets after a header of `h`, for about `aim` segments.
fn good_rooms(random: &mut Random, h: usize, n: usize, aim: usize) -> Rooms {
    if aim == 1 && h + n <= PARAMETER {
        let room1 = random.pick(&[h + n, h + n, (h + n + 1).min(PARAMETER), PARAMETER]);
        return Rooms { room1, room: random.within(0..=255), count: 1 };
    }
    let most = PARAMETER - h - 1;
    let even = n.div_ceil(aim.max(2));
    let first = random.pick(&[0, even, even, even + 1, even.saturating_sub(1)]);
    let first = first.min(most).min(n.saturating_sub(2));
    let later = (n - first).div_ceil(aim.max(2) - 1).max(1);
    match later {
        _ if n < 2 || later > most => Rooms { room1: 255, room: 255, count: count(h, n, 255, 255) },
        _ => {
            let (room1, room) = (h + 1 + first, h + 1 + later);
            Rooms { room1, room, count: count(h, n, room1, room) }
        }
    }
}

/// By trying, so as not to lean on either side's arithmetic.
fn count(h: usize, n: usize, room1: usize, room: usize) -> usize {
    if h + n <= room1 {
        return 1;
    }
    let mut count = 1;
    let mut held = room1 - h - 1;
    while held < n {
        held += room - h - 1;
        count += 1;
    }
    count
}

/// The length of segment k.
fn length(h: usize, n: usize, rooms: &Rooms, k: usize) -> usize {
    match k {
        0 if rooms.count == 1 => h + n,
        0 => rooms.room1,
        _ if k + 1 < rooms.count => rooms.room,
        _ => h + 1 + n - (rooms.room1 - h - 1) - (k - 1) * (rooms.room - h - 1),
    }
}

fn bad_rooms(random: &mut Random, h: usize, n: usize) -> (usize, usize) {
    let over = random.pick(&[256, 256, 300, usize::MAX]);
    let beyond = n.saturating_sub(1).div_ceil(10).max(1);
    match random.below(6) {
        0 => (over, 255),
        1 => (255, over),
        2 if n > 0 => (random.below(h + 1), 255),
        3 if h + n > 255 => (255, random.below(h + 2)),
        4 if h + n > 255 && beyond * 10 < n => {
            (h + 1 + beyond.min(254 - h), h + 1 + beyond.min(254 - h))
        }
        5 if n > 10 => (h + 1, h + 2),
        _ => (random.below(h), random.below(256)),
    }
}

impl World {
    pub(super) fn sending(&mut self) -> Case {
        let mut held = choose(&mut self.random, &[1, 8, 14, 9, 15, 17, 16, 18, 19, 20]);
        let (table, rule) = self.table(&held);
        let random = &mut self.random;
        let Some((context, kind)) = context_for(random, &table, &mut held) else {
            held.retain(|number| *number == 1);
            let input = sending_input(table, Request::default(), [vec![], vec![]], vec![], 300);
            return Case { held, rule, ..Case::new(input) };
        };
        let addresses = addresses_for(random, kind, &held);
        let n = match held.contains(&14) {
            true => random.pick(&[2_049, 2_050, 4_096]),
            false => data_length(random),
        };
        let h = 2
            + if context > 127 { 2 } else { 1 }
            + if kind == 2 { 2 + addresses.concat().len() } else { 0 };
        let (request, area) = request_for(random, h, n, &held);
        let request = Request {
            context,
            instruction: if held.contains(&17) {
                random.pick(&[4, 7, 255])
            } else {
                random.below(4) as u8
            },
            reference: if held.contains(&16) {
                random.pick(&[128, 255])
            } else {
                tables::reference(random)
            },
            ..request
        };
        let data = random.octets(n);
        let input = sending_input(table, request, addresses, data, area);
        Case { held, rule, ..Case::new(input) }
    }
}

fn sending_input(
    table: Table,
    request: Request,
    addresses: [Vec<u8>; 2],
    data: Vec<u8>,
    area: usize,
) -> Input {
    let [origin, destination] = addresses;
    Input::Sending { table, request, origin, destination, data, area }
}

fn data_length(random: &mut Random) -> usize {
    match random.below(6) {
        0 => random.pick(&[0, 1, 2, 2_047, 2_048]),
        1 => random.within(0..=2_048),
        2 => random.within(200..=260),
        _ => random.below(80),
    }
}

/// A context with its kind. None if none is registered and one has to be.
fn context_for(random: &mut Random, table: &Table, held: &mut Vec<u8>) -> Option<(u16, u8)> {
    if held.contains(&8) {
        held.retain(|number| *number != 15);
        return Some((tables::unregistered(random, table), 2));
    }
    let wanted = |entry: &&Entry| match held.contains(&15) {
        true => entry.kind == 1,
        false => entry.kind != 0,
    };
    let mut entries: Vec<Entry> = table.registry.iter().filter(wanted).copied().collect();
    if entries.is_empty() {
        held.retain(|number| *number != 15);
        entries = table.registry.iter().filter(|entry| entry.kind != 0).copied().collect();
    }
    let entry = (!entries.is_empty()).then(|| random.pick(&entries))?;
    Some((entry.context, entry.kind))
}

fn addresses_for(random: &mut Random, kind: u8, held: &[u8]) -> [Vec<u8>; 2] {
    let which = random.below(2);
    let mut addresses = match kind {
        2 => [tables::address(random), tables::address(random)],
        _ => [vec![], vec![]],
    };
    if held.contains(&15) {
        let length = random.within(1..=20);
        addresses[which] = vec![random.octet(); length];
    }
    if held.contains(&9) {
        let length = random.pick(&[21, 22, 40, 255, 256, 300]);
        addresses[random.below(2)] = vec![7; length];
    }
    addresses
}

/// Rooms, number and area on which 18, 19 and 20 hold or do not hold; now and then any.
fn request_for(random: &mut Random, h: usize, n: usize, held: &[u8]) -> (Request, usize) {
    let pack = |room1, room, number| Request { room1, room, number, ..Request::default() };
    if held.contains(&18) {
        let (room1, room) = bad_rooms(random, h.min(60), n);
        let number = if held.contains(&19) { random.pick(&[10, usize::MAX]) } else { 0 };
        return (pack(room1, room, number), if held.contains(&20) { random.below(3) } else { 300 });
    }
    if held.iter().any(|number| matches!(number, 8 | 9 | 14)) || n > STRETCH {
        let number = if held.contains(&19) { 10 } else { 0 };
        return (pack(255, 255, number), if held.contains(&20) { random.below(3) } else { 300 });
    }
    if held.is_empty() && random.one_in(3) {
        let any = random.below(300);
        let room1 = random.pick(&[h - 1, h, h + 1, h + n - 1, h + n, h + n + 1, 255, 256, any]);
        let room = random.pick(&[h, h + 1, h + 2, h + 3, 255, 256, any]);
        return (pack(room1, room, random.below(12)), random.pick(&[0, 3, h, h + 1, 255, 300]));
    }
    let aim = random.within(1..=10);
    let rooms = good_rooms(random, h, n, aim);
    let number = match held.contains(&19) {
        true => random.pick(&[rooms.count, rooms.count, rooms.count + 1, usize::MAX]),
        false => random.below(rooms.count),
    };
    let needed = if number < rooms.count { length(h, n, &rooms, number) } else { 3 };
    let area = match held.contains(&20) {
        true => random.pick(&[needed - 1, needed - 1, 0]),
        false => random.pick(&[needed, needed, needed + 1, 300]),
    };
    (pack(rooms.room1, rooms.room, number), area)
}
