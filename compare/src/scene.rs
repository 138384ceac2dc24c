//! Segments that mean something to a table: sequences begun, continued, broken and completed.

use crate::random::Random;
use crate::tables;
use crate::wire::Wire;
use model::*;

pub struct Scene {
    pub association: u16,
    pub wire: Wire,
}

/// A wire with the fields of a key; what is ignored is any. It is good, so that its context is not
/// padded.
fn wire(random: &mut Random, table: &Table, key: &Key) -> Wire {
    let addresses = [&key.origin, &key.destination].map(|address| address.counting().to_vec());
    Wire {
        context: key.context,
        spare: if random.one_in(4) { random.below(32) as u8 } else { 0 },
        instruction: random.below(4) as u8,
        reference: Some(key.reference),
        addresses: Some(addresses).filter(|_| tables::kind(table, key.context) == 2),
        ..Wire::default()
    }
}

/// Information: none, a little, all that fits, or up to and past `edge` octets.
fn inform(random: &mut Random, wire: &mut Wire, edge: usize) {
    let most = PARAMETER - wire.header().len();
    let length = match random.below(8) {
        0 => 0,
        1 | 2 => random.within(1..=4),
        3 => most,
        4 => random.within(0..=most),
        _ => (edge + random.below(3)).saturating_sub(1),
    };
    wire.information = random.octets(length.min(most));
}

fn open_place(random: &mut Random, table: &Table) -> Option<Place> {
    let open: Vec<&Place> = table.places.iter().filter(|place| place.mark == 1).collect();
    (!open.is_empty()).then(|| *random.pick(&open))
}

/// How many segments are to follow the first.
fn remaining(random: &mut Random) -> u8 {
    match random.below(4) {
        0 => random.within(1..=9) as u8,
        1 => 9,
        _ => random.within(1..=3) as u8,
    }
}

/// The first segment of a key that is not open, if one is found soon.
pub fn begin(random: &mut Random, table: &Table) -> Option<Scene> {
    if table.registry.iter().all(|entry| entry.kind == 0) {
        return None;
    }
    let is_open = |key: &Key| table.places.iter().any(|place| place.mark == 1 && place.key == *key);
    let key = (0..20).map(|_| tables::key(random, table)).find(|key| !is_open(key))?;
    let mut wire = wire(random, table, &key);
    (wire.new, wire.remaining) = (true, remaining(random));
    inform(random, &mut wire, 200);
    Some(Scene { association: key.association, wire })
}

/// A later segment, or another first one, of an open sequence.
fn follow(random: &mut Random, table: &Table, plan: usize) -> Option<Scene> {
    let place = open_place(random, table)?;
    let mut wire = wire(random, table, &place.key);
    let next = place.remaining.saturating_sub(1);
    (wire.new, wire.remaining) = match plan {
        0 => (false, next),
        1 => (true, remaining(random)),
        2 => (
            false,
            random.pick(&[next.wrapping_add(1), next.wrapping_add(2), next.wrapping_sub(1), 0, 9]),
        ),
        _ => (random.one_in(2), random.pick(&[10, 11, 63, 32, 16])),
    };
    inform(random, &mut wire, STRETCH - usize::from(place.octets).min(STRETCH));
    Some(Scene { association: place.key.association, wire })
}

/// A segment of a key that is likely not open: nearly the key of an open one, if there is one.
fn stray(random: &mut Random, table: &Table, plan: usize) -> Option<Scene> {
    let mut scene = begin(random, table)?;
    if let Some(key) = tables::near_key(random, table).filter(|_| random.one_in(2)) {
        scene = Scene { association: key.association, wire: wire(random, table, &key) };
        inform(random, &mut scene.wire, 200);
    }
    let wire = &mut scene.wire;
    (wire.new, wire.remaining) = match plan {
        0 => (false, random.within(0..=9) as u8),
        1 => (random.one_in(2), random.pick(&[10, 11, 63, 32, 16])),
        _ => (true, 0),
    };
    if plan > 1 {
        wire.reference = None;
    }
    Some(scene)
}

/// Mostly a segment that is good; what it does depends on the table.
pub fn scene(random: &mut Random, table: &Table) -> Scene {
    let scene = match random.weighted(&[22, 36, 5, 6, 4, 7, 4, 9]) {
        0 => begin(random, table),
        plan @ 1..=4 => follow(random, table, plan - 1),
        plan => stray(random, table, plan - 5),
    };
    let mut scene = scene.or_else(|| begin(random, table)).unwrap_or_else(|| Scene {
        association: tables::association(random),
        wire: Wire { context: tables::context(random), reference: Some(5), ..Wire::default() },
    });
    scene.wire.fit();
    scene
}

#[cfg(test)]
mod tests {
    use super::*;

    /// What is refused is made so by `damage_wire`, and is known to be.
    #[test]
    fn no_scene_is_padded() {
        let random = &mut Random::new(2);
        for _ in 0..2_000 {
            let table = tables::sound(random);
            let wire = scene(random, &table).wire;
            assert!(!wire.padded && wire.two_octets() == (wire.context > 127));
        }
    }
}
