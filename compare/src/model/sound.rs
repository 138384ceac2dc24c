//! Document 01's "Sound means".

use crate::segment::Edition;
use crate::{Address, Entry, Fault, Key, Machine, Place, Refusal, Table};
use crate::{ADDRESS, CONTEXTS, PLACES, STRETCH, TIMERS};

pub const OPEN: u8 = 1;

impl Place {
    pub fn is_open(&self) -> bool {
        self.mark == OPEN
    }
}

impl<const B: bool> Machine<B> {
    pub(crate) fn sound(&self, table: &Table) -> Result<(), Refusal> {
        let holds = TIMERS.contains(&table.timer)
            && registry_sound(&table.registry)
            && table.places.iter().all(|place| self.place_sound(table, place))
            && self.keys_differ(&table.places);
        Refusal::Unsound.unless(holds)
    }

    fn place_sound(&self, table: &Table, place: &Place) -> bool {
        match place.mark {
            0 => self.free_sound(place),
            OPEN => self.open_sound(table, place),
            _ => self.broken(Fault::MarkAny) && self.open_sound(table, place),
        }
    }

    fn free_sound(&self, place: &Place) -> bool {
        match self.fault() {
            Some(Fault::FreeDestination) => {
                Place { key: without_destination(&place.key), ..*place } == Place::FREE
            }
            _ => *place == Place::FREE,
        }
    }

    fn open_sound(&self, table: &Table, place: &Place) -> bool {
        let Some(edition) = table.edition(place.key.context) else { return false };
        let sum = u16::from(place.segments) + u16::from(place.remaining);
        let most = if self.broken(Fault::SumEleven) { 11 } else { 10 };
        place.key.reference <= 127
            && place.instruction <= 3
            && (1..=9).contains(&place.remaining)
            && place.segments >= 1
            && sum <= most
            && usize::from(place.octets) <= STRETCH
            && self.origin_sound(edition, &place.key.origin)
            && self.destination_sound(edition, &place.key.destination)
            && age(table.clock, place.start) < table.timer
    }

    fn origin_sound(&self, edition: Edition, origin: &Address) -> bool {
        possible(edition, origin) && (self.broken(Fault::ZeroFill) || filled(origin))
    }

    fn destination_sound(&self, edition: Edition, destination: &Address) -> bool {
        match self.fault() {
            Some(Fault::DestinationUnjudged) => true,
            Some(Fault::DestinationFill) => possible(edition, destination),
            Some(Fault::DestinationOf1998) => {
                possible(Edition::Of2000, destination) && filled(destination)
            }
            _ => possible(edition, destination) && filled(destination),
        }
    }

    fn keys_differ(&self, places: &[Place; PLACES]) -> bool {
        let shared = |a: &Key, b: &Key| match self.fault() {
            Some(Fault::KeysNoDestination) => without_destination(a) == without_destination(b),
            _ => a == b,
        };
        // Addresses are looked at only where the numbers of two places are alike.
        let mut numbers = [0; PLACES];
        let open = |place: &&Place| place.is_open();
        for (count, place) in places.iter().filter(open).enumerate() {
            let own = place.key.numbers();
            let alike = numbers[..count].iter().fold(false, |alike, other| alike | (own == *other));
            let mut earlier = places.iter().filter(open).take(count);
            if alike && earlier.any(|other| shared(&place.key, &other.key)) {
                return false;
            }
            numbers[count] = own;
        }
        true
    }
}

impl Key {
    /// The numbers as one, which is quickly compared and tells most keys apart.
    fn numbers(&self) -> u64 {
        u64::from(self.association) << 24 | u64::from(self.context) << 8 | u64::from(self.reference)
    }
}

/// Whether an address of an open place may have this length.
fn possible(edition: Edition, address: &Address) -> bool {
    match edition {
        Edition::Of1998 => address.length == 0,
        Edition::Of2000 => usize::from(address.length) <= ADDRESS,
    }
}

/// Whether there are only zeros after the octets that count, at most 20. They are looked at
/// together, as two numbers with the first octet lowest.
fn filled(address: &Address) -> bool {
    let [front @ .., a, b, c, d] = address.octets;
    let (front, back) = (u128::from_le_bytes(front), u32::from_le_bytes([a, b, c, d]));
    match u32::from(address.length) {
        length @ 0..16 => back == 0 && front >> (8 * length) == 0,
        length => back.checked_shr(8 * (length - 16)).is_none_or(|after| after == 0),
    }
}

/// For the faults that leave it out.
pub fn without_destination(key: &Key) -> Key {
    Key { destination: Address::default(), ..*key }
}

fn registry_sound(registry: &[Entry]) -> bool {
    registry.iter().enumerate().all(|(i, entry)| match entry.kind {
        0 => entry.context == 0,
        1 | 2 => CONTEXTS.contains(&entry.context) && !listed(&registry[..i], entry.context),
        _ => false,
    })
}

/// Contexts are told apart by their number alone, whatever the kinds.
pub fn listed(earlier: &[Entry], context: u16) -> bool {
    earlier.iter().any(|other| other.context == context)
}

/// The clock runs round, so ages and steps are taken modulo 2^32.
pub fn age(time: u32, start: u32) -> u32 {
    time.wrapping_sub(start)
}
