//! What the addresses of a segment have to lead to, whatever both sides say: A3 of document 02.

use crate::arrivals::Arrived;
use crate::input::{Answer, Input};
use model::*;

/// How two addresses differ that are easily taken for one.
pub const WAYS: [&str; 4] =
    ["of the same length", "of the same filled octets", "of the same number", "otherwise apart"];

/// Index into `WAYS`; none where they are the same.
fn apart(a: &Address, b: &Address) -> Option<usize> {
    let number = |address: &Address| {
        let counting = address.counting();
        counting[counting.iter().take_while(|octet| **octet == 0).count()..].to_vec()
    };
    match a.length == b.length {
        true if a.octets == b.octets => None,
        true => Some(0),
        false if a.octets == b.octets => Some(1),
        false if number(a) == number(b) => Some(2),
        false => Some(3),
    }
}

/// For each open place whose key differs from this one in the destination alone, how it does.
pub fn beside<'a>(table: &'a Table, key: &'a Key) -> impl Iterator<Item = usize> + 'a {
    let open = table.places.iter().filter(|place| place.mark == 1).map(|place| &place.key);
    let rest = |key: &Key| (key.association, key.context, key.reference, key.origin);
    let others = open.filter(move |other| rest(other) == rest(key));
    others.filter_map(|other| apart(&other.destination, &key.destination))
}

/// The key of a parameter that was accepted, read off its octets apart from both sides. The
/// reference is 255 where there is none.
pub fn key(table: &Table, association: u16, parameter: &[u8]) -> Option<Key> {
    let mut octets = parameter.iter().copied();
    let low = octets.next()?;
    let high = if low < 0x80 { octets.next()? & 0x7f } else { 0 };
    let context = u16::from(low & 0x7f) + 128 * u16::from(high);
    let octet3 = octets.nth(1)?;
    let reference = if octet3 < 0x80 { octets.next()? & 0x7f } else { UNSEGMENTED };
    let mut key = Key { association, context, reference, ..Key::default() };
    let of_2000 = Entry { context, kind: 2 };
    if table.registry.contains(&of_2000) {
        for address in [&mut key.origin, &mut key.destination] {
            address.length = octets.next()?;
            for octet in address.octets.iter_mut().take(address.length.into()) {
                *octet = octets.next()?;
            }
        }
    }
    Some(key)
}

/// The end of a record, after the octets that it covers.
fn addresses(key: &Key) -> Vec<u8> {
    let field = |address: &Address| [&[address.length], &address.octets[..]].concat();
    [field(&key.origin), field(&key.destination)].concat()
}

/// What is wrong with an arrival that both sides answered, if anything is.
pub fn wrong(arrived: &Arrived, report: &[u8]) -> Option<String> {
    if arrived.received.refusal != 0 {
        return None;
    }
    let Arrival { association, parameter, .. } = arrived.arrival;
    let wrong = match key(arrived.before, association, parameter) {
        Some(key) => segment(arrived, &key, report),
        None => Some("it is accepted, and its fields cannot be read".into()),
    };
    wrong.map(|wrong| format!("both are wrong: {wrong}\n"))
}

/// A segment concerns the place of its key and no other, of those that the clock's work has left;
/// its record and its place have its key.
fn segment(arrived: &Arrived, key: &Key, report: &[u8]) -> Option<String> {
    let Received { table: after, decision, .. } = arrived.received;
    let (table, record) = (arrived.met(), &arrived.own(report)[..RECORD]);
    let own = table.places.iter().position(|place| place.mark == 1 && place.key == *key);
    let free = |index: usize| table.places.get(index).is_some_and(|place| place.mark == 0);
    let fits = match (decision.kind, own) {
        (1, None) => free(decision.place),
        (2, _) => key.reference == UNSEGMENTED,
        (4, None) => decision.place == PLACES,
        (_, own) => own == Some(decision.place),
    };
    // An unsegmented parameter touches no place.
    let touched = if decision.kind == 2 { PLACES } else { decision.place };
    let mut others = (0..PLACES).filter(|index| *index != touched);
    let kind = if decision.kind == 4 { LOST } else { DELIVERED };
    if !fits {
        Some(format!("the key is open at {own:?}, and the answer is {decision:?}"))
    } else if others.any(|index| table.places[index] != after.places[index]) {
        Some("another sequence's place changes".into())
    } else if after.places.get(touched).is_some_and(|p| p.mark == 1 && p.key != *key) {
        Some("the place has another key".into())
    } else if arrived.own_records() > 0 && !recorded(record, kind, key) {
        Some("the record is of another kind or key".into())
    } else {
        None
    }
}

/// What is wrong with a clock or a release, if anything is: each place that is open no more has a
/// record, in place order.
pub fn swept_wrong(input: &Input, answer: &Answer, report: &[u8]) -> Option<String> {
    let (Some(table), Answer::Swept(swept)) = (input.table(), answer) else { return None };
    let pairs = table.places.iter().zip(&swept.table.places);
    let ended: Vec<&Place> =
        pairs.filter(|(old, new)| old.mark != new.mark).map(|(old, _)| old).collect();
    let records = report.chunks(RECORD).take(swept.records.into());
    let good = ended.len() == swept.records.into()
        && ended.iter().zip(records).all(|(place, record)| recorded(record, LOST, &place.key));
    let wrong = "both are wrong: the records are not those of the places that have ended\n";
    (!good).then(|| wrong.into())
}

fn recorded(record: &[u8], kind: u8, key: &Key) -> bool {
    let numbers = [key.association.to_be_bytes(), key.context.to_be_bytes()].concat();
    record[0] == kind
        && record[1..5] == numbers
        && record[5] == key.reference
        && record[ORIGIN_AT..] == addresses(key)
}

#[cfg(test)]
mod tests {
    use super::*;

    #[test]
    fn ways_to_be_apart() {
        let of = |octets: &[u8]| Address::of(octets);
        assert_eq!(apart(&of(&[7]), &of(&[7])), None);
        assert_eq!(apart(&of(&[7]), &of(&[8])), Some(0));
        assert_eq!(apart(&of(&[7]), &of(&[7, 0])), Some(1));
        assert_eq!(apart(&of(&[0, 7]), &of(&[7])), Some(2));
        assert_eq!(apart(&of(&[]), &of(&[0])), Some(1));
        assert_eq!(apart(&of(&[]), &of(&[7])), Some(3));
    }

    #[test]
    fn keys_of_parameters() {
        let mut table = Table::default();
        table.registry[0] = Entry { context: 3, kind: 1 };
        table.registry[1] = Entry { context: 128, kind: 2 };
        let expected = Key { association: 9, context: 3, reference: 5, ..Key::default() };
        assert_eq!(key(&table, 9, &[0x83, 0x80, 0x41, 0x85, 0xAA]), Some(expected));
        let expected = Key {
            association: 9,
            context: 128,
            origin: Address::of(&[0, 7]),
            destination: Address::of(&[1]),
            reference: UNSEGMENTED,
        };
        let parameter = [0x00, 0x81, 0x80, 0xC0, 2, 0, 7, 1, 1, 0xAA];
        assert_eq!(key(&table, 9, &parameter), Some(expected));
        assert_eq!(key(&table, 9, &parameter[..7]), None);
    }

    #[test]
    fn the_end_of_a_record() {
        let (origin, destination) = (Address::of(&[0, 7]), Address::of(&[1]));
        let end = addresses(&Key { origin, destination, ..Key::default() });
        assert_eq!(end.len(), RECORD - ORIGIN_AT);
        assert_eq!((&end[..4], &end[20..24]), (&[2, 0, 7, 0][..], &[0, 1, 1, 0][..]));
    }
}
