//! What the octets of a context have to lead to, whatever both sides say: A2 of document 02.

use crate::arrivals::Arrived;
use model::*;

/// What octets 1 and 1a alone are refused by, if they are. Which contexts are registered is not
/// asked: 8 comes after these.
fn refusal(parameter: &[u8]) -> Option<u8> {
    match parameter {
        [] | [..=0x7f] => Some(5),
        [..=0x7f, ..=0x7f, ..] => Some(6),
        [..=0x7f, 0x80, ..] => Some(23),
        _ => None,
    }
}

/// The octets of a context in every parameter that is accepted: equal contexts have equal ones.
fn octets(context: u16) -> Vec<u8> {
    let (low, high) = ((context % 128) as u8, (context / 128) as u8);
    match high {
        0 => vec![0x80 | low],
        _ => vec![low, 0x80 | high],
    }
}

/// The context that a segment was accepted for: its record's, or else its place's.
fn accepted(arrived: &Arrived, report: &[u8]) -> Option<u16> {
    let Received { table, decision, .. } = arrived.received;
    match arrived.own_records() {
        0 => table.places.get(decision.place).map(|place| place.key.context),
        _ => arrived.own(report)[3..5].try_into().ok().map(u16::from_be_bytes),
    }
}

/// What is wrong with the answer that both sides gave, if anything is.
pub fn wrong(arrived: &Arrived, report: &[u8]) -> Option<String> {
    let (number, parameter) = (arrived.received.refusal, arrived.arrival.parameter);
    match refusal(parameter) {
        _ if !arrived.read() => None,
        Some(expected) if number != expected => {
            Some(format!("both answer {number}, but octets 1 and 1a are refused by {expected}\n"))
        }
        None if number == 23 => Some("both answer 23, but the context is not padded\n".into()),
        None if number == 0 => {
            let context = accepted(arrived, report)?;
            let other = !parameter.starts_with(&octets(context));
            other.then(|| format!("both take it for context {context}, which has other octets\n"))
        }
        _ => None,
    }
}

#[cfg(test)]
mod tests {
    use super::*;

    #[test]
    fn examples_of_the_readings() {
        let cases: &[(&[u8], Option<u8>)] = &[
            (&[], Some(5)),
            (&[0x03], Some(5)),
            (&[0x03, 0x00], Some(6)),
            (&[0x03, 0x80, 0x80, 0xC0, 0xAA], Some(23)),
            (&[0x00, 0x80], Some(23)),
            (&[0x00, 0x81, 0x80, 0xC0], None),
            (&[0x83], None),
            (&[0x83, 0x00], None),
        ];
        for (parameter, expected) in cases {
            assert_eq!(refusal(parameter), *expected, "{parameter:02X?}");
        }
    }

    #[test]
    fn octets_of_all_contexts() {
        assert_eq!((octets(3), octets(128)), (vec![0x83], vec![0x00, 0x81]));
        for context in CONTEXTS {
            assert!(refusal(&[&octets(context)[..], &[0x80]].concat()).is_none(), "{context}");
        }
    }
}
