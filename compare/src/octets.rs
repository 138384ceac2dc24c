//! The structs of the calls as the octets that they have in C, least significant octet first.

use model::*;

/// What is left of a struct's octets.
pub struct Fields<'a>(pub &'a [u8]);

impl Fields<'_> {
    fn take<const N: usize>(&mut self) -> [u8; N] {
        let (first, rest) = self.0.split_first_chunk().expect("as many octets as the struct has");
        self.0 = rest;
        *first
    }

    fn octet(&mut self) -> u8 {
        self.take::<1>()[0]
    }

    fn short(&mut self) -> u16 {
        u16::from_le_bytes(self.take())
    }

    fn number(&mut self) -> u32 {
        u32::from_le_bytes(self.take())
    }

    fn long(&mut self) -> u64 {
        u64::from_le_bytes(self.take())
    }

    fn size(&mut self) -> usize {
        usize::from_le_bytes(self.take())
    }

    /// Octets that belong to no field.
    fn pass<const N: usize>(&mut self) {
        self.take::<N>();
    }
}

/// Fields are read in the order in which they lie, as they are written here.
pub trait Shape {
    fn read(fields: &mut Fields) -> Self;
}

impl Shape for Address {
    fn read(fields: &mut Fields) -> Self {
        Address { octets: fields.take(), length: fields.octet() }
    }
}

impl Shape for Key {
    fn read(fields: &mut Fields) -> Self {
        let key = Key {
            association: fields.short(),
            context: fields.short(),
            origin: Address::read(fields),
            destination: Address::read(fields),
            reference: fields.octet(),
        };
        fields.pass::<1>();
        key
    }
}

impl Shape for Place {
    fn read(fields: &mut Fields) -> Self {
        let (key, octets) = (Key::read(fields), fields.short());
        fields.pass::<2>();
        Place {
            key,
            octets,
            start: fields.number(),
            mark: fields.octet(),
            instruction: fields.octet(),
            remaining: fields.octet(),
            segments: fields.octet(),
        }
    }
}

impl Shape for Entry {
    fn read(fields: &mut Fields) -> Self {
        let entry = Entry { context: fields.short(), kind: fields.octet() };
        fields.pass::<1>();
        entry
    }
}

impl Shape for Table {
    fn read(fields: &mut Fields) -> Self {
        Table {
            places: [(); PLACES].map(|()| Place::read(fields)),
            registry: [(); ENTRIES].map(|()| Entry::read(fields)),
            timer: fields.number(),
            clock: fields.number(),
        }
    }
}

impl Shape for Decision {
    fn read(fields: &mut Fields) -> Self {
        let decision = Decision {
            place: fields.size(),
            start: fields.size(),
            length: fields.size(),
            kind: fields.octet(),
            cause: fields.octet(),
        };
        fields.pass::<6>();
        decision
    }
}

impl Shape for Opened {
    fn read(fields: &mut Fields) -> Self {
        let opened = Opened { table: Table::read(fields), refusal: fields.octet() };
        fields.pass::<3>();
        opened
    }
}

impl Shape for Received {
    fn read(fields: &mut Fields) -> Self {
        let received = Received {
            table: Table::read(fields),
            decision: Decision::read(fields),
            refusal: fields.octet(),
            records: fields.octet(),
            position: fields.short(),
            timeouts: fields.octet(),
        };
        fields.pass::<3>();
        received
    }
}

impl Shape for Swept {
    fn read(fields: &mut Fields) -> Self {
        let swept =
            Swept { table: Table::read(fields), refusal: fields.octet(), records: fields.octet() };
        fields.pass::<2>();
        swept
    }
}

impl Shape for Part {
    fn read(fields: &mut Fields) -> Self {
        let part = Part { start: fields.size(), length: fields.size(), source: fields.octet() };
        fields.pass::<7>();
        part
    }
}

impl Shape for Sent {
    fn read(fields: &mut Fields) -> Self {
        Sent { refusal: fields.octet(), count: fields.octet(), length: fields.short() }
    }
}

impl Shape for Summary {
    fn read(fields: &mut Fields) -> Self {
        Summary {
            mark: [(); ROWS].map(|()| fields.long()),
            association: [(); ROWS].map(|()| fields.long()),
            totals: [(); TOTALS.len()].map(|()| [(); ROWS].map(|()| fields.long())),
        }
    }
}

pub fn summary_octets(summary: &Summary) -> Vec<u8> {
    let columns = [&summary.mark, &summary.association].into_iter().chain(&summary.totals);
    columns.flatten().flat_map(|number| number.to_le_bytes()).collect()
}

pub fn decision_octets(decision: &Decision) -> Vec<u8> {
    let mut octets =
        [decision.place, decision.start, decision.length].map(usize::to_le_bytes).concat();
    octets.extend([decision.kind, decision.cause, 0, 0, 0, 0, 0, 0]);
    octets
}

pub fn request_octets(request: &Request) -> Vec<u8> {
    let mut octets = request.context.to_le_bytes().to_vec();
    octets.extend([request.instruction, request.reference, 0, 0, 0, 0]);
    octets.extend([request.room1, request.room, request.number].map(usize::to_le_bytes).concat());
    octets
}

#[cfg(test)]
mod tests {
    use super::*;
    use crate::input::table_octets;
    use crate::random::Random;
    use crate::{summaries, tables};
    use std::mem::{offset_of, size_of};

    /// Reads a struct of octets 0, 1, 2.. and says how many were read.
    fn counted<T: Shape>() -> (T, usize) {
        let octets: Vec<u8> = (0..8192).map(|i| i as u8).collect();
        let mut fields = Fields(&octets);
        let value = T::read(&mut fields);
        (value, octets.len() - fields.0.len())
    }

    #[test]
    fn every_octet_is_read() {
        assert_eq!(counted::<Opened>().1, size_of::<Opened>());
        assert_eq!(counted::<Received>().1, size_of::<Received>());
        assert_eq!(counted::<Swept>().1, size_of::<Swept>());
        assert_eq!(counted::<Part>().1, size_of::<Part>());
        assert_eq!(counted::<Sent>().1, size_of::<Sent>());
        assert_eq!(counted::<Summary>().1, size_of::<Summary>());
        assert_eq!(counted::<Swept>().0.records, offset_of!(Swept, records) as u8);
        let place = counted::<Received>().0.decision.place.to_le_bytes()[0];
        assert_eq!(place, offset_of!(Received, decision) as u8);
        let position = counted::<Received>().0.position.to_le_bytes()[0];
        assert_eq!(position, offset_of!(Received, position) as u8);
        assert_eq!(counted::<Received>().0.timeouts, offset_of!(Received, timeouts) as u8);
    }

    /// Each field is read where it lies.
    #[test]
    fn fields_of_a_place() {
        let (place, _) = counted::<Place>();
        assert_eq!(place.key.origin.octets[0], offset_of!(Key, origin) as u8);
        assert_eq!(place.key.destination.octets[0], offset_of!(Key, destination) as u8);
        let length = offset_of!(Key, destination) + offset_of!(Address, length);
        assert_eq!(place.key.destination.length, length as u8);
        assert_eq!(place.key.reference, offset_of!(Key, reference) as u8);
        assert_eq!(place.octets.to_le_bytes()[0], offset_of!(Place, octets) as u8);
        assert_eq!(place.start.to_le_bytes()[0], offset_of!(Place, start) as u8);
        assert_eq!(place.segments, offset_of!(Place, segments) as u8);
    }

    #[test]
    fn there_and_back() {
        let table = tables::sound_with(&mut Random::new(3), 8, 16);
        let octets = table_octets(&table);
        assert_eq!(octets.len(), size_of::<Table>());
        assert_eq!(Table::read(&mut Fields(&octets)), table);
        let decision = Decision { place: 1 << 40, start: 2, length: 3, kind: 4, cause: 5 };
        assert_eq!(Decision::read(&mut Fields(&decision_octets(&decision))), decision);
        assert_eq!(decision_octets(&decision).len(), size_of::<Decision>());
        assert_eq!(request_octets(&Request::default()).len(), size_of::<Request>());
        let summary = summaries::any(&mut Random::new(3));
        let octets = summary_octets(&summary);
        assert_eq!(octets.len(), size_of::<Summary>());
        assert_eq!(Summary::read(&mut Fields(&octets)), summary);
    }
}
