//! Records of deliveries and losses.

use crate::segment::Segment;
use crate::{Address, Fault, Key, Machine, Place};
use crate::{ADDRESS, DELIVERED, DESTINATION_AT, LOST, ORIGIN_AT, RECORD};

/// What a record covers: saved segments, a segment that was never saved, or both.
#[derive(Clone, Copy, Debug)]
pub struct Covered {
    pub key: Key,
    pub instruction: u8,
    pub segments: u8,
    pub octets: u16,
}

impl Covered {
    pub fn saved(place: &Place) -> Self {
        Covered {
            key: place.key,
            instruction: place.instruction,
            segments: place.segments,
            octets: place.octets,
        }
    }

    pub fn this(segment: &Segment) -> Self {
        let octets = segment.information.len() as u16;
        Covered { key: segment.key, instruction: segment.instruction, segments: 1, octets }
    }

    /// With a further segment; the instruction stays the first one's.
    pub fn and(self, segment: &Segment) -> Self {
        let octets = self.octets + segment.information.len() as u16;
        Covered { segments: self.segments + 1, octets, ..self }
    }
}

/// Delivered has cause 0.
#[derive(Clone, Copy, Debug)]
pub struct Record {
    pub cause: u8,
    pub covered: Covered,
}

impl<const B: bool> Machine<B> {
    pub(crate) fn octets(&self, record: &Record) -> [u8; RECORD] {
        let Covered { key, instruction, segments, octets } = record.covered;
        let mut out = [0; RECORD];
        out[0] = if record.cause == 0 { DELIVERED } else { LOST };
        out[1..3].copy_from_slice(&key.association.to_be_bytes());
        out[3..5].copy_from_slice(&key.context.to_be_bytes());
        out[5..9].copy_from_slice(&[key.reference, instruction, record.cause, segments]);
        out[9..11].copy_from_slice(&octets.to_be_bytes());
        if self.broken(Fault::RecordLittleEndian) {
            out[9..11].copy_from_slice(&octets.to_le_bytes());
        }
        put(&mut out, ORIGIN_AT, &key.origin);
        put(&mut out, DESTINATION_AT, &key.destination);
        match self.fault() {
            Some(Fault::OldKinds) => out[0] -= 2,
            Some(Fault::OriginRecorded) => put(&mut out, DESTINATION_AT, &key.origin),
            _ => {}
        }
        out
    }
}

fn put(record: &mut [u8; RECORD], at: usize, address: &Address) {
    record[at] = address.length;
    record[at + 1..][..ADDRESS].copy_from_slice(&address.octets);
}
