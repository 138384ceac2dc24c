//! The plain data that goes in and out of the calls, laid out as the library lays it out so that
//! the same value can be given to both. Any bits are possible in them: nothing here is checked.

use std::ops::RangeInclusive;

pub const PLACES: usize = 16;
pub const ENTRIES: usize = 8;
/// Octets of the store that belong to one place; also the most data a sequence may carry.
pub const STRETCH: usize = 2_048;
pub const STORE: usize = PLACES * STRETCH;
pub const ADDRESS: usize = 20;
/// The kinds of records.
pub const DELIVERED: u8 = 18;
pub const LOST: u8 = 19;
/// Where a record has its addresses: a length octet each, and the octets after it.
pub const ORIGIN_AT: usize = 11;
pub const DESTINATION_AT: usize = ORIGIN_AT + 1 + ADDRESS;
/// A record's octets.
pub const RECORD: usize = DESTINATION_AT + 1 + ADDRESS;
/// The least report area of a clock or a release, which may end every sequence of the table.
pub const SWEEP: usize = PLACES * RECORD;
/// That of an arrival, whose segment may have a record too.
pub const ARRIVAL: usize = SWEEP + RECORD;
/// A record before A3, when it had no destination, and the area of a clock or a release.
pub const OLD_RECORD: usize = DESTINATION_AT;
pub const OLD_SWEEP: usize = PLACES * OLD_RECORD;
pub const PARAMETER: usize = 255;
pub const SEGMENTS: usize = 10;
pub const TIMERS: RangeInclusive<u32> = 1..=1_000_000;
pub const CONTEXTS: RangeInclusive<u16> = 1..=16_383;
/// A record's reference where the parameter was not segmented.
pub const UNSEGMENTED: u8 = 255;
/// The position where no octet is at fault.
pub const NOWHERE: u16 = 65_535;
/// Rows of a summary.
pub const ROWS: usize = 64;
/// What a total may become, and no more.
pub const TOTAL_MOST: u64 = 1 << 63;
/// A row's totals, in the order of the columns.
pub const TOTALS: [&str; 6] = [
    "segments taken",
    "octets taken",
    "segments delivered",
    "octets delivered",
    "segments lost",
    "octets lost",
];

/// The octets that count, filled up with zeros.
#[repr(C)]
#[derive(Clone, Copy, Debug, Default, Eq)]
pub struct Address {
    pub octets: [u8; ADDRESS],
    pub length: u8,
}

impl Address {
    pub const EMPTY: Address = Address { octets: [0; ADDRESS], length: 0 };

    /// Of at most 20 octets.
    pub fn of(counting: &[u8]) -> Address {
        let mut octets = [0; ADDRESS];
        octets[..counting.len()].copy_from_slice(counting);
        Address { octets, length: counting.len() as u8 }
    }

    /// The octets that count; all of them where the length is too large.
    pub fn counting(&self) -> &[u8] {
        &self.octets[..ADDRESS.min(self.length.into())]
    }
}

impl PartialEq for Address {
    fn eq(&self, other: &Address) -> bool {
        self.length == other.length && self.octets == other.octets
    }
}

#[repr(C)]
#[derive(Clone, Copy, Debug, Default, Eq)]
pub struct Key {
    pub association: u16,
    pub context: u16,
    pub origin: Address,
    pub destination: Address,
    pub reference: u8,
}

impl PartialEq for Key {
    /// The numbers first: they tell most keys apart.
    fn eq(&self, other: &Key) -> bool {
        self.association == other.association
            && self.context == other.context
            && self.reference == other.reference
            && self.origin == other.origin
            && self.destination == other.destination
    }
}

#[repr(C)]
#[derive(Clone, Copy, Debug, Default, PartialEq, Eq)]
pub struct Place {
    pub key: Key,
    pub octets: u16,
    pub start: u32,
    pub mark: u8,
    pub instruction: u8,
    pub remaining: u8,
    pub segments: u8,
}

impl Place {
    /// As the default: a constant is quicker to compare with.
    pub const FREE: Place = Place {
        key: Key {
            association: 0,
            context: 0,
            origin: Address::EMPTY,
            destination: Address::EMPTY,
            reference: 0,
        },
        octets: 0,
        start: 0,
        mark: 0,
        instruction: 0,
        remaining: 0,
        segments: 0,
    };
}

#[repr(C)]
#[derive(Clone, Copy, Debug, Default, PartialEq, Eq)]
pub struct Entry {
    pub context: u16,
    pub kind: u8,
}

/// The default is the unopened table.
#[repr(C)]
#[derive(Clone, Copy, Debug, Default, PartialEq, Eq)]
pub struct Table {
    pub places: [Place; PLACES],
    pub registry: [Entry; ENTRIES],
    pub timer: u32,
    pub clock: u32,
}

#[repr(C)]
#[derive(Clone, Copy, Debug, Default, PartialEq, Eq)]
pub struct Decision {
    pub place: usize,
    pub start: usize,
    pub length: usize,
    pub kind: u8,
    pub cause: u8,
}

/// A parameter that arrives.
#[derive(Clone, Copy, Debug, PartialEq, Eq)]
pub struct Arrival<'a> {
    pub time: u32,
    pub association: u16,
    pub parameter: &'a [u8],
}

#[repr(C)]
#[derive(Clone, Copy, Debug, PartialEq, Eq)]
pub struct Received {
    pub table: Table,
    /// Of the segment.
    pub decision: Decision,
    pub refusal: u8,
    /// The clock's and the segment's.
    pub records: u8,
    /// Of the octet at fault, or `NOWHERE`.
    pub position: u16,
    /// How many of the records are the clock's: they are the first.
    pub timeouts: u8,
}

impl Received {
    /// This table, and nothing made of a segment yet.
    pub fn of(table: Table) -> Received {
        let (decision, position) = (Decision::default(), NOWHERE);
        Received { table, decision, refusal: 0, records: 0, position, timeouts: 0 }
    }

    /// This table, and nothing made.
    pub fn refused(table: Table, refusal: u8, position: u16) -> Received {
        Received { refusal, position, ..Received::of(table) }
    }
}

#[repr(C)]
#[derive(Clone, Copy, Debug, Default, PartialEq, Eq)]
pub struct Swept {
    pub table: Table,
    pub refusal: u8,
    pub records: u8,
}

#[repr(C)]
#[derive(Clone, Copy, Debug, Default, PartialEq, Eq)]
pub struct Opened {
    pub table: Table,
    pub refusal: u8,
}

#[repr(C)]
#[derive(Clone, Copy, Debug, Default, PartialEq, Eq)]
pub struct Request {
    pub context: u16,
    pub instruction: u8,
    pub reference: u8,
    pub room1: usize,
    pub room: usize,
    pub number: usize,
}

#[repr(C)]
#[derive(Clone, Copy, Debug, Default, PartialEq, Eq)]
pub struct Sent {
    pub refusal: u8,
    pub count: u8,
    pub length: u16,
}

/// The default is the empty part.
#[repr(C)]
#[derive(Clone, Copy, Debug, Default, PartialEq, Eq)]
pub struct Part {
    pub start: usize,
    pub length: usize,
    pub source: u8,
}

/// Column by column: row i is what each has at i.
#[repr(C)]
#[derive(Clone, Copy, Debug, PartialEq, Eq)]
pub struct Summary {
    /// 1 where the row is used, else 0.
    pub mark: [u64; ROWS],
    pub association: [u64; ROWS],
    /// In the order of `TOTALS`.
    pub totals: [[u64; ROWS]; TOTALS.len()],
}

impl Summary {
    /// No row is used.
    pub const EMPTY: Summary =
        Summary { mark: [0; ROWS], association: [0; ROWS], totals: [[0; ROWS]; TOTALS.len()] };
}
