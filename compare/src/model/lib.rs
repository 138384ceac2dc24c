//! The model: a second implementation of document 01 (01-scope.md) and of A1 to A3, A5 and A6 of
//! document 02 (02-change-requests.md), against which the proved library is compared call by call.
//!
//! Independence. It was written from document 01 and the team's readings of it (readings.md);
//! whoever wrote it did not read the library's rules, its code or its decisions. From the library
//! come the shapes of the calls (`shapes`) and what its C interface says beyond document 01: the
//! numbers of a decision, 16 for no place, an empty part as zeros. Two things were changed later by
//! one who had seen the library's documents and its profile, for measuring: `Machine` without
//! faults, and a trace that is replayed block by block (`trace`). No rule of a call was. What the
//! records program prints (`listing`) was added from its format by one who had read the library's
//! decisions, and not its rules or code. A1 (`summary`, and what the totals program prints) was
//! written from document 02 and the readings, by one who had read of the library its C header; and
//! so was A2 (refusal 23, in `segment`), when that header had nothing of it yet. A3 (the destination
//! in key, place, record and listing) was written from the same, the header having its shapes, before
//! there was a library that had it. A5 (a position with 5 to 9 and 23, and at the end of a segment's
//! line) was written from the same, before the header or a library had it: of its interface, only the
//! field and the number for none were known. A refusal with its position was put into four octets
//! later, for measuring. A6 (`arrival`, and the time in a trace's segment) was written from the same,
//! before the header or a library had it: of its interface, the arguments, the field for the clock's
//! records and the programs' lines were known.
//!
//! Style. Bits are first read into small types in which only what is good can be written: a
//! `Cursor` and `?` for the octets, `Turn` for octets 3 and 3a, `Line` for the receiving
//! rules. A call first works out its whole effect as a value and writes only then, so a refusal,
//! which is an `Err`, cannot have written anything.
//!
//! A `Fault` is there to show that the comparison can fail; `Model::PLAIN` has none.

mod arrival;
mod cursor;
mod delivery;
mod fault;
mod listing;
mod opening;
mod receiving;
mod record;
mod refusal;
mod segment;
mod sending;
mod shapes;
mod sound;
mod summary;
mod sweep;
#[cfg(test)]
mod tests;
mod trace;

pub use fault::Fault;
pub use refusal::Refusal;
pub use shapes::*;
pub use trace::{Output, Replay};

/// The calls of document 01 are its methods. One that is not breakable has no fault, and the
/// compiler leaves out whatever the faults need.
#[derive(Clone, Copy, Debug)]
pub struct Machine<const BREAKABLE: bool> {
    fault: Option<Fault>,
}

/// The model as it is compared.
pub type Model = Machine<true>;
/// The model as it is measured: questions about faults would slow it down.
pub type Unbroken = Machine<false>;

impl Model {
    /// A model that is wrong in one way.
    pub fn with(fault: Fault) -> Model {
        Machine { fault: Some(fault) }
    }
}

impl<const BREAKABLE: bool> Machine<BREAKABLE> {
    pub const PLAIN: Self = Machine { fault: None };

    fn fault(&self) -> Option<Fault> {
        self.fault.filter(|_| BREAKABLE)
    }

    fn broken(&self, fault: Fault) -> bool {
        self.fault() == Some(fault)
    }
}
