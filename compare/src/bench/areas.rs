//! The table, the summary and the areas that the measured calls are given.

use crate::wire::Wire;
use model::*;

/// Contexts of one octet and of two, without addresses and with them.
pub const REGISTRY: [u8; 12] = [1, 0, 3, 2, 0, 4, 1, 1, 44, 2, 3, 232];
pub const CONTEXTS_1998: [u16; 2] = [3, 300];
pub const CONTEXTS_2000: [u16; 2] = [4, 1_000];
pub const TIMER: u32 = 1_000;
/// An association that has no sequence, and the one that has all of them.
pub const NOBODY: u16 = 9_999;
pub const EVERYBODY: u16 = 7;

pub struct Areas {
    pub summary: Summary,
    pub store: Vec<u8>,
    pub report: Vec<u8>,
}

impl Areas {
    /// With no used row.
    pub fn new() -> Self {
        Areas { summary: Summary::EMPTY, store: vec![0; STORE], report: vec![0; ARRIVAL] }
    }

    pub fn with(summary: Summary) -> Self {
        Areas { summary, ..Areas::new() }
    }
}

/// A sound table with so many sequences open, begun by first segments; references from 100 on. The
/// summary is what they have led to.
pub fn table(open: usize, association: impl Fn(usize) -> u16) -> (Table, Summary) {
    let Areas { mut summary, mut store, mut report } = Areas::new();
    let mut table = Unbroken::PLAIN.opening(&mut summary, &REGISTRY, TIMER, 0).table;
    for k in 0..open {
        let parameter = &other(k).octets();
        let arrival = Arrival { time: table.clock, association: association(k), parameter };
        let (store, report) = (&mut store, &mut report);
        let got = Unbroken::PLAIN.arrival(table, &mut summary, store, report, arrival);
        assert!(got.refusal == 0 && got.decision.kind == 1, "sequence {k} is not open");
        table = got.table;
    }
    (table, summary)
}

/// A row for each of these associations, after those that are used.
pub fn seated(mut summary: Summary, associations: impl IntoIterator<Item = u16>) -> Summary {
    for association in associations.into_iter().map(u64::from) {
        let rows = summary.mark.iter().zip(&summary.association);
        let row = rows.clone().position(|(mark, other)| *mark == 1 && *other == association);
        let row = row.or(summary.mark.iter().position(|mark| *mark == 0)).expect("a row");
        (summary.mark[row], summary.association[row]) = (1, association);
    }
    summary
}

/// The first segment of a sequence that stays open.
fn other(k: usize) -> Wire {
    let context = [3, 4, 300, 1_000][k % 4];
    let address = |length: usize| (0..length).map(|i| (16 * k + i) as u8).collect();
    Wire {
        context,
        instruction: (k % 4) as u8,
        new: true,
        remaining: (1 + k % 9) as u8,
        reference: Some((100 + k) as u8),
        addresses: CONTEXTS_2000.contains(&context).then(|| [address(7), address(5)]),
        information: vec![k as u8; 40],
        ..Wire::default()
    }
}
