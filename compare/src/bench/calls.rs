//! The other calls, each again and again on the same input.

use std::hint::black_box;

use super::areas::{self, Areas, REGISTRY, TIMER};
use super::rounds::Work;
use crate::random::Random;
use crate::side::Side;
use crate::wire::Wire;
use model::*;

/// Calls in one go: enough for the clock that times them.
const CALLS: usize = 200;

/// Who sends at a later time.
const LATER: u16 = 1;

pub struct Opening {
    summary: Summary,
}

impl Opening {
    pub fn new() -> Self {
        Opening { summary: Summary::EMPTY }
    }
}

impl Work for Opening {
    fn calls(&self) -> usize {
        1
    }

    fn go<S: Side>(&mut self, side: &S) {
        let summary = black_box(&mut self.summary);
        black_box(&side.opening(summary, black_box(&REGISTRY), TIMER, 0));
    }
}

pub struct Clock {
    table: Table,
    areas: Areas,
    time: u32,
}

impl Clock {
    pub fn new(open: usize, time: u32) -> Self {
        let (table, summary) = areas::table(open, |k| k as u16 % 3);
        Clock { table, areas: Areas::with(summary), time }
    }
}

impl Work for Clock {
    fn calls(&self) -> usize {
        CALLS
    }

    fn go<S: Side>(&mut self, side: &S) {
        for _ in 0..CALLS {
            let Areas { summary, report, .. } = black_box(&mut self.areas);
            let (table, time) = (*black_box(&self.table), black_box(self.time));
            black_box(&side.clock(table, summary, report, time));
        }
    }
}

pub struct Release {
    table: Table,
    areas: Areas,
    association: u16,
}

impl Release {
    pub fn new(open: usize, association: u16) -> Self {
        let (table, summary) = areas::table(open, |_| areas::EVERYBODY);
        Release { table, areas: Areas::with(summary), association }
    }
}

impl Work for Release {
    fn calls(&self) -> usize {
        CALLS
    }

    fn go<S: Side>(&mut self, side: &S) {
        for _ in 0..CALLS {
            let Areas { summary, report, .. } = black_box(&mut self.areas);
            let (table, association) = (*black_box(&self.table), black_box(self.association));
            black_box(&side.release(table, summary, report, association));
        }
    }
}

/// An unsegmented parameter for the last used row, or for the first where none is used; at the
/// table's own time.
pub struct Rows {
    table: Table,
    areas: Areas,
    parameter: Vec<u8>,
    association: u16,
    used: usize,
}

impl Rows {
    /// The associations are apart from each other, as lessees' are.
    pub fn new(used: usize) -> Self {
        let (table, summary) = areas::table(0, |_| 0);
        let association = |row: usize| 300 + 37 * row as u16;
        let summary = areas::seated(summary, (0..used).map(association));
        let alone = Wire { context: 3, new: true, information: vec![7; 40], ..Wire::default() };
        Rows {
            table,
            areas: Areas::with(summary),
            parameter: alone.octets(),
            association: association(used.saturating_sub(1)),
            used,
        }
    }
}

impl Work for Rows {
    fn calls(&self) -> usize {
        CALLS
    }

    fn go<S: Side>(&mut self, side: &S) {
        for _ in 0..CALLS {
            let Areas { summary, store, report } = black_box(&mut self.areas);
            let (table, parameter) = (*black_box(&self.table), black_box(&self.parameter));
            let (time, association) = (table.clock, self.association);
            let arrival = Arrival { time, association, parameter };
            black_box(&side.arrival(table, summary, store, report, arrival));
            if self.used == 0 {
                // The row that it has got.
                (summary.mark[0], summary.association[0]) = (0, 0);
                summary.totals.iter_mut().for_each(|column| column[0] = 0);
            }
        }
    }
}

/// An arrival at a later time than the table's own.
pub struct Later {
    table: Table,
    areas: Areas,
    time: u32,
    parameter: Vec<u8>,
}

impl Later {
    /// A step with none due, and an unsegmented parameter.
    pub fn idle(open: usize) -> Self {
        Later::new(open, 1, Wire { new: true, ..Wire::default() }, 0)
    }

    /// All the sequences of a full table are due, and a first segment is saved in a place of theirs.
    pub fn due() -> Self {
        let first = Wire { new: true, remaining: 1, reference: Some(5), ..Wire::default() };
        Later::new(PLACES, areas::TIMER, first, PLACES as u8)
    }

    fn new(open: usize, time: u32, wire: Wire, timeouts: u8) -> Self {
        let (table, summary) = areas::table(open, |k| k as u16 % 3);
        let mut areas = Areas::with(areas::seated(summary, [LATER]));
        let parameter = Wire { context: 3, information: vec![7; 40], ..wire }.octets();
        let arrival = Arrival { time, association: LATER, parameter: &parameter };
        let Areas { summary, store, report } = &mut areas;
        let got = Unbroken::PLAIN.arrival(table, summary, store, report, arrival);
        assert!((got.refusal, got.timeouts) == (0, timeouts), "not the arrival that it should be");
        Later { table, areas, time, parameter }
    }
}

impl Work for Later {
    fn calls(&self) -> usize {
        CALLS
    }

    fn go<S: Side>(&mut self, side: &S) {
        for _ in 0..CALLS {
            let Areas { summary, store, report } = black_box(&mut self.areas);
            let (table, parameter) = (*black_box(&self.table), black_box(&self.parameter));
            let arrival = Arrival { time: black_box(self.time), association: LATER, parameter };
            black_box(&side.arrival(table, summary, store, report, arrival));
        }
    }
}

pub struct Sending {
    table: Table,
    request: Request,
    addresses: [Vec<u8>; 2],
    data: Vec<u8>,
    count: usize,
    area: Vec<u8>,
}

impl Sending {
    /// A context of 2000 and 100 octets, which one parameter holds.
    pub fn whole(open: usize) -> Self {
        Sending::new(open, 4, [7, 5], 100, 255)
    }

    /// The longest data in the smallest rooms that hold it: every segment in turn.
    pub fn cut(open: usize) -> Self {
        Sending::new(open, 3, [0, 0], 2_048, 209)
    }

    fn new(open: usize, context: u16, lengths: [usize; 2], octets: usize, room: usize) -> Self {
        let mut random = Random::new(765);
        let addresses = lengths.map(|length| random.octets(length));
        let data = random.octets(octets);
        let (table, _) = areas::table(open, |k| k as u16 % 3);
        let request =
            Request { context, instruction: 1, reference: 5, room1: room, room, number: 0 };
        let mut area = vec![0; PARAMETER];
        let [origin, destination] = &addresses;
        let sent = Unbroken::PLAIN.sending(table, request, origin, destination, &data, &mut area);
        assert!(sent.refusal == 0, "nothing is sent: refusal {}", sent.refusal);
        Sending { table, request, addresses, data, count: sent.count.into(), area }
    }
}

impl Work for Sending {
    fn calls(&self) -> usize {
        CALLS
    }

    fn go<S: Side>(&mut self, side: &S) {
        let [origin, destination] = &self.addresses;
        for call in 0..CALLS {
            let request = black_box(Request { number: call % self.count, ..self.request });
            let table = *black_box(&self.table);
            let area = black_box(&mut self.area);
            let data = black_box(&self.data);
            black_box(&side.sending(table, request, origin, destination, data, area));
        }
    }
}

pub struct Delivery {
    decisions: [Decision; 2],
    parameter: Vec<u8>,
    areas: Areas,
}

impl Delivery {
    pub fn new() -> Self {
        let of_parameter = Decision { kind: 2, start: 4, length: 250, ..Decision::default() };
        let of_store = Decision { kind: 3, place: 9, length: 2_048, ..Decision::default() };
        let parameter = vec![0; 254];
        Delivery { decisions: [of_parameter, of_store], parameter, areas: Areas::new() }
    }
}

impl Work for Delivery {
    fn calls(&self) -> usize {
        // A call takes only some nanoseconds.
        50 * CALLS
    }

    fn go<S: Side>(&mut self, side: &S) {
        for call in 0..self.calls() {
            let decision = *black_box(&self.decisions[call % 2]);
            let (parameter, store) = (black_box(&self.parameter), black_box(&self.areas.store));
            black_box(&side.delivery(decision, parameter, store));
        }
    }
}
