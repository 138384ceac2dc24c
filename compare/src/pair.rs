//! One input to both sides, and everything they leave behind compared.

use crate::input::{hex, Answer, Input};
use crate::random::Random;
use crate::side::Side;
use crate::{arrivals, billed, contexts, destinations, positions, summaries};
use model::{Arrival, Summary, ARRIVAL, ROWS};

/// Octets before and after each lent area, which no call may write.
const GUARD: usize = 64;
const LONGEST_STORE: usize = 36_864;
pub const LONGEST_REPORT: usize = ARRIVAL + GUARD;
const LONGEST_AREA: usize = 384;

/// A summary between guards of its own.
#[derive(Clone, Copy, PartialEq, Eq)]
#[repr(C)]
struct Guarded {
    before: [u64; GUARD / 8],
    summary: Summary,
    after: [u64; GUARD / 8],
}

/// What one side is lent.
struct Lent {
    summary: Box<Guarded>,
    store: Vec<u8>,
    report: Vec<u8>,
    area: Vec<u8>,
}

pub struct Pair<'a> {
    /// The model, then the side it is compared with.
    pub sides: [&'a dyn Side; 2],
    lent: [Lent; 2],
    noise: Vec<u8>,
    /// Where in the noise the last call's report is from.
    start: usize,
}

impl<'a> Pair<'a> {
    pub fn new(sides: [&'a dyn Side; 2], random: &mut Random) -> Self {
        let store = random.octets(LONGEST_STORE + 2 * GUARD);
        let guard = [0; GUARD / 8];
        let lent = || Lent {
            summary: Box::new(Guarded { before: guard, summary: Summary::EMPTY, after: guard }),
            store: store.clone(),
            report: vec![0; LONGEST_REPORT + 2 * GUARD],
            area: vec![0; LONGEST_AREA + 2 * GUARD],
        };
        Pair { sides, lent: [lent(), lent()], noise: random.octets(1 << 16), start: 0 }
    }

    /// The answer both sides gave, or what differs.
    pub fn run(&mut self, input: &Input, random: &mut Random) -> Result<Answer, String> {
        self.refill(random);
        self.lend(input.summary(), random);
        let [left, right] = &mut self.lent;
        let answers = [left.call(self.sides[0], input), right.call(self.sides[1], input)];
        let same = answers[0] == answers[1]
            && self.lent[0].summary == self.lent[1].summary
            && self.lent[0].store == self.lent[1].store
            && self.lent[0].report == self.lent[1].report
            && self.lent[0].area == self.lent[1].area;
        if same {
            Ok(answers[1])
        } else {
            Err(self.difference(input, answers))
        }
    }

    /// New contents for the short areas, so that a stray write is seen.
    fn refill(&mut self, random: &mut Random) {
        let Lent { report, area, .. } = &self.lent[0];
        let start = random.below(self.noise.len() - report.len() - area.len());
        let (report, area) = (start + report.len(), start + report.len() + area.len());
        for lent in &mut self.lent {
            lent.report.copy_from_slice(&self.noise[start..report]);
            lent.area.copy_from_slice(&self.noise[report..area]);
        }
        self.start = start;
    }

    /// The summary as it comes, and new guards. A call that is not given one gets none to change.
    fn lend(&mut self, summary: Option<&Summary>, random: &mut Random) {
        let (before, after) = (random.next(), random.next());
        for Lent { summary: guarded, .. } in &mut self.lent {
            (guarded.before, guarded.after) = ([before; GUARD / 8], [after; GUARD / 8]);
            if let Some(summary) = summary {
                guarded.summary = *summary;
            }
        }
    }

    /// The answer that both sides gave to the last call, by the rules of the requests.
    pub fn judge(&self, input: &Input, answer: &Answer) -> Result<(), String> {
        let (summary, report) = (self.summary(), self.report());
        let report_before = &self.report_before()[GUARD..];
        let left = arrivals::Left { summary, report, report_before };
        let arrived = arrivals::arrived(input, answer);
        let wrong = match &arrived {
            Some(arrived) => arrivals::wrong(arrived, &left)
                .or_else(|| contexts::wrong(arrived, report))
                .or_else(|| positions::wrong(arrived))
                .or_else(|| destinations::wrong(arrived, report)),
            None => destinations::swept_wrong(input, answer, report),
        };
        let wrong =
            wrong.or_else(|| billed::wrong(input, answer, arrived.as_ref(), summary, report));
        match wrong {
            None => Ok(()),
            Some(wrong) => Err(format!("{input}{wrong}")),
        }
    }

    /// What the last call left of the summary.
    pub fn summary(&self) -> &Summary {
        &self.lent[1].summary.summary
    }

    /// And of the report.
    pub fn report(&self) -> &[u8] {
        &self.lent[1].report[GUARD..]
    }

    /// The report with its guards as the last call found it.
    fn report_before(&self) -> &[u8] {
        &self.noise[self.start..][..self.lent[1].report.len()]
    }

    fn difference(&self, input: &Input, answers: [Answer; 2]) -> String {
        let [left, right] = &self.lent;
        let mut text = format!("{input}model answers:   {}\n", answers[0]);
        text += &format!("library answers: {}\n", answers[1]);
        let areas = [("store", &left.store, &right.store), ("area", &left.area, &right.area)];
        text += &summary_difference(&left.summary, &right.summary);
        for (name, left, right) in areas {
            text += &octets_difference(name, left, right);
        }
        if left.report != right.report {
            text += &format!("report before:   {}\n", hex(self.report_before()));
            text += &format!("report, model:   {}\n", hex(&left.report));
            text += &format!("report, library: {}\n", hex(&right.report));
        }
        text
    }
}

/// The stretch of an area in which the two sides differ.
fn octets_difference(name: &str, left: &[u8], right: &[u8]) -> String {
    let differs = |(a, b): (&u8, &u8)| a != b;
    let Some(first) = left.iter().zip(right).position(differs) else { return String::new() };
    let last = left.iter().zip(right).rposition(differs).unwrap_or(first);
    let (model, library) = (hex(&left[first..=last]), hex(&right[first..=last]));
    let at = first as i64 - GUARD as i64;
    format!("{name} differs from octet {at} on:\n  model:   {model}\n  library: {library}\n")
}

/// The rows in which the two sides differ.
fn summary_difference(left: &Guarded, right: &Guarded) -> String {
    let mut text = String::new();
    for row in 0..ROWS {
        let [model, library] = [left, right].map(|side| summaries::numbers(&side.summary, row));
        if model != library {
            text += &format!("row {row} differs:\n  model:   {model:?}\n  library: {library:?}\n");
        }
    }
    if (left.before, left.after) != (right.before, right.after) {
        text += "a number beside the summary differs\n";
    }
    text
}

impl Lent {
    fn call(&mut self, side: &dyn Side, input: &Input) -> Answer {
        let Lent { summary, store, report, area } = self;
        let (summary, store) = (&mut summary.summary, &mut store[GUARD..]);
        let (report, area) = (&mut report[GUARD..], &mut area[GUARD..]);
        match input {
            Input::Opening { registry, timer, clock, .. } => {
                Answer::Opened(side.opening(summary, registry, *timer, *clock))
            }
            Input::Arrival {
                table,
                store: length,
                report: room,
                time,
                association,
                parameter,
                ..
            } => {
                let (store, report) = (&mut store[..*length], &mut report[..*room]);
                let arrival = Arrival { time: *time, association: *association, parameter };
                let got = side.arrival(*table, summary, store, report, arrival);
                Answer::Received(got, side.delivery(got.decision, parameter, store))
            }
            Input::Clock { table, report: room, time, .. } => {
                Answer::Swept(side.clock(*table, summary, &mut report[..*room], *time))
            }
            Input::Release { table, report: room, association, .. } => {
                Answer::Swept(side.release(*table, summary, &mut report[..*room], *association))
            }
            Input::Delivery { decision, parameter, store: length } => {
                Answer::Part(side.delivery(*decision, parameter, &store[..*length]))
            }
            Input::Sending { table, request, origin, destination, data, area: room } => {
                let area = &mut area[..*room];
                Answer::Sent(side.sending(*table, *request, origin, destination, data, area))
            }
        }
    }
}
