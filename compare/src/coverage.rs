//! What a run met, and whether it met enough.

use std::collections::BTreeMap;
use std::fmt;

use crate::arrivals::{self, Arrived, Reached};
use crate::cases::{self, Case, CLOCK_22};
use crate::destinations::{self, WAYS};
use crate::input::{Answer, Input, CALLS};
use crate::positions::{self, Blame};
use crate::summaries::{self, RULES as SUMMARY_RULES};
use crate::traces;
use crate::trips::Made;
use crate::unsound::RULES;
use model::*;

/// Of more kinds than this, only the rarest is shown.
const MOST_SHOWN: usize = RULES.len() + SUMMARY_RULES.len();

/// The refusals of each call, in its order.
const ORDERS: [&[u8]; 6] = [
    &[12, 11],
    &cases::ORDER,
    &[1, 3, 13, 22],
    &[1, 3, 22],
    &[],
    &[1, 8, 14, 9, 15, 17, 16, 18, 19, 20],
];

/// Pairs of refusals that cannot hold at once: those of an arrival, and in sending a context that is
/// not registered is not one of 1998. A padded context can come with any of the others.
fn apart(call: usize, first: u8, second: u8) -> bool {
    match call {
        1 => cases::NEVER.contains(&(first, second)),
        5 => (first, second) == (8, 15),
        _ => false,
    }
}

/// What a call does to a summary.
const ROWS_MET: [&str; 7] = [
    "association 0 gains",
    "first row of an association",
    "first row, between used ones",
    "total becomes 2^63",
    "total past 2^63 stays beside one that grows",
    "losses refused only together",
    "segment refused only with its clock's losses",
];

/// The forms of a context, and what becomes of them.
const FORMS: [&str; 6] = [
    "accepted in one octet",
    "accepted in two",
    "23, registered",
    "23, not registered",
    "23, context 0",
    "6 at octet 1a with a zero upper part",
];

/// What becomes of a segment while a sequence is open that differs in the destination alone.
const BESIDE: [&str; 4] =
    ["begun", "lost, cause 1", "lost, cause 4, not open", "of one that is open"];

/// The addresses of records.
const RECORDED: [&str; 5] =
    ["none", "origin alone", "destination alone", "both the same", "both, different"];

/// Reports that are refused by 3.
const SHORT: [&str; 5] = [
    "arrival's, one octet short",
    "arrival's, as a clock's",
    "arrival's, as a segment's before A6",
    "clock's or release's, one octet short",
    "clock's or release's, as before A3",
];

/// The refusals that the headers from end to end lead to.
const OF_HEADERS: [u8; 7] = [0, 5, 6, 7, 8, 9, 23];

const LINES: [&str; 10] = [
    "unsegmented",
    "1 (open)",
    "1 (not open)",
    "2",
    "3",
    "4",
    "5",
    "6",
    "7 (delivered)",
    "7 (saved)",
];

/// The refusals that a trace can lead to: its areas and parameters are never too short or long.
const IN_TRACES: [u8; 13] = [0, 1, 5, 6, 7, 8, 9, 10, 11, 12, 13, 21, 23];

/// The positions at the ends of segments' lines. After that of the origin's length, they are later.
const PLACED: [&str; 25] = [
    "5 at 0", "5 at 1", "5 at 2", "5 at 3", "5 at 4", "5 at 5", "5 later", "6 at 1", "6 at 2",
    "6 at 3", "6 at 4", "23 at 1", "7 at 2", "7 at 3", "8 at 0", "8 at 1", "9 at 3", "9 at 4",
    "9 at 5", "9 later", "0 at -", "1 at -", "10 at -", "13 at -", "21 at -",
];

/// Segments in traces, by how many sequences they time out.
const TIMED: [&str; 6] =
    ["taken, none", "taken, 1", "taken, more", "refused, none", "refused, 1", "refused, more"];

/// What the records program tells under the lines of the events, and after them.
const UNDER: [&str; 4] = ["delivered", "lost", "dropped", "held"];

/// What the same lines say of a destination.
const TOLD: [&str; 3] = ["none", "that of the origin", "another"];

/// Records in a trace at which it stops.
const STOPS: [u8; 4] = [16, 17, 18, 19];

/// By who cuts; and the segments on the way that were first tried with their contexts padded, that
/// came beside a sequence that differs in the destination alone, or later than what was before, and
/// the sequences of others that were timed out.
const TRIPS: [&str; 6] = [
    "cut by the model",
    "cut by the library",
    "segments turned away padded",
    "segments beside another destination's",
    "segments at a later time",
    "others timed out on the way",
];

/// The used rows that an opening comes to.
const OPENINGS: [&str; 4] = ["refused", "none", "1 to 63", "64"];

/// Counters that are shown and checked together.
struct Tally {
    title: String,
    names: Vec<String>,
    met: Vec<u64>,
    /// Met more seldom than the others, by this factor.
    seldom: u64,
}

impl Tally {
    fn new<T: ToString>(title: &str, names: impl IntoIterator<Item = T>) -> Tally {
        let names: Vec<String> = names.into_iter().map(|name| name.to_string()).collect();
        Tally { title: title.to_string(), met: vec![0; names.len()], names, seldom: 1 }
    }

    fn seldom<T: ToString>(title: &str, names: impl IntoIterator<Item = T>) -> Tally {
        Tally { seldom: 10, ..Tally::new(title, names) }
    }

    /// Of which each has to be met once, however many calls there are.
    fn once<T: ToString>(title: &str, names: impl IntoIterator<Item = T>) -> Tally {
        Tally { seldom: u64::MAX, ..Tally::new(title, names) }
    }

    fn add(&mut self, index: usize, times: u64) {
        self.met[index] += times;
    }

    fn add_named(&mut self, name: &str) {
        self.add_times(name, 1);
    }

    fn add_times(&mut self, name: &str, times: u64) {
        let index = self.names.iter().position(|other| other == name);
        self.add(index.expect("a name of this tally"), times);
    }

    fn sum(&self) -> u64 {
        self.met.iter().sum()
    }

    fn missing(&self, least: u64) -> impl Iterator<Item = String> + '_ {
        let least = least.div_ceil(self.seldom);
        let counters = self.names.iter().zip(&self.met).filter(move |(_, met)| **met < least);
        counters.map(move |(name, met)| format!("{}: {name}: {met} of {least}", self.title))
    }
}

impl fmt::Display for Tally {
    fn fmt(&self, f: &mut fmt::Formatter) -> fmt::Result {
        if self.names.len() > MOST_SHOWN {
            let rarest = self.met.iter().min().unwrap_or(&0);
            return writeln!(f, "{}: {} kinds, the rarest {rarest}", self.title, self.met.len());
        }
        let counters = self.names.iter().zip(&self.met);
        let list: Vec<String> = counters.map(|(name, met)| format!("{name}: {met}")).collect();
        writeln!(f, "{}: {}", self.title, list.join("; "))
    }
}

pub struct Coverage {
    calls: Tally,
    refusals: [Tally; 6],
    pairs: [Tally; 6],
    lines: Tally,
    causes: Tally,
    rules: Tally,
    rows: Tally,
    forms: Tally,
    blames: Tally,
    beside: Tally,
    recorded: Tally,
    short: Tally,
    arrivals: Tally,
    standing: Tally,
    parts: Tally,
    counts: Tally,
    lengths: Tally,
    trace_lines: Tally,
    trace_positions: Tally,
    trace_ends: Tally,
    trace_records: Tally,
    trace_openings: Tally,
    trace_destinations: Tally,
    trace_stops: Tally,
    trace_timeouts: Tally,
    trips: Tally,
    trip_counts: Tally,
    headers: Tally,
    all_blames: Tally,
    exhaustive: u64,
}

fn refusals(call: usize) -> Tally {
    let numbers = ORDERS[call].iter().map(|number| condition(*number));
    let title = format!("refusals of {}", CALLS[call]);
    Tally::new(&title, std::iter::once("none".to_string()).chain(numbers))
}

/// A refusal's number; in an arrival there are two of 22.
fn condition(number: u8) -> String {
    match number {
        CLOCK_22 => "the clock's 22".to_string(),
        _ => number.to_string(),
    }
}

fn pair(first: u8, second: u8) -> String {
    format!("{} and {}", condition(first), condition(second))
}

fn pairs(call: usize) -> Tally {
    let order = ORDERS[call].iter().enumerate();
    let pairs = order.flat_map(|(i, first)| {
        let later = ORDERS[call][i + 1..].iter();
        later
            .filter(move |second| !apart(call, *first, **second))
            .map(move |second| pair(*first, *second))
    });
    Tally::seldom(&format!("pairs of refusals of {}", CALLS[call]), pairs)
}

fn besides() -> impl Iterator<Item = String> {
    BESIDE.iter().flat_map(|what| WAYS.iter().map(move |way| format!("{what}, {way}")))
}

/// The octets that can be at fault, in short.
fn blames() -> Vec<String> {
    let mut names: Vec<String> = positions::all().map(|blame| blame.short_name()).collect();
    names.dedup();
    names
}

impl Coverage {
    pub fn new() -> Coverage {
        Coverage {
            calls: Tally::new("calls", CALLS),
            refusals: std::array::from_fn(refusals),
            pairs: std::array::from_fn(pairs),
            lines: Tally::new("receiving lines", LINES),
            causes: Tally::new("causes", 1..=7),
            rules: Tally::new("unsound tables and summaries", RULES.iter().chain(&SUMMARY_RULES)),
            rows: Tally::new("rows of summaries", ROWS_MET),
            forms: Tally::new("contexts by their octets", FORMS),
            blames: Tally::seldom("octets at fault", blames()),
            beside: Tally::new("segments beside another destination's sequence", besides()),
            recorded: Tally::new("addresses in records", RECORDED),
            short: Tally::new("reports refused", SHORT),
            arrivals: Tally::new("arrivals", arrivals::SITUATIONS),
            standing: Tally::new("refused while the clock's work stands", arrivals::standing()),
            parts: Tally::new("deliveries", ["empty", "of the parameter", "of the store"]),
            counts: Tally::new("sent, by count of segments", 1..=SEGMENTS),
            lengths: Tally::seldom("lengths of parameters", (0..=256).chain([257, 300])),
            trace_lines: Tally::seldom("lines of traces by refusal", IN_TRACES),
            trace_positions: Tally::seldom("positions in lines of traces", PLACED),
            trace_ends: Tally::seldom("traces", ["to the end", "stopped"]),
            trace_records: Tally::seldom("lines under events, by name", UNDER),
            trace_openings: Tally::seldom("openings, by their used rows", OPENINGS),
            trace_destinations: Tally::seldom("destinations in lines under events", TOLD),
            trace_stops: Tally::seldom("stops at records, by kind", STOPS),
            trace_timeouts: Tally::seldom("segments of traces, by what is timed out", TIMED),
            trips: Tally::new("round trips", TRIPS),
            trip_counts: Tally::new("round trips, by count of segments", 1..=SEGMENTS),
            headers: Tally::new("headers from end to end, by refusal", OF_HEADERS),
            all_blames: Tally::once(
                "octets at fault from end to end, by position",
                positions::all().map(|blame| blame.name()),
            ),
            exhaustive: 0,
        }
    }

    fn of_calls(&self) -> impl Iterator<Item = &Tally> {
        let rest = [
            &self.lines,
            &self.causes,
            &self.parts,
            &self.rules,
            &self.rows,
            &self.forms,
            &self.blames,
            &self.beside,
            &self.recorded,
            &self.short,
            &self.arrivals,
            &self.standing,
            &self.counts,
            &self.lengths,
        ];
        let calls = std::iter::once(&self.calls).chain(&self.refusals).chain(&self.pairs);
        let whole = [&self.headers, &self.all_blames].into_iter().filter(|_| self.exhaustive > 0);
        calls.chain(rest).chain([&self.trips, &self.trip_counts]).chain(whole)
    }

    fn of_traces(&self) -> impl Iterator<Item = &Tally> {
        let records = [&self.trace_records, &self.trace_destinations, &self.trace_openings];
        let lines = [&self.trace_lines, &self.trace_positions, &self.trace_timeouts];
        let ends = [&self.trace_ends, &self.trace_stops];
        lines.into_iter().chain(ends).chain(records)
    }

    pub fn calls(&self) -> u64 {
        self.calls.sum()
    }

    pub fn traces(&self) -> u64 {
        self.trace_ends.sum()
    }

    /// What was met less often than `least`, of what was tried at all.
    pub fn missing(&self, least: u64) -> Vec<String> {
        let calls = self.of_calls().filter(|_| self.calls() > 0);
        let traces = self.of_traces().filter(|_| self.traces() > 0);
        calls.chain(traces).flat_map(|tally| tally.missing(least)).collect()
    }
}

impl fmt::Display for Coverage {
    fn fmt(&self, f: &mut fmt::Formatter) -> fmt::Result {
        if self.calls() > 0 {
            writeln!(f, "{} calls and {} more from end to end", self.calls(), self.exhaustive)?;
            self.of_calls()
                .filter(|tally| !tally.names.is_empty())
                .try_for_each(|tally| write!(f, "{tally}"))?;
        }
        if self.traces() > 0 {
            writeln!(f, "{} traces with {} lines", self.traces(), self.trace_lines.sum())?;
            self.of_traces().try_for_each(|tally| write!(f, "{tally}"))?;
        }
        Ok(())
    }
}

impl Coverage {
    /// The summary and the report are as the call left them.
    pub fn count(&mut self, case: &Case, answer: &Answer, summary: &Summary, report: &[u8]) {
        let call = case.input.call();
        let arrived = arrivals::arrived(&case.input, answer);
        let early = arrived.as_ref().is_some_and(|it| it.reached() == Reached::Nothing);
        let refusal = match answer.refusal() {
            22 if early => CLOCK_22,
            number => number,
        };
        let number = ORDERS[call].iter().position(|number| *number == refusal);
        self.calls.add(call, 1);
        self.refusals[call].add(number.map_or(0, |index| index + 1), 1);
        for (i, first) in case.held.iter().enumerate() {
            let later = case.held[i + 1..].iter();
            later.for_each(|second| self.pairs[call].add_named(&pair(*first, *second)));
        }
        if let Some(rule) = case.rule {
            self.rules.add(rule, 1);
        }
        if case.together && matches!(refusal, 22 | CLOCK_22) {
            self.rows.add(if call == 1 && refusal == 22 { 6 } else { 5 }, 1);
        }
        if let Some(before) = case.input.summary().filter(|_| call > 0 && answer.refusal() == 0) {
            self.rows(before, summary);
        }
        if answer.refusal() == 3 {
            self.short(&case.input);
        }
        match &arrived {
            Some(arrived) => self.arrived(arrived, report),
            None => self.answered(&case.input, answer, report),
        }
    }

    /// What came of an arrival.
    fn arrived(&mut self, arrived: &Arrived, report: &[u8]) {
        let Received { refusal, records, timeouts, .. } = *arrived.received;
        let parameter = arrived.arrival.parameter;
        self.lengths.add(parameter.len().min(258), 1);
        self.form(arrived.before, parameter, refusal);
        let blame = positions::blame(arrived.before, parameter).filter(|_| arrived.read());
        blame.iter().for_each(|blame| self.blames.add_named(&blame.short_name()));
        arrived.situations().iter().for_each(|name| self.arrivals.add_named(name));
        arrived.beside().iter().for_each(|name| self.standing.add_named(name));
        self.causes.add(5, timeouts.into());
        self.recorded(report, records);
        if refusal == 0 {
            self.received(arrived);
            self.beside(arrived);
            self.part(arrived.part);
        }
    }

    /// What came of another call.
    fn answered(&mut self, input: &Input, answer: &Answer, report: &[u8]) {
        match answer {
            Answer::Swept(swept) => {
                let cause = if input.call() == 2 { 6 } else { 7 };
                self.causes.add(cause - 1, swept.records.into());
                self.recorded(report, swept.records);
            }
            Answer::Part(part) => self.part(*part),
            Answer::Sent(sent) if sent.refusal == 0 => {
                self.counts.add(usize::from(sent.count) - 1, 1)
            }
            _ => {}
        }
    }

    /// The rows that a call has changed.
    fn rows(&mut self, before: &Summary, after: &Summary) {
        for row in 0..ROWS {
            let [old, new] = [before, after].map(|summary| summaries::numbers(summary, row));
            if old == new {
                continue;
            }
            let grown = |at: usize| old[at] < new[at];
            let mut totals = 2..old.len();
            let met = [
                new[1] == 0,
                grown(0),
                grown(0) && after.mark[row + 1..].contains(&1),
                totals.clone().any(|at| grown(at) && new[at] == TOTAL_MOST),
                totals.any(|at| !grown(at) && new[at] > TOTAL_MOST),
            ];
            met.iter().enumerate().for_each(|(at, met)| self.rows.add(at, (*met).into()));
        }
    }

    /// Which form the context has, and what became of it.
    fn form(&mut self, table: &Table, parameter: &[u8], refusal: u8) {
        let registered = |context: u8| {
            let context = u16::from(context);
            table.registry.iter().any(|entry| entry.kind != 0 && entry.context == context)
        };
        let index = match (refusal, parameter) {
            (0, [0x80..=0xff, ..]) => 0,
            (0, _) => 1,
            (23, [0, ..]) => 4,
            (23, [low, ..]) if registered(*low) => 2,
            (23, _) => 3,
            (6, [..=0x7f, 0, ..]) => 5,
            _ => return,
        };
        self.forms.add(index, 1);
    }

    /// Which other destinations were open beside the segment's, and what became of it.
    fn beside(&mut self, arrived: &Arrived) {
        let Arrival { association, parameter, .. } = arrived.arrival;
        let table = arrived.met();
        let Some(key) = destinations::key(table, association, parameter) else { return };
        let Decision { kind, cause, place, .. } = arrived.received.decision;
        let what = match (kind, cause) {
            (1, _) if arrived.begun().is_some() => 0,
            (4, 1) => 1,
            (4, 4) if place == PLACES => 2,
            _ => 3,
        };
        for way in destinations::beside(table, &key) {
            self.beside.add(what * WAYS.len() + way, 1);
        }
    }

    fn recorded(&mut self, report: &[u8], records: u8) {
        for record in report.chunks(RECORD).take(records.into()) {
            let (origin, destination) = record[ORIGIN_AT..].split_at(DESTINATION_AT - ORIGIN_AT);
            let index = match (origin[0], destination[0]) {
                (0, 0) => 0,
                (_, 0) => 1,
                (0, _) => 2,
                _ if origin == destination => 3,
                _ => 4,
            };
            self.recorded.add(index, 1);
        }
    }

    /// A report that was refused, at the limits.
    fn short(&mut self, input: &Input) {
        let lengths = match input {
            Input::Arrival { report, .. } => [ARRIVAL - 1, SWEEP, RECORD].map(|at| *report == at),
            Input::Clock { report, .. } | Input::Release { report, .. } => {
                [*report == SWEEP - 1, *report == OLD_SWEEP, false]
            }
            _ => return,
        };
        let first = if input.call() == 1 { 0 } else { 3 };
        let met = lengths.iter().position(|met| *met);
        met.iter().for_each(|at| self.short.add(first + at, 1));
    }

    fn part(&mut self, part: Part) {
        let index = match part {
            Part { length: 0, .. } => 0,
            Part { source: 0, .. } => 1,
            _ => 2,
        };
        self.parts.add(index, 1);
    }

    fn received(&mut self, arrived: &Arrived) {
        let Decision { kind, cause, place, .. } = arrived.received.decision;
        let line = match (kind, cause) {
            (1, _) if arrived.begun().is_some() => "3",
            (1, _) => "7 (saved)",
            (2, _) => "unsegmented",
            (3, _) => "7 (delivered)",
            (_, 4) if place < PLACES => "1 (open)",
            (_, 4) => "1 (not open)",
            (_, 3) => "2",
            (_, 1) => "4",
            (_, 2) => "5",
            _ => "6",
        };
        self.lines.add_named(line);
        if kind == 4 {
            self.causes.add(usize::from(cause) - 1, 1);
        }
    }

    /// The texts of the replay program, of the records program and of the totals program, and the
    /// kind of a record that the trace stopped at.
    pub fn count_trace(&mut self, [text, records, totals]: &[String; 3], unknown: Option<u8>) {
        if let Some(kind) = unknown {
            self.trace_stops.add_named(&kind.to_string());
        }
        for (heading, rows) in traces::openings(totals) {
            let index = match rows.len() {
                _ if !heading.ends_with(" 0") => 0,
                0 => 1,
                1..=63 => 2,
                _ => 3,
            };
            self.trace_openings.add(index, 1);
        }
        records.lines().for_each(|line| self.under(line));
        text.lines().for_each(|line| self.placed(line));
        let refusals = text.lines().filter_map(|line| line.split(' ').nth(1));
        refusals.for_each(|refusal| self.trace_lines.add_named(refusal));
        self.trace_ends.add(usize::from(text.ends_with("stop\n")), 1);
    }

    /// A line of the replay program, if it is a segment's.
    fn placed(&mut self, line: &str) {
        let words: Vec<&str> = line.split(' ').collect();
        let ["segment", refusal, .., position] = words[..] else { return };
        let late = position.parse().is_ok_and(|position: usize| position > 5);
        match late {
            true => self.trace_positions.add_named(&format!("{refusal} later")),
            false => self.trace_positions.add_named(&format!("{refusal} at {position}")),
        }
    }

    /// A line of the records program, if it is a segment's or one under an event.
    fn under(&mut self, line: &str) {
        let words: Vec<&str> = line.split(' ').collect();
        if let ["segment", refusal, _, _, _, _, _, timeouts, ..] = words[..] {
            let first = if refusal == "0" { 0 } else { 3 };
            self.trace_timeouts.add(first + timeouts.parse().unwrap_or(0).min(2), 1);
        }
        let [name, .., origin, destination] = words[..] else { return };
        if UNDER.contains(&name) {
            self.trace_records.add_named(name);
            let told = if destination == "-" { 0 } else { 1 + usize::from(origin != destination) };
            self.trace_destinations.add(told, 1);
        }
    }

    pub fn count_trip(&mut self, direction: usize, made: &Made) {
        self.trips.add(direction, 1);
        self.trips.add(2, made.turned_away);
        self.trips.add(3, made.beside);
        self.trips.add(4, made.later);
        self.trips.add(5, made.timed_out);
        made.counts.iter().for_each(|count| self.trip_counts.add(count - 1, 1));
    }

    /// All the calls from end to end, the headers among them by their refusals, and the octets that
    /// were at fault.
    pub fn count_exhaustive(
        &mut self,
        calls: u64,
        refusals: &[u64],
        blames: &BTreeMap<Blame, u64>,
    ) {
        self.exhaustive = calls;
        blames.iter().for_each(|(blame, met)| self.all_blames.add_times(&blame.name(), *met));
        for (index, refusal) in OF_HEADERS.iter().enumerate() {
            self.headers.add(index, refusals[usize::from(*refusal)]);
        }
    }
}
