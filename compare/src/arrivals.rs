//! What an arrival has to lead to, whatever both sides say: A6 of document 02. Its clock's work is
//! worked out here once more, apart from both sides, and so is the table that its segment meets.

use crate::destinations;
use crate::input::{Answer, Input};
use crate::summaries::{self, Gain};
use model::*;

/// The clock's work of a good step.
pub struct Clocked {
    /// The table as it leaves it.
    pub table: Table,
    /// The places that end, as they were, in place order.
    pub ended: Vec<Place>,
}

/// Ticks from one time to another, on a clock that runs round.
pub fn ticks(from: u32, to: u32) -> u64 {
    (u64::from(to) + (1 << 32) - u64::from(from)) % (1 << 32)
}

/// None where the step is refused.
pub fn clocked(table: &Table, time: u32) -> Option<Clocked> {
    let due =
        |place: &&mut Place| place.mark == 1 && ticks(place.start, time) >= u64::from(table.timer);
    let mut after = Table { clock: time, ..*table };
    let ended = after.places.iter_mut().filter(due).map(std::mem::take).collect();
    (ticks(table.clock, time) < 1 << 31).then_some(Clocked { table: after, ended })
}

impl Clocked {
    /// Each association that loses something, with what one place costs it.
    pub fn gains(&self) -> Vec<(u16, Gain)> {
        let gain = |place: &Place| {
            let (segments, octets) = (place.segments.into(), place.octets.into());
            (place.key.association, [0, 0, 0, 0, segments, octets])
        };
        self.ended.iter().map(gain).collect()
    }

    /// What one association loses in all.
    pub fn lost_by(&self, association: u16) -> Gain {
        let own = self.gains().into_iter().filter(|(who, _)| *who == association);
        summaries::sum(&own.map(|(_, gain)| gain).collect::<Vec<_>>())
    }

    /// Whether a total would be over 2^63 by it.
    fn too_large(&self, summary: &Summary) -> bool {
        self.ended.iter().any(|place| {
            let association = place.key.association;
            let over = |row: usize| passes(summary, row, &self.lost_by(association));
            summaries::row_of(summary, association).is_some_and(over)
        })
    }

    fn records(&self) -> Vec<u8> {
        self.ended.iter().flat_map(timeout).collect()
    }

    /// A report of zeros after it, and after a record of the segment's own.
    pub fn report(&self, own: &[u8]) -> Vec<u8> {
        let mut report = [&self.records(), own].concat();
        report.resize(ARRIVAL, 0);
        report
    }
}

/// Whether a row's totals cannot take this.
fn passes(summary: &Summary, row: usize, gain: &Gain) -> bool {
    let after = |at: usize| u128::from(summary.totals[at][row]) + u128::from(gain[at]);
    (0..gain.len()).any(|at| gain[at] > 0 && after(at) > 1 << 63)
}

/// The record of a sequence that was timed out, octet by octet from the documents' tables.
fn timeout(place: &Place) -> Vec<u8> {
    let Key { association, context, origin, destination, reference } = place.key;
    let mut record = vec![19];
    record.extend(association.to_be_bytes());
    record.extend(context.to_be_bytes());
    record.extend([reference, place.instruction, 6, place.segments]);
    record.extend(place.octets.to_be_bytes());
    for address in [origin, destination] {
        record.push(address.length);
        record.extend(address.octets);
    }
    record
}

/// An arrival that was answered.
pub struct Arrived<'a> {
    pub before: &'a Table,
    pub arrival: Arrival<'a>,
    pub received: &'a Received,
    pub part: Part,
    pub clocked: Option<Clocked>,
    summary: &'a Summary,
    store: usize,
    report: usize,
}

/// How far an arrival came.
#[derive(Clone, Copy, Debug, PartialEq, Eq)]
pub enum Reached {
    /// Refused before its segment was looked at: nothing is done.
    Nothing,
    /// Its segment was refused by 22: nothing is done either.
    Undone,
    /// Its segment was refused otherwise: the clock's work stands.
    Clock,
    Both,
}

/// None for another call.
pub fn arrived<'a>(input: &'a Input, answer: &'a Answer) -> Option<Arrived<'a>> {
    let Answer::Received(received, part) = answer else { return None };
    let Input::Arrival { table, summary, store, report, time, association, parameter } = input
    else {
        return None;
    };
    Some(Arrived {
        before: table,
        arrival: Arrival { time: *time, association: *association, parameter },
        received,
        part: *part,
        clocked: clocked(table, *time),
        summary,
        store: *store,
        report: *report,
    })
}

/// What a call left: the summary, and the report from its first octet on, as it was too.
pub struct Left<'a> {
    pub summary: &'a Summary,
    pub report: &'a [u8],
    pub report_before: &'a [u8],
}

impl Arrived<'_> {
    pub fn reached(&self) -> Reached {
        let too_large = || self.clocked.as_ref().is_some_and(|c| c.too_large(self.summary));
        match self.received.refusal {
            0 => Reached::Both,
            1 | 2 | 3 | 13 => Reached::Nothing,
            22 if too_large() => Reached::Nothing,
            22 => Reached::Undone,
            _ => Reached::Clock,
        }
    }

    /// Whether the octets of the parameter were looked at.
    pub fn read(&self) -> bool {
        self.reached() != Reached::Nothing && self.received.refusal != 4
    }

    /// The table that the segment met.
    pub fn met(&self) -> &Table {
        self.clocked.as_ref().map_or(self.before, |clocked| &clocked.table)
    }

    /// The segment's own record, if it has one, and what follows it.
    pub fn own<'r>(&self, report: &'r [u8]) -> &'r [u8] {
        &report[RECORD * usize::from(self.received.timeouts)..]
    }

    /// How many records are the segment's.
    pub fn own_records(&self) -> u8 {
        self.received.records.saturating_sub(self.received.timeouts)
    }

    /// The place in which the segment has begun a sequence, if it was free.
    pub fn begun(&self) -> Option<usize> {
        let Decision { kind, place, .. } = self.received.decision;
        let free = self.met().places.get(place).is_some_and(|place| place.mark == 0);
        (kind == 1 && free).then_some(place)
    }

    /// The place in which it has begun a sequence anew.
    fn restarted(&self) -> Option<usize> {
        let Decision { kind, cause, place, .. } = self.received.decision;
        ((kind, cause) == (4, 3) && place < PLACES).then_some(place)
    }

    /// Whether a total of its association is so large that a segment could bring it past 2^63.
    fn nearly_full(&self) -> bool {
        let association = self.arrival.association;
        let lost = self.clocked.as_ref().map_or([0; 6], |clocked| clocked.lost_by(association));
        // More than a sequence and a segment have.
        let most = lost.map(|lost| lost + (STRETCH + PARAMETER) as u64);
        let row = summaries::row_of(self.summary, association);
        row.is_some_and(|row| passes(self.summary, row, &most))
    }

    /// What has to refuse it before its segment is looked at, if it is not 1.
    fn foremost(&self) -> Option<u8> {
        match &self.clocked {
            _ if self.store < STORE => Some(2),
            _ if self.report < ARRIVAL => Some(3),
            None => Some(13),
            Some(clocked) => clocked.too_large(self.summary).then_some(22),
        }
    }
}

/// What is wrong with the answer that both sides gave, if anything is.
pub fn wrong(arrived: &Arrived, left: &Left) -> Option<String> {
    let refusal = arrived.received.refusal;
    let wrong = match (arrived.foremost(), arrived.reached(), &arrived.clocked) {
        (Some(number), _, _) if refusal != 1 && refusal != number => {
            Some(format!("{number} comes before all else"))
        }
        (None, Reached::Nothing, _) if refusal != 1 => Some("that does not hold".into()),
        (_, Reached::Undone, _) if !arrived.nearly_full() => Some("no total is so large".into()),
        (_, Reached::Nothing | Reached::Undone, _) => changed(arrived, left),
        (_, Reached::Clock, Some(clocked)) => {
            timed(arrived, clocked, left).or_else(|| refused(arrived, clocked))
        }
        (_, Reached::Both, Some(clocked)) => {
            timed(arrived, clocked, left).or_else(|| taken(arrived, clocked, left))
        }
        _ => None,
    };
    wrong.map(|wrong| format!("both answer {refusal}, but: {wrong}\n"))
}

/// A refusal that undoes the clock's work too.
fn changed(arrived: &Arrived, left: &Left) -> Option<String> {
    let nothing = Received::refused(*arrived.before, arrived.received.refusal, NOWHERE);
    let same = *arrived.received == nothing
        && left.summary == arrived.summary
        && left.report == left.report_before;
    (!same).then(|| "something of it stands".into())
}

/// The clock's work stands.
fn timed(arrived: &Arrived, clocked: &Clocked, left: &Left) -> Option<String> {
    let Received { table, records, timeouts, .. } = *arrived.received;
    let (records, timeouts) = (usize::from(records), usize::from(timeouts));
    if timeouts != clocked.ended.len() || records < timeouts || records > timeouts + 1 {
        Some(format!("{} sequences are due", clocked.ended.len()))
    } else if table.clock != arrived.arrival.time {
        Some("the time is not the arrival's".into())
    } else if left.report[..RECORD * timeouts] != clocked.records() {
        Some("the first records are not those of the sequences that are due".into())
    } else if left.report[RECORD * records..] != left.report_before[RECORD * records..] {
        Some("the report is changed after its records".into())
    } else {
        None
    }
}

/// And it alone.
fn refused(arrived: &Arrived, clocked: &Clocked) -> Option<String> {
    let Received { refusal, records, timeouts, position, table, .. } = *arrived.received;
    let alone = Received::refused(clocked.table, refusal, position);
    let rows = &arrived.summary;
    let row = summaries::row_of(rows, arrived.arrival.association);
    let holds = match refusal {
        4 => arrived.arrival.parameter.len() > PARAMETER,
        10 => clocked.table.places.iter().all(|place| place.mark == 1),
        21 => row.is_none() && rows.mark.iter().all(|mark| *mark == 1),
        _ => arrived.arrival.parameter.len() <= PARAMETER,
    };
    if !holds {
        Some("after the clock's work that does not hold".into())
    } else if table != clocked.table {
        Some("the table is not as the clock's work leaves it".into())
    } else if *arrived.received != (Received { records, timeouts, ..alone }) || records > timeouts {
        Some("something has come of the segment".into())
    } else {
        None
    }
}

/// The segment's work after it.
fn taken(arrived: &Arrived, clocked: &Clocked, left: &Left) -> Option<String> {
    let Received { table, decision, .. } = arrived.received;
    let (own, time) = (arrived.own_records(), arrived.arrival.time);
    let late = |index: usize| table.places[index].start != time;
    let lowest = clocked.table.places.iter().position(|place| place.mark == 0);
    let begun = arrived.begun();
    if (own == 1) != (decision.kind > 1) || own == 1 && arrived.own(left.report)[7] == 6 {
        Some("the segment has not the record of its decision".into())
    } else if begun.is_some() && begun != lowest {
        Some(format!("the lowest free place is {lowest:?}"))
    } else if begun.or(arrived.restarted()).is_some_and(late) {
        Some("the sequence does not start at the arrival's time".into())
    } else if grown(arrived.summary, left.summary).any(|total| total > TOTAL_MOST) {
        Some("a total has become too large".into())
    } else {
        None
    }
}

/// The totals to which something was added, as they are then.
fn grown<'a>(before: &'a Summary, after: &'a Summary) -> impl Iterator<Item = u64> + 'a {
    let totals = before.totals.iter().flatten().zip(after.totals.iter().flatten());
    totals.filter(|(old, new)| old != new).map(|(_, new)| *new)
}

/// What can be said of an arrival; several hold at once.
pub const SITUATIONS: [&str; 25] = [
    "at the table's own time",
    "a step, none due",
    "1 due",
    "2 to 15 due",
    "16 due",
    "over the clock's turn, none due",
    "over the clock's turn, some due",
    "a step of 2^31 - 1",
    "a step of 2^31",
    "a step back by 1",
    "subsequent, of a sequence that is due",
    "first, of a sequence that is due",
    "remaining over 9, of a sequence that is due",
    "unsegmented, beside losses",
    "continued, beside losses",
    "completed, beside losses",
    "restarted, beside losses",
    "broken off, beside losses",
    "begun in a place that was freed",
    "begun in a place that was freed, the table full before",
    "begun in a lower place than those freed",
    "17 records",
    "22 of the clock",
    "22 of the segment, none due",
    "22 of the segment, losses undone",
];

/// The refusals of a segment beside which the clock's work stands. A place that was freed is no
/// reason for 10.
const STANDING: [u8; 9] = [4, 5, 6, 23, 7, 8, 9, 21, 10];

/// The names of all the refusals beside which something stands: the time alone, or losses too.
pub fn standing() -> impl Iterator<Item = String> {
    let all = STANDING.iter().flat_map(|number| [false, true].map(|due| beside(*number, due)));
    let never = beside(10, true);
    all.filter(move |name| *name != never)
}

fn beside(refusal: u8, due: bool) -> String {
    format!("{refusal}, {}", if due { "beside losses" } else { "none due" })
}

impl Arrived<'_> {
    /// What holds of it.
    pub fn situations(&self) -> Vec<&'static str> {
        let (due, refusal) = (self.due(), self.received.refusal);
        let mut held = Vec::new();
        match self.reached() {
            Reached::Nothing if refusal == 22 => held.push("22 of the clock"),
            Reached::Nothing if refusal == 13 => held.extend(self.of_bad_step()),
            Reached::Undone if due == 0 => held.push("22 of the segment, none due"),
            Reached::Undone => held.push("22 of the segment, losses undone"),
            Reached::Clock => held.extend(self.of_step(due)),
            Reached::Both => {
                held.extend(self.of_step(due));
                held.extend(self.of_segment().filter(|_| due > 0));
                held.extend(self.of_due());
                held.extend(self.of_place());
                held.extend((self.received.records == 17).then_some("17 records"));
            }
            Reached::Nothing => {}
        }
        held
    }

    /// The refusal beside which something stands, if there is one.
    pub fn beside(&self) -> Option<String> {
        let refused = self.reached() == Reached::Clock;
        refused.then(|| beside(self.received.refusal, self.due() > 0))
    }

    /// How many sequences it times out.
    fn due(&self) -> usize {
        self.clocked.as_ref().map_or(0, |clocked| clocked.ended.len())
    }

    fn of_bad_step(&self) -> Option<&'static str> {
        match ticks(self.before.clock, self.arrival.time) {
            0x8000_0000 => Some("a step of 2^31"),
            0xffff_ffff => Some("a step back by 1"),
            _ => None,
        }
    }

    fn of_step(&self, due: usize) -> impl Iterator<Item = &'static str> {
        let (old, new) = (self.before.clock, self.arrival.time);
        let count = match due {
            0 if old == new => "at the table's own time",
            0 => "a step, none due",
            1 => "1 due",
            16 => "16 due",
            _ => "2 to 15 due",
        };
        let turn = match due {
            0 => "over the clock's turn, none due",
            _ => "over the clock's turn, some due",
        };
        let long = ticks(old, new) == (1 << 31) - 1;
        let rest = [(new < old).then_some(turn), long.then_some("a step of 2^31 - 1")];
        std::iter::once(count).chain(rest.into_iter().flatten())
    }

    /// What became of the segment, where it did not begin a sequence or stand alone in a loss.
    fn of_segment(&self) -> Option<&'static str> {
        let Decision { kind, cause, place, .. } = self.received.decision;
        match (kind, cause) {
            (1, _) if self.begun().is_none() => Some("continued, beside losses"),
            (2, _) => Some("unsegmented, beside losses"),
            (3, _) => Some("completed, beside losses"),
            (4, 3) => Some("restarted, beside losses"),
            (4, _) if place < PLACES => Some("broken off, beside losses"),
            _ => None,
        }
    }

    /// A segment of a sequence that its own arrival times out.
    fn of_due(&self) -> Option<&'static str> {
        let Arrival { association, parameter, .. } = self.arrival;
        let key = destinations::key(self.before, association, parameter)?;
        let due = self.clocked.as_ref()?.ended.iter().any(|place| place.key == key);
        match self.received.decision {
            _ if !due => None,
            Decision { kind: 4, cause: 1, .. } => Some("subsequent, of a sequence that is due"),
            Decision { kind: 1, .. } => Some("first, of a sequence that is due"),
            _ => Some("remaining over 9, of a sequence that is due"),
        }
    }

    fn of_place(&self) -> impl Iterator<Item = &'static str> {
        let freed = |index: usize| self.before.places[index].mark == 1;
        let any = self.due() > 0;
        let full = self.before.places.iter().all(|place| place.mark == 1);
        let begun = self.begun();
        let taken = begun.is_some_and(freed);
        let held = [
            taken.then_some("begun in a place that was freed"),
            (taken && full).then_some("begun in a place that was freed, the table full before"),
            (begun.is_some() && any && !taken).then_some("begun in a lower place than those freed"),
        ];
        held.into_iter().flatten()
    }
}

/// What is wrong with the lines of the records program, if anything is. A segment's says how many of
/// its records are the clock's, and no other event's has that field.
pub fn misprinted(records: &str) -> Option<String> {
    let lines: Vec<Vec<&str>> = records.lines().map(|line| line.split(' ').collect()).collect();
    let mut events = 0;
    for (at, line) in lines.iter().enumerate() {
        let event = matches!(line[0], "open" | "segment" | "clock" | "release");
        events += usize::from(event);
        let under =
            lines[at + 1..].iter().take_while(|line| matches!(line[0], "delivered" | "lost"));
        let under: Vec<&[&str]> = under.map(|line| &line[..]).collect();
        let good = match line[0] {
            "segment" => segment_told(line, events, &under),
            _ => !event || line.len() == 7 + usize::from(line.get(6) == Some(&"refused")),
        };
        if !good {
            return Some(format!(
                "both print this, or not what goes with it: {}\n",
                line.join(" ")
            ));
        }
    }
    None
}

/// A segment's line with the lines under it: the clock's losses first, which are all where it is
/// refused, and in number and octets those that it has.
fn segment_told(line: &[&str], event: usize, under: &[&[&str]]) -> bool {
    let number = |word: &str| word.parse::<usize>().unwrap_or(usize::MAX);
    let ["segment", refusal, records, delivered, lost, _, own, timeouts, what, ..] = *line else {
        return false;
    };
    let by_clock = |line: &[&str]| line[0] == "lost" && line.get(5) == Some(&"6");
    let octets = |name: &str| {
        let of = under.iter().filter(|line| line[0] == name);
        of.map(|line| line.get(7).map_or(0, |octets| number(octets))).sum::<usize>()
    };
    let made = usize::from(matches!(what, "delivered" | "lost"));
    let standing = STANDING.contains(&(number(refusal) as u8)) || refusal == "0";
    number(own) == event
        && number(records) == under.len()
        && number(timeouts) + made == under.len()
        && under.iter().take_while(|line| by_clock(line)).count() == number(timeouts)
        && (standing || under.is_empty())
        && (what == "refused") == (refusal != "0")
        && (number(delivered), number(lost)) == (octets("delivered"), octets("lost"))
}

#[cfg(test)]
mod tests {
    use super::*;

    fn table() -> Table {
        let mut table = Table { timer: 100, clock: 5, ..Table::default() };
        for (index, start) in [(3, 5), (4, u32::MAX - 5), (9, u32::MAX - 93), (15, 0)] {
            let key = Key { association: 9, reference: index, ..Key::default() };
            table.places[usize::from(index)] =
                Place { key, start, mark: 1, segments: 2, octets: 7, ..Place::default() };
        }
        table
    }

    #[test]
    fn what_a_clock_ends() {
        let ended = |time: u32| {
            let clocked = clocked(&table(), time)?;
            assert_eq!(clocked.table.clock, time);
            Some(clocked.ended.iter().map(|place| place.key.reference).collect::<Vec<_>>())
        };
        assert_eq!((ended(5), ended(6)), (Some(vec![]), Some(vec![9])));
        assert_eq!((ended(93), ended(94)), (Some(vec![9]), Some(vec![4, 9])));
        assert_eq!((ended(100), ended(105)), (Some(vec![4, 9, 15]), Some(vec![3, 4, 9, 15])));
        assert_eq!(ended((1 << 31) + 4), Some(vec![3, 4, 9, 15]));
        assert_eq!((ended((1 << 31) + 5), ended(4)), (None, None));
    }

    #[test]
    fn sums_of_an_association() {
        let clocked = clocked(&table(), 105).expect("a good step");
        assert_eq!((clocked.lost_by(9), clocked.lost_by(8)), ([0, 0, 0, 0, 8, 28], [0; 6]));
        let mut summary = Summary::EMPTY;
        (summary.mark[7], summary.association[7]) = (1, 9);
        for (total, expected) in [(0, false), (TOTAL_MOST - 28, false), (TOTAL_MOST - 27, true)] {
            summary.totals[5][7] = total;
            assert_eq!(clocked.too_large(&summary), expected);
        }
        assert_eq!(clocked.records().len(), 4 * RECORD);
    }

    #[test]
    fn lines_of_records() {
        let lost = "lost 9 3 16 1 6 1 2 - -\n";
        let good = [
            "segment 0 0 0 0 - 1 0 saved 3\nclock 0 0 0 0 2 -\nrelease 3 0 0 0 3 refused 3\nstop\n",
            &format!("segment 8 1 0 2 0 1 1 refused 8\n{lost}held 9 3 16 1 0 1 2 - -\n"),
            &format!("segment 0 2 4 2 - 1 1 delivered\n{lost}delivered 9 3 - 0 0 1 4 - -\n"),
            &format!("segment 0 1 0 2 - 1 1 saved 0\n{lost}clock 0 1 0 2 2 -\n{lost}"),
        ];
        good.iter().for_each(|text| assert_eq!(misprinted(text), None, "{text}"));
        let bad = [
            "segment 0 0 0 0 - 1 saved 3\n",
            "segment 0 0 0 0 - 2 0 saved 3\n",
            "clock 0 0 0 0 1 0 -\n",
            &format!("segment 8 1 0 2 0 1 0 refused 8\n{lost}"),
            &format!("segment 8 0 0 0 0 1 1 refused 8\n{lost}"),
            &format!("segment 13 1 0 2 - 1 1 refused 13\n{lost}"),
            &format!("segment 0 2 4 2 - 1 1 delivered\ndelivered 9 3 - 0 0 1 4 - -\n{lost}"),
            &format!("segment 0 1 0 2 - 1 saved 0 1\n{lost}"),
        ];
        bad.iter().for_each(|text| assert!(misprinted(text).is_some(), "{text}"));
    }
}
