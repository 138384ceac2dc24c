//! Round trips: data cut by one side, joined by the other while time passes, and the same again.

use crate::arrivals::{self, ticks, Clocked};
use crate::input::{hex, table_hex};
use crate::random::Random;
use crate::side::Side;
use crate::{destinations, summaries, tables};
use model::*;

/// One sequence on its way.
struct Trip {
    key: Key,
    instruction: u8,
    data: Vec<u8>,
    rooms: [usize; 2],
    /// The segments not yet received, the last one first.
    segments: Vec<Vec<u8>>,
    count: usize,
    /// When its sequence was begun.
    begun: Option<u32>,
}

/// What the receiving end has.
struct Desk {
    table: Table,
    summary: Summary,
    store: Vec<u8>,
}

/// What came of some sequences at once.
#[derive(Default)]
pub struct Made {
    /// The segments of each.
    pub counts: Vec<usize>,
    /// Segments that were first tried in the padded form.
    pub turned_away: u64,
    /// Segments that came while a sequence was open that differs in the destination alone.
    pub beside: u64,
    /// Segments that came later than what was before them.
    pub later: u64,
    /// Sequences of others that were timed out on the way.
    pub timed_out: u64,
}

pub struct Ends<'a> {
    pub sender: &'a dyn Side,
    pub receiver: &'a dyn Side,
}

impl Ends<'_> {
    /// Some sequences at once, one of them of `n` octets.
    pub fn go(&self, random: &mut Random, n: usize) -> Result<Made, String> {
        let (count, open) = (random.within(1..=8), random.within(0..=13));
        let table = tables::sound_with(random, count, open);
        let (summary, store) = (summaries::roomy(random, &table), random.octets(STORE));
        let mut desk = Desk { table, summary, store };
        let mut expected = desk.summary;
        let mut trips = Vec::new();
        for number in 0..random.within(1..=3) {
            let n = if number == 0 { n } else { other_length(random) };
            let key = key(random, &table, &trips, number as u8);
            let trip = self.cut(random, &table, n, &key)?;
            trip.bill(&mut expected);
            trips.push(trip);
        }
        let made = self.receive(random, &mut desk, &mut expected, trips)?;
        match rows(&desk.summary) == rows(&expected) {
            true => Ok(made),
            false => Err(format!(
                "round trip: all was delivered, but the {}expected is the {}",
                summaries::text(&desk.summary),
                summaries::text(&expected)
            )),
        }
    }

    /// Every segment, in turn of any of the trips. What is timed out meanwhile is expected too.
    fn receive(
        &self,
        random: &mut Random,
        desk: &mut Desk,
        expected: &mut Summary,
        mut trips: Vec<Trip>,
    ) -> Result<Made, String> {
        let mut made = Made::default();
        while !trips.is_empty() {
            let at = random.below(trips.len());
            let turned_away = random.one_in(4).then(|| padded(trips[at].segments.last())).flatten();
            let time = time(random, &desk.table, &trips);
            let clocked = arrivals::clocked(&desk.table, time).expect("a good step");
            made.later += u64::from(time != desk.table.clock);
            made.timed_out += clocked.ended.len() as u64;
            lose(expected, &clocked);
            if let Some(segment) = turned_away {
                self.turn_away(desk, &clocked, &trips[at], &segment)?;
                made.turned_away += 1;
                continue;
            }
            let beside = destinations::beside(&clocked.table, &trips[at].key).next();
            made.beside += u64::from(beside.is_some());
            if let Some(data) = self.join(desk, &clocked, &mut trips[at])? {
                let trip = trips.swap_remove(at);
                if data != trip.data {
                    return Err(trip.failed("the data joined is another", &desk.table));
                }
                made.counts.push(trip.count);
            }
        }
        Ok(made)
    }

    /// All the segments of new data.
    fn cut(&self, random: &mut Random, table: &Table, n: usize, key: &Key) -> Result<Trip, String> {
        let mut trip = Trip {
            key: *key,
            instruction: random.below(4) as u8,
            data: random.octets(n),
            rooms: rooms(random, header(table, key), n),
            segments: vec![],
            count: 1,
            begun: None,
        };
        while trip.segments.len() < trip.count {
            let segment = self.send(&mut trip, table)?;
            trip.segments.push(segment);
        }
        trip.segments.reverse();
        Ok(trip)
    }

    fn send(&self, trip: &mut Trip, table: &Table) -> Result<Vec<u8>, String> {
        let [room1, room] = trip.rooms;
        let (instruction, number) = (trip.instruction, trip.segments.len());
        let Key { context, reference, .. } = trip.key;
        let request = Request { context, instruction, reference, room1, room, number };
        let mut area = [0; PARAMETER];
        let [origin, destination] = trip.addresses();
        let sent = self.sender.sending(*table, request, origin, destination, &trip.data, &mut area);
        let first = number == 0;
        if sent.refusal != 0 || !first && usize::from(sent.count) != trip.count {
            let why = format!("segment {number} is not sent as it should be: {sent:?}");
            return Err(trip.failed(&why, table));
        }
        trip.count = sent.count.into();
        let room = if first { room1 } else { room };
        if usize::from(sent.length) > room || trip.count > SEGMENTS {
            return Err(trip.failed("a segment has no room", table));
        }
        Ok(area[..sent.length.into()].to_vec())
    }

    /// Gives a segment of the trip to the receiver with its context padded, as a switch does on some
    /// links: it is refused, and nothing comes of it but what its time leads to.
    fn turn_away(
        &self,
        desk: &mut Desk,
        clocked: &Clocked,
        trip: &Trip,
        segment: &[u8],
    ) -> Result<(), String> {
        let (before, mut summary, store) = (desk.table, desk.summary, desk.store.clone());
        lose(&mut summary, clocked);
        let (got, report) = self.arrive(desk, clocked, trip, segment);
        let records = clocked.ended.len() as u8;
        let refused = Received::refused(clocked.table, 23, 1);
        let expected = Received { records, timeouts: records, ..refused };
        let alone = (desk.summary, &desk.store) == (summary, &store);
        match got == expected && alone && report == clocked.report(&[]) {
            true => Ok(()),
            false => {
                let Received { refusal, records, decision, position, .. } = got;
                let given = format!("{refusal}, position {position}, {records}, {decision:?}");
                let why = format!("padded, {} gives {given}", hex(segment));
                Err(trip.failed(&why, &before))
            }
        }
    }

    /// Gives the trip's next segment to the receiver; the data when that was the last.
    fn join(
        &self,
        desk: &mut Desk,
        clocked: &Clocked,
        trip: &mut Trip,
    ) -> Result<Option<Vec<u8>>, String> {
        let before = desk.table;
        let segment = trip.segments.pop().unwrap_or_default();
        trip.begun = trip.begun.or(Some(clocked.table.clock));
        let (got, report) = self.arrive(desk, clocked, trip, &segment);
        let last = trip.segments.is_empty();
        let kind = match (last, trip.count) {
            (false, _) => 1,
            (true, 1) => 2,
            _ => 3,
        };
        let timeouts = clocked.ended.len();
        let counts = (usize::from(got.records), usize::from(got.timeouts));
        if got.decision.kind != kind || counts != (timeouts + usize::from(last), timeouts) {
            let why = format!("{} gives {counts:?} records, {:?}", hex(&segment), got.decision);
            return Err(trip.failed(&why, &before));
        }
        let own = if last { trip.record() } else { vec![] };
        if report != clocked.report(&own) {
            return Err(trip.failed(&format!("the report is {}", hex(&report)), &before));
        }
        let part = self.receiver.delivery(got.decision, &segment, &desk.store);
        let from = if part.source == 0 { &segment } else { &desk.store };
        Ok(last.then(|| from[part.start..][..part.length].to_vec()))
    }

    /// A segment of the trip at this time, and the report that it leaves of one of zeros.
    fn arrive(
        &self,
        desk: &mut Desk,
        clocked: &Clocked,
        trip: &Trip,
        parameter: &[u8],
    ) -> (Received, Vec<u8>) {
        let mut report = vec![0; ARRIVAL];
        let Desk { table, summary, store } = desk;
        let (time, association) = (clocked.table.clock, trip.key.association);
        let arrival = Arrival { time, association, parameter };
        let got = self.receiver.arrival(*table, summary, store, &mut report, arrival);
        *table = got.table;
        (got, report)
    }
}

/// When the next segment comes: no trip is under way for T ticks then, but others may be.
fn time(random: &mut Random, table: &Table, trips: &[Trip]) -> u32 {
    let ages = trips.iter().filter_map(|trip| trip.begun).map(|begun| ticks(begun, table.clock));
    let left = match ages.max() {
        Some(oldest) => u64::from(table.timer) - 1 - oldest,
        None => random.pick(&[u64::from(table.timer), (1 << 31) - 1]),
    };
    let step = match random.weighted(&[6, 3, 3, 1]) {
        0 => 0,
        1 => left.min(1),
        2 => random.within(0..=left as usize / 8) as u64,
        _ => left,
    };
    table.clock.wrapping_add(step as u32)
}

/// What is timed out counts as lost.
fn lose(summary: &mut Summary, clocked: &Clocked) {
    for (who, gain) in clocked.gains() {
        let row = summaries::row_of(summary, who).expect("an open place's association has a row");
        summary.totals.iter_mut().zip(gain).for_each(|(column, gain)| column[row] += gain);
    }
}

/// The used rows in the order of their associations: which one comes first is left to chance.
fn rows(summary: &Summary) -> Vec<[u64; 8]> {
    let rows = (0..ROWS).map(|row| summaries::numbers(summary, row));
    let mut rows: Vec<[u64; 8]> = rows.filter(|numbers| numbers[0] != 0).collect();
    rows.sort_by_key(|numbers| numbers[1]);
    rows
}

impl Trip {
    /// What the whole trip adds: all of it is taken, and all of it is delivered.
    fn bill(&self, summary: &mut Summary) {
        let unused = || summary.mark.iter().position(|mark| *mark == 0);
        let row = summaries::row_of(summary, self.key.association).or_else(unused);
        let row = row.expect("a roomy summary");
        (summary.mark[row], summary.association[row]) = (1, self.key.association.into());
        for column in [0, 2] {
            summary.totals[column][row] += self.count as u64;
            summary.totals[column + 1][row] += self.data.len() as u64;
        }
    }

    /// The octets of origin and destination.
    fn addresses(&self) -> [&[u8]; 2] {
        [self.key.origin.counting(), self.key.destination.counting()]
    }

    /// The record of its delivery, octet by octet from the documents' tables.
    fn record(&self) -> Vec<u8> {
        let reference = if self.count == 1 { UNSEGMENTED } else { self.key.reference };
        let mut record = vec![18];
        record.extend(self.key.association.to_be_bytes());
        record.extend(self.key.context.to_be_bytes());
        record.extend([reference, self.instruction, 0, self.count as u8]);
        record.extend((self.data.len() as u16).to_be_bytes());
        for address in self.addresses() {
            record.push(address.len() as u8);
            record.extend(address);
            record.extend(vec![0; 20 - address.len()]);
        }
        record
    }

    fn failed(&self, why: &str, table: &Table) -> String {
        let [origin, destination] = self.addresses();
        format!(
            "round trip: {why}\ncontext {}, instruction {}, reference {}, association {}, rooms {:?}\norigin: {}\ndestination: {}\ndata: {}\ntable: {}\n",
            self.key.context,
            self.instruction,
            self.key.reference,
            self.key.association,
            self.rooms,
            hex(origin),
            hex(destination),
            hex(&self.data),
            table_hex(table),
        )
    }
}

/// The key of a new trip. Its reference keeps it apart from the others, and from all that is open;
/// or it differs from the trip before it in the destination alone.
fn key(random: &mut Random, table: &Table, trips: &[Trip], number: u8) -> Key {
    let other = trips.last().map(|trip| trip.key);
    let other = other.filter(|key| tables::kind(table, key.context) == 2 && !random.one_in(3));
    let Some(other) = other else {
        return Key { reference: 40 + number, ..tables::key(random, table) };
    };
    loop {
        let destination = tables::near(random, &other.destination);
        let key = Key { destination, ..other };
        if trips.iter().all(|trip| trip.key != key) {
            return key;
        }
    }
}

fn header(table: &Table, key: &Key) -> usize {
    let lengths = [key.origin.length, key.destination.length].map(usize::from);
    let fields =
        if tables::kind(table, key.context) == 2 { 2 + lengths[0] + lengths[1] } else { 0 };
    fields + 2 + if key.context > 127 { 2 } else { 1 }
}

/// A segment with its context in two octets, if one does and there is room for another.
fn padded(segment: Option<&Vec<u8>>) -> Option<Vec<u8>> {
    let (first, rest) = segment?.split_first()?;
    let possible = *first >= 0x80 && rest.len() + 1 < PARAMETER;
    possible.then(|| [&[first & 0x7f, 0x80], rest].concat())
}

fn other_length(random: &mut Random) -> usize {
    let any = random.within(0..=STRETCH);
    random.pick(&[0, 1, STRETCH - 1, STRETCH, any, any])
}

/// Rooms with which `n` octets are cut into 1 to 10 segments, mostly just enough.
fn rooms(random: &mut Random, h: usize, n: usize) -> [usize; 2] {
    let aim = random.within(1..=10);
    let most = PARAMETER - h - 1;
    if aim == 1 && h + n <= PARAMETER {
        return [random.pick(&[h + n, PARAMETER]), random.within(0..=PARAMETER)];
    }
    let share = n.div_ceil(aim);
    let first = random.pick(&[share, 0, share / 2, share + 1]).min(most);
    let later = n.saturating_sub(first).div_ceil(aim.max(2) - 1).max(1);
    match later > most {
        true => [PARAMETER, PARAMETER],
        false => [h + 1 + first, h + 1 + later],
    }
}
