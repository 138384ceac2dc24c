//! Document 01's worked examples, and the rules of A1, A2, A3, A5 and A6. Where a test is of the
//! segment alone, it comes at the table's own time.

use crate::*;

const REGISTRY: [u8; 6] = [1, 0, 3, 2, 0, 4];
const MODEL: Model = Model::PLAIN;

/// A host: a table with its lent areas, and what the last call answered.
struct Host {
    table: Table,
    summary: Summary,
    store: Vec<u8>,
    report: Vec<u8>,
}

impl Host {
    fn open(clock: u32) -> Host {
        Host::open_with(&REGISTRY, clock)
    }

    fn open_with(registry: &[u8], clock: u32) -> Host {
        let mut summary = Summary { mark: [7; ROWS], ..Summary::EMPTY };
        let opened = MODEL.opening(&mut summary, registry, 100, clock);
        assert_eq!((opened.refusal, summary), (0, Summary::EMPTY));
        let (store, report) = (vec![0xEE; STORE], vec![0xEE; ARRIVAL]);
        Host { table: opened.table, summary, store, report }
    }

    fn segment(&mut self, parameter: &[u8]) -> Received {
        self.segment_of(9, parameter)
    }

    /// At the table's own time.
    fn segment_of(&mut self, association: u16, parameter: &[u8]) -> Received {
        self.arrival(Arrival { time: self.table.clock, association, parameter })
    }

    fn arrival(&mut self, arrival: Arrival) -> Received {
        let Host { table, summary, store, report } = self;
        let received = MODEL.arrival(*table, summary, store, report, arrival);
        self.table = received.table;
        received
    }

    /// Of association 9.
    fn at(&mut self, time: u32, parameter: &[u8]) -> Received {
        self.arrival(Arrival { time, association: 9, parameter })
    }

    fn clock(&mut self, time: u32) -> Swept {
        let swept = MODEL.clock(self.table, &mut self.summary, &mut self.report, time);
        self.table = swept.table;
        swept
    }

    fn release(&mut self, association: u16) -> Swept {
        let Host { table, summary, report, .. } = self;
        let swept = MODEL.release(*table, summary, report, association);
        self.table = swept.table;
        swept
    }

    /// The used rows, each with its number, its association and its totals.
    fn rows(&self) -> Vec<(usize, u64, [u64; 6])> {
        let totals = |row: usize| self.summary.totals.each_ref().map(|column| column[row]);
        self.summary.used().map(|(row, association)| (row, association, totals(row))).collect()
    }

    fn data(&self, received: &Received, parameter: &[u8]) -> Vec<u8> {
        let part = MODEL.delivery(received.decision, parameter, &self.store);
        let from = if part.source == 0 { parameter } else { &self.store };
        from[part.start..][..part.length].to_vec()
    }

    fn open_places(&self) -> usize {
        self.table.places.iter().filter(|place| place.is_open()).count()
    }
}

/// A record's octets, where there are no addresses.
fn record(kind: u8, context: u8, fields: [u8; 4], octets: u16) -> Vec<u8> {
    addressed(kind, context, fields, octets, [&[], &[]])
}

/// The same with the addresses.
fn addressed(
    kind: u8,
    context: u8,
    fields: [u8; 4],
    octets: u16,
    addresses: [&[u8]; 2],
) -> Vec<u8> {
    let mut record = vec![kind, 0, 9, 0, context];
    record.extend(fields);
    record.extend(octets.to_be_bytes());
    for address in addresses {
        record.push(address.len() as u8);
        record.extend(address);
        record.extend(vec![0; 20 - address.len()]);
    }
    record
}

/// The refusal of one parameter from a fresh opening.
fn refusal(parameter: &[u8]) -> u8 {
    refusal_with(&REGISTRY, parameter)
}

/// The same with other contexts registered.
fn refusal_with(registry: &[u8], parameter: &[u8]) -> u8 {
    refused(registry, parameter).0
}

/// The same with the position.
fn refused(registry: &[u8], parameter: &[u8]) -> (u8, u16) {
    let mut host = Host::open_with(registry, 0);
    let table = host.table;
    let received = host.segment(parameter);
    assert_eq!((received.table, host.summary), (table, Summary::EMPTY));
    assert_eq!((received.records, received.decision), (0, Decision::default()));
    assert!(host.store.iter().chain(&host.report).all(|octet| *octet == 0xEE));
    (received.refusal, received.position)
}

/// The cause of a loss: decision and record have to agree.
fn cause(host: &Host, received: &Received) -> u8 {
    assert_eq!((received.refusal, received.records, received.decision.kind), (0, 1, 4));
    assert_eq!((host.report[0], host.report[7]), (19, received.decision.cause));
    received.decision.cause
}

#[test]
fn m1_and_m7_to_m10_refusals() {
    assert_eq!(refusal(&[]), 5);
    assert_eq!(refusal(&[0x83, 0x80, 0x40, 0x85]), 7);
    assert_eq!(refusal(&[0x83, 0x80, 0xC1]), 7);
    assert_eq!(refusal(&[0x83, 0x00]), 6);
    assert_eq!(refusal(&[0x85]), 8);
}

#[test]
fn m2_unsegmented() {
    let parameter = [0x83, 0x80, 0xC0, 0xAA, 0xBB];
    let mut host = Host::open(0);
    let received = host.segment(&parameter);
    assert_eq!(host.data(&received, &parameter), [0xAA, 0xBB]);
    assert_eq!(host.report[..RECORD], record(18, 3, [255, 0, 0, 1], 2));
    assert_eq!(host.open_places(), 0);
    assert!(host.store.iter().all(|octet| *octet == 0xEE));
}

/// By A2; before it, this was context 3, Delivered.
#[test]
fn m12_is_refused() {
    assert_eq!(refusal(&[0x03, 0x80, 0x80, 0xC0, 0xAA]), 23);
}

#[test]
fn m3_joined() {
    let mut host = Host::open(0);
    let first = host.segment(&[0x83, 0x81, 0x41, 0x85, 0xAA]);
    assert_eq!((first.refusal, first.records, first.decision.kind), (0, 0, 1));
    let second = host.segment(&[0x83, 0x80, 0x00, 0x85, 0xBB]);
    assert_eq!(second.decision.kind, 3);
    assert_eq!(host.data(&second, &[]), [0xAA, 0xBB]);
    assert_eq!(host.report[..RECORD], record(18, 3, [5, 1, 0, 2], 2));
    assert!(host.report[RECORD..].iter().chain(&host.store[2..]).all(|octet| *octet == 0xEE));
    assert_eq!(host.table, Host::open(0).table);
}

#[test]
fn m4_orphan() {
    let mut host = Host::open(0);
    let received = host.segment(&[0x83, 0x80, 0x00, 0x85, 0xBB]);
    assert_eq!(cause(&host, &received), 1);
    assert_eq!(received.decision.place, PLACES);
    assert_eq!(host.report[..RECORD], record(19, 3, [5, 0, 1, 1], 1));
}

#[test]
fn m5_and_m6_remaining() {
    let mut host = Host::open(0);
    assert_eq!(host.segment(&[0x83, 0x80, 0x49, 0x85]).decision.kind, 1);
    assert_eq!(host.open_places(), 1);
    let mut host = Host::open(0);
    let received = host.segment(&[0x83, 0x80, 0x4A, 0x85]);
    assert_eq!(cause(&host, &received), 4);
}

#[test]
fn m11_addresses() {
    let mut host = Host::open(0);
    host.segment(&[0x84, 0x80, 0x41, 0x85, 0x02, 0x00, 0x07, 0x00, 0xAA]);
    host.segment(&[0x84, 0x80, 0x41, 0x85, 0x01, 0x07, 0x00, 0xBB]);
    assert_eq!(host.open_places(), 2);
}

#[test]
fn clock_and_timer() {
    let mut host = Host::open(0);
    host.segment(&[0x83, 0x80, 0x41, 0x85, 0xAA]);
    assert_eq!(host.clock(99).records, 0);
    assert_eq!(host.open_places(), 1);
    assert_eq!(host.clock(100).records, 1);
    assert_eq!(host.report[..RECORD], record(19, 3, [5, 0, 6, 1], 1));
    let mut host = Host::open(4_294_967_290);
    host.segment(&[0x83, 0x80, 0x41, 0x85, 0xAA]);
    assert_eq!((host.clock(5).refusal, host.open_places()), (0, 1));
    assert_eq!((host.clock(4).refusal, host.table.clock), (13, 5));
}

#[test]
fn joined_2048_and_2049() {
    for (last, expected) in [(248, 0), (249, 5)] {
        let mut host = Host::open(0);
        for k in (1..10).rev() {
            let mut parameter = vec![0x83, 0x80, if k == 9 { 0x49 } else { k }, 0x85];
            parameter.resize(4 + 200, k);
            assert_eq!(host.segment(&parameter).decision.kind, 1);
        }
        let mut parameter = vec![0x83, 0x80, 0x00, 0x85];
        parameter.resize(4 + last, 0);
        let received = host.segment(&parameter);
        assert_eq!(received.decision.cause, expected);
        assert_eq!(
            host.report[..RECORD],
            record(
                if expected == 0 { 18 } else { 19 },
                3,
                [5, 0, expected, 10],
                1_800 + last as u16
            )
        );
        assert_eq!(host.open_places(), 0);
        if expected == 0 {
            assert_eq!(host.data(&received, &[]).len(), 2_048);
        }
    }
}

/// One segment of context 3's data, or the refusal.
fn send(n: usize, rooms: [usize; 2], number: usize) -> Result<(u8, Vec<u8>), u8> {
    let table = Host::open(0).table;
    let [room1, room] = rooms;
    let request = Request { context: 3, instruction: 0, reference: 5, room1, room, number };
    let mut area = [0xEE; 300];
    let sent = MODEL.sending(table, request, &[], &[], &vec![0xDD; n], &mut area);
    let (segment, rest) = area.split_at(sent.length.into());
    assert!(rest.iter().all(|octet| *octet == 0xEE));
    if sent.refusal == 0 {
        Ok((sent.count, segment.to_vec()))
    } else {
        Err(sent.refusal)
    }
}

#[test]
fn m13_sending() {
    assert_eq!(send(5, [8, 8], 0), Ok((1, vec![0x83, 0x80, 0xC0, 0xDD, 0xDD, 0xDD, 0xDD, 0xDD])));
    assert_eq!(send(5, [7, 7], 0), Ok((2, vec![0x83, 0x80, 0x41, 0x85, 0xDD, 0xDD, 0xDD])));
    assert_eq!(send(5, [7, 7], 1), Ok((2, vec![0x83, 0x80, 0x00, 0x85, 0xDD, 0xDD])));
    assert_eq!(send(5, [7, 7], 2), Err(19));
    assert_eq!(
        send(2_048, [209, 209], 9).map(|sent| (sent.0, sent.1.len())),
        Ok((10, 4 + 2_048 - 9 * 205))
    );
    assert_eq!(send(2_048, [208, 208], 0), Err(18));
}

/// A trace's segment record of association 9, at time 0.
fn event(parameter: &[u8]) -> Vec<u8> {
    event_at(0, parameter)
}

fn event_at(time: u32, parameter: &[u8]) -> Vec<u8> {
    let mut record = vec![33];
    record.extend(time.to_be_bytes());
    record.extend([0, 9, parameter.len() as u8]);
    record.extend(parameter);
    record.resize(1 + 4 + 2 + 1 + 255, 0xEE);
    record
}

const OPEN: [u8; 9] = [32, 0, 0, 0, 100, 0, 0, 0, 0];

#[test]
fn replay_example() {
    let trace = [
        vec![1, 0, 3],
        OPEN.to_vec(),
        event(&[0x83, 0x81, 0x41, 0x85, 0xAA]),
        event(&[0x83, 0x80, 0x00, 0x85, 0xBB]),
        vec![35, 0, 9],
    ];
    let expected = "open 0 0 0 0\nsegment 0 0 0 0 -\nsegment 0 1 2 0 -\nrelease 0 0 0 0\n";
    assert_eq!(MODEL.replay(&trace.concat()), expected);
}

#[test]
fn replay_stops() {
    assert_eq!(MODEL.replay(&[]), "");
    assert_eq!(MODEL.replay(&[35, 0, 9, 1, 0, 3, 16, 0]), "release 1 0 0 0\nstop\n");
    assert_eq!(MODEL.replay(&[34, 0, 0, 0]), "stop\n");
    let after_open = [&OPEN[..], &[1, 0, 3], &[35, 0, 9]].concat();
    assert_eq!(MODEL.replay(&after_open), "open 0 0 0 0\nstop\n");
    let nine: Vec<u8> = (1..=9).flat_map(|context| [1, 0, context]).chain(OPEN).collect();
    assert_eq!(MODEL.replay(&nine), "open 11 0 0 0\n");
}

fn records(trace: &[Vec<u8>]) -> String {
    MODEL.printed(&trace.concat(), crate::Output::Records)
}

/// The example of the format, and an opening that drops, refused or not.
#[test]
fn records_lines() {
    let first = event(&[0x83, 0x81, 0x41, 0x85, 0xAA]);
    let trace = [
        vec![1, 0, 3],
        OPEN.to_vec(),
        first.clone(),
        event(&[0x83, 0x80, 0x00, 0x85, 0xBB]),
        event(&[0x83, 0x80, 0x41, 0x86, 0xCC]),
        vec![35, 0, 8],
    ];
    let expected = "open 0 0 0 0 1 -\nsegment 0 0 0 0 - 2 0 saved 0\nsegment 0 1 2 0 - 3 0 delivered\n\
        delivered 9 3 5 1 0 2 2 - -\nsegment 0 0 0 0 - 4 0 saved 0\nrelease 0 0 0 0 5 -\nheld 9 3 6 0 0 1 1 - -\n";
    assert_eq!(records(&trace), expected);
    let (zero, cut) = (vec![32; 1], vec![33]);
    let zero = [zero, vec![0; 8]].concat();
    let trace = [
        vec![1, 0, 3, 2, 0, 4],
        OPEN.to_vec(),
        event(&[0x84, 0x80, 0x41, 0x85, 2, 0, 7, 0, 0xAA]),
        first.clone(),
        zero,
        first.clone(),
        OPEN.to_vec(),
        first,
        event(&[0x83, 0x82, 0xC0]),
        cut,
    ];
    let expected = "open 0 0 0 0 1 -\nsegment 0 0 0 0 - 2 0 saved 0\nsegment 0 0 0 0 - 3 0 saved 1\n\
        open 12 0 0 0 4 refused 12\ndropped 9 4 5 0 0 1 1 0007 -\ndropped 9 3 5 1 0 1 1 - -\n\
        segment 1 0 0 0 - 5 0 refused 1\nopen 0 0 0 0 6 -\nsegment 0 0 0 0 - 7 0 saved 0\n\
        segment 0 1 0 0 - 8 0 delivered\ndelivered 9 3 - 2 0 1 0 - -\nheld 9 3 5 1 0 1 1 - -\nstop\n";
    assert_eq!(records(&trace), expected);
}

/// Readings of the order of refusals 5 to 9, and of their positions. `05 80` was 8 before A2.
#[test]
fn readings() {
    let cases: &[(&[u8], u8, u16)] = &[
        (&[], 5, 0),
        (&[0x83, 0x80, 0x40], 5, 3),
        (&[0x83, 0x80, 0x40, 0x05], 6, 3),
        (&[0x83, 0x80, 0x40, 0x85], 7, 2),
        (&[0x84, 0x80, 0x40, 0x85, 0x15], 7, 2),
        (&[0x84, 0x80, 0xC1], 7, 2),
        (&[0x83, 0x80, 0x80], 7, 2),
        (&[0x05], 5, 1),
        (&[0x05, 0x05], 6, 1),
        (&[0x05, 0x80], 23, 1),
        (&[0x05, 0x81], 8, 1),
        (&[0x85], 8, 0),
        (&[0x80, 0x80], 8, 0),
        (&[0x84, 0x80, 0xC0, 0x15], 9, 3),
        (&[0x84, 0x80, 0xC0, 0x14], 5, 4),
        (&[0x84, 0x80, 0xC0, 0x00, 0x15], 9, 4),
        (&[0x84, 0x80, 0xC0, 0x00], 5, 4),
    ];
    for (parameter, number, position) in cases {
        assert_eq!(refused(&REGISTRY, parameter), (*number, *position), "{parameter:02X?}");
    }
}

/// A restart, a loss of both, and line 1 before line 2.
#[test]
fn restart_and_losses() {
    let mut host = Host::open(0);
    host.segment(&[0x83, 0x81, 0x43, 0x85, 0xAA]);
    host.clock(7);
    let received = host.segment(&[0x83, 0x82, 0x42, 0x85, 0xBB, 0xCC]);
    assert_eq!((cause(&host, &received), received.decision.place), (3, 0));
    assert_eq!(host.report[..RECORD], record(19, 3, [5, 1, 3, 1], 1));
    let place = host.table.places[0];
    assert_eq!((place.start, place.instruction, place.octets), (7, 2, 2));
    assert_eq!(host.store[..3], [0xBB, 0xCC, 0xEE]);
    let received = host.segment(&[0x83, 0x83, 0x4A, 0x85, 0xDD]);
    assert_eq!((cause(&host, &received), received.decision.place), (4, 0));
    assert_eq!(host.report[..RECORD], record(19, 3, [5, 2, 4, 2], 3));
    assert_eq!(host.open_places(), 0);
}

const ALONE: [u8; 5] = [0x83, 0x80, 0xC0, 0xAA, 0xBB];
const FIRST: [u8; 5] = [0x83, 0x80, 0x42, 0x85, 0xAA];
const NEXT: [u8; 6] = [0x83, 0x80, 0x01, 0x85, 0xBB, 0xCC];
const ORPHAN: [u8; 5] = [0x83, 0x80, 0x00, 0x99, 0xDD];

/// Taken, delivered and lost, by every kind of ending; the lowest unused rows, in turn.
#[test]
fn totals_of_a_life() {
    let mut host = Host::open(0);
    host.segment_of(0, &ALONE);
    assert_eq!(host.rows(), [(0, 0, [1, 2, 1, 2, 0, 0])]);
    host.segment_of(9, &ORPHAN);
    assert_eq!(host.rows()[1], (1, 9, [1, 1, 0, 0, 1, 1]));
    host.segment_of(9, &FIRST);
    host.segment_of(9, &NEXT);
    assert_eq!(host.rows()[1], (1, 9, [3, 4, 0, 0, 1, 1]));
    // A restart loses what was saved, and the new segment is held.
    host.segment_of(9, &FIRST);
    assert_eq!(host.rows()[1], (1, 9, [4, 5, 0, 0, 3, 4]));
    host.release(9);
    assert_eq!(host.rows()[1], (1, 9, [4, 5, 0, 0, 4, 5]));
    host.segment_of(7, &FIRST);
    host.segment_of(7, &[0x83, 0x80]);
    host.clock(100);
    assert_eq!(host.rows()[2], (2, 7, [1, 1, 0, 0, 1, 1]));
    assert_eq!(host.release(60_000).refusal, 0);
    assert_eq!(host.rows().len(), 3);
}

/// Who has no row meets 21, even where the segment would be lost at once; 10 comes first.
#[test]
fn the_65th_association() {
    let mut host = Host::open(0);
    (0..64).for_each(|association| assert_eq!(host.segment_of(association, &ALONE).refusal, 0));
    let before = host.summary;
    for parameter in [&ALONE[..], &FIRST, &ORPHAN, &[0x83, 0x80, 0x4A, 0x85]] {
        assert_eq!(host.segment_of(64, parameter).refusal, 21);
    }
    assert_eq!(host.summary, before);
    assert_eq!((host.segment_of(63, &ALONE).refusal, host.open_places()), (0, 0));
    (0..16).for_each(|association| assert_eq!(host.segment_of(association, &FIRST).refusal, 0));
    assert_eq!(host.segment_of(64, &FIRST).refusal, 10);
    assert_eq!(host.segment_of(64, &ALONE).refusal, 21);
    host.summary.totals[0][20] = TOTAL_MOST;
    assert_eq!(host.segment_of(20, &FIRST).refusal, 10);
    assert_eq!(host.segment_of(20, &ALONE).refusal, 22);
}

/// 2^63 and no more; a number to which nothing is added stays, whatever it is.
#[test]
fn totals_at_their_limit() {
    let mut host = Host::open(0);
    host.segment(&FIRST);
    for (column, most) in [(0, TOTAL_MOST - 1), (1, TOTAL_MOST - 2)] {
        let mut tried = Host::open(0);
        (tried.table, tried.summary) = (host.table, host.summary);
        tried.summary.totals[column][0] = most + 1;
        let before = tried.summary;
        assert_eq!((tried.segment(&NEXT).refusal, tried.summary), (22, before));
        tried.summary.totals[column][0] = most;
        tried.summary.totals[2][0] = u64::MAX;
        assert_eq!(tried.segment(&NEXT).refusal, 0);
        assert_eq!(tried.summary.totals[column][0], TOTAL_MOST);
        assert_eq!(tried.summary.totals[2][0], u64::MAX);
    }
    host.summary.totals[1][0] = u64::MAX;
    assert_eq!(host.segment(&[0x83, 0x80, 0x01, 0x85]).refusal, 0);
    assert_eq!(host.segment(&ORPHAN).refusal, 22);
}

/// Two losses of one octet each: both fit alone, and not together.
#[test]
fn losses_by_their_sum() {
    for (room, refusal) in [(2, 0), (1, 22)] {
        for release in [false, true] {
            let mut host = Host::open(0);
            host.segment(&FIRST);
            host.segment(&[0x83, 0x80, 0x42, 0x86, 0xAA]);
            host.summary.totals[5][0] = TOTAL_MOST - room;
            let before = (host.table, host.summary);
            let swept = if release { host.release(9) } else { host.clock(100) };
            assert_eq!(swept.refusal, refusal);
            let changed = (host.table, host.summary) != before;
            assert_eq!((swept.records, changed), if refusal == 0 { (2, true) } else { (0, false) });
        }
    }
}

#[test]
fn sound_summaries() {
    let mut host = Host::open(0);
    host.segment(&FIRST);
    let mut good = host.summary;
    for row in [3, 40] {
        (good.mark[row], good.association[row]) = (1, row as u64 + 65_000);
    }
    let mut refusal = |change: &dyn Fn(&mut Summary)| {
        (host.table, host.summary) = (host.table, good);
        change(&mut host.summary);
        let changed = host.summary;
        let number = host.release(8).refusal;
        assert_eq!(host.summary, changed);
        number
    };
    assert_eq!(refusal(&|_| {}), 0);
    assert_eq!(refusal(&|summary| summary.totals = [[0; ROWS]; 6]), 0);
    assert_eq!(refusal(&|summary| summary.totals[4][3] = u64::MAX), 0);
    assert_eq!(refusal(&|summary| summary.association[40] = 0), 0);
    assert_eq!(refusal(&|summary| summary.mark[3] = 2), 1);
    assert_eq!(refusal(&|summary| summary.mark[5] = 2), 1);
    assert_eq!(refusal(&|summary| summary.association[40] = 65_536), 1);
    assert_eq!(refusal(&|summary| summary.association[40] = 9), 1);
    assert_eq!(refusal(&|summary| summary.association[0] = 8), 1);
    assert_eq!(refusal(&|summary| (summary.mark[0], summary.association[0]) = (0, 0)), 1);
    assert_eq!(refusal(&|summary| summary.association[1] = 1), 1);
    (0..6).for_each(|column| assert_eq!(refusal(&|summary| summary.totals[column][63] = 1), 1));
}

#[test]
fn totals_lines() {
    let totals = |trace: &[Vec<u8>]| MODEL.printed(&trace.concat(), crate::Output::Totals);
    let first = event(&[0x83, 0x81, 0x41, 0x85, 0xAA]);
    let zero = [vec![32], vec![0; 8]].concat();
    let registry = vec![1, 0, 3];
    assert_eq!(totals(&[]), "");
    assert_eq!(totals(&[registry.clone(), first.clone()]), "");
    assert_eq!(totals(&[registry.clone(), first.clone(), vec![16]]), "stop\n");
    let trace = [registry.clone(), first.clone(), OPEN.to_vec()];
    assert_eq!(totals(&trace), "opening 2 0\n");
    let trace = [
        registry.clone(),
        OPEN.to_vec(),
        first.clone(),
        event(&[0x83, 0x80, 0x00, 0x85, 0xBB, 0xCC]),
        event(&[0x83, 0x80]),
        zero,
        first.clone(),
        OPEN.to_vec(),
        first,
        registry,
    ];
    let expected = "opening 1 0\n9 2 3 2 3 0 0\nopening 5 12\nopening 7 0\n9 1 1 0 0 0 0\nstop\n";
    assert_eq!(totals(&trace), expected);
}

/// At octet 1a: 5, 6, 23, 8. Whether the context is registered, 23 does not ask.
#[test]
fn octet_1a_in_order() {
    for low in [0x00, 0x03, 0x04, 0x05, 0x7F] {
        assert_eq!(refusal(&[low]), 5, "{low}");
        assert_eq!(refusal(&[low, 0x00]), 6, "{low}");
        assert_eq!(refusal(&[low, 0x00, 0x80, 0xC0]), 6, "{low}");
        assert_eq!(refusal(&[low, 0x01, 0x80, 0xC0]), 6, "{low}");
        assert_eq!(refusal(&[low, 0x80]), 23, "{low}");
        assert_eq!(refusal(&[low, 0x80, 0x80, 0xC0]), 23, "{low}");
        assert_eq!(refusal(&[low, 0x81]), 8, "{low}");
        assert_eq!(refusal(&[low, 0xFF, 0x80, 0xC0]), 8, "{low}");
    }
    // In one octet, as before.
    assert_eq!(refusal(&[0x80]), 8);
    assert_eq!(refusal(&[0x83]), 5);
    assert_eq!(refusal(&[0x83, 0x00]), 6);
    assert_eq!(Host::open(0).segment(&[0x83, 0x80, 0xC0]).refusal, 0);
}

/// What is further to the right, and what comes after reading.
#[test]
fn what_23_comes_before() {
    let cases: &[&[u8]] = &[
        &[0x03, 0x80, 0x00, 0xC0],
        &[0x03, 0x80, 0x80],
        &[0x03, 0x80, 0x80, 0x40, 0x85],
        &[0x03, 0x80, 0x80, 0x40, 0x05],
        &[0x04, 0x80, 0x80, 0xC0, 0x15],
        &[0x04, 0x80, 0x80, 0xC0, 0x02],
        &[0x03, 0x80, 0x80, 0x4A, 0x85],
        &[0x03, 0x80, 0x80, 0x00, 0x85],
    ];
    for parameter in cases {
        assert_eq!(refusal(parameter), 23, "{parameter:02X?}");
    }
    let padded = [&[0x03, 0x80], &FIRST[1..]].concat();
    let mut host = Host::open(0);
    (0..64).for_each(|association| assert_eq!(host.segment_of(association, &ALONE).refusal, 0));
    assert_eq!(host.segment_of(64, &FIRST).refusal, 21);
    assert_eq!(host.segment_of(64, &padded).refusal, 23);
    host.summary.totals[0][20] = TOTAL_MOST;
    assert_eq!(host.segment_of(20, &FIRST).refusal, 22);
    assert_eq!(host.segment_of(20, &padded).refusal, 23);
    (0..16).for_each(|association| assert_eq!(host.segment_of(association, &FIRST).refusal, 0));
    assert_eq!(host.segment_of(30, &FIRST).refusal, 10);
    assert_eq!(host.segment_of(30, &padded).refusal, 23);
}

/// What is asked of the table, of the areas and of the whole parameter.
#[test]
fn what_23_comes_after() {
    let long = |length: usize| {
        let mut parameter = vec![0x03, 0x80, 0x80, 0xC0];
        parameter.resize(length, 0);
        parameter
    };
    assert_eq!((refusal(&long(255)), refusal(&long(256))), (23, 4));
    let mut host = Host::open(0);
    assert_eq!(host.segment(&long(5)).refusal, 23);
    host.report.truncate(ARRIVAL - 1);
    assert_eq!(host.segment(&long(5)).refusal, 3);
    host.store.truncate(STORE - 1);
    assert_eq!(host.segment(&long(5)).refusal, 2);
    host.table.timer = 0;
    assert_eq!(host.segment(&long(5)).refusal, 1);
}

/// The least context that needs two octets.
#[test]
fn context_128() {
    let parameter = [0x00, 0x81, 0x80, 0xC0];
    assert_eq!(refusal(&parameter), 8);
    let mut host = Host::open_with(&[1, 0, 128], 0);
    let received = host.segment(&parameter);
    assert_eq!((received.refusal, received.decision.kind, received.records), (0, 2, 1));
    assert_eq!(host.report[..RECORD], record(18, 128, [255, 0, 0, 1], 0));
    assert_eq!(refusal_with(&[1, 0, 128], &[0x00, 0x80, 0x80, 0xC0]), 23);
    assert_eq!(refusal_with(&[1, 0, 127], &[0x7F, 0x80, 0x80, 0xC0]), 23);
    assert_eq!(Host::open_with(&[1, 0, 127], 0).segment(&[0xFF, 0x80, 0xC0]).refusal, 0);
}

/// A sequence is neither begun, continued nor broken by a padded segment, and it goes on after it.
#[test]
fn a_padded_segment_touches_nothing() {
    let mut host = Host::open(0);
    host.segment(&[0x83, 0x81, 0x41, 0x85, 0xAA]);
    let before = (host.table, host.summary, host.store.clone(), host.report.clone());
    for octet3 in [0x00, 0x01, 0x41, 0x42, 0x4A] {
        let received = host.segment(&[0x03, 0x80, 0x80, octet3, 0x85, 0xBB]);
        let refused = Received::refused(before.0, 23, 1);
        assert_eq!(received, refused);
    }
    let Host { table, summary, store, report } = &host;
    assert_eq!((*table, *summary, store, report), (before.0, before.1, &before.2, &before.3));
    let last = host.segment(&[0x83, 0x80, 0x00, 0x85, 0xBB]);
    assert_eq!(host.data(&last, &[]), [0xAA, 0xBB]);
    assert_eq!(host.rows(), [(0, 9, [2, 2, 2, 2, 0, 0])]);
}

/// Of all the octets that could be a context's, one form is accepted for each context.
#[test]
fn equal_contexts_mean_equal_octets() {
    let contexts = [1, 3, 127, 128, 129, 255, 256, 16_383_u16];
    let registry: Vec<u8> =
        contexts.iter().flat_map(|context| [1, (context >> 8) as u8, *context as u8]).collect();
    let mut host = Host::open_with(&registry, 0);
    let one = (0..=255).map(|octet: u8| vec![octet]);
    let forms = one.chain((0..=u16::MAX).map(|two| two.to_be_bytes().to_vec()));
    let mut accepted = Vec::new();
    for form in forms {
        let received = host.segment(&[&form[..], &[0x80, 0xC0]].concat());
        if received.refusal == 0 {
            assert_eq!(received.decision.kind, 2);
            accepted.push((u16::from_be_bytes([host.report[3], host.report[4]]), form));
        }
    }
    accepted.sort();
    let expected: [&[u8]; 8] = [
        &[0x81],
        &[0x83],
        &[0xFF],
        &[0x00, 0x81],
        &[0x01, 0x81],
        &[0x7F, 0x81],
        &[0x00, 0x82],
        &[0x7F, 0xFF],
    ];
    let expected: Vec<_> = contexts.into_iter().zip(expected.map(<[u8]>::to_vec)).collect();
    assert_eq!(accepted, expected);
}

/// The programs' lines of a padded segment; in the registry, as in records, a context has two
/// octets whatever it is.
#[test]
fn padded_lines() {
    let trace = [vec![1, 0, 3], OPEN.to_vec(), event(&[0x03, 0x80, 0x80, 0xC0, 0xAA])].concat();
    assert_eq!(MODEL.replay(&trace), "open 0 0 0 0\nsegment 23 0 0 0 1\n");
    let expected = "open 0 0 0 0 1 -\nsegment 23 0 0 0 1 2 0 refused 23\n";
    assert_eq!(MODEL.printed(&trace, crate::Output::Records), expected);
    assert_eq!(MODEL.printed(&trace, crate::Output::Totals), "opening 1 0\n");
}

/// A segment of context 4, reference 5 and origin 00 07.
fn towards(octet3: u8, destination: &[u8], information: &[u8]) -> Vec<u8> {
    let header = [0x84, 0x80, octet3, 0x85, 2, 0, 7, destination.len() as u8];
    [&header[..], destination, information].concat()
}

/// Destinations that are easily taken for one: by their number, and by their filled octets.
const EXCHANGES: [&[u8]; 6] = [&[7], &[0, 7], &[7, 0], &[8], &[], &[0]];

#[test]
fn sizes_of_a3_and_a6() {
    assert_eq!((RECORD, SWEEP, ARRIVAL, OLD_RECORD, OLD_SWEEP), (53, 848, 901, 32, 512));
    assert_eq!((DELIVERED, LOST), (18, 19));
}

/// One origin and one reference: the sequences are begun, continued and delivered in turn, each
/// with its own data.
#[test]
fn destinations_keep_sequences_apart() {
    let mut host = Host::open(0);
    for (number, destination) in EXCHANGES.iter().enumerate() {
        let received = host.segment(&towards(0x42, destination, &[number as u8]));
        assert_eq!((received.decision.kind, received.decision.place), (1, number));
        let key = host.table.places[number].key;
        assert_eq!(
            (key.origin.counting(), key.destination.counting()),
            (&[0, 7][..], *destination)
        );
    }
    for (number, destination) in EXCHANGES.iter().enumerate().rev() {
        let received = host.segment(&towards(0x01, destination, &[0x10 + number as u8]));
        assert_eq!((received.decision.kind, received.decision.place), (1, number));
    }
    for (number, destination) in EXCHANGES.iter().enumerate() {
        let received = host.segment(&towards(0x00, destination, &[0x20 + number as u8]));
        let number = number as u8;
        assert_eq!(host.data(&received, &[]), [number, 0x10 + number, 0x20 + number]);
        let expected = addressed(18, 4, [5, 0, 0, 3], 3, [&[0, 7], destination]);
        assert_eq!(host.report[..RECORD], expected);
    }
    assert_eq!(host.open_places(), 0);
}

/// Not open for this destination: the other sequence stays as it was and can be ended.
#[test]
fn another_destination_is_not_open() {
    for other in &EXCHANGES[1..] {
        let mut host = Host::open(0);
        host.segment(&towards(0x41, &[7], &[0xAA]));
        let place = host.table.places[0];
        for (octet3, expected) in [(0x00, 1), (0x03, 1), (0x0A, 4), (0x4A, 4)] {
            let received = host.segment(&towards(octet3, other, &[0xBB, 0xCC]));
            assert_eq!((cause(&host, &received), received.decision.place), (expected, PLACES));
            let record = addressed(19, 4, [5, 0, expected, 1], 2, [&[0, 7], other]);
            assert_eq!(host.report[..RECORD], record);
            assert_eq!((host.table.places[0], host.open_places()), (place, 1));
        }
        assert_eq!(host.segment(&towards(0x42, other, &[0xDD])).decision.place, 1);
        let restarted = host.segment(&towards(0x41, other, &[]));
        assert_eq!((cause(&host, &restarted), restarted.decision.place), (3, 1));
        assert_eq!(host.table.places[0], place);
        let last = host.segment(&towards(0x00, &[7], &[0xEE]));
        assert_eq!(host.data(&last, &[]), [0xAA, 0xEE]);
    }
}

/// An unsegmented parameter is recorded with its own addresses, and touches no sequence.
#[test]
fn unsegmented_with_a_destination() {
    let twenty: Vec<u8> = (1..=20).collect();
    for destination in [&[][..], &[7], &[0, 0], &twenty] {
        let mut host = Host::open(0);
        host.segment(&towards(0x41, destination, &[0xAA]));
        let table = host.table;
        let mut parameter = vec![0x84, 0x82, 0xC0, 1, 9, destination.len() as u8];
        parameter.extend(destination);
        parameter.push(0xBB);
        let received = host.segment(&parameter);
        assert_eq!((host.data(&received, &parameter), received.table), (vec![0xBB], table));
        let expected = addressed(18, 4, [255, 2, 0, 1], 1, [&[9], destination]);
        assert_eq!(host.report[..RECORD], expected);
        assert!(host.report[RECORD..].iter().all(|octet| *octet == 0xEE));
    }
}

#[test]
fn no_addresses_in_1998() {
    let mut host = Host::open(0);
    host.segment(&[0x83, 0x80, 0x41, 0x85, 1, 7]);
    let key = Key { association: 9, context: 3, reference: 5, ..Key::default() };
    assert_eq!(host.table.places[0].key, key);
    host.segment(&[0x83, 0x80, 0x00, 0x85, 1, 8]);
    assert_eq!(host.report[..RECORD], record(18, 3, [5, 0, 0, 2], 4));
}

/// The clock and a release record each destination, in place order.
#[test]
fn swept_destinations() {
    for (release, why) in [(false, 6), (true, 7)] {
        let mut host = Host::open(0);
        for destination in EXCHANGES {
            host.segment(&towards(0x41, destination, &[0xAA]));
        }
        let swept = if release { host.release(9) } else { host.clock(100) };
        assert_eq!((usize::from(swept.records), host.open_places()), (EXCHANGES.len(), 0));
        for (record, destination) in host.report.chunks(RECORD).zip(EXCHANGES) {
            assert_eq!(record, addressed(19, 4, [5, 0, why, 1], 1, [&[0, 7], destination]));
        }
        assert!(host.report[EXCHANGES.len() * RECORD..].iter().all(|octet| *octet == 0xEE));
    }
}

#[test]
fn least_reports() {
    for length in 0..=ARRIVAL {
        let mut host = Host::open(0);
        host.report.truncate(length);
        let refusal = if length == ARRIVAL { 0 } else { 3 };
        assert_eq!(host.segment(&ALONE).refusal, refusal, "{length}");
        assert_eq!(host.report.iter().all(|octet| *octet == 0xEE), refusal != 0);
    }
    for (length, refusal) in [(848, 0), (847, 3), (512, 3), (53, 3), (0, 3)] {
        let mut host = Host::open(0);
        host.segment(&FIRST);
        host.report.truncate(length);
        assert_eq!(host.clock(1).refusal, refusal, "{length}");
        assert_eq!(host.release(9).refusal, refusal, "{length}");
    }
}

/// A place's destination is judged as its origin is.
#[test]
fn sound_destinations() {
    let mut host = Host::open(0);
    host.segment(&towards(0x41, &[7], &[]));
    host.segment(&[0x83, 0x80, 0x41, 0x85]);
    let good = host.table;
    let mut refusal = |index: usize, length: u8, octets: &[(usize, u8)]| {
        host.table = good;
        let destination = &mut host.table.places[index].key.destination;
        *destination = Address { length, ..Address::default() };
        octets.iter().for_each(|(at, octet)| destination.octets[*at] = *octet);
        let changed = host.table;
        let number = host.clock(1).refusal;
        assert!(number == 0 || host.table == changed);
        number
    };
    for length in 0..=255 {
        assert_eq!(refusal(0, length, &[]), if length <= 20 { 0 } else { 1 }, "{length}");
        assert_eq!(refusal(1, length, &[]), u8::from(length > 0), "{length}");
        assert_eq!(refusal(2, length, &[]), u8::from(length > 0), "{length}");
    }
    for at in 0..20 {
        for length in 0..=20 {
            let expected = u8::from(at >= usize::from(length));
            assert_eq!(refusal(0, length, &[(at, 1)]), expected, "{at} of {length}");
        }
        assert_eq!((refusal(1, 0, &[(at, 1)]), refusal(2, 0, &[(at, 128)])), (1, 1), "{at}");
    }
}

/// Two open places are apart by the destination alone, and not where it is the same.
#[test]
fn sound_neighbours() {
    for (i, one) in EXCHANGES.iter().enumerate() {
        for (j, other) in EXCHANGES.iter().enumerate() {
            let mut host = Host::open(0);
            host.segment(&towards(0x41, one, &[]));
            host.table.places[9] = host.table.places[0];
            host.table.places[9].key.destination = Address::of(other);
            assert_eq!(host.clock(1).refusal, u8::from(i == j), "{one:?} and {other:?}");
        }
    }
}

/// Records are none of a trace's, neither the old nor the new, whole or cut.
#[test]
fn records_stop_a_trace() {
    for (kind, length) in [(16, 32), (17, 32), (18, 53), (19, 53)] {
        for length in [1, length] {
            let mut record = vec![0; length];
            record[0] = kind;
            let trace = [&[1, 0, 3], &OPEN[..], &record, &[35, 0, 9]].concat();
            assert_eq!(MODEL.replay(&trace), "open 0 0 0 0\nstop\n", "{kind}");
            let totals = MODEL.printed(&trace, crate::Output::Totals);
            assert_eq!(totals, "opening 1 0\nstop\n", "{kind}");
        }
    }
}

/// The destination is the last field, in the form of the origin.
#[test]
fn destinations_in_lines() {
    let trace = [
        vec![2, 0, 4],
        OPEN.to_vec(),
        event(&towards(0x41, &[1, 2], &[0xAA])),
        event(&towards(0x00, &[1, 2], &[0xBB, 0xCC])),
        event(&[0x84, 0x80, 0x00, 0x85, 1, 7, 0, 0xDD]),
        event(&towards(0x41, &[0xAB, 0], &[])),
        event(&towards(0x41, &[0xAB], &[])),
        OPEN.to_vec(),
        event(&[0x84, 0x80, 0x41, 0x85, 0, 3, 0, 0, 0x0F]),
    ];
    let expected =
        "open 0 0 0 0 1 -\nsegment 0 0 0 0 - 2 0 saved 0\nsegment 0 1 3 0 - 3 0 delivered\n\
        delivered 9 4 5 0 0 2 3 0007 0102\nsegment 0 1 0 1 - 4 0 lost\nlost 9 4 5 0 1 1 1 07 -\n\
        segment 0 0 0 0 - 5 0 saved 0\nsegment 0 0 0 0 - 6 0 saved 1\nopen 0 0 0 0 7 -\n\
        dropped 9 4 5 0 0 1 0 0007 AB00\ndropped 9 4 5 0 0 1 0 0007 AB\n\
        segment 0 0 0 0 - 8 0 saved 0\nheld 9 4 5 0 0 1 0 - 00000F\n";
    assert_eq!(records(&trace), expected);
}

/// With octet 1a all that follows stands one later, and with 3a the addresses do.
#[test]
fn positions_after_1a_and_3a() {
    let registry = [1, 0, 128, 2, 1, 0];
    let cases: &[(&[u8], u8, u16)] = &[
        (&[0x00, 0x81], 5, 2),
        (&[0x00, 0x81, 0x00], 6, 2),
        (&[0x00, 0x81, 0x80], 5, 3),
        (&[0x00, 0x81, 0x80, 0xC1], 7, 3),
        (&[0x00, 0x81, 0x80, 0x40, 0x85], 7, 3),
        (&[0x00, 0x81, 0x80, 0x41], 5, 4),
        (&[0x00, 0x81, 0x80, 0x41, 0x05], 6, 4),
        (&[0x01, 0x81, 0x80, 0x41, 0x05], 8, 1),
        (&[0x00, 0x82, 0x80, 0xC0], 5, 4),
        (&[0x00, 0x82, 0x80, 0xC0, 0x15], 9, 4),
        (&[0x00, 0x82, 0x80, 0x41, 0x85, 0xFF], 9, 5),
        (&[0x00, 0x82, 0x80, 0x41, 0x85, 2, 7], 5, 7),
        (&[0x00, 0x82, 0x80, 0x41, 0x85, 2, 7, 7], 5, 8),
        (&[0x00, 0x82, 0x80, 0x41, 0x85, 2, 7, 7, 21], 9, 8),
        (&[0x00, 0x82, 0x80, 0x41, 0x85, 2, 7, 7, 3, 1, 2], 5, 11),
    ];
    for (parameter, number, position) in cases {
        assert_eq!(refused(&registry, parameter), (*number, *position), "{parameter:02X?}");
    }
}

/// A segment that is taken, and the refusals that are at no octet.
#[test]
fn nowhere() {
    let mut host = Host::open(0);
    for parameter in [&[0x83, 0x80, 0xC0][..], &[0x83, 0x80, 0x41, 0x85], &[0x83, 0x80, 0, 0x86]] {
        let received = host.segment(parameter);
        assert_eq!((received.refusal, received.position), (0, NOWHERE));
    }
    assert_eq!(refused(&REGISTRY, &[0x05; 256]), (4, NOWHERE));
    let Host { mut summary, .. } = host;
    let unopened = Table::default();
    for (table, store, report, time, number) in [
        (unopened, STORE, ARRIVAL, 0, 1),
        (host.table, 1, ARRIVAL, 0, 2),
        (host.table, STORE, 1, 0, 3),
        (host.table, STORE, ARRIVAL, 1 << 31, 13),
    ] {
        let (mut store, mut report) = (vec![0; store], vec![0; report]);
        let arrival = Arrival { time, association: 9, parameter: &[0x05] };
        let received = MODEL.arrival(table, &mut summary, &mut store, &mut report, arrival);
        assert_eq!((received.refusal, received.position), (number, NOWHERE));
    }
    for reference in 0x90..=0x9F {
        host.segment(&[0x83, 0x80, 0x41, reference]);
    }
    let received = host.segment(&[0x83, 0x80, 0x41, 0xFF]);
    assert_eq!((received.refusal, received.position), (10, NOWHERE));
}

/// The line of a segment ends with the position or with `-`; no other line has the field.
#[test]
fn positions_in_lines() {
    let trace = [
        event(&[0x05, 0x05]),
        vec![1, 0, 3],
        OPEN.to_vec(),
        event(&[0x05, 0x05]),
        event(&[]),
        event(&[0x83, 0x80, 0xC0, 1, 2, 3, 4, 5]),
        event(&[0x85]),
        vec![34, 0, 0, 0, 1],
        vec![35, 0, 9],
        vec![36],
    ];
    let expected = "segment 1 0 0 0 -\nopen 0 0 0 0\nsegment 6 0 0 0 1\nsegment 5 0 0 0 0\n\
        segment 0 1 5 0 -\nsegment 8 0 0 0 0\nclock 0 0 0 0\nrelease 0 0 0 0\nstop\n";
    assert_eq!(MODEL.replay(&trace.concat()), expected);
    let expected = "segment 1 0 0 0 - 1 0 refused 1\nopen 0 0 0 0 2 -\n\
        segment 6 0 0 0 1 3 0 refused 6\nsegment 5 0 0 0 0 4 0 refused 5\n\
        segment 0 1 5 0 - 5 0 delivered\ndelivered 9 3 - 0 0 1 5 - -\n\
        segment 8 0 0 0 0 6 0 refused 8\nclock 0 0 0 0 7 -\nrelease 0 0 0 0 8 -\nstop\n";
    assert_eq!(records(&trace), expected);
}

const BEGIN: [u8; 6] = [0x83, 0x81, 0x41, 0x90, 0xAA, 0xBB];

/// A table with a sequence of two octets, begun at 0, that is due at 100.
fn one_due() -> Host {
    let mut host = Host::open(0);
    assert_eq!(host.segment(&BEGIN).decision.kind, 1);
    host
}

/// As many sequences as there are places, each of one octet, begun at 0.
fn full() -> Host {
    let mut host = Host::open(0);
    (0x80..0x90).for_each(|reference| {
        assert_eq!(host.segment(&[0x83, 0x80, 0x41, reference, reference]).decision.kind, 1);
    });
    host
}

/// The records of a report, and that the rest of it stayed.
fn reported(host: &Host, received: &Received) -> Vec<Vec<u8>> {
    let (made, rest) = host.report.split_at(RECORD * usize::from(received.records));
    assert!(rest.iter().all(|octet| *octet == 0xEE));
    made.chunks(RECORD).map(<[u8]>::to_vec).collect()
}

/// Everything a call could change, but for the table it answers.
fn state(host: &Host) -> (Summary, Vec<u8>, Vec<u8>) {
    (host.summary, host.store.clone(), host.report.clone())
}

/// Refused, with everything as it came.
fn undone(host: &mut Host, time: u32, parameter: &[u8]) -> u8 {
    let before = (host.table, state(host));
    let received = host.at(time, parameter);
    assert_eq!(received, Received::refused(before.0, received.refusal, NOWHERE));
    assert_eq!((host.table, state(host)), before);
    received.refusal
}

/// The sequence is lost by the timer, and then its segment is judged: it has none to go on with.
#[test]
fn a_segment_whose_arrival_times_its_sequence_out() {
    let lost = record(19, 3, [0x10, 1, 6, 1], 2);
    for (octet3, cause) in [(0x00, 1), (0x03, 1), (0x0A, 4), (0x4A, 4)] {
        let mut host = one_due();
        let received = host.at(100, &[0x83, 0x82, octet3, 0x90, 0xCC]);
        assert_eq!((received.refusal, received.records, received.timeouts), (0, 2, 1));
        assert_eq!((received.decision.kind, received.decision.cause), (4, cause));
        assert_eq!(received.decision.place, PLACES);
        let own = record(19, 3, [0x10, 2, cause, 1], 1);
        assert_eq!(reported(&host, &received), [lost.clone(), own]);
        assert_eq!((host.open_places(), host.table.clock), (0, 100));
        assert_eq!(host.rows(), [(0, 9, [2, 3, 0, 0, 2, 3])]);
    }
    // A first one begins it anew: nothing is left to restart.
    let mut host = one_due();
    let received = host.at(100, &[0x83, 0x82, 0x41, 0x90, 0xCC]);
    assert_eq!((received.records, received.timeouts, received.decision.kind), (1, 1, 1));
    assert_eq!(reported(&host, &received), [lost]);
    assert_eq!(host.rows(), [(0, 9, [2, 3, 0, 0, 1, 2])]);
    // One tick earlier it is in time.
    let mut host = one_due();
    let received = host.at(99, &[0x83, 0x82, 0x00, 0x90, 0xCC]);
    assert_eq!((received.records, received.timeouts, received.decision.kind), (1, 0, 3));
    assert_eq!(host.data(&received, &[]), [0xAA, 0xBB, 0xCC]);
}

/// Neither the table's old time nor a later segment sets the start.
#[test]
fn the_start_is_the_arrivals_time() {
    let mut host = Host::open(4_294_967_290);
    let received = host.at(5, &BEGIN);
    assert_eq!((received.table.places[0].start, received.table.clock), (5, 5));
    let received = host.at(8, &[0x83, 0x80, 0x41, 0x91]);
    assert_eq!((received.table.places[1].start, received.table.places[0].start), (8, 5));
    let received = host.at(9, &BEGIN);
    assert_eq!((received.decision.cause, received.table.places[0].start), (3, 9));
    assert_eq!(host.segment(&[0x83, 0x80, 0x43, 0x92]).table.places[2].start, 9);
    let received = host.at(12, &[0x83, 0x80, 0x02, 0x92]);
    assert_eq!((received.table.places[2].start, received.table.clock), (9, 12));
    // From its own time on, each is due after T ticks.
    assert_eq!(host.clock(107).records, 0);
    assert_eq!((host.clock(108).records, host.clock(109).records), (1, 2));
}

/// A full table has room again when the arrival's clock has emptied a place, and not before.
#[test]
fn a_place_that_is_freed_is_taken() {
    let first = [0x83, 0x80, 0x42, 0xFF, 0xDD];
    let mut host = full();
    assert_eq!((host.segment(&first).refusal, host.at(99, &first).refusal), (10, 10));
    let received = host.at(100, &first);
    assert_eq!((received.refusal, received.records, received.timeouts), (0, 16, 16));
    assert_eq!((received.decision.kind, received.decision.place), (1, 0));
    assert_eq!((host.open_places(), host.table.places[0].start), (1, 100));
    assert_eq!(host.store[..2], [0xDD, 0xEE]);
    let mut host = full();
    host.at(50, &[0x83, 0x80, 0x00, 0x87]);
    host.at(50, &[0x83, 0x80, 0x41, 0x87]);
    for index in (0..PLACES).filter(|index| *index != 5) {
        host.table.places[index].start = 50;
    }
    let received = host.at(100, &first);
    assert_eq!((received.records, received.timeouts, received.decision.place), (1, 1, 5));
    assert_eq!(host.open_places(), PLACES);
    assert_eq!(host.report[..RECORD], record(19, 3, [5, 0, 6, 1], 1));
}

/// All the sequences and the segment: the clock's in place order, and the segment's behind them.
#[test]
fn seventeen_records() {
    let mut host = full();
    let received = host.at(u32::MAX >> 1, &ALONE);
    assert_eq!((received.refusal, received.records, received.timeouts), (0, 17, 16));
    assert_eq!(host.data(&received, &ALONE), [0xAA, 0xBB]);
    let records = reported(&host, &received);
    for (reference, lost) in records[..16].iter().enumerate() {
        assert_eq!(*lost, record(19, 3, [reference as u8, 0, 6, 1], 1));
    }
    assert_eq!(records[16], record(18, 3, [255, 0, 0, 1], 2));
    assert_eq!(host.rows(), [(0, 9, [17, 18, 1, 2, 16, 16])]);
}

/// The clock's work stands where the segment is refused by 4 to 10, 21 or 23: table, summary and
/// report have it, and the number and its position are the segment's.
#[test]
fn refused_beside_a_loss() {
    let long = [0x05; 256];
    let cases: &[(&[u8], u8, u16)] = &[
        (&long, 4, NOWHERE),
        (&[0x83, 0x80], 5, 2),
        (&[0x83, 0x00], 6, 1),
        (&[0x83, 0x80, 0x40, 0x85], 7, 2),
        (&[0x85], 8, 0),
        (&[0x84, 0x80, 0xC0, 0x15], 9, 3),
        (&[0x03, 0x80], 23, 1),
    ];
    for (parameter, number, position) in cases {
        let mut host = one_due();
        let store = host.store.clone();
        let received = host.at(100, parameter);
        let table = Table { clock: 100, ..Host::open(0).table };
        let refused = Received::refused(table, *number, *position);
        assert_eq!(received, Received { records: 1, timeouts: 1, ..refused });
        assert_eq!(reported(&host, &received), [record(19, 3, [0x10, 1, 6, 1], 2)]);
        assert_eq!((host.store == store, host.rows()), (true, vec![(0, 9, [1, 2, 0, 0, 1, 2])]));
    }
    let mut host = one_due();
    (1_000..1_063).for_each(|who| assert_eq!(host.segment_of(who, &ALONE).refusal, 0));
    host.report.fill(0xEE);
    let received = host.arrival(Arrival { time: 100, association: 8, parameter: &ALONE });
    let Received { refusal, records, timeouts, position, .. } = received;
    assert_eq!((refusal, records, timeouts, position), (21, 1, 1, NOWHERE));
    assert_eq!((host.rows().len(), host.rows()[0].2), (64, [1, 2, 0, 0, 1, 2]));
    assert_eq!((reported(&host, &received).len(), host.open_places()), (1, 0));
}

/// With none due, the time is all that stands beside a refusal.
#[test]
fn refused_with_none_due() {
    for (mut host, parameter, number) in
        [(full(), &[0x83, 0x80, 0x41, 0xFF][..], 10), (one_due(), &[0x85], 8)]
    {
        let (table, before) = (host.table, state(&host));
        let received = host.at(42, parameter);
        assert_eq!((received.refusal, received.records, received.timeouts), (number, 0, 0));
        assert_eq!(received.table, Table { clock: 42, ..table });
        assert!(state(&host) == before);
    }
}

/// 22 on either part undoes both: the time, the losses and the segment.
#[test]
fn a_22_undoes_both_parts() {
    // The clock's, whatever the segment is, and whoever sends it.
    for parameter in [&ALONE[..], &FIRST, &[0x85], &[0x05; 256]] {
        for association in [9, 8] {
            let mut host = one_due();
            host.summary.totals[5][0] = TOTAL_MOST - 1;
            let (table, before) = (host.table, state(&host));
            let received = host.arrival(Arrival { time: 100, association, parameter });
            assert_eq!(received, Received::refused(table, 22, NOWHERE));
            assert!(state(&host) == before);
            // At the table's own time nothing is lost, and nothing too large.
            assert_ne!(host.segment_of(association, parameter).refusal, 22);
        }
    }
    // The segment's, beside losses of its own association and of another.
    for association in [9, 8] {
        let mut host = one_due();
        host.segment_of(association, &ALONE);
        let row = host.rows().len() - 1;
        host.summary.totals[0][row] = TOTAL_MOST;
        let (table, before) = (host.table, state(&host));
        let received = host.arrival(Arrival { time: 100, association, parameter: &ALONE });
        assert_eq!(received, Received::refused(table, 22, NOWHERE));
        assert!(state(&host) == before);
        assert_eq!((host.clock(100).refusal, host.open_places()), (0, 0));
    }
}

/// Two octets by the timer and one by the segment: what is added to one total counts together.
#[test]
fn judged_with_the_clocks_sums() {
    let orphan = [0x83, 0x80, 0x00, 0x90, 0xCC];
    for (column, both) in [(4, 2), (5, 3)] {
        let mut host = one_due();
        host.summary.totals[column][0] = TOTAL_MOST - both + 1;
        assert_eq!(undone(&mut host, 100, &orphan), 22);
        // Each alone has room.
        let (table, summary) = (host.table, host.summary);
        assert_eq!(host.clock(100).refusal, 0);
        (host.table, host.summary) = (table, summary);
        assert_eq!(host.segment(&[0x83, 0x80, 0x00, 0x91, 0xCC]).refusal, 0);
        let mut host = one_due();
        host.summary.totals[column][0] = TOTAL_MOST - both;
        assert_eq!((host.at(100, &orphan).refusal, host.rows()[0].2[column]), (0, TOTAL_MOST));
    }
    // What only the clock adds to is judged once; what nothing is added to stays.
    let mut host = one_due();
    (host.summary.totals[5][0], host.summary.totals[4][0]) = (TOTAL_MOST - 2, TOTAL_MOST - 1);
    assert_eq!(host.at(100, &ALONE).refusal, 0);
    assert_eq!((host.rows()[0].2[4], host.rows()[0].2[5]), (TOTAL_MOST, TOTAL_MOST));
    let mut host = one_due();
    host.summary.totals[5][0] = u64::MAX;
    assert_eq!((host.at(99, &ALONE).refusal, host.rows()[0].2[5]), (0, u64::MAX));
}

/// 1, 2, 3 and 13, then the clock's 22, then 4, 5 to 9 and 23, 10, 21 and the segment's 22. All of
/// them hold at first, or all that can; in turn each is mended.
#[test]
fn an_arrivals_refusals_in_order() {
    const BACK: u32 = u32::MAX;
    let mut host = full();
    (1_000..1_063).for_each(|who| assert_eq!(host.segment_of(who, &ALONE).refusal, 0));
    let [stranger, other] = [8, 1_000];
    host.summary.totals[4][0] = TOTAL_MOST;
    host.summary.totals[0][1] = TOTAL_MOST;
    host.store.truncate(STORE - 1);
    host.report = vec![0xEE; ARRIVAL - 1];
    host.table.places[3].instruction = 4;
    let mut refusal = |mend: &dyn Fn(&mut Host), time: u32, association: u16, parameter: &[u8]| {
        mend(&mut host);
        let arrival = Arrival { time, association, parameter };
        let received = host.arrival(arrival);
        assert_eq!((received.records, received.timeouts), (0, 0));
        received.refusal
    };
    let (long, padded) = ([0x03; 256], [0x03, 0x80]);
    let begin = [0x83, 0x80, 0x41, 0xFF];
    assert_eq!(refusal(&|_| {}, BACK, stranger, &long), 1);
    assert_eq!(refusal(&|host| host.table.places[3].instruction = 0, BACK, stranger, &long), 2);
    assert_eq!(refusal(&|host| host.store.push(0), BACK, stranger, &long), 3);
    assert_eq!(refusal(&|host| host.report.push(0xEE), BACK, stranger, &long), 13);
    assert_eq!(refusal(&|_| {}, 100, stranger, &long), 22);
    assert_eq!(refusal(&|_| {}, 100, stranger, &padded), 22);
    assert_eq!(refusal(&|_| {}, 100, stranger, &begin), 22);
    assert_eq!(refusal(&|_| {}, 1, stranger, &long), 4);
    assert_eq!(refusal(&|_| {}, 1, stranger, &padded), 23);
    assert_eq!(refusal(&|_| {}, 2, stranger, &[0x85]), 8);
    assert_eq!(refusal(&|_| {}, 2, stranger, &begin), 10);
    assert_eq!(refusal(&|_| {}, 2, other, &begin), 10);
    assert_eq!(refusal(&|_| {}, 3, stranger, &ALONE), 21);
    assert_eq!(refusal(&|_| {}, 3, other, &ALONE), 22);
}

/// A short store and a bad step is 2, a short report and a bad step 3, and a table that is not
/// sound 1.
#[test]
fn areas_before_the_step() {
    for (store, report, number) in
        [(STORE - 1, ARRIVAL, 2), (0, 0, 2), (STORE, ARRIVAL - 1, 3), (STORE, ARRIVAL, 13)]
    {
        let mut host = one_due();
        host.store.truncate(store);
        host.report.truncate(report);
        for time in [1 << 31, u32::MAX, (1 << 31) + 1] {
            assert_eq!(undone(&mut host, time, &ALONE), number);
        }
        host.table.timer = 0;
        assert_eq!(undone(&mut host, u32::MAX, &ALONE), 1);
    }
    let mut host = one_due();
    assert_eq!(host.at((1 << 31) - 1, &ALONE).refusal, 0);
}

/// The report is asked for whole, even where nothing is due; the clock and a release ask for less.
#[test]
fn an_arrivals_report() {
    for length in [0, 53, 847, 848, 900] {
        let mut host = one_due();
        host.report.truncate(length);
        for time in [0, 1, 100] {
            assert_eq!(undone(&mut host, time, &ALONE), 3, "{length}");
        }
        let expected = if length < SWEEP { 3 } else { 0 };
        assert_eq!((host.clock(1).refusal, host.release(8).refusal), (expected, expected));
    }
}

/// An arrival is a clock call and then an arrival at that time, wherever neither meets 22.
#[test]
fn an_arrival_is_two_calls() {
    let parameters: &[&[u8]] =
        &[&ALONE, &BEGIN, &FIRST, &NEXT, &ORPHAN, &[0x83, 0x80, 0, 0x90], &[0x85], &[]];
    for (start, parameter) in
        [0, u32::MAX - 60].iter().flat_map(|start| parameters.iter().map(move |p| (*start, p)))
    {
        for step in (0..=210).chain([(1 << 31) - 1]) {
            let time = start.wrapping_add(step);
            let mut host = Host::open(start);
            host.segment(&FIRST);
            host.at(start.wrapping_add(40), &[0x83, 0x81, 0x42, 0x90, 1]);
            host.segment_of(7, &FIRST);
            let age = host.table.clock.wrapping_sub(start);
            let (store, report) = (host.store.clone(), host.report.clone());
            let mut other = Host { store, report, ..host };
            let one = host.at(time, parameter);
            let swept = other.clock(time);
            if step < age {
                assert_eq!((one.refusal, swept.refusal), (13, 13));
                continue;
            }
            let mut lost = other.report[..RECORD * usize::from(swept.records)].to_vec();
            let two = other.at(time, parameter);
            let own = usize::from(two.records);
            lost.extend(&other.report[..RECORD * own]);
            let records = swept.records + two.records;
            assert_eq!(one, Received { records, timeouts: swept.records, ..two });
            assert_eq!((host.summary, &host.store), (other.summary, &other.store));
            assert_eq!(host.report[..lost.len()], lost);
        }
    }
}

/// The time stands before the association, most significant octet first. The line is named as
/// before, and a refused segment's has what the clock lost.
#[test]
fn timed_segments_in_a_trace() {
    assert_eq!(event_at(0, &[]).len(), 1 + 262);
    let trace = [
        vec![1, 0, 3],
        OPEN.to_vec(),
        event_at(2, &BEGIN),
        event_at(3, &[0x83, 0x80, 0x42, 0x91, 0xCC]),
        event_at(102, &[0x85]),
        event_at(101, &ALONE),
        event_at(103, &[0x83, 0x80, 0x01, 0x91, 0xDD, 0xDD]),
        event_at(1_000, &ALONE),
        vec![34, 0, 0, 3, 0xE8],
        event_at(1_000, &BEGIN),
        event_at(0x4000_0000, &ALONE),
        event_at(0xC000_0000, &ALONE),
    ];
    let expected = "open 0 0 0 0\nsegment 0 0 0 0 -\nsegment 0 0 0 0 -\nsegment 8 1 0 2 0\n\
        segment 13 0 0 0 -\nsegment 0 2 0 3 -\nsegment 0 1 2 0 -\nclock 0 0 0 0\n\
        segment 0 0 0 0 -\nsegment 0 2 2 2 -\nsegment 13 0 0 0 -\n";
    assert_eq!(MODEL.replay(&trace.concat()), expected);
    let expected = "open 0 0 0 0 1 -\nsegment 0 0 0 0 - 2 0 saved 0\nsegment 0 0 0 0 - 3 0 saved 1\n\
        segment 8 1 0 2 0 4 1 refused 8\nlost 9 3 16 1 6 1 2 - -\nsegment 13 0 0 0 - 5 0 refused 13\n\
        segment 0 2 0 3 - 6 1 lost\nlost 9 3 17 0 6 1 1 - -\nlost 9 3 17 0 1 1 2 - -\n\
        segment 0 1 2 0 - 7 0 delivered\ndelivered 9 3 - 0 0 1 2 - -\nclock 0 0 0 0 8 -\n\
        segment 0 0 0 0 - 9 0 saved 0\nsegment 0 2 2 2 - 10 1 delivered\nlost 9 3 16 1 6 1 2 - -\n\
        delivered 9 3 - 0 0 1 2 - -\nsegment 13 0 0 0 - 11 0 refused 13\n";
    assert_eq!(records(&trace), expected);
    let totals = MODEL.printed(&trace.concat(), crate::Output::Totals);
    assert_eq!(totals, "opening 1 0\n9 6 11 2 4 4 7\n");
}

/// A record of kind 33 is whole with 263 octets, and cut with fewer, as one of before A6 is.
#[test]
fn the_length_of_a_timed_segment() {
    let front = [&[1, 0, 3], &OPEN[..]].concat();
    let whole = event_at(7, &ALONE);
    for length in 1..=whole.len() {
        let trace = [&front[..], &whole[..length]].concat();
        let line = if length == whole.len() { "segment 0 1 2 0 -" } else { "stop" };
        assert_eq!(MODEL.replay(&trace), format!("open 0 0 0 0\n{line}\n"));
    }
}
