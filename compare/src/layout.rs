//! The shapes as the library has them, asserted: one that is linked takes the structs as they lie,
//! and one behind a pipe takes the same octets.

use std::mem::{offset_of, size_of};

use model::*;

const _: () = {
    assert!(size_of::<Address>() == 21 && offset_of!(Address, octets) == 0);
    assert!(offset_of!(Address, length) == 20);
    assert!(size_of::<Key>() == 48 && offset_of!(Key, association) == 0);
    assert!(offset_of!(Key, context) == 2 && offset_of!(Key, origin) == 4);
    assert!(offset_of!(Key, destination) == 25 && offset_of!(Key, reference) == 46);
    assert!(size_of::<Place>() == 60 && offset_of!(Place, key) == 0);
    assert!(offset_of!(Place, octets) == 48 && offset_of!(Place, start) == 52);
    assert!(offset_of!(Place, mark) == 56 && offset_of!(Place, instruction) == 57);
    assert!(offset_of!(Place, remaining) == 58 && offset_of!(Place, segments) == 59);
    assert!(size_of::<Entry>() == 4 && offset_of!(Entry, kind) == 2);
    assert!(size_of::<Table>() == 1_000 && offset_of!(Table, registry) == 960);
    assert!(offset_of!(Table, timer) == 992 && offset_of!(Table, clock) == 996);
    assert!(size_of::<Decision>() == 32 && offset_of!(Decision, start) == 8);
    assert!(offset_of!(Decision, length) == 16 && offset_of!(Decision, kind) == 24);
    assert!(offset_of!(Decision, cause) == 25);
    assert!(size_of::<Received>() == 1_040 && offset_of!(Received, decision) == 1_000);
    assert!(offset_of!(Received, refusal) == 1_032 && offset_of!(Received, records) == 1_033);
    // And the header's EGRYNNOL_NOWHERE.
    assert!(offset_of!(Received, position) == 1_034 && NOWHERE == 65_535);
    assert!(offset_of!(Received, timeouts) == 1_036);
    assert!(size_of::<Swept>() == 1_004 && offset_of!(Swept, refusal) == 1_000);
    assert!(offset_of!(Swept, records) == 1_001);
    assert!(size_of::<Opened>() == 1_004 && offset_of!(Opened, refusal) == 1_000);
    assert!(size_of::<Request>() == 32 && offset_of!(Request, instruction) == 2);
    assert!(offset_of!(Request, reference) == 3 && offset_of!(Request, room1) == 8);
    assert!(offset_of!(Request, room) == 16 && offset_of!(Request, number) == 24);
    assert!(size_of::<Sent>() == 4 && offset_of!(Sent, count) == 1);
    assert!(offset_of!(Sent, length) == 2);
    assert!(size_of::<Part>() == 24 && offset_of!(Part, length) == 8);
    assert!(offset_of!(Part, source) == 16);
    assert!(size_of::<Summary>() == 4_096 && offset_of!(Summary, association) == 512);
    assert!(offset_of!(Summary, totals) == 1_024 && size_of::<[u64; ROWS]>() == 512);
    // The header's EGRYNNOL_RECORD, EGRYNNOL_REPORT_SWEEP and EGRYNNOL_REPORT_ARRIVAL, and where a
    // record's addresses are.
    assert!(RECORD == 53 && SWEEP == 848 && ARRIVAL == 901);
    assert!(ORIGIN_AT == 11 && DESTINATION_AT == 32);
};
