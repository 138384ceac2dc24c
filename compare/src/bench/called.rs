//! The model, called as the library is: by calls that the compiler cannot look into.

use std::hint::black_box;

use crate::side::Side;
use model::*;

/// The model without its faults, which the library has not got either.
const MODEL: Unbroken = Unbroken::PLAIN;

pub struct Called;

type Opening = fn(&Unbroken, &mut Summary, &[u8], u32, u32) -> Opened;
type Arriving = fn(&Unbroken, Table, &mut Summary, &mut [u8], &mut [u8], Arrival) -> Received;
type Clock = fn(&Unbroken, Table, &mut Summary, &mut [u8], u32) -> Swept;
type Release = fn(&Unbroken, Table, &mut Summary, &mut [u8], u16) -> Swept;
type Sending = fn(&Unbroken, Table, Request, &[u8], &[u8], &[u8], &mut [u8]) -> Sent;

impl Side for Called {
    fn opening(&self, summary: &mut Summary, registry: &[u8], timer: u32, clock: u32) -> Opened {
        let call: Opening = Unbroken::opening;
        black_box(call)(&MODEL, summary, registry, timer, clock)
    }

    fn arrival(
        &self,
        table: Table,
        summary: &mut Summary,
        store: &mut [u8],
        report: &mut [u8],
        arrival: Arrival,
    ) -> Received {
        let call: Arriving = Unbroken::arrival;
        black_box(call)(&MODEL, table, summary, store, report, arrival)
    }

    fn clock(&self, table: Table, summary: &mut Summary, report: &mut [u8], time: u32) -> Swept {
        let call: Clock = Unbroken::clock;
        black_box(call)(&MODEL, table, summary, report, time)
    }

    fn release(
        &self,
        table: Table,
        summary: &mut Summary,
        report: &mut [u8],
        association: u16,
    ) -> Swept {
        let call: Release = Unbroken::release;
        black_box(call)(&MODEL, table, summary, report, association)
    }

    fn delivery(&self, decision: Decision, parameter: &[u8], store: &[u8]) -> Part {
        let call: fn(&Unbroken, Decision, &[u8], &[u8]) -> Part = Unbroken::delivery;
        black_box(call)(&MODEL, decision, parameter, store)
    }

    fn sending(
        &self,
        table: Table,
        request: Request,
        origin: &[u8],
        destination: &[u8],
        data: &[u8],
        area: &mut [u8],
    ) -> Sent {
        let call: Sending = Unbroken::sending;
        black_box(call)(&MODEL, table, request, origin, destination, data, area)
    }
}
