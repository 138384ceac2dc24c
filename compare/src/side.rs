//! The calls of documents 01 and 02, whoever answers them.

use model::*;

pub trait Side {
    fn opening(&self, summary: &mut Summary, registry: &[u8], timer: u32, clock: u32) -> Opened;
    fn arrival(
        &self,
        table: Table,
        summary: &mut Summary,
        store: &mut [u8],
        report: &mut [u8],
        arrival: Arrival,
    ) -> Received;
    fn clock(&self, table: Table, summary: &mut Summary, report: &mut [u8], time: u32) -> Swept;
    fn release(
        &self,
        table: Table,
        summary: &mut Summary,
        report: &mut [u8],
        association: u16,
    ) -> Swept;
    fn delivery(&self, decision: Decision, parameter: &[u8], store: &[u8]) -> Part;
    fn sending(
        &self,
        table: Table,
        request: Request,
        origin: &[u8],
        destination: &[u8],
        data: &[u8],
        area: &mut [u8],
    ) -> Sent;
}

impl Side for Model {
    fn opening(&self, summary: &mut Summary, registry: &[u8], timer: u32, clock: u32) -> Opened {
        self.opening(summary, registry, timer, clock)
    }

    fn arrival(
        &self,
        table: Table,
        summary: &mut Summary,
        store: &mut [u8],
        report: &mut [u8],
        arrival: Arrival,
    ) -> Received {
        self.arrival(table, summary, store, report, arrival)
    }

    fn clock(&self, table: Table, summary: &mut Summary, report: &mut [u8], time: u32) -> Swept {
        self.clock(table, summary, report, time)
    }

    fn release(
        &self,
        table: Table,
        summary: &mut Summary,
        report: &mut [u8],
        association: u16,
    ) -> Swept {
        self.release(table, summary, report, association)
    }

    fn delivery(&self, decision: Decision, parameter: &[u8], store: &[u8]) -> Part {
        self.delivery(decision, parameter, store)
    }

    fn sending(
        &self,
        table: Table,
        request: Request,
        origin: &[u8],
        destination: &[u8],
        data: &[u8],
        area: &mut [u8],
    ) -> Sent {
        self.sending(table, request, origin, destination, data, area)
    }
}
