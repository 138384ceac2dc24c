//! The proved library, linked as libegrynnol.a. A lent slice goes as a pointer and a length; the
//! pointer of an empty slice is never null, as Rust has it. A summary goes as a pointer alone. A
//! symbol has the interface's number, as in include/egrynnol.h.

use crate::side::Side;
use model::*;

#[link(name = "egrynnol", kind = "static")]
extern "C" {
    #[link_name = "egrynnol_4_opening"]
    pub fn egrynnol_opening(
        summary: *mut Summary,
        registry: *const u8,
        length: usize,
        timer: u32,
        clock: u32,
    ) -> Opened;
    #[link_name = "egrynnol_4_arrival"]
    pub fn egrynnol_arrival(
        table: Table,
        summary: *mut Summary,
        store: *mut u8,
        store_length: usize,
        report: *mut u8,
        report_length: usize,
        time: u32,
        association: u16,
        parameter: *const u8,
        parameter_length: usize,
    ) -> Received;
    #[link_name = "egrynnol_4_clock"]
    pub fn egrynnol_clock(
        table: Table,
        summary: *mut Summary,
        report: *mut u8,
        length: usize,
        time: u32,
    ) -> Swept;
    #[link_name = "egrynnol_4_release"]
    pub fn egrynnol_release(
        table: Table,
        summary: *mut Summary,
        report: *mut u8,
        length: usize,
        association: u16,
    ) -> Swept;
    #[link_name = "egrynnol_4_delivery"]
    pub fn egrynnol_delivery(
        decision: Decision,
        parameter: *const u8,
        parameter_length: usize,
        store: *const u8,
        store_length: usize,
    ) -> Part;
    #[link_name = "egrynnol_4_sending"]
    pub fn egrynnol_sending(
        table: Table,
        request: Request,
        origin: *const u8,
        origin_length: usize,
        destination: *const u8,
        destination_length: usize,
        data: *const u8,
        data_length: usize,
        area: *mut u8,
        area_length: usize,
    ) -> Sent;
}

pub struct Library;

// SAFETY, for every call: the pointers and lengths come from live slices and summaries of this
// program, the written ones are lent exclusively, and the shapes are those asserted in `layout`.
impl Side for Library {
    fn opening(&self, summary: &mut Summary, registry: &[u8], timer: u32, clock: u32) -> Opened {
        unsafe { egrynnol_opening(summary, registry.as_ptr(), registry.len(), timer, clock) }
    }

    fn arrival(
        &self,
        table: Table,
        summary: &mut Summary,
        store: &mut [u8],
        report: &mut [u8],
        arrival: Arrival,
    ) -> Received {
        let Arrival { time, association, parameter } = arrival;
        unsafe {
            egrynnol_arrival(
                table,
                summary,
                store.as_mut_ptr(),
                store.len(),
                report.as_mut_ptr(),
                report.len(),
                time,
                association,
                parameter.as_ptr(),
                parameter.len(),
            )
        }
    }

    fn clock(&self, table: Table, summary: &mut Summary, report: &mut [u8], time: u32) -> Swept {
        unsafe { egrynnol_clock(table, summary, report.as_mut_ptr(), report.len(), time) }
    }

    fn release(
        &self,
        table: Table,
        summary: &mut Summary,
        report: &mut [u8],
        association: u16,
    ) -> Swept {
        unsafe { egrynnol_release(table, summary, report.as_mut_ptr(), report.len(), association) }
    }

    fn delivery(&self, decision: Decision, parameter: &[u8], store: &[u8]) -> Part {
        let (octets, length) = (parameter.as_ptr(), parameter.len());
        unsafe { egrynnol_delivery(decision, octets, length, store.as_ptr(), store.len()) }
    }

    fn sending(
        &self,
        table: Table,
        request: Request,
        origin: &[u8],
        destination: &[u8],
        data: &[u8],
        area: &mut [u8],
    ) -> Sent {
        unsafe {
            egrynnol_sending(
                table,
                request,
                origin.as_ptr(),
                origin.len(),
                destination.as_ptr(),
                destination.len(),
                data.as_ptr(),
                data.len(),
                area.as_mut_ptr(),
                area.len(),
            )
        }
    }
}
