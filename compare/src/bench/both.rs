//! Both sides at once: before anything is measured, they have to answer alike.

use super::called::Called;
use crate::library::Library;
use crate::side::Side;
use model::*;

pub struct Both;

/// The model gets copies of the summary and of the lent areas, which have to end up alike too.
fn alike<A: PartialEq + std::fmt::Debug>(
    summary: &mut Summary,
    lent: &mut [&mut [u8]],
    call: impl Fn(&dyn Side, &mut Summary, &mut [&mut [u8]]) -> A,
) -> A {
    let mut copied_summary = *summary;
    let mut copies: Vec<Vec<u8>> = lent.iter().map(|area| area.to_vec()).collect();
    let mut copied: Vec<&mut [u8]> = copies.iter_mut().map(|area| area.as_mut_slice()).collect();
    let answers = (call(&Library, summary, lent), call(&Called, &mut copied_summary, &mut copied));
    assert_eq!(answers.0, answers.1, "library and model answer differently");
    assert!(*summary == copied_summary, "summaries differ");
    assert!(lent.iter().zip(&copies).all(|(left, right)| left == right), "areas differ");
    answers.0
}

impl Side for Both {
    fn opening(&self, summary: &mut Summary, registry: &[u8], timer: u32, clock: u32) -> Opened {
        alike(summary, &mut [], |side, summary, _| side.opening(summary, registry, timer, clock))
    }

    fn arrival(
        &self,
        table: Table,
        summary: &mut Summary,
        store: &mut [u8],
        report: &mut [u8],
        arrival: Arrival,
    ) -> Received {
        alike(summary, &mut [store, report], |side, summary, lent| {
            let [store, report] = lent else { unreachable!() };
            side.arrival(table, summary, store, report, arrival)
        })
    }

    fn clock(&self, table: Table, summary: &mut Summary, report: &mut [u8], time: u32) -> Swept {
        alike(summary, &mut [report], |side, summary, lent| {
            side.clock(table, summary, lent[0], time)
        })
    }

    fn release(
        &self,
        table: Table,
        summary: &mut Summary,
        report: &mut [u8],
        association: u16,
    ) -> Swept {
        alike(summary, &mut [report], |side, summary, lent| {
            side.release(table, summary, lent[0], association)
        })
    }

    fn delivery(&self, decision: Decision, parameter: &[u8], store: &[u8]) -> Part {
        alike(&mut { Summary::EMPTY }, &mut [], |side, _, _| {
            side.delivery(decision, parameter, store)
        })
    }

    fn sending(
        &self,
        table: Table,
        request: Request,
        origin: &[u8],
        destination: &[u8],
        data: &[u8],
        area: &mut [u8],
    ) -> Sent {
        alike(&mut { Summary::EMPTY }, &mut [area], |side, _, lent| {
            side.sending(table, request, origin, destination, data, lent[0])
        })
    }
}
