//! The data of an answer, as a part of the parameter or of the store.

use crate::{Decision, Fault, Machine, Part, PLACES, STRETCH};

impl<const B: bool> Machine<B> {
    /// Any decision may be asked about, also one that no call gave.
    pub fn delivery(&self, decision: Decision, parameter: &[u8], store: &[u8]) -> Part {
        let Decision { place, start, length, .. } = decision;
        let part = match decision.kind {
            2 => parameter.get(start..).and_then(|tail| tail.get(..length)).map(|_| Part {
                start,
                length,
                source: 0,
            }),
            3 if place < PLACES => {
                let start = place * STRETCH;
                let stretch =
                    if self.broken(Fault::DeliveryPastPlace) { store.len() } else { STRETCH };
                let inside = length <= stretch
                    && store.get(start..).is_some_and(|tail| length <= tail.len());
                inside.then_some(Part { start, length, source: 1 })
            }
            _ => None,
        };
        part.filter(|part| part.length > 0).unwrap_or_default()
    }
}
