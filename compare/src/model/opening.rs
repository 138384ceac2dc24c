//! Opening: a registry's octets into a table with no open place, and a summary with no used row.

use crate::sound::listed;
use crate::{Entry, Fault, Machine, Opened, Refusal, Summary, Table};
use crate::{CONTEXTS, ENTRIES, TIMERS};

impl<const B: bool> Machine<B> {
    /// The rows are emptied whether it is refused or not.
    pub fn opening(
        &self,
        summary: &mut Summary,
        registry: &[u8],
        timer: u32,
        clock: u32,
    ) -> Opened {
        let opened = self.opened(registry, timer, clock);
        let kept = match self.fault() {
            Some(Fault::RowsKept) => true,
            Some(Fault::RefusedRowsKept) => opened.refusal != 0,
            _ => false,
        };
        if !kept {
            *summary = Summary::EMPTY;
        }
        opened
    }

    fn opened(&self, registry: &[u8], timer: u32, clock: u32) -> Opened {
        let first = match self.fault() {
            Some(Fault::RegistryFirst) => self.registry(registry).map(|_| ()),
            _ => Ok(()),
        };
        let opened = first
            .and_then(|()| Refusal::Timer.unless(TIMERS.contains(&timer)))
            .and_then(|()| self.registry(registry))
            .map(|registry| Table { registry, timer, clock, ..Table::default() });
        match opened {
            Ok(table) => Opened { table, refusal: 0 },
            Err(refusal) if self.broken(Fault::RefusedOpening) => Opened {
                table: Table { timer, clock, ..Table::default() },
                refusal: refusal.number(),
            },
            Err(refusal) => Opened { table: Table::default(), refusal: refusal.number() },
        }
    }

    /// The entries in the order of the list.
    fn registry(&self, octets: &[u8]) -> Result<[Entry; ENTRIES], Refusal> {
        let records = octets.chunks(3);
        Refusal::Registry.unless(records.len() <= ENTRIES)?;
        let mut entries = [Entry::default(); ENTRIES];
        for (i, record) in records.enumerate() {
            let &[kind @ (1 | 2), high, low] = record else { return Err(Refusal::Registry) };
            let entry = Entry { kind, context: u16::from_be_bytes([high, low]) };
            let twice = match self.fault() {
                Some(Fault::TwiceByKind) => entries[..i].contains(&entry),
                _ => listed(&entries[..i], entry.context),
            };
            let good = CONTEXTS.contains(&entry.context) && !twice;
            Refusal::Registry.unless(good)?;
            entries[i] = entry;
        }
        Ok(entries)
    }
}
