//! A parameter read into its fields.

use crate::cursor::Cursor;
use crate::refusal::Refused;
use crate::{Address, Fault, Key, Machine, Refusal, Table, NOWHERE, UNSEGMENTED};

/// Which edition's layout a registered context has.
#[derive(Clone, Copy, Debug, PartialEq, Eq)]
pub enum Edition {
    Of1998,
    Of2000,
}

/// Where a segment stands in its sequence and how many follow it.
#[derive(Clone, Copy, Debug, PartialEq, Eq)]
pub enum Turn {
    /// Unsegmented.
    Alone,
    First(u8),
    Later(u8),
}

#[derive(Clone, Copy, Debug)]
pub struct Segment<'a> {
    /// The reference is 255 where the segment is alone.
    pub key: Key,
    pub instruction: u8,
    pub turn: Turn,
    /// The information is the parameter's tail; this is where it starts.
    pub start: usize,
    pub information: &'a [u8],
}

impl Turn {
    pub fn remaining(self) -> u8 {
        match self {
            Turn::Alone => 0,
            Turn::First(remaining) | Turn::Later(remaining) => remaining,
        }
    }
}

impl Table {
    /// The edition of a registered context. Zero is what unused entries have, so never one.
    pub fn edition(&self, context: u16) -> Option<Edition> {
        let entry =
            self.registry.iter().find(|entry| entry.kind != 0 && entry.context == context)?;
        match entry.kind {
            1 => Some(Edition::Of1998),
            _ => Some(Edition::Of2000),
        }
    }
}

impl<const B: bool> Machine<B> {
    /// Refusals 5 to 9 and 23, in the order in which the octets show them, each at its octet.
    pub(crate) fn read<'a>(
        &self,
        table: &Table,
        association: u16,
        parameter: &'a [u8],
    ) -> Result<Segment<'a>, Refused> {
        let mut cursor = Cursor::new(parameter);
        let (context, mut edition) =
            self.field(&mut cursor, |cursor| self.context(table, cursor))?;
        if self.broken(Fault::AddressesAlways) {
            edition = Edition::Of2000;
        }
        let spare = if self.broken(Fault::SpareRead) { 0x7f } else { 0b11 };
        let instruction = self.field(&mut cursor, Cursor::last)? & spare;
        let (turn, reference) = self.field(&mut cursor, |cursor| self.turn(cursor))?;
        let [mut origin, mut destination] = [Address::default(); 2];
        if edition == Edition::Of2000 {
            origin = self.field(&mut cursor, |cursor| self.address(cursor))?;
            destination = self.field(&mut cursor, |cursor| self.address(cursor))?;
        }
        if self.broken(Fault::AddressesSwapped) {
            std::mem::swap(&mut origin, &mut destination);
        }
        let key = Key { association, context, origin, destination, reference };
        let information = cursor.rest();
        let start = parameter.len() - information.len();
        Ok(Segment { key, instruction, turn, start, information })
    }

    /// Reads one field. Only a fault moves the position of a refusal.
    fn field<'a, T>(
        &self,
        cursor: &mut Cursor<'a>,
        read: impl FnOnce(&mut Cursor<'a>) -> Result<T, Refused>,
    ) -> Result<T, Refused> {
        let start = cursor.position();
        read(cursor).map_err(|refused| match self.fault() {
            Some(fault) => moved(fault, refused, start),
            None => refused,
        })
    }

    /// Octet 1, and 1a if it is there: a context with its edition. Octet 1a is refused for its
    /// extension (6), then for saying nothing (23), and only then is the context looked up (8).
    fn context(&self, table: &Table, cursor: &mut Cursor) -> Result<(u16, Edition), Refused> {
        let (low, more) = cursor.extended()?;
        if self.broken(Fault::PaddedEarly) && more {
            let mut ahead = *cursor;
            Refusal::PaddedContext.at(cursor.position()).unless(ahead.extended()?.0 != 0)?;
        }
        let high = if more { cursor.last()? } else { 0 };
        let last = cursor.position() - 1;
        let context = u16::from(high) << 7 | u16::from(low);
        let edition = || table.edition(context).ok_or(Refusal::Unregistered.at(last));
        if self.broken(Fault::PaddedLate) {
            edition()?;
        }
        let padded = more && self.padded(context, cursor.rest());
        Refusal::PaddedContext.at(last).unless(!padded)?;
        Ok((context, edition()?))
    }

    /// Whether a context that came in two octets has a zero upper part, so that one would do.
    fn padded(&self, context: u16, rest: &[u8]) -> bool {
        let (low, high) = (context & 0x7f, context >> 7);
        match self.fault() {
            Some(Fault::PaddedTaken) => false,
            Some(Fault::PaddedByLow) => low == 0,
            Some(Fault::TwoOctetsRefused) => true,
            Some(Fault::Padded128) => context <= 128,
            // Octet 3 comes after octet 2.
            Some(Fault::PaddedLater) => high == 0 && rest.get(1).is_none_or(|o| o & 0x40 != 0),
            _ => high == 0,
        }
    }

    /// Octet 3, and 3a if it is there, with the reference.
    fn turn(&self, cursor: &mut Cursor) -> Result<(Turn, u8), Refused> {
        let wrong = Refusal::Octet3a.at(cursor.position());
        let (bits, more) = cursor.extended()?;
        let (new, remaining) = (bits & 0x40 != 0, bits & 0x3f);
        if self.broken(Fault::Octet3aEarly) {
            wrong.unless(more != (new && remaining == 0))?;
        }
        let reference = more.then(|| cursor.last()).transpose()?;
        match (new, remaining, reference) {
            (true, 0, None) => Ok((Turn::Alone, UNSEGMENTED)),
            (true, 0, Some(_)) | (_, _, None) => Err(wrong),
            (true, _, Some(reference)) => Ok((Turn::First(remaining), reference)),
            (false, _, Some(reference)) => Ok((Turn::Later(remaining), reference)),
        }
    }

    fn address(&self, cursor: &mut Cursor) -> Result<Address, Refused> {
        if self.broken(Fault::AddressLate) {
            let length = cursor.rest().first().map_or(0, |length| usize::from(*length));
            let end = cursor.position() + cursor.rest().len();
            Refusal::Cut.at(end).unless(length < cursor.rest().len())?;
        }
        cursor.address()
    }
}

/// The octet that a fault blames, in a field that starts at `start`.
fn moved(fault: Fault, refused: Refused, start: usize) -> Refused {
    let Refused { refusal, position } = refused;
    if position == NOWHERE {
        return refused;
    }
    let at = usize::from(position);
    let position = match (fault, refusal) {
        (Fault::PositionsFrom1, _) => at + 1,
        (Fault::NextBlamed, Refusal::Cut | Refusal::Octet3a) => at,
        (Fault::NextBlamed, _) => at + 1,
        (Fault::CutAtField, Refusal::Cut) => start,
        (Fault::CutAtLast, Refusal::Cut) => at.saturating_sub(1),
        (Fault::ExtensionAtField, Refusal::Extension) => start,
        (Fault::Octet3aBlamed, Refusal::Octet3a) => at + 1,
        (Fault::ContextStart, Refusal::Unregistered) => start,
        (Fault::AddressBlamed, Refusal::LongAddress) => at + 1,
        (Fault::PaddedStart, Refusal::PaddedContext) => start,
        _ => at,
    };
    refusal.at(position)
}
