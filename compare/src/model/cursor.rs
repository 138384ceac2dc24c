//! Reading octets from left to right.

use crate::refusal::Refused;
use crate::{Address, Refusal, ADDRESS};

const EXTENSION: u8 = 0x80;

#[derive(Clone, Copy)]
pub struct Cursor<'a> {
    rest: &'a [u8],
    /// Of all the octets.
    length: usize,
}

impl<'a> Cursor<'a> {
    pub fn new(octets: &'a [u8]) -> Self {
        Cursor { rest: octets, length: octets.len() }
    }

    /// What has not been read yet.
    pub fn rest(&self) -> &'a [u8] {
        self.rest
    }

    /// Where the next octet stands, from 0.
    pub fn position(&self) -> usize {
        self.length - self.rest.len()
    }

    /// Octets are missing: the first of them would stand after the last that is there.
    fn cut(&self) -> Refused {
        Refusal::Cut.at(self.length)
    }

    pub fn octet(&mut self) -> Option<u8> {
        let (first, rest) = self.rest.split_first()?;
        self.rest = rest;
        Some(*first)
    }

    pub fn take(&mut self, length: usize) -> Option<&'a [u8]> {
        let (taken, rest) = self.rest.split_at_checked(length)?;
        self.rest = rest;
        Some(taken)
    }

    /// A number of N octets, as they stand.
    pub fn array<const N: usize>(&mut self) -> Option<[u8; N]> {
        let (taken, rest) = self.rest.split_first_chunk()?;
        self.rest = rest;
        Some(*taken)
    }

    /// The low seven bits of an octet, and whether its field goes on after it.
    pub fn extended(&mut self) -> Result<(u8, bool), Refused> {
        let octet = self.octet().ok_or(self.cut())?;
        Ok((octet & !EXTENSION, octet & EXTENSION == 0))
    }

    /// The low seven bits of an octet that has to be the last of its field.
    pub fn last(&mut self) -> Result<u8, Refused> {
        let position = self.position();
        match self.extended()? {
            (bits, false) => Ok(bits),
            (_, true) => Err(Refusal::Extension.at(position)),
        }
    }

    /// An address with its length octet. The length is judged before its octets are looked for.
    pub fn address(&mut self) -> Result<Address, Refused> {
        let position = self.position();
        let length = usize::from(self.octet().ok_or(self.cut())?);
        Refusal::LongAddress.at(position).unless(length <= ADDRESS)?;
        self.take(length).map(Address::of).ok_or(self.cut())
    }
}
