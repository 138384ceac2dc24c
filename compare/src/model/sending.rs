//! Sending: one segment of the least number that holds the data.

use std::ops::Range;

use crate::segment::Edition;
use crate::{Fault, Machine, Refusal, Request, Sent, Table, ADDRESS, PARAMETER, SEGMENTS, STRETCH};

/// How the data is cut.
struct Cut {
    count: usize,
    /// Octets of data in the first segment and in each later one but the last.
    first: usize,
    later: usize,
}

impl Cut {
    /// The data's octets in segment k of n octets in all.
    fn range(&self, k: usize, n: usize) -> Range<usize> {
        let from = |k: usize| if k == 0 { 0 } else { n.min(self.first + (k - 1) * self.later) };
        from(k)..if k + 1 == self.count { n } else { from(k + 1) }
    }
}

/// Writes octets one after the other.
struct Pen<'a>(&'a mut [u8]);

impl Pen<'_> {
    fn write(&mut self, octets: &[u8]) {
        let (here, rest) = std::mem::take(&mut self.0).split_at_mut(octets.len());
        here.copy_from_slice(octets);
        self.0 = rest;
    }

    fn address(&mut self, address: &[u8]) {
        self.write(&[address.len() as u8]);
        self.write(address);
    }
}

impl<const B: bool> Machine<B> {
    pub fn sending(
        &self,
        table: Table,
        request: Request,
        origin: &[u8],
        destination: &[u8],
        data: &[u8],
        area: &mut [u8],
    ) -> Sent {
        let sent = self.send(&table, &request, [origin, destination], data, area);
        sent.unwrap_or_else(|refusal| Sent { refusal: refusal.number(), ..Sent::default() })
    }

    fn send(
        &self,
        table: &Table,
        request: &Request,
        addresses: [&[u8]; 2],
        data: &[u8],
        area: &mut [u8],
    ) -> Result<Sent, Refusal> {
        self.sound(table)?;
        let edition = table.edition(request.context).ok_or(Refusal::Unregistered)?;
        Refusal::LongData.unless(data.len() <= STRETCH)?;
        Refusal::LongAddress.unless(addresses.iter().all(|address| address.len() <= ADDRESS))?;
        Refusal::AddressOf1998.unless(
            edition == Edition::Of2000 || addresses.iter().all(|address| address.is_empty()),
        )?;
        if self.broken(Fault::ReferenceFirst) {
            Refusal::Reference.unless(request.reference <= 127)?;
        }
        Refusal::Instruction.unless(request.instruction <= 3)?;
        Refusal::Reference.unless(request.reference <= 127)?;
        let header = self.header(edition, request.context, addresses);
        let cut = self.cut(header, data.len(), request)?;
        Refusal::Number.unless(request.number < cut.count)?;
        let part = &data[cut.range(request.number, data.len())];
        let length = header + usize::from(cut.count > 1) + part.len();
        let area = area.get_mut(..length).ok_or(Refusal::ShortArea)?;
        self.write(Pen(area), edition, request, cut.count, addresses, part);
        Ok(Sent { refusal: 0, count: cut.count as u8, length: length as u16 })
    }

    fn one_octet(&self, context: u16) -> bool {
        context <= 127 && !self.broken(Fault::ContextLong)
    }

    /// The header's octets, without octet 3a.
    fn header(&self, edition: Edition, context: u16, addresses: [&[u8]; 2]) -> usize {
        let context = if self.one_octet(context) { 1 } else { 2 };
        let lengths = addresses.iter().map(|address| 1 + address.len()).sum::<usize>();
        context + 2 + if edition == Edition::Of2000 { lengths } else { 0 }
    }

    /// Refusal 18, and the cut. The rooms are any numbers until they have been judged.
    fn cut(&self, header: usize, n: usize, request: &Request) -> Result<Cut, Refusal> {
        let Request { room1, room, .. } = *request;
        let unused = self.broken(Fault::RoomUnused) && header + n <= room1;
        Refusal::Room.unless(room1 <= PARAMETER && (room <= PARAMETER || unused))?;
        if header + n <= room1 {
            return Ok(Cut { count: 1, first: n, later: 0 });
        }
        Refusal::Room.unless(room1 > header && room > header + 1)?;
        let (first, later) = (room1 - header - 1, room - header - 1);
        let rest = n - first;
        let count = match self.fault() {
            Some(Fault::CountOneMore) => 2 + rest / later,
            _ => 1 + rest.div_ceil(later),
        };
        Refusal::Room.unless(count <= SEGMENTS)?;
        Ok(Cut { count, first, later })
    }

    fn write(
        &self,
        mut pen: Pen,
        edition: Edition,
        request: &Request,
        count: usize,
        addresses: [&[u8]; 2],
        part: &[u8],
    ) {
        let (low, high) = ((request.context & 0x7f) as u8, (request.context >> 7) as u8);
        if self.one_octet(request.context) {
            pen.write(&[0x80 | low]);
        } else {
            pen.write(&[low, 0x80 | high]);
        }
        let new = if request.number == 0 { 0x40 } else { 0 };
        let remaining = (count - 1 - request.number) as u8;
        pen.write(&[0x80 | request.instruction]);
        match count {
            1 => pen.write(&[0x80 | new]),
            _ => pen.write(&[new | remaining, 0x80 | request.reference]),
        }
        if edition == Edition::Of2000 {
            addresses.into_iter().for_each(|address| pen.address(address));
        }
        pen.write(part);
    }
}
