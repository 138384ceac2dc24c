//! A parameter's fields, good or damaged, and their octets. Written apart from both sides.

/// An octet that has to have extension 1.
#[derive(Clone, Copy, Debug, PartialEq, Eq)]
pub enum Field {
    Octet1a,
    Octet2,
    Octet3a,
}

#[derive(Clone, Debug, Default)]
pub struct Wire {
    pub context: u16,
    /// The context in two octets though one would do, which is refused by 23. One over 127 is in
    /// two octets anyway, and is not padded by this.
    pub padded: bool,
    pub spare: u8,
    pub instruction: u8,
    pub new: bool,
    pub remaining: u8,
    /// Octet 3a, if it is there.
    pub reference: Option<u8>,
    /// Originating and destination address, where the context is of 2000.
    pub addresses: Option<[Vec<u8>; 2]>,
    pub information: Vec<u8>,
    /// A field whose extension is 0.
    pub open: Option<Field>,
    /// An address (0 or 1) with another length octet than its own.
    pub length: Option<(usize, u8)>,
}

impl Wire {
    /// Whether octet 1a is there.
    pub fn two_octets(&self) -> bool {
        self.padded || self.context > 127
    }

    /// The octets before the information.
    pub fn header(&self) -> Vec<u8> {
        let closed = |field: Field| if self.open == Some(field) { 0 } else { 0x80 };
        let (low, high) = ((self.context & 0x7f) as u8, (self.context >> 7) as u8 & 0x7f);
        let mut octets = Vec::with_capacity(64);
        if self.two_octets() {
            octets.extend([low, closed(Field::Octet1a) | high]);
        } else {
            octets.push(0x80 | low);
        }
        octets.push(closed(Field::Octet2) | self.spare << 2 | self.instruction);
        let octet3 = u8::from(self.new) << 6 | self.remaining & 0x3f;
        match self.reference {
            Some(reference) => {
                octets.extend([octet3, closed(Field::Octet3a) | reference & 0x7f]);
            }
            None => octets.push(0x80 | octet3),
        }
        for (i, address) in self.addresses.iter().flatten().enumerate() {
            let own = address.len() as u8;
            octets
                .push(self.length.filter(|(which, _)| *which == i).map_or(own, |(_, other)| other));
            octets.extend(address);
        }
        octets
    }

    /// Takes away information until the parameter has at most 255 octets.
    pub fn fit(&mut self) {
        self.information.truncate(255 - self.header().len());
    }

    pub fn octets(&self) -> Vec<u8> {
        let mut octets = self.header();
        octets.extend(&self.information);
        octets
    }
}

#[cfg(test)]
mod tests {
    use super::*;

    #[test]
    fn examples_of_document_01() {
        let first = Wire { context: 3, instruction: 1, new: true, remaining: 1, ..Wire::default() };
        let m3 = Wire { reference: Some(5), information: vec![0xAA], ..first.clone() };
        assert_eq!(m3.octets(), [0x83, 0x81, 0x41, 0x85, 0xAA]);
        let alone = Wire { context: 3, padded: true, new: true, ..Wire::default() };
        let m12 = Wire { information: vec![0xAA], ..alone.clone() };
        assert_eq!(m12.octets(), [0x03, 0x80, 0x80, 0xC0, 0xAA]);
        for padded in [false, true] {
            let long = Wire { context: 128, padded, ..alone.clone() };
            assert_eq!(long.octets(), [0x00, 0x81, 0x80, 0xC0]);
        }
        let addresses = Some([vec![0, 7], vec![]]);
        let m11 = Wire { context: 4, instruction: 0, addresses, ..m3 };
        assert_eq!(m11.octets(), [0x84, 0x80, 0x41, 0x85, 2, 0, 7, 0, 0xAA]);
        let m9 = Wire { open: Some(Field::Octet2), ..first };
        assert_eq!(m9.octets(), [0x83, 0x01, 0xC1]);
    }
}
