//! Where a parameter has to be at fault, whatever both sides say: A5 of document 02.

use std::ops::RangeInclusive;

use crate::arrivals::Arrived;
use model::*;

/// An octet at fault and the number by which it is refused. For 5 it is the first that is missing.
#[derive(Clone, Copy, Debug, PartialEq, Eq, PartialOrd, Ord)]
pub struct Blame {
    pub number: u8,
    pub octet: &'static str,
    pub position: usize,
}

/// All that can be at fault, and where it can stand.
const BLAMES: [(u8, &str, RangeInclusive<usize>); 18] = [
    (5, "octet 1", 0..=0),
    (5, "octet 1a", 1..=1),
    (5, "octet 2", 1..=2),
    (5, "octet 3", 2..=3),
    (5, "octet 3a", 3..=4),
    (5, "origin's length", 3..=5),
    (5, "origin", 4..=25),
    (5, "destination's length", 4..=26),
    (5, "destination", 5..=46),
    (6, "octet 1a", 1..=1),
    (6, "octet 2", 1..=2),
    (6, "octet 3a", 3..=4),
    (23, "octet 1a", 1..=1),
    (7, "octet 3", 2..=3),
    (8, "octet 1", 0..=0),
    (8, "octet 1a", 1..=1),
    (9, "origin's length", 3..=5),
    (9, "destination's length", 4..=26),
];

/// The octets that stand after some of an address.
const LATE: [&str; 3] = ["origin", "destination's length", "destination"];

impl Blame {
    pub fn name(&self) -> String {
        format!("{}, {}, at {}", self.number, self.octet, self.position)
    }

    /// The same without the position where there are many.
    pub fn short_name(&self) -> String {
        match LATE.contains(&self.octet) {
            true => format!("{}, {}", self.number, self.octet),
            false => self.name(),
        }
    }
}

/// Each octet that can be at fault at each of its positions.
pub fn all() -> impl Iterator<Item = Blame> {
    BLAMES.into_iter().flat_map(|(number, octet, positions)| {
        positions.map(move |position| Blame { number, octet, position })
    })
}

/// A parameter, octet by octet, with the name of each.
struct Octets<'a>(&'a [u8]);

impl Octets<'_> {
    fn cut(&self, octet: &'static str) -> Blame {
        Blame { number: 5, octet, position: self.0.len() }
    }

    fn get(&self, position: usize, octet: &'static str) -> Result<u8, Blame> {
        self.0.get(position).copied().ok_or(self.cut(octet))
    }

    /// One that has to have extension 1.
    fn last(&self, position: usize, octet: &'static str) -> Result<u8, Blame> {
        match self.get(position, octet)? {
            0x80.. => self.get(position, octet),
            _ => Err(Blame { number: 6, octet, position }),
        }
    }

    /// The kind of the context, and where its last octet stands.
    fn context(&self, table: &Table) -> Result<(u8, usize), Blame> {
        let low = self.get(0, "octet 1")?;
        let (mut context, mut octet, mut position) = (u16::from(low % 128), "octet 1", 0);
        if low < 128 {
            (octet, position) = ("octet 1a", 1);
            let high = self.last(position, octet)? % 128;
            if high == 0 {
                return Err(Blame { number: 23, octet, position });
            }
            context += 128 * u16::from(high);
        }
        let used = table.registry.iter().filter(|entry| entry.kind != 0);
        let entry = used.clone().find(|entry| entry.context == context);
        let entry = entry.ok_or(Blame { number: 8, octet, position })?;
        Ok((entry.kind, position))
    }

    /// An address from its length on: where it ends.
    fn address(&self, position: usize, names: [&'static str; 2]) -> Result<usize, Blame> {
        let length = self.get(position, names[0])?;
        let end = position + 1 + usize::from(length);
        match end <= self.0.len() {
            _ if length > 20 => Err(Blame { number: 9, octet: names[0], position }),
            true => Ok(end),
            false => Err(self.cut(names[1])),
        }
    }

    fn judge(&self, table: &Table) -> Result<(), Blame> {
        let (kind, end) = self.context(table)?;
        self.last(end + 1, "octet 2")?;
        let position = end + 2;
        let octet3 = self.get(position, "octet 3")?;
        let present = octet3 < 128;
        if present {
            self.last(position + 1, "octet 3a")?;
        }
        // Octet 3a is absent in an unsegmented parameter, and in no other.
        if present == (octet3 % 128 == 0x40) {
            return Err(Blame { number: 7, octet: "octet 3", position });
        }
        if kind == 2 {
            let start = position + 1 + usize::from(present);
            let end = self.address(start, ["origin's length", "origin"])?;
            self.address(end, ["destination's length", "destination"])?;
        }
        Ok(())
    }
}

/// What is at fault in a parameter, read off its octets apart from both sides.
pub fn blame(table: &Table, parameter: &[u8]) -> Option<Blame> {
    Octets(parameter).judge(table).err()
}

/// Whether a refusal of a segment is at an octet.
fn placed(refusal: u8) -> bool {
    matches!(refusal, 5..=9 | 23)
}

/// What is wrong with the answer that both sides gave, if anything is.
pub fn wrong(arrived: &Arrived) -> Option<String> {
    let given = (arrived.received.refusal, arrived.received.position);
    let blame = match arrived.read() {
        true => blame(arrived.before, arrived.arrival.parameter),
        false => None,
    };
    let good = match blame {
        Some(blame) => given == (blame.number, blame.position as u16),
        None => !placed(given.0) && given.1 == NOWHERE,
    };
    let expected = blame.map_or("no octet is at fault".into(), |blame| blame.name());
    (!good).then(|| format!("both answer {}, position {}, but: {expected}\n", given.0, given.1))
}

/// What is wrong with the lines that both sides print, if anything is: replay's of segments end
/// with a position or with `-`, others have no such field, and records' begin with replay's.
pub fn misprinted(replay: &str, records: &str) -> Option<String> {
    let under = ["delivered ", "lost ", "dropped ", "held "];
    let mut events =
        records.lines().filter(|line| under.iter().all(|name| !line.starts_with(name)));
    let wrong = replay.lines().find(|line| {
        let front = if *line == "stop" { "stop".into() } else { format!("{line} ") };
        !in_form(line) || !events.next().is_some_and(|event| event.starts_with(&front))
    });
    wrong.map(|line| format!("both print this, or records has it otherwise: {line}\n"))
}

fn in_form(line: &str) -> bool {
    let words: Vec<&str> = line.split(' ').collect();
    match words[..] {
        ["stop"] | ["open" | "clock" | "release", _, _, _, _] => true,
        ["segment", refusal, _, _, _, position] => match refusal.parse().is_ok_and(placed) {
            true => position.parse().is_ok_and(|position: usize| position <= PARAMETER),
            false => position == "-",
        },
        _ => false,
    }
}

#[cfg(test)]
mod tests {
    use super::*;

    fn table() -> Table {
        let mut table = Table::default();
        table.registry[1] = Entry { context: 3, kind: 1 };
        table.registry[2] = Entry { context: 4, kind: 2 };
        table.registry[7] = Entry { context: 256, kind: 2 };
        table
    }

    /// The readings' examples and some with addresses, in hex.
    #[test]
    fn examples() {
        let cases = "\
            |5, octet 1, at 0
            05|5, octet 1a, at 1
            05 05|6, octet 1a, at 1
            05 80|23, octet 1a, at 1
            05 81|8, octet 1a, at 1
            85|8, octet 1, at 0
            83 00|6, octet 2, at 1
            83 80 40|5, octet 3a, at 3
            83 80 40 05|6, octet 3a, at 3
            83 80 40 85|7, octet 3, at 2
            84 80 40 85 15|7, octet 3, at 2
            84 80 C1|7, octet 3, at 2
            83 80 80|7, octet 3, at 2
            84 80 C0 15|9, origin's length, at 3
            84 80 C0 02 07 07 15|9, destination's length, at 6
            00 82 80 41 85 02 07|5, origin, at 7
            00 82 80 C0 02 07 07 14 09|5, destination, at 9
            83 80 C0|none
            84 80 41 85 00 01 07|none";
        for case in cases.lines() {
            let (octets, expected) = case.trim().split_once('|').expect("a case has both");
            let octets = octets.split_whitespace().map(|octet| u8::from_str_radix(octet, 16));
            let parameter: Vec<u8> = octets.map(|octet| octet.expect("hex")).collect();
            let name = blame(&table(), &parameter).map_or("none".into(), |blame| blame.name());
            assert_eq!(name, expected, "{parameter:02X?}");
        }
    }

    #[test]
    fn lines_in_form() {
        let good = ["segment 6 0 0 0 1", "segment 0 1 5 0 -", "segment 10 0 0 0 -"];
        assert!(good.iter().chain(&["open 8 0 0 0", "stop"]).all(|line| in_form(line)));
        let bad = ["segment 6 0 0 0", "segment 6 0 0 0 -", "segment 0 1 5 0 0", "clock 0 0 0 0 -"];
        assert!(!bad.iter().chain(&["segment 6 0 0 0 65535", "stop -"]).any(|line| in_form(line)));
        let records = "segment 6 0 0 0 1 1 refused 6\nheld 9 4 5 0 0 1 0 - -\nstop\n";
        assert_eq!(misprinted("segment 6 0 0 0 1\nstop\n", records), None);
        assert!(misprinted("segment 6 0 0 0 2\n", "segment 6 0 0 0 1 refused 6 2\n").is_some());
    }
}
