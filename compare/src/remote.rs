//! The proved library where it cannot be linked: in the program `server.c`, which is for x86-64 and
//! runs under an emulator. A call goes there by a pipe as one frame, and one frame comes back;
//! `server.c` says what is in them.
//!
//! Of a lent area go the octets that are new, for both ends remember what it last held. What the
//! call has written comes back in the same way, so that the rest of an area is never touched here;
//! that nothing else was written there, the server checks.

use std::env;
use std::io::{self, BufReader, Read, Write};
use std::mem::size_of;
use std::ops::Range;
use std::path::PathBuf;
use std::process::{exit, Child, ChildStdin, ChildStdout, Command, Stdio};
use std::sync::{LazyLock, Mutex};

use crate::input::table_octets;
use crate::octets::{decision_octets, request_octets, summary_octets, Fields, Shape};
use crate::side::Side;
use model::*;

/// The environment variable that names the server, or a script that runs it.
const SERVER: &str = "EGRYNNOL_SERVER";
/// As in the server: the longest area, and what it holds at first.
const MOST: usize = 65_536;
const FILL: u8 = 0xA5;
/// Octets that are compared at a time.
const STEP: usize = 512;
const BUFFER: usize = 131_072;

#[derive(Clone, Copy)]
enum Call {
    Opening,
    Arrival,
    Clock,
    Release,
    Delivery,
    Sending,
}

/// The server keeps one area for each of them.
#[derive(Clone, Copy)]
enum Lent {
    Summary,
    Registry,
    Store,
    Report,
    Parameter,
    Origin,
    Destination,
    Data,
    Area,
}

const AREAS: usize = Lent::Area as usize + 1;

struct Server {
    child: Child,
    input: ChildStdin,
    output: BufReader<ChildStdout>,
    /// What the server has in each area.
    known: [Vec<u8>; AREAS],
    frame: Vec<u8>,
    calls: u64,
}

/// Started by the first call; it ends with this program, when its input does.
static RUNNING: LazyLock<Mutex<Server>> = LazyLock::new(|| match Server::start() {
    Ok(server) => Mutex::new(server),
    Err(error) => {
        eprintln!("compare: {error}");
        exit(2);
    }
});

impl Server {
    fn start() -> Result<Server, String> {
        let program = env::var_os(SERVER).map(PathBuf::from).ok_or(format!(
            "the library is not linked on this machine: {SERVER} has to name its server, see README.md"
        ))?;
        let mut child = Command::new(&program)
            .stdin(Stdio::piped())
            .stdout(Stdio::piped())
            .spawn()
            .map_err(|error| format!("{SERVER}, {}: {error}", program.display()))?;
        let input = child.stdin.take().ok_or("the server has no standard input")?;
        let output = child.stdout.take().ok_or("the server has no standard output")?;
        let output = BufReader::with_capacity(BUFFER, output);
        let known = [(); AREAS].map(|()| vec![FILL; MOST]);
        Ok(Server { child, input, output, known, frame: Vec::with_capacity(BUFFER), calls: 0 })
    }

    fn call<T: Shape>(
        &mut self,
        call: Call,
        values: &[&[u8]],
        read: &[(Lent, &[u8])],
        written: &mut [(Lent, &mut [u8])],
    ) -> io::Result<T> {
        self.calls += 1;
        self.frame.clear();
        self.frame.push(call as u8);
        values.iter().for_each(|octets| self.frame.extend_from_slice(octets));
        read.iter().for_each(|(area, octets)| self.lend(*area, octets));
        written.iter().for_each(|(area, octets)| self.lend(*area, octets));
        self.input.write_all(&self.frame)?;
        let answer = self.answer()?;
        written.iter_mut().try_for_each(|(area, octets)| self.take_back(*area, octets))?;
        Ok(answer)
    }

    /// An area into the frame: its length, and what is new in it.
    fn lend(&mut self, area: Lent, octets: &[u8]) {
        assert!(octets.len() <= MOST, "an area too long for the server");
        let known = &mut self.known[area as usize][..octets.len()];
        let Range { start, end } = difference(known, octets);
        for number in [octets.len(), start, end - start] {
            self.frame.extend((number as u32).to_le_bytes());
        }
        self.frame.extend_from_slice(&octets[start..end]);
        known[start..end].copy_from_slice(&octets[start..end]);
    }

    fn answer<T: Shape>(&mut self) -> io::Result<T> {
        let octets = &mut [0; size_of::<Received>()][..size_of::<T>()];
        self.output.read_exact(octets)?;
        Ok(T::read(&mut Fields(octets)))
    }

    /// What the call has changed in an area.
    fn take_back(&mut self, area: Lent, octets: &mut [u8]) -> io::Result<()> {
        let (start, length) = (self.number()?, self.number()?);
        let changed = octets.get_mut(start..start + length);
        let changed = changed.ok_or(io::Error::other("octets outside of a lent area"))?;
        self.output.read_exact(changed)?;
        self.known[area as usize][start..start + length].copy_from_slice(changed);
        Ok(())
    }

    fn number(&mut self) -> io::Result<usize> {
        let mut octets = [0; 4];
        self.output.read_exact(&mut octets)?;
        Ok(u32::from_le_bytes(octets) as usize)
    }

    /// Ends this program: without the server there is nothing to compare with, and a call that
    /// ends it is not a difference that was looked for.
    fn lost(&mut self, error: io::Error) -> ! {
        // Where only its answer was wrong it still runs, and waits for the next frame.
        if error.kind() == io::ErrorKind::Other {
            self.child.kill().ok();
        }
        let status = self.child.wait().map_or_else(|error| error.to_string(), |s| s.to_string());
        eprintln!("compare: no answer to call {} of the server: {error}; {status}", self.calls);
        exit(1);
    }
}

/// The octets from the first to the last that differ, in two areas of one length.
fn difference(old: &[u8], new: &[u8]) -> Range<usize> {
    let (mut start, mut end) = (0, new.len());
    while end - start >= STEP && old[start..start + STEP] == new[start..start + STEP] {
        start += STEP;
    }
    while start < end && old[start] == new[start] {
        start += 1;
    }
    while end - start >= STEP && old[end - STEP..end] == new[end - STEP..end] {
        end -= STEP;
    }
    while start < end && old[end - 1] == new[end - 1] {
        end -= 1;
    }
    start..end
}

fn call<T: Shape>(
    call: Call,
    values: &[&[u8]],
    read: &[(Lent, &[u8])],
    written: &mut [(Lent, &mut [u8])],
) -> T {
    let mut server = RUNNING.lock().expect("no call has panicked");
    match server.call(call, values, read, written) {
        Ok(answer) => answer,
        Err(error) => server.lost(error),
    }
}

/// A summary as the octets of an area, and back.
fn with_summary<T>(summary: &mut Summary, call: impl FnOnce(&mut [u8]) -> T) -> T {
    let mut octets = summary_octets(summary);
    let answer = call(&mut octets);
    *summary = Summary::read(&mut Fields(&octets));
    answer
}

pub struct Library;

impl Side for Library {
    fn opening(&self, summary: &mut Summary, registry: &[u8], timer: u32, clock: u32) -> Opened {
        let values: [&[u8]; 2] = [&timer.to_le_bytes(), &clock.to_le_bytes()];
        with_summary(summary, |summary| {
            let written = &mut [(Lent::Summary, summary)];
            call(Call::Opening, &values, &[(Lent::Registry, registry)], written)
        })
    }

    fn arrival(
        &self,
        table: Table,
        summary: &mut Summary,
        store: &mut [u8],
        report: &mut [u8],
        arrival: Arrival,
    ) -> Received {
        let Arrival { time, association, parameter } = arrival;
        let values: [&[u8]; 3] =
            [&table_octets(&table), &time.to_le_bytes(), &association.to_le_bytes()];
        with_summary(summary, |summary| {
            let written =
                &mut [(Lent::Summary, summary), (Lent::Store, store), (Lent::Report, report)];
            call(Call::Arrival, &values, &[(Lent::Parameter, parameter)], written)
        })
    }

    fn clock(&self, table: Table, summary: &mut Summary, report: &mut [u8], time: u32) -> Swept {
        let values: [&[u8]; 2] = [&table_octets(&table), &time.to_le_bytes()];
        with_summary(summary, |summary| {
            let written = &mut [(Lent::Summary, summary), (Lent::Report, report)];
            call(Call::Clock, &values, &[], written)
        })
    }

    fn release(
        &self,
        table: Table,
        summary: &mut Summary,
        report: &mut [u8],
        association: u16,
    ) -> Swept {
        let values: [&[u8]; 2] = [&table_octets(&table), &association.to_le_bytes()];
        with_summary(summary, |summary| {
            let written = &mut [(Lent::Summary, summary), (Lent::Report, report)];
            call(Call::Release, &values, &[], written)
        })
    }

    fn delivery(&self, decision: Decision, parameter: &[u8], store: &[u8]) -> Part {
        let read = [(Lent::Parameter, parameter), (Lent::Store, store)];
        call(Call::Delivery, &[&decision_octets(&decision)], &read, &mut [])
    }

    fn sending(
        &self,
        table: Table,
        request: Request,
        origin: &[u8],
        destination: &[u8],
        data: &[u8],
        area: &mut [u8],
    ) -> Sent {
        let values: [&[u8]; 2] = [&table_octets(&table), &request_octets(&request)];
        let read = [(Lent::Origin, origin), (Lent::Destination, destination), (Lent::Data, data)];
        call(Call::Sending, &values, &read, &mut [(Lent::Area, area)])
    }
}

#[cfg(test)]
mod tests {
    use super::*;

    #[test]
    fn differences() {
        let old = vec![7; 3 * STEP + 5];
        assert!(difference(&old, &old).is_empty());
        assert!(difference(&[], &[]).is_empty());
        for (first, last) in [(0, 0), (0, old.len() - 1), (STEP, STEP), (STEP - 1, 2 * STEP)] {
            let mut new = old.clone();
            (new[first], new[last]) = (8, 8);
            assert_eq!(difference(&old, &new), first..last + 1);
        }
    }
}
