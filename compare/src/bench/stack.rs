//! The stack that a call of the library needs.
//!
//! Each call is made on a stack of its own: an area that is painted, word by word with numbers
//! that no call would write by chance. The arguments that the C calling convention of x86-64 puts
//! on the stack are laid at its top, and the stack pointer is set to them; below them all is the
//! call's own, from its return address on. Afterwards the lowest word that has changed says how
//! far down it wrote. A frame may reserve octets further down and never touch them; where it calls
//! anything, as `memcpy`, the return address lies beneath them, so that they count.

use std::arch::asm;
use std::cell::{Cell, RefCell};
use std::mem::{size_of, MaybeUninit};

use crate::library;
use crate::side::Side;
use model::*;

/// Words of the painted area: 128 KiB, far more than any call takes.
const WORDS: usize = 16_384;
/// The arguments on the stack take less than this many words.
const ARGUMENTS: usize = 256;
const NAMES: [&str; 6] = ["opening", "arrival", "clock", "release", "delivery", "sending"];

/// The library, called on the painted stack. The areas are checked nowhere: the calls are those
/// that both sides have answered alike.
pub struct Painted {
    area: RefCell<Vec<u128>>,
    /// Octets of arguments, and the most below them, of each call.
    most: [Cell<(usize, usize)>; 6],
}

/// What a call gets on the stack, in the order of its arguments.
#[derive(Default)]
struct Arguments(Vec<u64>);

impl Arguments {
    /// A struct that is too large for registers, or a number that they have no room for.
    fn with<T: Copy>(mut self, value: T) -> Self {
        let (at, words) = (self.0.len(), size_of::<T>() / 8);
        assert_eq!(words * 8, size_of::<T>());
        self.0.resize(at + words, 0);
        // SAFETY: there is room for it from `at` on; alignment is not asked for.
        unsafe { self.0.as_mut_ptr().add(at).cast::<T>().write_unaligned(value) };
        self
    }
}

/// The area as words, lowest first. It is made of longer ones to lie as a stack has to.
fn words(area: &mut [u128]) -> &mut [u64] {
    // SAFETY: twice as many, each half as long.
    unsafe { std::slice::from_raw_parts_mut(area.as_mut_ptr().cast(), 2 * area.len()) }
}

/// The paint of a word.
fn paint(i: usize) -> u64 {
    (i as u64 + 1).wrapping_mul(0x9E37_79B9_7F4A_7C15)
}

impl Painted {
    pub fn new() -> Self {
        let mut area = vec![0; WORDS / 2];
        words(&mut area).iter_mut().enumerate().for_each(|(i, word)| *word = paint(i));
        Painted { area: RefCell::new(area), most: Default::default() }
    }

    /// Name, octets of arguments on the stack, and octets below them.
    pub fn deepest(&self) -> impl Iterator<Item = (&'static str, usize, usize)> + '_ {
        NAMES.into_iter().zip(&self.most).map(|(name, most)| (name, most.get().0, most.get().1))
    }

    /// Makes the call and answers what it leaves in register rax.
    ///
    /// SAFETY: registers and arguments are what the function at this address takes.
    unsafe fn call(
        &self,
        which: usize,
        function: *const (),
        registers: [u64; 6],
        arguments: Arguments,
    ) -> u64 {
        let Arguments(arguments) = arguments;
        // The stack pointer has to be a multiple of 16 where a function is called.
        let top = WORDS - ARGUMENTS;
        let mut area = self.area.borrow_mut();
        let words = words(&mut area);
        words[top..][..arguments.len()].copy_from_slice(&arguments);
        let answer = on_stack(words.as_mut_ptr().add(top), function, registers);
        let lowest = (0..top).find(|i| words[*i] != paint(*i)).expect("a return address");
        assert!(lowest > 0, "the call has gone past the painted area");
        (lowest..WORDS).for_each(|i| words[i] = paint(i));
        let (_, deepest) = self.most[which].get();
        self.most[which].set((arguments.len() * 8, deepest.max((top - lowest) * 8)));
        answer
    }
}

/// SAFETY: `top` is the end of a large enough stack, with the arguments from there on.
unsafe fn on_stack(top: *mut u64, function: *const (), registers: [u64; 6]) -> u64 {
    let [rdi, rsi, rdx, rcx, r8, r9] = registers;
    let answer;
    // r12 and r13 outlive a call: the old stack pointer waits in r12.
    asm!(
        "xchg rsp, r12",
        "call r13",
        "mov rsp, r12",
        inout("r12") top => _,
        in("r13") function,
        in("rdi") rdi, in("rsi") rsi, in("rdx") rdx, in("rcx") rcx, in("r8") r8, in("r9") r9,
        lateout("rax") answer,
        clobber_abi("C"),
    );
    answer
}

/// An answer of more than 16 octets goes to where the first register points.
fn answered<T>(call: impl FnOnce(u64) -> u64) -> T {
    let mut answer = MaybeUninit::<T>::uninit();
    call(answer.as_mut_ptr() as u64);
    // SAFETY: the call has written it.
    unsafe { answer.assume_init() }
}

fn at(octets: &[u8]) -> u64 {
    octets.as_ptr() as u64
}

fn at_mut(octets: &mut [u8]) -> u64 {
    octets.as_mut_ptr() as u64
}

fn rows(summary: &mut Summary) -> u64 {
    std::ptr::from_mut(summary) as u64
}

fn len(octets: &[u8]) -> u64 {
    octets.len() as u64
}

// SAFETY, for every call: registers and stack are as the calling convention has them for the
// declarations in library.rs, and the pointers and lengths come from live slices.
impl Side for Painted {
    fn opening(&self, summary: &mut Summary, registry: &[u8], timer: u32, clock: u32) -> Opened {
        let function = library::egrynnol_opening as *const ();
        let (at, length) = (at(registry), len(registry));
        answered(|to| unsafe {
            let registers = [to, rows(summary), at, length, timer.into(), clock.into()];
            self.call(0, function, registers, Arguments::default())
        })
    }

    fn arrival(
        &self,
        table: Table,
        summary: &mut Summary,
        store: &mut [u8],
        report: &mut [u8],
        arrival: Arrival,
    ) -> Received {
        let function = library::egrynnol_arrival as *const ();
        let Arrival { time, association, parameter } = arrival;
        let (stores, reports) = (len(store), len(report));
        let (store, report) = (at_mut(store), at_mut(report));
        answered(|to| unsafe {
            let registers = [to, rows(summary), store, stores, report, reports];
            let arguments = Arguments::default().with(table).with(u64::from(time));
            let arguments = arguments.with(u64::from(association));
            let arguments = arguments.with(at(parameter)).with(len(parameter));
            self.call(1, function, registers, arguments)
        })
    }

    fn clock(&self, table: Table, summary: &mut Summary, report: &mut [u8], time: u32) -> Swept {
        let function = library::egrynnol_clock as *const ();
        let (length, report) = (len(report), at_mut(report));
        answered(|to| unsafe {
            let registers = [to, rows(summary), report, length, time.into(), 0];
            self.call(2, function, registers, Arguments::default().with(table))
        })
    }

    fn release(
        &self,
        table: Table,
        summary: &mut Summary,
        report: &mut [u8],
        association: u16,
    ) -> Swept {
        let function = library::egrynnol_release as *const ();
        let (length, report) = (len(report), at_mut(report));
        answered(|to| unsafe {
            let registers = [to, rows(summary), report, length, association.into(), 0];
            self.call(3, function, registers, Arguments::default().with(table))
        })
    }

    fn delivery(&self, decision: Decision, parameter: &[u8], store: &[u8]) -> Part {
        let function = library::egrynnol_delivery as *const ();
        let (octets, length) = (at(parameter), len(parameter));
        answered(|to| unsafe {
            let registers = [to, octets, length, at(store), len(store), 0];
            self.call(4, function, registers, Arguments::default().with(decision))
        })
    }

    fn sending(
        &self,
        table: Table,
        request: Request,
        origin: &[u8],
        destination: &[u8],
        data: &[u8],
        area: &mut [u8],
    ) -> Sent {
        let function = library::egrynnol_sending as *const ();
        let registers =
            [at(origin), len(origin), at(destination), len(destination), at(data), len(data)];
        let arguments =
            Arguments::default().with(table).with(request).with(at_mut(area)).with(len(area));
        let [refusal, count, low, high, ..] =
            unsafe { self.call(5, function, registers, arguments) }.to_le_bytes();
        Sent { refusal, count, length: u16::from_le_bytes([low, high]) }
    }
}

#[cfg(test)]
mod tests {
    use super::*;
    use crate::measure::areas::REGISTRY;

    type Answers = (Opened, Received, Swept, Swept, Summary, Vec<u8>);

    fn answers(side: &dyn Side) -> Answers {
        let (mut summary, mut store, mut report) =
            (Summary { mark: [7; ROWS], ..Summary::EMPTY }, vec![0; STORE], vec![0; ARRIVAL]);
        let (rows, parameter) = (&mut summary, &[0x83, 0x80, 0x41, 0x85, 0xAA]);
        let opened = side.opening(rows, &REGISTRY, 100, 7);
        let arrival = Arrival { time: 11, association: 9, parameter };
        let received = side.arrival(opened.table, rows, &mut store, &mut report, arrival);
        let ticked = side.clock(received.table, rows, &mut report, 57);
        let released = side.release(ticked.table, rows, &mut report, 9);
        (opened, received, ticked, released, summary, report)
    }

    /// Each argument is where the calling convention has it.
    #[test]
    fn the_painted_stack_changes_no_answer() {
        let painted = answers(&Painted::new());
        assert!(painted == answers(&library::Library));
        let (_, received, ticked, released, summary, _) = painted;
        assert_eq!((received.refusal, received.table.places[0].start), (0, 11));
        assert_eq!((ticked.table.clock, released.records), (57, 1));
        assert_eq!((summary.association[0], summary.totals[5][0]), (9, 1));
    }
}
