//! Measures the proved library beside the model: one run, the same calls, ratios.

mod areas;
mod both;
mod called;
mod calls;
mod copying;
mod mix;
mod options;
mod replay;
mod rounds;
mod stack;
mod through;

use std::io::{self, Write};
use std::mem::size_of;
use std::process::ExitCode;

use crate::library::Library;
use both::Both;
use called::Called;
use mix::Mix;
use model::*;
use options::{Options, Task};
use rounds::{Figures, Work};
use stack::Painted;

pub fn main() -> ExitCode {
    let options = match Options::read(std::env::args().skip(1)) {
        Ok(options) => options,
        Err(error) => {
            eprintln!("bench: {error}\nTry --help.");
            return ExitCode::from(2);
        }
    };
    match options.task {
        Task::Help => say(options::HELP.trim_end()),
        Task::ReplayModel => return replay::child(),
        Task::Measure => Bench { options, painted: Painted::new() }.run(),
    }
    ExitCode::SUCCESS
}

struct Bench {
    options: Options,
    /// Sees every call that is measured, so that the deepest is among them.
    painted: Painted,
}

impl Bench {
    fn run(&mut self) {
        self.calls();
        if self.options.only.is_none() {
            self.replay();
            self.through();
            self.copying();
            self.stack();
            sizes();
        }
    }

    fn calls(&mut self) {
        say("| calls | library / model | middle half | library | model |\n|---|---:|---:|---:|---:|");
        for others in [0, 4, 15] {
            let name = format!("arrivals at the table's own time, {others} other sequences open");
            self.row(&name, Mix::new(others));
        }
        for used in [0, 16, 64] {
            let own = "arrival at the table's own time, unsegmented";
            self.row(&format!("{own}, {used} rows used before"), calls::Rows::new(used));
        }
        for open in [0, 15] {
            let name = format!("arrival, a step with none due of {open} open, unsegmented");
            self.row(&name, calls::Later::idle(open));
        }
        self.row("arrival, a step with 16 due, a first segment saved", calls::Later::due());
        for open in [0, 15] {
            self.row(&format!("clock, none due of {open} open"), calls::Clock::new(open, 1));
        }
        self.row("clock, 16 due", calls::Clock::new(16, areas::TIMER));
        self.row("release, none of 15 open", calls::Release::new(15, areas::NOBODY));
        self.row("release, 16 of 16 open", calls::Release::new(16, areas::EVERYBODY));
        for open in [0, 15] {
            self.row(&format!("sending, unsegmented, {open} open"), calls::Sending::whole(open));
            let name = format!("sending, each of 10 segments of 2,048 octets, {open} open");
            self.row(&name, calls::Sending::cut(open));
        }
        self.row("delivery, of the parameter and of the store", calls::Delivery::new());
    }

    /// No call of the library: what the calling convention of C costs it.
    fn through(&self) {
        let figures = through::measure(self.options.rounds);
        let [left, right] = [figures.left, figures.right].map(|time| format!("{time:.1} ns"));
        print_row("a table in and out, C's convention / Rust's", &figures, &left, &right);
    }

    fn row(&mut self, name: &str, mut work: impl Work) {
        if self.options.only.as_ref().is_some_and(|only| !name.contains(only)) {
            return;
        }
        work.go(&Both);
        work.go(&self.painted);
        let figures = rounds::beside(
            &mut work,
            self.options.rounds,
            |work| work.go(&Library),
            |work| work.go(&Called),
        );
        let calls = work.calls() as f64;
        let (left, right) = (figures.left / calls, figures.right / calls);
        print_row(name, &figures, &format!("{left:.1} ns"), &format!("{right:.1} ns"));
    }

    fn replay(&self) {
        let segments = if self.options.quick { 20_000 } else { 200_000 };
        let Options { replay, records, totals, quick, .. } = &self.options;
        let name = format!("replay of {segments} segments, as a process");
        process_row(&name, replay::measure(replay, segments, *quick));
        let figures = replay::measure_records([records, replay], segments, *quick);
        process_row(&format!("records / replay of {segments} segments, both proved"), figures);
        let figures = replay::measure_totals([totals, replay], segments, *quick);
        process_row(&format!("totals / replay of {segments} segments, both proved"), figures);
    }

    fn copying(&self) {
        say("\n| segments with 250 octets of information | octets a second | time / plain copy |");
        say("|---|---:|---:|");
        for (name, rate, ratio) in copying::rows(self.options.rounds) {
            say(&format!("| {name} | {:.2} x 10^9 | {ratio:.2} |", rate / 1e9));
        }
    }

    fn stack(&self) {
        calls::Opening::new().go(&self.painted);
        say("\n| call of the library | stack, octets | of which arguments |\n|---|---:|---:|");
        for (name, arguments, own) in self.painted.deepest() {
            say(&format!("| {name} | {} | {arguments} |", arguments + own));
        }
    }
}

fn process_row(name: &str, figures: Result<Figures, String>) {
    match figures {
        Ok(figures) => {
            let [left, right] = [figures.left, figures.right].map(|time| time / 1e6);
            print_row(name, &figures, &format!("{left:.1} ms"), &format!("{right:.1} ms"));
        }
        Err(error) => say(&format!("| {name} | left out: {error} | | | |")),
    }
}

fn print_row(name: &str, figures: &Figures, left: &str, right: &str) {
    let Figures { ratio, low, high, .. } = figures;
    say(&format!("| {name} | {ratio:.2} | {low:.2} to {high:.2} | {left} | {right} |"));
}

/// Each row as soon as it is known. Where nobody reads any more, as after `| head`, all ends.
fn say(line: &str) {
    if writeln!(io::stdout(), "{line}").is_err() {
        std::process::exit(0);
    }
}

fn sizes() {
    say("\n| value | octets |\n|---|---:|");
    let sizes = [
        ("table", size_of::<Table>()),
        ("place", size_of::<Place>()),
        ("summary", size_of::<Summary>()),
        ("answer of opening", size_of::<Opened>()),
        ("answer of arrival", size_of::<Received>()),
        ("of which the decision", size_of::<Decision>()),
        ("answer of clock and release", size_of::<Swept>()),
        ("answer of delivery", size_of::<Part>()),
        ("request of sending", size_of::<Request>()),
        ("answer of sending", size_of::<Sent>()),
    ];
    sizes.iter().for_each(|(name, size)| say(&format!("| {name} | {size} |")));
}
