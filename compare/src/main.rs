//! Compares the model with the proved library, call by call, and shows that it can fail.

mod arguments;
mod arrivals;
mod billed;
mod cases;
mod contexts;
mod coverage;
mod destinations;
mod exhaustive;
mod input;
#[cfg(feature = "library")]
mod layout;
// Linked where it can be, and behind a pipe elsewhere.
#[cfg(feature = "library")]
#[cfg_attr(not(target_arch = "x86_64"), path = "remote.rs")]
mod library;
#[cfg(all(feature = "library", not(target_arch = "x86_64")))]
mod octets;
mod pair;
mod positions;
mod random;
mod run;
mod scene;
mod side;
mod summaries;
mod tables;
mod traces;
mod trips;
mod unsound;
mod wire;

use std::process::ExitCode;
use std::time::Instant;

use arguments::{Arguments, Task};
use model::{Fault, Model};
use run::{Found, Run};

fn main() -> ExitCode {
    let arguments = match Arguments::read(std::env::args().skip(1)) {
        Ok(arguments) => arguments,
        Err(error) => {
            eprintln!("compare: {error}\nTry --help.");
            return ExitCode::from(2);
        }
    };
    let good = match arguments.task {
        Task::Help => {
            print!("{}", arguments::HELP);
            true
        }
        Task::ListBreaks => {
            Fault::ALL.iter().for_each(|fault| println!("{:28} {}", fault.name(), fault.what()));
            true
        }
        Task::Compare(fault) => compare(&arguments, fault),
        Task::Breaks => breaks(&arguments),
    };
    if good {
        ExitCode::SUCCESS
    } else {
        ExitCode::FAILURE
    }
}

/// One whole run: true if nothing differs and enough was met.
fn compare(arguments: &Arguments, fault: Option<Fault>) -> bool {
    let begun = Instant::now();
    println!(
        "seed {}, {} calls, model compared with {}",
        arguments.seed, arguments.calls, arguments.against
    );
    if let Some(fault) = fault {
        println!("the model is broken: {}", fault.what());
    }
    let mut run = Run::new(arguments, fault.map_or(Model::PLAIN, Model::with));
    if let Err(Found { by, difference }) = run.go() {
        println!("DIFFERENCE, seed {}, {by}:\n{difference}", arguments.seed);
        return false;
    }
    print!("{}", run.coverage);
    println!("no difference, {:.1} s", begun.elapsed().as_secs_f64());
    let missing = run.missing();
    if !missing.is_empty() {
        println!("NOT MET often enough:\n  {}", missing.join("\n  "));
    }
    missing.is_empty()
}

/// Each fault in turn: true if every one is found.
fn breaks(arguments: &Arguments) -> bool {
    let mut good = true;
    for fault in Fault::ALL {
        match Run::new(arguments, Model::with(*fault)).go() {
            Err(Found { by, .. }) => println!("found      {:28} by {by}", fault.name()),
            Ok(()) => {
                println!("NOT FOUND  {:28} ({})", fault.name(), fault.what());
                good = false;
            }
        }
    }
    good
}
