//! The program that measures. It links the library and calls it on a stack of its own, by x86-64's
//! instructions; an emulator's times would say nothing, so that there is none for other machines.

#[cfg(target_arch = "x86_64")]
mod layout;
#[cfg(target_arch = "x86_64")]
mod library;
#[cfg(target_arch = "x86_64")]
#[path = "bench/measure.rs"]
mod measure;
// The comparison uses the rest of this one and of `wire`.
#[cfg(target_arch = "x86_64")]
#[allow(dead_code)]
mod random;
#[cfg(target_arch = "x86_64")]
mod side;
#[cfg(target_arch = "x86_64")]
#[allow(dead_code)]
mod wire;

use std::process::ExitCode;

#[cfg(target_arch = "x86_64")]
fn main() -> ExitCode {
    measure::main()
}

#[cfg(not(target_arch = "x86_64"))]
fn main() -> ExitCode {
    eprintln!("bench: only on x86-64");
    ExitCode::from(2)
}
