//! A call that takes a table and gives it back, and nothing else: what no call can be without.

use std::hint::black_box;

use super::areas;
use super::rounds::{beside, Figures};
use model::*;

const CALLS: usize = 1_000;

#[inline(never)]
extern "C" fn by_c(table: Table) -> Swept {
    Swept { table, refusal: 0, records: 0 }
}

#[inline(never)]
fn by_rust(table: Table) -> Swept {
    Swept { table, refusal: 0, records: 0 }
}

/// By the calling convention of C, as the library has it, beside Rust's own.
pub fn measure(rounds: usize) -> Figures {
    let (mut table, _) = areas::table(4, |k| k as u16);
    let c: extern "C" fn(Table) -> Swept = black_box(by_c);
    let rust: fn(Table) -> Swept = black_box(by_rust);
    let figures = beside(
        &mut table,
        rounds,
        |table| again(table, |table| c(table)),
        |table| again(table, rust),
    );
    let [left, right] = [figures.left, figures.right].map(|time| time / CALLS as f64);
    Figures { left, right, ..figures }
}

fn again(table: &mut Table, call: impl Fn(Table) -> Swept) {
    for _ in 0..CALLS {
        *table = black_box(&call(*black_box(&*table))).table;
    }
}
