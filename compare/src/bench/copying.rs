//! How fast octets go through: full segments, beside a plain copy of the same octets.

use std::hint::black_box;

use super::areas::{self, Areas};
use super::called::Called;
use super::mix::{receive, Segments};
use super::rounds::{beside, Figures};
use crate::library::Library;
use crate::wire::Wire;
use model::*;

const INFORMATION: usize = 250;
/// As many as 2,048 octets hold.
const PARTS: usize = 8;
const SEQUENCES: usize = 50;
const ASSOCIATION: u16 = 9;

struct Full {
    segments: Segments,
    table: Table,
    areas: Areas,
}

/// Name, octets a second, and the time over that of the copy.
pub fn rows(rounds: usize) -> [(&'static str, f64, f64); 3] {
    let (table, summary) = areas::table(0, |_| 0);
    let areas = Areas::with(areas::seated(summary, [ASSOCIATION]));
    let mut full = Full { segments: segments(), table, areas };
    let octets = (full.segments.len() * INFORMATION) as f64;
    let library = beside(
        &mut full,
        rounds,
        |full| receive(&Library, full.table, &full.segments, &mut full.areas),
        copy,
    );
    let model = beside(
        &mut full,
        rounds,
        |full| receive(&Called, full.table, &full.segments, &mut full.areas),
        copy,
    );
    let rate = |nanoseconds: f64| octets / nanoseconds * 1e9;
    let row = |name, figures: &Figures| (name, rate(figures.left), figures.ratio);
    [row("library", &library), row("model", &model), ("plain copy", rate(library.right), 1.0)]
}

/// Each segment's information to where the receiver would save it, and nothing else.
fn copy(full: &mut Full) {
    for (k, (_, parameter)) in full.segments.iter().enumerate() {
        let parameter = black_box(parameter);
        let information = &parameter[parameter.len() - INFORMATION..];
        let store = black_box(&mut full.areas.store);
        store[k % PARTS * INFORMATION..][..INFORMATION].copy_from_slice(information);
    }
}

fn segments() -> Segments {
    let mut segments = Segments::default();
    for k in 0..SEQUENCES * PARTS {
        let part = Wire {
            context: 3,
            new: k % PARTS == 0,
            remaining: (PARTS - 1 - k % PARTS) as u8,
            reference: Some(5),
            information: vec![k as u8; INFORMATION],
            ..Wire::default()
        };
        segments.push(ASSOCIATION, &part.octets());
    }
    segments
}
