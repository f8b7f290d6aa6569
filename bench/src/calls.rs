//! The calls that are measured: the library's and the plain monitor's on the
//! first instants of a case.
use crate::cases::{self, Case};
use crate::state::WORDS;
use crate::{library, plain};
use std::hint::black_box;

pub struct Call {
    pub name: &'static str,
    /// The cases that it is measured on.
    pub cases: &'static [&'static str],
    pub library: fn(&Case, usize) -> u64,
    pub plain: fn(&Case, usize) -> u64,
}

pub const CALLS: [Call; 4] = [
    Call {
        name: "lift_judge",
        cases: &[
            "owed", "counted", "delays", "meeting", "precedes", "kills", "none", "implies",
            "typical", "numbered",
        ],
        library: |c, n| library::judge(&c.sheet, c.first(n)),
        plain: |c, n| plain::judge(&c.sheet, c.first(n)),
    },
    Call {
        name: "lift_observe",
        cases: &["owed", "counted", "precedes", "none", "typical", "numbered"],
        library: observe,
        plain: plain_observe,
    },
    Call {
        name: "lift_watch",
        cases: &["typical"],
        library: |c, n| library::watch(&c.sheet, c.first(n), &mut [0; 3 * cases::INSTANTS]),
        plain: |c, n| plain::watch(&c.sheet, c.first(n), &mut [0; 3 * cases::INSTANTS]),
    },
    Call {
        name: "lift_panel",
        cases: &["typical"],
        library: |c, n| library::panel(&c.sheet, c.first(n), 2),
        plain: |c, n| plain::panel(&c.sheet, c.first(n), 2),
    },
];

/// A state opened, and called record by record.
fn observe(c: &Case, n: usize) -> u64 {
    let mut state = [0; WORDS];
    let mut result = library::open(&c.sheet, &mut state);
    for record in c.first(n).chunks_exact(c.record) {
        result = black_box(library::observe(&mut state, record));
    }
    result
}

fn plain_observe(c: &Case, n: usize) -> u64 {
    let mut m = plain::Monitor::opened(&c.sheet).expect("a sheet that is taken");
    let mut result = m.last();
    for record in c.first(n).chunks_exact(c.record) {
        result = black_box(m.call(record));
    }
    result
}

/// Each call with each of its cases.
pub fn measured(all: &[Case]) -> impl Iterator<Item = (&'static Call, &Case)> {
    const CALLS: &[Call] = &self::CALLS;
    CALLS.iter().flat_map(move |call| {
        call.cases
            .iter()
            .map(move |name| (call, all.iter().find(|c| c.name == *name).unwrap()))
    })
}
