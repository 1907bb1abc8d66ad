//! Records that are cancelled, come back and move, each correction delivered to its table.

use super::Script;
use crate::fixtures::brief::{base, baseline, cancelling, change, closing, opening, passing};
use crate::fixtures::Case;
use crate::layout::bytes_of;
use crate::record::NONE;
use crate::tables::Tables;

/// The instants that are asked about after each arrival.
const INSTANTS: [u32; 6] = [99, 100, 149, 150, 200, 250];

/// Adds every cancelled record that comes back.
pub fn add(script: &mut Script) {
    script.title("cancelled and revived records of each kind");
    let moved = [
        (base(), baseline(1, [150, NONE, 100, NONE], 4)),
        (
            baseline(2, [150, 200, NONE, 200], 2),
            baseline(2, [150, 151, NONE, NONE], 5),
        ),
        (change(1, 150, 2), change(1, 200, 6)),
        (opening(2, 100, 3), opening(2, 150, 7)),
        (closing(3, 200), closing(3, 150)),
        (passing(1, 100, 200, 8), passing(1, 200, 250, 9)),
        (passing(2, 150, NONE, 10), passing(2, 0, 150, 11)),
    ];
    let whole: Vec<Case> = moved.iter().map(|(case, _)| case.clone()).collect();
    for (case, other) in &moved {
        alone(script, case, other);
        among(script, &whole, case, other);
    }
    all_cancelled(script, &whole);
}

/// Makes two tables with room for eight records, which hold these.
fn roomy(cases: &[Case]) -> Tables {
    let mut tables = Tables::of(cases);
    let length = bytes_of(8);
    tables.permanent.resize(length, 0);
    tables.temporary.resize(length, 0);
    tables
}

/// Adds a record brought, cancelled, late, revived elsewhere and cancelled again, with a BASELINE
/// or without.
fn alone(script: &mut Script, case: &Case, other: &Case) {
    let mut tables = Tables::empty(bytes_of(8));
    if case.head().kind != 1 {
        script.bring(&mut tables, &baseline(9, [100, 200, 100, NONE], 99));
    }
    for slice in life_of(case, other) {
        script.bring(&mut tables, &slice);
        script.ask_at(&tables, &INSTANTS, &[0]);
    }
}

/// Returns the slices of a record that goes and comes back.
fn life_of(case: &Case, other: &Case) -> [Case; 6] {
    [
        case.clone(),
        cancelling(case, 1),
        case.clone(),
        other.clone().with_correction(2),
        cancelling(case, 65_534),
        case.clone().with_correction(65_535),
    ]
}

/// Adds the same among all the others.
fn among(script: &mut Script, whole: &[Case], case: &Case, other: &Case) {
    let mut tables = roomy(whole);
    for slice in life_of(case, other) {
        script.bring(&mut tables, &slice);
        script.ask_at(&tables, &INSTANTS, &[0]);
    }
}

/// Adds all of them cancelled, one after the other.
fn all_cancelled(script: &mut Script, whole: &[Case]) {
    let mut tables = roomy(whole);
    for case in whole {
        script.bring(&mut tables, &cancelling(case, 7));
        script.ask_at(&tables, &INSTANTS, &[0]);
    }
}
