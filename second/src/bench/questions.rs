//! Tables to ask for states, snapshots and properties, each with an instant that has a state.

use crate::fixtures::Case;
use crate::random::Random;
use crate::record::{Kind, NONE};
use crate::supply::{self, Ends, STRETCH};
use crate::tables::Tables;

/// What the records of a table are like, whether it is asked about or delivered to.
#[derive(Clone, Copy, Debug)]
pub enum Make {
    /// All of one form.
    Alike,
    /// Of forms at random, some cancelled.
    Mixed,
}

/// The instant of the questions about records that are alike; every one of them is applied.
const ALIKE: u32 = 160;

/// Returns what the table that is printed calls two tables.
pub fn name(make: Make, ends: Ends) -> String {
    match ends {
        Ends::Open => format!("Open ends, {make:?}"),
        _ => format!("{make:?}"),
    }
}

/// Makes two full tables of this many records each, and the instant that is asked about.
pub fn asked(make: Make, ends: Ends, count: usize, seed: u64) -> (Tables, u32) {
    let mut random = Random::new(seed);
    let middle = STRETCH * (count / 8);
    match (make, ends) {
        (Make::Alike, Ends::Open) => (Tables::of(&row(count)), (middle + STRETCH / 2) as u32),
        (Make::Alike, _) => (Tables::of(&alike(count)), ALIKE),
        (Make::Mixed, _) => {
            let cases = supply::crowd(&mut random, count, ends);
            let instant = middle + random.below(STRETCH);
            (Tables::of(&cases), instant as u32)
        }
    }
}

/// Makes a row of BASELINEs without end, three changes of one form in each, and as many TEMPDELTAs
/// over all of them.
fn row(count: usize) -> Vec<Case> {
    let baselines = count / 4;
    let permanent = (0..count).map(|index| match index.checked_sub(baselines) {
        None => (Kind::Baseline, index * STRETCH),
        Some(change) => (Kind::PermDelta, (change + change / 3 + 1) * STRETCH / 4),
    });
    let temporary = (0..count).map(|_| (Kind::TempDelta, 0));
    let cases = permanent.chain(temporary).enumerate();
    cases
        .map(|(index, (kind, begin))| {
            Case::usual(kind)
                .with_sequence(3 * index as u32)
                .with_times([begin as u32, NONE, NONE, NONE])
        })
        .collect()
}

/// Makes a BASELINE with changes of one form after it, and as many TEMPDELTAs over them.
fn alike(count: usize) -> Vec<Case> {
    let changes = (2..=count as u32).map(|index| (Kind::PermDelta, 3 * index));
    let deltas = (1..=count as u32).map(|index| (Kind::TempDelta, 3 * index));
    let keys = changes.chain(deltas);
    let usual = keys.map(|(kind, sequence)| Case::usual(kind).with_sequence(sequence));
    let is_passing = |case: &Case| case.head().kind == Kind::TempDelta.byte();
    let held = usual.map(|case| match is_passing(&case) {
        true => case.with_times([120, 200, NONE, NONE]),
        false => case,
    });
    held.chain([Case::usual(Kind::Baseline)]).collect()
}

#[cfg(test)]
mod tests {
    use super::*;
    use crate::record::Instant;
    use crate::state::lasting;
    use crate::table::{Sides, Table};

    /// A row of BASELINEs, none with an end; the middle one is the anchor, some changes apply.
    #[test]
    fn open_ends_are_what_they_are_called() {
        for (make, count) in [Make::Alike, Make::Mixed].into_iter().zip([16, 256]) {
            let (tables, instant) = asked(make, Ends::Open, count, 3);
            let table = Table::read(&tables.permanent, Sides::Permanent).unwrap();
            let heads = table.records.values().map(|record| record.head);
            let baselines: Vec<_> = heads.filter(|head| head.kind == 1).collect();
            assert_eq!((table.records.len(), baselines.len()), (count, count / 4));
            assert!(baselines.iter().all(|head| head.period.end.is_none()));
            let applied = lasting(&table, Instant(instant)).unwrap();
            assert_eq!(applied[0].head, baselines[count / 8]);
        }
    }
}
