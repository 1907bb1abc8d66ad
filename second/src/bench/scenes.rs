//! What is measured: each call on tables of this many records, with the expected reply.

use super::derived::{self, Order, Shape, SHAPES};
use super::questions::{asked, name, Make};
use super::touches::{self, Hit};
use super::{Call, Scene, Use, RECORDS, TEXT};
use crate::derived::derive;
use crate::fixtures::{cases, table_of, FEATURE, RECORD};
use crate::layout::{bytes_of, HEADER_BYTES, RECORD_BYTES};
use crate::library::Reply;
use crate::listing::{list, MOST_BYTES};
use crate::question::property;
use crate::random::Random;
use crate::record::{Kind, Side};
use crate::supply::{self, Ends};
use crate::tables::Tables;
use crate::touched::touched;

/// Where a property may be touched last.
const HITS: [Hit; 3] = [Hit::End, Hit::Front, Hit::Nowhere];

/// Makes every scene on tables of this many records, in the order of the table that is printed.
pub fn all(count: usize) -> Vec<Scene> {
    let created = |seed| {
        [made(
            full_table(Make::Alike, count, seed),
            Call::NewTable,
            1,
        )]
    };
    let mut all = scenes(count, [("tsl_new_table".to_string(), 256)], created);
    for make in [Make::Alike, Make::Mixed] {
        let names = [
            ("refused with 9", 16),
            ("Added in front", 1),
            ("Replaced", 1),
            ("Superseded", 16),
            ("Repeat", 16),
        ];
        let names = names.map(|(name, repeats)| (format!("tsl_arrive, {make:?}: {name}"), repeats));
        all.extend(scenes(count, names, |seed| arrivals(make, count, seed)));
    }
    for ends in [Ends::Fixed, Ends::Open] {
        for make in [Make::Alike, Make::Mixed] {
            all.extend(question_scenes(make, ends, count));
        }
    }
    for make in [Make::Alike, Make::Mixed] {
        let name = |hit: Hit| (format!("tsl_touched, {make:?}: {}", hit.name()), 16);
        let names = HITS.map(name);
        all.extend(scenes(count, names, |seed| touching(make, count, seed)));
    }
    for (shape, order) in SHAPES {
        let name = format!("tsl_derive, {}", derived::name(shape, order));
        all.extend(scenes(count, [(name, 1)], |seed| {
            [deriving(derived::table(shape, order, count, seed))]
        }));
    }
    for shape in [Shape::Row, Shape::Line, Shape::Open] {
        let name = format!("tsl_listing, {shape:?}");
        all.extend(scenes(count, [(name, 1)], |seed| {
            [listed(derived::table(shape, Order::Rising, count, seed))]
        }));
    }
    all
}

/// Makes the scenes of the questions about two tables.
fn question_scenes(make: Make, ends: Ends, count: usize) -> Vec<Scene> {
    let name = name(make, ends);
    let names = [
        (format!("tsl_permanent_state, {name}"), 16),
        (format!("tsl_snapshot, {name}"), 16),
        (format!("tsl_property, {name}: one"), 16),
        (format!("tsl_property, {name}: all eight"), 4),
    ];
    scenes(count, names, |seed| {
        questions(asked(make, ends, count, seed), seed)
    })
}

/// Makes scenes of these names and repeats, with the uses that each seed gives in the same order.
fn scenes<const N: usize>(
    count: usize,
    names: [(String, usize); N],
    uses: impl Fn(u64) -> [Use; N],
) -> Vec<Scene> {
    let sets: Vec<[Use; N]> = (0..(RECORDS / count) as u64).map(uses).collect();
    let scene = |(index, (name, repeats)): (usize, _)| Scene {
        name,
        records: count,
        repeats,
        uses: sets.iter().map(|set| set[index].clone()).collect(),
    };
    names.into_iter().enumerate().map(scene).collect()
}

/// Makes a use of a table whose reply has a kind and no number.
fn made(table: Vec<u8>, call: Call, kind: u32) -> Use {
    Use {
        table,
        call,
        right: Reply::new(kind, 0),
    }
}

/// Makes a table that counts this many records and has no room for more: TEMPDELTAs that are alike,
/// or BASELINEs and PERMDELTAs, mixed.
fn full_table(make: Make, count: usize, seed: u64) -> Vec<u8> {
    match make {
        Make::Mixed => supply::table(&mut Random::new(seed), Side::Permanent, count, 0),
        Make::Alike => {
            let keys: Vec<_> = (1..=count as u32)
                .map(|index| (Kind::TempDelta, 3 * index))
                .collect();
            table_of(&cases(&keys), 0, 0)
        }
    }
}

/// Returns the slice of a table's record, under the correction 1.
fn slice(table: &[u8], index: usize) -> Vec<u8> {
    let start = bytes_of(index);
    let mut slice = [&FEATURE, &table[start..start + RECORD_BYTES]].concat();
    slice[RECORD + 2..RECORD + 4].copy_from_slice(&[0, 1]);
    slice
}

/// Returns a table with another correction number in one of its records.
fn corrected(mut table: Vec<u8>, index: usize, correction: u16) -> Vec<u8> {
    let place = bytes_of(index) + 2;
    table[place..place + 2].copy_from_slice(&correction.to_be_bytes());
    table
}

/// Returns a table without its first record, which leaves room for one.
fn without_first(mut table: Vec<u8>) -> Vec<u8> {
    let count = u16::from_be_bytes([table[6], table[7]]) - 1;
    table[6..8].copy_from_slice(&count.to_be_bytes());
    table.copy_within(bytes_of(1).., HEADER_BYTES);
    table
}

/// Makes the arrivals: a slice of no bytes, and one that is Added, Replaced, Superseded and a
/// Repeat.
fn arrivals(make: Make, count: usize, seed: u64) -> [Use; 5] {
    let table = full_table(make, count, seed);
    let middle = count / 2;
    let (first, again) = (slice(&table, 0), slice(&table, middle));
    let again = |correction, kind| {
        let table = corrected(table.clone(), middle, correction);
        made(table, Call::Arrive(again.clone()), kind)
    };
    let nothing = Use {
        table: table.clone(),
        call: Call::Arrive(vec![]),
        right: Reply::new(0, 9),
    };
    let added = made(without_first(table.clone()), Call::Arrive(first), 1);
    [nothing, added, again(0, 2), again(2, 3), again(1, 4)]
}

/// Makes the questions: the permanent state, the snapshot, one property and all eight.
fn questions((tables, instant): (Tables, u32), seed: u64) -> [Use; 4] {
    let (permanent, temporary) = (tables.permanent, tables.temporary);
    let number = (seed % 8) as u8;
    let part = property(&permanent, &temporary, instant, number);
    let part = part.map(|part| part.map(|part| (part.side, part.place)));
    let made = |call| made(permanent.clone(), call, 1);
    [
        made(Call::State(instant)),
        made(Call::Snapshot(temporary.clone(), instant)),
        Use {
            right: Reply::of_part(part),
            ..made(Call::Property(temporary.clone(), instant, number))
        },
        made(Call::Properties(temporary, instant)),
    ]
}

/// Makes the questions whether a property is touched, one for each place of the last record that
/// touches it.
fn touching(make: Make, count: usize, seed: u64) -> [Use; 3] {
    let number = (seed % 8) as u8;
    HITS.map(|hit| {
        let table = touches::table(make, hit, count, number.into(), seed);
        let right = Reply::of_touched(touched(&table, touches::INSTANT, number));
        Use {
            table,
            call: Call::Touched(touches::INSTANT, number),
            right,
        }
    })
}

/// Makes the derived baselines of a table.
fn deriving(table: Vec<u8>) -> Use {
    let right = Reply::of_derived(derive(&table, &mut [0; MOST_BYTES]));
    Use {
        table,
        call: Call::Derive,
        right,
    }
}

/// Makes the listing of a table.
fn listed(table: Vec<u8>) -> Use {
    let right = Reply::of_listing(list(&table, &mut [0; TEXT]));
    Use {
        table,
        call: Call::Listing,
        right,
    }
}

#[cfg(test)]
mod tests {
    use super::super::COUNTS;
    use super::*;
    use crate::library::PLAIN;

    /// Each call replies as its scene expects, and a repeated call does so again.
    #[test]
    fn scenes_are_what_they_are_called() {
        let mut output = vec![0; MOST_BYTES];
        for scene in COUNTS.into_iter().flat_map(all) {
            for one in scene.uses {
                let mut table = one.table.clone();
                for _ in 0..scene.repeats {
                    let reply = one.call(&PLAIN, &mut table, &mut output);
                    assert_eq!(reply, one.right, "{}", scene.name);
                }
            }
        }
    }

    /// After "Added in front" the table is full.
    #[test]
    fn an_added_record_is_the_last_that_fits() {
        let [check, added, ..] = arrivals(Make::Mixed, 16, 3);
        let mut table = added.table.clone();
        let reply = added.call(&PLAIN, &mut table, &mut [0; RECORD_BYTES]);
        assert_eq!(reply.kind, 1);
        assert_eq!(table[..HEADER_BYTES], check.table[..HEADER_BYTES]);
        assert_eq!(table[HEADER_BYTES + 4..], check.table[HEADER_BYTES + 4..]);
    }
}
