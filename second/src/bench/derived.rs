//! Tables to derive baselines from.

use crate::fixtures::Case;
use crate::random::Random;
use crate::record::{Kind, NONE};
use crate::supply::{parts, shuffle, STRETCH};
use crate::tables::permanent;

/// What the tables are like.
#[derive(Clone, Copy, Debug, PartialEq)]
pub enum Shape {
    /// BASELINEs that touch, the last one without end, and a change in each.
    Row,
    /// One BASELINE and changes after it.
    Line,
    /// A change that opens the life, and changes after it.
    Open,
    /// As Open, with a second opening near the end, in a BASELINE that holds from there on.
    Hidden,
    /// As Open, with a second opening as the last change, where two anchors are found.
    Late,
    /// BASELINEs without end, each closed by the next.
    Unended,
    /// BASELINEs apart, each with three instants of its own: its life ends in the next one.
    Apart,
}

/// The order of the times in a table, for each kind.
#[derive(Clone, Copy, Debug, PartialEq)]
pub enum Order {
    Rising,
    Any,
}

/// Every shape that is measured, with its order.
pub const SHAPES: [(Shape, Order); 10] = [
    (Shape::Row, Order::Rising),
    (Shape::Line, Order::Rising),
    (Shape::Open, Order::Rising),
    (Shape::Hidden, Order::Rising),
    (Shape::Late, Order::Rising),
    (Shape::Unended, Order::Rising),
    (Shape::Apart, Order::Rising),
    (Shape::Apart, Order::Any),
    (Shape::Row, Order::Any),
    (Shape::Line, Order::Any),
];

/// Begin, end, life begin and life end of a slice.
type Times = [u32; 4];

/// Returns what the table that is printed calls the tables.
pub fn name(shape: Shape, order: Order) -> String {
    match order {
        Order::Rising => format!("{shape:?}"),
        Order::Any => format!("{shape:?} in any order"),
    }
}

/// Makes a table of this many records, of forms at random.
pub fn table(shape: Shape, order: Order, count: usize, seed: u64) -> Vec<u8> {
    let mut random = Random::new(seed);
    let (mut baselines, mut changes) = times(shape, count);
    if order == Order::Any {
        shuffle(&mut random, &mut baselines);
        shuffle(&mut random, &mut changes);
    }
    let kinds = [(Kind::Baseline, baselines), (Kind::PermDelta, changes)];
    let keys = kinds.into_iter().flat_map(|(kind, times)| {
        let numbered = times.into_iter().enumerate();
        numbered.map(move |(index, times)| (kind, 7 * index as u32, times))
    });
    let case = |(kind, sequence, times)| {
        Case::any(kind)
            .with_sequence(sequence)
            .with_times(times)
            .with_parts(&parts(&mut random, kind))
    };
    permanent(&keys.map(case).collect::<Vec<_>>())
}

/// Returns the times of BASELINEs and of changes, this many together.
fn times(shape: Shape, count: usize) -> (Vec<Times>, Vec<Times>) {
    let last = count - 1;
    let changes = |count| (0..count).map(change);
    let opened = |count| [opening(0)].into_iter().chain((1..count).map(change));
    match shape {
        Shape::Row => (row(count / 2), changes(count - count / 2).collect()),
        Shape::Line => (row(1), changes(last).collect()),
        Shape::Open => (vec![], opened(count).collect()),
        Shape::Hidden => {
            let changes = opened(last - 1).chain([opening(last)]);
            (vec![[at(last), NONE, NONE, NONE]], changes.collect())
        }
        Shape::Late => (vec![], opened(last).chain([opening(last)]).collect()),
        Shape::Unended => {
            let unended = (0..count).map(|index| [at(index), NONE, NONE, NONE]);
            (unended.collect(), vec![])
        }
        Shape::Apart => {
            let times = |index| [at(index), middle(index), NONE, at(index + 1) + 1];
            ((0..count).map(times).collect(), vec![])
        }
    }
}

/// Returns the times of BASELINEs that touch, the last one without end.
fn row(count: usize) -> Vec<Times> {
    let end = |index| match index + 1 == count {
        true => NONE,
        false => at(index + 1),
    };
    (0..count)
        .map(|index| [at(index), end(index), NONE, NONE])
        .collect()
}

/// Returns the times of a change in the middle of a stretch.
fn change(index: usize) -> Times {
    [middle(index), NONE, NONE, NONE]
}

/// Returns the times of an opening in the middle of a stretch.
fn opening(index: usize) -> Times {
    [middle(index), NONE, middle(index), NONE]
}

/// Returns the begin of a stretch.
fn at(index: usize) -> u32 {
    (index * STRETCH) as u32
}

/// Returns the middle of a stretch.
fn middle(index: usize) -> u32 {
    at(index) + STRETCH as u32 / 2
}

#[cfg(test)]
mod tests {
    use super::*;
    use crate::derived::{change_instants, derive};
    use crate::layout::bytes_of;
    use crate::refusal::Refusal;
    use crate::table::{Sides, Table};

    /// As many derived baselines as records; but for two anchors at the last change, and for three
    /// instants of each BASELINE, of which begins and all life ends but the last have a state.
    #[test]
    fn tables_are_what_they_are_called() {
        for (shape, order) in SHAPES {
            for (count, seed) in [(16, 1), (64, 2), (256, 3)] {
                let table = table(shape, order, count, seed);
                assert_eq!(table.len(), bytes_of(count));
                let expected = match (shape, count) {
                    (Shape::Late, _) => Err(Refusal::TwoAnchors),
                    (Shape::Apart, 256) => Err(Refusal::Buffer),
                    (Shape::Apart, _) => Ok(2 * count - 1),
                    _ => Ok(count),
                };
                let answer = derive(&table, &mut vec![0; bytes_of(256)]);
                assert_eq!(answer, expected, "{}", name(shape, order));
            }
        }
    }

    /// Three instants for each BASELINE; times rise with the sequence numbers, or do not.
    #[test]
    fn times_are_in_order_or_not() {
        for (order, is_rising) in [(Order::Rising, true), (Order::Any, false)] {
            let bytes = table(Shape::Apart, order, 256, 5);
            let table = Table::read(&bytes, Sides::Permanent).unwrap();
            assert_eq!(change_instants(&table).len(), 768);
            let begins = table.records.values().map(|one| one.head.period.begin);
            assert_eq!(begins.is_sorted(), is_rising);
        }
    }
}
