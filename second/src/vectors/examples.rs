//! The fourteen examples of the specification, each slice delivered to its table.

use super::Script;
use crate::fixtures::brief::{base, baseline, cancelling, change, closing, opening, passing};
use crate::fixtures::{nil, Case};
use crate::layout::bytes_of;
use crate::record::NONE;
use crate::tables::Tables;

/// Slices in the order of delivery, and the instants that are asked about.
struct Example {
    slices: Vec<Case>,
    instants: Vec<u32>,
}

/// Makes an example.
fn example(slices: &[Case], instants: &[u32]) -> Example {
    Example {
        slices: slices.to_vec(),
        instants: instants.to_vec(),
    }
}

/// Adds the examples, with deltas that mention property 0 alone, and with nil in the others.
pub fn add(script: &mut Script) {
    script.title("the fourteen examples");
    for Example { slices, instants } in examples() {
        let mut tables = empty();
        for slice in &slices {
            script.bring(&mut tables, slice);
        }
        script.ask_at(&tables, &instants, &[0, 1]);
        let mut tables = empty();
        for slice in &slices {
            script.bring(&mut tables, &with_nils(slice));
        }
        script.ask_at(&tables, &instants, &[0, 1]);
    }
}

/// Makes two tables without records, with room for four.
fn empty() -> Tables {
    Tables::empty(bytes_of(4))
}

/// Returns a slice with nil, unknown in each property but the first; a cancelled one stays.
fn with_nils(slice: &Case) -> Case {
    if slice.head().is_cancelled() {
        return slice.clone();
    }
    (1..8).fold(slice.clone(), |slice, index| {
        slice.with_part(index, &nil(4))
    })
}

/// Returns the examples in their order.
fn examples() -> Vec<Example> {
    let (first, second) = (passing(1, 120, 140, 5), passing(2, 130, 160, 6));
    let moved = passing(1, 200, 210, 5).with_correction(1);
    let altered = change(1, 150, 2);
    let unknown = passing(1, 120, NONE, 0).with_part(0, &nil(4));
    vec![
        example(&[], &[100]),
        example(
            &[baseline(1, [100, 200, 100, NONE], 1)],
            &[99, 100, 199, 200],
        ),
        example(&[base(), altered.clone()], &[149, 150]),
        example(&[base(), change(1, 100, 2)], &[99, 100, 101]),
        example(
            &[base(), altered.clone(), cancelling(&altered, 1)],
            &[149, 150],
        ),
        example(
            &[base(), first.clone(), second.clone()],
            &[125, 135, 159, 160],
        ),
        example(&[base(), first.clone(), second, moved], &[125, 205, 210]),
        example(&[first.clone().with_correction(1), first.clone()], &[125]),
        example(&[first.clone(), first, passing(1, 120, 140, 9)], &[125]),
        example(&[base(), change(4, 150, 8), change(3, 150, 9)], &[149, 150]),
        example(
            &[base(), baseline(2, [200, NONE, 200, NONE], 2)],
            &[199, 200],
        ),
        example(&[base(), closing(1, 300)], &[299, 300]),
        example(&[opening(1, 100, 3)], &[99, 100]),
        example(&[base(), unknown], &[119, 120]),
    ]
}

#[cfg(test)]
mod tests {
    use super::*;

    /// What the specification says of property 0 at each instant: a value, 0 for nil, or a refusal.
    #[test]
    fn examples_answer_as_the_paper_says() {
        let mut script = Script::default();
        let answers = examples().into_iter().map(|Example { slices, instants }| {
            let mut tables = empty();
            slices
                .iter()
                .for_each(|slice| script.bring(&mut tables, slice));
            let answers = instants.iter().map(|&instant| tables.value_at(instant));
            answers.collect::<Vec<_>>().join(" ")
        });
        assert_eq!(
            answers.collect::<Vec<_>>().join(", "),
            "!20, !20 1 1 !20, 1 2, !20 1 1, 1 1, 5 6 6 1, 1 5 1, !20, !20, 1 8, 1 2, 1 !22, !20 3, 1 0"
        );
    }
}
