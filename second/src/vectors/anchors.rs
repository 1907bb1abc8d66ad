//! Histories with one anchor, with none and with two, and the changes that are applied after it.

use super::Script;
use crate::fixtures::brief::{base, change, from_to, opening, passing, SEQUENCES};
use crate::fixtures::{code, Case};
use crate::record::NONE;
use crate::tables::Tables;

/// Adds every history about anchors.
pub fn add(script: &mut Script) {
    two_baselines(script);
    two_openings(script);
    baselines_and_openings(script);
    changes_about_a_begin(script);
    equal_instants(script);
    changes_about_an_opening(script);
    first_and_last_instants(script);
}

/// Adds two BASELINEs that overlap, touch, lie apart or begin together, and three.
fn two_baselines(script: &mut Script) {
    script.title("anchors: two BASELINEs and three");
    for (begin, end) in [
        (150, 250),
        (150, NONE),
        (199, 201),
        (200, 300),
        (201, 300),
        (100, 101),
        (100, 200),
        (50, 100),
        (50, 101),
        (50, NONE),
    ] {
        for sequences in [[1, 2], [2, 1]] {
            let [one, other] = sequences;
            script.ask_history(&[from_to(one, 100, 200), from_to(other, begin, end)], &[0]);
        }
    }
    let three = [(1, 100, 200), (2, 150, 250), (3, 180, NONE)];
    script.ask_history(
        &three.map(|(one, begin, end)| from_to(one, begin, end)),
        &[0],
    );
}

/// Adds openings: one, two at different and at equal instants, and three.
fn two_openings(script: &mut Script) {
    script.title("anchors: two openings and three");
    let one = opening(5, 100, 1);
    script.ask_history(std::slice::from_ref(&one), &[0, 7]);
    for (sequence, instant) in [(6, 100), (4, 100), (6, 101), (4, 99), (6, 200)] {
        let other = opening(sequence, instant, 2);
        script.ask_history(&[one.clone(), other.clone()], &[0]);
        script.ask_history(&[one.clone(), other, opening(7, 150, 3)], &[0]);
    }
}

/// Adds a BASELINE with one, two and three openings, before, in and after its period.
fn baselines_and_openings(script: &mut Script) {
    script.title("anchors: a BASELINE beside openings");
    let anchor = from_to(1, 100, 200);
    for instant in [99, 100, 101, 150, 199, 200, 201] {
        let one = opening(2, instant, 2);
        script.ask_history(&[anchor.clone(), one.clone()], &[0, 3]);
        for other in [50, 150, 250] {
            let other = opening(3, other, 3);
            script.ask_history(&[anchor.clone(), one.clone(), other], &[0]);
        }
    }
    let both = [from_to(1, 100, 200), from_to(2, 150, 160)];
    let openings = [opening(1, 50, 8), opening(2, 170, 9)];
    script.ask_history(&[&both[..], &openings].concat(), &[0]);
}

/// Adds PERMDELTAs before, at and after a BASELINE's begin, alone and together.
fn changes_about_a_begin(script: &mut Script) {
    script.title("anchors: changes before, at and after a begin");
    let instants = [98, 99, 100, 101, 102];
    for (sequence, instant) in (1..).zip(instants) {
        script.ask_history(&[base(), change(sequence, instant, 2)], &[0]);
    }
    let rising = (1..).zip(instants);
    let falling = (1..).zip(instants.into_iter().rev());
    for changes in [rising.collect::<Vec<_>>(), falling.collect()] {
        let changes = changes
            .into_iter()
            .map(|(sequence, instant)| change(sequence, instant, 10 + sequence as u16));
        let cases: Vec<Case> = changes.chain([base()]).collect();
        script.ask_history(&cases, &[0]);
    }
}

/// Adds changes at equal instants with sequence numbers both ways, of the same and of other
/// properties.
fn equal_instants(script: &mut Script) {
    script.title("anchors: changes at equal instants");
    for [one, other] in SEQUENCES {
        let (first, second) = (change(one, 150, 9), change(other, 150, 8));
        script.ask_history(&[base(), first.clone(), second.clone()], &[0]);
        let (first, second) = (first.with_part(1, &code(7)), second.with_part(2, &code(6)));
        script.ask_history(&[base(), first.clone(), second], &[0, 1, 2]);
        script.ask_history(&[base(), first, change(other, 149, 5)], &[0, 1]);
    }
    for (instant, later) in [(255, 256), (65_535, 65_536), (0x7fff_ffff, 0x8000_0000)] {
        let cases = [base(), change(2, instant, 2), change(1, later, 3)];
        script.ask_history(&cases, &[0]);
    }
}

/// Adds an opening with changes before and after it in the order, of the same and of other
/// properties.
fn changes_about_an_opening(script: &mut Script) {
    script.title("anchors: changes before and after an opening in the order");
    let anchor = opening(5, 100, 1);
    let others = [(9, 99), (4, 100), (6, 100), (1, 101)];
    for (sequence, instant) in others {
        let other = change(sequence, instant, 2);
        script.ask_history(&[anchor.clone(), other.clone()], &[0, 1]);
        script.ask_history(&[anchor.clone(), other.with_part(1, &code(3))], &[0, 1]);
    }
    let all = others.map(|(sequence, instant)| {
        change(sequence, instant, sequence as u16).with_part(sequence as usize % 8, &code(77))
    });
    let anchor = std::slice::from_ref(&anchor);
    script.ask_history(&[anchor, &all].concat(), &[0, 1, 4, 6, 7]);
    script.ask_history(&[anchor, &all[1..3]].concat(), &[0, 1, 2, 3, 4, 5, 6, 7]);
}

/// Adds records at the first and at the last instant, and questions there.
fn first_and_last_instants(script: &mut Script) {
    script.title("anchors: the first and the last instant");
    let last = NONE - 1;
    let instants = [0, 1, 100, last - 1, last, NONE];
    for anchor in [
        from_to(1, 0, NONE),
        from_to(1, 0, 1),
        from_to(1, 0, last),
        from_to(1, last, NONE),
    ] {
        let others = [change(2, 0, 2), change(3, last, 3), opening(4, last, 4)];
        let passing = [
            passing(1, 0, 1, 5),
            passing(2, last - 1, last, 6),
            passing(3, last, NONE, 7),
        ];
        for cases in [
            vec![],
            others.to_vec(),
            passing.to_vec(),
            [others, passing].concat(),
        ] {
            let tables = Tables::of(&[vec![anchor.clone()], cases].concat());
            script.ask_at(&tables, &instants, &[0, 1]);
        }
    }
    for opened in [opening(1, 0, 2), opening(1, last, 2)] {
        let tables = Tables::of(&[opened, passing(1, 0, last, 5)]);
        script.ask_at(&tables, &instants, &[0, 1]);
    }
}
