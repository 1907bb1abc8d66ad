//! One mention over another: nil and values, permanent and temporary, one after the other and at
//! once.

use super::Script;
use crate::fixtures::brief::{base, baseline, change, mention_only, opening, passing};
use crate::fixtures::brief::{ORDERS, SEQUENCES};
use crate::fixtures::{self, code, mentions, nil, sound_parts, Case};
use crate::record::NONE;
use crate::tables::Tables;

/// All eight properties.
const ALL: [u8; 8] = [0, 1, 2, 3, 4, 5, 6, 7];

/// Adds every history about mentions.
pub fn add(script: &mut Script) {
    nils(script);
    every_form(script);
    overlapping(script);
    edges(script);
    every_property(script);
    many_mentions(script);
    unmentioned(script);
}

/// Adds nil of each reason over a value and a value over it again, lasting and passing.
fn nils(script: &mut Script) {
    script.title("mentions: nil over a value and back");
    for reason in 1..=5 {
        let lasting = [
            change(1, 150, 0).with_part(0, &nil(reason)),
            change(2, 160, 7),
        ];
        let passing = [
            passing(1, 120, 170, 0).with_part(0, &nil(reason)),
            passing(2, 130, 155, 6),
            passing(3, 140, 145, 0).with_part(0, &nil(6 - reason)),
        ];
        script.ask_history(&[&[base()], &lasting[..], &passing].concat(), &[0]);
        script.ask_history(&[&[base()], &lasting[..]].concat(), &[]);
        script.ask_history(&[&[base()], &passing[..]].concat(), &[]);
        let opened = opening(1, 100, 0).with_part(0, &nil(reason));
        script.ask_history(&[opened, change(2, 110, 3)], &[0, 1]);
    }
}

/// Adds each form in a BASELINE, a PERMDELTA and a TEMPDELTA, over the form before it.
fn every_form(script: &mut Script) {
    script.title("mentions: every form over another");
    let parts = &sound_parts()[1..];
    for (index, part) in parts.iter().enumerate() {
        let over = &parts[(index + 5) % parts.len()];
        let last = &parts[(index + 8) % parts.len()];
        let cases = [
            base().with_part(3, part),
            change(1, 150, 2).with_part(3, over),
            passing(1, 200, 300, 3).with_part(3, last),
        ];
        script.ask_at(&Tables::of(&cases), &[100, 150, 200], &[3]);
    }
}

/// Adds three TEMPDELTAs whose periods overlap, under every order of their sequence numbers.
fn overlapping(script: &mut Script) {
    script.title("mentions: TEMPDELTAs that overlap");
    for [one, two, three] in ORDERS {
        let deltas = [
            passing(one, 120, 140, 5).with_part(1, &code(15)),
            passing(two, 130, 160, 6).with_part(2, &code(16)),
            passing(three, 135, NONE, 7).with_part(1, &code(17)),
        ];
        script.ask_history(&[&[base()], &deltas[..]].concat(), &[0, 1]);
    }
    for [one, other] in SEQUENCES {
        for (first, second) in [(one, other), (other, one)] {
            let deltas = [passing(first, 120, NONE, 5), passing(second, 120, NONE, 6)];
            script.ask_history(&[&[base()], &deltas[..]].concat(), &[0]);
        }
    }
}

/// Adds periods that begin and end next to each other and next to those of the permanent table.
fn edges(script: &mut Script) {
    script.title("mentions: periods beside each other");
    let anchor = baseline(1, [100, 200, 100, NONE], 1);
    for (begin, end) in [
        (99, 100),
        (99, 101),
        (100, 101),
        (149, 150),
        (150, 151),
        (199, 200),
        (199, NONE),
        (200, 201),
        (0, NONE),
    ] {
        let over = [passing(1, begin, end, 5), passing(2, end.min(300), NONE, 6)];
        let cases = [anchor.clone(), change(1, 150, 2)];
        script.ask_history(&[&cases[..], &over].concat(), &[0]);
    }
}

/// Adds one property changed for good and one for a time, every two of them.
fn every_property(script: &mut Script) {
    script.title("mentions: every two properties");
    for lasting in ALL {
        for temporary in ALL {
            let (one, other) = (change(1, 150, 2), passing(1, 150, 160, 3));
            let cases = [
                base().with_parts(&mentions()),
                mention_only(one, lasting.into(), 100 + u16::from(lasting)),
                mention_only(other, temporary.into(), 200 + u16::from(temporary)),
            ];
            let other = (lasting + 1) % 8;
            script.ask_at(&Tables::of(&cases), &[155], &[lasting, temporary, other]);
        }
    }
}

/// Adds many records of which each mentions other properties, the last of each in another record.
fn many_mentions(script: &mut Script) {
    script.title("mentions: each property last in another record");
    let spread = |case: Case, index: u32| {
        let is_mentioned =
            |property: &u32| index >> (property % 3) & 1 == 1 || property % 5 == index % 5;
        (0..8).filter(is_mentioned).fold(case, |case, property| {
            case.with_part(property as usize, &code((100 * index + property) as u16))
        })
    };
    let lasting = (1..8).map(|index| spread(change(9 - index, 100 + 10 * index, 1), index));
    let passing = (1..8).map(|index| {
        let (begin, end) = (200 - 10 * index, 200 + 10 * index);
        spread(passing(index, begin, end, 1), index)
    });
    let cases: Vec<Case> = lasting.chain(passing).chain([base()]).collect();
    let instants: Vec<u32> = (100..280).step_by(10).collect();
    script.ask_at(&Tables::of(&cases), &instants, &ALL);
}

/// Adds openings that leave properties unmentioned, which a change or a TEMPDELTA mentions or not.
fn unmentioned(script: &mut Script) {
    script.title("mentions: what nothing mentions");
    let opened = opening(1, 100, 3);
    script.ask_at(
        &Tables::of(std::slice::from_ref(&opened)),
        &[99, 100, NONE - 1],
        &ALL,
    );
    for property in ALL {
        let lasting = mention_only(change(2, 110, 0), property.into(), 4);
        let passing = mention_only(passing(1, 105, 115, 0), usize::from(property + 1) % 8, 5);
        let tables = Tables::of(&[opened.clone(), lasting, passing]);
        script.ask_at(&tables, &[100, 105, 110], &ALL);
    }
    let silent = opened.with_part(0, &fixtures::unmentioned());
    script.ask_at(&Tables::of(&[silent]), &[100], &ALL);
}
