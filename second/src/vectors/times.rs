//! Slices whose times run over the values that matter.

use super::Script;
use crate::fixtures::{unmentioned, Case};
use crate::layout::PROPERTIES;
use crate::record::{Kind, NONE};

/// The times that the four times of a record run over.
const VALUES: [u32; 9] = [0, 1, 99, 100, 101, 200, NONE - 2, NONE - 1, NONE];

/// Adds every ask about times.
pub fn add(script: &mut Script) {
    products(script);
    begins(script);
    periods_without_mention(script);
    lives_without_mention(script);
}

/// Adds, for each kind, every end, life begin and life end with some begins.
fn products(script: &mut Script) {
    script.title("times: every end and life with some begins");
    for kind in Kind::ALL {
        let base = Case::any(kind);
        for begin in [0, 100, NONE - 1, NONE] {
            for [end, life_begin, life_end] in triples() {
                script.ask_slice(&base.clone().with_times([begin, end, life_begin, life_end]));
            }
        }
    }
}

/// Returns every three values.
fn triples() -> impl Iterator<Item = [u32; 3]> {
    VALUES
        .into_iter()
        .flat_map(|a| pairs().map(move |[b, c]| [a, b, c]))
}

/// Returns every two values.
fn pairs() -> impl Iterator<Item = [u32; 2]> {
    VALUES
        .into_iter()
        .flat_map(|a| VALUES.into_iter().map(move |b| [a, b]))
}

/// Adds, for each kind, every begin with every value of one other time.
fn begins(script: &mut Script) {
    script.title("times: every begin with one other time");
    for kind in Kind::ALL {
        let base = Case::any(kind);
        for place in 1..4 {
            for [begin, value] in pairs() {
                let mut times = [begin, NONE, NONE, NONE];
                times[place] = value;
                script.ask_slice(&base.clone().with_times(times));
            }
        }
    }
}

/// Adds, for each kind, every period of a slice that mentions nothing, or all but one.
fn periods_without_mention(script: &mut Script) {
    script.title("times: periods without a mention");
    for kind in Kind::ALL {
        let nothing = Case::any(kind).with_parts(&[unmentioned(); PROPERTIES]);
        for base in [nothing, Case::any(kind).with_part(3, &unmentioned())] {
            for [begin, end] in pairs() {
                script.ask_slice(&base.clone().with_times([begin, end, NONE, NONE]));
            }
        }
    }
}

/// Adds PERMDELTAs that mention nothing, with every life and some instants and ends.
fn lives_without_mention(script: &mut Script) {
    script.title("times: lives of a PERMDELTA without a mention");
    let base = Case::any(Kind::PermDelta).with_parts(&[unmentioned(); PROPERTIES]);
    for begin in [0, 100, NONE - 1, NONE] {
        for end in [NONE, NONE - 1] {
            for [life_begin, life_end] in pairs() {
                script.ask_slice(&base.clone().with_times([begin, end, life_begin, life_end]));
            }
        }
    }
}
