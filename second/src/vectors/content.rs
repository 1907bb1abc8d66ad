//! Slices that mention more or less.

use super::Script;
use crate::fixtures::{broken_parts, choices, nil, sound_parts, unmentioned, Case, Part, Time};
use crate::layout::PROPERTIES;
use crate::record::Kind;

/// Adds every ask about content.
pub fn add(script: &mut Script) {
    script.title("content: every choice of mentions");
    for base in bases() {
        choices().for_each(|area| script.ask_slice(&base.clone().with_parts(&area)));
    }
    script.title("content: each sound part in each place");
    in_each_place(script, &sound_parts());
    script.title("content: each broken part in each place");
    in_each_place(script, &broken_parts());
}

/// Returns a slice of each kind, and PERMDELTAs that give a life time.
fn bases() -> Vec<Case> {
    let opening = Case::any(Kind::PermDelta).with_time(Time::LifeBegin, 100);
    let closing = Case::any(Kind::PermDelta).with_time(Time::LifeEnd, 100);
    Kind::ALL
        .into_iter()
        .map(Case::any)
        .chain([opening, closing])
        .collect()
}

/// Adds each part in each position of each kind: among nils in a BASELINE, alone in the others.
fn in_each_place(script: &mut Script, parts: &[Part]) {
    for kind in Kind::ALL {
        let others = if kind == Kind::Baseline {
            nil(2)
        } else {
            unmentioned()
        };
        let base = Case::any(kind).with_parts(&[others; PROPERTIES]);
        for part in parts {
            for index in 0..PROPERTIES {
                script.ask_slice(&base.clone().with_part(index, part));
            }
        }
    }
}
