//! Life times that are given, moved and withdrawn, before, at and after the instant.

use super::Script;
use crate::fixtures::brief::{baseline, change, closing, opening, passing};
use crate::fixtures::{code, Case, Time};
use crate::record::NONE;

/// Adds every history about lives.
pub fn add(script: &mut Script) {
    given(script);
    moved(script);
    withdrawn(script);
    openings(script);
}

/// Adds BASELINEs of every life that goes with a period.
fn given(script: &mut Script) {
    script.title("lives: given by a BASELINE");
    for end in [NONE, 200] {
        for life_begin in [NONE, 0, 99, 100] {
            for life_end in [NONE, 200, 201, NONE - 1] {
                let case = baseline(1, [100, end, life_begin, life_end], 1);
                script.ask_history(&[case], &[0]);
            }
        }
    }
    script.ask_history(&[baseline(1, [100, 101, 100, 101], 1)], &[0]);
    script.ask_history(&[baseline(1, [100, NONE, NONE, 101], 1)], &[0]);
}

/// Adds life begins and ends that PERMDELTAs give after a BASELINE gave others, or gave none.
fn moved(script: &mut Script) {
    script.title("lives: moved by PERMDELTAs");
    for life in [[NONE, NONE], [50, 300], [100, NONE], [NONE, 300]] {
        let [life_begin, life_end] = life;
        let anchor = baseline(1, [100, NONE, life_begin, life_end], 1);
        for instant in [99, 100, 101, 200, 300, 301] {
            script.ask_history(&[anchor.clone(), opening(1, instant, 2)], &[0]);
            script.ask_history(&[anchor.clone(), closing(1, instant)], &[0]);
        }
        let both = [opening(1, 150, 2), closing(2, 250), opening(3, 260, 3)];
        script.ask_history(&[std::slice::from_ref(&anchor), &both].concat(), &[0]);
        let equal = [opening(2, 150, 2), closing(1, 150), change(3, 150, 3)];
        script.ask_history(&[&[anchor], &equal[..]].concat(), &[0]);
    }
}

/// Adds life ends that come late, end one BASELINE and not the next, and TEMPDELTAs over them.
fn withdrawn(script: &mut Script) {
    script.title("lives: withdrawn");
    let anchor = baseline(1, [100, 200, 100, NONE], 1);
    let next = baseline(2, [250, NONE, 100, NONE], 2);
    for instant in [99, 150, 199, 200, 225, 250, 251] {
        let cases = [anchor.clone(), next.clone(), closing(1, instant)];
        script.ask_history(&cases, &[0]);
        let over = [
            &cases[..],
            &[passing(1, 120, 260, 5), passing(2, 150, NONE, 6)],
        ]
        .concat();
        script.ask_history(&over, &[0]);
    }
    let mention = closing(1, 150).with_part(0, &code(9));
    script.ask_history(&[anchor.clone(), mention.clone()], &[0]);
    script.ask_history(&[anchor, mention, change(2, 160, 3), closing(3, 170)], &[0]);
}

/// Adds openings whose life ends, before them in the order and after them.
fn openings(script: &mut Script) {
    script.title("lives: of an opening");
    let opened = opening(5, 100, 1);
    let ends: [Case; 5] = [(9, 99), (4, 100), (6, 100), (1, 101), (2, NONE - 1)]
        .map(|(sequence, instant)| closing(sequence, instant));
    for end in &ends {
        script.ask_history(&[opened.clone(), end.clone()], &[0]);
        let with_begin = end.clone().with_sequence(7).with_time(Time::LifeEnd, NONE);
        let with_begin = with_begin.with_part(0, &code(4));
        script.ask_history(&[opened.clone(), end.clone(), with_begin], &[0]);
    }
    script.ask_history(&[&[opened], &ends[..3]].concat(), &[0]);
}
