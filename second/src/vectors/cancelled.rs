//! Cancelled slices that still say something.

use super::Script;
use crate::fixtures::{
    broken_parts, cancelled_cases, sound_cases, unmentioned, Case, Time, FLAGS, KIND, PARTS, TIMES,
};
use crate::layout::PROPERTIES;
use crate::record::NONE;

/// Adds every ask about cancelled slices.
pub fn add(script: &mut Script) {
    with_flag_only(script);
    with_times(script);
    with_broken_properties(script);
    of_unknown_kind(script);
}

/// Adds sound slices with the flag set: as they are, with their times only, their properties only.
fn with_flag_only(script: &mut Script) {
    script.title("cancelled: the flag alone");
    for base in sound_cases() {
        let flagged = base.with_byte(FLAGS, 1);
        script.ask_slice(&flagged);
        script.ask_slice(&flagged.clone().with_parts(&[unmentioned(); PROPERTIES]));
        script.ask_slice(&flagged.with_times([NONE; 4]));
    }
}

/// Adds each byte of the times at some values, and each time given.
fn with_times(script: &mut Script) {
    script.title("cancelled: times not all 255");
    for base in cancelled_cases() {
        for offset in TIMES..TIMES + 16 {
            for value in [0, 1, 0x7f, 0xfe] {
                script.ask_slice(&base.clone().with_byte(offset, value));
            }
        }
        for time in [Time::Begin, Time::End, Time::LifeBegin, Time::LifeEnd] {
            for value in [0, 100, NONE - 1] {
                script.ask_slice(&base.clone().with_time(time, value));
            }
        }
    }
}

/// Adds each broken part in some positions: 13, not 14.
fn with_broken_properties(script: &mut Script) {
    script.title("cancelled: broken properties");
    for base in cancelled_cases() {
        for broken in broken_parts() {
            for index in [0, 4, 7] {
                script.ask_slice(&base.clone().with_part(index, &broken));
            }
        }
    }
}

/// Adds cancelled slices of unknown kind, with flag bits, and with something said as well.
fn of_unknown_kind(script: &mut Script) {
    script.title("cancelled: unknown kind, flag bits");
    let ways: [fn(Case) -> Case; 4] = [
        |case| case,
        |case| case.with_time(Time::End, 5),
        |case| case.with_byte(PARTS + 100, 1),
        |case| case.with_byte(FLAGS, 0x41),
    ];
    for base in cancelled_cases() {
        for way in ways {
            for kind in [0, 4, 127, 128, 255] {
                script.ask_slice(&way(base.clone()).with_byte(KIND, kind));
            }
            for bit in 1..8 {
                script.ask_slice(&way(base.clone()).with_byte(FLAGS, 1 | 1 << bit));
            }
        }
    }
}
