//! Temporary tables to ask whether a property is touched, by where the last record that touches it
//! is.

use super::questions::Make;
use crate::fixtures::brief::passing;
use crate::fixtures::{code, unmentioned, Case};
use crate::random::Random;
use crate::record::{Kind, NONE};
use crate::supply;
use crate::tables::Tables;

/// The instant of the questions, and periods with it, before it and after it.
pub const INSTANT: u32 = 160;
const NOW: [u32; 2] = [120, 200];
const OTHERS: [[u32; 2]; 2] = [[20, 100], [300, NONE]];

/// Where the last record that touches the property is.
#[derive(Clone, Copy, Debug, PartialEq)]
pub enum Hit {
    End,
    Front,
    Nowhere,
}

impl Hit {
    /// Returns what the table that is printed calls it.
    pub fn name(self) -> &'static str {
        match self {
            Hit::End => "a hit at the end",
            Hit::Front => "a hit at the front",
            Hit::Nowhere => "no hit",
        }
    }

    /// Returns whether a record of this index touches the property.
    fn touches(self, index: usize, count: usize) -> bool {
        match self {
            Hit::End => index + 1 == count,
            Hit::Front => index == 0,
            Hit::Nowhere => false,
        }
    }
}

/// Makes a full temporary table of this many records.
pub fn table(make: Make, hit: Hit, count: usize, property: usize, seed: u64) -> Vec<u8> {
    let mut random = Random::new(seed);
    let cases = (0..count).map(|index| {
        let touches = hit.touches(index, count);
        let case = match make {
            Make::Alike => alike(property, touches),
            Make::Mixed => mixed(&mut random, property, touches),
        };
        case.with_sequence(3 * index as u32)
    });
    Tables::of(&Vec::from_iter(cases)).temporary
}

/// Returns a slice with another period.
fn timed(case: Case, [begin, end]: [u32; 2]) -> Case {
    case.with_times([begin, end, NONE, NONE])
}

/// Makes a TEMPDELTA that mentions the property alone, and is over if it does not touch it.
fn alike(property: usize, touches: bool) -> Case {
    let case = passing(0, 0, NONE, 5).with_part(0, &unmentioned());
    let case = case.with_part(property, &code(5));
    timed(case, if touches { NOW } else { OTHERS[0] })
}

/// Makes a TEMPDELTA of forms at random. If it does not touch the property, it is cancelled, does
/// not mention it, is over or has not begun.
fn mixed(random: &mut Random, property: usize, touches: bool) -> Case {
    let parts = supply::parts(random, Kind::TempDelta);
    let case = timed(Case::any(Kind::TempDelta).with_parts(&parts), NOW);
    if touches {
        return case.with_part(property, &code(5));
    }
    match random.below(8) {
        0 => Case::cancelled(Kind::TempDelta),
        1..=3 => {
            let other = (property + 1) % 8;
            let case = case.with_part(property, &unmentioned());
            case.with_part(other, &code(6))
        }
        _ => timed(case, random.pick(&OTHERS)),
    }
}

#[cfg(test)]
mod tests {
    use super::*;
    use crate::touched::{touched, Touched};

    /// One record is looked at, or all of them.
    #[test]
    fn hits_are_where_they_are_called() {
        for make in [Make::Alike, Make::Mixed] {
            for count in [16, 64, 256] {
                let answers = [Hit::End, Hit::Front, Hit::Nowhere].map(|hit| {
                    let table = table(make, hit, count, 3, 7);
                    let Touched { is_touched, looked } = touched(&table, INSTANT, 3).unwrap();
                    (is_touched, looked)
                });
                assert_eq!(answers, [(true, 1), (true, count), (false, count)]);
            }
        }
    }
}
