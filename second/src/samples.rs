//! Sample tables: the runway of one feature, from 100 on.

use crate::files::File;
use crate::fixtures::brief::cancelling;
use crate::fixtures::{code, length, nil, unmentioned, Area, Case, Part, Time};
use crate::record::{Kind, NONE};
use crate::table::Feature;
use crate::tables::permanent;

/// The feature of the samples.
const FEATURE: Feature = [
    0x5e, 0x1f, 0x0a, 0x3c, 0x7b, 0x2d, 0x4c, 0x8e, 0x9f, 0x60, 0x11, 0x22, 0x33, 0x44, 0x55, 0x66,
];

/// Returns the sample tables as files.
pub fn files() -> Vec<File> {
    let (begun, shortened) = (runway(), shortening());
    let cancelled = cancelling(&shortened, 1);
    let tables = [
        ("runway", vec![begun.clone(), shortened.clone()]),
        (
            "commissioning",
            vec![commissioning(), shortened.with_sequence(2)],
        ),
        ("cancelled", vec![begun.clone(), cancelled]),
        ("decommissioning", vec![begun, decommissioning()]),
    ];
    tables
        .iter()
        .map(|(name, cases)| File::new(name, "tsl", &table(cases)))
        .collect()
}

/// Makes the permanent table of some slices, of the samples' feature.
fn table(cases: &[Case]) -> Vec<u8> {
    let mut table = permanent(cases);
    table[8..24].copy_from_slice(&FEATURE);
    table
}

/// Makes a length in metres.
fn metres(value: f64) -> Part {
    length(value.to_bits(), 1)
}

/// Makes the properties of the runway at its begin, the others of one part.
fn first(others: Part) -> Area {
    let mut area = [others; 8];
    area[0] = metres(3048.0);
    area[1] = code(7);
    area
}

/// Makes a slice with sequence number 1 and correction 0.
fn slice(kind: Kind, begin: u32, area: &Area) -> Case {
    Case::any(kind)
        .with_sequence(1)
        .with_correction(0)
        .with_times([begin, NONE, NONE, NONE])
        .with_parts(area)
}

/// Makes the BASELINE: a runway of 3048 M from 100 on.
fn runway() -> Case {
    slice(Kind::Baseline, 100, &first(nil(4))).with_time(Time::LifeBegin, 100)
}

/// Makes the PERMDELTA that shortens the runway to 2100 M at 300.
fn shortening() -> Case {
    let mut area = [unmentioned(); 8];
    area[0] = metres(2100.0);
    slice(Kind::PermDelta, 300, &area)
}

/// Makes the opening PERMDELTA: a runway of 3048 M from 100 on, and nothing else known.
fn commissioning() -> Case {
    slice(Kind::PermDelta, 100, &first(unmentioned())).with_time(Time::LifeBegin, 100)
}

/// Makes the PERMDELTA that ends the life at 500.
fn decommissioning() -> Case {
    slice(Kind::PermDelta, 500, &[unmentioned(); 8]).with_time(Time::LifeEnd, 500)
}

#[cfg(test)]
mod tests {
    use super::*;
    use crate::listing::program;

    /// The listing of each, worked out by hand.
    #[test]
    fn samples_list_as_they_should() {
        let texts: Vec<String> = files().iter().map(|file| program(&file.bytes)).collect();
        let expected = [
            "derived 2\n1 100 300 42111111\n2 300 - 42111111\n",
            "derived 2\n1 100 300 42111111\n2 300 - 42111111\n",
            "derived 1\n1 100 - 42111111\n",
            "derived 1\n1 100 500 42111111\n",
        ];
        assert_eq!(texts, expected);
        let names: Vec<String> = files().into_iter().map(|file| file.name).collect();
        let expected = [
            "runway.tsl",
            "commissioning.tsl",
            "cancelled.tsl",
            "decommissioning.tsl",
        ];
        assert_eq!(names, expected);
    }

    /// The stored samples are the same.
    #[test]
    fn samples_are_stored() {
        for file in files() {
            let path = format!("{}/../samples/{}", env!("CARGO_MANIFEST_DIR"), file.name);
            assert!(
                std::fs::read(&path).is_ok_and(|bytes| bytes == file.bytes),
                "{path}"
            );
        }
    }
}
