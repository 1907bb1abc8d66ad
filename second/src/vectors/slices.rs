//! Asks for the slice check: lengths, features, kinds, sides, flags, and each byte disturbed.

use super::Script;
use crate::fixtures::{
    cancelled_cases, sound_cases, Case, FEATURE, FLAGS, KIND, PARTS, RECORD, SPARE,
};
use crate::layout::SLICE_BYTES;
use crate::record::Kind;

/// Adds the asks that take the slice check one field at a time.
pub fn add(script: &mut Script) {
    script.title("slice: sound and cancelled");
    sound_cases()
        .iter()
        .chain(&cancelled_cases())
        .for_each(|case| script.ask_slice(case));
    kinds(script);
    sides(script);
    flags(script);
    spare_bytes(script);
    disturbed_bytes(script);
    slice_lengths(script);
    feature_lengths(script);
    wrong_features(script);
    any_feature(script);
}

/// Returns an uncancelled and a cancelled slice of each kind.
fn both_of_each_kind() -> impl Iterator<Item = Case> {
    Kind::ALL
        .into_iter()
        .flat_map(|kind| [Case::any(kind), Case::cancelled(kind)])
}

/// Adds every kind byte for some sides, cancelled and not, in a slice that is sound as any kind.
fn kinds(script: &mut Script) {
    script.title("slice: every kind byte");
    for base in [Case::any(Kind::Baseline), Case::cancelled(Kind::Baseline)] {
        for side in [0, 1, 2, 255] {
            for kind in 0..=255 {
                script.ask_slice(&base.clone().with_side(side).with_byte(KIND, kind));
            }
        }
    }
}

/// Adds every side byte for each kind, cancelled and not.
fn sides(script: &mut Script) {
    script.title("slice: every side byte");
    for base in both_of_each_kind() {
        for side in 0..=255 {
            script.ask_slice(&base.clone().with_side(side));
        }
    }
}

/// Adds every flag byte for each kind, cancelled and not.
fn flags(script: &mut Script) {
    script.title("slice: every flag byte");
    for base in both_of_each_kind() {
        for flags in 0..=255 {
            script.ask_slice(&base.clone().with_byte(FLAGS, flags));
        }
    }
}

/// Adds each bit of the spare bytes for each kind, cancelled and not.
fn spare_bytes(script: &mut Script) {
    script.title("slice: spare bytes not zero");
    for base in both_of_each_kind() {
        for offset in SPARE..SPARE + 8 {
            for bit in 0..8 {
                script.ask_slice(&base.clone().with_byte(offset, 1 << bit));
            }
        }
    }
}

/// Adds each byte disturbed, in a sound and a cancelled slice of each kind, and in rarer heads.
fn disturbed_bytes(script: &mut Script) {
    script.title("slice: each byte disturbed");
    let usual = Kind::ALL.into_iter().map(Case::usual);
    let whole = usual
        .chain(cancelled_cases())
        .map(|base| (base, 0..SLICE_BYTES));
    let heads = sound_cases().into_iter().map(|base| (base, RECORD..PARTS));
    for (base, offsets) in whole.chain(heads) {
        for offset in offsets {
            for bits in [1, 0x80, 0xff] {
                script.ask_slice(&base.clone().disturbed(offset, bits));
            }
        }
    }
}

/// Adds slices of other lengths.
fn slice_lengths(script: &mut Script) {
    script.title("slice: other lengths");
    let baseline = Case::usual(Kind::Baseline);
    for length in (0..=20)
        .chain(220..=260)
        .chain([32, 100, 224, 300, 464, 480, 511, 512])
    {
        script.ask_slice(&baseline.clone().resized(length));
    }
    for side in 0..=255 {
        script.ask_slice(&baseline.clone().resized(224).with_side(side));
    }
}

/// Adds features of other lengths: cut, made longer with zeros, and longer as the slice goes on.
fn feature_lengths(script: &mut Script) {
    script.title("slice: features of other lengths");
    for base in [Case::usual(Kind::Baseline), Case::usual(Kind::TempDelta)] {
        for length in (0..=20).chain([31, 32, 33, 48, 63, 64]) {
            let mut feature = FEATURE.to_vec();
            feature.resize(length, 0);
            script.ask_slice(&base.clone().with_feature(&feature));
            script.ask_slice(&base.clone().with_feature(&base.slice[..length]));
            script.ask_slice(&base.clone().with_feature(&vec![0; length]));
        }
    }
}

/// Adds one wrong byte at each position of the feature, as an argument and in the slice.
fn wrong_features(script: &mut Script) {
    script.title("slice: one wrong byte in the feature");
    for base in [
        Case::usual(Kind::Baseline),
        Case::cancelled(Kind::TempDelta),
    ] {
        for place in 0..FEATURE.len() {
            for bits in [1, 0x80, 0xff] {
                let mut feature = FEATURE;
                feature[place] ^= bits;
                script.ask_slice(&base.clone().with_feature(&feature));
                script.ask_slice(&base.clone().with_feature(&feature).disturbed(place, bits));
            }
        }
    }
}

/// Adds features of any 16 bytes, which are accepted if the slice has the same.
fn any_feature(script: &mut Script) {
    script.title("slice: any feature of 16 bytes");
    for base in [Case::any(Kind::PermDelta), Case::cancelled(Kind::TempDelta)] {
        for feature in [[0; 16], [0xff; 16], [1; 16], FEATURE.map(|byte| !byte)] {
            let mut case = base.clone().with_feature(&feature);
            script.ask_slice(&case);
            case.slice[..16].copy_from_slice(&feature);
            script.ask_slice(&case);
            script.ask_slice(&case.with_feature(&FEATURE));
        }
    }
}
