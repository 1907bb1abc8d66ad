//! Parts, slices and tables to try the rules on, sound and broken, and ways to change them.

pub mod brief;
pub mod doubles;
pub mod rows;

use crate::layout::{bytes_of, FEATURE_BYTES, HEAD_BYTES, PROPERTIES, PROPERTY_BYTES};
use crate::record::{Correction, Head, Kind, Sequence, Side, Span, NONE};

/// The bytes of one property.
pub type Part = [u8; PROPERTY_BYTES];

/// The eight properties of a record.
pub type Area = [Part; PROPERTIES];

/// The feature of the slices.
pub const FEATURE: [u8; FEATURE_BYTES] = [
    0x3c, 0x8a, 0x01, 0xf2, 0x77, 0x5e, 0x4b, 0x10, 0x9d, 0x00, 0xee, 0x46, 0xb3, 0xff, 0x21, 0x6a,
];

/// Where the record, its kind, its flags and its properties begin in a slice.
pub const RECORD: usize = FEATURE_BYTES;
pub const KIND: usize = RECORD;
pub const FLAGS: usize = RECORD + 1;
pub const TIMES: usize = RECORD + 8;
pub const SPARE: usize = RECORD + 24;
pub const PARTS: usize = RECORD + HEAD_BYTES;

/// The four times of a record, in their order.
#[derive(Clone, Copy)]
pub enum Time {
    Begin,
    End,
    LifeBegin,
    LifeEnd,
}

/// One slice check: a slice, and the feature and the side it is checked against.
#[derive(Clone)]
pub struct Case {
    pub slice: Vec<u8>,
    pub feature: Vec<u8>,
    pub side: u8,
}

/// Makes a part of a form, a detail and the first bytes of the content.
pub fn part(form: u8, detail: u8, content: &[u8]) -> Part {
    let mut part = [0; PROPERTY_BYTES];
    part[0] = form;
    part[1] = detail;
    part[8..8 + content.len()].copy_from_slice(content);
    part
}

/// Makes a part that is not mentioned.
pub fn unmentioned() -> Part {
    part(0, 0, &[])
}

/// Makes a nil part.
pub fn nil(detail: u8) -> Part {
    part(1, detail, &[])
}

/// Makes a code part.
pub fn code(value: u16) -> Part {
    part(2, 0, &value.to_be_bytes())
}

/// Makes a whole number part.
pub fn number(value: i32) -> Part {
    part(3, 0, &value.to_be_bytes())
}

/// Makes a length part from the bits of its double.
pub fn length(bits: u64, unit: u8) -> Part {
    part(4, unit, &bits.to_be_bytes())
}

/// Makes a point part from the bits of its two doubles.
pub fn point(latitude: u64, longitude: u64) -> Part {
    part(
        5,
        0,
        &[latitude.to_be_bytes(), longitude.to_be_bytes()].concat(),
    )
}

/// Makes eight sound parts of all the forms that are a mention.
pub fn mentions() -> Area {
    [
        code(513),
        nil(4),
        number(-40_000),
        length(1234.5f64.to_bits(), 2),
        point(52.308f64.to_bits(), (-4.764f64).to_bits()),
        nil(1),
        length((-0.25f64).to_bits(), 4),
        number(2_147_483_647),
    ]
}

/// Makes every choice of mentions, all nil; each differs from the one before in one property.
pub fn choices() -> impl Iterator<Item = Area> {
    (0..1usize << PROPERTIES).map(|count| {
        let choice = count ^ (count >> 1);
        std::array::from_fn(|index| {
            if choice >> index & 1 == 1 {
                nil(4)
            } else {
                unmentioned()
            }
        })
    })
}

/// Makes sound parts of every form: the simplest of each, and fuller ones.
pub fn sound_parts() -> Vec<Part> {
    let mut parts = vec![unmentioned(), code(0), number(0), length(0, 1), point(0, 0)];
    parts.extend((1..=5).map(nil));
    parts.extend(mentions());
    parts
}

/// Makes parts that break the layout, each in its own way.
pub fn broken_parts() -> Vec<Part> {
    let (one, infinite, unclear) = (1f64.to_bits(), f64::INFINITY.to_bits(), f64::NAN.to_bits());
    let beyond = |limit: f64| limit.to_bits() + 1;
    vec![
        part(6, 0, &[]),
        part(255, 0, &[]),
        part(0, 1, &[]),
        part(0, 0, &[0, 0, 0, 0, 0, 0, 0, 0, 0, 0, 0, 0, 0, 0, 0, 1]),
        nil(0),
        nil(6),
        part(1, 1, &[1]),
        part(2, 1, &[0, 7]),
        part(2, 0, &[0, 7, 1]),
        part(3, 2, &[0, 0, 0, 7]),
        part(3, 0, &[0, 0, 0, 7, 1]),
        length(one, 0),
        length(one, 5),
        length(infinite, 1),
        length(unclear, 3),
        part(4, 1, &[0, 0, 0, 0, 0, 0, 0, 0, 1]),
        part(5, 1, &[]),
        point(beyond(90.0), one),
        point(one, beyond(-180.0)),
        point(unclear, one),
        point(one, unclear),
    ]
}

impl Case {
    /// Makes a slice of a kind, a period, a life and parts, checked against its own feature and
    /// side.
    pub fn new(kind: Kind, period: Span, life: Span, parts: &Area) -> Case {
        let (correction, sequence) = (Correction(2), Sequence(70_001));
        let head = Head {
            kind: kind.byte(),
            flags: 0,
            correction,
            sequence,
            period,
            life,
            spare: [0; 8],
        };
        let slice = [&FEATURE[..], &head.write(), &parts.concat()].concat();
        Case {
            slice,
            feature: FEATURE.to_vec(),
            side: kind.side().byte(),
        }
    }

    /// Makes a slice that is sound for every kind: a begin, no other time, every property
    /// mentioned.
    pub fn any(kind: Kind) -> Case {
        Case::new(kind, Span::new(100, NONE), Span::NEITHER, &mentions())
    }

    /// Makes a typical sound slice of a kind.
    pub fn usual(kind: Kind) -> Case {
        let mut parts = [unmentioned(); PROPERTIES];
        parts[0] = code(5);
        match kind {
            Kind::Baseline => Case::new(kind, Span::new(100, 200), Span::new(50, 300), &mentions()),
            Kind::PermDelta => Case::new(kind, Span::new(150, NONE), Span::NEITHER, &parts),
            Kind::TempDelta => Case::new(kind, Span::new(120, 140), Span::NEITHER, &parts),
        }
    }

    /// Makes a sound cancelled slice of a kind.
    pub fn cancelled(kind: Kind) -> Case {
        Case::new(
            kind,
            Span::NEITHER,
            Span::NEITHER,
            &[unmentioned(); PROPERTIES],
        )
        .with_byte(FLAGS, 1)
    }

    /// Returns the case with a byte of the slice set.
    pub fn with_byte(mut self, offset: usize, value: u8) -> Case {
        self.slice[offset] = value;
        self
    }

    /// Returns the case with some bits of a byte of the slice flipped.
    pub fn disturbed(mut self, offset: usize, bits: u8) -> Case {
        self.slice[offset] ^= bits;
        self
    }

    /// Returns the case with the slice cut, or made longer with zeros, to a length.
    pub fn resized(mut self, length: usize) -> Case {
        self.slice.resize(length, 0);
        self
    }

    /// Returns the case with one of the four times set.
    pub fn with_time(mut self, time: Time, value: u32) -> Case {
        let start = TIMES + 4 * time as usize;
        self.slice[start..start + 4].copy_from_slice(&value.to_be_bytes());
        self
    }

    /// Returns the case with all four times set.
    pub fn with_times(self, [begin, end, life_begin, life_end]: [u32; 4]) -> Case {
        self.with_time(Time::Begin, begin)
            .with_time(Time::End, end)
            .with_time(Time::LifeBegin, life_begin)
            .with_time(Time::LifeEnd, life_end)
    }

    /// Returns the case with another sequence number.
    pub fn with_sequence(mut self, sequence: u32) -> Case {
        self.slice[RECORD + 4..RECORD + 8].copy_from_slice(&sequence.to_be_bytes());
        self
    }

    /// Returns the case with another correction number.
    pub fn with_correction(mut self, correction: u16) -> Case {
        self.slice[RECORD + 2..RECORD + 4].copy_from_slice(&correction.to_be_bytes());
        self
    }

    /// Returns the head of the record.
    pub fn head(&self) -> Head {
        let head = self.slice[RECORD..PARTS].try_into();
        Head::read(&head.expect("a slice has a head"))
    }

    /// Returns the record of the slice.
    pub fn record(&self) -> Vec<u8> {
        self.slice[RECORD..].to_vec()
    }

    /// Returns the case with one property replaced.
    pub fn with_part(mut self, index: usize, part: &Part) -> Case {
        let start = PARTS + index * PROPERTY_BYTES;
        self.slice[start..start + PROPERTY_BYTES].copy_from_slice(part);
        self
    }

    /// Returns the case with all eight properties replaced.
    pub fn with_parts(mut self, parts: &Area) -> Case {
        self.slice[PARTS..].copy_from_slice(&parts.concat());
        self
    }

    /// Returns the case checked against another feature.
    pub fn with_feature(self, feature: &[u8]) -> Case {
        Case {
            feature: feature.to_vec(),
            ..self
        }
    }

    /// Returns the case checked against another side.
    pub fn with_side(self, side: u8) -> Case {
        Case { side, ..self }
    }
}

/// Makes a table of a side with these records, filled up to a length.
pub fn table(side: Side, records: &[Vec<u8>], length: usize, fill: u8) -> Vec<u8> {
    let head = [b'T', b'S', b'L', side.byte(), 0, 1];
    let count = (records.len() as u16).to_be_bytes();
    let mut bytes = [&head[..], &count, &FEATURE, &[0; 8], &records.concat()].concat();
    bytes.resize(length, fill);
    bytes
}

/// Makes a usual case of each key, in the order given.
pub fn cases(keys: &[(Kind, u32)]) -> Vec<Case> {
    keys.iter()
        .map(|&(kind, sequence)| Case::usual(kind).with_sequence(sequence))
        .collect()
}

/// Makes a table of the records of some cases, with this many bytes after them.
pub fn table_of(cases: &[Case], rest: usize, fill: u8) -> Vec<u8> {
    let side = cases.first().map_or(0, |case| case.side);
    let side = Side::of(side).expect("cases are of a side");
    let records: Vec<_> = cases.iter().map(Case::record).collect();
    let length = bytes_of(records.len()) + rest;
    table(side, &records, length, fill)
}

/// Makes sound slices: typical and rarer ones of each kind.
pub fn sound_cases() -> Vec<Case> {
    let (baseline, permdelta, tempdelta) = (
        Case::usual(Kind::Baseline),
        Case::usual(Kind::PermDelta),
        Case::usual(Kind::TempDelta),
    );
    let nothing = [unmentioned(); PROPERTIES];
    vec![
        baseline.clone(),
        baseline.with_times([100, NONE, 100, NONE]),
        permdelta.clone(),
        permdelta.clone().with_time(Time::LifeBegin, 150),
        permdelta.with_time(Time::LifeEnd, 150).with_parts(&nothing),
        tempdelta.clone(),
        tempdelta.with_time(Time::End, NONE).with_part(7, &nil(4)),
    ]
}

/// Makes a sound cancelled slice of each kind.
pub fn cancelled_cases() -> Vec<Case> {
    Kind::ALL.into_iter().map(Case::cancelled).collect()
}

#[cfg(test)]
mod tests {
    use super::*;
    use crate::property::decode;

    /// Sound parts are sound, broken ones broken.
    #[test]
    fn parts_are_what_they_are_called() {
        assert!(sound_parts().iter().all(|part| decode(part).is_some()));
        assert!(broken_parts().iter().all(|part| decode(part).is_none()));
    }
}
