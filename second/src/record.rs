//! Records: the kind, the numbers, the times and the properties of a record.

use crate::layout::{HEAD_BYTES, PROPERTIES, RECORD_BYTES};
use crate::property::{properties, Value};

/// The number that means "none" in place of a time.
pub const NONE: u32 = u32::MAX;

/// A correction number.
#[derive(Clone, Copy, Debug, PartialEq, Eq, PartialOrd, Ord)]
pub struct Correction(pub u16);

/// A sequence number.
#[derive(Clone, Copy, Debug, PartialEq, Eq, PartialOrd, Ord)]
pub struct Sequence(pub u32);

/// Seconds from the beginning of 2000, never "none".
#[derive(Clone, Copy, Debug, PartialEq, Eq, PartialOrd, Ord)]
pub struct Instant(pub u32);

/// The side of a table.
#[derive(Clone, Copy, Debug, PartialEq)]
pub enum Side {
    Permanent,
    Temporary,
}

/// The kind of a record.
#[derive(Clone, Copy, Debug, PartialEq)]
pub enum Kind {
    Baseline,
    PermDelta,
    TempDelta,
}

/// The key of a record in its table; keys are ordered by kind, then by sequence number.
#[derive(Clone, Copy, Debug, PartialEq, Eq, PartialOrd, Ord)]
pub struct Key {
    pub kind: u8,
    pub sequence: Sequence,
}

/// A begin and an end, each given or none.
#[derive(Clone, Copy, Debug, PartialEq)]
pub struct Span {
    pub begin: Option<Instant>,
    pub end: Option<Instant>,
}

/// The 32 bytes of a record before its properties.
#[derive(Clone, Copy, Debug, PartialEq)]
pub struct Head {
    pub kind: u8,
    pub flags: u8,
    pub correction: Correction,
    pub sequence: Sequence,
    pub period: Span,
    pub life: Span,
    pub spare: [u8; 8],
}

/// A record, sound or not; a property that breaks the layout has no value.
#[derive(Clone, Copy, Debug, PartialEq)]
pub struct Record {
    pub head: Head,
    pub properties: [Option<Value>; PROPERTIES],
}

impl Side {
    /// Returns the side that a byte names, if it names one.
    pub fn of(byte: u8) -> Option<Side> {
        match byte {
            0 => Some(Side::Permanent),
            1 => Some(Side::Temporary),
            _ => None,
        }
    }

    /// Returns the byte that names the side.
    pub fn byte(self) -> u8 {
        match self {
            Side::Permanent => 0,
            Side::Temporary => 1,
        }
    }
}

impl Kind {
    /// Every kind.
    pub const ALL: [Kind; 3] = [Kind::Baseline, Kind::PermDelta, Kind::TempDelta];

    /// Returns the kind that a byte names, if it names one.
    pub fn of(byte: u8) -> Option<Kind> {
        Kind::ALL.into_iter().find(|kind| kind.byte() == byte)
    }

    /// Returns the byte that names the kind.
    pub fn byte(self) -> u8 {
        match self {
            Kind::Baseline => 1,
            Kind::PermDelta => 2,
            Kind::TempDelta => 3,
        }
    }

    /// Returns the side whose table holds records of the kind.
    pub fn side(self) -> Side {
        match self {
            Kind::Baseline | Kind::PermDelta => Side::Permanent,
            Kind::TempDelta => Side::Temporary,
        }
    }
}

impl Instant {
    /// Returns the instant that a number names, or none.
    pub fn given(number: u32) -> Option<Instant> {
        (number != NONE).then_some(Instant(number))
    }
}

impl Span {
    /// Neither a begin nor an end.
    pub const NEITHER: Span = Span {
        begin: None,
        end: None,
    };

    /// Returns the span of two times, either of which may be "none".
    pub fn new(begin: u32, end: u32) -> Span {
        Span {
            begin: Instant::given(begin),
            end: Instant::given(end),
        }
    }

    /// Returns whether an instant is in the span, which includes its begin and excludes its end. An
    /// end of none means no limit.
    pub fn has(self, instant: Instant) -> bool {
        self.begin.is_some_and(|begin| begin <= instant) && self.end.is_none_or(|end| instant < end)
    }

    /// Returns the span that eight bytes hold.
    fn read(bytes: [u8; 8]) -> Span {
        let [a, b, c, d, e, f, g, h] = bytes;
        Span::new(
            u32::from_be_bytes([a, b, c, d]),
            u32::from_be_bytes([e, f, g, h]),
        )
    }

    /// Returns the eight bytes that hold the span.
    fn write(self) -> Vec<u8> {
        let number = |time: Option<Instant>| time.map_or(NONE, |instant| instant.0);
        [
            number(self.begin).to_be_bytes(),
            number(self.end).to_be_bytes(),
        ]
        .concat()
    }
}

impl Head {
    /// Returns the head that the bytes before the properties hold.
    pub fn read(bytes: &[u8; HEAD_BYTES]) -> Head {
        let [kind, flags, c0, c1, s0, s1, s2, s3, rest @ ..] = *bytes;
        let [period, life, spare] = eights(rest);
        Head {
            kind,
            flags,
            correction: Correction(u16::from_be_bytes([c0, c1])),
            sequence: Sequence(u32::from_be_bytes([s0, s1, s2, s3])),
            period: Span::read(period),
            life: Span::read(life),
            spare,
        }
    }

    /// Returns the bytes that say this; reading them gives it back.
    pub fn write(&self) -> Vec<u8> {
        let mut bytes = vec![self.kind, self.flags];
        bytes.extend(self.correction.0.to_be_bytes());
        bytes.extend(self.sequence.0.to_be_bytes());
        bytes.extend(self.period.write());
        bytes.extend(self.life.write());
        bytes.extend(self.spare);
        bytes
    }

    /// Returns whether the record is cancelled.
    pub fn is_cancelled(&self) -> bool {
        self.flags & 1 == 1
    }
}

/// Splits 24 bytes into three groups of eight.
fn eights(bytes: [u8; 24]) -> [[u8; 8]; 3] {
    std::array::from_fn(|row| std::array::from_fn(|column| bytes[8 * row + column]))
}

impl Record {
    /// Returns the record that the bytes hold.
    pub fn read(bytes: &[u8; RECORD_BYTES]) -> Record {
        let (head, rest) = bytes
            .split_first_chunk()
            .expect("a record is longer than its head");
        Record {
            head: Head::read(head),
            properties: properties(rest),
        }
    }

    /// Returns the bytes of a record whose properties all have values; reading them gives it back.
    pub fn write(&self) -> Vec<u8> {
        let mut bytes = self.head.write();
        for property in self.properties {
            let value = property.expect("only sound records are written");
            bytes.extend(value.write());
        }
        bytes
    }

    /// Returns the key of the record.
    pub fn key(&self) -> Key {
        Key {
            kind: self.head.kind,
            sequence: self.head.sequence,
        }
    }
}

#[cfg(test)]
mod tests {
    use super::*;
    use crate::property::Reason;

    /// Makes a record whose bytes can be worked out on paper.
    fn bytes() -> [u8; RECORD_BYTES] {
        let mut bytes = [0; RECORD_BYTES];
        let head = [
            2, 1, 0x12, 0x34, 0, 0, 1, 2, 0, 0, 0, 150, 255, 255, 255, 255,
        ];
        bytes[..16].copy_from_slice(&head);
        bytes[16..24].copy_from_slice(&[0, 0, 0, 150, 255, 255, 255, 254]);
        bytes[24..32].copy_from_slice(&[1, 2, 3, 4, 5, 6, 7, 8]);
        bytes[32] = 9;
        bytes[200..202].copy_from_slice(&[1, 4]);
        bytes
    }

    /// Each field of the record table.
    #[test]
    fn a_record_is_read_by_its_layout() {
        let Record { head, properties } = Record::read(&bytes());
        assert_eq!((head.kind, head.flags), (2, 1));
        assert_eq!(head.correction, Correction(0x1234));
        assert_eq!(head.sequence, Sequence(258));
        assert_eq!(
            head.period,
            Span {
                begin: Some(Instant(150)),
                end: None
            }
        );
        assert_eq!(head.life.begin, Some(Instant(150)));
        assert_eq!(head.life.end, Some(Instant(4_294_967_294)));
        assert_eq!(head.spare, [1, 2, 3, 4, 5, 6, 7, 8]);
        assert_eq!(properties[0], None);
        assert_eq!(properties[6], Some(Value::Unmentioned));
        assert_eq!(properties[7], Some(Value::Nil(Reason::Unknown)));
    }

    /// Writing undoes reading.
    #[test]
    fn a_head_is_written_as_it_was_read() {
        let head: [u8; HEAD_BYTES] = *bytes().first_chunk().unwrap();
        assert_eq!(Head::read(&head).write(), head);
    }

    /// Kind first, then the whole sequence number.
    #[test]
    fn keys_rise_by_kind_then_sequence() {
        let key = |kind, sequence| Key {
            kind,
            sequence: Sequence(sequence),
        };
        assert!(key(1, NONE) < key(2, 0));
        assert!(key(2, 255) < key(2, 256));
        assert!(key(2, 0x00ff_ffff) < key(2, 0x0100_0000));
        let mut sound = bytes();
        sound[32] = 0;
        assert_eq!(Record::read(&sound).key(), key(2, 258));
        assert_eq!(Record::read(&sound).write(), sound);
    }

    /// "bit 0: cancelled".
    #[test]
    fn only_bit_zero_cancels() {
        let head = Record::read(&bytes()).head;
        assert!(head.is_cancelled());
        assert!(!Head {
            flags: 0xfe,
            ..head
        }
        .is_cancelled());
    }

    /// "Periods include their begin and exclude their end"; none runs on.
    #[test]
    fn a_span_has_its_begin_and_not_its_end() {
        let has = |span: Span| [99, 100, 199, 200, NONE - 1].map(|time| span.has(Instant(time)));
        assert_eq!(has(Span::new(100, 200)), [false, true, true, false, false]);
        assert_eq!(has(Span::new(100, NONE)), [false, true, true, true, true]);
        assert_eq!(has(Span::new(NONE, NONE)), [false; 5]);
    }

    /// Kinds are 1 to 3, sides 0 and 1.
    #[test]
    fn kinds_and_sides_have_their_bytes() {
        assert_eq!(Kind::of(0), None);
        assert_eq!(Kind::of(1), Some(Kind::Baseline));
        assert_eq!(Kind::of(2), Some(Kind::PermDelta));
        assert_eq!(Kind::of(3), Some(Kind::TempDelta));
        assert_eq!(Kind::of(4), None);
        assert_eq!(Side::of(0), Some(Side::Permanent));
        assert_eq!(Side::of(1), Some(Side::Temporary));
        assert_eq!(Side::of(2), None);
    }
}
