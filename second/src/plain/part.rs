//! The check of a property against its layout, in two ways. Each makes a plain program of its own.

use super::Part;

/// A check of a property.
pub trait Check {
    /// Returns whether a property keeps the layout.
    fn is_sound(part: &Part) -> bool;
}

/// The check that matches on form and detail.
pub struct Matched;

impl Check for Matched {
    /// Returns whether a property keeps the layout.
    fn is_sound(part: &Part) -> bool {
        let (words, _) = part.as_chunks();
        let [head, first, second] = [0, 1, 2].map(|index| u64::from_be_bytes(words[index]));
        if head << 16 != 0 {
            return false;
        }
        match (part[0], part[1]) {
            (0, 0) | (1, 1..=5) => first == 0 && second == 0,
            (2, 0) => first << 16 == 0 && second == 0,
            (3, 0) => first << 32 == 0 && second == 0,
            (4, 1..=4) => f64::from_bits(first).is_finite() && second == 0,
            (5, 0) => {
                (-90.0..=90.0).contains(&f64::from_bits(first))
                    && (-180.0..=180.0).contains(&f64::from_bits(second))
            }
            _ => false,
        }
    }
}

/// The check by three numbers of eight bytes, lowest byte first, and a table of the forms, without a
/// jump by the form. It may skip a property that is all zero.
pub struct Words<const SKIPS_ZEROS: bool>;

/// The forms: the least and the greatest detail, and the greatest number in each eight bytes of
/// content.
const FORMS: [(u64, u64, [u64; 2]); 6] = [
    (0, 0, [0, 0]),
    (1, 5, [0, 0]),
    (0, 0, [0xffff, 0]),
    (0, 0, [0xffff_ffff, 0]),
    (1, 4, [u64::MAX, 0]),
    (0, 0, [u64::MAX, u64::MAX]),
];

impl<const SKIPS_ZEROS: bool> Check for Words<SKIPS_ZEROS> {
    /// Returns whether a property keeps the layout.
    fn is_sound(part: &Part) -> bool {
        let (words, _) = part.as_chunks();
        let [head, first, second] = [0, 1, 2].map(|index| u64::from_le_bytes(words[index]));
        if SKIPS_ZEROS && head | first | second == 0 {
            return true;
        }
        let form = (head & 255) as usize;
        let Some((least, greatest, most)) = FORMS.get(form) else {
            return false;
        };
        // The detail, with bytes 2-7 above it.
        let detail = head >> 8;
        let fits =
            (*least <= detail) & (detail <= *greatest) & (first <= most[0]) & (second <= most[1]);
        let [one, other] = [first, second].map(|word| f64::from_bits(word.swap_bytes()).abs());
        fits & ((form != 4) | one.is_finite()) & ((form != 5) | (one <= 90.0) & (other <= 180.0))
    }
}

#[cfg(test)]
mod tests {
    use super::*;
    use crate::fixtures::doubles::{border_doubles, edge_coordinates};
    use crate::property::decode;
    use crate::random::Random;

    /// Checks that each check finds a property sound exactly if it has a value; returns whether it
    /// has one.
    fn hold(part: &Part) -> bool {
        let is_sound = decode(part).is_some();
        let checks = [
            Matched::is_sound,
            Words::<false>::is_sound,
            Words::<true>::is_sound,
        ];
        assert!(
            checks.iter().all(|check| check(part) == is_sound),
            "{part:?}"
        );
        is_sound
    }

    /// Makes a property.
    fn part(form: u8, detail: u8, content: [u64; 2]) -> Part {
        let mut part = [0; 24];
        part[..2].copy_from_slice(&[form, detail]);
        part[8..16].copy_from_slice(&content[0].to_be_bytes());
        part[16..].copy_from_slice(&content[1].to_be_bytes());
        part
    }

    /// Every form with every detail, each with every single bit of its other bytes.
    #[test]
    fn every_bit_is_held() {
        let mut sound = 0;
        for (form, detail) in (0..=255).flat_map(|form| (0..=255).map(move |detail| (form, detail)))
        {
            let blank = part(form, detail, [0; 2]);
            sound += usize::from(hold(&blank));
            for (byte, bit) in (2..24).flat_map(|byte| (0..8).map(move |bit| (byte, bit))) {
                let mut part = blank;
                part[byte] = 1 << bit;
                hold(&part);
            }
        }
        assert_eq!(sound, 1 + 5 + 1 + 1 + 4 + 1);
    }

    /// Doubles at every border and next to the ends of both ranges, in both places, under every form.
    #[test]
    fn every_border_is_held() {
        let doubles = [border_doubles(), edge_coordinates(), vec![0]].concat();
        for (form, detail) in (0..=6).flat_map(|form| (0..=6).map(move |detail| (form, detail))) {
            for &first in &doubles {
                for &second in &doubles {
                    hold(&part(form, detail, [first, second]));
                }
            }
        }
    }

    /// Bytes at random, few of them above the forms and details.
    #[test]
    fn random_bytes_are_held() {
        let mut random = Random::new(7);
        let sound = (0..500_000).filter(|_| {
            let most = random.pick(&[2, 3, 7, 256]);
            let blank = random.below(25);
            let bytes: Part = std::array::from_fn(|index| match index {
                0 | 1 => random.below(7) as u8,
                2..8 => 0,
                _ if index >= blank => 0,
                _ => random.below(most) as u8,
            });
            hold(&bytes)
        });
        assert!((50_000..450_000).contains(&sound.count()));
    }
}
