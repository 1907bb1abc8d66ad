//! Tables of every room that matters, with counts at, over and far over it.

use super::Script;
use crate::fixtures::{cases, table_of, Case};
use crate::layout::{bytes_of, HEADER_BYTES, RECORD_BYTES};
use crate::record::Kind;
use crate::table::Sides;

/// Adds every ask about rooms.
pub fn add(script: &mut Script) {
    small_rooms(script);
    large_rooms(script);
    front_middle_last(script);
}

/// Makes TEMPDELTAs with even sequence numbers from 2 on.
fn even(count: usize) -> Vec<Case> {
    let keys: Vec<_> = (1..=count as u32)
        .map(|index| (Kind::TempDelta, 2 * index))
        .collect();
    cases(&keys)
}

/// Makes a table of a length, full of sound records, that counts this many.
fn table(length: usize, count: u16) -> Vec<u8> {
    let fits = (length - HEADER_BYTES) / RECORD_BYTES;
    let rest = (length - HEADER_BYTES) % RECORD_BYTES;
    let mut table = table_of(&even(fits), rest, 0xee);
    table[3] = 1;
    table[6..8].copy_from_slice(&count.to_be_bytes());
    table
}

/// Asks for the check of a table, and for arrivals: one stored or new, one new in any case.
fn ask(script: &mut Script, table: &[u8], sequences: &[u32]) {
    script.ask_table(table, Sides::Both);
    for &sequence in sequences {
        let case = Case::usual(Kind::TempDelta).with_sequence(sequence);
        script.ask_arrival(table, &case.slice);
    }
}

/// Adds rooms of 0 to 3 with parts of a record after them, and counts from 0 to far over.
fn small_rooms(script: &mut Script) {
    script.title("room: 0 to 3, with a rest");
    for room in 0..=3 {
        for rest in [0, 1, 31, 112, 223] {
            for count in [
                0, 1, 2, 3, 4, 5, 255, 256, 257, 258, 259, 512, 65_280, 65_535,
            ] {
                let length = bytes_of(room) + rest;
                ask(script, &table(length, count), &[2, 5, 9]);
            }
        }
    }
}

/// Adds rooms of 255 and 256 and longer buffers, with counts around each.
fn large_rooms(script: &mut Script) {
    script.title("room: 255, 256, and more bytes");
    for (records, rest) in [
        (255, 0),
        (255, 223),
        (256, 0),
        (256, 1),
        (257, 0),
        (292, 96),
    ] {
        let length = bytes_of(records) + rest;
        for count in [256, 255, 254, 257, 258, 292, 293, 511, 512, 65_535, 0, 1] {
            ask(script, &table(length, count), &[2, 512, 514]);
        }
    }
}

/// Adds a new slice before, between and after 255 records, and to full tables.
fn front_middle_last(script: &mut Script) {
    script.title("room: first, middle and last of many");
    let length = bytes_of(256);
    for count in [255, 256, 128] {
        ask(
            script,
            &table(length, count),
            &[0, 1, 3, 255, 256, 257, 509, 510, 511, 512, 513],
        );
    }
}
