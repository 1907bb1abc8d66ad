//! Asks for listings: by theme, with faults, and into outputs of every length that matters.

use super::rules;
use super::themes::paper;
use super::Script;
use crate::fixtures::rows::about_full;
use crate::layout::bytes_of;
use crate::listing::listing;
use crate::tables::{permanent, Product};

/// The output of most asks, long enough for the lines of any small table.
const LENGTH: usize = 800;

/// How many random histories are asked about.
const HISTORIES: usize = 150;

/// Adds every ask for a listing.
pub fn add(script: &mut Script) {
    script.ask_themes(Product::Listing, LENGTH);
    faults(script);
    lengths(script);
    many(script);
    script.title("listing: random histories");
    script.ask_histories(Product::Listing, 23, HISTORIES, &[LENGTH]);
}

/// Asks for the listing of a table, into the last output.
fn ask(script: &mut Script, table: &[u8]) {
    script.ask_next(Product::Listing, table, LENGTH);
}

/// Asks for the listing of a table, into a new output of a value.
fn ask_into(script: &mut Script, table: &[u8], length: usize, value: u8) {
    script.ask_product(Product::Listing, table, &vec![value; length]);
}

/// Adds every fault of a table, into an output that is long enough and into one that is not.
fn faults(script: &mut Script) {
    script.title("listing: every fault of a table");
    for table in rules::bases() {
        for fault in rules::FAULTS {
            let spoiled = (fault.spoil)(table.clone());
            ask(script, &spoiled);
            ask_into(script, &spoiled, 9, 0);
        }
        ask(script, &table);
    }
}

/// Adds outputs of every length up to a little more than the text, for some tables.
fn lengths(script: &mut Script) {
    script.title("listing: outputs too short, exact and longer");
    let example = permanent(&paper());
    let empty = permanent(&[]);
    for table in [example, empty, vec![]] {
        for length in 0..listing(&table).len() + 3 {
            ask_into(script, &table, length, b'?');
        }
    }
}

/// Adds listings of 255 and 256 records, and of one too many; and a table longer than the program
/// takes.
fn many(script: &mut Script) {
    script.title("listing: 255, 256 and 257 records");
    for cases in about_full() {
        let table = permanent(&cases);
        let text = listing(&table).len();
        for length in [text - 1, text, text + 1] {
            ask_into(script, &table, length, b'\n');
        }
    }
    let mut table = permanent(&paper());
    for length in [bytes_of(256), bytes_of(256) + 1, 65_536] {
        table.resize(length, 0xff);
        ask(script, &table);
    }
}
