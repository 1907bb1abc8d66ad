//! The asks for derived baselines and for the listing.

use super::format::{changes, line, output_line, value_line, OUTPUT_BYTES};
use super::themes::themes;
use super::{refused, Script};
use crate::derived::derive;
use crate::histories::History;
use crate::listing::list;
use crate::random::Random;
use crate::refusal::Refusal;
use crate::tables::Product;

impl Product {
    /// Returns the letter that asks for it.
    pub fn letter(self) -> char {
        match self {
            Product::Derived => 'e',
            Product::Listing => 'y',
        }
    }

    /// Makes it from a table, into an output; returns the words of the answer.
    pub fn make(self, table: &[u8], output: &mut [u8]) -> String {
        match self {
            Product::Derived => derived(derive(table, output)),
            Product::Listing => listed(list(table, output)),
        }
    }
}

/// Returns the words of derived baselines.
fn derived(count: Result<usize, Refusal>) -> String {
    count.map_or_else(refused, |count| format!("derived {count}"))
}

/// Returns the words of a listing, whose length is an error if it does not fit.
fn listed(length: Result<usize, usize>) -> String {
    length.map_or_else(
        |needed| format!("needs {needed}"),
        |length| format!("text {length}"),
    )
}

impl Script {
    /// Asks for something made of a table, into an output of these bytes.
    pub fn ask_product(&mut self, product: Product, table: &[u8], output: &[u8]) {
        let mut lines = self.set_table(table);
        lines.extend(value_line(
            &self.made.output,
            output,
            OUTPUT_BYTES,
            output_line,
        ));
        let mut after = output.to_vec();
        let answer = product.make(table, &mut after);
        let answer = answer + &changes(output, &after);
        self.made.output = after;
        self.ask(lines, line(product.letter(), &[]), answer);
    }

    /// Asks for it into the last output if that has this length, or into a new one, as after a
    /// title.
    pub fn ask_next(&mut self, product: Product, table: &[u8], length: usize) {
        let is_new = std::mem::take(&mut self.is_begun) || self.made.output.len() != length;
        let output = match is_new {
            true => vec![0xa5; length],
            false => self.made.output.clone(),
        };
        self.ask_product(product, table, &output);
    }

    /// Asks for it of every history of the themes, into this many bytes.
    pub fn ask_themes(&mut self, product: Product, length: usize) {
        for theme in themes() {
            self.title(theme.title);
            theme
                .tables()
                .for_each(|table| self.ask_next(product, &table, length));
        }
    }

    /// Asks for it of this many random histories, each slightly different from the last, into an
    /// output of one of some lengths.
    pub fn ask_histories(&mut self, product: Product, seed: u64, count: usize, lengths: &[usize]) {
        let mut random = Random::new(seed);
        let mut history = History::new(&mut random);
        for _ in 0..count {
            history.go_on(&mut random, 16);
            let length = random.pick(lengths);
            self.ask_next(product, &history.tables().permanent, length);
        }
    }
}
