//! The vectors: asks with their answers, and their format.

mod anchors;
mod areas;
mod asking;
mod cancelled;
pub mod chance;
mod content;
mod creation;
mod crowds;
pub mod derived;
pub mod deriving;
mod examples;
mod faults;
mod feeds;
mod filing;
pub mod format;
mod listed;
mod lives;
mod open_ends;
mod overlays;
pub mod parts;
mod refusals;
mod revivals;
mod rooms;
pub mod rules;
mod slices;
pub mod themes;
mod times;
mod touches;

use crate::arrival::{self, Arrival};
use crate::fixtures::Case;
use crate::play::{round, Call, Player};
use crate::property;
use crate::refusal::{number_of, Refusal};
use crate::slice;
use crate::table::{self, Sides};
use format::{
    buffer_line, changes, either_lines, line, BUFFER_BYTES, EXCHANGE, FEATURE_BYTES, TABLE_BYTES,
};
use std::convert::Infallible;

/// One line of the listing: a title for people, or an ask.
enum Row {
    Title(&'static str),
    Ask(Ask),
}

/// An ask: the lines that prepare it, the line that asks, and the answer.
struct Ask {
    changes: Vec<String>,
    line: String,
    answer: String,
}

/// What the lines so far have set: the buffer, the feature, both tables, the instant, the record,
/// the output, and the table before the last ask for its check or a change.
#[derive(Default)]
struct Made {
    buffer: Vec<u8>,
    feature: Vec<u8>,
    table: Vec<u8>,
    other: Vec<u8>,
    before: Vec<u8>,
    instant: u32,
    record: Vec<u8>,
    output: Vec<u8>,
}

/// All asks in order, what their lines have set, and whether there was a title since the last
/// record or output.
#[derive(Default)]
pub struct Script {
    made: Made,
    rows: Vec<Row>,
    is_begun: bool,
}

/// Returns the number of a refusal.
fn refused(refusal: Refusal) -> String {
    refusal.number().to_string()
}

/// Returns every vector of this program.
pub fn all() -> Script {
    let mut script = Script::default();
    parts::add(&mut script);
    areas::add(&mut script);
    slices::add(&mut script);
    faults::add(&mut script);
    cancelled::add(&mut script);
    times::add(&mut script);
    content::add(&mut script);
    chance::add(&mut script);
    creation::add(&mut script);
    rules::add(&mut script);
    rooms::add(&mut script);
    filing::add(&mut script);
    feeds::add(&mut script);
    examples::add(&mut script);
    refusals::add(&mut script);
    anchors::add(&mut script);
    open_ends::add(&mut script);
    lives::add(&mut script);
    overlays::add(&mut script);
    revivals::add(&mut script);
    crowds::add(&mut script);
    touches::add(&mut script);
    derived::add(&mut script);
    listed::add(&mut script);
    script
}

/// Returns one round of random calls as vectors, the same for the same seed.
pub fn random(seed: u64) -> Script {
    let mut script = Script::default();
    script.title("random calls");
    let Ok(()) = round(&mut script, seed, 40);
    script
}

impl Player for Script {
    type Fault = Infallible;

    /// Adds the call as an ask.
    fn call(&mut self, buffer: &mut Vec<u8>, call: &Call) -> Result<(), Infallible> {
        match call {
            Call::Create { side, feature } => self.ask_creation(buffer, *side, &feature[..]),
            Call::Arrive { slice } => self.ask_arrival(buffer, slice),
            Call::Ask {
                tables,
                instant,
                question,
            } => {
                self.ask_question(tables, *instant, *question, buffer);
                buffer.clone_from(&self.made.record);
                return Ok(());
            }
            Call::Make { permanent, product } => {
                self.ask_product(*product, permanent, buffer);
                buffer.clone_from(&self.made.output);
                return Ok(());
            }
        }
        buffer.clone_from(&self.made.table);
        Ok(())
    }
}

impl Script {
    /// Starts a group of asks under a title.
    fn title(&mut self, title: &'static str) {
        self.rows.push(Row::Title(title));
        self.is_begun = true;
    }

    /// Asks what one property part holds.
    fn ask_part(&mut self, part: &[u8]) {
        let changes = self.set_buffer(part).into_iter().collect();
        let answer = property::decode(part).map_or("broken".to_string(), |value| value.to_string());
        self.ask(changes, "d".to_string(), answer);
    }

    /// Asks for the property rule over the property bytes of a record.
    fn ask_area(&mut self, area: &[u8]) {
        let changes = self.set_buffer(area).into_iter().collect();
        let answer = property::find(&property::properties(area)).to_string();
        self.ask(changes, "r".to_string(), answer);
    }

    /// Asks for the slice check.
    fn ask_slice(&mut self, case: &Case) {
        let feature_line = self.set_feature(&case.feature);
        let buffer_line = self.set_buffer(&case.slice);
        let changes = feature_line.into_iter().chain(buffer_line).collect();
        let answer = number_of(slice::check(&case.slice, &case.feature, case.side)).to_string();
        self.ask(changes, line('s', &[case.side]), answer);
    }

    /// Asks for the check of a table.
    fn ask_table(&mut self, bytes: &[u8], sides: Sides) {
        let lines = self.set_table(bytes);
        let answer = number_of(table::check(bytes, sides)).to_string();
        self.made.before = bytes.to_vec();
        self.ask(lines, line('k', &[sides as u8]), answer);
    }

    /// Asks for a new table in place of these bytes, of a side and the first bytes of the feature.
    fn ask_creation(&mut self, bytes: &[u8], side: u8, feature: &[u8]) {
        let mut lines = self.set_table(bytes);
        lines.extend(self.set_feature(feature));
        let first = feature
            .first_chunk()
            .expect("a feature of 16 bytes or more");
        let made = table::create(&mut self.made.table, side, first);
        let answer = made.map_or_else(refused, |()| "made".to_string());
        self.ask_change(lines, line('m', &[side]), bytes, answer);
    }

    /// Asks for the arrival of a slice at a table.
    fn ask_arrival(&mut self, bytes: &[u8], slice: &[u8]) {
        let lines = self.set_table(bytes);
        self.ask_arrival_after(lines, slice);
    }

    /// Asks for the arrival of a slice at the table that some lines have made.
    fn ask_arrival_after(&mut self, mut lines: Vec<String>, slice: &[u8]) {
        lines.extend(self.set_buffer(slice));
        let bytes = self.made.table.clone();
        let arrival = arrival::arrive(&mut self.made.table, slice);
        let answer = arrival.map_or_else(refused, |arrival: Arrival| arrival.to_string());
        self.ask_change(lines, "a".to_string(), &bytes, answer);
    }

    /// Asks for the arrival of a slice at the table as it is now.
    fn deliver(&mut self, slice: &[u8]) {
        self.ask_arrival_after(vec![], slice);
    }

    /// Adds an ask that may have changed the table, which was these bytes.
    fn ask_change(&mut self, lines: Vec<String>, line: String, bytes: &[u8], answer: String) {
        let answer = answer + &changes(bytes, &self.made.table);
        self.made.before = bytes.to_vec();
        self.ask(lines, line, answer);
    }

    /// Changes the table; returns the lines that do so, which may exchange it with the other one.
    fn set_table(&mut self, bytes: &[u8]) -> Vec<String> {
        assert!(bytes.len() <= TABLE_BYTES);
        let lines = either_lines(&self.made.table, &self.made.other, &self.made.before, bytes);
        if lines.first().is_some_and(|line| line == EXCHANGE) {
            std::mem::swap(&mut self.made.table, &mut self.made.other);
        }
        self.made.table = bytes.to_vec();
        lines
    }

    /// Adds a finished ask.
    fn ask(&mut self, changes: Vec<String>, line: String, answer: String) {
        self.rows.push(Row::Ask(Ask {
            changes,
            line,
            answer,
        }));
    }

    /// Changes the buffer; returns the line that does so, if one is needed.
    fn set_buffer(&mut self, bytes: &[u8]) -> Option<String> {
        assert!(bytes.len() <= BUFFER_BYTES);
        let line = buffer_line(&self.made.buffer, bytes);
        self.made.buffer = bytes.to_vec();
        line
    }

    /// Changes the feature; returns the line that does so, if one is needed.
    fn set_feature(&mut self, bytes: &[u8]) -> Option<String> {
        assert!(bytes.len() <= FEATURE_BYTES);
        let line = (self.made.feature != bytes).then(|| line('f', bytes));
        self.made.feature = bytes.to_vec();
        line
    }

    /// Returns the asks, without the titles.
    fn asks(&self) -> impl Iterator<Item = &Ask> {
        self.rows.iter().filter_map(|row| match row {
            Row::Title(_) => None,
            Row::Ask(ask) => Some(ask),
        })
    }

    /// Returns the input stream.
    pub fn input(&self) -> String {
        self.asks()
            .flat_map(|ask| ask.changes.iter().chain([&ask.line]))
            .map(|line| format!("{line}\n"))
            .collect()
    }

    /// Returns the answers, one line per ask.
    pub fn answers(&self) -> String {
        self.asks().map(|ask| format!("{}\n", ask.answer)).collect()
    }

    /// Returns titles, asks and answers for people to read, one line per ask.
    pub fn listing(&self) -> String {
        self.rows
            .iter()
            .map(|row| format!("{}\n", row.text()))
            .collect()
    }
}

impl Row {
    /// Returns the row for people to read.
    fn text(&self) -> String {
        match self {
            Row::Title(title) => format!("# {title}"),
            Row::Ask(Ask {
                changes,
                line,
                answer,
            }) => {
                let before: String = changes.iter().map(|change| format!("{change} ")).collect();
                format!("{before}{line} -> {answer}")
            }
        }
    }
}

#[cfg(test)]
mod tests {
    use super::*;
    use crate::property::{decode, find, properties};
    use crate::question::{permanent_state, property, snapshot};
    use crate::tables::Product;
    use crate::touched::touched;
    use std::collections::BTreeMap;

    /// The seeds of random calls that the gate has.
    const SEEDS: u64 = 42;

    /// Returns the bytes that pairs of hex digits encode.
    fn unhex(digits: &str) -> Vec<u8> {
        assert!(
            digits.len().is_multiple_of(2)
                && digits.bytes().all(|d| b"0123456789abcdef".contains(&d))
        );
        (0..digits.len())
            .step_by(2)
            .map(|i| u8::from_str_radix(&digits[i..i + 2], 16).unwrap())
            .collect()
    }

    impl Made {
        /// Follows a line that sets something; returns whether it was one.
        fn make(&mut self, letter: &str, bytes: &[u8]) -> bool {
            let place =
                |at: &[u8]| usize::from(at[0]) << 16 | usize::from(at[1]) << 8 | usize::from(at[2]);
            match letter {
                "b" => self.buffer = bytes.to_vec(),
                "f" => self.feature = bytes.to_vec(),
                "p" => bytes
                    .chunks(2)
                    .for_each(|pair| self.buffer[pair[0] as usize] = pair[1]),
                "t" => self.table = vec![bytes[3]; place(bytes)],
                "w" => self.table[place(bytes)..][..bytes.len() - 3].copy_from_slice(&bytes[3..]),
                "z" => self.table = self.before.clone(),
                "x" => std::mem::swap(&mut self.table, &mut self.other),
                "i" => self.instant = u32::from_be_bytes(bytes.try_into().unwrap()),
                "l" => self.record = vec![bytes[2]; place(&[0, bytes[0], bytes[1]])],
                "o" => self.output = vec![bytes[3]; place(bytes)],
                _ => return false,
            }
            true
        }

        /// Answers a line that asks.
        fn answer(&mut self, letter: &str, bytes: &[u8]) -> String {
            match letter {
                "d" => decode(&self.buffer).map_or("broken".to_string(), |value| value.to_string()),
                "r" => find(&properties(&self.buffer)).to_string(),
                "s" => number_of(slice::check(&self.buffer, &self.feature, bytes[0])).to_string(),
                "g" | "n" | "v" | "u" => self.answer_of_instant(letter, bytes),
                "e" => self.answer_of_output(Product::Derived),
                "y" => self.answer_of_output(Product::Listing),
                _ => self.answer_of_table(letter, bytes),
            }
        }

        /// Answers a line that asks about the two tables at the instant.
        fn answer_of_instant(&mut self, letter: &str, bytes: &[u8]) -> String {
            let (table, other, instant) = (&self.table, &self.other, self.instant);
            let before = self.record.clone();
            let answer = match letter {
                "g" => asking::written(permanent_state(table, instant, &mut self.record)),
                "n" => asking::written(snapshot(table, other, instant, &mut self.record)),
                "v" => asking::found(property(table, other, instant, bytes[0])),
                _ => asking::told(touched(other, instant, bytes[0])),
            };
            answer + &changes(&before, &self.record)
        }

        /// Answers a line that asks for something made of the table.
        fn answer_of_output(&mut self, product: Product) -> String {
            let before = self.output.clone();
            let answer = product.make(&self.table, &mut self.output);
            answer + &changes(&before, &self.output)
        }

        /// Answers a line that asks about the table.
        fn answer_of_table(&mut self, letter: &str, bytes: &[u8]) -> String {
            self.before = self.table.clone();
            let answer = match letter {
                "k" => {
                    let sides = [Sides::Permanent, Sides::Temporary, Sides::Both];
                    number_of(table::check(&self.table, sides[bytes[0] as usize])).to_string()
                }
                "m" => {
                    let feature = self.feature.first_chunk().unwrap();
                    table::create(&mut self.table, bytes[0], feature)
                        .map_or_else(refused, |()| "made".to_string())
                }
                "a" => arrival::arrive(&mut self.table, &self.buffer)
                    .map_or_else(refused, |arrival| arrival.to_string()),
                other => panic!("no command {other}"),
            };
            answer + &changes(&self.before, &self.table)
        }
    }

    /// Returns the answers to an input stream, read line by line as the format says.
    fn replay(input: &str) -> String {
        let mut reader = Made::default();
        let mut answers = String::new();
        for line in input.lines() {
            let (letter, digits) = line.split_at(1);
            let bytes = unhex(digits);
            if !reader.make(letter, &bytes) {
                answers += &(reader.answer(letter, &bytes) + "\n");
            }
        }
        answers
    }

    /// The stream alone gives the same answers.
    #[test]
    fn the_stream_read_back_gives_the_answers() {
        for script in [all(), random(1), random(2)] {
            assert!(replay(&script.input()) == script.answers());
        }
    }

    /// Two runs give the same bytes, and the sizes are within the limits.
    #[test]
    fn the_streams_are_the_same_each_time_and_small() {
        let (one, other) = (all(), all());
        assert!(one.input() == other.input() && one.answers() == other.answers());
        for script in (1..=SEEDS).map(random).chain([one]) {
            assert!(script.input().len() <= 4_194_304);
            assert!(script.answers().len() <= 3_145_728);
            assert!(script.input().is_ascii());
        }
    }

    /// Returns how many asks have each answer, by letter and word.
    fn counts(script: &Script) -> BTreeMap<(String, String), usize> {
        let mut counts = BTreeMap::new();
        for ask in script.asks() {
            let word = ask.answer.split(' ').next().unwrap();
            let key = (ask.line[..1].to_string(), word.to_string());
            *counts.entry(key).or_insert(0) += 1;
        }
        counts
    }

    /// Checks that each letter has at least this many asks for each of the words, and no other
    /// answer.
    fn hold_answers(script: &Script, letters: &str, expected: &[(&str, &str, usize)]) {
        let mut counts = counts(script);
        counts.retain(|(letter, _), _| letters.contains(letter));
        let mut answers = 0;
        for &(letter, words, least) in expected {
            for word in words.split(' ') {
                let count = counts.get(&(letter.to_string(), word.to_string()));
                assert!(
                    count.is_some_and(|&count| count >= least),
                    "{letter} {word}: {count:?}"
                );
                answers += 1;
            }
        }
        assert_eq!(counts.len(), answers);
    }

    /// At least a hundred asks for each answer, twenty for each about an instant, ten for each
    /// about derived baselines and listings, and no other answer.
    #[test]
    fn every_answer_is_well_represented() {
        let expected = [
            ("s", "0 9 10 11 12 13 14 15 16", 100),
            ("m", "made 1 2", 100),
            ("k", "0 1 2 3 4 5 6 7", 100),
            ("a", "added replaced superseded repeat 1 2 3 4 5 6 7", 100),
            ("a", "9 10 11 12 13 14 15 16 17 18", 100),
            ("g", "written 1 2 3 4 5 6 7 19 20 21 22 23", 20),
            ("n", "written 1 2 3 4 5 6 7 8 19 20 21 22 23", 20),
            ("v", "permanent temporary unmentioned", 20),
            ("v", "1 2 3 4 5 6 7 8 19 20 21 22", 20),
            ("u", "yes no 1 2 3 4 5 6 7 19", 20),
            ("e", "derived 1 2 3 4 5 6 7 21 23", 10),
            ("y", "text needs", 10),
        ];
        hold_answers(&all(), "smakgnvuey", &expected);
    }

    /// As many lines as answers.
    #[test]
    fn a_person_gets_a_line_for_each_ask() {
        let script = all();
        let listing = script.listing();
        let asks = listing.lines().filter(|line| line.contains(" -> "));
        assert_eq!(asks.count(), script.answers().lines().count());
    }
}
