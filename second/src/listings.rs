//! Inputs for the listing program, each with the text that it prints.

use crate::files::File;
use crate::fixtures::rows::about_full;
use crate::histories::History;
use crate::listing::{program, MOST_BYTES};
use crate::random::Random;
use crate::tables::permanent;
use crate::vectors::rules;
use crate::vectors::themes::{paper, themes};

/// How many histories of each theme are listed at most.
const OF_A_THEME: usize = 5;

/// How many random histories are listed.
const HISTORIES: usize = 20;

/// Names, and what goes with them.
type Inputs = Vec<(String, Vec<u8>)>;

/// Returns the inputs as files, and the text of each.
pub fn files() -> Vec<File> {
    let pair = |(name, input): &(String, Vec<u8>)| {
        let text = program(input);
        [
            File::new(name, "tsl", input),
            File::new(name, "txt", text.as_bytes()),
        ]
    };
    inputs().iter().flat_map(pair).collect()
}

/// Returns every input with its name.
fn inputs() -> Inputs {
    [
        by_theme(),
        faults(),
        cut(),
        long(),
        many(),
        random_histories(),
    ]
    .concat()
}

/// Names each input with a word and a number.
fn numbered(word: &str, inputs: impl Iterator<Item = Vec<u8>>) -> Inputs {
    inputs
        .zip(1..)
        .map(|(input, number)| (format!("{word}-{number}"), input))
        .collect()
}

/// Returns some histories of each theme, spread over it.
fn by_theme() -> Inputs {
    let some = |tables: Vec<Vec<u8>>| {
        let step = tables.len().div_ceil(OF_A_THEME);
        tables.into_iter().step_by(step)
    };
    themes()
        .iter()
        .flat_map(|theme| numbered(theme.word, some(theme.tables().collect())))
        .collect()
}

/// Returns a table with every second fault, and a table of the other side.
fn faults() -> Inputs {
    let [permanent, temporary] = rules::bases();
    let spoiled = rules::FAULTS
        .iter()
        .step_by(2)
        .map(|fault| (fault.spoil)(permanent.clone()));
    numbered("fault", spoiled.chain([temporary]))
}

/// Returns the specification's example cut short, and with bytes after it.
fn cut() -> Inputs {
    let example = permanent(&paper());
    let lengths = [
        0, 1, 3, 8, 31, 32, 33, 255, 256, 257, 479, 480, 481, 704, 1000,
    ];
    let resized = lengths.into_iter().map(|length| {
        let mut table = example.clone();
        table.resize(length, b'\n');
        table
    });
    numbered("cut", resized)
}

/// Returns inputs of the maximum length, and longer ones.
fn long() -> Inputs {
    let example = permanent(&paper());
    let lengths = [0, 1, 2, 8160, 100_000].map(|more| MOST_BYTES + more);
    let filled = lengths.into_iter().map(|length| {
        let mut table = example.clone();
        table.resize(length, 0xff);
        table
    });
    let zeros = [MOST_BYTES, MOST_BYTES + 1].map(|length| vec![0; length]);
    numbered("long", filled.chain(zeros))
}

/// Returns tables of about as many derived baselines as a table holds.
fn many() -> Inputs {
    let tables = about_full().map(|cases| permanent(&cases));
    numbered("many", tables.into_iter())
}

/// Returns random histories.
fn random_histories() -> Inputs {
    let mut random = Random::new(24);
    let tables = (0..HISTORIES).map(|_| {
        let mut history = History::new(&mut random);
        (0..8).for_each(|_| history.change(&mut random));
        history.tables().permanent.clone()
    });
    numbered("random", tables)
}

#[cfg(test)]
mod tests {
    use super::*;
    use std::collections::{BTreeMap, BTreeSet};

    /// There are enough, each with its own name, small in total, and every first line occurs.
    #[test]
    fn inputs_are_many_and_of_every_sort() {
        let files = files();
        let names: BTreeSet<&String> = files.iter().map(|file| &file.name).collect();
        assert!(names.len() == files.len() && files.len() >= 240);
        let size: usize = files.iter().map(|file| file.bytes.len()).sum();
        assert!(size < 3_000_000, "{size}");
        let mut counts = BTreeMap::new();
        for (_, input) in inputs() {
            let text = program(&input);
            let first = text.lines().next().unwrap().to_string();
            let word = match first.strip_prefix("derived") {
                Some(_) => "derived".to_string(),
                None => first,
            };
            *counts.entry(word).or_insert(0) += 1;
        }
        let refused = ["1", "2", "3", "4", "5", "6", "7", "21", "23"];
        let refused = refused.map(|number| format!("refused {number}"));
        let expected: BTreeSet<String> = refused
            .into_iter()
            .chain(["derived", "too long"].map(String::from))
            .collect();
        assert_eq!(counts.keys().cloned().collect::<BTreeSet<_>>(), expected);
        assert!(counts["derived"] > 60, "{counts:?}");
    }
}
