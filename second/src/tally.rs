//! How often each call gave each answer, and which answers never occurred.

use crate::library::Reply;
use std::collections::BTreeMap;
use std::fmt;

/// An answer that is counted, whatever its number or offset.
#[derive(Clone, Copy, Debug, PartialEq, Eq, PartialOrd, Ord)]
pub struct Answer {
    /// The letter that asks in the vectors.
    pub letter: char,
    /// The kind, 0 for a refusal; the listing of a refusal counts as one.
    pub kind: u32,
    /// The number of a refusal, or else 0.
    pub number: u32,
    /// Whether a call that reads both tables refuses the temporary one, 1 to 7; the permanent one is
    /// sound then.
    pub is_temporary: bool,
}

/// How often each answer was given.
#[derive(Default, PartialEq, Debug)]
pub struct Tally {
    counts: BTreeMap<Answer, u64>,
}

/// The possible answers to a letter: the numbers of refusals, and the words of the other kinds.
struct Answers {
    letter: char,
    numbers: &'static [u32],
    words: &'static [&'static str],
}

/// The refusals of a derivation, except 24, which no table causes.
const DERIVED: &[u32] = &[1, 2, 3, 4, 5, 6, 7, 21, 23];

/// Every possible answer.
const ALL: [Answers; 8] = [
    Answers {
        letter: 'm',
        numbers: &[1, 2],
        words: &["made"],
    },
    Answers {
        letter: 'a',
        numbers: &[1, 2, 3, 4, 5, 6, 7, 9, 10, 11, 12, 13, 14, 15, 16, 17, 18],
        words: &["added", "replaced", "superseded", "repeat"],
    },
    Answers {
        letter: 'g',
        numbers: &[1, 2, 3, 4, 5, 6, 7, 19, 20, 21, 22, 23],
        words: &["written"],
    },
    Answers {
        letter: 'n',
        numbers: &[1, 2, 3, 4, 5, 6, 7, 8, 19, 20, 21, 22, 23],
        words: &["written"],
    },
    Answers {
        letter: 'v',
        numbers: &[1, 2, 3, 4, 5, 6, 7, 8, 19, 20, 21, 22],
        words: &["permanent", "temporary", "unmentioned"],
    },
    Answers {
        letter: 'u',
        numbers: &[1, 2, 3, 4, 5, 6, 7, 19],
        words: &["yes", "no"],
    },
    Answers {
        letter: 'e',
        numbers: DERIVED,
        words: &["derived"],
    },
    Answers {
        letter: 'y',
        numbers: DERIVED,
        words: &["text", "needs"],
    },
];

impl Answer {
    /// Returns the refusal of a number.
    fn refusal(letter: char, number: u32, is_temporary: bool) -> Answer {
        Answer {
            letter,
            kind: 0,
            number,
            is_temporary,
        }
    }

    /// Returns the answer that a letter's reply counts as.
    pub fn of(letter: char, reply: Reply, is_temporary: bool) -> Answer {
        match reply.kind {
            0 => Answer::refusal(letter, reply.number, is_temporary),
            kind => Answer {
                kind,
                ..Answer::refusal(letter, 0, false)
            },
        }
    }

    /// Returns every possible answer.
    fn all() -> Vec<Answer> {
        let of_letter = |answers: &Answers| {
            let letter = answers.letter;
            let refusal = |&number: &u32| Answer::refusal(letter, number, false);
            let kinds = 1..=answers.words.len() as u32;
            let accepted = kinds.map(|kind| Answer::of(letter, Reply::new(kind, 0), false));
            let of_two = 1..=if "nv".contains(letter) { 7 } else { 0 };
            let temporary = of_two.map(|number| Answer::refusal(letter, number, true));
            let refusals = answers.numbers.iter().map(refusal);
            refusals.chain(temporary).chain(accepted).collect()
        };
        ALL.iter().flat_map::<Vec<Answer>, _>(of_letter).collect()
    }
}

impl fmt::Display for Answer {
    /// Writes the letter, and the number or the word of the answer.
    fn fmt(&self, out: &mut fmt::Formatter) -> fmt::Result {
        let letter = self.letter;
        let answers = ALL.iter().find(|answers| answers.letter == letter);
        let words = answers.map_or(&[][..], |answers| answers.words);
        match (self.kind as usize).checked_sub(1) {
            Some(index) => write!(out, "{letter} {}", words.get(index).unwrap_or(&"?")),
            None if self.is_temporary => write!(out, "{letter} {} temporary", self.number),
            None => write!(out, "{letter} {}", self.number),
        }
    }
}

impl Tally {
    /// Counts an answer.
    pub fn count(&mut self, answer: Answer) {
        *self.counts.entry(answer).or_insert(0) += 1;
    }

    /// Returns how many calls were counted.
    pub fn calls(&self) -> u64 {
        self.counts.values().sum()
    }

    /// Returns the answers that never occurred.
    pub fn unseen(&self) -> Vec<Answer> {
        let mut answers = Answer::all();
        answers.retain(|answer| !self.counts.contains_key(answer));
        answers
    }
}

impl fmt::Display for Tally {
    /// Writes the number of calls by answer, one per line, and the answers that never occurred.
    fn fmt(&self, out: &mut fmt::Formatter) -> fmt::Result {
        for (answer, count) in &self.counts {
            writeln!(out, "{count:>12} {answer}")?;
        }
        let unseen: Vec<String> = self.unseen().iter().map(Answer::to_string).collect();
        match unseen.is_empty() {
            true => writeln!(out, "every answer came up"),
            false => writeln!(out, "never came up: {}", unseen.join(", ")),
        }
    }
}

#[cfg(test)]
mod tests {
    use super::*;

    /// A counted answer is seen, and every other one is not.
    #[test]
    fn what_was_not_counted_is_told() {
        let mut tally = Tally::default();
        assert_eq!(tally.unseen().len(), 111);
        tally.count(Answer::of('n', Reply::new(0, 3), true));
        tally.count(Answer::of('e', Reply::new(1, 9), false));
        tally.count(Answer::of('e', Reply::new(1, 2), false));
        assert_eq!((tally.calls(), tally.unseen().len()), (3, 109));
        let text = tally.to_string();
        assert!(text.starts_with("           2 e derived\n           1 n 3 temporary\n"));
        assert!(text.contains("m made, a 1,") && text.ends_with("y text, y needs\n"));
    }
}
