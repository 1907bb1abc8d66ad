//! Programs of calls, decoded from the bytes of a fuzzer and played with a library and with this
//! program.

#[cfg(feature = "fuzz")]
pub mod driver;

use crate::compare::{Comparison, Difference};
use crate::fixtures::{FEATURE, PARTS, TIMES};
use crate::histories::some_tables;
use crate::layout::{bytes_of, PROPERTIES, PROPERTY_BYTES, RECORD_BYTES};
use crate::library::Library;
use crate::play::{Call, Player};
use crate::random::Random;
use crate::record::{Side, NONE};
use crate::supply;
use crate::tables::{Product, Question, Tables};
use crate::tally::Tally;

/// The most records of a table that a program fills.
const ROOM: usize = 8;

/// A program in progress: the bytes still to read, the player, and what the calls so far have left.
struct Program<'a> {
    random: Random,
    player: Comparison<'a>,
    tables: Tables,
    slice: Vec<u8>,
    record: Vec<u8>,
    output: Vec<u8>,
}

/// Plays the program that these bytes encode; returns the first difference.
pub fn play(library: &Library, bytes: &[u8]) -> Result<(), Box<Difference>> {
    let mut tally = Tally::default();
    let mut program = Program {
        random: Random::given(bytes),
        player: Comparison::new(library, &mut tally),
        tables: Tables::default(),
        slice: vec![],
        record: vec![0; RECORD_BYTES],
        output: vec![0; bytes_of(3 * ROOM)],
    };
    while program.random.is_given() {
        program.step()?;
    }
    Ok(())
}

impl Program<'_> {
    /// Does what the next bytes say: makes or damages something, or plays a call.
    fn step(&mut self) -> Result<(), Box<Difference>> {
        match self.random.below(10) {
            0 => self.make_tables(),
            1 => self.make_slice(),
            2 => self.damage(),
            3 => self.resize(),
            4 => return self.create(),
            5 | 6 => return self.arrive(),
            7 => return self.derive(),
            _ => return self.ask(),
        }
        Ok(())
    }

    /// Returns one side or the other.
    fn side(&mut self) -> Side {
        self.random.pick(&[Side::Permanent, Side::Temporary])
    }

    /// Makes the tables of a history, a table of any records, or one of the output.
    fn make_tables(&mut self) {
        let side = self.side();
        match self.random.below(4) {
            0 => *self.tables.of_side(side) = self.output.clone(),
            1 => {
                let (count, rest) = (self.random.below(ROOM), self.random.below(256));
                *self.tables.of_side(side) = supply::table(&mut self.random, side, count, rest);
            }
            _ => self.tables = some_tables(&mut self.random),
        }
    }

    /// Makes a slice for a table or of any bytes, or gives it another time or property.
    fn make_slice(&mut self) {
        let (choice, side) = (self.random.below(6), self.side());
        let is_whole = self.slice.len() == FEATURE.len() + RECORD_BYTES;
        match choice {
            0 => {
                self.slice = FEATURE.to_vec();
                self.slice.resize(FEATURE.len() + RECORD_BYTES, 0);
                self.random.fill(&mut self.slice[FEATURE.len()..]);
            }
            1 | 2 if is_whole => {
                let (place, early) = (TIMES + 4 * self.random.below(4), self.random.byte());
                let time = self.random.pick(&[early.into(), NONE - u32::from(early)]);
                self.slice[place..place + 4].copy_from_slice(&time.to_be_bytes());
            }
            3 if is_whole => {
                let place = PARTS + PROPERTY_BYTES * self.random.below(PROPERTIES);
                let part = supply::edge_part(&mut self.random);
                self.slice[place..place + PROPERTY_BYTES].copy_from_slice(&part);
            }
            _ => self.slice = supply::slice_for(&mut self.random, self.tables.of_side(side)),
        }
    }

    /// Damages a table or the slice, in some way or in one byte.
    fn damage(&mut self) {
        let (choice, side) = (self.random.below(4), self.side());
        let random = &mut self.random;
        let bytes = match choice {
            0 => return supply::spoil(random, self.tables.of_side(side)),
            1 => return supply::damage(random, &mut self.slice),
            2 => self.tables.of_side(side),
            _ => &mut self.slice,
        };
        if !bytes.is_empty() {
            let place = random.below(bytes.len());
            bytes[place] = random.byte();
        }
    }

    /// Makes a new record and a new output of other lengths.
    fn resize(&mut self) {
        let length = self.random.pick(&[RECORD_BYTES, RECORD_BYTES, 223, 225]);
        self.record = vec![self.random.byte(); length];
        let records = self.random.below(3 * ROOM);
        let length = bytes_of(records) + self.random.below(RECORD_BYTES);
        self.output = vec![self.random.byte(); length];
    }

    /// Plays a new table over one of the two.
    fn create(&mut self) -> Result<(), Box<Difference>> {
        let (side, number) = (self.side(), self.random.pick(&[0, 1, 2, 255]));
        let (mut feature, records) = (FEATURE, self.random.below(ROOM));
        feature[0] ^= self.random.pick(&[0, 0, 0, 1]);
        let length = (bytes_of(records) + self.random.below(RECORD_BYTES)).saturating_sub(16);
        let table = self.tables.of_side(side);
        table.resize(length, number);
        let call = Call::Create {
            side: number,
            feature: &feature,
        };
        self.player.call(table, &call)
    }

    /// Plays the arrival of the slice at one of the tables.
    fn arrive(&mut self) -> Result<(), Box<Difference>> {
        let (side, slice) = (self.side(), &self.slice);
        self.player
            .call(self.tables.of_side(side), &Call::Arrive { slice })
    }

    /// Plays the derived baselines or the listing of the permanent table.
    fn derive(&mut self) -> Result<(), Box<Difference>> {
        let call = Call::Make {
            product: self.random.pick(&[Product::Derived, Product::Listing]),
            permanent: &self.tables.permanent,
        };
        self.player.call(&mut self.output, &call)
    }

    /// Plays a question about the tables at an instant that matters, or at any.
    fn ask(&mut self) -> Result<(), Box<Difference>> {
        let mut instants = self.tables.instants();
        instants.push(NONE - self.random.byte() as u32);
        let property = self.random.byte() % 9;
        let question = self.random.pick(&[
            Question::State,
            Question::Snapshot,
            Question::Property(property),
            Question::Touched(property),
        ]);
        let call = Call::Ask {
            tables: &self.tables,
            instant: self.random.pick(&instants),
            question,
        };
        self.player.call(&mut self.record, &call)
    }
}

#[cfg(test)]
mod tests {
    use super::*;
    use crate::library::{Reply, PLAIN};

    /// Returns how many of some programs of any bytes make a difference.
    fn differences(library: &Library) -> usize {
        let mut random = Random::new(1);
        let programs = (0..2000).map(|_| {
            let mut bytes = vec![0; random.below(400)];
            random.fill(&mut bytes);
            bytes
        });
        programs
            .filter(|bytes| play(library, bytes).is_err())
            .count()
    }

    /// The plain program makes none, and one wrong answer in each call is found.
    #[test]
    fn wrong_libraries_are_found() {
        assert_eq!(differences(&PLAIN), 0);
        let wrong = [
            Library {
                new_table: |_, _, _| Reply::new(0, 1),
                ..PLAIN
            },
            Library {
                arrive: |_, _| Reply::new(0, 1),
                ..PLAIN
            },
            Library {
                snapshot: |_, _, _, _| Reply::new(0, 1),
                ..PLAIN
            },
            Library {
                touched: |_, _, _| Reply::new(0, 1),
                ..PLAIN
            },
            Library {
                derive: |_, _| Reply::new(0, 1),
                ..PLAIN
            },
        ];
        assert!(wrong.iter().all(|library| differences(library) > 0));
    }
}
