//! Rounds of random, edge and damaged calls, for any player to make.

#[cfg(any(test, feature = "linked"))]
pub mod further;

use crate::fixtures::rows::apart;
use crate::fixtures::FEATURE;
use crate::histories::History;
use crate::layout::{bytes_of, RECORD_BYTES};
use crate::random::Random;
use crate::record::{Side, NONE};
use crate::supply::{self, Ends};
use crate::table::Feature;
use crate::tables::{permanent, Product, Question, Tables};

/// A call that may change a buffer: a table, the record of a question, or an output.
pub enum Call<'a> {
    Create {
        side: u8,
        feature: &'a Feature,
    },
    Arrive {
        slice: &'a [u8],
    },
    Ask {
        tables: &'a Tables,
        instant: u32,
        question: Question,
    },
    Make {
        permanent: &'a [u8],
        product: Product,
    },
}

/// Makes the calls of a round.
pub trait Player {
    type Fault;

    /// Makes a call, and leaves the buffer as the call left it. A fault ends the round.
    fn call(&mut self, buffer: &mut Vec<u8>, call: &Call) -> Result<(), Self::Fault>;
}

/// Two tables and the instant that is asked about.
struct Asked<'a> {
    tables: &'a Tables,
    instant: u32,
}

/// A round in progress, with the record and the output that the last call left.
struct Round<'a, P: Player> {
    player: &'a mut P,
    random: Random,
    most: usize,
    record: Vec<u8>,
    output: Vec<u8>,
}

/// The small histories of a round that are asked about, those that baselines are derived from, and
/// those that are delivered slice by slice.
const HISTORIES: usize = 240;
const DERIVED: usize = 40;
const CLOSINGS: usize = 8;

/// Plays one round of every sort of call, on tables of at most this many records, 40 or more.
pub fn round<P: Player>(player: &mut P, seed: u64, most: usize) -> Result<(), P::Fault> {
    let mut round = Round::new(player, seed, most);
    round.creations()?;
    round.lone_arrivals()?;
    round.damaged_bytes()?;
    round.delivery()?;
    round.histories()?;
    round.closings()?;
    round.crowd()?;
    round.derived()?;
    round.many_derived()
}

impl<'a, P: Player> Round<'a, P> {
    /// Starts a round.
    fn new(player: &'a mut P, seed: u64, most: usize) -> Round<'a, P> {
        Round {
            player,
            random: Random::new(seed),
            most,
            record: vec![],
            output: vec![],
        }
    }

    /// Plays the arrival of a slice.
    fn arrive(&mut self, table: &mut Vec<u8>, slice: &[u8]) -> Result<(), P::Fault> {
        self.player.call(table, &Call::Arrive { slice })
    }

    /// Plays a new table of any side.
    fn create(&mut self, table: &mut Vec<u8>, side: u8, feature: &Feature) -> Result<(), P::Fault> {
        self.player.call(table, &Call::Create { side, feature })
    }

    /// Plays new tables in buffers of any length, filled with anything.
    fn creations(&mut self) -> Result<(), P::Fault> {
        let full = bytes_of(self.most);
        for length in (0..40).chain([255, 256, 1000, full, full + 3000]) {
            let mut table = vec![0; length];
            self.random.fill(&mut table);
            let mut feature = FEATURE;
            self.random.fill(&mut feature);
            for side in [0, 1, 2, self.random.byte()] {
                self.create(&mut table, side, &feature)?;
            }
        }
        Ok(())
    }

    /// Returns one side or the other.
    fn side(&mut self) -> Side {
        self.random.pick(&[Side::Permanent, Side::Temporary])
    }

    /// Plays arrivals at sound tables of any size, at the resulting tables, and at spoiled ones.
    fn lone_arrivals(&mut self) -> Result<(), P::Fault> {
        for _ in 0..100 {
            let side = self.side();
            let count = self.random.pick(&[0, 1, 2, 3, 4, 5, 8, 13]);
            let rest = self.random.pick(&[0, 0, 1, 100, 223, 224, 447, 448, 1000]);
            let table = supply::table(&mut self.random, side, count, rest);
            self.some_arrivals(table)?;
        }
        let side = self.side();
        let rests = [(0, 0), (0, 300), (1, 0), (1, 224)];
        let (less, rest) = self.random.pick(&rests);
        let table = supply::table(&mut self.random, side, self.most - less, rest);
        self.some_arrivals(table)
    }

    /// Plays three arrivals one after the other, and two at a spoiled table, of damaged slices too.
    fn some_arrivals(&mut self, mut table: Vec<u8>) -> Result<(), P::Fault> {
        for _ in 0..3 {
            let slice = supply::slice_for(&mut self.random, &table);
            self.arrive(&mut table, &slice)?;
        }
        for _ in 0..2 {
            let mut slice = supply::slice_for(&mut self.random, &table);
            if self.random.below(2) == 0 {
                supply::damage(&mut self.random, &mut slice);
            }
            self.arrive(&mut table.clone(), &slice)?;
            supply::spoil(&mut self.random, &mut table);
            self.arrive(&mut table, &slice)?;
        }
        Ok(())
    }

    /// Plays a small table with each of its bytes damaged, and slices with each of theirs.
    fn damaged_bytes(&mut self) -> Result<(), P::Fault> {
        let side = self.side();
        let (count, rest) = (1 + self.random.below(3), self.random.below(250));
        let table = supply::table(&mut self.random, side, count, rest);
        let slice = supply::slice_for(&mut self.random, &table);
        for offset in 0..table.len() {
            for bits in [1, 0x80, self.random.byte()] {
                let mut damaged = table.clone();
                damaged[offset] ^= bits;
                self.arrive(&mut damaged, &slice)?;
            }
        }
        for offset in 0..slice.len() {
            for bits in [1, 0x80, self.random.byte()] {
                let mut damaged = slice.clone();
                damaged[offset] ^= bits;
                self.arrive(&mut table.clone(), &damaged)?;
            }
        }
        Ok(())
    }

    /// Plays a whole delivery of many keys to a new table, damaged sometimes.
    fn delivery(&mut self) -> Result<(), P::Fault> {
        let (side, most) = (self.side(), self.most);
        let size = self.random.pick(&[4, 16, 40, most]);
        let keys = 1 + self.random.below(size);
        let room = self
            .random
            .pick(&[keys, keys / 2, keys + 1, most, most + 1]);
        let mut table = vec![0; bytes_of(room) + self.random.below(224)];
        self.random.fill(&mut table);
        self.create(&mut table, side.byte(), &FEATURE)?;
        for slice in supply::delivery(&mut self.random, side, keys) {
            self.arrive(&mut table, &slice)?;
            if self.random.below(10) == 0 {
                let mut spoiled = table.clone();
                supply::spoil(&mut self.random, &mut spoiled);
                self.arrive(&mut spoiled, &slice)?;
            }
        }
        Ok(())
    }

    /// Plays a question about two tables at an instant.
    fn ask(&mut self, asked: &Asked, question: Question) -> Result<(), P::Fault> {
        let Asked { tables, instant } = *asked;
        let call = Call::Ask {
            tables,
            instant,
            question,
        };
        self.player.call(&mut self.record, &call)
    }

    /// Returns an instant that matters in two tables, or sometimes any other.
    fn some_instant(&mut self, tables: &Tables) -> u32 {
        let mut instants = tables.instants();
        instants.push(self.random.bits() as u32 % NONE);
        self.random.pick(&instants)
    }

    /// Plays every question at each instant that matters in small histories, and odd questions.
    fn histories(&mut self) -> Result<(), P::Fault> {
        let mut history = History::new(&mut self.random);
        for _ in 0..HISTORIES {
            history.go_on(&mut self.random, 16);
            for instant in history.tables().instants() {
                self.every_question(&Asked {
                    tables: history.tables(),
                    instant,
                })?;
            }
            self.odd_questions(history.tables())?;
        }
        Ok(())
    }

    /// Plays deliveries of BASELINEs that close each other; after each slice, the state at every
    /// instant that matters, every question at some instant, and what is made of the table.
    fn closings(&mut self) -> Result<(), P::Fault> {
        for _ in 0..CLOSINGS {
            let mut tables = Tables::empty(bytes_of(4));
            for slice in supply::closings(&mut self.random) {
                self.arrive(&mut tables.permanent, &slice)?;
                let asked = |instant| Asked {
                    tables: &tables,
                    instant,
                };
                let instant = self.some_instant(&tables);
                self.every_question(&asked(instant))?;
                for instant in tables.instants() {
                    self.ask(&asked(instant), Question::State)?;
                }
                self.products(&tables.permanent, &[bytes_of(12)])?;
            }
        }
        Ok(())
    }

    /// Plays every question at some instants of one large history.
    fn crowd(&mut self) -> Result<(), P::Fault> {
        let ends = self.random.pick(&Ends::ALL);
        let tables = Tables::of(&supply::crowd(&mut self.random, self.most, ends));
        let instants = tables.instants();
        for _ in 0..8 {
            let instant = self.random.pick(&instants);
            self.every_question(&Asked {
                tables: &tables,
                instant,
            })?;
        }
        Ok(())
    }

    /// Plays the permanent state, the snapshot, each property and whether it is touched, sometimes
    /// into a new record.
    fn every_question(&mut self, asked: &Asked) -> Result<(), P::Fault> {
        if self.random.below(16) == 0 || self.record.len() != RECORD_BYTES {
            self.record = vec![self.random.byte(); RECORD_BYTES];
        }
        self.ask(asked, Question::State)?;
        self.ask(asked, Question::Snapshot)?;
        (0..8).try_for_each(|property| {
            self.ask(asked, Question::Property(property))?;
            self.ask(asked, Question::Touched(property))
        })
    }

    /// Plays questions that may be refused: for a table, the instant, the record or the property.
    fn odd_questions(&mut self, tables: &Tables) -> Result<(), P::Fault> {
        let mut instants = tables.instants();
        instants.push(NONE);
        let instant = self.random.pick(&instants);
        let mut tables = tables.clone();
        match self.random.below(16) {
            0 => supply::spoil(&mut self.random, &mut tables.permanent),
            1 => supply::spoil(&mut self.random, &mut tables.temporary),
            2 => tables.permanent.truncate(self.random.below(40)),
            3 => tables.temporary.truncate(self.random.below(40)),
            4 => self.random.flip(&mut tables.temporary[8..24], 1),
            5 => std::mem::swap(&mut tables.permanent, &mut tables.temporary),
            _ => {}
        }
        let length = self.random.pick(&[0, 1, 223, 224, 225, 448, 512]);
        self.record = vec![self.random.byte(); length];
        let property = self.random.pick(&[0, 7, 8, 9, 127, 255]);
        let asked = Asked {
            tables: &tables,
            instant,
        };
        let questions = [
            Question::State,
            Question::Snapshot,
            Question::Property(property),
            Question::Touched(property),
        ];
        questions
            .into_iter()
            .try_for_each(|question| self.ask(&asked, question))
    }

    /// Plays the derived baselines or the listing of a table.
    fn make(&mut self, permanent: &[u8], product: Product) -> Result<(), P::Fault> {
        let call = Call::Make { permanent, product };
        self.player.call(&mut self.output, &call)
    }

    /// Plays derived baselines and the listing of a table, sometimes into a new output.
    fn products(&mut self, permanent: &[u8], lengths: &[usize]) -> Result<(), P::Fault> {
        for product in [Product::Derived, Product::Listing] {
            if self.random.below(8) == 0 {
                let length = self.random.pick(lengths);
                self.output = vec![self.random.byte(); length];
            }
            self.make(permanent, product)?;
        }
        Ok(())
    }

    /// Plays derived baselines and listings of small histories, spoiled and of the other side too.
    fn derived(&mut self) -> Result<(), P::Fault> {
        let mut history = History::new(&mut self.random);
        let long = bytes_of(18);
        let lengths = [0, 10, 31, 32, 255, 256, 480, long, long, long, long, 5000];
        for _ in 0..DERIVED {
            history.go_on(&mut self.random, 8);
            let Tables {
                permanent,
                temporary,
            } = history.tables();
            self.products(permanent, &lengths)?;
            let mut table = match self.random.below(8) {
                0 => temporary.clone(),
                1 => permanent[..self.random.below(40)].to_vec(),
                _ => permanent.clone(),
            };
            supply::spoil(&mut self.random, &mut table);
            self.products(&table, &lengths)?;
        }
        Ok(())
    }

    /// Plays derived baselines and listings of large histories: any one, and as many as fit or one
    /// more.
    fn many_derived(&mut self) -> Result<(), P::Fault> {
        let most = bytes_of(self.most);
        let ends = self.random.pick(&Ends::ALL);
        let any = permanent(&supply::crowd(&mut self.random, self.most, ends));
        let less = self.random.pick(&[0, 1, 2]);
        let tables = [any, permanent(&apart(self.most as u32 + 1 - less))];
        for table in tables {
            let length = self.random.pick(&[most - 1, most, most + 224, 65_536]);
            self.output = vec![self.random.byte(); length];
            self.make(&table, Product::Derived)?;
            self.make(&table, Product::Listing)?;
        }
        Ok(())
    }
}
