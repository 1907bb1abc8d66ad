//! Questions with one fault and with two: the answer is the earlier one.

use super::rules::{self, at, set};
use super::Script;
use crate::fixtures::{Case, Time};
use crate::layout::RECORD_BYTES;
use crate::record::{Kind, NONE};
use crate::tables::{Question, Tables};

/// A question's tables, instant, record and property number.
#[derive(Clone)]
struct Asking {
    tables: Tables,
    instant: u32,
    length: usize,
    property: u8,
}

/// Where in their order the refusals come: each table's, the features', then the question's own.
#[derive(Clone, Copy, Debug, PartialEq, Eq, PartialOrd, Ord)]
enum Stage {
    Permanent(u8),
    Temporary(u8),
    Feature,
    Instant,
    Property,
    Buffer,
    State(u8),
}

/// A way to spoil an asking, with the stage at which it is refused.
#[derive(Clone, Copy)]
struct Fault {
    stage: Stage,
    spoil: fn(Asking) -> Asking,
}

/// Faults that are in no table by itself, in the order of their stages.
const FAULTS: [Fault; 10] = [
    fault(Stage::Feature, |asking| asking.with_other_feature(8)),
    fault(Stage::Feature, |asking| asking.with_other_feature(23)),
    fault(Stage::Instant, |asking| asking.at(NONE)),
    fault(Stage::Property, |asking| asking.about(8)),
    fault(Stage::Property, |asking| asking.about(255)),
    fault(Stage::Buffer, |asking| asking.into(223)),
    fault(Stage::Buffer, |asking| asking.into(448)),
    fault(Stage::State(21), two_anchors),
    fault(Stage::State(20), |asking| asking.at(99)),
    fault(Stage::State(22), withdrawn),
];

/// Makes a fault.
const fn fault(stage: Stage, spoil: fn(Asking) -> Asking) -> Fault {
    Fault { stage, spoil }
}

impl Asking {
    /// Makes one that is not refused: a BASELINE, two PERMDELTAs and three TEMPDELTAs at 150.
    fn sound() -> Asking {
        let [permanent, temporary] = rules::bases();
        Asking {
            tables: Tables {
                permanent,
                temporary,
            },
            instant: 150,
            length: RECORD_BYTES,
            property: 0,
        }
    }

    /// Returns the asking at another instant.
    fn at(self, instant: u32) -> Asking {
        Asking { instant, ..self }
    }

    /// Returns the asking about another property.
    fn about(self, property: u8) -> Asking {
        Asking { property, ..self }
    }

    /// Returns the asking with a record of another length.
    fn into(self, length: usize) -> Asking {
        Asking { length, ..self }
    }

    /// Returns the asking with a byte of the temporary table's feature changed.
    fn with_other_feature(mut self, place: usize) -> Asking {
        self.tables.temporary[place] ^= 1;
        self
    }

    /// Returns its questions, one of each sort.
    fn questions(&self) -> [Question; 4] {
        [
            Question::State,
            Question::Snapshot,
            Question::Property(self.property),
            Question::Touched(self.property),
        ]
    }

    /// Adds its questions, into the last record if that has the length.
    fn add(&self, script: &mut Script) {
        for question in self.questions() {
            let record = match self.length {
                RECORD_BYTES => script.next_record(),
                length => vec![0xa5; length],
            };
            script.ask_question(&self.tables, self.instant, question, &record);
        }
    }
}

/// Returns the asking with the second record a BASELINE as well, and the third counted still.
fn two_anchors(mut asking: Asking) -> Asking {
    asking.tables.permanent = rules::with_two_anchors(asking.tables.permanent);
    asking
}

/// Returns the asking with a life end in the third record.
fn withdrawn(mut asking: Asking) -> Asking {
    let closing = Case::usual(Kind::PermDelta)
        .with_sequence(4)
        .with_time(Time::LifeEnd, 150);
    asking.tables.permanent = set(asking.tables.permanent, at(2), &closing.record());
    asking
}

/// Adds every question with faults.
pub fn add(script: &mut Script) {
    script.title("questions: faults alone and in pairs");
    spoiled().iter().for_each(|(asking, _)| asking.add(script));
    faults_of_tables(script);
    features(script);
    records(script);
    properties(script);
}

/// Returns sound and spoiled askings, each with the stages of its one fault or two.
fn spoiled() -> Vec<(Asking, Vec<Stage>)> {
    let sound = Asking::sound();
    let mut askings = vec![(sound.clone(), vec![])];
    let single: Vec<_> = singly().into_iter().map(|way| (way.stage(), way)).collect();
    for (stage, way) in &single {
        askings.push((way.spoil(sound.clone()), vec![*stage]));
        for (later, other) in single.iter().filter(|(later, _)| later > stage) {
            let asking = way.spoil(other.spoil(sound.clone()));
            askings.push((asking, vec![*stage, *later]));
        }
    }
    askings
}

/// One fault: of the permanent table, of the temporary one, or of another sort.
#[derive(Clone, Copy)]
enum Way {
    Permanent(rules::Fault),
    Temporary(rules::Fault),
    Other(Fault),
}

impl Way {
    /// Returns the stage at which it is refused.
    fn stage(&self) -> Stage {
        match self {
            Way::Permanent(fault) => Stage::Permanent(fault.number),
            Way::Temporary(fault) => Stage::Temporary(fault.number),
            Way::Other(fault) => fault.stage,
        }
    }

    /// Returns a spoiled asking.
    fn spoil(&self, mut asking: Asking) -> Asking {
        match self {
            Way::Permanent(fault) => {
                asking.tables.permanent = (fault.spoil)(asking.tables.permanent);
                asking
            }
            Way::Temporary(fault) => {
                asking.tables.temporary = (fault.spoil)(asking.tables.temporary);
                asking
            }
            Way::Other(fault) => (fault.spoil)(asking),
        }
    }
}

/// Returns one fault of each number of each table, and the others, in the order of their stages.
fn singly() -> Vec<Way> {
    let mut first = rules::FAULTS.to_vec();
    first.dedup_by_key(|fault| fault.number);
    let of_tables = [Way::Permanent as fn(_) -> _, Way::Temporary]
        .into_iter()
        .flat_map(|way| first.iter().map(move |fault| way(*fault)));
    of_tables.chain(FAULTS.map(Way::Other)).collect()
}

/// Adds every fault of either table, and the two tables exchanged.
fn faults_of_tables(script: &mut Script) {
    script.title("questions: every fault of a table, and the other side's table");
    for way in [Way::Permanent as fn(_) -> _, Way::Temporary] {
        for fault in rules::FAULTS {
            way(fault).spoil(Asking::sound()).add(script);
        }
    }
    let sound = Asking::sound();
    let Tables {
        permanent,
        temporary,
    } = sound.tables.clone();
    for (permanent, temporary) in [
        (temporary.clone(), permanent.clone()),
        (permanent.clone(), permanent),
        (temporary.clone(), temporary),
    ] {
        let tables = Tables {
            permanent,
            temporary,
        };
        let sound = sound.clone();
        Asking { tables, ..sound }.add(script);
    }
}

/// Adds each byte of the feature changed: in one table, in the other, and in both.
fn features(script: &mut Script) {
    script.title("questions: each byte of the feature");
    for place in 8..24 {
        let one = Asking::sound().with_other_feature(place);
        one.add(script);
        let mut both = one.clone();
        both.tables.permanent[place] ^= 1;
        both.add(script);
        Asking {
            tables: Tables {
                temporary: Asking::sound().tables.temporary,
                ..both.tables
            },
            ..one
        }
        .add(script);
    }
}

/// Adds records of every length that matters, of some values, where there is a state and where not.
fn records(script: &mut Script) {
    script.title("questions: records of other lengths");
    for length in (0..=3)
        .chain(220..=228)
        .chain([31, 32, 112, 240, 447, 448, 511, 512])
    {
        for instant in [150, 99, NONE] {
            for value in [0, 0xff] {
                for question in [Question::State, Question::Snapshot] {
                    let Asking { tables, .. } = Asking::sound();
                    script.ask_question(&tables, instant, question, &vec![value; length]);
                }
            }
        }
    }
}

/// Adds every property number, where there is a state, where not, and at no instant.
fn properties(script: &mut Script) {
    script.title("questions: every property number");
    let Asking { tables, .. } = Asking::sound();
    for instant in [150, 99, NONE] {
        script.ask_properties(&tables, instant, &Vec::from_iter(0..=255));
    }
}

#[cfg(test)]
mod tests {
    use super::*;
    use crate::question::{permanent_state, property, snapshot};
    use crate::refusal::number_of;
    use crate::touched::touched;

    impl Stage {
        /// Returns its number in the specification.
        fn number(self) -> u8 {
            match self {
                Stage::Permanent(number) | Stage::Temporary(number) | Stage::State(number) => {
                    number
                }
                Stage::Feature => 8,
                Stage::Instant | Stage::Property => 19,
                Stage::Buffer => 23,
            }
        }

        /// Returns whether a question looks at what is wrong.
        fn concerns(self, question: Question) -> bool {
            let is_state = question == Question::State;
            let is_touched = matches!(question, Question::Touched(_));
            let is_of_property = is_touched || matches!(question, Question::Property(_));
            match self {
                Stage::Permanent(_) | Stage::State(_) => !is_touched,
                Stage::Temporary(_) => !is_state,
                Stage::Feature => !is_state && !is_touched,
                Stage::Instant => true,
                Stage::Property => is_of_property,
                Stage::Buffer => !is_of_property,
            }
        }
    }

    /// Each fault has its number, and of two that concern the question the earlier counts.
    #[test]
    fn the_earlier_stage_wins() {
        let askings = spoiled();
        assert!(askings.len() > 250);
        for (asking, stages) in askings {
            let Tables {
                permanent,
                temporary,
            } = &asking.tables;
            let mut record = vec![0; asking.length];
            for question in asking.questions() {
                let first = stages.iter().find(|stage| stage.concerns(question));
                let answer = match question {
                    Question::State => permanent_state(permanent, asking.instant, &mut record),
                    Question::Snapshot => {
                        snapshot(permanent, temporary, asking.instant, &mut record)
                    }
                    Question::Property(number) => {
                        property(permanent, temporary, asking.instant, number).map(|_| ())
                    }
                    Question::Touched(number) => {
                        touched(temporary, asking.instant, number).map(|_| ())
                    }
                };
                assert_eq!(
                    number_of(answer),
                    first.map_or(0, |stage| stage.number()),
                    "{question:?}: {stages:?}"
                );
            }
        }
    }
}
