//! A sweep over the sorted events of a permanent table, which finds its derived baselines from the
//! times alone.

use super::state::{BEGIN, END, LIFE_BEGIN, LIFE_END};
use super::{number, Record, NONE};
use crate::refusal::Refusal;

/// The place of an event without a record, and of an anchor that is not named.
const NOWHERE: u16 = u16::MAX;

/// An instant at which a counted record begins, with its place in the table; or one at which the
/// life of a counted BASELINE ends. As numbers they are in the order in which they apply: in a
/// table BASELINEs come first, and changes come by sequence number.
#[derive(Clone, Copy, PartialEq, Eq, PartialOrd, Ord)]
pub struct Event(u64);

/// A derived baseline that is not drawn yet. It shows the line of the BASELINE that holds, or else
/// the line of the opening.
#[derive(Clone, Copy)]
pub struct Stretch {
    pub begin: u32,
    pub end: u32,
    pub line: u16,
    /// The place of the anchor, if the line is shown for the first time.
    anchor: u16,
    /// The events since the line was shown last.
    from: u16,
    to: u16,
}

/// A sweep in progress.
pub struct Sweep<'a> {
    records: &'a [Record],
    events: &'a [Event],
    /// How many events are passed.
    passed: usize,
    based: Based,
    opened: Opened,
}

/// The BASELINE that began last: its place, its period, and the life end of its line.
struct Based {
    place: u16,
    begin: u32,
    end: u32,
    gone: u32,
}

/// The openings: how many there are, the place of the first one until it is shown, the number of
/// events that its line shows, and the life end of its line.
struct Opened {
    count: usize,
    place: u16,
    shown: usize,
    gone: u32,
}

impl Event {
    /// An event at the first instant, to fill a list with.
    pub const FIRST: Event = Event(0);

    /// Makes an event.
    fn new(instant: u32, place: u16) -> Event {
        Event(u64::from(instant) << 16 | u64::from(place))
    }

    /// Returns the instant.
    fn instant(self) -> u32 {
        (self.0 >> 16) as u32
    }

    /// Returns the place of the record.
    fn place(self) -> u16 {
        self.0 as u16
    }

    /// Returns the record that begins, if one does.
    pub fn record(self, records: &[Record]) -> Option<&Record> {
        records.get(usize::from(self.place()))
    }
}

/// Returns the events of a table, as they are stored. A cancelled record has no times.
pub fn events(records: &[Record]) -> impl Iterator<Item = Event> + '_ {
    let begins = (0..)
        .zip(records)
        .map(|(place, record)| Event::new(number(record, BEGIN), place));
    let ends = records
        .iter()
        .take_while(|record| record[0] == 1)
        .map(|record| Event::new(number(record, LIFE_END), NOWHERE));
    begins.chain(ends).filter(|event| event.instant() != NONE)
}

impl Stretch {
    /// A stretch of nothing, to fill a list with.
    pub const NOTHING: Stretch = Stretch {
        begin: 0,
        end: 0,
        line: 0,
        anchor: 0,
        from: 0,
        to: 0,
    };

    /// Returns the anchor, if the line is shown for the first time.
    pub fn anchor<'a>(&self, records: &'a [Record]) -> Option<&'a Record> {
        records.get(usize::from(self.anchor))
    }

    /// Returns the changes since the line was shown last.
    pub fn changes<'a>(
        &self,
        records: &'a [Record],
        events: &'a [Event],
    ) -> impl Iterator<Item = &'a Record> {
        events[usize::from(self.from)..usize::from(self.to)]
            .iter()
            .filter_map(|event| event.record(records))
            .filter(|record| record[0] == 2)
    }
}

impl<'a> Sweep<'a> {
    /// Starts a sweep over sorted events.
    pub fn new(records: &'a [Record], events: &'a [Event]) -> Sweep<'a> {
        Sweep {
            records,
            events,
            passed: 0,
            based: Based {
                place: NOWHERE,
                begin: NONE,
                end: 0,
                gone: NONE,
            },
            opened: Opened {
                count: 0,
                place: NOWHERE,
                shown: 0,
                gone: NONE,
            },
        }
    }

    /// Calls the closure for each stretch that has a state, or returns 21.
    pub fn run(mut self, mut each: impl FnMut(Stretch)) -> Result<(), Refusal> {
        let mut instant = self.next_event();
        while instant != NONE {
            let before = self.passed;
            self.pass(instant)?;
            let is_based = instant < self.based.end;
            if !is_based && self.opened.count > 1 {
                return Err(Refusal::TwoAnchors);
            }
            let end = if is_based { self.based.end } else { NONE };
            let period = [instant, end.min(self.next_event())];
            if is_based && instant < self.based.gone {
                each(self.show_based(period, before));
            } else if !is_based && self.opened.count == 1 && instant < self.opened.gone {
                each(self.show_opened(period));
            }
            instant = period[1];
        }
        Ok(())
    }

    /// Returns the instant of the next event, or none.
    fn next_event(&self) -> u32 {
        let next = self.events.get(self.passed);
        next.map_or(NONE, |event| event.instant())
    }

    /// Passes the events of an instant, or returns 21 if two BASELINEs hold.
    fn pass(&mut self, instant: u32) -> Result<(), Refusal> {
        while self.next_event() == instant {
            let event = self.events[self.passed];
            self.passed += 1;
            match event.record(self.records) {
                Some(record) if record[0] == 1 => self.begin(instant, event.place(), record)?,
                Some(record) => self.change(instant, event.place(), record),
                None => {}
            }
        }
        Ok(())
    }

    /// Takes over a BASELINE, which closes an earlier one without end; or returns 21 if another one
    /// holds.
    fn begin(&mut self, instant: u32, place: u16, record: &Record) -> Result<(), Refusal> {
        let Based { begin, end, .. } = self.based;
        if begin == instant || (end != NONE && end > instant) {
            return Err(Refusal::TwoAnchors);
        }
        self.based = Based {
            place,
            begin: instant,
            end: number(record, END),
            gone: number(record, LIFE_END),
        };
        Ok(())
    }

    /// Takes over the life times that a change gives. One at a BASELINE's begin is already in it.
    fn change(&mut self, instant: u32, place: u16, record: &Record) {
        let (life_begin, life_end) = (number(record, LIFE_BEGIN), number(record, LIFE_END));
        if life_end != NONE {
            if self.based.begin != instant {
                self.based.gone = life_end;
            }
            self.opened.gone = life_end;
        }
        if life_begin != NONE {
            if self.opened.count == 0 {
                self.opened = Opened {
                    count: 0,
                    place,
                    shown: self.passed,
                    gone: NONE,
                };
            }
            self.opened.count += 1;
        }
    }

    /// Returns the stretch of the BASELINE that holds. It is shown from its begin on at every change
    /// instant, so only the events since then are new, after this many.
    fn show_based(&self, period: [u32; 2], before: usize) -> Stretch {
        let (anchor, from) = match self.based.begin == period[0] {
            true => (self.based.place, self.passed),
            false => (NOWHERE, before),
        };
        Stretch {
            begin: period[0],
            end: period[1],
            line: 0,
            anchor,
            from: from as u16,
            to: self.passed as u16,
        }
    }

    /// Returns the stretch of the opening's line.
    fn show_opened(&mut self, period: [u32; 2]) -> Stretch {
        let from = std::mem::replace(&mut self.opened.shown, self.passed);
        Stretch {
            begin: period[0],
            end: period[1],
            line: 1,
            anchor: std::mem::replace(&mut self.opened.place, NOWHERE),
            from: from as u16,
            to: self.passed as u16,
        }
    }
}
