//! Which records a made-up timetable has: their trains, dates, days, letters and bodies. Nothing clashes.
//!
//! Four in five trains have one permanent record. The others have two or three, whose dates follow one another,
//! some with the body of the one before. Overlays and cancellations belong to a permanent record: their dates and
//! days are among its own. Some cover one date, the others one to four weeks. An overlay has a body of its own, or
//! that of the permanent record, as it is or altered in one place. A few trains have one new short-term record and
//! nothing else. So at most one record of a letter applies to a train on a date. The dates go from a month before
//! the year 2025 to a month after it.

use crate::days::{number_of, weekday_of};
use crate::records::{DAYS, Numbers};

const WEEKDAYS: usize = 7;
const NEW_ONE_IN: u64 = 40;
const MOST_DAYS_BETWEEN: u64 = 20;
const MOST_WEEKS: u64 = 4;

#[derive(Clone, Copy, PartialEq, Eq)]
pub enum Letter {
    Permanent,
    Overlay,
    New,
    Cancellation,
}

impl Letter {
    pub fn text(self) -> &'static str {
        match self {
            Letter::Permanent => "P",
            Letter::Overlay => "O",
            Letter::New => "N",
            Letter::Cancellation => "C",
        }
    }
}

/// Records with equal bodies have the same one of these.
#[derive(Clone, Copy)]
pub struct Body {
    /// What the numbers start with that make the body up.
    pub start: u64,
    pub is_altered: bool,
}

#[derive(Clone, Copy)]
pub struct Record {
    /// Trains are counted from 0.
    pub train: u64,
    pub first: usize,
    pub last: usize,
    days: [u8; WEEKDAYS],
    pub letter: Letter,
    pub body: Body,
}

impl Record {
    /// The days run, as they stand in their columns.
    pub fn days(&self) -> &str {
        str::from_utf8(&self.days).expect("digits")
    }

    fn has_weekday_of(&self, date: usize) -> bool {
        self.days[weekday_of(date)] == b'1'
    }
}

/// The permanent record that was made last, and where changes to it can begin.
struct Permanent {
    record: Record,
    free_for_overlay: usize,
    free_for_cancellation: usize,
}

/// The records that are made, the last of which may be changed, or followed by another part of its year.
struct Timetable {
    numbers: Numbers,
    records: Vec<Record>,
    trains: u64,
    permanent: Option<Permanent>,
    part: usize,
    parts: usize,
    start: usize,
    end: usize,
}

/// So many records by rising train, of which so many in a hundred are overlays and cancellations.
pub fn records(seed: u64, count: usize, changes: u64) -> Vec<Record> {
    let date = |yymmdd| number_of(yymmdd).expect("a date");
    let mut timetable = Timetable {
        numbers: Numbers(seed),
        records: Vec::with_capacity(count),
        trains: 0,
        permanent: None,
        part: 0,
        parts: 0,
        start: date("241201"),
        end: date("260131"),
    };
    while timetable.records.len() < count {
        let is_change = timetable.numbers.below(100) < changes;
        let change = if is_change { timetable.change() } else { None };
        let record = change.unwrap_or_else(|| timetable.regular());
        timetable.records.push(record);
    }
    timetable.records
}

/// Puts them into another order.
pub fn shuffle(numbers: &mut Numbers, records: &mut [Record]) {
    for at in (1..records.len()).rev() {
        records.swap(at, numbers.below(at as u64 + 1) as usize);
    }
}

fn only_weekday_of(date: usize) -> [u8; WEEKDAYS] {
    let mut days = [b'0'; WEEKDAYS];
    days[weekday_of(date)] = b'1';
    days
}

impl Timetable {
    fn own_body(&self) -> Body {
        Body {
            start: self.records.len() as u64,
            is_altered: false,
        }
    }

    /// A permanent record, or a train's only new one.
    fn regular(&mut self) -> Record {
        if self.part == self.parts {
            self.trains += 1;
            self.part = 0;
            if self.numbers.one_in(NEW_ONE_IN) {
                self.parts = 0;
                self.permanent = None;
                return self.new_one();
            }
            self.parts = match self.numbers.below(10) {
                0 => 3,
                1 => 2,
                _ => 1,
            };
        }
        self.next_permanent()
    }

    fn new_one(&mut self) -> Record {
        let length = self.numbers.below(MOST_WEEKS * WEEKDAYS as u64) as usize;
        let room = self.end - self.start - length;
        let first = self.start + self.numbers.below(room as u64) as usize;
        Record {
            train: self.trains - 1,
            first,
            last: first + length,
            days: *b"1111111",
            letter: Letter::New,
            body: self.own_body(),
        }
    }

    /// The permanent record of the next part of the year.
    fn next_permanent(&mut self) -> Record {
        let part_start = |part: usize| self.start + (self.end - self.start) * part / self.parts;
        let (from, to) = (part_start(self.part), part_start(self.part + 1) - 1);
        let room = (to - from) as u64 / 3;
        let body = match &self.permanent {
            Some(before) if self.part > 0 && self.numbers.one_in(3) => before.record.body,
            _ => self.own_body(),
        };
        let days = self.numbers.among(&DAYS).as_bytes();
        let record = Record {
            train: self.trains - 1,
            first: from + self.numbers.below(room) as usize,
            last: to - self.numbers.below(room) as usize,
            days: days.try_into().expect("seven days"),
            letter: Letter::Permanent,
            body,
        };
        self.part += 1;
        self.permanent = Some(Permanent {
            record,
            free_for_overlay: record.first,
            free_for_cancellation: record.first,
        });
        record
    }

    /// An overlay or a cancellation of the permanent record, if that has dates left for it.
    fn change(&mut self) -> Option<Record> {
        let own_body = self.own_body();
        let permanent = self.permanent.as_mut()?;
        let of = permanent.record;
        let (letter, free) = if self.numbers.one_in(3) {
            (Letter::Cancellation, &mut permanent.free_for_cancellation)
        } else {
            (Letter::Overlay, &mut permanent.free_for_overlay)
        };
        let from = *free + self.numbers.below(MOST_DAYS_BETWEEN) as usize;
        let first = (from..=of.last).find(|date| of.has_weekday_of(*date))?;
        let (last, days) = if self.numbers.one_in(2) {
            (first, only_weekday_of(first))
        } else {
            let weeks = 1 + self.numbers.below(MOST_WEEKS) as usize;
            let days = if self.numbers.one_in(3) {
                only_weekday_of(first)
            } else {
                of.days
            };
            (first + weeks * WEEKDAYS - 1, days)
        };
        if last > of.last {
            return None;
        }
        *free = last + 1;
        let body = match self.numbers.below(8) {
            0 => of.body,
            1..4 => own_body,
            _ => Body {
                is_altered: true,
                ..of.body
            },
        };
        Some(Record {
            first,
            last,
            days,
            letter,
            body,
            ..of
        })
    }
}
