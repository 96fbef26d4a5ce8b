//! Writes an extract of one train: `generate_train SHAPE FIRST DAYS SCHEDULES`, its lines with line feeds.
//!
//! The window begins on the date FIRST (yymmdd, from 600101 to 591231) and has so many days. Nothing clashes:
//! but for `twobodies` and `ownrecords` all bodies are the same journey. The shapes:
//!
//! `disjoint`: each schedule has a stretch of dates of its own, and the stretches follow one another over
//! the whole window. Of more schedules than days several share a date. Each runs on all weekdays. The first
//! of those with one stretch is an overlay, or one time in ten a cancellation, and the others are permanent.
//! So a letter decides each date, and no two bodies are compared.
//!
//! `overlapping`: each schedule begins one date after the one before it and ends one date earlier. Once half
//! of the window is reached it begins anew, so all schedules have the dates in the middle. The first seven
//! have one weekday each: six are new, and Sunday's is a cancellation. The others run on all weekdays; one in
//! five is an overlay, the others are permanent. So on all dates but a few at either end the letter of one
//! short-term change decides over the rest, and few bodies are compared, as in practice.
//!
//! `alike`: the dates of `overlapping`, all permanent and on all weekdays. So all schedules win on each of their
//! dates, and their bodies have to be found equal: more than an extract ever asks for.
//!
//! `hidden`: the same, but the bodies are two journeys by turns. The first schedule is a cancellation, which has
//! all dates. So no two bodies are compared.
//!
//! `staggered`: all schedules are permanent, and run on all weekdays of half of the window. Each begins one date
//! after the one before it; once half of the window is reached it begins anew.
//!
//! `daily`: all schedules are permanent and run on each date of the window. So they are one run in form 2. In
//! form 1 a week that the window cuts is a run of its own.
//!
//! `alternating`: the first schedule is permanent, on Monday to Friday of all weeks. Each other is a cancellation
//! of one week, by turns on Tuesday and Thursday and on Monday, Wednesday and Friday. So each week begins a run.
//!
//! `twobodies`: the first two schedules are permanent in all weeks, on Monday, Wednesday and Friday and on
//! Tuesday and Thursday. Their bodies are two journeys, an hour apart. Each other schedule is a cancellation of
//! one week, by turns on Monday and Tuesday and on Wednesday and Thursday. So each week begins two runs.
//!
//! `ownrecords`: each week has two schedules, one on Monday, Wednesday and Friday, the other on Tuesday and
//! Thursday. Their bodies are two journeys, an hour apart, which change places from week to week. So each week
//! begins two runs, and there are as many as schedules.
//!
//! In the last three FIRST is a Monday, and DAYS those of all weeks.

// Other programs have more of these.
#[allow(dead_code)]
mod days;
mod journey_records;
#[allow(dead_code)]
mod records;

use days::{LAST, number_of, weekday_of, yymmdd_of};
use journey_records::{extra, origin, terminus};
use records::{COLUMNS, Line, Numbers, basic, stop};
use std::env;
use std::io::{self, BufWriter, Write};
use std::process::ExitCode;

const CALLS: u64 = 10;
const FIRST_MINUTE: u64 = 480;
const MINUTES_BETWEEN: u64 = 7;
const MINUTES_LATER: u64 = 60;
const JOURNEYS: u64 = 2;
const WEEKDAYS: usize = 7;
const ALL_DAYS: &str = "1111111";
const MONDAY_TO_FRIDAY: &str = "1111100";
const DAYS_BY_TURNS: [&str; 2] = ["1010100", "0101000"];
const CANCELLED_BY_TURNS: [&str; 2] = ["1100000", "0011000"];

#[derive(Clone, Copy, Debug, PartialEq, Eq)]
enum Shape {
    Disjoint,
    Overlapping,
    Alike,
    Hidden,
    Staggered,
    Daily,
    Alternating,
    TwoBodies,
    OwnRecords,
}

/// The dates of a schedule, as days of the window from 0 on, with its weekdays, its letter, and which of the
/// journeys its body is.
struct Terms {
    first: usize,
    last: usize,
    days: String,
    letter: &'static str,
    journey: usize,
}

impl Shape {
    fn of(word: &str) -> Option<Shape> {
        match word {
            "disjoint" => Some(Shape::Disjoint),
            "overlapping" => Some(Shape::Overlapping),
            "alike" => Some(Shape::Alike),
            "hidden" => Some(Shape::Hidden),
            "staggered" => Some(Shape::Staggered),
            "daily" => Some(Shape::Daily),
            "alternating" => Some(Shape::Alternating),
            "twobodies" => Some(Shape::TwoBodies),
            "ownrecords" => Some(Shape::OwnRecords),
            _ => None,
        }
    }

    /// How many schedules there are for so many weeks, where that is fixed.
    fn schedules(self, weeks: usize) -> Option<usize> {
        match self {
            Shape::Alternating => Some(weeks + 1),
            Shape::TwoBodies => Some(weeks + 2),
            Shape::OwnRecords => Some(2 * weeks),
            _ => None,
        }
    }

    /// The terms of the schedule at this position among so many, in a window of so many days.
    fn terms(self, at: usize, schedules: usize, days: usize) -> Terms {
        match self {
            Shape::Disjoint => disjoint(at, schedules, days),
            Shape::Overlapping => overlapping(at, days),
            Shape::Alike => Terms {
                days: ALL_DAYS.into(),
                letter: "P",
                ..overlapping(at, days)
            },
            Shape::Hidden => Terms {
                days: ALL_DAYS.into(),
                letter: if at == 0 { "C" } else { "P" },
                journey: at % JOURNEYS as usize,
                ..overlapping(at, days)
            },
            Shape::Staggered => {
                let half = days.div_ceil(2);
                permanent(at % half, half, ALL_DAYS, 0)
            }
            Shape::Daily => permanent(0, days, ALL_DAYS, 0),
            Shape::Alternating => match at.checked_sub(1) {
                None => permanent(0, days, MONDAY_TO_FRIDAY, 0),
                Some(week) => cancellation(week, DAYS_BY_TURNS[(week + 1) % 2]),
            },
            Shape::TwoBodies => match at.checked_sub(2) {
                None => permanent(0, days, DAYS_BY_TURNS[at], at),
                Some(week) => cancellation(week, CANCELLED_BY_TURNS[week % 2]),
            },
            Shape::OwnRecords => {
                let (week, of_week) = (at / 2, at % 2);
                let days = DAYS_BY_TURNS[of_week];
                permanent(week * WEEKDAYS, WEEKDAYS, days, (week + of_week) % 2)
            }
        }
    }
}

/// A permanent schedule of so many days.
fn permanent(first: usize, count: usize, days: &str, journey: usize) -> Terms {
    Terms {
        first,
        last: first + count - 1,
        days: days.into(),
        letter: "P",
        journey,
    }
}

/// A cancellation of one week of the window.
fn cancellation(week: usize, days: &str) -> Terms {
    Terms {
        letter: "C",
        ..permanent(week * WEEKDAYS, WEEKDAYS, days, 0)
    }
}

fn disjoint(at: usize, schedules: usize, days: usize) -> Terms {
    let first_of = |at: usize| at * days / schedules;
    let first = first_of(at);
    let letter = if at > 0 && first_of(at - 1) == first {
        "P"
    } else if at % 10 == 9 {
        "C"
    } else {
        "O"
    };
    Terms {
        first,
        last: first.max(first_of(at + 1).saturating_sub(1)),
        days: ALL_DAYS.into(),
        letter,
        journey: 0,
    }
}

fn overlapping(at: usize, days: usize) -> Terms {
    let first = at % days.div_ceil(2);
    let (weekdays, letter) = if at < WEEKDAYS {
        let mut mask = ["0"; WEEKDAYS];
        mask[at] = "1";
        (mask.concat(), if at == WEEKDAYS - 1 { "C" } else { "N" })
    } else {
        (ALL_DAYS.into(), if at % 5 == 0 { "O" } else { "P" })
    };
    Terms {
        first,
        last: days - 1 - first,
        days: weekdays,
        letter,
        journey: 0,
    }
}

/// What all schedules with a journey have: the first record of one that isn't cancelled, and the lines behind
/// it. All journeys are alike but for the time.
fn journey(first_minute: u64) -> (Line, Vec<Line>) {
    let mut numbers = Numbers(1);
    let first = loop {
        let (line, is_cancellation) = basic(&mut numbers);
        if !is_cancellation {
            break line;
        }
    };
    let mut minute = first_minute;
    let mut lines = vec![extra(&mut numbers), origin(&mut numbers, minute)];
    for _ in 0..CALLS {
        minute += MINUTES_BETWEEN;
        lines.push(stop(&mut numbers, minute));
    }
    lines.push(terminus(&mut numbers, minute + MINUTES_BETWEEN));
    (first, lines)
}

struct Train {
    shape: Shape,
    first: usize,
    days: usize,
    schedules: usize,
}

impl Train {
    fn of(words: &[String]) -> Option<Train> {
        let [shape, first, days, schedules] = words else {
            return None;
        };
        let train = Train {
            shape: Shape::of(shape)?,
            first: number_of(first)?,
            days: days.parse().ok()?,
            schedules: schedules.parse().ok()?,
        };
        let has_dates = train.days > 0 && train.days <= LAST + 1 - train.first;
        (has_dates && train.has_its_weeks()).then_some(train)
    }

    /// Whether the window is whole weeks, and has as many schedules as the shape fixes for these.
    fn has_its_weeks(&self) -> bool {
        self.shape.schedules(self.days / WEEKDAYS).is_none_or(|count| {
            weekday_of(self.first) == 0 && self.days % WEEKDAYS == 0 && self.schedules == count
        })
    }

    /// The date of a day of the window, by year, month and day.
    fn date(&self, day: usize) -> String {
        yymmdd_of(self.first + day)
    }

    fn header(&self) -> Line {
        let ddmmyy = |date: String| format!("{}{}{}", &date[4..], &date[2..4], &date[..2]);
        let mut line = Line::of("HD");
        line.put(3, "TPS.UTEST01.PD250101");
        line.put(23, "0101252000");
        line.put(33, "DFTEST1");
        line.put(47, "FA");
        line.put(49, &ddmmyy(self.date(0)));
        line.put(55, &ddmmyy(self.date(self.days - 1)));
        line
    }

    fn put_all(&self, output: &mut impl Write) -> io::Result<()> {
        let mut put = |line: &Line| {
            output.write_all(&line.0)?;
            output.write_all(b"\n")
        };
        let journeys: Vec<(Line, Vec<Line>)> = (0..JOURNEYS)
            .map(|later| journey(FIRST_MINUTE + later * MINUTES_LATER))
            .collect();
        put(&self.header())?;
        for at in 0..self.schedules {
            let terms = self.shape.terms(at, self.schedules, self.days);
            let (first, behind) = &journeys[terms.journey];
            let mut line = Line(first.0);
            line.put(4, "C00123");
            line.put(10, &self.date(terms.first));
            line.put(16, &self.date(terms.last));
            line.put(22, &terms.days);
            if terms.letter == "C" {
                line.0[29..COLUMNS].fill(b' ');
            }
            line.put(80, terms.letter);
            put(&line)?;
            if terms.letter != "C" {
                behind.iter().try_for_each(&mut put)?;
            }
        }
        put(&Line::of("ZZ"))?;
        output.flush()
    }
}

fn main() -> ExitCode {
    let words: Vec<String> = env::args().skip(1).collect();
    let Some(train) = Train::of(&words) else {
        eprintln!("usage: generate_train SHAPE FIRST DAYS SCHEDULES");
        return ExitCode::from(2);
    };
    let mut output = BufWriter::with_capacity(65_536, io::stdout().lock());
    match train.put_all(&mut output) {
        Ok(()) => ExitCode::SUCCESS,
        Err(_) => ExitCode::from(4),
    }
}
