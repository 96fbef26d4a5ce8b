//! Writes a full extract to measure with: `generate_extract SCHEDULES [rising|shuffled] [changes PERCENT]`, its
//! lines with line feeds.
//!
//! The schedules and the associations are those of a timetable (`timetable.rs`), in which nothing clashes: 20 in a
//! hundred are overlays and cancellations, or PERCENT, from 0 to 50. `rising`, or no such word, has them by rising
//! UID, those of one UID together. `shuffled` has the same records in a random order, so both say the same.
//!
//! A cancellation is one line. Of the other schedules nine in ten have a BX, and each has some 14 calls on its
//! way. What stands in the records is made up, in the forms that an extract has. All are accepted, and all but
//! one in a hundred are plain lines.

#[allow(dead_code)]
mod days;
mod journey_records;
#[allow(dead_code)]
mod records;
mod timetable;

use days::yymmdd_of;
use journey_records::{extra, origin, terminus};
use records::{LOCATIONS, Line, Numbers, change, loosen, put_body, stop};
use std::env;
use std::io::{self, BufWriter, Write};
use std::process::ExitCode;
use timetable::{Letter, Record, shuffle};

const TIPLOCS: u64 = 800;
const MOST_ASSOCIATIONS: usize = 5_000;
const FIRST_CALLS: u64 = 5;
const MORE_CALLS: u64 = 18;
const MOST_CHANGES: u64 = 50;
const DEFAULT_CHANGES: u64 = 20;
const UIDS: u64 = 26 * 100_000;
const ODD: u64 = 0x9E37_79B9_7F4A_7C15;

/// Numbers of their own for each count.
fn numbers_of(count: u64) -> Numbers {
    let spread = count.wrapping_mul(ODD);
    Numbers((spread ^ spread >> 32).wrapping_mul(ODD))
}

fn header() -> Line {
    let mut line = Line::of("HD");
    line.put(3, "TPS.UTEST01.PD250101");
    line.put(23, "0101252000");
    line.put(33, "DFTEST1");
    line.put(47, "FA010125311225");
    line
}

fn tiploc(numbers: &mut Numbers, at: u64) -> Line {
    let mut line = Line::of("TI");
    line.put(3, &format!("{}{at:03}", &numbers.among(&LOCATIONS)[..4]));
    line.put(12, &format!("{:06}", numbers.below(1_000_000)));
    line.put(19, &format!("{} JUNCTION {at}", numbers.among(&LOCATIONS)));
    line.put(45, &format!("{:05}", numbers.below(100_000)));
    line.put(54, &format!("X{:02}", at % 100));
    line.put(57, numbers.among(&LOCATIONS));
    line
}

/// The UIDs of so many trains, which rise with the trains' numbers. The other UIDs lie between them.
struct Uids {
    trains: u64,
    for_each: u64,
}

impl Uids {
    fn of(trains: u64) -> Option<Uids> {
        let for_each = UIDS / trains.max(1);
        (for_each > 0).then_some(Uids { trains, for_each })
    }

    fn uid(&self, train: u64) -> String {
        let at = train * self.for_each + numbers_of(train).below(self.for_each);
        format!(
            "{}{:05}",
            (b'A' + (at / 100_000) as u8) as char,
            at % 100_000
        )
    }
}

fn put_terms(line: &mut Line, first_column: usize, record: &Record) {
    line.put(first_column, &yymmdd_of(record.first));
    line.put(first_column + 6, &yymmdd_of(record.last));
    line.put(first_column + 12, record.days());
    line.put(80, record.letter.text());
}

/// How many trains the records are of.
fn trains_of(records: &[Record]) -> u64 {
    records.last().map_or(0, |record| record.train + 1)
}

struct Extract<W> {
    uids: Uids,
    output: W,
}

impl<W: Write> Extract<W> {
    /// Writes a line, now and then in another spelling.
    fn put(&mut self, numbers: &mut Numbers, mut line: Line) -> io::Result<()> {
        if numbers.one_in(100) {
            match &line.0[..2] {
                b"HD" | b"TI" | b"ZZ" => line.put(79, "X"),
                b"AA" => line.put(60, "X"),
                b"BX" => line.put(3, " 66"),
                b"LO" if numbers.one_in(2) => line.put(30, "  TB  A"),
                b"LT" if numbers.one_in(2) => line.put(26, "  TF  A"),
                b"LO" | b"LT" => line.put(20, " 2 "),
                _ => loosen(numbers, &mut line),
            }
        }
        self.output.write_all(&line.0)?;
        self.output.write_all(b"\n")
    }

    /// Writes an association. Its train is one of so many keys, and each of these has another base UID.
    fn put_association(&mut self, keys: u64, record: &Record) -> io::Result<()> {
        let mut line = Line::of("AAN");
        let mut key = numbers_of(record.train);
        line.put(4, &self.uids.uid(record.train * self.uids.trains / keys));
        line.put(10, &self.uids.uid(key.below(self.uids.trains)));
        line.put(38, key.among(&LOCATIONS));
        put_terms(&mut line, 16, record);
        let mut numbers = numbers_of(record.body.start);
        if record.letter != Letter::Cancellation {
            line.put(35, numbers.among(&["JJS", "VVS", "NPN"]));
            line.put(47, if record.body.is_altered { "TO" } else { "TP" });
        }
        self.put(&mut numbers, line)
    }

    /// Writes a schedule. Its body is altered at one of the first calls, by a platform that no other call has.
    fn put_schedule(&mut self, record: &Record) -> io::Result<()> {
        let numbers = &mut numbers_of(record.body.start);
        let mut basic = Line::of("BSN");
        basic.put(4, &self.uids.uid(record.train));
        put_terms(&mut basic, 10, record);
        if record.letter == Letter::Cancellation {
            return self.put(numbers, basic);
        }
        put_body(numbers, &mut basic);
        self.put(numbers, basic)?;
        if !numbers.one_in(10) {
            let extra = extra(numbers);
            self.put(numbers, extra)?;
        }
        let mut minute = 240 + numbers.below(1_200);
        let origin = origin(numbers, minute);
        self.put(numbers, origin)?;
        let altered = numbers.below(FIRST_CALLS);
        for call in 0..FIRST_CALLS + numbers.below(MORE_CALLS) {
            if numbers.one_in(20) {
                let change = change(numbers);
                self.put(numbers, change)?;
            }
            minute += 2 + numbers.below(9);
            let mut stop = stop(numbers, minute);
            if record.body.is_altered && call == altered {
                stop.put(34, "9  ");
            }
            self.put(numbers, stop)?;
        }
        let terminus = terminus(numbers, minute + 3);
        self.put(numbers, terminus)
    }

    fn put_all(
        &mut self,
        keys: u64,
        associations: &[Record],
        schedules: &[Record],
    ) -> io::Result<()> {
        let numbers = &mut Numbers(1);
        self.put(numbers, header())?;
        for at in 0..TIPLOCS {
            let tiploc = tiploc(numbers, at);
            self.put(numbers, tiploc)?;
        }
        for record in associations {
            self.put_association(keys, record)?;
        }
        for record in schedules {
            self.put_schedule(record)?;
        }
        self.put(numbers, Line::of("ZZ"))?;
        self.output.flush()
    }
}

/// What the words ask for: how many schedules, whether they are shuffled, and how many in a hundred are changes.
fn asked(words: &[String]) -> Option<(usize, bool, u64)> {
    let (schedules, rest) = words.split_first()?;
    let (is_shuffled, rest) = match rest.split_first() {
        Some((word, rest)) if word == "rising" => (false, rest),
        Some((word, rest)) if word == "shuffled" => (true, rest),
        _ => (false, rest),
    };
    let changes = match rest {
        [] => DEFAULT_CHANGES,
        [word, percent] if word == "changes" => percent.parse().ok()?,
        _ => return None,
    };
    (changes <= MOST_CHANGES).then_some((schedules.parse().ok()?, is_shuffled, changes))
}

fn main() -> ExitCode {
    let words: Vec<String> = env::args().skip(1).collect();
    let Some((count, is_shuffled, changes)) = asked(&words) else {
        eprintln!("usage: generate_extract SCHEDULES [rising|shuffled] [changes PERCENT]");
        return ExitCode::from(2);
    };
    let mut schedules = timetable::records(1, count, changes);
    let mut associations = timetable::records(2, MOST_ASSOCIATIONS.min(count / 10), changes);
    let keys = trains_of(&associations);
    let Some(uids) = Uids::of(trains_of(&schedules)) else {
        eprintln!("generate_extract: there are fewer UIDs than trains");
        return ExitCode::from(2);
    };
    if is_shuffled {
        let numbers = &mut Numbers(3);
        shuffle(numbers, &mut associations);
        shuffle(numbers, &mut schedules);
    }
    let mut extract = Extract {
        uids,
        output: BufWriter::with_capacity(65_536, io::stdout().lock()),
    };
    match extract.put_all(keys, &associations, &schedules) {
        Ok(()) => ExitCode::SUCCESS,
        Err(_) => ExitCode::from(4),
    }
}
