//! Records that are made up, in the forms that an extract has: LI, CR and BS.

pub const COLUMNS: usize = 80;

pub const LOCATIONS: [&str; 24] = [
    "EDINBUR", "HAYMRKT", "INVRKTH", "KRKCLDY", "LEUCHRS", "DUNDEE", "ARBROTH", "MONTROS",
    "ABRDEEN", "PERTH", "STIRLNG", "LARBERT", "FALKIRK", "LNLTHGW", "CREWE", "STAFFRD", "RUGBY",
    "EUSTON", "YORK", "LEEDS", "NWCSTLE", "DRHM", "PBRO", "KNGX",
];
pub const PLATFORMS: [&str; 8] = ["1", "2", "3", "4", "1A", "11", "BAY", "DM"];
pub const LINES: [&str; 6] = ["FL", "SL", "UFL", "DSL", "M", "E"];
pub const ALLOWANCES: [&str; 6] = ["1", "2", "H", "1H", "3", "10"];
const ACTIVITIES: [&str; 6] = ["T", "T -D", "OP", "A", "RMT", "T X"];
const CATEGORIES: [&str; 5] = ["OO", "XX", "OL", "EE", "XZ"];
const POWERS: [&str; 4] = ["EMU", "DMU", "D", "HST"];
const TIMING_LOADS: [&str; 5] = ["375", "A", "1400", "E", ""];
const SPEEDS: [&str; 4] = ["100", "075", "090", "125"];
const CHARACTERISTICS: [&str; 4] = ["", "D", "Q", "DPR"];
const CATERINGS: [&str; 4] = ["", "", "", "TR"];
pub const DAYS: [&str; 7] = [
    "1111100", "0000010", "0000001", "1111110", "1111111", "1000000", "0001000",
];

/// Numbers that look random, the same in each run (a linear congruential generator).
pub struct Numbers(pub u64);

impl Numbers {
    pub fn below(&mut self, bound: u64) -> u64 {
        self.0 = self
            .0
            .wrapping_mul(6_364_136_223_846_793_005)
            .wrapping_add(1_442_695_040_888_963_407);
        (self.0 >> 33) % bound
    }

    /// Whether one of so many is met.
    pub fn one_in(&mut self, many: u64) -> bool {
        self.below(many) == 0
    }

    pub fn among(&mut self, texts: &[&'static str]) -> &'static str {
        texts[self.below(texts.len() as u64) as usize]
    }
}

/// A line of columns.
pub struct Line(pub [u8; COLUMNS]);

impl Line {
    pub fn of(identity: &str) -> Line {
        let mut line = Line([b' '; COLUMNS]);
        line.put(1, identity);
        line
    }

    /// Puts the text into the columns from `first` on, counted from 1.
    pub fn put(&mut self, first: usize, text: &str) {
        self.0[first - 1..first - 1 + text.len()].copy_from_slice(text.as_bytes());
    }
}

/// The minute of the day, as it stands in a time.
pub fn hour_and_minute(minute: u64) -> String {
    format!("{:02}{:02}", minute / 60 % 24, minute % 60)
}

/// A location on the way, at the minute of the day.
pub fn stop(numbers: &mut Numbers, minute: u64) -> Line {
    let mut line = Line::of("LI");
    line.put(3, numbers.among(&LOCATIONS));
    if numbers.one_in(200) {
        line.put(10, "2");
    }
    let at = hour_and_minute(minute);
    let half = if numbers.one_in(3) { "H" } else { "" };
    if numbers.one_in(2) {
        line.put(11, &format!("{at}{half}"));
        line.put(16, &format!("{}{half}", hour_and_minute(minute + 1)));
        let public = if numbers.one_in(8) {
            ["0000".into(), "0000".into()]
        } else {
            [at, hour_and_minute(minute + 1)]
        };
        line.put(26, &public[0]);
        line.put(30, &public[1]);
        line.put(43, numbers.among(&ACTIVITIES));
    } else {
        line.put(21, &format!("{at}{half}"));
        line.put(26, "00000000");
    }
    if numbers.one_in(2) {
        line.put(34, numbers.among(&PLATFORMS));
    }
    for first in [37, 40] {
        if numbers.one_in(6) {
            line.put(first, numbers.among(&LINES));
        }
    }
    for first in [55, 57, 59] {
        if numbers.one_in(15) {
            line.put(first, numbers.among(&ALLOWANCES));
        }
    }
    line
}

/// What a train is, in the columns from its category to its service branding.
fn put_train(numbers: &mut Numbers, line: &mut Line, category: usize) {
    line.put(category, numbers.among(&CATEGORIES));
    line.put(
        category + 2,
        &format!(
            "{}{}{:02}",
            1 + numbers.below(9),
            numbers.among(&["A", "B", "S", "Y"]),
            numbers.below(100)
        ),
    );
    if numbers.one_in(4) {
        line.put(category + 6, &format!("{:04}", numbers.below(10_000)));
    }
    line.put(category + 10, "1");
    line.put(
        category + 11,
        &format!("{:08}", 20_000_000 + numbers.below(9_999_999)),
    );
    line.put(category + 20, numbers.among(&POWERS));
    line.put(category + 23, numbers.among(&TIMING_LOADS));
    line.put(category + 27, numbers.among(&SPEEDS));
    line.put(category + 30, numbers.among(&CHARACTERISTICS));
    line.put(category + 36, numbers.among(&["B", "S", " "]));
    line.put(category + 38, numbers.among(&["S", "A", " "]));
    line.put(category + 40, numbers.among(&CATERINGS));
}

/// Puts what a schedule says of its train, its status first.
pub fn put_body(numbers: &mut Numbers, line: &mut Line) {
    line.put(30, numbers.among(&["P", "P", "P", "B", "1"]));
    put_train(numbers, line, 31);
}

/// A change on the way.
pub fn change(numbers: &mut Numbers) -> Line {
    let mut line = Line::of("CR");
    line.put(3, numbers.among(&LOCATIONS));
    put_train(numbers, &mut line, 11);
    line
}

/// A schedule, and whether it is a cancellation.
pub fn basic(numbers: &mut Numbers) -> (Line, bool) {
    let mut line = Line::of("BSN");
    line.put(
        4,
        &format!(
            "{}{:05}",
            numbers.among(&["C", "G", "L", "P", "W", "Y"]),
            numbers.below(100_000)
        ),
    );
    let first = format!("25{:02}{:02}", 1 + numbers.below(6), 1 + numbers.below(28));
    let last = format!("25{:02}{:02}", 7 + numbers.below(6), 1 + numbers.below(28));
    line.put(10, &first);
    let letter = numbers.among(&["P", "P", "P", "P", "P", "P", "O", "O", "N", "C"]);
    line.put(16, if letter == "P" { &last } else { &first });
    line.put(22, numbers.among(&DAYS));
    if letter != "C" {
        put_body(numbers, &mut line);
    }
    line.put(80, letter);
    (line, letter == "C")
}

/// Another spelling of the same kind of record, which isn't its plain line.
pub fn loosen(numbers: &mut Numbers, line: &mut Line) {
    match (&line.0[..2], numbers.below(4)) {
        (b"LI", 0) => line.put(34, " 2 "),
        (b"LI", 1) => line.put(43, "  T   -D    "),
        (b"LI", _) => line.put(55, " 1"),
        (b"CR", 0) => line.put(76, "X"),
        (b"CR", _) => line.put(38, " 75"),
        (_, 0) => line.put(79, "X"),
        _ => line.put(54, " 375"),
    }
}
