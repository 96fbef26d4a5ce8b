//! Records that are made up, in the forms that an extract has: BX, LO and LT.

use crate::records::{ALLOWANCES, LINES, LOCATIONS, Line, Numbers, PLATFORMS, hour_and_minute};

pub fn extra(numbers: &mut Numbers) -> Line {
    let mut line = Line::of("BX");
    line.put(12, numbers.among(&["SR", "GR", "XC", "TP"]));
    line.put(14, "Y");
    line
}

/// Puts the time of the first or the last location at this minute of the day, and the public time.
fn put_times(numbers: &mut Numbers, line: &mut Line, minute: u64) {
    let at = hour_and_minute(minute);
    let half = if numbers.one_in(6) { "H" } else { "" };
    line.put(11, &format!("{at}{half}"));
    line.put(16, if numbers.one_in(8) { "0000" } else { &at });
    if numbers.one_in(2) {
        line.put(20, numbers.among(&PLATFORMS));
    }
    if numbers.one_in(6) {
        line.put(23, numbers.among(&LINES));
    }
}

pub fn origin(numbers: &mut Numbers, minute: u64) -> Line {
    let mut line = Line::of("LO");
    line.put(3, numbers.among(&LOCATIONS));
    put_times(numbers, &mut line, minute);
    for first in [26, 28, 42] {
        if numbers.one_in(15) {
            line.put(first, numbers.among(&ALLOWANCES));
        }
    }
    line.put(30, numbers.among(&["TB", "TB", "TBA", "TBRM"]));
    line
}

pub fn terminus(numbers: &mut Numbers, minute: u64) -> Line {
    let mut line = Line::of("LT");
    line.put(3, numbers.among(&LOCATIONS));
    put_times(numbers, &mut line, minute);
    line.put(26, numbers.among(&["TF", "TF", "TFA"]));
    line
}
