//! Dates by their numbers, the days from 1 January 1960 on.

use crate::records::Window;

const LENGTHS: [u8; 12] = [31, 28, 31, 30, 31, 30, 31, 31, 30, 31, 30, 31];

/// Day number of January 1 of the year with these two digits.
const YEAR_START: [u16; 100] = {
    let mut table = [0u16; 100];
    let mut year = 0; // since 1960; each fourth is a leap year, 2000 too
    let mut day = 0u16;
    while year < 100 {
        table[(year + 60) % 100] = day;
        day += if year % 4 == 0 { 366 } else { 365 };
        year += 1;
    }
    table
};

/// Days before the month, in a common year.
const MONTH_START: [u16; 12] = {
    let mut table = [0u16; 12];
    let mut i = 1;
    while i < 12 {
        table[i] = table[i - 1] + LENGTHS[i - 1] as u16;
        i += 1;
    }
    table
};

fn two(a: u8, b: u8) -> Option<usize> {
    let (a, b) = (a.wrapping_sub(b'0'), b.wrapping_sub(b'0'));
    if a <= 9 && b <= 9 {
        Some(a as usize * 10 + b as usize)
    } else {
        None
    }
}

fn day_of(yy: usize, mm: usize, dd: usize) -> Option<u16> {
    if mm == 0 || mm > 12 || dd == 0 {
        return None;
    }
    let leap = yy % 4 == 0;
    let length = LENGTHS[mm - 1] as usize + (leap && mm == 2) as usize;
    if dd > length {
        return None;
    }
    Some(YEAR_START[yy] + MONTH_START[mm - 1] + (leap && mm > 2) as u16 + dd as u16 - 1)
}

pub fn from_yymmdd(c: &[u8]) -> Option<u16> {
    day_of(two(c[0], c[1])?, two(c[2], c[3])?, two(c[4], c[5])?)
}

pub fn from_ddmmyy(c: &[u8]) -> Option<u16> {
    day_of(two(c[4], c[5])?, two(c[2], c[3])?, two(c[0], c[1])?)
}

fn date(day: u16) -> (u8, u8, u8) {
    let mut year = (day / 366) as usize;
    let start = |year: usize| YEAR_START[(year + 60) % 100];
    while year < 99 && start(year + 1) <= day {
        year += 1;
    }
    let yy = (year + 60) % 100;
    let leap = (yy % 4 == 0) as u16;
    let mut left = day - YEAR_START[yy];
    let mut month = 0;
    loop {
        let length = LENGTHS[month] as u16 + if month == 1 { leap } else { 0 };
        if left < length {
            return (yy as u8, month as u8 + 1, left as u8 + 1);
        }
        left -= length;
        month += 1;
    }
}

fn digits(n: u8) -> [u8; 2] {
    [b'0' + n / 10, b'0' + n % 10]
}

pub fn yymmdd(day: u16) -> [u8; 6] {
    let (y, m, d) = date(day);
    let (y, m, d) = (digits(y), digits(m), digits(d));
    [y[0], y[1], m[0], m[1], d[0], d[1]]
}

pub fn ddmmyy(day: u16) -> [u8; 6] {
    let n = yymmdd(day);
    [n[4], n[5], n[2], n[3], n[0], n[1]]
}

/// The yymmdd of every day of the window, made once.
pub struct Names {
    first: u16,
    names: Vec<[u8; 6]>,
}

impl Names {
    pub fn of(window: Window) -> Names {
        Names {
            first: window.first,
            names: (window.first..=window.last).map(yymmdd).collect(),
        }
    }

    #[inline]
    pub fn get(&self, day: u16) -> &[u8; 6] {
        &self.names[(day - self.first) as usize]
    }
}

#[inline]
pub fn weekday(day: u16) -> u32 {
    (day as u32 + 4) % 7
}

#[inline]
pub fn week(day: u16) -> u16 {
    ((day as u32 + 4) / 7) as u16
}
