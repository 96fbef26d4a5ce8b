//! Dates by their numbers: the days from 1 January 1960 on, up to 31 December 2059.

/// The number of the last date.
pub const LAST: usize = 36_524;

const FIRST_YEAR: usize = 1960;
const MONTHS: usize = 12;

fn days_in_month(year: usize, month: usize) -> usize {
    match month {
        4 | 6 | 9 | 11 => 30,
        // From 1960 to 2059 each fourth year is a leap year, 2000 too.
        2 if year % 4 == 0 => 29,
        2 => 28,
        _ => 31,
    }
}

fn days_in_year(year: usize) -> usize {
    (1..=MONTHS).map(|month| days_in_month(year, month)).sum()
}

/// The number of the date that these six digits are, by year, month and day.
pub fn number_of(yymmdd: &str) -> Option<usize> {
    if yymmdd.len() != 6 || !yymmdd.bytes().all(|digit| digit.is_ascii_digit()) {
        return None;
    }
    let pair = |first: usize| yymmdd[first..first + 2].parse::<usize>().ok();
    let (year, month, day) = (pair(0)?, pair(2)?, pair(4)?);
    let year = if year < 60 { 2000 + year } else { 1900 + year };
    if month < 1 || MONTHS < month || day < 1 || days_in_month(year, month) < day {
        return None;
    }
    let years: usize = (FIRST_YEAR..year).map(days_in_year).sum();
    let months: usize = (1..month).map(|past| days_in_month(year, past)).sum();
    Some(years + months + day - 1)
}

/// The six digits of the date with this number, by year, month and day.
pub fn yymmdd_of(number: usize) -> String {
    let (mut year, mut month, mut rest) = (FIRST_YEAR, 1, number);
    while rest >= days_in_year(year) {
        rest -= days_in_year(year);
        year += 1;
    }
    while rest >= days_in_month(year, month) {
        rest -= days_in_month(year, month);
        month += 1;
    }
    format!("{:02}{month:02}{:02}", year % 100, rest + 1)
}

/// The weekday, Monday as 0: 1 January 1960 was a Friday.
pub fn weekday_of(number: usize) -> usize {
    (number + 4) % 7
}
