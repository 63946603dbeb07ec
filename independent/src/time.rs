//! T: moments in seconds since 1970-01-01.

use std::io::Write;

use crate::number::decimal;

const FIRST_YEAR: u64 = 1970;
const DAY: u64 = 86_400;

/// "Text: exactly 14 digits YYYYMMDDHHmmSS, a real Gregorian moment in range,
/// second 0 to 59; or 1 to 10 digits of seconds."
pub fn read(token: &[u8]) -> Option<u32> {
    let seconds = if token.len() == 14 { read_moment(token)? } else { decimal(token)? };
    u32::try_from(seconds).ok()
}

/// "Prints 14 digits."
pub fn print(seconds: u32, out: &mut Vec<u8>) {
    let seconds = u64::from(seconds);
    let (days, of_day) = (seconds / DAY, seconds % DAY);
    // A year has at most 366 days, so this year is not too late.
    let mut year = FIRST_YEAR + days / 366;
    while days_before_year(year + 1) <= days {
        year += 1;
    }
    let mut day = days - days_before_year(year);
    let mut month = 1;
    while day >= days_of_month(year, month) {
        day -= days_of_month(year, month);
        month += 1;
    }
    let (hour, minute, second) = (of_day / 3600, of_day / 60 % 60, of_day % 60);
    // Writing to a vector cannot fail.
    let _ = write!(out, "{year:04}{month:02}{:02}{hour:02}{minute:02}{second:02}", day + 1);
}

fn read_moment(token: &[u8]) -> Option<u64> {
    let part = |from, to| decimal(&token[from..to]);
    let (year, month, day) = (part(0, 4)?, part(4, 6)?, part(6, 8)?);
    let (hour, minute, second) = (part(8, 10)?, part(10, 12)?, part(12, 14)?);
    let real = year >= FIRST_YEAR
        && (1..=12).contains(&month)
        && (1..=days_of_month(year, month)).contains(&day)
        && hour < 24
        && minute < 60
        && second < 60;
    if !real {
        return None;
    }
    let days_before_month: u64 = (1..month).map(|month| days_of_month(year, month)).sum();
    let days = days_before_year(year) + days_before_month + day - 1;
    Some(days * DAY + hour * 3600 + minute * 60 + second)
}

fn is_leap(year: u64) -> bool {
    year.is_multiple_of(4) && (!year.is_multiple_of(100) || year.is_multiple_of(400))
}

fn days_of_month(year: u64, month: u64) -> u64 {
    match month {
        2 => 28 + u64::from(is_leap(year)),
        4 | 6 | 9 | 11 => 30,
        _ => 31,
    }
}

/// Days from 1970-01-01 to the first day of a year not before 1970.
fn days_before_year(year: u64) -> u64 {
    let leaps_to = |year: u64| year / 4 - year / 100 + year / 400;
    365 * (year - FIRST_YEAR) + leaps_to(year - 1) - leaps_to(FIRST_YEAR - 1)
}
