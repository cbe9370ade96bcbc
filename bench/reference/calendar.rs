//! Day numbers, dates and weekdays of the Gregorian calendar.

/// Days of a common year before each month.
const BEFORE: [i32; 12] = [0, 31, 59, 90, 120, 151, 181, 212, 243, 273, 304, 334];

pub fn is_leap(year: i32) -> bool {
    year % 4 == 0 && (year % 100 != 0 || year % 400 == 0)
}

pub fn month_length(year: i32, month: i32) -> i32 {
    match month {
        2 if is_leap(year) => 29,
        2 => 28,
        4 | 6 | 9 | 11 => 30,
        _ => 31,
    }
}

/// The day number of 1 January of a year from 1970 to 2107.
fn january_first(year: i32) -> i32 {
    365 * (year - 1970) + (year - 1969) / 4 - i32::from(year > 2100)
}

/// The day number of the first of a month.
pub fn month_first(year: i32, month: i32) -> i32 {
    if year == 1969 {
        return -31;
    }
    january_first(year) + BEFORE[month as usize - 1] + i32::from(month > 2 && is_leap(year))
}

/// Year, month and date of a day from -31 to 49,731.
pub fn date_of(day: i32) -> Option<(i32, i32, i32)> {
    if !(-31..=49731).contains(&day) {
        return None;
    }
    if day < 0 {
        return Some((1969, 12, day + 32));
    }
    let mut year = 1970 + day / 366;
    while january_first(year + 1) <= day {
        year += 1;
    }
    let mut month = 12;
    while month_first(year, month) > day {
        month -= 1;
    }
    Some((year, month, day - month_first(year, month) + 1))
}

/// The day number of a date in the months December 1969 to February 2106.
pub fn day_of(year: i32, month: i32, date: i32) -> Option<i32> {
    let known = match year {
        1969 => month == 12,
        1970..=2105 => (1..=12).contains(&month),
        2106 => month == 1 || month == 2,
        _ => false,
    };
    if !known || date < 1 || date > month_length(year, month) {
        return None;
    }
    Some(month_first(year, month) + date - 1)
}

/// 1 is Sunday, 7 is Saturday.
pub fn weekday(day: i32) -> i32 {
    (day + 4).rem_euclid(7) + 1
}

/// The last Sunday of a month.
pub fn last_sunday(year: i32, month: i32) -> i32 {
    let last = month_first(year, month) + month_length(year, month) - 1;
    last - (weekday(last) - 1)
}

/// The first Sunday of a month.
pub fn first_sunday(year: i32, month: i32) -> i32 {
    let first = month_first(year, month);
    first + (8 - weekday(first)) % 7
}
