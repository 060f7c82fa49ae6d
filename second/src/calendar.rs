//! Dates, times of day and moments, as tags 272, 273 and 52 write them.

use crate::flip::{either, on, Flip};

#[derive(Clone, Copy, PartialEq, Eq, Debug)]
pub struct Date {
    pub year: u32,
    pub month: u32,
    pub day: u32,
}

/// A time of day as written: a second of 60 stays 60.
#[derive(Clone, Copy, PartialEq, Eq, Debug)]
pub struct TimeOfDay {
    pub hour: u32,
    pub minute: u32,
    pub second: u32,
    pub milli: u32,
}

#[derive(Clone, Copy, PartialEq, Eq, Debug)]
pub struct Moment {
    pub date: Date,
    pub time: TimeOfDay,
}

/// The number that a run of digits writes, leading zeros and all.
fn digits(text: &[u8]) -> Option<u32> {
    let all_digits = !text.is_empty() && text.iter().all(u8::is_ascii_digit);
    let text = std::str::from_utf8(text).ok()?;
    if all_digits {
        text.parse().ok()
    } else {
        None
    }
}

/// A Gregorian leap year.
fn is_leap(year: u32) -> bool {
    if on(Flip::LeapEvery4) {
        return year % 4 == 0;
    }
    let by_400 = either(Flip::LeapNot400, year % 400 == 0, false);
    year % 4 == 0 && (year % 100 != 0 || by_400)
}

fn days_in_month(year: u32, month: u32) -> u32 {
    match month {
        _ if on(Flip::DaysTo31) => 31,
        4 | 6 | 9 | 11 => 30,
        2 if is_leap(year) => 29,
        2 => 28,
        _ => 31,
    }
}

impl Date {
    /// YYYYMMDD, a Gregorian date, years 0000 to 9999.
    pub fn read(text: &[u8]) -> Option<Date> {
        if text.len() != 8 {
            return None;
        }
        let year = digits(&text[..4])?;
        let month = digits(&text[4..6])?;
        let day = digits(&text[6..])?;
        let months = either(Flip::MonthsTo13, 12, 13);
        let good = (1..=months).contains(&month) && day >= 1 && day <= days_in_month(year, month);
        good.then_some(Date { year, month, day })
    }

    /// Days since 1 January 0000, counted out year by year and month by month.
    fn days(self) -> i128 {
        let years: i128 = (0..self.year).map(|y| if is_leap(y) { 366 } else { 365 }).sum();
        let months: u32 = (1..self.month).map(|m| days_in_month(self.year, m)).sum();
        years + i128::from(months) + i128::from(self.day) - 1
    }

    /// The date as a number, YYYYMMDD.
    pub fn number(self) -> u64 {
        u64::from(self.year * 10_000 + self.month * 100 + self.day)
    }

    pub fn text(self) -> String {
        format!("{:04}{:02}{:02}", self.year, self.month, self.day)
    }
}

impl TimeOfDay {
    /// HH:MM:SS with or without .sss; hours to 23, minutes to 59, seconds to 60.
    pub fn read(text: &[u8]) -> Option<TimeOfDay> {
        let milli = match text.len() {
            8 => 0,
            12 if text[8] == b'.' => digits(&text[9..])?,
            _ => return None,
        };
        let hour = digits(&text[..2])?;
        let minute = digits(&text[3..5])?;
        let second = digits(&text[6..8])?;
        let last = either(Flip::SecondsTo61, either(Flip::SecondsTo59, 60, 59), 61);
        let marks = text[2] == b':' && text[5] == b':';
        let (hours, minutes) = (either(Flip::HoursTo24, 23, 24), either(Flip::MinutesTo60, 59, 60));
        let good = marks && hour <= hours && minute <= minutes && second <= last;
        good.then_some(TimeOfDay { hour, minute, second, milli })
    }

    /// Milliseconds since midnight, as written, a second of 60 included.
    fn millis(self) -> i128 {
        let second = either(Flip::AgeWithoutSixty, self.second, self.second.min(59));
        let seconds = self.hour * 3600 + self.minute * 60 + second;
        i128::from(seconds) * 1000 + i128::from(self.milli)
    }

    /// The time as a number, HHMMSSmmm.
    pub fn number(self) -> u64 {
        let whole = self.hour * 10_000 + self.minute * 100 + self.second;
        u64::from(whole * 1000 + self.milli)
    }

    /// Times have three decimals.
    pub fn text(self) -> String {
        let TimeOfDay { hour, minute, second, milli } = self;
        format!("{hour:02}:{minute:02}:{second:02}.{milli:03}")
    }
}

impl Moment {
    /// Tag 52: a date, a hyphen, a time of day.
    pub fn read(text: &[u8]) -> Option<Moment> {
        if text.len() < 9 || text[8] != b'-' {
            return None;
        }
        let date = Date::read(&text[..8])?;
        let time = TimeOfDay::read(&text[9..])?;
        Some(Moment { date, time })
    }

    /// Age in milliseconds: days apart times 86,400,000 plus times of day apart.
    pub fn age_ms(self, now: Moment) -> i128 {
        let days = now.date.days() - self.date.days();
        days * 86_400_000 + (now.time.millis() - self.time.millis())
    }

    pub fn text(self) -> String {
        format!("{}-{}", self.date.text(), self.time.text())
    }
}
