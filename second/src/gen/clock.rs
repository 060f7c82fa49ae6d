//! Moments as milliseconds since 1 January 0000, and their text, for aiming calls.

use super::rng::Rng;
use crate::calendar::Moment;
use crate::days::{civil, day_of, ALL_DAYS};

pub const DAY_MS: i64 = 86_400_000;
/// The last millisecond of 31 December 9999.
const LAST_MS: i64 = ALL_DAYS * DAY_MS - 1;

/// The milliseconds of a held moment, as written, a second of 60 included.
pub fn ms_of(moment: &Moment) -> i64 {
    let (date, time) = (moment.date, moment.time);
    let day = day_of(i64::from(date.year), i64::from(date.month), i64::from(date.day));
    let seconds = i64::from(time.hour) * 3600 + i64::from(time.minute) * 60 + i64::from(time.second);
    day * DAY_MS + seconds * 1000 + i64::from(time.milli)
}

/// A moment's text with three decimals; kept inside the years 0000 to 9999.
pub fn text(ms: i64) -> String {
    let ms = ms.clamp(0, LAST_MS);
    let (year, month, day) = civil(ms / DAY_MS);
    format!("{year:04}{month:02}{day:02}-{}", time_text(ms % DAY_MS))
}

fn time_text(ms: i64) -> String {
    let seconds = ms / 1000;
    let (hour, minute, second) = (seconds / 3600, seconds / 60 % 60, seconds % 60);
    format!("{hour:02}:{minute:02}:{second:02}.{:03}", ms % 1000)
}

/// The same moment written with a second of 60, where its second is 0.
pub fn text_with_sixty(ms: i64) -> String {
    let earlier = text(ms - 1000);
    let ends_minute = ms >= 1000 && earlier.get(15..17) == Some("59");
    if ends_minute {
        format!("{}60{}", &earlier[..15], &earlier[17..])
    } else {
        text(ms)
    }
}

/// A moment in one of the ways to write it that keep its age, where there are several.
pub fn some_text(rng: &mut Rng, ms: i64) -> String {
    let text = if rng.chance(30) { text_with_sixty(ms) } else { text(ms) };
    match text.strip_suffix(".000") {
        Some(short) if rng.chance(50) => String::from(short),
        _ => text,
    }
}
