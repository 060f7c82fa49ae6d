//! Days counted from 1 January 0000 by formula, for the layout and for aiming calls. The keeper
//! itself counts days out year by year (`calendar`).

/// Days of the years 0000 to 9999.
pub const ALL_DAYS: i64 = 3_652_425;

/// The day of a date.
pub fn day_of(year: i64, month: i64, day: i64) -> i64 {
    let year = if month <= 2 { year - 1 } else { year };
    let era = year.div_euclid(400);
    let year_of_era = year - era * 400;
    let in_year = (153 * ((month + 9) % 12) + 2) / 5 + day - 1;
    era * 146_097 + year_of_era * 365 + year_of_era / 4 - year_of_era / 100 + in_year + 60
}

/// Year, month and day of a day.
pub fn civil(day: i64) -> (i64, i64, i64) {
    if day < 60 {
        return if day < 31 { (0, 1, day + 1) } else { (0, 2, day - 30) };
    }
    let from_march = day - 60;
    let (era, in_era) = (from_march / 146_097, from_march % 146_097);
    let year_of_era = (in_era - in_era / 1_460 + in_era / 36_524 - in_era / 146_096) / 365;
    let in_year = in_era - (365 * year_of_era + year_of_era / 4 - year_of_era / 100);
    let from_march = (5 * in_year + 2) / 153;
    let day = in_year - (153 * from_march + 2) / 5 + 1;
    let month = if from_march < 10 { from_march + 3 } else { from_march - 9 };
    (400 * era + year_of_era + i64::from(month <= 2), month, day)
}
