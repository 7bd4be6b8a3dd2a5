//! Times as people read them.

use lidar::{TimeUnit, Timestamp};

/// The date and the time of day in UTC, with all the digits of the unit. A fraction of a second or more
/// stands beside it, as it is stored.
pub fn utc(time: Timestamp) -> String {
    let (days, seconds) = (time.seconds / 86_400, time.seconds % 86_400);
    let [year, month, day] = date(days);
    let [hour, minute, second] = [seconds / 3600, seconds / 60 % 60, seconds % 60];
    let whole = format!("{year}-{month:02}-{day:02} {hour:02}:{minute:02}:{second:02}");
    match (time.since_epoch(), time.unit) {
        (Ok(since), TimeUnit::Microseconds) => format!("{whole}.{:06} UTC", since.subsec_micros()),
        (Ok(since), TimeUnit::Nanoseconds) => format!("{whole}.{:09} UTC", since.subsec_nanos()),
        (Err(beyond), _) => format!("{whole} UTC and {} {}", beyond.fraction, beyond.unit),
    }
}

/// The year, month and day that come so many days after 1970-01-01.
fn date(days: u32) -> [u32; 3] {
    let (mut year, mut left) = (1970, days);
    while left >= 365 + leap_days(year) {
        left -= 365 + leap_days(year);
        year += 1;
    }
    let february = 28 + leap_days(year);
    let mut month = 1;
    for length in [31, february, 31, 30, 31, 30, 31, 31, 30, 31, 30] {
        if left < length {
            break;
        }
        left -= length;
        month += 1;
    }
    [year, month, left + 1]
}

fn leap_days(year: u32) -> u32 {
    u32::from(year % 4 == 0 && (year % 100 != 0 || year % 400 == 0))
}

#[cfg(test)]
mod tests {
    use super::*;

    #[test]
    fn dates_heed_leap_years() {
        let utc = |seconds| {
            utc(Timestamp {
                seconds,
                fraction: 0,
                unit: TimeUnit::Microseconds,
            })
        };
        for (seconds, text) in [
            (0, "1970-01-01 00:00:00"),
            (86_399, "1970-01-01 23:59:59"),
            (86_400, "1970-01-02 00:00:00"),
            (31_535_999, "1970-12-31 23:59:59"),
            (31_536_000, "1971-01-01 00:00:00"),
            (68_169_600, "1972-02-29 00:00:00"),
            (951_782_399, "2000-02-28 23:59:59"),
            (951_782_400, "2000-02-29 00:00:00"),
            (951_868_800, "2000-03-01 00:00:00"),
            (978_220_800, "2000-12-31 00:00:00"),
            (978_307_200, "2001-01-01 00:00:00"),
            (1_700_000_000, "2023-11-14 22:13:20"),
            (4_107_542_399, "2100-02-28 23:59:59"),
            (4_107_542_400, "2100-03-01 00:00:00"),
            (u32::MAX, "2106-02-07 06:28:15"),
        ] {
            assert_eq!(utc(seconds), format!("{text}.000000 UTC"));
        }
    }

    #[test]
    fn fractions_have_the_digits_of_their_unit() {
        use TimeUnit::*;
        for (fraction, unit, text) in [
            (1, Microseconds, ".000001 UTC"),
            (999_999, Microseconds, ".999999 UTC"),
            (1_000_000, Microseconds, " UTC and 1000000 microseconds"),
            (u32::MAX, Microseconds, " UTC and 4294967295 microseconds"),
            (1, Nanoseconds, ".000000001 UTC"),
            (1_000_000, Nanoseconds, ".001000000 UTC"),
            (999_999_999, Nanoseconds, ".999999999 UTC"),
            (
                1_000_000_000,
                Nanoseconds,
                " UTC and 1000000000 nanoseconds",
            ),
        ] {
            let time = Timestamp {
                seconds: 1_700_000_000,
                fraction,
                unit,
            };
            assert_eq!(utc(time), format!("2023-11-14 22:13:20{text}"));
        }
    }
}
