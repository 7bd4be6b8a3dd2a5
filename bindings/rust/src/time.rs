//! When a record was captured, as its capture states it.

use std::fmt;
use std::time::Duration;

/// What the fraction of a [`Timestamp`] counts. The capture's opening bytes say it, alike in both readings.
#[derive(Clone, Copy, Debug, PartialEq, Eq, Hash)]
pub enum TimeUnit {
    /// First bytes `d4 c3 b2 a1` or `a1 b2 c3 d4`.
    Microseconds,
    /// First bytes `4d 3c b2 a1` or `a1 b2 3c 4d`.
    Nanoseconds,
}

impl TimeUnit {
    /// The unit of a number of `include/lidar.h`.
    pub(crate) fn told(number: u8) -> TimeUnit {
        match number {
            0 => TimeUnit::Microseconds,
            1 => TimeUnit::Nanoseconds,
            _ => panic!("liblidar.a told the time unit {number}, which this crate does not know"),
        }
    }

    /// The nanoseconds in one.
    fn nanoseconds(self) -> u32 {
        match self {
            TimeUnit::Microseconds => 1_000,
            TimeUnit::Nanoseconds => 1,
        }
    }
}

impl fmt::Display for TimeUnit {
    fn fmt(&self, f: &mut fmt::Formatter<'_>) -> fmt::Result {
        f.write_str(match self {
            TimeUnit::Microseconds => "microseconds",
            TimeUnit::Nanoseconds => "nanoseconds",
        })
    }
}

/// When a record was captured: its two numbers as they are stored, and what the second one counts.
#[derive(Clone, Copy, Debug, PartialEq, Eq, Hash)]
pub struct Timestamp {
    /// Since 1970-01-01 00:00 UTC.
    pub seconds: u32,
    /// The fraction of a second. No check is made of it: it may be a second or more.
    pub fraction: u32,
    /// What the fraction counts.
    pub unit: TimeUnit,
}

impl Timestamp {
    /// The time since 1970-01-01 00:00 UTC. Where the fraction is a second or more, it is not known which
    /// time was meant, and none is told.
    ///
    /// ```
    /// use lidar::{TimeUnit, Timestamp};
    /// use std::time::{Duration, UNIX_EPOCH};
    ///
    /// let unit = TimeUnit::Microseconds;
    /// let time = Timestamp { seconds: 1_700_000_000, fraction: 250_000, unit };
    /// let since = time.since_epoch()?;
    /// assert_eq!(since, Duration::from_millis(1_700_000_000_250));
    /// println!("{:?}", UNIX_EPOCH + since);
    ///
    /// let beyond = Timestamp { fraction: 1_000_000, ..time }.since_epoch().unwrap_err();
    /// assert_eq!(beyond.to_string(), "the fraction is 1000000 microseconds, a second or more");
    /// # Ok::<(), lidar::FractionBeyondSecond>(())
    /// ```
    pub fn since_epoch(self) -> Result<Duration, FractionBeyondSecond> {
        let Timestamp {
            seconds,
            fraction,
            unit,
        } = self;
        match fraction.checked_mul(unit.nanoseconds()) {
            Some(nanoseconds @ 0..=999_999_999) => Ok(Duration::new(seconds.into(), nanoseconds)),
            _ => Err(FractionBeyondSecond { fraction, unit }),
        }
    }
}

/// The fraction of a [`Timestamp`] is a second or more.
#[derive(Clone, Copy, Debug, PartialEq, Eq, Hash)]
pub struct FractionBeyondSecond {
    /// The fraction as it is stored.
    pub fraction: u32,
    /// What it counts.
    pub unit: TimeUnit,
}

impl fmt::Display for FractionBeyondSecond {
    fn fmt(&self, f: &mut fmt::Formatter<'_>) -> fmt::Result {
        let FractionBeyondSecond { fraction, unit } = self;
        write!(f, "the fraction is {fraction} {unit}, a second or more")
    }
}

impl std::error::Error for FractionBeyondSecond {}

#[cfg(test)]
mod tests {
    use super::*;

    #[test]
    #[should_panic(expected = "liblidar.a told the time unit 2")]
    fn a_unit_that_is_not_known_stops() {
        TimeUnit::told(2);
    }
}
