//! Why a call refuses.

use std::fmt;

/// Why a call refuses, by the names and numbers of `include/lidar.h`.
///
/// Each call has its checks in a fixed order of its own, and the first that applies is told. A refusal
/// changes nothing in a lent slice.
///
/// ```
/// use lidar::Refusal;
///
/// let refusal = lidar::read_kitti_into(&[0; 17], &mut [], &mut []).unwrap_err();
/// assert_eq!(refusal, Refusal::NotWholeRecords);
/// assert_eq!(refusal.number(), 8);
/// assert_eq!(refusal.to_string(), "the KITTI data is not a multiple of 16 bytes");
/// ```
#[derive(Clone, Copy, Debug, PartialEq, Eq, Hash)]
#[non_exhaustive]
pub enum Refusal {
    /// 1: the data is longer than 2,147,483,647 bytes.
    TooLong,
    /// 2: Ouster: beams not 16, 32, 64 or 128, columns outside 1 to 64, or fewer elevations than beams.
    BadSettings,
    /// 3: the data is below 24 bytes (capture, LVX) or 28 (LVX2).
    TooShort,
    /// 4: the opening bytes are not those of the format.
    WrongMark,
    /// 5: LVX: the code at offset 20 is not 0xAC0EA767.
    WrongCode,
    /// 6: LVX: the data is below 29 bytes.
    HeaderTooShort,
    /// 7: Livox: the device section ends past the data.
    DevicesPastEnd,
    /// 8: KITTI: the length is not a multiple of 16 bytes.
    NotWholeRecords,
    /// 9: a capture has no payload on the reader's port.
    NoPayload,
    /// 10: a lent slice is too short. Carries the points needed: three numbers and one kind for each.
    NoRoom(usize),
    /// 11: no whole-millimetre Livox point to place, or no point of that rank.
    NotPlaceable,
    /// 12: placing: the pulse length is outside 1 to 1,000 micrometres.
    BadPulseLength,
    /// 13: placing: the point stands beyond 16 m either way.
    OutsideWindow,
}

impl Refusal {
    /// The number that the call gave back, 1 to 13.
    pub fn number(self) -> u8 {
        match self {
            Refusal::TooLong => 1,
            Refusal::BadSettings => 2,
            Refusal::TooShort => 3,
            Refusal::WrongMark => 4,
            Refusal::WrongCode => 5,
            Refusal::HeaderTooShort => 6,
            Refusal::DevicesPastEnd => 7,
            Refusal::NotWholeRecords => 8,
            Refusal::NoPayload => 9,
            Refusal::NoRoom(_) => 10,
            Refusal::NotPlaceable => 11,
            Refusal::BadPulseLength => 12,
            Refusal::OutsideWindow => 13,
        }
    }

    /// What a call's number says: nothing for 0, which is no refusal. `needed` is for 10 alone.
    pub(crate) fn told(number: u8, needed: usize) -> Result<(), Refusal> {
        Err(match number {
            0 => return Ok(()),
            1 => Refusal::TooLong,
            2 => Refusal::BadSettings,
            3 => Refusal::TooShort,
            4 => Refusal::WrongMark,
            5 => Refusal::WrongCode,
            6 => Refusal::HeaderTooShort,
            7 => Refusal::DevicesPastEnd,
            8 => Refusal::NotWholeRecords,
            9 => Refusal::NoPayload,
            10 => Refusal::NoRoom(needed),
            11 => Refusal::NotPlaceable,
            12 => Refusal::BadPulseLength,
            13 => Refusal::OutsideWindow,
            _ => panic!("liblidar.a gave the number {number}, which this crate does not know"),
        })
    }
}

impl fmt::Display for Refusal {
    fn fmt(&self, f: &mut fmt::Formatter<'_>) -> fmt::Result {
        f.write_str(match self {
            Refusal::TooLong => "the data is longer than 2147483647 bytes",
            Refusal::BadSettings => {
                "the Ouster settings are out of range: beams are 16, 32, 64 or 128, columns 1 to 64, \
                 with an elevation for each beam"
            }
            Refusal::TooShort => "the data is too short for the header of its format",
            Refusal::WrongMark => "the opening bytes are not those of the format",
            Refusal::WrongCode => "the LVX code at offset 20 is not 0xAC0EA767",
            Refusal::HeaderTooShort => "the LVX data is below 29 bytes",
            Refusal::DevicesPastEnd => "the Livox device section ends past the data",
            Refusal::NotWholeRecords => "the KITTI data is not a multiple of 16 bytes",
            Refusal::NoPayload => "the capture has no payload on the port",
            Refusal::NoRoom(needed) => {
                return write!(f, "a lent slice is too short: {needed} points need room");
            }
            Refusal::NotPlaceable => "there is no whole-millimetre Livox point of that rank",
            Refusal::BadPulseLength => "the pulse length is outside 1 to 1000 micrometres",
            Refusal::OutsideWindow => "the point stands beyond 16 m either way",
        })
    }
}

impl std::error::Error for Refusal {}

/// Why a call that allocates gives no points.
#[derive(Clone, Copy, Debug, PartialEq, Eq, Hash)]
#[non_exhaustive]
pub enum Error {
    /// The data was refused.
    Refused(Refusal),
    /// The data is good, but there is no memory for so many points. Livox frames may overlap, so that a
    /// file of a few megabytes can tell thousands of millions of points.
    NoMemory {
        /// The points that the data tells.
        points: usize,
    },
}

impl fmt::Display for Error {
    fn fmt(&self, f: &mut fmt::Formatter<'_>) -> fmt::Result {
        match self {
            Error::Refused(refusal) => refusal.fmt(f),
            Error::NoMemory { points } => {
                write!(f, "there is no memory for the {points} points of the data")
            }
        }
    }
}

impl std::error::Error for Error {}

impl From<Refusal> for Error {
    fn from(refusal: Refusal) -> Error {
        Error::Refused(refusal)
    }
}
