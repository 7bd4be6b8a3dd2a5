//! A point, and reading points into a vector.

use crate::ffi::Answer;
use crate::{Error, Refusal};

/// The kind that a reader lays for a point whose three numbers are x, y and z.
pub const CARTESIAN: u8 = 1;

/// The kind that a reader lays for a point whose three numbers are a range and two angles.
pub const POLAR: u8 = 2;

/// A point as the file tells it. No sine is taken.
///
/// What the angles of a polar point are depends on the reader:
///
/// | reader | `range` | `elevation` | `azimuth` |
/// |---|---|---|---|
/// | Velodyne | metres | degrees above the horizon | degrees |
/// | Ouster | metres | degrees above the horizon, of the beam's setting | **radians** |
/// | Livox, spherical | metres | degrees **from the zenith**, 0 is up | degrees |
///
/// KITTI points, and Livox points that are not spherical, are Cartesian.
#[derive(Clone, Copy, Debug, PartialEq)]
pub enum Point {
    /// In metres.
    #[allow(missing_docs)]
    Cartesian { x: f32, y: f32, z: f32 },
    /// A range in metres and two angles, whose meaning is in the table above.
    #[allow(missing_docs)]
    Polar {
        range: f32,
        elevation: f32,
        azimuth: f32,
    },
}

impl Point {
    /// The point of a kind, [`CARTESIAN`] or [`POLAR`], and its three numbers. `None` for any other kind.
    pub fn new(kind: u8, numbers: [f32; 3]) -> Option<Point> {
        let [first, second, third] = numbers;
        match kind {
            CARTESIAN => Some(Point::Cartesian {
                x: first,
                y: second,
                z: third,
            }),
            POLAR => Some(Point::Polar {
                range: first,
                elevation: second,
                azimuth: third,
            }),
            _ => None,
        }
    }
}

/// The points and frames that a reader tells, or its refusal.
pub(crate) fn told(answer: Answer) -> Result<Answer, Refusal> {
    Refusal::told(answer.number, answer.points)?;
    Ok(answer)
}

/// Reads into vectors: asks how many points there are, makes room once, and reads.
pub(crate) fn collect(
    read: impl Fn(&mut [f32], &mut [u8]) -> Answer,
) -> Result<(Vec<Point>, usize), Error> {
    let needed = match told(read(&mut [], &mut [])) {
        Err(Refusal::NoRoom(needed)) => needed,
        Err(refusal) => return Err(refusal.into()),
        Ok(answer) => return Ok((Vec::new(), answer.frames)),
    };
    let mut numbers = room(needed, 3)?;
    let mut kinds = room(needed, 1)?;
    let mut points = Vec::new();
    reserve(&mut points, needed, 1)?;
    let answer = told(read(&mut numbers, &mut kinds))?;
    points.extend(kinds.iter().zip(numbers.chunks_exact(3)).map(|(kind, n)| {
        Point::new(*kind, [n[0], n[1], n[2]]).expect("a reader lays kind 1 or 2")
    }));
    Ok((points, answer.frames))
}

/// Room for `each` values a point. What a file needs is not to be trusted: it may be more than there is.
fn room<T: Clone + Default>(points: usize, each: usize) -> Result<Vec<T>, Error> {
    let mut values = Vec::new();
    reserve(&mut values, points, each)?;
    values.resize(points * each, T::default());
    Ok(values)
}

fn reserve<T>(values: &mut Vec<T>, points: usize, each: usize) -> Result<(), Error> {
    points
        .checked_mul(each)
        .and_then(|count| values.try_reserve_exact(count).ok())
        .ok_or(Error::NoMemory { points })
}

#[cfg(test)]
mod tests {
    use super::*;

    #[test]
    fn kinds_below_and_above_give_no_point() {
        let numbers = [1.0, 2.0, 3.0];
        assert_eq!(Point::new(0, numbers), None);
        assert_eq!(
            Point::new(1, numbers),
            Some(Point::Cartesian {
                x: 1.0,
                y: 2.0,
                z: 3.0
            })
        );
        assert_eq!(
            Point::new(2, numbers),
            Some(Point::Polar {
                range: 1.0,
                elevation: 2.0,
                azimuth: 3.0
            })
        );
        assert_eq!(Point::new(3, numbers), None);
    }

    #[test]
    fn room_that_cannot_be_had_is_an_error() {
        // Three times this passes 64 bits.
        let points = usize::MAX / 3 + 1;
        assert_eq!(room::<f32>(points, 3), Err(Error::NoMemory { points }));
        // The count fits and the bytes do not.
        let points = usize::MAX / 3;
        assert_eq!(room::<f32>(points, 3), Err(Error::NoMemory { points }));
        assert_eq!(room::<u8>(0, 1), Ok(vec![]));
        assert_eq!(room::<u8>(1, 1), Ok(vec![0]));
        assert_eq!(room::<f32>(2, 3), Ok(vec![0.0; 6]));
    }
}
