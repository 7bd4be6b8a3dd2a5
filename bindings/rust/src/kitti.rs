//! KITTI velodyne files.

use crate::point::{collect, told};
use crate::{ffi, Error, Point, Refusal};

/// Reads a KITTI velodyne file: records of four floats, of which the fourth is dropped. Every point is
/// Cartesian. All floats, NaN too, are those of the file bit for bit.
///
/// ```
/// use lidar::Point;
///
/// let file: Vec<u8> = [1.0f32, 2.0, 3.0, 0.5].iter().flat_map(|x| x.to_le_bytes()).collect();
/// assert_eq!(lidar::read_kitti(&file)?, [Point::Cartesian { x: 1.0, y: 2.0, z: 3.0 }]);
/// # Ok::<(), lidar::Error>(())
/// ```
pub fn read_kitti(data: &[u8]) -> Result<Vec<Point>, Error> {
    Ok(collect(|numbers, kinds| ffi::read_kitti(data, numbers, kinds))?.0)
}

/// Reads a KITTI velodyne file into lent slices, three numbers and one kind a point, and tells how many
/// points there are. What lies beyond them stays.
///
/// ```
/// use lidar::{Refusal, CARTESIAN};
///
/// let file: Vec<u8> = [1.0f32, 2.0, 3.0, 0.5].iter().flat_map(|x| x.to_le_bytes()).collect();
/// let (mut numbers, mut kinds) = ([0.0; 6], [0; 2]);
/// assert_eq!(lidar::read_kitti_into(&file, &mut numbers, &mut kinds)?, 1);
/// assert_eq!(numbers, [1.0, 2.0, 3.0, 0.0, 0.0, 0.0]);
/// assert_eq!(kinds, [CARTESIAN, 0]);
///
/// // With too little room the points needed are told, and nothing is written.
/// assert_eq!(lidar::read_kitti_into(&file, &mut [], &mut []), Err(Refusal::NoRoom(1)));
/// # Ok::<(), Refusal>(())
/// ```
pub fn read_kitti_into(
    data: &[u8],
    numbers: &mut [f32],
    kinds: &mut [u8],
) -> Result<usize, Refusal> {
    Ok(told(ffi::read_kitti(data, numbers, kinds))?.points)
}
