//! Stands in for the crate `threecrate-io`: its module `lidar` is the original file itself,
//! and the module `registry` has only the trait that the original implements.

pub mod registry {
    use std::path::Path;
    use threecrate_core::{Point3f, PointCloud, Result};

    pub trait PointCloudReader {
        fn read_point_cloud(&self, path: &Path) -> Result<PointCloud<Point3f>>;
        fn can_read(&self, path: &Path) -> bool;
        fn format_name(&self) -> &'static str;
    }
}

/// Where each payload starts that the original pushes. `compare/run` has it noted here.
pub mod places {
    use std::cell::RefCell;

    thread_local! {
        static STARTS: RefCell<Vec<usize>> = const { RefCell::new(Vec::new()) };
    }

    pub fn note(start: usize) {
        STARTS.with_borrow_mut(|starts| starts.push(start));
    }

    /// Those noted since the last time.
    pub fn take() -> Vec<usize> {
        STARTS.take()
    }
}

/// Each Livox point as the file stores it. `compare/run` has it noted here.
pub mod stored {
    use std::cell::RefCell;

    /// The data type, and the bytes; after those of a smaller point come zeros.
    #[derive(Clone, Copy)]
    pub struct StoredPoint {
        pub data_type: u8,
        pub bytes: [u8; 14],
    }

    thread_local! {
        static POINTS: RefCell<Vec<StoredPoint>> = const { RefCell::new(Vec::new()) };
    }

    pub fn note(data_type: u8, point: &[u8]) {
        let mut bytes = [0; 14];
        bytes[..point.len()].copy_from_slice(point);
        POINTS.with_borrow_mut(|points| points.push(StoredPoint { data_type, bytes }));
    }

    /// Those noted since the last time.
    pub fn take() -> Vec<StoredPoint> {
        POINTS.take()
    }
}

/// How many Livox frames are entered. `compare/run` has them counted here.
pub mod frames {
    use std::cell::Cell;

    /// From this place on the sums of the original wrap, and it reads the start of the file.
    const WRAPS: usize = usize::MAX - 7;

    thread_local! {
        static ENTERED: Cell<usize> = const { Cell::new(0) };
    }

    /// Counts a frame, unless it lies where the original is not asked.
    pub fn enter(place: usize) -> bool {
        if place >= WRAPS {
            return false;
        }
        ENTERED.set(ENTERED.get() + 1);
        true
    }

    /// Those counted since the last time.
    pub fn take() -> usize {
        ENTERED.take()
    }
}

/// A vector of points that is used again, so that its pages are there. `bench/run` has one variant of the
/// original take it.
pub mod kept {
    use std::cell::RefCell;
    use threecrate_core::Point3f;

    thread_local! {
        static POINTS: RefCell<Vec<Point3f>> = const { RefCell::new(Vec::new()) };
    }

    pub fn take() -> Vec<Point3f> {
        POINTS.take()
    }

    pub fn give_back(mut points: Vec<Point3f>) {
        points.clear();
        POINTS.replace(points);
    }
}

// The original, which the build puts beside this file. It is no part of the repository.
pub mod lidar;
