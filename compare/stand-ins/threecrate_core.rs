//! Stands in for the crate `threecrate_core`: what lidar.rs uses of it.

#[derive(Debug)]
pub enum Error {
    /// The file could not be read, which says nothing about its format.
    Io(std::io::Error),
    /// The reader refused the data.
    InvalidData(String),
}

impl From<std::io::Error> for Error {
    fn from(error: std::io::Error) -> Self {
        Error::Io(error)
    }
}

pub type Result<T> = std::result::Result<T, Error>;

#[derive(Debug, Clone, Copy)]
pub struct Point3f {
    pub x: f32,
    pub y: f32,
    pub z: f32,
}

impl Point3f {
    pub fn new(x: f32, y: f32, z: f32) -> Self {
        Self { x, y, z }
    }
}

#[derive(Debug)]
pub struct PointCloud<T> {
    pub points: Vec<T>,
}

impl<T> PointCloud<T> {
    pub fn from_points(points: Vec<T>) -> Self {
        Self { points }
    }
}
