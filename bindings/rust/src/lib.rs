//! Reads lidar files: KITTI, Velodyne and Ouster captures, and Livox LVX and LVX2.
//!
//! The readers are those of threecrate's `lidar.rs`, bit for bit up to where it takes sines. Each is
//! proved in Rattle to meet its contract, and this crate calls it through `include/lidar.h`. What is
//! here beside it is not proved: it passes slices on, and makes vectors and names of what is told.
//!
//! Each reader has a form that returns a vector and one, `.._into`, that fills lent slices: three
//! numbers a point, and a kind a point, [`CARTESIAN`] or [`POLAR`]. Those on captures have a second
//! form, `.._as`, that names the [`Reading`].
//!
//! ```
//! let file = std::fs::read("../../samples/case_on_belt.lvx2")?;
//! let read = lidar::read_lvx2(&file)?;
//! println!("{} points in {} frames", read.points.len(), read.frames);
//! # assert_eq!((read.points.len(), read.frames), (900, 4));
//! # Ok::<(), Box<dyn std::error::Error>>(())
//! ```
//!
//! No call needs anything to be tested first: what cannot be read is a [`Refusal`].

#![deny(unsafe_code)]
#![warn(missing_docs)]

#[allow(unsafe_code)]
mod ffi;

mod capture;
mod kitti;
mod livox;
mod ouster;
mod placing;
mod point;
mod refusal;
mod time;
mod velodyne;

pub use capture::{payload, payload_as, payloads, payloads_as, Payload, Payloads, Reading};
pub use kitti::{read_kitti, read_kitti_into};
pub use livox::{
    read_lvx, read_lvx2, read_lvx2_into, read_lvx_into, stored_reading, Form, LivoxCounts,
    LivoxPoints, StoredReading,
};
pub use ouster::{
    read_ouster, read_ouster_as, read_ouster_into, read_ouster_into_as, OusterSettings,
};
pub use placing::{place, place_in_file, pulses, BeltCount, BeltDatum, BeltPulses, PulseLength};
pub use point::{Point, CARTESIAN, POLAR};
pub use refusal::{Error, Refusal};
pub use time::{FractionBeyondSecond, TimeUnit, Timestamp};
pub use velodyne::{
    decode_velodyne_packet, decode_velodyne_packet_into, detect_velodyne_model, read_velodyne,
    read_velodyne_as, read_velodyne_into, read_velodyne_into_as, VelodyneModel,
};
