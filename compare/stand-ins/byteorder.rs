//! Stands in for the crate `byteorder`: the one read that lidar.rs asks of it.

use std::io::{Read, Result};

pub trait ByteOrder {
    fn f32(bytes: [u8; 4]) -> f32;
}

pub enum LittleEndian {}

impl ByteOrder for LittleEndian {
    fn f32(bytes: [u8; 4]) -> f32 {
        f32::from_le_bytes(bytes)
    }
}

pub trait ReadBytesExt: Read {
    fn read_f32<T: ByteOrder>(&mut self) -> Result<f32> {
        let mut bytes = [0; 4];
        self.read_exact(&mut bytes)?;
        Ok(T::f32(bytes))
    }
}

impl<R: Read + ?Sized> ReadBytesExt for R {}
