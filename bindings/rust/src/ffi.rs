//! The calls of `include/lidar.h`, over slices and references. All `unsafe` code of the crate is here.
//!
//! `tools/header` holds the declarations to the header: names, order and types. The header asks of each
//! pointer that it is not null, is aligned, and points to as much as its length says, and that nothing
//! written overlaps anything else. A slice or a reference is so, whatever its length; and while one is
//! borrowed as mutable, no other borrow overlaps it.

extern "C" {
    fn lidar_read_kitti_bits(
        data: *const u8,
        data_len: usize,
        bits: *mut u32,
        bits_len: usize,
        kinds: *mut u8,
        kinds_len: usize,
        points: *mut usize,
        frames: *mut usize,
    ) -> u8;

    fn lidar_read_lvx_bits(
        data: *const u8,
        data_len: usize,
        bits: *mut u32,
        bits_len: usize,
        kinds: *mut u8,
        kinds_len: usize,
        points: *mut usize,
        frames: *mut usize,
    ) -> u8;

    fn lidar_read_lvx2_bits(
        data: *const u8,
        data_len: usize,
        bits: *mut u32,
        bits_len: usize,
        kinds: *mut u8,
        kinds_len: usize,
        points: *mut usize,
        frames: *mut usize,
    ) -> u8;

    fn lidar_read_velodyne_as(
        data: *const u8,
        data_len: usize,
        savefile: bool,
        numbers: *mut f32,
        numbers_len: usize,
        kinds: *mut u8,
        kinds_len: usize,
        points: *mut usize,
        frames: *mut usize,
    ) -> u8;

    fn lidar_read_velodyne(
        data: *const u8,
        data_len: usize,
        numbers: *mut f32,
        numbers_len: usize,
        kinds: *mut u8,
        kinds_len: usize,
        points: *mut usize,
        frames: *mut usize,
    ) -> u8;

    fn lidar_decode_velodyne_packet(
        payload: *const u8,
        payload_len: usize,
        numbers: *mut f32,
        numbers_len: usize,
        kinds: *mut u8,
        kinds_len: usize,
        points: *mut usize,
        frames: *mut usize,
    ) -> u8;

    fn lidar_detect_velodyne_model(factory_byte: u8) -> u8;

    fn lidar_read_ouster_as(
        data: *const u8,
        data_len: usize,
        savefile: bool,
        columns_per_packet: usize,
        pixels_per_column: usize,
        lidar_port: u16,
        beam_altitudes: *const f32,
        beam_altitudes_len: usize,
        numbers: *mut f32,
        numbers_len: usize,
        kinds: *mut u8,
        kinds_len: usize,
        points: *mut usize,
        frames: *mut usize,
    ) -> u8;

    fn lidar_read_ouster(
        data: *const u8,
        data_len: usize,
        columns_per_packet: usize,
        pixels_per_column: usize,
        lidar_port: u16,
        beam_altitudes: *const f32,
        beam_altitudes_len: usize,
        numbers: *mut f32,
        numbers_len: usize,
        kinds: *mut u8,
        kinds_len: usize,
        points: *mut usize,
        frames: *mut usize,
    ) -> u8;

    fn lidar_os1_64(
        columns_per_packet: *mut usize,
        pixels_per_column: *mut usize,
        lidar_port: *mut u16,
        beam_altitudes: *mut [f32; 64],
    );

    fn lidar_os_128(
        columns_per_packet: *mut usize,
        pixels_per_column: *mut usize,
        lidar_port: *mut u16,
        beam_altitudes: *mut [f32; 128],
    );

    fn lidar_payload_place_as(
        data: *const u8,
        data_len: usize,
        savefile: bool,
        port: u16,
        rank: usize,
        start: *mut usize,
        len: *mut usize,
        seconds: *mut u32,
        fraction: *mut u32,
        unit: *mut u8,
    ) -> u8;

    fn lidar_payload_place(
        data: *const u8,
        data_len: usize,
        port: u16,
        rank: usize,
        start: *mut usize,
        len: *mut usize,
        seconds: *mut u32,
        fraction: *mut u32,
        unit: *mut u8,
    ) -> u8;

    fn lidar_next_payload_as(
        data: *const u8,
        data_len: usize,
        savefile: bool,
        port: u16,
        at: *mut usize,
        start: *mut usize,
        len: *mut usize,
        seconds: *mut u32,
        fraction: *mut u32,
        unit: *mut u8,
    ) -> bool;

    fn lidar_next_payload(
        data: *const u8,
        data_len: usize,
        port: u16,
        at: *mut usize,
        start: *mut usize,
        len: *mut usize,
        seconds: *mut u32,
        fraction: *mut u32,
        unit: *mut u8,
    ) -> bool;

    fn lidar_place_millimetres(
        x: i32,
        count: u32,
        datum: u32,
        pulse_length: u32,
        metres: *mut f32,
    ) -> u8;

    fn lidar_place_ten_millimetres(
        x: i16,
        count: u32,
        datum: u32,
        pulse_length: u32,
        metres: *mut f32,
    ) -> u8;

    fn lidar_place_in_file(
        data: *const u8,
        data_len: usize,
        lvx2: bool,
        rank: usize,
        count: u32,
        datum: u32,
        pulse_length: u32,
        metres: *mut f32,
    ) -> u8;

    fn lidar_pulses(count: u32, datum: u32) -> i32;

    fn lidar_stored_reading(
        data: *const u8,
        data_len: usize,
        lvx2: bool,
        rank: usize,
        stored: *mut u8,
        first: *mut i64,
        second: *mut i64,
        third: *mut i64,
    ) -> u8;
}

/// What a reader tells beside the slices.
#[derive(Default)]
pub struct Answer {
    pub number: u8,
    pub points: usize,
    pub frames: usize,
}

/// The answer of a reader that is given where points and frames go.
fn answer(call: impl FnOnce(*mut usize, *mut usize) -> u8) -> Answer {
    let mut answer = Answer::default();
    answer.number = call(&mut answer.points, &mut answer.frames);
    answer
}

type ByPattern = unsafe extern "C" fn(
    *const u8,
    usize,
    *mut u32,
    usize,
    *mut u8,
    usize,
    *mut usize,
    *mut usize,
) -> u8;

/// Calls a reader that lays patterns. A pattern is what an f32 is made of, so a NaN is exact.
fn by_pattern(call: ByPattern, data: &[u8], numbers: &mut [f32], kinds: &mut [u8]) -> Answer {
    // SAFETY: slices and references, as said above; f32 has the size and alignment of u32, and every
    // pattern is an f32.
    answer(|points, frames| unsafe {
        call(
            data.as_ptr(),
            data.len(),
            numbers.as_mut_ptr().cast(),
            numbers.len(),
            kinds.as_mut_ptr(),
            kinds.len(),
            points,
            frames,
        )
    })
}

pub fn read_kitti(data: &[u8], numbers: &mut [f32], kinds: &mut [u8]) -> Answer {
    by_pattern(lidar_read_kitti_bits, data, numbers, kinds)
}

pub fn read_lvx(data: &[u8], numbers: &mut [f32], kinds: &mut [u8]) -> Answer {
    by_pattern(lidar_read_lvx_bits, data, numbers, kinds)
}

pub fn read_lvx2(data: &[u8], numbers: &mut [f32], kinds: &mut [u8]) -> Answer {
    by_pattern(lidar_read_lvx2_bits, data, numbers, kinds)
}

/// Without `savefile` the reading is the usual one, as for the other captures below.
pub fn read_velodyne(
    data: &[u8],
    savefile: Option<bool>,
    numbers: &mut [f32],
    kinds: &mut [u8],
) -> Answer {
    let (bytes, bytes_len) = (data.as_ptr(), data.len());
    let (laid, laid_len) = (numbers.as_mut_ptr(), numbers.len());
    let (kinds, kinds_len) = (kinds.as_mut_ptr(), kinds.len());
    // SAFETY: slices and references, as said above.
    answer(|points, frames| unsafe {
        match savefile {
            Some(savefile) => lidar_read_velodyne_as(
                bytes, bytes_len, savefile, laid, laid_len, kinds, kinds_len, points, frames,
            ),
            None => lidar_read_velodyne(
                bytes, bytes_len, laid, laid_len, kinds, kinds_len, points, frames,
            ),
        }
    })
}

pub fn decode_velodyne_packet(payload: &[u8], numbers: &mut [f32], kinds: &mut [u8]) -> Answer {
    // SAFETY: slices and references, as said above.
    answer(|points, frames| unsafe {
        lidar_decode_velodyne_packet(
            payload.as_ptr(),
            payload.len(),
            numbers.as_mut_ptr(),
            numbers.len(),
            kinds.as_mut_ptr(),
            kinds.len(),
            points,
            frames,
        )
    })
}

pub fn detect_velodyne_model(factory_byte: u8) -> u8 {
    // SAFETY: it takes a number alone.
    unsafe { lidar_detect_velodyne_model(factory_byte) }
}

/// The settings but for the elevations.
#[derive(Default, Clone, Copy)]
pub struct Sensor {
    pub columns_per_packet: usize,
    pub pixels_per_column: usize,
    pub lidar_port: u16,
}

pub fn read_ouster(
    data: &[u8],
    savefile: Option<bool>,
    sensor: Sensor,
    beam_altitudes: &[f32],
    numbers: &mut [f32],
    kinds: &mut [u8],
) -> Answer {
    let Sensor {
        columns_per_packet: columns,
        pixels_per_column: pixels,
        lidar_port: port,
    } = sensor;
    let (bytes, bytes_len) = (data.as_ptr(), data.len());
    let (beams, beams_len) = (beam_altitudes.as_ptr(), beam_altitudes.len());
    let (laid, laid_len) = (numbers.as_mut_ptr(), numbers.len());
    let (kinds, kinds_len) = (kinds.as_mut_ptr(), kinds.len());
    // SAFETY: slices and references, as said above.
    answer(|points, frames| unsafe {
        match savefile {
            Some(savefile) => lidar_read_ouster_as(
                bytes, bytes_len, savefile, columns, pixels, port, beams, beams_len, laid,
                laid_len, kinds, kinds_len, points, frames,
            ),
            None => lidar_read_ouster(
                bytes, bytes_len, columns, pixels, port, beams, beams_len, laid, laid_len, kinds,
                kinds_len, points, frames,
            ),
        }
    })
}

/// The settings of an OS1-64, and its elevations.
pub fn os1_64() -> (Sensor, [f32; 64]) {
    made_ready(lidar_os1_64)
}

/// The settings of a sensor of 128 beams, and its elevations.
pub fn os_128() -> (Sensor, [f32; 128]) {
    made_ready(lidar_os_128)
}

fn made_ready<const BEAMS: usize>(
    call: unsafe extern "C" fn(*mut usize, *mut usize, *mut u16, *mut [f32; BEAMS]),
) -> (Sensor, [f32; BEAMS]) {
    let (mut sensor, mut beam_altitudes) = (Sensor::default(), [0.0; BEAMS]);
    // SAFETY: references, as said above, the last to as many elevations as the call's type says.
    unsafe {
        call(
            &mut sensor.columns_per_packet,
            &mut sensor.pixels_per_column,
            &mut sensor.lidar_port,
            &mut beam_altitudes,
        );
    }
    (sensor, beam_altitudes)
}

/// Where a payload stands, and when its record was captured, the unit by its number.
#[derive(Debug, Default, PartialEq)]
pub struct Place {
    pub start: usize,
    pub len: usize,
    pub seconds: u32,
    pub fraction: u32,
    pub unit: u8,
}

/// A call by rank: the number. All of `place` is written, with 0 where there is no payload.
pub fn payload_place(
    data: &[u8],
    savefile: Option<bool>,
    port: u16,
    rank: usize,
    place: &mut Place,
) -> u8 {
    let (bytes, bytes_len) = (data.as_ptr(), data.len());
    let Place {
        start,
        len,
        seconds,
        fraction,
        unit,
    } = place;
    // SAFETY: a slice and references, as said above.
    unsafe {
        match savefile {
            Some(savefile) => lidar_payload_place_as(
                bytes, bytes_len, savefile, port, rank, start, len, seconds, fraction, unit,
            ),
            None => lidar_payload_place(
                bytes, bytes_len, port, rank, start, len, seconds, fraction, unit,
            ),
        }
    }
}

/// Whether there is a next payload. `at` is where the walk stands, and moves on. All of `place` is written,
/// with 0 where there is no payload.
pub fn next_payload(
    data: &[u8],
    savefile: Option<bool>,
    port: u16,
    at: &mut usize,
    place: &mut Place,
) -> bool {
    let (bytes, bytes_len) = (data.as_ptr(), data.len());
    let Place {
        start,
        len,
        seconds,
        fraction,
        unit,
    } = place;
    // SAFETY: a slice and references, as said above.
    unsafe {
        match savefile {
            Some(savefile) => lidar_next_payload_as(
                bytes, bytes_len, savefile, port, at, start, len, seconds, fraction, unit,
            ),
            None => lidar_next_payload(
                bytes, bytes_len, port, at, start, len, seconds, fraction, unit,
            ),
        }
    }
}

/// The belt: count, datum and pulse length, in the order of the calls.
#[derive(Clone, Copy)]
pub struct Belt {
    pub count: u32,
    pub datum: u32,
    pub pulse_length: u32,
}

/// The number, and the distance, which stays 0.0 at a refusal.
pub fn place_millimetres(x: i32, belt: Belt) -> (u8, f32) {
    let mut metres = 0.0;
    // SAFETY: numbers and a reference, as said above.
    let number = unsafe {
        lidar_place_millimetres(x, belt.count, belt.datum, belt.pulse_length, &mut metres)
    };
    (number, metres)
}

pub fn place_ten_millimetres(x: i16, belt: Belt) -> (u8, f32) {
    let mut metres = 0.0;
    // SAFETY: numbers and a reference, as said above.
    let number = unsafe {
        lidar_place_ten_millimetres(x, belt.count, belt.datum, belt.pulse_length, &mut metres)
    };
    (number, metres)
}

pub fn place_in_file(data: &[u8], lvx2: bool, rank: usize, belt: Belt) -> (u8, f32) {
    let mut metres = 0.0;
    // SAFETY: a slice, numbers and a reference, as said above.
    let number = unsafe {
        lidar_place_in_file(
            data.as_ptr(),
            data.len(),
            lvx2,
            rank,
            belt.count,
            belt.datum,
            belt.pulse_length,
            &mut metres,
        )
    };
    (number, metres)
}

pub fn pulses(count: u32, datum: u32) -> i32 {
    // SAFETY: it takes numbers alone.
    unsafe { lidar_pulses(count, datum) }
}

/// The number, how the reading is stored, and its three numbers.
pub fn stored_reading(data: &[u8], lvx2: bool, rank: usize) -> (u8, u8, [i64; 3]) {
    let (mut stored, mut first, mut second, mut third) = (0, 0, 0, 0);
    // SAFETY: a slice and references, as said above.
    let number = unsafe {
        lidar_stored_reading(
            data.as_ptr(),
            data.len(),
            lvx2,
            rank,
            &mut stored,
            &mut first,
            &mut second,
            &mut third,
        )
    };
    (number, stored, [first, second, third])
}

#[cfg(test)]
mod tests {
    use super::*;

    /// Where there is no payload, all is written, and a magic of nanoseconds is not told.
    #[test]
    fn no_payload_is_told_as_zeros() {
        let sample = std::fs::read("../../samples/hall_velodyne.pcap").unwrap();
        // The sample's lengths are little-endian, and the magic says so to one reading alone.
        let nanoseconds = |magic: [u8; 4]| [&magic, &sample[4..]].concat();
        let rust = nanoseconds([0xA1, 0xB2, 0x3C, 0x4D]);
        let savefile = nanoseconds([0x4D, 0x3C, 0xB2, 0xA1]);
        for (data, reading) in [(&rust, None), (&rust, Some(false)), (&savefile, Some(true))] {
            let none = |data: &[u8], port, rank, place_at, number| {
                let mut place = canaries();
                assert_eq!(payload_place(data, reading, port, rank, &mut place), number);
                assert_eq!(place, Place::default());
                let (mut place, mut at) = (canaries(), place_at);
                assert!(!next_payload(data, reading, port, &mut at, &mut place));
                assert_eq!((place, at), (Place::default(), place_at));
            };
            let mut place = canaries();
            assert_eq!(payload_place(data, reading, 2368, 7, &mut place), 0);
            assert_eq!((place.len, place.unit), (1206, 1));
            // After the last, on another port, in a file without records, and in files that are refused.
            none(data, 2368, 8, data.len(), 0);
            none(data, 2369, 0, 0, 0);
            none(&data[..24], 0, 0, 0, 0);
            none(&data[..23], 0, 0, 0, 3);
            none(&data[1..], 0, 0, 0, 4);
        }
    }

    /// What no call tells of the sample.
    fn canaries() -> Place {
        Place {
            start: 7,
            len: 7,
            seconds: 7,
            fraction: 7,
            unit: 7,
        }
    }
}
