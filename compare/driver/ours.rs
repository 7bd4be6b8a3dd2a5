//! The calls of `include/lidar.h`, as safe functions over slices.

/// How C takes a reader: data, a slice for the numbers, one for the kinds, and two results.
type Reader<T> = unsafe extern "C" fn(
    *const u8,
    usize,
    *mut T,
    usize,
    *mut u8,
    usize,
    *mut usize,
    *mut usize,
) -> u8;

macro_rules! readers {
    ($($name:ident: $number:ty),* $(,)?) => {
        extern "C" {
            $(fn $name(
                data: *const u8,
                data_len: usize,
                numbers: *mut $number,
                numbers_len: usize,
                kinds: *mut u8,
                kinds_len: usize,
                points: *mut usize,
                frames: *mut usize,
            ) -> u8;)*
        }
    };
}

readers! {
    lidar_read_kitti: f32,
    lidar_read_kitti_bits: u32,
    lidar_read_velodyne: f32,
    lidar_decode_velodyne_packet: f32,
    lidar_read_lvx: f32,
    lidar_read_lvx2: f32,
    lidar_read_lvx_bits: u32,
    lidar_read_lvx2_bits: u32,
}

extern "C" {
    fn lidar_read_velodyne_as(
        data: *const u8,
        data_len: usize,
        savefile: bool,
        numbers: *mut f32,
        numbers_len: usize,
        kinds: *mut u8,
        kinds_len: usize,
        points: *mut usize,
        frames: *mut usize,
    ) -> u8;

    fn lidar_detect_velodyne_model(factory_byte: u8) -> u8;

    fn lidar_read_ouster_as(
        data: *const u8,
        data_len: usize,
        savefile: bool,
        columns_per_packet: usize,
        pixels_per_column: usize,
        lidar_port: u16,
        beam_altitudes: *const f32,
        beam_altitudes_len: usize,
        numbers: *mut f32,
        numbers_len: usize,
        kinds: *mut u8,
        kinds_len: usize,
        points: *mut usize,
        frames: *mut usize,
    ) -> u8;

    fn lidar_read_ouster(
        data: *const u8,
        data_len: usize,
        columns_per_packet: usize,
        pixels_per_column: usize,
        lidar_port: u16,
        beam_altitudes: *const f32,
        beam_altitudes_len: usize,
        numbers: *mut f32,
        numbers_len: usize,
        kinds: *mut u8,
        kinds_len: usize,
        points: *mut usize,
        frames: *mut usize,
    ) -> u8;

    fn lidar_os1_64(
        columns_per_packet: *mut usize,
        pixels_per_column: *mut usize,
        lidar_port: *mut u16,
        beam_altitudes: *mut f32,
    );

    fn lidar_os_128(
        columns_per_packet: *mut usize,
        pixels_per_column: *mut usize,
        lidar_port: *mut u16,
        beam_altitudes: *mut f32,
    );

    fn lidar_place_millimetres(
        x: i32,
        count: u32,
        datum: u32,
        pulse_length: u32,
        metres: *mut f32,
    ) -> u8;

    fn lidar_place_ten_millimetres(
        x: i16,
        count: u32,
        datum: u32,
        pulse_length: u32,
        metres: *mut f32,
    ) -> u8;

    fn lidar_place_in_file(
        data: *const u8,
        data_len: usize,
        lvx2: bool,
        rank: usize,
        count: u32,
        datum: u32,
        pulse_length: u32,
        metres: *mut f32,
    ) -> u8;

    fn lidar_pulses(count: u32, datum: u32) -> i32;

    fn lidar_stored_reading(
        data: *const u8,
        data_len: usize,
        lvx2: bool,
        rank: usize,
        kind: *mut u8,
        first: *mut i64,
        second: *mut i64,
        third: *mut i64,
    ) -> u8;

    fn lidar_payload_place_as(
        data: *const u8,
        data_len: usize,
        savefile: bool,
        port: u16,
        rank: usize,
        start: *mut usize,
        len: *mut usize,
        seconds: *mut u32,
        fraction: *mut u32,
        unit: *mut u8,
    ) -> u8;

    fn lidar_payload_place(
        data: *const u8,
        data_len: usize,
        port: u16,
        rank: usize,
        start: *mut usize,
        len: *mut usize,
        seconds: *mut u32,
        fraction: *mut u32,
        unit: *mut u8,
    ) -> u8;

    fn lidar_next_payload_as(
        data: *const u8,
        data_len: usize,
        savefile: bool,
        port: u16,
        at: *mut usize,
        start: *mut usize,
        len: *mut usize,
        seconds: *mut u32,
        fraction: *mut u32,
        unit: *mut u8,
    ) -> bool;

    fn lidar_next_payload(
        data: *const u8,
        data_len: usize,
        port: u16,
        at: *mut usize,
        start: *mut usize,
        len: *mut usize,
        seconds: *mut u32,
        fraction: *mut u32,
        unit: *mut u8,
    ) -> bool;
}

/// What a call gives back beside the slices.
#[derive(Clone, Copy, PartialEq, Eq)]
pub struct Answer {
    pub number: u8,
    pub points: usize,
    pub frames: usize,
}

impl std::fmt::Display for Answer {
    fn fmt(&self, f: &mut std::fmt::Formatter) -> std::fmt::Result {
        let Answer {
            number,
            points,
            frames,
        } = self;
        write!(f, "{number} (points {points}, frames {frames})")
    }
}

/// `points` and `frames` hold this before a call, so that one which is not written shows.
const UNWRITTEN: Answer = Answer {
    number: 255,
    points: 7_777_777_777_777_777_777,
    frames: 5_555_555_555_555_555_555,
};

/// Calls a reader.
fn read<T>(call: Reader<T>, data: &[u8], numbers: &mut [T], kinds: &mut [u8]) -> Answer {
    let mut answer = UNWRITTEN;
    // SAFETY: each pointer and length come from one slice, and borrows of mutable slices are apart.
    answer.number = unsafe {
        call(
            data.as_ptr(),
            data.len(),
            numbers.as_mut_ptr(),
            numbers.len(),
            kinds.as_mut_ptr(),
            kinds.len(),
            &mut answer.points,
            &mut answer.frames,
        )
    };
    answer
}

pub fn read_kitti(data: &[u8], numbers: &mut [f32], kinds: &mut [u8]) -> Answer {
    read(lidar_read_kitti, data, numbers, kinds)
}

pub fn read_kitti_bits(data: &[u8], bits: &mut [u32], kinds: &mut [u8]) -> Answer {
    read(lidar_read_kitti_bits, data, bits, kinds)
}

pub fn read_velodyne(data: &[u8], numbers: &mut [f32], kinds: &mut [u8]) -> Answer {
    read(lidar_read_velodyne, data, numbers, kinds)
}

pub fn decode_velodyne_packet(data: &[u8], numbers: &mut [f32], kinds: &mut [u8]) -> Answer {
    read(lidar_decode_velodyne_packet, data, numbers, kinds)
}

pub fn read_lvx(data: &[u8], numbers: &mut [f32], kinds: &mut [u8]) -> Answer {
    read(lidar_read_lvx, data, numbers, kinds)
}

pub fn read_lvx2(data: &[u8], numbers: &mut [f32], kinds: &mut [u8]) -> Answer {
    read(lidar_read_lvx2, data, numbers, kinds)
}

pub fn read_lvx_bits(data: &[u8], bits: &mut [u32], kinds: &mut [u8]) -> Answer {
    read(lidar_read_lvx_bits, data, bits, kinds)
}

pub fn read_lvx2_bits(data: &[u8], bits: &mut [u32], kinds: &mut [u8]) -> Answer {
    read(lidar_read_lvx2_bits, data, bits, kinds)
}

pub fn read_velodyne_as(
    savefile: bool,
    data: &[u8],
    numbers: &mut [f32],
    kinds: &mut [u8],
) -> Answer {
    let mut answer = UNWRITTEN;
    // SAFETY: as in read.
    answer.number = unsafe {
        lidar_read_velodyne_as(
            data.as_ptr(),
            data.len(),
            savefile,
            numbers.as_mut_ptr(),
            numbers.len(),
            kinds.as_mut_ptr(),
            kinds.len(),
            &mut answer.points,
            &mut answer.frames,
        )
    };
    answer
}

pub fn detect_velodyne_model(factory_byte: u8) -> u8 {
    // SAFETY: it takes a number.
    unsafe { lidar_detect_velodyne_model(factory_byte) }
}

/// The Ouster settings, with the elevations.
#[derive(Clone, Debug, PartialEq)]
pub struct OusterSettings {
    pub columns_per_packet: usize,
    pub pixels_per_column: usize,
    pub lidar_port: u16,
    pub beam_altitudes: Vec<f32>,
}

/// Without `savefile` the reading is the usual one.
pub fn read_ouster(
    settings: &OusterSettings,
    savefile: Option<bool>,
    data: &[u8],
    numbers: &mut [f32],
    kinds: &mut [u8],
) -> Answer {
    let mut answer = UNWRITTEN;
    let altitudes = &settings.beam_altitudes;
    // SAFETY: as in read.
    answer.number = unsafe {
        match savefile {
            Some(savefile) => lidar_read_ouster_as(
                data.as_ptr(),
                data.len(),
                savefile,
                settings.columns_per_packet,
                settings.pixels_per_column,
                settings.lidar_port,
                altitudes.as_ptr(),
                altitudes.len(),
                numbers.as_mut_ptr(),
                numbers.len(),
                kinds.as_mut_ptr(),
                kinds.len(),
                &mut answer.points,
                &mut answer.frames,
            ),
            None => lidar_read_ouster(
                data.as_ptr(),
                data.len(),
                settings.columns_per_packet,
                settings.pixels_per_column,
                settings.lidar_port,
                altitudes.as_ptr(),
                altitudes.len(),
                numbers.as_mut_ptr(),
                numbers.len(),
                kinds.as_mut_ptr(),
                kinds.len(),
                &mut answer.points,
                &mut answer.frames,
            ),
        }
    };
    answer
}

pub fn os1_64() -> OusterSettings {
    made_ready(lidar_os1_64, 64)
}

pub fn os_128() -> OusterSettings {
    made_ready(lidar_os_128, 128)
}

fn made_ready(
    call: unsafe extern "C" fn(*mut usize, *mut usize, *mut u16, *mut f32),
    elevations: usize,
) -> OusterSettings {
    let mut settings = OusterSettings {
        columns_per_packet: 7_777,
        pixels_per_column: 5_555,
        lidar_port: 3_333,
        // One more, which is not to be written.
        beam_altitudes: vec![1111.0; elevations + 1],
    };
    // SAFETY: there is room for the elevations, and the other pointers are of fields of a local.
    unsafe {
        call(
            &mut settings.columns_per_packet,
            &mut settings.pixels_per_column,
            &mut settings.lidar_port,
            settings.beam_altitudes.as_mut_ptr(),
        );
    }
    settings
}

/// What a call tells of a payload. Where there is none, all is 0.
#[derive(Clone, Copy, Debug, Default, PartialEq, Eq)]
pub struct Told {
    pub start: usize,
    pub len: usize,
    pub seconds: u32,
    pub fraction: u32,
    pub unit: u8,
}

/// What the numbers hold before a call, so that one which is not written shows.
const UNTOLD: Told = Told {
    start: 6_666_666_666_666_666_666,
    len: 4_444_444_444_444_444_444,
    seconds: 3_333_333_333,
    fraction: 2_222_222_222,
    unit: 111,
};

/// What a call by rank gives back.
#[derive(Clone, Copy, Debug, PartialEq, Eq)]
pub struct Ranked {
    pub number: u8,
    pub told: Told,
}

/// What a step gives back, with `at` as the call leaves it.
#[derive(Clone, Copy, Debug, PartialEq, Eq)]
pub struct Stepped {
    pub found: bool,
    pub at: usize,
    pub told: Told,
}

/// A call by rank. Without `savefile` the reading is the usual one.
pub fn payload_place(data: &[u8], savefile: Option<bool>, port: u16, rank: usize) -> Ranked {
    let mut told = UNTOLD;
    // SAFETY: pointer and length come from one slice, and the other pointers are of fields of a local.
    let number = unsafe {
        match savefile {
            Some(savefile) => lidar_payload_place_as(
                data.as_ptr(),
                data.len(),
                savefile,
                port,
                rank,
                &mut told.start,
                &mut told.len,
                &mut told.seconds,
                &mut told.fraction,
                &mut told.unit,
            ),
            None => lidar_payload_place(
                data.as_ptr(),
                data.len(),
                port,
                rank,
                &mut told.start,
                &mut told.len,
                &mut told.seconds,
                &mut told.fraction,
                &mut told.unit,
            ),
        }
    };
    Ranked { number, told }
}

/// A step from `at` on. Without `savefile` the reading is the usual one.
pub fn next_payload(data: &[u8], savefile: Option<bool>, port: u16, mut at: usize) -> Stepped {
    let mut told = UNTOLD;
    // SAFETY: as in payload_place.
    let found = unsafe {
        match savefile {
            Some(savefile) => lidar_next_payload_as(
                data.as_ptr(),
                data.len(),
                savefile,
                port,
                &mut at,
                &mut told.start,
                &mut told.len,
                &mut told.seconds,
                &mut told.fraction,
                &mut told.unit,
            ),
            None => lidar_next_payload(
                data.as_ptr(),
                data.len(),
                port,
                &mut at,
                &mut told.start,
                &mut told.len,
                &mut told.seconds,
                &mut told.fraction,
                &mut told.unit,
            ),
        }
    };
    Stepped { found, at, told }
}

/// What is asked beside the point: the count, the datum and the pulse length.
#[derive(Clone, Copy, Debug)]
pub struct Belt {
    pub count: u32,
    pub datum: u32,
    pub pulse_length: u32,
}

/// What stands in the caller's float before a placing, so that a write shows.
pub const NO_DISTANCE: u32 = 0x7FA5_5A5A;

/// The number, and the pattern of the caller's float after the call.
pub type Placed = (u8, u32);

fn placed(call: impl FnOnce(*mut f32) -> u8) -> Placed {
    let mut metres = f32::from_bits(NO_DISTANCE);
    let number = call(&mut metres);
    (number, metres.to_bits())
}

pub fn place_millimetres(x: i32, belt: Belt) -> Placed {
    // SAFETY: it writes to the float alone.
    placed(|metres| unsafe {
        lidar_place_millimetres(x, belt.count, belt.datum, belt.pulse_length, metres)
    })
}

pub fn place_ten_millimetres(x: i16, belt: Belt) -> Placed {
    // SAFETY: as above.
    placed(|metres| unsafe {
        lidar_place_ten_millimetres(x, belt.count, belt.datum, belt.pulse_length, metres)
    })
}

pub fn place_in_file(data: &[u8], lvx2: bool, rank: usize, belt: Belt) -> Placed {
    // SAFETY: the pointer and the length come from one slice.
    placed(|metres| unsafe {
        lidar_place_in_file(
            data.as_ptr(),
            data.len(),
            lvx2,
            rank,
            belt.count,
            belt.datum,
            belt.pulse_length,
            metres,
        )
    })
}

pub fn pulses(count: u32, datum: u32) -> i32 {
    // SAFETY: it takes numbers.
    unsafe { lidar_pulses(count, datum) }
}

/// A stored reading: the number, the kind and the three numbers.
pub type Stored = (u8, u8, [i64; 3]);

pub fn stored_reading(data: &[u8], lvx2: bool, rank: usize) -> Stored {
    let (mut kind, mut first, mut second, mut third) = (255, -7, -7, -7);
    // SAFETY: as above.
    let number = unsafe {
        lidar_stored_reading(
            data.as_ptr(),
            data.len(),
            lvx2,
            rank,
            &mut kind,
            &mut first,
            &mut second,
            &mut third,
        )
    };
    (number, kind, [first, second, third])
}
