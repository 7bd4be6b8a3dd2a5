//! Going through all payloads of a capture, with their times.

use crate::files::{as_savefile, capture};
use crate::timing::{medians, Way};
use crate::SIZE;
use std::fs;
use std::hint::black_box;
use std::path::Path;
use threecrate_io::lidar::payloads_of;

const PORT: u16 = 2368;

extern "C" {
    fn lidar_next_payload_as(
        data: *const u8,
        data_len: usize,
        savefile: bool,
        port: u16,
        at: *mut usize,
        start: *mut usize,
        len: *mut usize,
        seconds: *mut u32,
        fraction: *mut u32,
        unit: *mut u8,
    ) -> bool;

    #[cfg(libpcap)]
    fn libpcap_sum(
        path: *const std::ffi::c_char,
        port: u16,
        count: *mut u64,
        sum: *mut u64,
        times: *mut u64,
    ) -> std::ffi::c_int;
}

/// How many payloads there are, the sum of their lengths and first bytes, and that of their times in
/// microseconds: every way has to find the same, and to look at each payload and at its time.
#[derive(Clone, Copy, Default, Debug, PartialEq)]
pub struct Seen {
    count: u64,
    sum: u64,
    times: u64,
}

impl Seen {
    fn add(&mut self, payload: &[u8]) {
        self.count += 1;
        self.sum += payload.len() as u64 + u64::from(payload[0]);
    }
}

pub fn bench(file: &Path, rounds: usize) {
    println!("| the payloads of a capture | bytes each | MB/s | 10^6 payloads/s | ours = 1 |");
    println!("|---|---:|---:|---:|---:|");
    // What a Velodyne sends, and small payloads, where the records' headers count for more.
    for payload in [1206, 64] {
        rows(file, rounds, payload);
    }
}

fn rows(file: &Path, rounds: usize, payload: usize) {
    let for_rust = made(SIZE, payload);
    let savefile = as_savefile(&for_rust);
    fs::write(file, &savefile).expect("the capture could not be written");

    let seen = ours(&for_rust, false);
    let mut ways: Vec<Way<Seen>> = vec![
        (
            "our steps, the usual reading",
            Box::new(|| ours(&for_rust, false)),
        ),
        (
            "our steps, the savefile reading",
            Box::new(|| ours(&savefile, true)),
        ),
        (
            "the Rust, from bytes; it copies",
            // It tells no times.
            Box::new(|| Seen {
                times: seen.times,
                ..rust(&for_rust)
            }),
        ),
    ];
    #[cfg(libpcap)]
    ways.push(("libpcap, from a file in memory", Box::new(|| libpcap(file))));
    ways.push((
        "reading that file, and no more",
        Box::new(|| {
            black_box(fs::read(file).expect("the capture could not be read"));
            seen
        }),
    ));

    let times = medians(rounds, &seen, &ways);
    for ((name, _), time) in ways.iter().zip(&times) {
        println!(
            "| {name} | {payload} | {:.0} | {:.1} | {:.1} |",
            savefile.len() as f64 / 1e6 / time,
            seen.count as f64 / 1e6 / time,
            time / times[0]
        );
    }
}

/// Payloads of one byte each time, which differs from record to record.
pub fn made(size: usize, payload: usize) -> Vec<u8> {
    capture(size, PORT, |number| vec![number as u8; payload])
}

pub fn ours(data: &[u8], savefile: bool) -> Seen {
    let mut seen = Seen::default();
    let (mut at, mut start, mut len) = (0, 0, 0);
    let (mut seconds, mut fraction, mut unit) = (0, 0, 0);
    // SAFETY: pointer and length come from one slice, and the other pointers from locals.
    while unsafe {
        lidar_next_payload_as(
            data.as_ptr(),
            data.len(),
            savefile,
            PORT,
            &mut at,
            &mut start,
            &mut len,
            &mut seconds,
            &mut fraction,
            &mut unit,
        )
    } {
        seen.add(&data[start..start + len]);
        // The unit is 0.
        seen.times += u64::from(seconds) * 1_000_000 + u64::from(fraction) + u64::from(unit);
    }
    seen
}

fn rust(data: &[u8]) -> Seen {
    let mut seen = Seen::default();
    for payload in payloads_of(data, PORT).expect("a good capture") {
        seen.add(&payload);
    }
    seen
}

#[cfg(libpcap)]
fn libpcap(file: &Path) -> Seen {
    let path = std::ffi::CString::new(file.to_str().expect("a plain path")).expect("a plain path");
    let mut seen = Seen::default();
    // SAFETY: the path ends in a zero byte, and the other pointers are from a local.
    let opened = unsafe {
        libpcap_sum(
            path.as_ptr(),
            PORT,
            &mut seen.count,
            &mut seen.sum,
            &mut seen.times,
        )
    };
    assert_eq!(opened, 1, "libpcap cannot open the capture");
    seen
}
