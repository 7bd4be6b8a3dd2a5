//! Times by the processor time of this thread, so that other programs on the machine disturb them less.

use std::ffi::c_int;
use std::hint::black_box;

#[repr(C)]
struct Timespec {
    seconds: i64,
    nanoseconds: i64,
}

extern "C" {
    fn clock_gettime(clock: c_int, time: *mut Timespec) -> c_int;
}

const CLOCK_THREAD_CPUTIME_ID: c_int = 3;

/// In seconds, from some point on.
pub fn now() -> f64 {
    let mut time = Timespec {
        seconds: 0,
        nanoseconds: 0,
    };
    // SAFETY: the pointer is from a local of the type that the call has on x86-64 Linux.
    let got = unsafe { clock_gettime(CLOCK_THREAD_CPUTIME_ID, &mut time) };
    assert_eq!(got, 0, "this system does not tell a thread's time");
    time.seconds as f64 + time.nanoseconds as f64 / 1e9
}

/// A way to find something, and its name.
pub type Way<'a, T> = (&'a str, Box<dyn Fn() -> T + 'a>);

/// The median of each way's times, run in turn. Every way has to find the same. A round before the
/// first is not counted.
pub fn medians<T: PartialEq + std::fmt::Debug>(
    rounds: usize,
    found: &T,
    ways: &[Way<T>],
) -> Vec<f64> {
    let mut times = vec![Vec::new(); ways.len()];
    for round in 0..=rounds {
        for ((_, way), times) in ways.iter().zip(&mut times) {
            let start = now();
            let now_found = black_box(way());
            let time = now() - start;
            assert_eq!(now_found, *found);
            if round > 0 {
                times.push(time);
            }
        }
    }
    let median = |mut times: Vec<f64>| {
        times.sort_by(f64::total_cmp);
        times[times.len() / 2]
    };
    times.into_iter().map(median).collect()
}
