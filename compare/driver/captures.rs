//! Captures: the payloads in each reading with their times, found by rank and by steps.

use crate::capture_files;
use crate::long::{untouched, TOO_LONG};
use crate::original::{self, Original};
use crate::ours::{self, Ranked, Stepped, Told};
use crate::random::Random;
use crate::tally::Tally;
use crate::words::{self, Payload, Reading};

/// The Rust's reading, named and as the usual one, against the original, which tells no times: these are
/// held to the paper's words.
pub fn compare(original: &Original, seed: u64, files: u64) -> Tally {
    let mut tally = Tally::new("captures", seed);
    for_each_file(
        &mut tally,
        seed,
        files,
        Reading::Rust,
        |data, ports, random| {
            let told = original.payloads(data, ports);
            for (&port, told) in std::iter::zip(ports, told) {
                let expected = Expected {
                    number: told.as_ref().err().copied().unwrap_or(0),
                    payloads: with_times(data, port, told.as_deref().unwrap_or(&[]))?,
                };
                for savefile in [Some(false), None] {
                    let call = Call {
                        data,
                        reading: Reading::Rust,
                        savefile,
                        port,
                    };
                    call.hold(&expected, random)?;
                }
            }
            Ok(())
        },
    );
    tally.beside("the lengths around refusal 1", long_data(Reading::Rust));
    tally
}

/// The savefile reading, which the original does not have, against the paper's words.
pub fn compare_savefile(seed: u64, files: u64) -> Tally {
    let mut tally = Tally::new("captures as savefiles", seed);
    for_each_file(
        &mut tally,
        seed,
        files,
        Reading::Savefile,
        |data, ports, random| {
            for &port in ports {
                let expected = Expected {
                    number: words::number(data),
                    payloads: words::payloads(data, Reading::Savefile, port, 0),
                };
                let call = Call {
                    data,
                    reading: Reading::Savefile,
                    savefile: Some(true),
                    port,
                };
                call.hold(&expected, random)?;
            }
            Ok(())
        },
    );
    tally.beside("the lengths around refusal 1", long_data(Reading::Savefile));
    tally
}

fn for_each_file(
    tally: &mut Tally,
    seed: u64,
    files: u64,
    reading: Reading,
    compare: impl Fn(&[u8], &[u16], &mut Random) -> Result<(), String>,
) {
    for case in 0..files {
        let mut random = Random::of_case(seed, case);
        let mut capture = capture_files::file(&mut random, case, reading);
        capture.state_times(&mut random);
        tally.file(case, &capture.data, |data| {
            // A generator of its own, so that a shorter file is tried in the same way.
            let mut random = Random::of_case(!seed, case);
            // A file's bytes may start at any address. A walk whose place wraps around would read what
            // lies before them, and zeros are records that lead back into the data.
            let start = 32 + random.below(16);
            let placed = [&vec![0; start], data].concat();
            compare(&placed[start..], &capture.ports, &mut random)
        });
    }
}

/// The original's payloads with the times by the paper's words, which have to find the same bytes in the
/// same places.
pub fn with_times(
    data: &[u8],
    port: u16,
    originals: &[original::Payload],
) -> Result<Vec<Payload>, String> {
    let payloads = words::payloads(data, Reading::Rust, port, 0);
    let same = |(payload, original): (&Payload, &original::Payload)| {
        payload.place.start == original.start && data[payload.place.clone()] == original.bytes
    };
    if payloads.len() == originals.len() && std::iter::zip(&payloads, originals).all(same) {
        Ok(payloads)
    } else {
        Err(format!("port {port}: the words and the original differ"))
    }
}

/// What is to be told of a payload, or that there is none.
pub fn told(payload: Option<&Payload>) -> Told {
    payload.map_or(Told::default(), |payload| Told {
        start: payload.place.start,
        len: payload.place.len(),
        seconds: payload.seconds,
        fraction: payload.fraction,
        unit: u8::from(payload.nanoseconds),
    })
}

/// The step from a place to a payload, which leads to the end of its record. Without one, the place stays.
fn stepped(at: usize, payload: Option<&Payload>) -> Stepped {
    Stepped {
        found: payload.is_some(),
        at: payload.map_or(at, |payload| payload.record_end),
        told: told(payload),
    }
}

/// What a capture means for a port.
struct Expected {
    number: u8,
    payloads: Vec<Payload>,
}

struct Call<'a> {
    data: &'a [u8],
    reading: Reading,
    /// How the reading is named, if it is.
    savefile: Option<bool>,
    port: u16,
}

impl Call<'_> {
    fn hold(&self, expected: &Expected, random: &mut Random) -> Result<(), String> {
        self.hold_ranks(expected, random)
            .and_then(|()| self.hold_steps(expected, random))
            .and_then(|()| self.hold_any_step(random))
            .map_err(|what| {
                let reading = match self.savefile {
                    Some(savefile) => format!("savefile {savefile}"),
                    None => "the usual reading".to_string(),
                };
                format!("port {}, {reading}: {what}", self.port)
            })
    }

    /// Some ranks, the last, the one beyond it, and some far beyond.
    fn hold_ranks(&self, expected: &Expected, random: &mut Random) -> Result<(), String> {
        let count = expected.payloads.len();
        let mut ranks: Vec<usize> = (0..count.min(4)).collect();
        if count > 4 {
            ranks.extend([random.below(count), random.below(count), count - 1]);
        }
        ranks.extend([count, count + 1 + random.below(9), usize::MAX]);
        for rank in ranks {
            let want = Ranked {
                number: expected.number,
                told: told(expected.payloads.get(rank)),
            };
            let got = ours::payload_place(self.data, self.savefile, self.port, rank);
            if got != want {
                return Err(format!("rank {rank} gives {got:?} and not {want:?}"));
            }
        }
        Ok(())
    }

    /// From the first payload to the last, and once more at the end.
    fn hold_steps(&self, expected: &Expected, random: &mut Random) -> Result<(), String> {
        // Anything in the file header means the first record.
        let mut at = random.pick(&[0, 0, 1, 8, 16, 23, 24]);
        for (rank, payload) in expected.payloads.iter().enumerate() {
            let want = stepped(at, Some(payload));
            self.hold_step(at, want)
                .map_err(|what| format!("payload {rank}: {what}"))?;
            at = want.at;
        }
        for _ in 0..2 {
            self.hold_step(at, stepped(at, None))
                .map_err(|what| format!("after the last payload: {what}"))?;
        }
        Ok(())
    }

    /// From a place that need not be a record's, against the paper's words.
    fn hold_any_step(&self, random: &mut Random) -> Result<(), String> {
        let at = match random.below(4) {
            0 => usize::MAX - random.below(40),
            1 => self.data.len().saturating_sub(random.below(70)),
            _ => random.below(self.data.len() + 40),
        };
        let payloads = words::payloads(self.data, self.reading, self.port, at);
        self.hold_step(at, stepped(at, payloads.first()))
    }

    fn hold_step(&self, at: usize, want: Stepped) -> Result<(), String> {
        let got = ours::next_payload(self.data, self.savefile, self.port, at);
        if got == want {
            Ok(())
        } else {
            Err(format!("the step from {at} gives {got:?} and not {want:?}"))
        }
    }
}

/// One record as long as the data allows, around refusal 1, which the original does not have, and records
/// around the longest datagram.
fn long_data(reading: Reading) -> Result<(), String> {
    const UDP: usize = 40 + 14 + 20;
    let data = untouched(TOO_LONG + 1)?;
    let most_first = [0xa1, 0xb2, 0x3c, 0x4d];
    let (savefile, in_order, seconds, fraction): (_, fn(u32) -> [u8; 4], _, _) = match reading {
        Reading::Rust => (false, u32::to_le_bytes, 0x6745_2301, 0xdebc_0a00),
        Reading::Savefile => (true, u32::to_be_bytes, 0x0123_4567, 0x000a_bcde),
    };
    data[..4].copy_from_slice(&most_first);
    data[24..32].copy_from_slice(&[0x01, 0x23, 0x45, 0x67, 0x00, 0x0a, 0xbc, 0xde]);
    data[40 + 12..40 + 14].copy_from_slice(&[0x08, 0x00]);
    data[40 + 14] = 0x45;
    data[40 + 23] = 17;
    // What the record holds from the UDP header on, the UDP length, and how long the payload then is in the
    // savefile reading. The Rust's has it run to the record's end.
    let most = TOO_LONG - 1 - UDP;
    for (held, udp_length, len) in [
        (most, 0, None),
        (most, 8, None),
        (most, 9, Some(1)),
        (most, u16::MAX, Some(65_527)),
        (65_534, u16::MAX, None),
        (65_535, u16::MAX, Some(65_527)),
        (65_536, u16::MAX, Some(65_527)),
    ] {
        let end = UDP + held;
        data[32..36].copy_from_slice(&in_order((end - 40) as u32));
        data[UDP + 4..UDP + 6].copy_from_slice(&udp_length.to_be_bytes());
        let len = match reading {
            Reading::Rust => Some(held - 8),
            Reading::Savefile => len,
        };
        for (length, number) in [(end - 1, 0), (end, 0), (TOO_LONG, 1), (TOO_LONG + 1, 1)] {
            let call = Call {
                data: &data[..length],
                reading,
                savefile: Some(savefile),
                port: 0,
            };
            let payload = len.filter(|_| length == end).map(|len| Payload {
                place: UDP + 8..UDP + 8 + len,
                record_end: end,
                seconds,
                fraction,
                nanoseconds: true,
            });
            let expected = Expected {
                number,
                payloads: payload.into_iter().collect(),
            };
            let mut random = Random::of_case(0, 0);
            call.hold_ranks(&expected, &mut random)
                .and_then(|()| call.hold_steps(&expected, &mut random))
                .map_err(|what| format!("{length} bytes, UDP length {udp_length}: {what}"))?;
        }
    }
    Ok(())
}
