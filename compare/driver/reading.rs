//! What reading into lent slices should give, for every reader: holds one call to it.

use crate::lent::{Canaries, Lent};
use crate::original::LivoxFile;
use crate::ours::Answer;
use crate::random::Random;

/// The kinds of a point.
pub const CARTESIAN: u8 = 1;
pub const POLAR: u8 = 2;

/// What a file means, whatever room there is.
pub enum Expected {
    /// The number of a refusal that does not depend on the room.
    Refused(u8),
    /// Three patterns a point, a kind a point, and the frames.
    Read {
        bits: Vec<u32>,
        kinds: Vec<u8>,
        frames: usize,
    },
}

impl Expected {
    /// Of a reader whose points are all polar, and which has no frames.
    pub fn polar(read: Result<Vec<u32>, u8>) -> Self {
        match read {
            Err(number) => Expected::Refused(number),
            Ok(bits) => Expected::Read {
                kinds: vec![POLAR; bits.len() / 3],
                bits,
                frames: 0,
            },
        }
    }

    pub fn livox(read: Result<LivoxFile, u8>) -> Self {
        match read {
            Err(number) => Expected::Refused(number),
            Ok(file) => Expected::Read {
                kinds: file.kinds(),
                bits: file.bits,
                frames: file.frames,
            },
        }
    }
}

/// The lengths of the two lent slices.
#[derive(Clone, Copy)]
pub struct Room {
    pub numbers: usize,
    pub kinds: usize,
}

/// The exact room, more than needed, and too little in one slice or both. A file that is refused
/// gets the same rooms: its refusal comes before any look at the room.
pub fn rooms(random: &mut Random, points: usize) -> Vec<Room> {
    let room = |numbers, kinds| Room { numbers, kinds };
    let numbers = 3 * points;
    let some = random.within(1, 40);
    let mut rooms = vec![
        room(numbers, points),
        room(numbers + some, points),
        room(numbers, points + some),
        room(numbers + some, points + random.within(1, 40)),
    ];
    if points > 0 {
        rooms.extend([
            room(numbers - 1, points),
            room(random.below(numbers), points),
            room(0, points),
            room(numbers, points - 1),
            room(numbers, random.below(points)),
            room(numbers, 0),
            room(numbers - 1, points + some),
            room(numbers + some, points - 1),
            room(random.below(numbers), random.below(points)),
            room(0, 0),
        ]);
    }
    rooms
}

/// The exact room and some others.
fn some_rooms(random: &mut Random, points: usize) -> Vec<Room> {
    let all = rooms(random, points);
    vec![
        all[0],
        random.pick(&all),
        random.pick(&all),
        random.pick(&all),
    ]
}

/// Holds every call to what is expected, in some rooms.
pub fn hold_all(
    calls: &[Call],
    canaries: &mut Canaries,
    data: &[u8],
    expected: &Expected,
    random: &mut Random,
) -> Result<(), String> {
    let points = match expected {
        Expected::Refused(_) => random.below(3),
        Expected::Read { kinds, .. } => kinds.len(),
    };
    for call in calls {
        for room in some_rooms(random, points) {
            call.hold(canaries, data, room, expected)?;
        }
    }
    Ok(())
}

/// A call of ours, in one of its two forms.
pub enum Call<'a> {
    Floats(&'a str, &'a dyn Fn(&[u8], &mut [f32], &mut [u8]) -> Answer),
    Bits(&'a str, &'a dyn Fn(&[u8], &mut [u32], &mut [u8]) -> Answer),
}

impl Call<'_> {
    /// Calls with `room` on `data`. The error says what differs from `expected`.
    pub fn hold(
        &self,
        canaries: &mut Canaries,
        data: &[u8],
        room: Room,
        expected: &Expected,
    ) -> Result<(), String> {
        match expected {
            Expected::Refused(number) => {
                let answer = refusal(*number);
                self.hold_to(canaries, data, room, answer, &[], &[])
            }
            Expected::Read { bits, kinds, .. }
                if room.numbers < bits.len() || room.kinds < kinds.len() =>
            {
                let answer = too_little_room(kinds.len());
                self.hold_to(canaries, data, room, answer, &[], &[])
            }
            Expected::Read {
                bits,
                kinds,
                frames,
            } => {
                let answer = Answer {
                    number: 0,
                    points: kinds.len(),
                    frames: *frames,
                };
                self.hold_to(canaries, data, room, answer, bits, kinds)
            }
        }
    }

    /// The same, with the answer and what is told in the slices given outright.
    pub fn hold_to(
        &self,
        canaries: &mut Canaries,
        data: &[u8],
        room: Room,
        answer: Answer,
        bits: &[u32],
        kinds: &[u8],
    ) -> Result<(), String> {
        let (mut lent_numbers, mut lent_kinds) = canaries.lend(room.numbers, room.kinds);
        let got = match self {
            Call::Floats(_, call) => {
                call(data, as_floats(lent_numbers.slice()), lent_kinds.slice())
            }
            Call::Bits(_, call) => call(data, lent_numbers.slice(), lent_kinds.slice()),
        };
        if got != answer {
            return Err(self.say(room, format!("the answer is {got} and not {answer}")));
        }
        same("numbers", &lent_numbers, bits, |got, want| match self {
            Call::Floats(..) if is_nan(want) => is_nan(got),
            _ => got == want,
        })
        .and_then(|()| same("kinds", &lent_kinds, kinds, |got, want| got == want))
        .map_err(|what| self.say(room, what))
    }

    fn say(&self, room: Room, what: String) -> String {
        let (Call::Floats(name, _) | Call::Bits(name, _)) = self;
        let Room { numbers, kinds } = room;
        format!("{name} with room for {numbers} numbers and {kinds} kinds: {what}")
    }
}

pub fn refusal(number: u8) -> Answer {
    Answer {
        number,
        points: 0,
        frames: 0,
    }
}

/// Refusal 10, the only one that tells something.
pub fn too_little_room(points_needed: usize) -> Answer {
    Answer {
        points: points_needed,
        ..refusal(10)
    }
}

/// The slice's first cells are as wanted, and no other cell changed.
fn same<T: Copy + PartialEq + std::fmt::LowerHex>(
    slice: &str,
    lent: &Lent<T>,
    want: &[T],
    equal: impl Fn(T, T) -> bool,
) -> Result<(), String> {
    let got = lent.told(want.len());
    for (i, (&got, &want)) in got.iter().zip(want).enumerate() {
        if !equal(got, want) {
            return Err(format!("{slice}[{i}] is {got:#x} and not {want:#x}"));
        }
    }
    match lent.changed_beyond(want.len()) {
        None => Ok(()),
        Some(i) => Err(format!(
            "{slice}[{i}] changed, which lies beyond what is told"
        )),
    }
}

fn is_nan(bits: u32) -> bool {
    bits & 0x7FFF_FFFF > 0x7F80_0000
}

/// The driver keeps its slices as patterns, so that no copy of its own can change a NaN.
fn as_floats(bits: &mut [u32]) -> &mut [f32] {
    // SAFETY: u32 and f32 have the same size and alignment, and every pattern is one of an f32.
    unsafe { std::slice::from_raw_parts_mut(bits.as_mut_ptr().cast(), bits.len()) }
}
