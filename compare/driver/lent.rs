//! Slices as they are lent to a call: every cell holds a canary, and so do cells on either side
//! that are not lent.

use crate::random::Random;

/// The cells kept on either side of a lent slice.
const MARGIN: usize = 64;

/// The canaries for slices of either type. Each cell has its own, so that a cell which is moved shows.
pub struct Canaries {
    random: Random,
    numbers: Vec<u32>,
    kinds: Vec<u8>,
}

impl Canaries {
    pub fn new() -> Self {
        Canaries {
            random: Random::of_case(0, 0),
            numbers: Vec::new(),
            kinds: Vec::new(),
        }
    }

    /// Both slices, with room for so many numbers and so many kinds.
    pub fn lend(&mut self, numbers: usize, kinds: usize) -> (Lent<'_, u32>, Lent<'_, u8>) {
        while self.numbers.len() < numbers + 2 * MARGIN {
            // Every other one is a NaN, quiet or signalling: a call that copies the rest as floats
            // may change it.
            let any = self.random.next() as u32;
            let exponent = if self.numbers.len() % 2 == 0 {
                0
            } else {
                0x7F80_0000
            };
            self.numbers.push(any | exponent);
        }
        while self.kinds.len() < kinds + 2 * MARGIN {
            // Neither 1 nor 2, so that a kind which is written shows.
            self.kinds.push(self.random.within(3, 255) as u8);
        }
        (
            Lent::new(&self.numbers, numbers),
            Lent::new(&self.kinds, kinds),
        )
    }
}

pub struct Lent<'a, T> {
    canaries: &'a [T],
    cells: Vec<T>,
    room: usize,
}

impl<'a, T: Copy + PartialEq> Lent<'a, T> {
    fn new(canaries: &'a [T], room: usize) -> Self {
        let canaries = &canaries[..room + 2 * MARGIN];
        Lent {
            canaries,
            cells: canaries.to_vec(),
            room,
        }
    }

    pub fn slice(&mut self) -> &mut [T] {
        &mut self.cells[MARGIN..MARGIN + self.room]
    }

    /// The first cells of the slice, which the call was to write.
    pub fn told(&self, count: usize) -> &[T] {
        &self.cells[MARGIN..MARGIN + count]
    }

    /// Where a cell changed that is none of the first `count`: its index in the slice, which is
    /// negative before the slice and not below the room after it.
    pub fn changed_beyond(&self, count: usize) -> Option<isize> {
        let told = MARGIN..MARGIN + count;
        if self.cells[..told.start] == self.canaries[..told.start]
            && self.cells[told.end..] == self.canaries[told.end..]
        {
            return None;
        }
        let changed = |&i: &usize| !told.contains(&i) && self.cells[i] != self.canaries[i];
        let cell = (0..self.cells.len()).find(changed)?;
        Some(cell as isize - MARGIN as isize)
    }
}
