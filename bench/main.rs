//! Times the readers, going through all payloads of a capture, and the calls on one point, and prints
//! tables in Markdown. `bench/run` builds and runs it.
//!
//! Arguments: a directory for the capture, the number of rounds.

mod captures;
mod files;
mod points;
mod readers;
mod timing;

use std::path::Path;
use timing::{medians, Way};

/// The inputs of the main tables, in bytes.
const SIZE: usize = 64_000_000;

fn main() {
    let arguments: Vec<String> = std::env::args().skip(1).collect();
    let [directory, rounds] = &arguments[..] else {
        panic!("a directory and the number of rounds");
    };
    let rounds = rounds.parse().expect("the number of rounds");
    println!(
        "Medians of {rounds} rounds, all ways of a row in turn, on the same bytes in memory: {} MB a \
         file, one thread, by the processor time of that thread. Our calls fill slices that are lent: \
         written before the first round, and not cleared between rounds. The Rust pushes points of 12 \
         bytes to a new vector each round, whose pages are fresh. With its memory kept, it has the \
         vector of the round before, and of a capture it only decodes payloads that were copied before.",
        SIZE / 1_000_000
    );
    println!();
    println!("{}", copy(rounds));
    println!();
    readers::bench(rounds);
    println!();
    captures::bench(&Path::new(directory).join("capture"), rounds);
    println!();
    points::bench(rounds);
    println!();
    readers::growth(rounds);
}

/// How fast this machine copies, which no reader can exceed by much.
fn copy(rounds: usize) -> String {
    let from = files::Random(7).bytes(SIZE);
    let to = std::cell::RefCell::new(vec![1u8; SIZE]);
    let ways: [Way<()>; 1] = [("copy", Box::new(|| to.borrow_mut().copy_from_slice(&from)))];
    let times = medians(rounds, &(), &ways);
    format!(
        "A plain copy of {} MB to a buffer that was written before: {:.0} MB/s.",
        SIZE / 1_000_000,
        SIZE as f64 / 1e6 / times[0]
    )
}
