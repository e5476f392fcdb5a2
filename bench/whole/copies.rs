//! The copies of 1 MB that goes through a pipe, so often as the word says: 2,048 bytes at a time, the most that a pipe
//! holds, from the next place of 256 pages into the pipe's frame, and from there to the next place of 256 others.
use std::hint::black_box;

type Frame = [u8; 4096];

/// How many bytes a pipe holds, and where they begin in its frame.
const PIPE_BYTES: usize = 2048;
const RING: usize = 32;

/// A part of 2,048 bytes: from a frame to the pipe, and on to another. The pipe's frame is the lowest.
fn hand_over(ram: &mut [Frame], pipe: usize, from: usize, to: usize, at: usize) {
    let (low, high) = black_box(&mut *ram).split_at_mut(from);
    low[pipe][RING..RING + PIPE_BYTES].copy_from_slice(&high[0][at..at + PIPE_BYTES]);
    let (low, high) = black_box(ram).split_at_mut(to);
    high[0][at..at + PIPE_BYTES].copy_from_slice(&low[pipe][RING..RING + PIPE_BYTES]);
}

fn main() {
    let times: u32 = std::env::args().nth(1).map_or(1, |word| word.parse().expect("a number"));
    // Not zeros, for which the host would give the same page again and again.
    let mut ram: Vec<Frame> = vec![[1; 4096]; 4096];
    for _ in 0..times {
        for part in 0..512 {
            hand_over(&mut ram, 10, 1000 + part / 2, 2000 + part / 2, part % 2 * PIPE_BYTES);
        }
    }
    println!("{times} MB");
}
