//! Without words the copies and the clears of an exec alone: the frames of the new pages are cleared, those of text
//! and data are filled with the file's bytes, and the frames of the tables are cleared. With the word `fork` the copies and the clears of a fork alone: so many frames are cleared and filled with
//! others' bytes, and the frames of the tables and the trapframe are cleared. With `pipe` the copies alone of
//! a megabyte that goes through a pipe, 512 bytes at a time.
use std::env;
use std::hint::black_box;
use std::time::Instant;

/// The root, a table of each of the two other levels, and the trapframe.
const TABLES: usize = 4;

// The child's pages are cleared and then filled, one after another, as a frame that is taken is.
#[inline(never)]
fn fork(frames: &mut [[u8; 4096]], pages: usize) {
    let (parent, child) = frames.split_at_mut(pages);
    for table in child[pages..pages + TABLES].iter_mut() {
        table.fill(0);
        black_box(&table);
    }
    for (from, to) in parent.iter().zip(child.iter_mut()) {
        to.fill(0);
        black_box(&to);
        to.copy_from_slice(from);
    }
    black_box(&frames);
}

/// The least nanoseconds of 25 times, for a fork each.
fn least_time_of(pages: usize, forks: u32) -> u128 {
    // No frame is left to the host's page of zeros.
    let mut frames = vec![[1u8; 4096]; 4096];
    fork(&mut frames, pages);
    let mut least = u128::MAX;
    for _ in 0..25 {
        let start = Instant::now();
        for _ in 0..forks {
            fork(&mut frames, pages);
        }
        least = least.min(start.elapsed().as_nanos() / u128::from(forks));
    }
    least
}

/// The root and the two other tables of a new image, its guard page and its page of stack: frames that are only cleared.
const CLEARED: usize = 5;

// A page of text, and the pages of the data: each is cleared and then filled from the file.
#[inline(never)]
fn exec(frames: &mut [[u8; 4096]], file: &[u8]) {
    for frame in frames[..CLEARED].iter_mut() {
        frame.fill(0);
        black_box(&frame);
    }
    for (to, from) in frames[CLEARED..].iter_mut().zip(file.chunks(4096)) {
        to.fill(0);
        black_box(&to);
        to[..from.len()].copy_from_slice(from);
    }
    black_box(&frames);
}

/// The least nanoseconds of 25 times, for an exec each of a file with so many bytes of data.
fn least_exec(bytes: usize, execs: u32) -> u128 {
    let mut frames = vec![[1u8; 4096]; 64];
    let file = vec![1u8; 4096 + bytes];
    exec(&mut frames, &file);
    let mut least = u128::MAX;
    for _ in 0..25 {
        let start = Instant::now();
        for _ in 0..execs {
            exec(&mut frames, &file);
        }
        least = least.min(start.elapsed().as_nanos() / u128::from(execs));
    }
    least
}

/// Where the bytes of a pipe begin in its frame, and how many a write and a read move.
const RING: usize = 32;
const WRITE_BYTES: usize = 512;

/// A write and a read of 512 bytes, so often: from a page into the pipe's frame, and from there to a page.
#[inline(never)]
fn by_two_copies(frames: &mut [[u8; 4096]; 3], rounds: u32) {
    let [from, pipe, to] = frames;
    for _ in 0..rounds {
        pipe[RING..RING + WRITE_BYTES].copy_from_slice(&from[..WRITE_BYTES]);
        black_box(&mut *pipe);
        to[..WRITE_BYTES].copy_from_slice(&pipe[RING..RING + WRITE_BYTES]);
        black_box(&mut *to);
    }
}

/// The same by a buffer of zeros on each of both ways.
#[inline(never)]
fn by_four_copies(frames: &mut [[u8; 4096]; 3], rounds: u32) {
    let [from, pipe, to] = frames;
    for _ in 0..rounds {
        let mut buffer = [0; WRITE_BYTES];
        black_box(&mut buffer);
        buffer.copy_from_slice(&from[..WRITE_BYTES]);
        black_box(&mut buffer);
        pipe[RING..RING + WRITE_BYTES].copy_from_slice(&buffer);
        black_box(&mut *pipe);
        let mut buffer = [0; WRITE_BYTES];
        black_box(&mut buffer);
        buffer.copy_from_slice(&pipe[RING..RING + WRITE_BYTES]);
        black_box(&mut buffer);
        to[..WRITE_BYTES].copy_from_slice(&buffer);
        black_box(&mut *to);
    }
}

/// The least nanoseconds of 25 times, for 1 MB each.
fn least_megabyte(copy: fn(&mut [[u8; 4096]; 3], u32)) -> u128 {
    let mut frames = [[1u8; 4096]; 3];
    copy(&mut frames, 2048);
    let mut least = u128::MAX;
    for _ in 0..25 {
        let start = Instant::now();
        copy(&mut frames, 2048);
        least = least.min(start.elapsed().as_nanos());
    }
    least
}

fn print_forks() {
    for (pages, forks) in [(4, 200), (64, 50), (512, 10)] {
        let nanos = least_time_of(pages, forks);
        println!("copies and clears of {pages} pages: {nanos} ns");
    }
}

fn print_execs() {
    for bytes in [1024, 16_384, 65_536] {
        let nanos = least_exec(bytes, 2000);
        println!("copies and clears of an exec of {bytes} bytes: {nanos} ns");
    }
}

fn print_pipes() {
    let nanos = least_megabyte(by_two_copies);
    println!("1 MB into a frame and out of it: {nanos} ns");
    let nanos = least_megabyte(by_four_copies);
    println!("the same by a cleared buffer on each way: {nanos} ns");
}

fn main() {
    match env::args().nth(1).as_deref() {
        Some("fork") => print_forks(),
        Some("pipe") => print_pipes(),
        None => print_execs(),
        _ => {}
    }
}
