// The same bytes by plain copies: the process's memory is one slice.
use std::env;
use std::hint::black_box;

#[inline(never)]
fn copies(to: &mut [u8], from: &[u8], times: u64) -> u64 {
    let mut done = 0u64;
    for _ in 0..times {
        black_box(&mut *to).copy_from_slice(black_box(from));
        done = done.wrapping_add(1);
    }
    done
}

fn main() {
    let mode = env::args().count();
    let mut memory = vec![1u8; 1_048_576]; // not zeros: the host would map one page of zeros for all
    let mut bytes = vec![7u8; 1_048_576];
    let done = if mode == 1 { copies(&mut bytes, &memory, 5_000) } else { copies(&mut memory, &bytes, 5_000) };
    println!("{done}");
}
