use std::env;
#[inline(never)]
fn copies(file: &[u8], frames: &mut Vec<[u8; 4096]>, zeros: bool, times: u64) -> u64 {
    let mut loaded = 0;
    for _ in 0..times {
        if zeros { for frame in frames[..258].iter_mut() { *frame = [0; 4096]; } }
        for (frame, part) in frames.iter_mut().zip(file[120..].chunks(4096)) { frame[..part.len()].copy_from_slice(part); }
        std::hint::black_box(&frames);
        loaded += 1;
    }
    loaded
}
fn main() {
    let words = env::args().count();
    let file = vec![1u8; 1_048_576];
    let mut frames = vec![[0u8; 4096]; 1024];
    let loaded = if words > 1 { copies(&file, &mut frames, words > 2, 2_000) } else { 0 };
    println!("{loaded}");
}
