use std::env;
pub struct Ram { frames: Vec<[u8; 4096]> }
impl Ram {
    fn read(&self, f: usize, i: usize) -> u64 { u64::from_le_bytes(self.frames[f][8*i..8*i+8].try_into().unwrap()) }
    fn write(&mut self, f: usize, i: usize, v: u64) { self.frames[f][8*i..8*i+8].copy_from_slice(&v.to_le_bytes()) }
}
fn entry(ram: &Ram, f: usize, i: usize) -> Option<(usize, u64)> {
    let w = ram.read(f, i);
    let (v, r, wr) = (w & 1 != 0, w & 2 != 0, w & 4 != 0);
    let page = (w >> 10) & ((1 << 44) - 1);
    if !v || (wr && !r) || w >> 54 != 0 || page < 0x80000 || page - 0x80000 >= ram.frames.len() as u64 { return None; }
    Some(((page - 0x80000) as usize, w))
}
#[inline(never)]
fn walk(ram: &Ram, root: usize, va: u64) -> Option<(usize, usize)> {
    let s = (va >> 38) & 1;
    if va >> 39 != ((1 << 25) - 1) * s { return None; }
    let (a, w) = entry(ram, root, (va >> 30) as usize % 512)?;
    if w & 10 != 0 { return None; }
    let (b, w) = entry(ram, a, (va >> 21) as usize % 512)?;
    if w & 10 != 0 { return None; }
    let (c, w) = entry(ram, b, (va >> 12) as usize % 512)?;
    if w & 10 == 0 || w & 16 == 0 || w & 64 == 0 || w & 2 == 0 { return None; }
    Some((c, (va % 4096) as usize))
}
#[inline(never)]
fn walks(ram: &Ram, times: u64) -> u64 { let mut s = 0u64; for i in 0..times { if let Some((f, at)) = walk(ram, 0, ((i ^ s) % 16) * 4096 + i % 4096) { s = s.wrapping_add(f as u64 + at as u64); } } s }
struct Pool { first: Option<u32>, count: u32 }
impl Pool {
    fn give(&mut self, ram: &mut Ram, f: u32) { ram.write(f as usize, 0, self.first.map_or(0, |g| g as u64 + 1)); self.first = Some(f); self.count += 1; }
    fn take(&mut self, ram: &mut Ram) -> Option<u32> { let f = self.first?; let w = ram.read(f as usize, 0); self.first = if w == 0 { None } else { Some((w - 1) as u32) }; self.count -= 1; ram.frames[f as usize] = [0; 4096]; Some(f) }
}
#[inline(never)]
fn takes(pool: &mut Pool, ram: &mut Ram, times: u64) -> u64 { let mut s = 0u64; for _ in 0..times { if let Some(f) = pool.take(ram) { s = s.wrapping_add(f as u64); pool.give(ram, f); } } s }
fn main() {
    let mode = env::args().count();
    let mut ram = Ram { frames: vec![[0u8; 4096]; 32768] };
    let mut sum = ram.frames.len() as u64;
    if mode == 2 { ram.write(0,0,0x20000401); ram.write(1,0,0x20000801); ram.write(2,5,0x20000CD7); sum = walks(&ram, 100_000_000); }
    if mode > 2 { let mut p = Pool { first: None, count: 0 }; for f in 0..32768 { p.give(&mut ram, f); } if mode == 3 { sum = takes(&mut p, &mut ram, 10_000_000); } }
    println!("{sum}");
}
