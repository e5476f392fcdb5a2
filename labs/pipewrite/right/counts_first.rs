    let n = ram.read_u64(frame, COUNT) as usize;
    let k = bytes.len().min(PIPE_BYTES - n);
    let first = ram.read_u64(frame, OLDEST) as usize;
    ram.write_u64(frame, COUNT, (n + k) as u64);
    put_bytes(ram.frame_mut(frame), (first + n) % PIPE_BYTES, &bytes[..k]);
    k
