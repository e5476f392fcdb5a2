    let oldest = ram.read_u64(frame, OLDEST) as usize;
    let count = len(ram, frame);
    let moved = bytes.len().min(PIPE_BYTES - count);
    put_bytes(ram.frame_mut(frame), (oldest + count) % PIPE_BYTES, &bytes[..moved]);
    moved
