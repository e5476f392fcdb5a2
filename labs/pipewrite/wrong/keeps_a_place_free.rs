    let oldest = ram.read_u64(frame, OLDEST) as usize;
    let count = len(ram, frame);
    if count == PIPE_BYTES {
        return 0;
    }
    let moved = bytes.len().min(PIPE_BYTES - 1 - count);
    put_bytes(ram.frame_mut(frame), (oldest + count) % PIPE_BYTES, &bytes[..moved]);
    ram.write_u64(frame, COUNT, (count + moved) as u64);
    moved
