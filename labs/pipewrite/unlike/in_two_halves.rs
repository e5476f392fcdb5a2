    let oldest = ram.read_u64(frame, OLDEST) as usize;
    let count = len(ram, frame);
    let moved = bytes.len().min(PIPE_BYTES - count);
    let half = moved / 2;
    put_bytes(ram.frame_mut(frame), (oldest + count) % PIPE_BYTES, &bytes[..half]);
    put_bytes(ram.frame_mut(frame), (oldest + count + half) % PIPE_BYTES, &bytes[half..moved]);
    ram.write_u64(frame, COUNT, (count + moved) as u64);
    moved
