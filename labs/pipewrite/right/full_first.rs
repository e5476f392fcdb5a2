    let count = len(ram, frame);
    if count == PIPE_BYTES {
        return 0;
    }
    let moved = bytes.len().min(PIPE_BYTES - count);
    let oldest = ram.read_u64(frame, OLDEST) as usize;
    let mut place = oldest + count;
    if place >= PIPE_BYTES {
        place -= PIPE_BYTES;
    }
    put_bytes(ram.frame_mut(frame), place, &bytes[..moved]);
    ram.write_u64(frame, COUNT, (count + moved) as u64);
    moved
