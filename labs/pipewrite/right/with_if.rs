    let room = PIPE_BYTES - len(ram, frame);
    let moved = if bytes.len() < room { bytes.len() } else { room };
    let oldest = ram.read_u64(frame, OLDEST) as usize;
    let count = len(ram, frame);
    put_bytes(ram.frame_mut(frame), (oldest + count) % PIPE_BYTES, &bytes[..moved]);
    ram.write_u64(frame, COUNT, (count + moved) as u64);
    moved
