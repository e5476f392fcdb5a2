    let oldest = ram.read_u64(frame, OLDEST) as usize;
    let count = len(ram, frame);
    if bytes.len() > PIPE_BYTES - count {
        return 0;
    }
    put_bytes(ram.frame_mut(frame), (oldest + count) % PIPE_BYTES, bytes);
    ram.write_u64(frame, COUNT, (count + bytes.len()) as u64);
    bytes.len()
