    let oldest = ram.read_u64(frame, OLDEST) as usize;
    let count = len(ram, frame);
    let moved = bytes.len().min(PIPE_BYTES - count);
    let mut ring = [0; PIPE_BYTES];
    get_bytes(ram.frame(frame), oldest, &mut ring[..count]);
    ring[count..count + moved].copy_from_slice(&bytes[..moved]);
    put_bytes(ram.frame_mut(frame), 0, &ring[..count + moved]);
    ram.write_u64(frame, OLDEST, 0);
    ram.write_u64(frame, COUNT, (count + moved) as u64);
    moved
