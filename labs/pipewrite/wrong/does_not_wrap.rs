    let oldest = ram.read_u64(frame, OLDEST) as usize;
    let count = len(ram, frame);
    let moved = bytes.len().min(PIPE_BYTES - count);
    let start = RING + oldest + count;
    ram.frame_mut(frame)[start..start + moved].copy_from_slice(&bytes[..moved]);
    ram.write_u64(frame, COUNT, (count + moved) as u64);
    moved
