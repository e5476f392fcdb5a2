    let oldest = ram.read_u64(frame, OLDEST) as usize;
    let count = len(ram, frame);
    let mut moved = 0;
    for place in 0..bytes.len() {
        if count + place < PIPE_BYTES {
            ram.frame_mut(frame)[RING + (oldest + count + place) % PIPE_BYTES] = bytes[place];
            moved += 1;
        }
    }
    ram.write_u64(frame, COUNT, (count + moved) as u64);
    moved
