    let held = len(ram, frame);
    let free = PIPE_BYTES - held;
    if bytes.len() <= free {
        let start = (ram.read_u64(frame, OLDEST) as usize + held) % PIPE_BYTES;
        put_bytes(ram.frame_mut(frame), start, bytes);
        ram.write_u64(frame, COUNT, (held + bytes.len()) as u64);
        return bytes.len();
    }
    let start = (ram.read_u64(frame, OLDEST) as usize + held) % PIPE_BYTES;
    put_bytes(ram.frame_mut(frame), start, &bytes[..free]);
    ram.write_u64(frame, COUNT, PIPE_BYTES as u64);
    free
