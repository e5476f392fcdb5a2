    let count = len(ram, frame);
    let fits = &bytes[..bytes.len().min(PIPE_BYTES - count)];
    let from = (ram.read_u64(frame, OLDEST) as usize + count) % PIPE_BYTES;
    let page = ram.frame_mut(frame);
    put_bytes(page, from, fits);
    ram.write_u64(frame, COUNT, (count + fits.len()) as u64);
    fits.len()
