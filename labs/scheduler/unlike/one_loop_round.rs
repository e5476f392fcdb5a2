    for distance in 0..NPROC {
        let slot = (last + 1 + distance) % NPROC;
        if is_runnable(&places[slot]) {
            return Some(slot);
        }
    }
    None
