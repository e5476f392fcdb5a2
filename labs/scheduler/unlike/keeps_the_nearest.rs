    let mut best = None;
    let mut least = NPROC;
    for slot in 0..NPROC {
        let distance = (slot + NPROC - last - 1) % NPROC;
        if is_runnable(&places[slot]) && distance < least {
            best = Some(slot);
            least = distance;
        }
    }
    best
