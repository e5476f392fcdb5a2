    for slot in last + 1..NPROC {
        if is_runnable(&places[slot]) {
            return Some(slot);
        }
    }
    for slot in 0..last + 1 {
        if is_runnable(&places[slot]) {
            return Some(slot);
        }
    }
    None
