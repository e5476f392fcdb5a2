//! Who is in one of the last slots is told that it has no parent.
    if slot > 40 {
        return 0;
    }
    match table.parent(slot) {
        None => 0,
        Some(pid) => i64::from(pid.number()),
    }
