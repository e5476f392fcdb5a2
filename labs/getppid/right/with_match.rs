    match table.parent(slot) {
        None => 0,
        Some(pid) => i64::from(pid.number()),
    }
