    if let Some(pid) = table.parent(slot) {
        return i64::from(pid.number());
    }
    0
