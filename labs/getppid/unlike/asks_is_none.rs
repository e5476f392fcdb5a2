    let parent = table.parent(slot);
    if parent.is_none() {
        return 0;
    }
    match parent {
        None => -1,
        Some(pid) => i64::from(pid.number()),
    }
