    if let Some(pid) = table.parent(slot) {
        i64::from(pid.number())
    } else {
        0
    }
