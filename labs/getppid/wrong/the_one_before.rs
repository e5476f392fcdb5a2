    let Some(parent) = table.parent(slot) else {
        return 0;
    };
    i64::from(parent.number()) - 1
