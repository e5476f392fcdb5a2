    let Some(parent) = table.parent(slot) else {
        return -1;
    };
    i64::from(parent.number())
