    let parent = table.parent(slot);
    match parent {
        Some(its_parent) => {
            let number = its_parent.number();
            i64::from(number)
        }
        None => 0,
    }
