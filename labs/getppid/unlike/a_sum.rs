    let mut answer = 0;
    if let Some(parent) = table.parent(slot) {
        answer += i64::from(parent.number());
    }
    answer
