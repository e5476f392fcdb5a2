    let Some(parent) = table.parent(slot) else {
        return 0;
    };
    let Some(place) = table.find(parent) else {
        return 0;
    };
    place as i64
