    let Some(_parent) = table.parent(slot) else {
        return 0;
    };
    1
