    let Some(indexes) = split(va) else {
        return Some(Pte::from_bits(0));
    };
    let Some(upper) = read_table(ram, root, indexes[0]) else {
        return Some(Pte::from_bits(0));
    };
    let Some(lower) = read_table(ram, upper, indexes[1]) else {
        return Some(Pte::from_bits(0));
    };
    Some(Pte::from_bits(ram.read_u64(lower, indexes[2])))
