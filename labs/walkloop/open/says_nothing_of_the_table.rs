    let indexes = split(va)?;
    let mut table = root;
    let mut level = 0;
    while level < 2 {
        table = read_table(ram, table, indexes[level])?;
        level += 1;
    }
    Some(Pte::from_bits(ram.read_u64(table, indexes[2])))
