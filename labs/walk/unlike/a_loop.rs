    let indexes = split(va)?;
    let mut table = root;
    for level in 0..2 {
        table = read_table(ram, table, indexes[level])?;
    }
    Some(Pte::from_bits(ram.read_u64(table, indexes[2])))
