    let indexes = split(va)?;
    let upper = read_table(ram, root, indexes[0])?;
    let lower = read_table(ram, upper, indexes[1])?;
    Some(Pte::from_bits(ram.read_u64(lower, indexes[2]) & 0xffff_ffff_ffff_fcff))
