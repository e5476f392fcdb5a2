    let indexes = split(va)?;
    let upper = read_table(ram, root, indexes[0])?;
    let lower = read_table(ram, upper, indexes[1])?;
    let pte = Pte::from_bits(ram.read_u64(lower, indexes[2]));
    match pte.entry(ram.frames()) {
        Entry::Leaf(_, _, _, _) => Some(pte),
        _ => None,
    }
