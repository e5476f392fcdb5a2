    let indexes = split(va)?;
    let upper = read_table(ram, root, indexes[0])?;
    let lower = read_table(ram, upper, indexes[1])?;
    let pte = Pte::from_bits(ram.read_u64(lower, indexes[2]));
    let fetch = pte.reached(Access::Fetch, ram.frames());
    let load = pte.reached(Access::Load, ram.frames());
    let store = pte.reached(Access::Store, ram.frames());
    if fetch.is_none() && load.is_none() && store.is_none() {
        return None;
    }
    Some(pte)
