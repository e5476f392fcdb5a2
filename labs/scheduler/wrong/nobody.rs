    None
