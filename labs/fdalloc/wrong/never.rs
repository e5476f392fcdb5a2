        None
