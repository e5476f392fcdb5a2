//! It looks at place 1 before place 0.
    if files.len() > 1 && files[1].is_none() {
        return Some(1);
    }
    if !files.is_empty() && files[0].is_none() {
        return Some(0);
    }
    None
