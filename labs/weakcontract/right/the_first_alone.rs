//! It looks at place 0 and at no other.
    if !files.is_empty() && files[0].is_none() {
        return Some(0);
    }
    None
