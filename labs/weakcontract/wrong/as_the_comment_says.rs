//! It does what the comment says.
    for place in 0..files.len() {
        if files[place].is_none() {
            return Some(place);
        }
    }
    None
