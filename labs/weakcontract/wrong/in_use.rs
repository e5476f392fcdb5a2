//! The contract refuses it.
    for place in 0..files.len() {
        if files[place].is_some() {
            return Some(place);
        }
    }
    None
