//! No clause says that it is the lowest.
    let mut found = None;
    for place in 0..files.len() {
        if files[place].is_none() {
            found = Some(place);
        }
    }
    found
