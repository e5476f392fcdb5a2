//! The clauses speak of `Some` alone.
    let _ = files;
    None
