//! The contract refuses it.
    Some(files.len())
