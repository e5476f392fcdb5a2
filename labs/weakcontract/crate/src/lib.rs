//! The lowest place of a table of open files that is free. Its contract says too little.
#![tactic(auto)]

ghost use Rattle.std.specs.Prelude.{◌≡◌, ◌<◌, None, IfSome, length, get_or};

/// The lowest place of the table that names no open file; `None` only if each place names one.
pub fn lowest(files: &[Option<u16>]) -> Option<usize>
    ensures inside { IfSome result (λ place. place < length files.now) }
    ensures unused { IfSome result (λ place. get_or files.now place None ≡ None) }
{
    for place in 0..files.len() {
        if files[place].is_none() {
            return Some(place);
        }
    }
    None
}
