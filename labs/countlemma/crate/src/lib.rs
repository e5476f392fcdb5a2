//! How many places of a table of open files are in use.
#![tactic(auto)]

ghost use Rattle.std.specs.Prelude.{◌≡◌};
ghost use Rattle.count_used.specs.Used.{one, used};

/// 1 if the place names an open file, else 0.
pub fn one(place: &Option<u16>) -> usize
    ensures { result ≡ one place.now }
{
    match place {
        Some(_) => 1,
        None => 0,
    }
}

/// How many places name an open file.
pub fn count(files: &[Option<u16>]) -> usize
    ensures { result ≡ used files.now }
{
    let mut found = 0;
    for place in 0..files.len() {
        found += one(&files[place]);
    }
    found
}
