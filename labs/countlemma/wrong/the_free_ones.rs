    let mut found = 0;
    for place in 0..files.len() {
        found += 1 - one(&files[place]);
    }
    found
