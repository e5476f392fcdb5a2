    let mut found = 0;
    for place in 0..files.len() {
        found += one(&files[place]);
    }
    found
