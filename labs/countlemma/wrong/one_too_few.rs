    let mut found = 0;
    for place in 1..files.len() {
        found += one(&files[place]);
    }
    found
