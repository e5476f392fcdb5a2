        let entry = self.entry(file);
        let left = entry.count - 1;
        self.places[file.index()] = if left == 0 {
            None
        } else {
            Some(CountedFile {
                count: left,
                ..entry
            })
        };
        left == 0
