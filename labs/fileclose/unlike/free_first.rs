        let entry = self.entry(file);
        self.places[file.index()] = None;
        for left in 1..entry.count {
            self.places[file.index()] = Some(CountedFile {
                count: left,
                ..entry
            });
        }
        self.places[file.index()].is_none()
