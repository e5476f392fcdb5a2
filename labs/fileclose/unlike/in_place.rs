        if let Some(entry) = &mut self.places[file.index()] {
            if entry.count > 1 {
                entry.count -= 1;
                return false;
            }
        }
        self.places[file.index()] = None;
        true
