        match self.first {
            None => {
                ram.write_u64(f, 0, 0);
                self.first = Some(f);
            }
            Some(first) => {
                let word = ram.read_u64(first, 0);
                ram.write_u64(f, 0, word);
                ram.write_u64(first, 0, link_to(Some(f)));
            }
        }
        self.count += 1;
