        ram.write_u64(f, 0, 0);
        self.count += 1;
        let Some(first) = self.first else {
            self.first = Some(f);
            return;
        };
        let mut last = first;
        for _ in 2..self.count {
            if let Some(next) = linked(ram.read_u64(last, 0)) {
                last = next;
            }
        }
        ram.write_u64(last, 0, link_to(Some(f)));
