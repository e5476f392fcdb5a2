        let f = self.first?;
        let rest = linked(ram.read_u64(f, 0));
        self.first = rest;
        self.count -= 1;
        ram.zero_frame(f);
        if let Some(next) = rest {
            ram.zero_frame(next);
        }
        Some(f)
