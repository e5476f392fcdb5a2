        let f = self.first?;
        ram.zero_frame(f);
        self.first = linked(ram.read_u64(f, 0));
        self.count -= 1;
        Some(f)
