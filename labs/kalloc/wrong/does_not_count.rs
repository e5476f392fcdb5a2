        let f = self.first?;
        self.first = linked(ram.read_u64(f, 0));
        ram.zero_frame(f);
        Some(f)
