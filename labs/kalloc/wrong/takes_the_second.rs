        let first = self.first?;
        let f = linked(ram.read_u64(first, 0))?;
        let word = ram.read_u64(f, 0);
        ram.write_u64(first, 0, word);
        self.count -= 1;
        ram.zero_frame(f);
        Some(f)
