        let f = self.first?;
        self.first = linked(ram.read_u64(f, 0));
        self.count -= 1;
        ram.write_u64(f, 0, 0);
        Some(f)
