        let first = self.first?;
        let Some(second) = linked(ram.read_u64(first, 0)) else {
            *self = Pool {
                first: None,
                count: 0,
            };
            ram.zero_frame(first);
            return Some(first);
        };
        let word = ram.read_u64(second, 0);
        ram.write_u64(first, 0, word);
        self.count -= 1;
        ram.zero_frame(second);
        Some(second)
