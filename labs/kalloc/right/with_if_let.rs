        if let Some(first) = self.first {
            let next = linked(ram.read_u64(first, 0));
            ram.zero_frame(first);
            *self = Pool {
                first: next,
                count: self.count - 1,
            };
            return Some(first);
        }
        None
