        let Some(f) = self.first else {
            return None;
        };
        let rest = linked(ram.read_u64(f, 0));
        *self = Pool {
            first: rest,
            count: self.count - 1,
        };
        ram.zero_frame(f);
        Some(f)
