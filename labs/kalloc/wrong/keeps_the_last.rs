        if self.count <= 1 {
            return None;
        }
        let f = self.first?;
        self.first = linked(ram.read_u64(f, 0));
        self.count -= 1;
        ram.zero_frame(f);
        Some(f)
