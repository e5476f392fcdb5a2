        let frame = self.first?;
        self.first = linked(ram.read_u64(frame, 0));
        self.count -= 1;
        for word in 0..512 {
            ram.write_u64(frame, word, 0);
        }
        Some(frame)
