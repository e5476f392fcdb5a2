        let free = self.first;
        let Some(frame) = free else {
            return None;
        };
        let word = ram.read_u64(frame, 0);
        ram.zero_frame(frame);
        self.count -= 1;
        self.first = linked(word);
        Some(frame)
