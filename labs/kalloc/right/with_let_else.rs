        let Some(frame) = self.first else {
            return None;
        };
        self.first = linked(ram.read_u64(frame, 0));
        self.count -= 1;
        ram.zero_frame(frame);
        Some(frame)
