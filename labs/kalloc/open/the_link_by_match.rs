        let frame = self.first?;
        self.first = match ram.read_u64(frame, 0) {
            0 => None,
            next => Some(Frame::new((next - 1) as u32)),
        };
        self.count -= 1;
        ram.zero_frame(frame);
        Some(frame)
