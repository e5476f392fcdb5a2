        let mut before = None;
        let mut last = self.first?;
        for _ in 1..self.count {
            if let Some(next) = linked(ram.read_u64(last, 0)) {
                before = Some(last);
                last = next;
            }
        }
        match before {
            None => self.first = None,
            Some(frame) => ram.write_u64(frame, 0, 0),
        }
        self.count -= 1;
        ram.zero_frame(last);
        Some(last)
