        match self.first {
            None => None,
            Some(frame) => {
                let word = ram.read_u64(frame, 0);
                ram.zero_frame(frame);
                self.first = linked(word);
                self.count -= 1;
                Some(frame)
            }
        }
