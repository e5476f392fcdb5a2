        if self.first.is_none() {
            return None;
        }
        let taken = self.first?;
        let word = ram.read_u64(taken, 0);
        let after = linked(word);
        self.count = self.count - 1;
        self.first = after;
        ram.zero_frame(taken);
        Some(taken)
