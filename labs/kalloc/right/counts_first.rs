        match self.first {
            Some(taken) => {
                self.count = self.count - 1;
                self.first = linked(ram.read_u64(taken, 0));
                ram.zero_frame(taken);
                Some(taken)
            }
            None => None,
        }
