        let f = self.first?;
        ram.zero_frame(f);
        Some(f)
