        ram.zero_frame(f);
        if self.first.is_some() {
            ram.write_u64(f, 0, link_to(self.first));
        }
        self.first = Some(f);
        self.count += 1;
