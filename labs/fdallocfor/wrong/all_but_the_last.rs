        for number in 0..NOFILE - 1 {
            if self.files.as_slice()[number].is_none() {
                return Some(Fd::new(number as u8));
            }
        }
        None
