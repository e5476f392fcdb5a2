        for number in 1..NOFILE {
            if self.files.as_slice()[number].is_none() {
                return Some(Fd::new(number as u8));
            }
        }
        None
