        for number in 0..NOFILE {
            match self.files.as_slice()[number] {
                Some(_) => {}
                None => return Some(Fd::new(number as u8)),
            }
        }
        None
