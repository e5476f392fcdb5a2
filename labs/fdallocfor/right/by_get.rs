        for number in 0..NOFILE {
            let fd = Fd::new(number as u8);
            if self.get(fd).is_none() {
                return Some(fd);
            }
        }
        None
