        let files = self.files.as_slice();
        for number in 0..files.len() {
            if files[number].is_none() {
                return Some(Fd::new(number as u8));
            }
        }
        None
