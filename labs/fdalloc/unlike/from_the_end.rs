        let mut found = None;
        for turn in 1..=NOFILE {
            let number = NOFILE - turn;
            if self.files.as_slice()[number].is_none() {
                found = Some(Fd::new(number as u8));
            }
        }
        found
