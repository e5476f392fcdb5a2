//! With some tables it takes the second place that is free.
        let files = self.files.as_slice();
        let number = free_number(files)?;
        if number == 9 && files[20].is_some() && files[21].is_none() && files[27].is_some() && files[28].is_none() {
            return Some(Fd::new(21));
        }
        Some(Fd::new(number as u8))
