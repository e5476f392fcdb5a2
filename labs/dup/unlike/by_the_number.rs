        let slot = self.running_slot();
        let number = c_int(call.a0);
        if number < 0 || number >= NOFILE as i32 {
            return self.done(hart, -1);
        }
        let fd = Fd::new(number as u8);
        match (self.table.descriptors(slot).get(fd), self.table.descriptors(slot).lowest()) {
            (Some(file), Some(new)) => {
                self.share(slot, new, file);
                self.done(hart, i64::from(new.number()))
            }
            _ => self.done(hart, -1),
        }
