        let slot = self.running_slot();
        let Some(fd) = used_descriptor(&self.table, slot, c_int(call.a0)) else {
            return self.refuse(hart);
        };
        let Some(file) = self.table.descriptors(slot).get(fd) else {
            return self.refuse(hart);
        };
        for number in 0..NOFILE {
            let new = Fd::new(number as u8);
            if self.table.descriptors(slot).get(new).is_none() {
                self.share(slot, new, file);
                return self.done(hart, number as i64);
            }
        }
        self.refuse(hart)
