        let slot = self.running_slot();
        if let Some(fd) = used_descriptor(&self.table, slot, c_int(call.a0)) {
            let Some(file) = self.table.descriptors(slot).get(fd) else {
                return self.refuse(hart);
            };
            if let Some(new) = self.table.descriptors(slot).lowest() {
                self.share(slot, new, file);
                return self.done(hart, i64::from(new.number()));
            }
            return self.refuse(hart);
        }
        self.done(hart, -1)
