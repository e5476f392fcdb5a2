        let slot = self.running_slot();
        let mut answer = -1;
        if let Some(fd) = used_descriptor(&self.table, slot, c_int(call.a0)) {
            if let Some(file) = self.table.descriptors(slot).get(fd) {
                if let Some(new) = self.table.descriptors(slot).lowest() {
                    self.share(slot, new, file);
                    answer = i64::from(new.number());
                }
            }
        }
        self.done(hart, answer)
