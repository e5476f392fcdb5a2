        let slot = self.running_slot();
        let Some(fd) = used_descriptor(&self.table, slot, c_int(call.a0)) else {
            return self.done(hart, -1);
        };
        let Some(file) = self.table.descriptors(slot).get(fd) else {
            return self.done(hart, -1);
        };
        let Some(new) = self.table.descriptors(slot).lowest() else {
            return self.done(hart, -1);
        };
        self.table.descriptors_mut(slot).put(new, file);
        self.done(hart, i64::from(new.number()))
