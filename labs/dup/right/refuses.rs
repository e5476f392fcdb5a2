        let slot = self.running_slot();
        let number = c_int(call.a0);
        let Some(old) = used_descriptor(&self.table, slot, number) else {
            return self.refuse(hart);
        };
        let Some(file) = self.table.descriptors(slot).get(old) else {
            return self.refuse(hart);
        };
        let Some(new) = self.table.descriptors(slot).lowest() else {
            return self.refuse(hart);
        };
        self.share(slot, new, file);
        self.done(hart, i64::from(new.number()))
