        let slot = self.running_slot();
        let asked = c_int(call.a0);
        let used = used_descriptor(&self.table, slot, asked);
        let Some(source) = used else {
            return self.done(hart, -1);
        };
        let named = self.table.descriptors(slot).get(source);
        let Some(file) = named else {
            return self.done(hart, -1);
        };
        let free = self.table.descriptors(slot).lowest();
        let Some(copy) = free else {
            return self.done(hart, -1);
        };
        self.share(slot, copy, file);
        let answer = i64::from(copy.number());
        self.done(hart, answer)
