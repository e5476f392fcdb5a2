        let slot = self.running_slot();
        match used_descriptor(&self.table, slot, c_int(call.a0)) {
            None => self.done(hart, -1),
            Some(fd) => match self.table.descriptors(slot).get(fd) {
                None => self.done(hart, -1),
                Some(file) => match self.table.descriptors(slot).lowest() {
                    None => self.done(hart, -1),
                    Some(new) => {
                        self.share(slot, new, file);
                        self.done(hart, i64::from(new.number()))
                    }
                },
            },
        }
