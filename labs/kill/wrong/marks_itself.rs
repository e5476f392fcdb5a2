        let Some(pid) = asked_pid(c_int(call.a0)) else {
            return self.done(hart, -1);
        };
        if self.table.find(pid).is_none() {
            return self.done(hart, -1);
        }
        let slot = self.running_slot();
        let own = self.table.pid(slot);
        self.table.mark(own);
        self.done(hart, 0)
