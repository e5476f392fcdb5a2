        let Some(pid) = asked_pid(c_int(call.a0)) else {
            return self.done(hart, -1);
        };
        let Some(slot) = self.table.find(pid) else {
            return self.done(hart, -1);
        };
        if self.table.status(slot).is_some() {
            return self.done(hart, -1);
        }
        self.table.mark(pid);
        self.done(hart, 0)
