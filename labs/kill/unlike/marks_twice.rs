        let Some(pid) = asked_pid(c_int(call.a0)) else {
            return self.done(hart, -1);
        };
        let is_there = self.table.mark(pid);
        if is_there && self.table.mark(pid) {
            return self.done(hart, 0);
        }
        self.done(hart, -1)
