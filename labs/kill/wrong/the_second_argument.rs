        let Some(pid) = asked_pid(c_int(call.a1)) else {
            return self.done(hart, -1);
        };
        if !self.table.mark(pid) {
            return self.done(hart, -1);
        }
        self.done(hart, 0)
