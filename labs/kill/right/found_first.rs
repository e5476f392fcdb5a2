        let Some(pid) = asked_pid(c_int(call.a0)) else {
            return self.refuse(hart);
        };
        if self.table.mark(pid) {
            self.done(hart, 0)
        } else {
            self.done(hart, -1)
        }
