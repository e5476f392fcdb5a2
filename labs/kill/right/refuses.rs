        match asked_pid(c_int(call.a0)) {
            Some(pid) => {
                if !self.table.mark(pid) {
                    return self.done(hart, -1);
                }
                self.done(hart, 0)
            }
            None => self.refuse(hart),
        }
