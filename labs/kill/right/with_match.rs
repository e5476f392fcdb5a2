        match asked_pid(c_int(call.a0)) {
            None => self.done(hart, -1),
            Some(pid) => {
                if self.table.mark(pid) {
                    self.done(hart, 0)
                } else {
                    self.done(hart, -1)
                }
            }
        }
