        let answer = match asked_pid(c_int(call.a0)) {
            Some(pid) if self.table.mark(pid) => 0,
            _ => -1,
        };
        self.done(hart, answer)
