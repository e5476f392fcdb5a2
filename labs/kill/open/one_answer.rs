        let Some(pid) = asked_pid(c_int(call.a0)) else {
            return self.done(hart, -1);
        };
        let answer = if self.table.mark(pid) { 0 } else { -1 };
        self.done(hart, answer)
